"""How much of a night is written out on its page, so that a very long one opens in seconds too. How much more there is, the page tells."""
MOST_ROWS = 20000     # records that are written out
MOST_PONDS = 1000     # ponds that are told of
MOST_DRAWN = 240      # ponds on the ring, ..
MOST_LABELS = 96      # .. and names beside it: so many fit
MOST_LOOKUPS = 500
MOST_DEFICITS = 100   # ponds that lose water, named before all readings
MOST_WAITING = 100    # messages that waited at the end; a gauge has room for 16
OPEN_LOOKUPS = 20     # of these so many are not folded
FEW_EVENTS = 30       # events of a pond's story, at its begin and at its end
FEW_CHANGES = 100     # of the neighbour lists, and ponds that were dropped or removed, likewise
FEW_REFUSED = 100     # records that were refused, likewise
FEW_OTHERS = 10       # answers that are others than that night's, likewise
FOLDS = 24            # stretches of time at most
FOLD_ROWS = 600       # records in a fold
