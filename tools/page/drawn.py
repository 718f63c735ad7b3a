"""The two drawings of a night's page (__init__.py), as SVG in the page: the ring of keys, and the line of time. What a mark is, its shape tells and a word
beside it; its colour only says it again.
"""
import html
import math
import unicodedata

from . import limits

MIDDLE, RADIUS, LABEL = 360, 222, 244    # of the ring, and where its labels begin
RING = 1 << 256                          # keys go round
GAP = 2 * math.pi / 104                  # between two labels
SHORT, LARGE = 13, 19                    # characters of a name on the ring, and how large its letters are at most (page.css)
BINS = 120                               # columns of the line of time

MARKS = {  # the mark of each state, drawn round 0 0, and the words of the legend
    "own": ('<path d="M0-10 10 0 0 10-10 0Z"/><path class="core" d="M0-4 4 0 0 4-4 0Z"/>', "our own"),
    "below": ('<path d="M-7.5-5.5H7.5L0 7.5Z"/>', "neighbour below"),
    "above": ('<path d="M-7.5 5.5H7.5L0-7.5Z"/>', "neighbour above"),
    "held": ('<circle r="5"/>', "held"),
    "left": ('<path d="M-5.5-5.5 5.5 5.5M5.5-5.5-5.5 5.5"/>', "dropped or removed"),
    "unkept": ('<path d="M-4.5-4.5H4.5V4.5H-4.5Z"/>', "answered, not kept"),
    "silent": ('<circle r="5"/><path d="M-3.5 3.5 3.5-3.5"/>', "asked, no answer taken"),
    "heard": ('<circle r="4.5"/>', "heard of, never asked"),
}


def escaped(text):
    return html.escape(str(text).encode(errors="replace").decode(), quote=True)


def mark(state):
    """A mark by itself, beside words that say what it is."""
    return '<svg class="mark" viewBox="-12 -12 24 24" aria-hidden="true"><g class="m %s">%s</g></svg>' % (state, MARKS[state][0])


# --- The ring ----------------------------------------------------------------------------------------------------------------

def turn(place):
    """The angle of a key: 0 stands at the top, and keys grow as a clock goes."""
    return 2 * math.pi * (place / RING)


def at(angle, radius):
    return MIDDLE + radius * math.sin(angle), MIDDLE - radius * math.cos(angle)


def spread(angles):
    """The angles, which grow, moved apart until labels fit there, with least squares of what they move. The circle is cut where most is free."""
    if len(angles) < 2:
        return list(angles)
    free = [(angles[(i + 1) % len(angles)] - angle) % (2 * math.pi) for i, angle in enumerate(angles)]
    first = (free.index(max(free)) + 1) % len(angles)
    unrolled = angles[first:] + [angle + 2 * math.pi for angle in angles[:first]]
    blocks = []  # of labels side by side: the sum of where they would begin, and how many they are
    for i, angle in enumerate(unrolled):
        blocks.append([angle - i * GAP, 1])
        while len(blocks) > 1 and blocks[-2][0] / blocks[-2][1] >= blocks[-1][0] / blocks[-1][1]:
            total, n = blocks.pop()
            blocks[-1] = [blocks[-1][0] + total, blocks[-1][1] + n]
    begins = [total / n for total, n in blocks for _ in range(n)]
    moved = [begin + i * GAP for i, begin in enumerate(begins)]
    if moved[-1] - moved[0] > 2 * math.pi - GAP:
        step = 2 * math.pi / len(angles)
        begin = sum(angle - i * step for i, angle in enumerate(unrolled)) / len(angles)
        moved = [begin + i * step for i in range(len(angles))]
    return moved[-first:] + moved[:-first] if first else moved


def short(name):
    return name if len(name) <= SHORT else name[:SHORT - 1] + "…"


def wide(name):
    """How wide a name is at most, in the size of its letters, whichever font there is."""
    return sum(1.4 if unicodedata.east_asian_width(c) in "WF" else 1.1 if c in "mwMW@%…—" else .85 if c.isupper() else .7 for c in name)


def arc(night, keys, side):
    """From our own place to the farthest neighbour of a side, inside the ring."""
    if not keys:
        return ""
    begin, end = turn(int(night.own, 16)), turn(int(keys[-1], 16))
    wide = (end - begin if side == "above" else begin - end) % (2 * math.pi)
    (x, y), (u, v) = at(begin, RADIUS - 22), at(end, RADIUS - 22)
    return '<path class="arc %s" d="M%.1f %.1fA%d %d 0 %d %d %.1f %.1f"/>' % (side, x, y, RADIUS - 22, RADIUS - 22, wide > math.pi, side == "above", u, v)


def node(pond, state, words, link):
    x, y = at(turn(pond.place), RADIUS)
    drawn = '<g class="m %s" transform="translate(%.1f %.1f)"><title>%s</title>%s</g>' % (state, x, y, escaped(words), MARKS[state][0])
    return '<a href="#%s" tabindex="-1">%s</a>' % (link, drawn)


def crowded(ponds):
    """The keys of those whose marks cover one another, of ponds in the order of their keys."""
    near = [(a.key, b.key) for a, b in zip(ponds, ponds[1:] + ponds[:1])
            if a is not b and (turn(b.place) - turn(a.place)) % (2 * math.pi) < GAP / 2]
    return {key for pair in near for key in pair}


def label(pond, angle, state, name, link, aside):
    """The name of a pond beside the ring, turned so that it can be read, with a thread to its place; `aside` with its mark, which can't be seen there."""
    (x, y), (u, v), (p, q) = at(turn(pond.place), RADIUS + 9), at(angle, LABEL - 5), at(angle, LABEL + (14 if aside else 0))
    degrees = math.degrees(angle) % 360
    right = degrees < 180
    thread = '<path class="thread" d="M%.1f %.1fL%.1f %.1f"/>' % (x, y, u, v)
    beside = '<g class="m %s" transform="translate(%.1f %.1f)scale(.8)">%s</g>' % (state, *at(angle, LABEL + 4), MARKS[state][0]) if aside else ""
    return '<a href="#%s" class="l %s">%s%s<text transform="translate(%.1f %.1f)rotate(%.1f)" text-anchor="%s" dy=".35em">%s</text></a>' % (
        link, state, thread, beside, p, q, degrees - 90 if right else degrees + 90, "start" if right else "end", escaped(short(name)))


def labelled_of(drawn, states):
    """The ponds with a label: all, or where these are too many, those that were held."""
    if len(drawn) > limits.MOST_LABELS:
        drawn = [pond for pond in drawn if states[pond.key] in ("own", "below", "above", "held", "left")][:limits.MOST_LABELS]
    return sorted(drawn, key=lambda pond: pond.place)


def ring(night, drawn, name_of, words_of, link_of):
    """The ring with these ponds, of which the first matter most."""
    states = {pond.key: night.state(pond)[0] for pond in drawn}
    labelled = labelled_of(drawn, states)
    angles = spread([turn(pond.place) for pond in labelled])
    aside = crowded(labelled)
    labels = "".join(label(pond, angle, states[pond.key], name_of(pond.key), link_of(pond.key), pond.key in aside)
                     for pond, angle in zip(labelled, angles))
    nodes = "".join(node(pond, states[pond.key], "%s: %s" % (name_of(pond.key), words_of(pond)), link_of(pond.key)) for pond in reversed(drawn))
    middle = '<text class="big" x="360" y="345" text-anchor="middle">%s</text><text x="360" y="376" text-anchor="middle">holds %d</text>' \
             '<text class="way" x="360" y="412" text-anchor="middle">keys grow as a clock goes ↷</text>' % (escaped(short(name_of(night.own))), night.held)
    reach = round(LABEL + 14 + LARGE * max(wide(short(name_of(pond.key))) for pond in labelled))
    return '<svg class="ring" viewBox="%d %d %d %d" role="group" aria-label="The ring of keys with %d ponds at their places">' \
           '<circle class="line" cx="360" cy="360" r="%d"/>%s%s%s%s%s</svg>' % (
               MIDDLE - reach, MIDDLE - reach, 2 * reach, 2 * reach, len(drawn), RADIUS, middle, arc(night, night.below, "below"),
               arc(night, night.above, "above"), labels, nodes)


def legend(states):
    """A word for each mark that is there."""
    return '<ul class="legend">%s</ul>' % "".join("<li>%s%s</li>" % (mark(state), words) for state, (_, words) in MARKS.items() if state in states)


# --- The line of time --------------------------------------------------------------------------------------------------------

ROWS = (("received", "Received"), ("sent", "Sent by the gauge"), ("again", "Listed to be sent again"), ("refused", "Refused"), ("gaveup", "Given up"),
        ("joined", "Ponds that joined"), ("left", "Ponds dropped or removed"), ("named", "LOOKUPs answered"))
WIDTH, HIGH = 720, 26


def binned(night, word, wide):
    bins = {}
    for second, counts in night.by_second.items():
        if counts[word]:
            bins[second // wide] = bins.get(second // wide, 0) + counts[word]
    return bins


def span(first, wide):
    return "second %d" % first if wide == 1 else "seconds %d to %d" % (first, first + wide - 1)


def bar_row(bins, wide, columns, word, words):
    """The bars of one word, under its name."""
    most, column = max(bins.values()), WIDTH / columns
    bars = "".join('<rect x="%.1f" y="%.1f" width="%.1f" height="%.1f"><title>%s: %d</title></rect>' % (
        i * column, HIGH - max(1.5, HIGH * n / most), max(1.5, column - 1), max(1.5, HIGH * n / most), span(i * wide, wide), n)
        for i, n in sorted(bins.items()))
    return '<div class="b %s"><p><span>%s <b>%s</b></span> <span class="most">at most %d in %s</span></p>' \
           '<svg viewBox="0 0 720 %d" preserveAspectRatio="none" role="img" aria-label="%s, by time">%s</svg></div>' % (
               word, words, "{:,}".format(sum(bins.values())), most, "a second" if wide == 1 else "%d seconds" % wide, HIGH, words, bars)


def axis(night, hour_of):
    """Five places of time under the bars, or begin and end of a short one."""
    of = 4 if night.seconds >= 8 else 1
    return '<p class="axis">%s</p>' % "".join("<span>%s</span>" % hour_of(round(i * night.seconds / of)) for i in range(of + 1))


def time_line(night, hour_of):
    """Bars of what happened in each stretch of seconds; empty where no second has passed, or nothing but ticks happened."""
    if night.seconds == 0:
        return ""
    wide = night.seconds // BINS + 1
    columns = night.seconds // wide + 1
    rows = [(word, words, binned(night, word, wide)) for word, words in ROWS]
    drawn = "".join(bar_row(bins, wide, columns, word, words) for word, words, bins in rows if bins)
    return '<div class="time">%s%s</div>' % (drawn, axis(night, hour_of)) if drawn else ""
