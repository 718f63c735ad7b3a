"""Files replaced by others that are whole (bin/convert, bin/nights): each new one is written beside its place first, and all take their names when the
last of them stands on its disk. What can't be written is an OSError, behind which no file is left over beside a place."""
import os
import shutil


def put_beside(path, ending, pieces):
    """A file beside the place, whole on its disk, with the permissions of the one that stands there."""
    with open(path + ending, "wb") as file:
        for piece in pieces:
            file.write(piece)
        file.flush()
        os.fsync(file.fileno())
    if os.path.exists(path):
        shutil.copymode(path, path + ending)


def replace(contents, ending):
    """Of each path and its content, in pieces: all files stand before the first takes its name."""
    made = []
    try:
        for path, pieces in contents:
            made.append((path + ending, path))
            put_beside(path, ending, pieces)
        for beside, path in made:
            os.replace(beside, path)
    finally:
        for beside, _ in made:
            if os.path.exists(beside):
                os.unlink(beside)
