"""of_ci.py NAME: makes crates/NAME/out/libNAME.a over the libraries that a whole `rt ci` has just proved, in a clone where nothing was proved before.

`rt ci` checks a static library and makes no archive of it, and what it proved serves no other command of rt's: `rt lib` would prove each library
below once more. So this takes the one step of `rt lib` that is left then: the proof of the crate itself, and the compiler's work. It goes by rt's own
module. Run by tools/prove, which falls back to `rt lib`.
"""
import os
import shutil
import sys

sys.path.insert(0, os.path.dirname(os.path.realpath(shutil.which("rt"))))
import rtlib


def main():
    top, name = os.getcwd(), sys.argv[1]
    crate = rtlib.Crate("%s/crates/%s" % (top, name), top, {})
    os.makedirs(crate.folder + "/out", exist_ok=True)
    words = crate.words([], keeps=False) + ["--toolchain", rtlib.KIT + "/toolchain"]
    sys.exit(crate.call(rtlib.RATTLE, "build", *words, "-o", "out/lib%s.a" % name))


if __name__ == "__main__":
    main()
