#!/usr/bin/env python3
"""Lays the files of unfinished/ over the crates of a clone, where they can be proved and gone on with.

usage: python3 tools/lay_unfinished.py FOLDER     FOLDER is a clone of this repository

unfinished/crates/PATH.txt becomes crates/PATH, the files that unfinished/taken-away.txt names go, and unfinished/crates-list.txt becomes
crates.txt. Nothing of the repository itself is changed.
"""

import os
import shutil
import sys

HERE = os.path.dirname(os.path.dirname(os.path.realpath(__file__)))


def main(argv):
    if len(argv) != 1 or not os.path.isdir(os.path.join(argv[0], "crates")) or os.path.realpath(argv[0]) == HERE:
        print(__doc__)
        return 2
    to = argv[0]
    came = os.path.join(HERE, "unfinished")
    for folder, _, names in os.walk(os.path.join(came, "crates")):
        for name in names:
            path = os.path.join(folder, name)
            put = os.path.join(to, os.path.relpath(path, came))[: -len(".txt")]
            os.makedirs(os.path.dirname(put), exist_ok=True)
            shutil.copyfile(path, put)
    with open(os.path.join(came, "taken-away.txt"), encoding="utf-8") as f:
        for line in f.read().split():
            os.remove(os.path.join(to, line))
            try:
                os.removedirs(os.path.dirname(os.path.join(to, line)))
            except OSError:
                pass
    shutil.copyfile(os.path.join(came, "crates-list.txt"), os.path.join(to, "crates.txt"))
    return 0


if __name__ == "__main__":
    raise SystemExit(main(sys.argv[1:]))
