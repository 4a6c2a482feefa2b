#!/usr/bin/env python3
"""Says which must-fail edits don't fit the files that they name: each old text stands there exactly once.

usage: python3 tools/edits.py [REPOSITORY]
"""

import glob
import os
import re
import sys


def main(argv):
    root = argv[0] if argv else "."
    n = bad = 0
    for e in sorted(glob.glob(os.path.join(root, "crates/*/must-fail/*.edit"))):
        n += 1
        crate = os.path.dirname(os.path.dirname(e))
        lines = open(e, encoding="utf-8").read().split("\n")
        names = [l[6:].strip() for l in lines if l.startswith("file: ")]
        olds = [l[5:] for l in lines if l.startswith("old: ")]
        news = [l[5:] for l in lines if l.startswith("new: ")]
        try:
            text = open(os.path.join(crate, names[0]), encoding="utf-8").read()
        except OSError as x:
            print(f"{e}: {x}")
            bad += 1
            continue
        for old, new in zip(olds, news):
            if text.count(old) != 1:
                print(f"{e}: {names[0]}: {text.count(old)} times: {old}")
                bad += 1
                break
            text = text.replace(old, new)
    print(f"{n} edits, {bad} bad")
    return bad > 0


if __name__ == "__main__":
    raise SystemExit(main(sys.argv[1:]))
