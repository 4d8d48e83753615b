#!/usr/bin/env python3
"""format.py - whether each crate is written as `rt fmt` writes it: names each crate that is not.

The gate refuses such a crate, late. `rt fmt` in the crate's folder formats it."""
import os
import subprocess
import sys

import kit
import usage

ROOT = os.path.join(os.path.dirname(os.path.abspath(__file__)), '..')


def main():
    usage.answer_help(__doc__)
    rt = kit.load()
    bad = []
    for crate in rt.rtlib.crates_below(os.path.realpath(ROOT)):
        if rt.rtlib.fmt(crate.folder, '--check', sys.stdout, diff=subprocess.DEVNULL):
            bad.append(crate.name)
    for name in bad:
        print(f'format.py: crates/{name}: run rt fmt there')
    print(f'format.py: {len(bad)} crates to be formatted')
    return 1 if bad else 0


if __name__ == '__main__':
    sys.exit(main())
