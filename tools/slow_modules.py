#!/usr/bin/env python3
"""slow_modules.py CRATE [--only PATH]: checks a crate from nothing, with one process, and lists the modules that took longest.

Run it at the top of a checkout in which the libraries are built: by the gate (`.ci/run`, in a fresh clone), or by `rt all check`.
Each module of the check is saved as it ends, so the time between two of them is what the second took, with what it loads. `F.Lts`
is the borrow checker's part of the function F: it is long where much is dropped at several exits. `linked-compared` is the
loading of the libraries."""
import os
import re
import sys
import tempfile
import time

sys.dont_write_bytecode = True
import kit
from usage import answer_help

SHOWN = 20


def saved(folder):
    """When each file of a folder was written, and its path there."""
    paths = [f"{at}/{name}" for at, _, names in os.walk(folder) for name in names]
    return sorted((os.stat(it).st_mtime, os.path.relpath(it, folder)) for it in paths)


def main(words):
    answer_help(__doc__)
    if not words:
        print(__doc__, file=sys.stderr)
        return 2
    rt = kit.load()
    rt.rtlib.guarded()
    name, flags = words[0] if words else "", words[1:]
    crate = next((it for it in rt.rtlib.crates_below(os.getcwd()) if it.name == name), None)
    if not crate:
        print(f"no crate has the name {name!r}")
        return 2
    with tempfile.TemporaryDirectory(prefix=f"rt-edits-{os.getpid()}-") as folder:
        begun = last = time.time()
        ran = rt.checked(crate, {}, ["--jobs", "1", *flags], folder)
        print(f"{time.time() - begun:6.1f} seconds in all: {ran.stdout.rstrip().splitlines()[-1][:100]}")
        steps = []
        for at, path in saved(folder):
            steps.append((at - last, re.sub(r"^antt-checked[^/]*/", "", path)))
            last = at
    for seconds, path in sorted(steps, reverse=True)[:SHOWN]:
        print(f"{seconds:6.1f} {path.removesuffix('.oantt')}")
    return ran.returncode


if __name__ == "__main__":
    sys.exit(main(sys.argv[1:]))
