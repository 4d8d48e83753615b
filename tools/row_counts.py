#!/usr/bin/env python3
"""row_counts.py - whether the stdout of each program of rows says as many rows as its data has.

Compares `N rows passed, M failed` in crates/NAME/stdout with the lines `row` of crates/NAME/data. The gate would see a difference only when
it runs the program, after all proofs. Each difference is printed, and the exit status is then 1."""
import os
import re
import sys

import usage
from pages import files_in, text_of

ROWS = re.compile(r"^row ", re.MULTILINE)
PROMISE = re.compile(r"^(\d+) rows passed, (\d+) failed$", re.MULTILINE)


def main():
    usage.answer_help(__doc__)
    programs, status = 0, 0
    for file in files_in("crates/*/stdout"):
        promise, crate = PROMISE.search(text_of(file)), os.path.dirname(file)
        if not promise:
            continue
        programs += 1
        found = sum(len(ROWS.findall(text_of(it))) for it in files_in(f"{crate}/data/*"))
        promised = int(promise[1]) + int(promise[2])
        if found != promised:
            print(f"row_counts.py: {crate}: its data has {found} rows, and its stdout has {promised}")
            status = 1
    print(f"row_counts.py: {programs} programs of rows")
    return status


if __name__ == "__main__":
    sys.exit(main())
