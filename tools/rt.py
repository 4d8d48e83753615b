#!/usr/bin/env python3
"""rt.py WORDS

The kit's command `rt` with the same words and the same answers, for kits that go along each path from a crate to those below it before they
begin (`rattle-kit-13b` is one): in the crates above aml_interp that takes minutes, and at the top far longer. Under a kit that works in
another way it is plain `rt`. `rt.py help` prints the words of the kit's command."""
import sys

import kit
import usage


def main():
    # (a command of the kit's answers its own wish for help, as in `rt.py plant --help`)
    if len(sys.argv) == 2:
        usage.answer_help(__doc__)
    return kit.load().main(sys.argv[1:])


if __name__ == "__main__":
    sys.exit(main())
