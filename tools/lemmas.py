#!/usr/bin/env python3
"""lemmas.py - whether specs/ holds definitions alone: names each statement with a proof that stands there.

A definition begins with `abbrev` or `unfoldable`, or is part of a `record`, a `data` or a `mutual`. What has a signature without these is a
statement, and its clauses are its proof: it belongs into proofs/."""
import glob
import os
import re
import sys

import usage

ROOT = os.path.join(os.path.dirname(os.path.abspath(__file__)), '..', 'crates')


def around(lines, at):
    """the line that a line stands under, by its indentation"""
    width = len(lines[at]) - len(lines[at].lstrip())
    for line in reversed(lines[:at]):
        if line.strip() and len(line) - len(line.lstrip()) < width:
            return line
    return ''


def statements(path):
    """the names of the statements of a file"""
    lines = open(path, encoding='utf-8').read().split('\n')
    for at, line in enumerate(lines):
        m = re.match(r'\s*(?:pub )?([^\s:(){]+) : (.*)$', line)
        if not m or line.lstrip().startswith(('--', 'use ', 'abbrev', 'unfoldable')):
            continue
        if re.search(r'\b(record|data|mutual)\b', around(lines, at)):
            continue
        if not re.search(r'Type( \d+)?$', m.group(2)):
            yield at + 1, m.group(1)


def main():
    usage.answer_help(__doc__)
    bad = []
    for path in sorted(glob.glob(os.path.join(ROOT, '*/specs/**/*.antt'), recursive=True)):
        name = os.path.relpath(path, ROOT)
        bad += [f'crates/{name}:{line}: {word} is a statement with a proof: move it to proofs/' for line, word in statements(path)]
    print('\n'.join(bad) if bad else 'specs/ holds definitions alone')
    return 1 if bad else 0


if __name__ == '__main__':
    sys.exit(main())
