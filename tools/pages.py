"""What the scripts share that write pages of `docs/`, or compare them with the sources."""
import glob
import os
import re
import sys

import usage

TOP = os.path.dirname(os.path.dirname(os.path.abspath(__file__)))


class Wrong(Exception):
    """A row that can't stand, or sources that don't agree with it."""


def text_of(file):
    """The text of a file of the repository."""
    with open(f"{TOP}/{file}", encoding="utf-8") as it:
        return it.read()


def files_in(pattern):
    """The files of the repository whose names have this form."""
    return sorted(os.path.relpath(it, TOP) for it in glob.glob(f"{TOP}/{pattern}", recursive=True))


def block(text, name):
    """The lines of a definition, a function or a constant, without remarks; None where the text has none of the name."""
    lines = [it for it in text.splitlines() if not it.lstrip().startswith(("--", "//"))]
    begins = re.compile(rf"^\s*(?:\w+ )*(?:pub(?:\(crate\))? )?(?:record |const |fn )?{name}\b *[:(<]|^pub record {name}\b")
    found = []
    for place, line in enumerate(lines):
        if begins.search(line) and not line.startswith("use "):
            rest = lines[place:]
            found.extend(rest[:next((it for it, said in enumerate(rest) if not said.strip()), len(rest))])
    return "\n".join(found) or None


def definition(folder, file, name):
    """The lines of a definition that has to be in a file of a folder `specs`."""
    found = block(text_of(f"{folder}/{file}.antt"), name)
    if not found:
        raise Wrong(f"{folder}/{file}.antt has no {name}")
    return found


def four_cells(line, where):
    """The four columns of a row."""
    cells = [it.strip() for it in line.split("|")]
    if len(cells) != 4:
        raise Wrong(f"{where}: four columns are wanted")
    return cells


def make(script, doc, words, made):
    """Writes the files that `made` answers, each with its text; with `--check`, tells which of them differ. The exit status."""
    usage.answer_help(doc)
    if words not in ([], ["--check"]):
        print(doc, file=sys.stderr)
        return 2
    try:
        texts = made()
    except Wrong as wrong:
        print(f"{script}: {wrong}", file=sys.stderr)
        return 1
    stale = [file for file, wanted in texts.items() if not os.path.exists(f"{TOP}/{file}") or text_of(file) != wanted]
    for file in stale:
        if words:
            print(f"{script}: {file} is stale: run tools/{script}", file=sys.stderr)
            continue
        with open(f"{TOP}/{file}", "w", encoding="utf-8") as it:
            it.write(texts[file])
    return 1 if words and stale else 0


def compare(doc, page, faults):
    """Tells each fault of a page once, which `faults` finds. The exit status."""
    usage.answer_help(doc)
    if sys.argv[1:]:
        print(doc, file=sys.stderr)
        return 2
    wrong = list(dict.fromkeys(faults()))
    for it in wrong:
        print(f"{page}: {it}")
    return 1 if wrong else 0


if __name__ == "__main__":
    usage.answer_help(__doc__)
