#!/usr/bin/env python3
"""refusals.py: compares the numbers in docs/REFUSALS.md with those of the sources.

Each refusal and each flaw of a report has to have one row there, with its number and its name. A refusal's row also says by which
definitions, functions or constants it is given, in three files at most: each file has to exist, and what is named has to stand there
and to name the refusal. The table of help in crates/acpi_explain has to have just the refusals, by number and name. What is missing,
too much or wrong is printed, and the exit status is then 1."""
import os
import re
import sys

from pages import TOP, block, compare, text_of

PAGE = "docs/REFUSALS.md"
HELP = "crates/acpi_explain/src/help.rt"
MOST_FILES = 3


def in_sources():
    """The numbers and names of refusals, and those of flaws."""
    faults = re.findall(r"^\w+_fault_number \(?(\w+)(?: x\))? = (\d+)$", text_of("crates/ar_space/specs/Numbers.antt"), re.MULTILINE)
    memory = re.findall(r"^number_of refusal\.(\w+) = (\d+)$", text_of("crates/ar_space/specs/Numbers.antt"), re.MULTILINE)
    flaws = re.findall(r"^number_of (?:\w+\.)?(\w+) = (\d+)$", text_of("crates/route_check/specs/Flaws.antt"), re.MULTILINE)
    return [(int(number), name) for name, number in faults + memory], [(int(number), name) for name, number in flaws]


def on_page():
    """The number, the name and the last cell of each row."""
    rows = re.findall(r"^\| (\d+) \| (\w+) \|.*?([^|]*) \|$", text_of(PAGE), re.MULTILINE)
    return [(int(number), name, last.strip()) for number, name, last in rows]


def faults_of_row(number, name, cell):
    """What is wrong with what a row names."""
    parts = [re.fullmatch(r"`([^`]+)`: ((?:`\w+`, )*`\w+`)", it) for it in cell.split("; ")]
    if None in parts:
        yield f"the row {number} {name} doesn't say what gives it, as in `crate/specs/File.antt`: `definition`"
        return
    if len(parts) > MOST_FILES:
        yield f"the row {number} {name} has more than {MOST_FILES} files"
    for part in parts:
        file = f"crates/{part[1]}"
        if not os.path.isfile(f"{TOP}/{file}"):
            yield f"the row {number} {name} has a file that isn't there: {file}"
            continue
        for giver in re.findall(r"\w+", part[2]):
            said = block(text_of(file), giver)
            if said is None:
                yield f"the row {number} {name}: {file} has no {giver}"
            elif not re.search(rf"\b{name}\b", said):
                yield f"the row {number} {name}: {giver} in {file} doesn't name {name}"


def helped():
    """The number, the name and the help of each refusal that has a line of help."""
    rows = re.findall(r'number: (\d+),\s+name: "(\w+)",\s+help: "([^"]*)"', text_of(HELP))
    return [(int(number), name, text) for number, name, text in rows]


def faults_of_help(refusals, rows):
    """What is wrong with the lines of help: each refusal has to have one, in the order of the numbers."""
    if [row[:2] for row in rows] != sorted(refusals):
        wrong = set(sorted(refusals)) ^ {row[:2] for row in rows}
        yield f"{HELP} hasn't just the refusals in the order of their numbers: {sorted(wrong)}"
    for number, name, text in rows:
        if not text or len(text) > 160:
            yield f"{HELP}: the help of {number} {name} is empty or too long"


def faults(refusals, flaws, rows):
    found = [row[:2] for row in rows]
    for number, name in sorted(refusals + flaws):
        if (number, name) not in found:
            yield f"no row for {number} {name}"
    for number, name, cell in rows:
        if (number, name) not in refusals + flaws or found.count((number, name)) > 1:
            yield f"a row too much: {number} {name}"
        elif (number, name) in refusals:
            yield from faults_of_row(number, name, cell)


if __name__ == "__main__":
    sys.exit(compare(__doc__, PAGE, lambda: [*faults(*in_sources(), on_page()), *faults_of_help(in_sources()[0], helped())]))
