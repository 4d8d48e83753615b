#!/usr/bin/env python3
"""architecture.py: compares the lists of files in docs/ARCHITECTURE.md with the tree.

Each crate of crates.txt has to have its rows there, over libraries that crates.txt names for it; each source file of a crate (without
lib.rt) and each script of tools/ has to be named once; and no file that is named anywhere on the page may be missing from the tree. What
is wrong is printed, with the row to add where a file or a crate is missing, and the exit status is then 1."""
import os
import re
import sys

from pages import TOP, compare, files_in, text_of

PAGE = "docs/ARCHITECTURE.md"
CRATES, BESIDE = "## The crates", "## Beside the crates"


def section(text, title):
    """The lines of a section of the page."""
    return text.split(f"\n{title}\n", 1)[1].split("\n## ", 1)[0].splitlines()


def cells(line):
    return [it.strip() for it in line.strip().strip("|").split("|")]


def names_in(cell):
    return re.findall(r"`([^`]+)`", cell)


def rows_of(lines):
    """The cells of each row of a section's table."""
    return [cells(it) for it in lines if it.startswith("| ")][1:]


def listed(text):
    """Each crate of the page, with the libraries and the files that its rows name."""
    found = {}
    crate = None
    for name, below, files, _ in rows_of(section(text, CRATES)):
        crate = names_in(name)[0] if name else crate
        libraries, named = found.setdefault(crate, ([], []))
        libraries.extend(names_in(below))
        named.extend(names_in(files))
    return found


def crates():
    """Each crate of crates.txt, with the libraries that it stands on."""
    found = {}
    for line in text_of("crates.txt").splitlines():
        if line and not line.startswith("#"):
            name, below = line.split(":")
            found[name.split()[0]] = below.split()
    return found


def sources(crate):
    """The source files of a crate without lib.rt, as the page names them."""
    stems = [os.path.relpath(it, f"crates/{crate}/src")[:-3] for it in files_in(f"crates/{crate}/src/**/*.rt")]
    return [it for it in stems if it != "lib"]


def subject(crate, stem):
    """What a source file says of itself in its first line."""
    first = text_of(f"crates/{crate}/src/{stem}.rt").splitlines()[0]
    return first[4:].strip() if first.startswith("//! ") else "SUBJECT"


def code(names):
    return ", ".join(f"`{it}`" for it in names)


def is_there(crate, name):
    file = f"{name}.antt" if name.startswith("specs/") else f"src/{name}.rt"
    return os.path.isfile(f"{TOP}/crates/{crate}/{file}")


def twice(names):
    return sorted({it for it in names if names.count(it) > 1})


def faults_of_crate(crate, named):
    for stem in sources(crate):
        if stem not in named:
            yield f"crates/{crate}/src/{stem}.rt is in no row; to add: | | | `{stem}` | {subject(crate, stem)} |"
    for name in named:
        if not is_there(crate, name):
            yield f"{crate} has no file {name}"
    for name in twice(named):
        yield f"{crate} has {name} twice"


def faults_of_crates(text):
    wanted, found = crates(), listed(text)
    for crate, below in wanted.items():
        if crate not in found:
            yield f"{crate} is in no row; to add: | `{crate}` | {code(below) or 'the kit'} | {code(sources(crate))} | SUBJECT |"
            continue
        for name in found[crate][0]:
            if name not in below:
                yield f"{crate} doesn't stand on {name}"
        yield from faults_of_crate(crate, found[crate][1])
    for crate in found:
        if crate not in wanted:
            yield f"crates.txt has no crate {crate}"


def scripts():
    return files_in("tools/*.py") + files_in("tools/*.sh")


def faults_beside(text):
    """Faults of the list of the files that are beside the crates."""
    named = [name for files, _ in rows_of(section(text, BESIDE)) for name in names_in(files)]
    for name in scripts():
        if name not in named:
            yield f"{name} is in no row; to add: | `{name}` | SUBJECT |"
    for name in named:
        if not os.path.exists(f"{TOP}/{name}"):
            yield f"there is no file {name}"
    for name in twice(named):
        yield f"{name} is there twice"


def faults_of_paths(text):
    """Files that are named by their paths, a crate's also without `crates/`, and that are not there."""
    for name in names_in(text):
        if re.fullmatch(r"[\w.]+(?:/[\w.+]+)+\.\w+", name) and not any(os.path.exists(f"{TOP}/{top}{name}") for top in ("", "crates/")):
            yield f"there is no file {name}"


def faults_of_names(text):
    """Functions and definitions that are named behind a file of a crate, and that it doesn't have."""
    for file, name in re.findall(r"`(\w+/(?:src|specs)/(?:\w+/)*\w+\.\w+)`: `(\w+)`", text):
        if os.path.isfile(f"{TOP}/crates/{file}") and not re.search(rf"\b(?:fn|pub|record) {name}\b", text_of(f"crates/{file}")):
            yield f"{file} has no {name}"


def faults(text):
    yield from faults_of_crates(text)
    yield from faults_beside(text)
    yield from faults_of_names(text)
    yield from faults_of_paths("\n".join(it for it in text.splitlines() if not it.startswith("    ")))


if __name__ == "__main__":
    sys.exit(compare(__doc__, PAGE, lambda: faults(text_of(PAGE))))
