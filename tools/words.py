#!/usr/bin/env python3
"""words.py: checks docs/WORDS.md, the table of the words that code and pages use.

The words stand in the order of the alphabet, none twice; a word that has several meanings says in brackets of what each is; and each
row's file has its word. What is wrong is printed, and the exit status is then 1."""
import os
import re
import sys

from pages import TOP, compare, text_of

PAGE = "docs/WORDS.md"


def table_rows():
    """The word, the meaning and the file of each row."""
    return re.findall(r"^\| ([a-z][^|]*) \| ([^|]*) \| `([^`|]*)` \|$", text_of(PAGE), re.MULTILINE)


def faults_of_row(word, meaning, file):
    if not meaning.endswith("."):
        yield f"the meaning of {word} doesn't end in a point"
    if not os.path.isfile(f"{TOP}/crates/{file}"):
        yield f"{word}: there is no file crates/{file}"
        return
    bare = word.split(" (")[0]
    said = bare.replace(" ", "[ _]")
    if not re.search(rf"(?<![A-Za-z])(?i:{said})|{said.capitalize()}", text_of(f"crates/{file}")):
        yield f"crates/{file} doesn't have the word {bare}"


def faults(rows):
    words = [word for word, _, _ in rows]
    if not words:
        yield "there is no word"
    for before, word in zip(words, words[1:]):
        if word == before:
            yield f"{word} is there twice"
        elif word < before:
            yield f"{word} doesn't stand in its order: it is behind {before}"
    bare = [word.split(" (")[0] for word in words]
    for word in words:
        if " (" not in word and bare.count(word) > 1:
            yield f"{word} has another meaning too: say in brackets of what each is"
    for row in rows:
        yield from faults_of_row(*row)


if __name__ == "__main__":
    sys.exit(compare(__doc__, PAGE, lambda: faults(table_rows())))
