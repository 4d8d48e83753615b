#!/usr/bin/env python3
"""asl_rows.py [FILE..]

Compiles with iasl (Debian's acpica-tools) the ASL that stands beside AML bytes in rows, and compares its bytes with those of the row.
Each difference is printed, and the exit status is then 1. FILE is the name of one of the files, such as operators.rows; without names
all are compared. Where the ASL of a row stands:

- crates/test_names/data and crates/test_evaluation/data: of a line `table`, `load`, `method` or `body` it is the remark right above it,
  where that ends in `)` or `}`; a line `body` without a remark has it behind `: ` in the name of its row, where that ends so.
- crates/test_program/data/wide_profile.rows: in the remarks `revision N: TERMS` and `M000: BODY` above the row, or in those from
  `DefinitionBlock` on. Its bytes are those of the DSDT.

Each operator that is evaluated has to have a row of evaluation with its ASL (ACPI 6.5, 20.2.5.4). Where iasl isn't installed, that
alone is looked at, and the script says so."""
import concurrent.futures
import os
import re
import shutil
import subprocess
import sys
import tempfile

import opcode_table
import usage
from pages import files_in, text_of

REMARKED = "crates/test_names/data/*.rows", "crates/test_evaluation/data/*.rows"
WIDE = "crates/test_program/data/wide_profile.rows"
# The names of operators in ASL that are others than in the grammar of AML; the number of elements of a VarPackage is no constant.
ASL_NAMES = {"Concat": "Concatenate", "ConcatRes": "ConcatenateResTemplate", "VarPackage": r"Package\((?![\d)])"}
SECTION = "20.2.5.4"
KINDS = "crates/aml_grammar/src/kinds.rt"
AML_LINE = re.compile(r"(table|load|method|body)(?: in \S+ steps)? (?!in |aml)(.*)")
WHOLE = "DefinitionBlock ("
WIDE_REMARK = re.compile(r"revision \d:(.*?)^M000(?:, (\d) arguments?)?: (.*)", re.DOTALL | re.MULTILINE)
# -f goes on behind errors, such as names that aren't declared; -oa, -of, -oi and -on leave out all that makes the bytes others than the
# text has (folded constants, One and Zero for numbers, shorter names); -ve and -vs print less.
OPTIONS = ["-f", "-oa", "-of", "-oi", "-on", "-ve", "-vs"]
HEADER_BYTES = 36


class Aml:
    """AML bytes of a row, and the ASL beside them."""

    def __init__(self, asl, wanted):
        self.asl, self.wanted = asl, wanted


class Row:
    """A row, with those of its AML bytes that have their ASL."""

    def __init__(self, file, name):
        self.file, self.name, self.parts = file, name, []

    def source(self):
        """A table of all ASL of the row, in its order."""
        terms = "\n".join(it.asl for it in self.parts)
        return f"{terms}\n" if terms.startswith(WHOLE) else f'DefinitionBlock ("", "DSDT", 2, "ROWS", "ROWS", 1) {{\n{terms}\n}}\n'

    def wanted(self):
        return b"".join(it.wanted for it in self.parts)


# ---- the rows


def bytes_of(text):
    """Bytes as rows write them: pairs of hexadecimal digits, and text between quotation marks."""
    found = b""
    for place, part in enumerate(text.split('"')):
        found += part.encode("ascii") if place % 2 else bytes.fromhex(part)
    return found


def package(content):
    """The content behind its package length (ACPI 6.5, 20.2.4)."""
    length = len(content) + 1
    if length < 1 << 6:
        return bytes([length]) + content
    further = 1 if length + 1 < 1 << 12 else 2
    length += further
    return bytes([further << 6 | length & 15]) + (length >> 4).to_bytes(further, "little") + content


def method(asl, flags, body):
    """The control method M000, in ASL and in AML."""
    words = f"M000, {flags & 7}, {'Serialized' if flags & 8 else 'NotSerialized'}"
    return f"Method ({words}) {{ {asl} }}", b"\x14" + package(b"M000" + bytes([flags]) + body)


def is_asl(text):
    return text.endswith((")", "}"))


def remarked_part(kind, words, asl):
    """The AML of a line."""
    if kind in ("table", "load"):
        return Aml(asl, bytes_of(words))
    flags, words = words.split(" ", 1) if kind == "method" else ("0", words)
    return Aml(*method(asl, int(flags, 16), bytes_of(words)))


def remarked_rows(file):
    """The rows of a file in which the ASL stands above each line of AML."""
    rows, remark = [], ""
    for line in text_of(file).splitlines():
        said = AML_LINE.fullmatch(line.split(" = ")[0])
        if line.startswith("row "):
            rows.append(Row(file, line[4:]))
        elif said and rows:
            asl = remark or (rows[-1].name.partition(": ")[2] if said[1] == "body" else "")
            if is_asl(asl):
                rows[-1].parts.append(remarked_part(said[1], said[2], asl))
        remark = line[2:] if line.startswith("# ") else ""
    return rows


def dsdt(lines):
    """The bytes of the DSDT in the lines `in mem` of a row, without its header."""
    image = {}
    for line in lines:
        if line.startswith("in mem "):
            address, _, digits = line[7:].partition(" ")
            for place, byte in enumerate(bytes.fromhex(digits), int(address, 16)):
                image[place] = byte
    text = bytes(image[place] for place in sorted(image))
    at = text.index(b"DSDT")
    return text[at + HEADER_BYTES:at + int.from_bytes(text[at + 4:at + 8], "little")]


def wide_asl(remark):
    """The ASL of a DSDT in the remarks above a row of the wide profile; None where there is none."""
    said = WIDE_REMARK.match(remark)
    if said and is_asl(said[3]):
        return f"{said[1]} Method (M000, {said[2] or 0}, Serialized) {{ {said[3]} }}"
    whole = remark.find(WHOLE)
    return remark[whole:] if whole >= 0 and is_asl(remark) else None


def wide_rows(file):
    """The rows of the wide profile whose remarks have their ASL."""
    rows = []
    for said in text_of(file).split("\n\n"):
        lines = said.splitlines()
        remark = "\n".join(it[2:] for it in lines if it.startswith("# "))
        asl = wide_asl(remark)
        name = next((it[4:] for it in lines if it.startswith("row ")), None)
        if asl and name:
            rows.append(Row(file, name))
            rows[-1].parts.append(Aml(asl, dsdt(lines)))
    return rows


def all_rows():
    """The rows that have ASL."""
    found = wide_rows(WIDE)
    for pattern in REMARKED:
        for file in files_in(pattern):
            found += remarked_rows(file)
    return [it for it in found if it.parts]


# ---- what is compared


def not_shown(rows):
    """The operators that are evaluated, and of which no row of evaluation has the ASL."""
    asl = "\n".join(part.asl for row in rows if "/test_names/" not in row.file for part in row.parts).replace(" (", "(")
    missing = []
    for row in opcode_table.read_rows(text_of(opcode_table.TABLE), text_of(KINDS)):
        if row.section == SECTION and row.kind != "unsupported":
            form = ASL_NAMES.get(row.name, row.name)
            if not re.search(rf"\b{form}" + ("" if "(" in form else r"\("), asl, re.IGNORECASE):
                missing.append(row.name)
    return missing


def compiled(row):
    """What iasl makes of the row's ASL, without the table's header; None where it makes nothing."""
    with tempfile.TemporaryDirectory() as folder:
        with open(f"{folder}/row.asl", "w", encoding="ascii") as it:
            it.write(row.source())
        subprocess.run(["iasl", *OPTIONS, "row.asl"], cwd=folder, check=False, stdout=subprocess.DEVNULL, stderr=subprocess.DEVNULL)
        try:
            with open(f"{folder}/row.aml", "rb") as it:
                return it.read()[HEADER_BYTES:]
        except FileNotFoundError:
            return None


def difference(row):
    """What is wrong with a row's ASL, if anything is."""
    made, wanted = compiled(row), row.wanted()
    if made == wanted:
        return None
    where = f"{row.file}: row {row.name}"
    if not made:
        return f"{where}: iasl makes nothing of {row.source()}"
    return f"{where}: the row has {wanted.hex(' ').upper()}, and of its ASL iasl makes {made.hex(' ').upper()}"


def main():
    usage.answer_help(__doc__)
    names, rows = sys.argv[1:], all_rows()
    for name in set(names) - {os.path.basename(it.file) for it in rows}:
        usage.complain(f"{name}: no file of rows with ASL")
        return 1
    missing = not_shown(rows)
    for name in missing:
        print(f"asl_rows.py: no row of evaluation has the ASL of {name}")
    if not shutil.which("iasl"):
        print("asl_rows.py: iasl isn't installed: no row is compared with its ASL")
        return 1 if missing else 0
    rows = [it for it in rows if not names or os.path.basename(it.file) in names]
    with concurrent.futures.ThreadPoolExecutor(os.cpu_count()) as workers:
        wrong = [it for it in workers.map(difference, rows) if it]
    for it in wrong:
        print(f"asl_rows.py: {it}")
    print(f"asl_rows.py: {len(rows) - len(wrong)} rows have the bytes of their ASL, {len(wrong)} have not")
    return 1 if wrong or missing else 0


if __name__ == "__main__":
    sys.exit(main())
