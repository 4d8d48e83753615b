#!/usr/bin/env python3
"""descriptors.py [--check]

Writes docs/DESCRIPTORS.md: one row for each resource descriptor of tables/descriptors.txt, with what is done with it in a `_PRS`, a
`_CRS` and a `_SRS`, by which definition and which code, and what it is refused by. What the table doesn't have is read from the
definitions and the code of crates/acpi_resources.

With --check it writes nothing, and fails (status 1) where the page differs. In both cases it fails where a row of the table is wrong, or
where the definition, the constants of the code and the table don't agree on a first byte, on what it means, or on its section."""
import functools
import re
import sys

import opcode_table
import pages
import refusals
from pages import Wrong, four_cells, text_of

TABLE, PAGE = "tables/descriptors.txt", "docs/DESCRIPTORS.md"
# What an expression of the definition or of the code has, and the kind of descriptor that it gives then.
KINDS = {
    "irq": "Interrupts", "extended_interrupt": "Interrupts", "EndTag": "EndTag", "DependentFunctions": "DependentFunctions",
}
SPECS, SRC = "crates/acpi_resources/specs", "crates/acpi_resources/src"
definition = functools.partial(pages.definition, SPECS)
HEAD = """# Resource descriptors

<!-- Written by tools/descriptors.py from tables/descriptors.txt and the sources: change those, and run it again. -->

One row for each resource descriptor of the ACPI Specification 6.5 (6.4), by its first byte. Any other first byte is treated as `2A` is.

- **In `_PRS`**, which says what a link device may be set to, and **in `_CRS`**, which says what it is set to: *read*, its interrupts
  count; *passed over*, it says nothing; *refused*, by this number (`docs/REFUSALS.md`); *read, or refused*, by one of these numbers
  where it doesn't say what it must. A list that ends before its end tag is refused by {no_end} in both.
- **In `_SRS`**, which sets a link device: *written* are the descriptors that a setting is made of.
- **Definition** is a function in `crates/acpi_resources/specs`, **Code** one in `crates/acpi_resources/src`.

| First byte | Name | Section | Meaning | In `_PRS` | In `_CRS` | In `_SRS` | Definition | Code |
|---|---|---|---|---|---|---|---|---|
"""


class Row:
    """One descriptor: its first bytes, and what the table says of it."""

    def __init__(self, line, number):
        self.bytes, self.name, self.section, self.meaning = four_cells(line, f"{TABLE}:{number}")
        if not re.fullmatch(r"[0-9A-F]{2}(?:-[0-9A-F]{2})?", self.bytes):
            raise Wrong(f"{TABLE}:{number}: {self.bytes} is no first byte")
        ends = [int(it, 16) for it in self.bytes.split("-")]
        self.tags = range(ends[0], ends[-1] + 1)
        if not re.fullmatch(r"6\.4\.2\.\d" if ends[0] < 0x80 else r"6\.4\.3\.\d+(?:\.\d)?", self.section):
            raise Wrong(f"{TABLE}:{number}: {self.section} is no section of such a descriptor")
        if not opcode_table.is_sentence(self.meaning):
            raise Wrong(f"{TABLE}:{number}: the meaning is no sentence")


def table_rows(text):
    rows = []
    for number, line in enumerate(text.splitlines(), 1):
        if line.strip() and not line.startswith("#"):
            row = Row(line, number)
            if rows and row.tags[0] <= rows[-1].tags[-1]:
                raise Wrong(f"{TABLE}:{number}: first bytes rise from row to row")
            rows.append(row)
    return rows


# ---- what the sources say


def kind_of(said):
    """The kind of descriptor that an expression of the definition or of the code gives."""
    for sign, kind in KINDS.items():
        if sign in said:
            return kind
    raise Wrong(f"no kind of descriptor is known in: {said}")


def defined():
    """The expression that the definition has for each first byte that it names."""
    found = {}
    for line in definition("Descriptors", "descriptor_of").splitlines():
        for tag in re.findall(r"item\.tag == 0x(\w\w)", line):
            found[int(tag, 16)] = line.split(" then ", 1)[1]
    return found


def constants():
    """The first bytes that the code has names for: the name, and the section that its remark has."""
    found = {}
    form = r"^/// .*\(ACPI 6\.5, ([\d.]+)\)\.\n(?:pub\(crate\) )?const (\w+): u8 = 0x(\w\w);"
    for section, name, tag in re.findall(form, text_of(f"{SRC}/descriptor.rt"), re.MULTILINE):
        found[int(tag, 16)] = (name, section)
    return found


def coded():
    """The expression that the code has for each constant that it matches."""
    body = text_of(f"{SRC}/descriptor.rt").split("match item.tag {", 1)[1].split("\n        }\n", 1)[0]
    found = {}
    for names, said in re.findall(r"^ {12}([A-Z_]+(?: \| [A-Z_]+)*) => (.*?)(?=^ {12}\w|\Z)", body, re.MULTILINE | re.DOTALL):
        found.update(dict.fromkeys(names.split(" | "), said))
    return found


def check(rows):
    """Refuses sources that don't agree with each other or with the table."""
    by_definition, by_name, by_code = defined(), constants(), coded()
    sections = {tag: row.section for row in rows for tag in row.tags}
    for tag in sorted({*by_definition, *by_name}):
        byte = f"{tag:02X}"
        if tag not in by_name or by_name[tag][0] not in by_code:
            raise Wrong(f"{SRC}/descriptor.rt has no constant, or no arm, for the first byte {byte}")
        if tag not in by_definition:
            raise Wrong(f"{SPECS}/Descriptors.antt: descriptor_of says nothing of the first byte {byte}")
        if kind_of(by_definition[tag]) != kind_of(by_code[by_name[tag][0]]):
            raise Wrong(f"the definition and the code give the first byte {byte} another meaning")
        if sections.get(tag) != by_name[tag][1]:
            raise Wrong(f"{TABLE}: {byte} has the section {sections.get(tag)}, and {SRC}/descriptor.rt says {by_name[tag][1]}")


# ---- what is done with a descriptor


def numbers():
    return {name: number for number, name in refusals.in_sources()[0]}


def faults_in(text):
    """The refusals that a definition names, in the order in which it does."""
    return list(dict.fromkeys(re.findall(r"\b(?:fault\.|NoDescriptor\b)(\w*)", text)))


def clause(file, function, kind):
    found = re.search(rf"^ *{function} \w+ (?:\w+ )?\(?{kind}\b.*? = (.*)$", definition(file, function), re.MULTILINE)
    if not found:
        raise Wrong(f"{SPECS}/{file}.antt: {function} has no clause for {kind}")
    return found[1]


def offer_faults(said):
    """The refusals of the offer of an interrupt descriptor, of which the definition says this."""
    name = re.search(r"\w+_descriptor", said)[0]
    text = definition("Descriptors", name)
    found = [*(["Descriptor"] if "NoDescriptor" in text else []), *faults_in(definition("Offers", "the_offer"))]
    return found + [it for it in faults_in(definition("Offers", "offer_of")) if it != "Source" or "has_source = false" not in text]


def is_always_edge(said):
    """Whether a descriptor has no flags of its own, but those of an edge-triggered interrupt, which are tested first."""
    flags = re.search(r"irq_descriptor item\.body 0x(\w\w)", said)
    return flags and int(flags[1], 16) & 1


def in_possible(kind, said):
    """What is done with a descriptor in a `_PRS`."""
    what = clause("Offers", "offered_from", kind)
    by = numbers()
    if kind == "Interrupts" and is_always_edge(said):
        return f"refused {by['Edge']}; {by['Several']} behind another one"
    if kind == "Interrupts":
        return f"read, or refused {', '.join(str(it) for it in sorted(by[it] for it in offer_faults(said)))}"
    if what.startswith("Err"):
        return f"refused {by[faults_in(what)[0]]}"
    return f"ends the list; refused {by[faults_in(what)[0]]} where no interrupt was offered"


def in_current(kind, said):
    """What is done with a descriptor in a `_CRS`."""
    what = clause("Current", "numbers_from", kind)
    if kind == "Interrupts":
        faults = f", or refused {numbers()['Descriptor']}" if "extended" in said else ""
        return f"read{faults}"
    return {"behind": "passed over", "Ok []": "ends the list"}.get(what, what)


def in_setting(tag):
    """Whether a setting is made of such descriptors."""
    return "written" if re.search(rf"= 0x{tag:02X} ∷|∷ 0x{tag:02X} ∷ 0x00 ∷ \[\]", definition("Settings", "setting_bytes")) else "-"


def givers(tag):
    """The definition and the code that read a descriptor."""
    said = defined().get(tag)
    if said is None:
        return "`Descriptors`: `descriptor_of`", "`descriptor`: `of`"
    name = re.search(r"\w+_descriptor\b", said)
    code = re.search(r"\b(irq|extended_interrupt)\(", coded()[constants()[tag][0]])
    return f"`Descriptors`: `{name[0] if name else 'descriptor_of'}`", f"`descriptor`: `{code[1] if code else 'of'}`"


def page_row(row):
    tag = row.tags[0]
    said = defined().get(tag)
    kind = kind_of(said) if said else "Other"
    done = f"{in_possible(kind, said)} | {in_current(kind, said or '')} | {in_setting(tag)}"
    return f"| {row.bytes.replace('-', ' to ')} | {row.name} | {row.section} | {row.meaning} | {done} | {' | '.join(givers(tag))} |"


def page(rows):
    return HEAD.format(no_end=numbers()["NoEnd"]) + "\n".join(page_row(it) for it in rows) + "\n"


def made():
    rows = table_rows(text_of(TABLE))
    check(rows)
    return {PAGE: page(rows)}


def main(words):
    return pages.make("descriptors.py", __doc__, words, made)


if __name__ == "__main__":
    sys.exit(main(sys.argv[1:]))
