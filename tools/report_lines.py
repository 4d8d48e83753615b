#!/usr/bin/env python3
"""report_lines.py [--check]

Writes docs/REPORT.md: one row for each line of a report, of every version: its forms and its meaning (from tables/report_lines.txt), the
versions that have it, the definition of its words, what writes it, what reads it, whether `check` passes over it, and the definition that
its content comes from. What the table doesn't have is read from the definitions and the code of crates/route_report.

With --check it writes nothing, and fails (status 1) where the page differs. In both cases it fails where the table, the definitions, the
code, and tools/report_graph.py don't know the same lines in the same versions, or a form isn't that of the code."""
import functools
import os
import re
import sys

import opcode_table
import pages
import report_graph
from pages import TOP, Wrong, block, files_in, four_cells, text_of

TABLE, PAGE = "tables/report_lines.txt", "docs/REPORT.md"
CRATE = "crates/route_report"
definition = functools.partial(pages.definition, f"{CRATE}/specs")
HEADING = "acpiroute"
# The lines that a version has or not, by the field of the definition `first_said` that says so, and its value where it has them.
FIELDS = {"sci": ("sci", "None"), "avoid": ("avoid", "None"), "spared": ("spared", "Some []"), "unread": ("spared", "Some []"),
          "trigger": ("spared", "Some []"), "bus": ("spared", "Some []")}
RULE = ("rule", "None")
# The lines whose form is read, and which claim nothing: `with_option` leaves what was said, and the rule `First` is no claim.
FORM_ALONE = ("unread", "first", "trigger", "bus")
HEAD = """# The lines of a report

<!-- Written by tools/report_lines.py from tables/report_lines.txt and the sources: change those, and run it again. -->

One row for each line, in the order in which `route` writes them. `check` reads reports of the versions 1 to 3, the lines behind the first
one in any order. `README.md` shows a report, and says what each line means for a user.

- **Form**: D and P are paths; N, K, C, I, S, G, R decimal numbers; A and F hexadecimal digits, eight and four; V is `-`, `none` or
  numbers; X is A to D. `N..` and `P..` are one or more. An offer is `small` or `extended`, and `low` or `high`; a bound
  without links has `-` in their place. The first line of a report of version 1 is `acpiroute 1`.
- **Versions** are those that have the line. `route` writes version 2, and version 3 where options add lines.
- **`check`**: *read*, it tests what the line says, or believes it of the machine; *form alone*, the line has to have its form, and what it
  says isn't tested; *passed over*, the line may say anything. Of a line `link`, what stands after `now` is passed over too.
- **Words** is the definition of the line's words, in `crates/route_report/specs/Printing.antt`; **Written by** a function, or the
  `impl Line` of a type, in `src/lines.rt` or `src/kernel_lines.rt`; **Read by** a definition in `specs/Reading.antt` and the function of
  the same name in `src/line.rt` or `src/claimless.rt`.
- **Content from** is the definition that says what stands in the line, and the function whose contract has it.

| Line | Form | Meaning | Versions | `check` | Words | Written by | Read by | Content from |
|---|---|---|---|---|---|---|---|---|
"""


class Row:
    """One kind of line: what the table says of it."""

    def __init__(self, line, number):
        self.word, forms, self.meaning, source = four_cells(line, f"{TABLE}:{number}")
        self.forms = forms.split(", ")
        self.source = re.fullmatch(r"(\w+/specs/\w+\.antt): (\w+)", source)
        self.where = f"{TABLE}:{number}"
        if any(it.split()[0] != self.word for it in self.forms):
            raise Wrong(f"{self.where}: a form doesn't begin with {self.word}")
        if not opcode_table.is_sentence(self.meaning):
            raise Wrong(f"{self.where}: the meaning is no sentence")
        if not self.source:
            raise Wrong(f"{self.where}: the source is no `crate/specs/File.antt: definition`")


def table_rows(text):
    rows = [Row(line, number) for number, line in enumerate(text.splitlines(), 1) if line.strip() and not line.startswith("#")]
    for place, row in enumerate(rows):
        if any(it.word == row.word for it in rows[:place]):
            raise Wrong(f"{row.where}: {row.word} has a row already")
    return rows


# ---- what the sources say


def printed():
    """The first word of each line that is printed, in their order, with the definition of its words."""
    listed = definition("Printing", "found_lines") + definition("Printing", "chosen_lines")
    for part in ("option_lines", "kernel_lines"):
        listed = listed.replace(f"{part} r.options", definition("Printing", part))
    found = {}
    for name in dict.fromkeys(re.findall(r"\b\w+_words\b", listed)):
        for word in re.findall(rf'^{name} .*= codes "(\w+)"', definition("Printing", name), re.MULTILINE):
            found[word] = name
    return found


def writers():
    """What writes the line of each first word."""
    found = {}
    code = "\n".join(text_of(f"{CRATE}/src/{it}.rt") for it in ("lines", "kernel_lines"))
    for part in re.split(r"\n(?=///|impl |fn |pub)", code):
        head = re.match(r"(?:///.*\n)*(?:pub\(crate\) )?(?:impl Line for (.+) \{|fn (\w+))", re.sub(r"#\[.*\]\n", "", part))
        for word in re.findall(r'extend_from_slice\(b"(\w+)(?:"| \w|\\n)', part) if head else []:
            found.setdefault(word, f"`impl Line for {head[1]}`" if head[1] else f"`{head[2]}`")
    return found


def read_by_definition():
    found = definition("Reading", "keyed") + definition("Reading", "claimless")
    return dict(re.findall(r'bytes_eq key \(codes "(\w+)"\) then (\w+)', found))


def function(name):
    """A function of the code that reads a line."""
    for file in ("line", "claimless"):
        found = re.search(rf"^(?:pub\(crate\) )?fn {name}\(.*?^\}}\n", text_of(f"{CRATE}/src/{file}.rt"), re.MULTILINE | re.DOTALL)
        if found:
            return found[0]
    raise Wrong(f"{CRATE}/src/line.rt and claimless.rt have no {name}")


def read_by_code():
    return dict(re.findall(r'key == b"(\w+)"\.as_slice\(\) \{\s*(\w+)\(', function("keyed") + function("claimless")))


def passed_over():
    """The words of lines that are passed over: those of the definition, and those of the code."""
    by_definition = re.findall(r'codes "(\w+)"', definition("Reading", "is_passed_over"))
    return by_definition, re.findall(r'key == b"(\w+)"', function("is_passed_over"))


def versions(word, rules):
    """The versions that have lines of a first word; `rules` are the words that are a line alone."""
    field, value = RULE if word in rules else FIELDS.get(word, (None, None))
    said = re.findall(r"^first_said version\.\w+ = record \{(.*)\}$", definition("Reading", "first_said"), re.MULTILINE)
    if not said:
        raise Wrong(f"{CRATE}/specs/Reading.antt: first_said has no clause that is read here")
    return [number for number, fields in enumerate(said, 1) if not field or f" {field} = {value};" in f"{fields};"]


def documented_forms():
    """The forms that the remark of `print` lists."""
    remark = re.findall(r"^///(.*)$", text_of(f"{CRATE}/src/printing.rt"), re.MULTILINE)
    return re.findall(r"`([^`]+)`", " ".join(remark))


def functions(text):
    """The name of each function, and its contract: the lines up to the one that opens its body."""
    for rest in re.split(r"^ *(?:pub(?:\(crate\))? )?fn (?=\w)", text, flags=re.MULTILINE)[1:]:
        yield re.match(r"\w+", rest)[0], re.split(r"^ *\{$", rest, maxsplit=1, flags=re.MULTILINE)[0]


def code_of(file, name):
    """The function whose contract has a definition, in its crate or in the one that forms the lines; none where it is a type."""
    found = None
    for crate in (file.split("/")[0], "acpi_configure"):
        for source in files_in(f"crates/{crate}/src/**/*.rt") if not found else []:
            for name_there, contract in functions(text_of(source)):
                if os.path.basename(source) != "laws.rt" and re.search(rf"\bensures\b(?:(?!\bensures\b|\brequires\b).)*\b{name}\b", contract, re.DOTALL):
                    found = f"`{crate}/src/{os.path.basename(source)}`: `{name_there}`"
    return found


# ---- what has to agree


def compare(what, found, wanted):
    for word in wanted:
        if word not in found:
            raise Wrong(f"{what} doesn't know the line {word}")
    for word in found:
        if word not in wanted:
            raise Wrong(f"{what} knows the line {word}, which has no row in {TABLE}")


def check_sources(rows):
    """Refuses sources that don't know the lines of the table."""
    words = [it.word for it in rows]
    lines = [it for it in words if it != HEADING]
    over, over_by_code = passed_over()
    compare(f"{CRATE}/specs/Printing.antt", printed(), words)
    if list(printed()) != words:
        raise Wrong(f"{TABLE}: the rows don't stand in the order of the lines: {' '.join(printed())}")
    compare(f"{CRATE}/specs/Reading.antt", [*read_by_definition(), *over], lines)
    compare(f"{CRATE}/src/line.rt", [*read_by_code(), *over_by_code], lines)
    compare("tools/report_graph.py", report_graph.LINES, lines)
    for word in words:
        if word not in writers():
            raise Wrong(f"{CRATE}/src/lines.rt writes no line {word}")
    for word, name in read_by_definition().items():
        if read_by_code().get(word) != name:
            raise Wrong(f"the line {word} is read by {name} in the definition, and by {read_by_code().get(word)} in the code")


def rule_words():
    return [word for word, name in printed().items() if name == "rule_words"]


def check_row(row):
    """Refuses a row whose forms, versions or source aren't those of the sources."""
    for form in row.forms:
        if form not in documented_forms():
            raise Wrong(f"{row.where}: the remark of `print` in {CRATE}/src/printing.rt has no form `{form}`")
    since = versions(row.word, rule_words())[0]
    if report_graph.SINCE.get(row.word, 1) != since:
        raise Wrong(f"{row.where}: {row.word} stands from version {since} on, and in tools/report_graph.py from another one")
    file, name = row.source.groups()
    if not os.path.isfile(f"{TOP}/crates/{file}") or not block(text_of(f"crates/{file}"), name):
        raise Wrong(f"{row.where}: there is no {name} in crates/{file}")


# ---- the page


def page_row(row):
    forms = ", ".join(f"`{it}`" for it in row.forms)
    reader = read_by_definition().get(row.word, "heading" if row.word == HEADING else None)
    tested = "form alone" if row.word in FORM_ALONE else "read" if reader else "passed over"
    said = f"{row.meaning} | {' '.join(str(it) for it in versions(row.word, rule_words()))} | {tested}"
    file, name = row.source.groups()
    code = code_of(file, name)
    source = f"`{file}`: `{name}`" + (f"; {code}" if code else "")
    givers = f"`{printed()[row.word]}` | {writers()[row.word]} | {f'`{reader}`' if reader else '-'} | {source}"
    return f"| `{row.word}` | {forms} | {said} | {givers} |"


def page(rows):
    check_sources(rows)
    for row in rows:
        check_row(row)
    return HEAD + "\n".join(page_row(it) for it in rows) + "\n"


def main(words):
    return pages.make("report_lines.py", __doc__, words, lambda: {PAGE: page(table_rows(text_of(TABLE)))})


if __name__ == "__main__":
    sys.exit(main(sys.argv[1:]))
