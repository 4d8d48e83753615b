#!/usr/bin/env python3
"""opcodes.py [--check]

Writes from tables/opcodes.txt the marked regions of the sources (the enum of opcodes, both tables of terms, the kinds of terms as
definitions and as code, and what is looked up by a byte), and then docs/OPCODES.md, one row for each opcode of AML: its row in the table with its section and its meaning, which rule it is
evaluated by, where the rule is defined, which functions evaluate it, and where it is tested. A second table has what is evaluated without
an opcode of its own. What the table doesn't have is read from the sources.

With --check it writes nothing, and fails (status 1) where a region or the page differs. Both ways it fails where a row's kind is unknown, or
where it isn't evaluated and the targets of crates/aml_meaning/specs/Terms.antt say otherwise."""
import os
import re
import sys

import opcode_table
import pages
import steps
from pages import Wrong, files_in, text_of

PAGE = "docs/OPCODES.md"
# Each function that gives a kind: the constructor of its kinds in the rules, and the enum of the code.
KIND_FUNCTIONS = {
    "data_kind": (None, "DataKind"),
    "declaration_kind": (None, "DeclarationKind"),
    "region_kind": (None, "RegionKind"),
    "statement_kind": (None, "StatementKind"),
    "slot_kind": ("Slot", "OperatorKind"),
    "integer_operator": ("Two", "OperatorKind"),
    "two_operands": ("Two", "OperatorKind"),
    "one_operand": ("One", "OperatorKind"),
    "test_kind": ("Test", "OperatorKind"),
    "other_operator": (None, "OperatorKind"),
    "wide_kind": (None, "WideKind"),
}
# The rules of each enum of kinds: the function that chooses among them, and its file.
RULES = {
    "DataKind": ("data_rule", "DataTerms"),
    "DeclarationKind": ("declaration_rule", "DeclarationTerms"),
    "RegionKind": ("region_term_rule", "FieldTerms"),
    "StatementKind": ("statement_rule", "StatementTerms"),
    "OperatorKind": ("operator_rule", "OperatorTerms"),
    "WideKind": ("wide_rule", "WideTerms"),
}
# The functions that give an operator's value of those of its operands.
VALUES = {
    "integer_operator": "result_of_two", "two_operands": "result_of_two", "one_operand": "result_of_one", "test_kind": "result_of_test",
}
# The same of the wide profile, by the kind of the term: the definition, or the function that chooses it.
WIDE_VALUES = {"ToString": "string_in", "Mid": "middle_in", "Event": "event_changed", "Wait": "waited"}
WIDE_CHOOSERS = {"Convert": "converted"}
# Definitions of values for which no function of the code stands alone: one has the function that chooses among them.
CHOOSER_OF = {"incremented": "counted_by", "decremented": "counted_by"}
# The files of crates/aml_world/src that have the code of these values.
OPERATIONS = ("values/operations", "values/wide_operations", "state/events")
# What waits for the value of a part of a term, or for its target: an arm of each goes on with it.
WAITING = ("Monadic", "Dyadic", "TargetUse", "DeclarationPart")
# What is evaluated without an opcode of its own: its definitions and its functions, each behind its file. Those without a crate are of
# the crates of evaluation.
WITHOUT_OPCODE = [
    ("How an item of a list begins, and any other term", "Meaning: step_and_rule",
     "lists: step_items; short_opcodes: take_operator; short_items: try_operator; terms: begin_term begin_coded; operators: begin_operator"),
    ("An operand of an operator that is a local, an argument, a string or a buffer, where it is done at once", "Tasks: operand_value",
     "short_values: short_value coded_value; short_terms: slot_value"),
    ("A name where a value stands, and a call of a control method",
     "InvocationTerms: name_value call_rule; Calls: invoked",
     "names: begin_name; calls: begin_call enter; stack: run_in end_call"),
    ("A target: what is found and used", "TargetTerms: target_at targeted", "targets: begin_target; target_uses: use_target"),
    ("RefOf, DerefOf and Index as targets", "TargetTerms: target_by_kind", "targets: begin_referring"),
    ("A store to a field", "FieldCalls: stored_to; Fields: field_stored",
     "target_uses: store_value; accesses: begin_write; field_access: begin_access; short_names: put_node"),
    ("An access of an IndexField", "Fields: index_unit index_unit_written",
     "index_access: begin_indexed; aml_interp/index_fields: index_bits"),
    ("An access of a BankField", "Fields: bank_selected bank_unit bank_unit_written",
     "bank_access: begin_banked; aml_interp/bank_fields: bank_bits"),
    ("The address of a field in PCI_Config", "Fields: pci_address; PciFunctions: pci_function",
     "pci: begin_pci; aml_interp/fields: pci_address"),
]
# The names that ASL has for opcodes which the grammar names otherwise.
ASL_NAMES = {
    "OpRegion": "OperationRegion", "PowerRes": "PowerResource", "FromBcd": "FromBCD", "ToBcd": "ToBCD", "DataRegion": "DataTableRegion",
}
# Terms that are evaluated but for one form.
PARTLY = {"Field": "a list with a connection", "IndexField": "a list with a connection"}
HEAD = """# Opcodes

<!-- Written by tools/opcodes.py from tables/opcodes.txt and the sources: change those, and run it again. -->

One row for each opcode of AML.

- **Section** is the one of the ACPI Specification 6.5 that has the encoding of the term; what the terms mean is in 19.6. The
  sections are {sections}.
  {older} is no longer in the grammar: its code alone is listed.
- **Operands** are those of the row in `tables/opcodes.txt`, from which both tables of terms are written (the definition
  `crates/aml_grammar/specs/Table.antt`, and as code `crates/aml_scan/src/table.rt`), behind the class that says where the term may
  stand. `in a package` means that a package length comes first. **Count** is how many there are, and **Targets** how many of them are
  of the kind `Target`.
- **Kind** is the rule that evaluates the term (`crates/aml_meaning/specs/Terms.antt`; as code `crates/aml_meaning/src/kinds.rt`).
  *left out* means that the term is read, and refused by number 73 with its opcode where it is evaluated. A kind `wide` is that of a term
  which the wide profile alone evaluates.
- **Definition** is a function in `crates/aml_meaning/specs`, or in a folder of `crates/aml_world/specs`. **Code** has functions of the
  crates of evaluation, or of the crate that is named, each behind its file (the list below says in which crate that is): the one that
  begins the term, those that this one calls to go on, and those that go on once a part is evaluated (`resume_..`). What all terms share
  isn't named: lists, targets, stores and accesses of fields (the second table). What an operator makes *of values* is defined in
  `crates/aml_world/specs/values/Operations.antt`, and its code is in `crates/aml_world/src/values/operations.rt`; of the wide
  profile in `WideOperations.antt` and `wide_operations.rt` beside these. What gives
  or takes an integer that is there already is done at once (`known`), and an item that is such an operator is tried by `short_items` first.
- **Field**, **IndexField**, **BankField** and the `Create` terms only declare fields. How a field of an operation region is read and
  written is in `crates/aml_world/specs/fields/Fields.antt`, with its code in `crates/aml_accesses/src/field_access.rt`, `index_access.rt`
  and `bank_access.rt`; for a buffer field in `crates/aml_fields/specs/BufferFields.antt`, with its code in
  `crates/aml_fields/src/buffer_fields.rt`.
- **Tests** are files of rows: in `crates/test_names/data` the one with the row `the opcode NAME, read and refused`, and in
  `crates/test_evaluation/data` the one that names the term most often.

The files of the crates of evaluation:
{files}

| Opcode | Name | Section | Meaning | Operands | Count | Targets | Kind | Definition | Code | Tests |
|---|---|---|---|---|---|---|---|---|---|---|
"""
TAIL = """
## What has no opcode of its own

A name stands for itself, and targets, stores and accesses of fields are parts of many terms. What an integer is that such a part gives or
takes at once is in `short_names` and `short_terms`; an operator over such integers is in `short_operations`, where an operand, a
predicate or a Return asks for its integer, and in `short_items`, where an item of a list stores to a local or an argument. An operand of an
operator that is a local, an argument, a string or a buffer goes by `short_values` first, and by the code in its row where that doesn't
answer. The functions of `aml_interp` do the same for a caller that reads a field from outside.

| What | Definition | Code |
|---|---|---|
"""


# ---- what the sources say


def table_rows():
    """The rows of the table."""
    return opcode_table.read_rows(text_of(opcode_table.TABLE), text_of("crates/aml_grammar/src/kinds.rt"))


def operands_text(row):
    """The operands of an opcode, as the page writes them."""
    return f"{row.place}: {'in a package ' * row.packaged}{' '.join(row.operands) or 'none'}"


def check_names(rows, sources):
    """Refuses a name that the sources don't know, and asks for the row of each name that they know."""
    for it in rows:
        if it.name not in sources["tests"]:
            where = f"{opcode_table.TABLE}:{it.line}"
            raise Wrong(f"{where}: {it.name} is unknown: no row in crates/test_names/data tests `the opcode {it.name}`")
    names = {it.name for it in rows}
    for name in sorted({*sources["tests"], *sources["kinds"], *sources["targets"]} - names):
        raise Wrong(f"{opcode_table.TABLE}: {name} has no row")


def check_targets(rows, targets):
    """Refuses a row whose term is no value, and names a target otherwise than the definitions say."""
    evaluated = rule_kinds(rows)
    for it in rows:
        if it.name in evaluated:
            continue
        kind = f"target.{targets[it.name]}" if it.name in targets else "unsupported"
        if it.kind != kind:
            raise Wrong(f"{opcode_table.TABLE}:{it.line}: {it.name} has the kind {it.kind}, and Terms.antt says {kind}")


def written(rows):
    """Each file that has regions, as the table has it."""
    texts = {}
    for file, comment, name, lines in opcode_table.regions(rows, text_of):
        texts[file] = opcode_table.with_region(file, texts.get(file) or text_of(file), comment, name, lines)
    return texts


def rule_kinds(rows):
    """The kind of each opcode that is evaluated: the function that gives it, and the kind."""
    split = {it.name: it.kind.split(".") for it in rows}
    return {name: (words[0], words[1:]) for name, words in split.items() if words[0] in KIND_FUNCTIONS}


def target_kinds():
    """The opcodes that name a target and are no values, each with the kind of its target."""
    text = text_of("crates/aml_meaning/specs/Terms.antt")
    return dict(re.findall(r"^target_kind_of opcodes\.(\w+) = targets\.(\w+)$", text, re.MULTILINE))


def rule_of(function, kind):
    """The rule of a kind, and the file of the rules."""
    inside, enum = KIND_FUNCTIONS[function]
    chooser, file = RULES[enum]
    text = text_of(f"crates/aml_meaning/specs/{file}.antt")
    found = re.search(rf"^ *{chooser} \(?kinds\.{inside or kind[0]}\b.*= (.*)$", text, re.MULTILINE)
    if not found:
        raise Wrong(f"{file}.antt has no rule for {' '.join(kind)}")
    words = found[1].split()
    elsewhere = re.search(rf"^use Rattle\.aml_meaning\.specs\.(\w+Terms)\.\{{[^}}]*\b{words[0]}\b", text, re.MULTILINE)
    return elsewhere[1] if elsewhere else file, " ".join(words[:2]) if words[0] in ("give", "new_scope") else words[0]


def value_of(function, kind):
    """The function that gives an operator's value of those of its operands, or None where the rule says all."""
    chooser, word, file = VALUES.get(function), "Integers" if function == "integer_operator" else kind[0], "Operations"
    if kind[0] == "Count":
        chooser, word = "counted_by", kind[1]
    if function == "wide_kind" and kind[0] in WIDE_CHOOSERS:
        chooser, word, file = WIDE_CHOOSERS[kind[0]], kind[1], "WideOperations"
    if not chooser:
        return WIDE_VALUES.get(kind[0]) if function == "wide_kind" else None
    found = re.search(rf"^{chooser} \(?\w+\.{word}\b.*= (\w+)", text_of(f"crates/aml_world/specs/values/{file}.antt"), re.MULTILINE)
    if not found:
        raise Wrong(f"{chooser} has no clause for {word}")
    return found[1]


def code_of_value(value):
    """The function of crates/aml_world/src whose contract has this definition of an operator's value."""
    form = r"^ *(?:pub(?:\(crate\))? )?fn (\w+)[^\n]*\n?(.*?)^ *\{$"
    for file in OPERATIONS:
        for name, contract in re.findall(form, text_of(f"crates/aml_world/src/{file}.rt"), re.MULTILINE | re.DOTALL):
            if re.search(rf"\b(?:{value}|{CHOOSER_OF.get(value)})\b", contract):
                return name
    raise Wrong(f"no function of {' or '.join(OPERATIONS)} in crates/aml_world/src has {value} in its contract")


def files_by_name(files, form):
    """What a form finds in these files, each with the name of its file."""
    found = {}
    for file in files_in(files):
        found.update(dict.fromkeys(re.findall(form, text_of(file), re.MULTILINE), os.path.basename(file).partition(".")[0]))
    return found


def code_of(name, function, kind, sources):
    """The functions that evaluate an opcode of a kind, each with its file."""
    inside, enum = KIND_FUNCTIONS[function]
    try:
        return steps.steps_of(sources["steps"], {*RULES, *WAITING}, enum, inside or kind[0])
    except Wrong as wrong:
        raise Wrong(f"no function evaluates {name}: {wrong}") from wrong


# ---- tests


def grammar_tests():
    """Each opcode that a row reads and refuses, with its file."""
    return files_by_name("crates/test_names/data/*.rows", r"^row the opcode (\w+), read and refused$")


def told_lines():
    """The lines of evaluation rows that are in words: names of rows, and remarks."""
    return {os.path.basename(file)[:-5]: [it for it in text_of(file).splitlines() if it.startswith(("row", "#"))]
            for file in files_in("crates/test_evaluation/data/*.rows")}


def evaluation_test(name, lines):
    """The file of evaluation rows that names an opcode most often."""
    word = re.compile(rf"\b(?:{name}|{ASL_NAMES.get(name, name)})\b")
    counts = {file: sum(bool(word.search(it)) for it in some) for file, some in lines.items()}
    file = max(sorted(counts), key=counts.get)
    return file if counts[file] else None


# ---- the page


def kind_text(name, function, kind):
    words = {"integer_operator": f"Integers {kind[0]}"}.get(function, "Constant" if kind[0] == "Constant" else " ".join(kind))
    partly = f"; {PARTLY[name]} is left out in the core profile: refused 73" if name in PARTLY else ""
    if function == "wide_kind":
        partly = "; in the core profile left out: refused 73"
    return f"{KIND_FUNCTIONS[function][1].removesuffix('Kind').lower()}: {words}{partly}"


def in_files(functions):
    """Functions, each behind the name of its file where that is another one than before."""
    before = [None, *(file for file, _ in functions)]
    return ", ".join(f"`{name}`" if file == last else f"`{file}`: `{name}`" for (file, name), last in zip(functions, before))


def how(name, sources):
    """Kind, definition and code of an opcode."""
    if name in sources["targets"] and name not in sources["kinds"]:
        return f"target: {sources['targets'][name]}", "`Terms`: `target_kind_of`", "`aml_meaning`, `kinds`: `target_kind_of`"
    if name not in sources["kinds"]:
        return "left out: refused 73", "-", "-"
    function, kind = sources["kinds"][name]
    file, rule = rule_of(function, kind)
    value = value_of(function, kind)
    code = code_of(name, function, kind, sources)
    definition = f"`{file}`: `{rule}`" + (f", of values `{value}`" if value else "")
    by = in_files(code) + (f", of values `{code_of_value(value)}`" if value else "")
    return kind_text(name, function, kind), definition, by


def page_row(row, sources):
    kind, definition, code = how(row.name, sources)
    evaluated = evaluation_test(row.name, sources["lines"])
    tests = f"`{sources['tests'][row.name]}`" + (f", `{evaluated}`" if evaluated else "")
    counts = f"{len(row.operands)} | {row.operands.count('Target')}"
    said = f"{row.section} | {row.meaning} | {operands_text(row)}"
    return f"| {row.code:02X} | {row.name} | {said} | {counts} | {kind} | {definition} | {code} | {tests} |"


def listed(text):
    """Names, each with its file, of `file: name name; file: name`."""
    return [(file, name) for file, _, names in (it.strip().partition(": ") for it in text.split("; ")) for name in names.split()]


def folder_and_file(file):
    """The folder of a file of definitions: of the rules, or a folder of the world's."""
    world = files_in(f"crates/aml_world/specs/*/{file}.antt")
    return os.path.dirname(world[0]) if world else "crates/aml_meaning/specs", file


def check_code(what, file, name, functions):
    """Refuses a function that isn't in its file."""
    crate, _, stem = file.rpartition("/")
    is_there = f"fn {name}<" in text_of(f"crates/{crate}/src/{stem}.rt") if crate else (file, name) in functions
    if not is_there:
        raise Wrong(f"{what}: {file}.rt has no {name}")


def row_without_opcode(what, definitions, code, functions):
    """The row of what has no opcode. Each definition and each function has to be there."""
    for file, name in listed(definitions):
        pages.definition(*folder_and_file(file), name)
    for file, name in listed(code):
        check_code(what, file, name, functions)
    return f"| {what} | {in_files(listed(definitions))} | {in_files(listed(code))} |\n"


def head(rows):
    """What stands above the rows."""
    titles = [f"{number} {title}" for number, title in opcode_table.SECTIONS.items()]
    sections = ",\n  ".join(", ".join(titles[it:it + 3]) for it in range(0, len(titles), 3))
    older = " and ".join(it.name for it in rows if it.section == "20.3")
    return HEAD.format(sections=sections, older=older, files="\n".join(crate_line(it) for it in steps.CRATES))


def crate_line(crate):
    """The files of a crate of evaluation."""
    files = (os.path.basename(it)[:-3] for it in files_in(f"crates/{crate}/src/**/*.rt"))
    return f"- `{crate}`: " + ", ".join(f"`{it}`" for it in files if it != "lib")


def page(rows):
    sources = {"kinds": rule_kinds(rows), "targets": target_kinds(), "steps": steps.Sources(), "tests": grammar_tests(), "lines": told_lines()}
    check_names(rows, sources)
    check_targets(rows, sources["targets"])
    without = (row_without_opcode(*it, sources["steps"].functions) for it in WITHOUT_OPCODE)
    return head(rows) + "\n".join(page_row(it, sources) for it in rows) + "\n" + TAIL + "".join(without)


def made():
    rows = table_rows()
    return {**written(rows), PAGE: page(rows)}


def main(words):
    return pages.make("opcodes.py", __doc__, words, made)


if __name__ == "__main__":
    sys.exit(main(sys.argv[1:]))
