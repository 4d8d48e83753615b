#!/usr/bin/env python3
"""pages_test.py

Tries the scripts that hold pages to the sources on a copy of the tree: tools/opcodes.py, tools/descriptors.py, tools/report_lines.py,
tools/refusals.py, tools/architecture.py, tools/words.py, tools/row_counts.py and tools/asl_rows.py each have to refuse a page, a table, a
source or a row that was changed, and to say what is wrong."""
import os
import shutil
import subprocess
import sys
import tempfile

import usage
from pages import TOP, text_of

RESOURCES, REPORT = "crates/acpi_resources", "crates/route_report"
OPCODES, GRAMMAR = "tables/opcodes.txt", "crates/aml_grammar"
EVALUATION = "crates/test_evaluation/data"


def row_of(name):
    """The row of an opcode, with the end of its line."""
    return next(it for it in text_of(OPCODES).splitlines(keepends=True) if it.startswith(f"{name} "))


ADD, CONCAT = row_of("Add"), row_of("Concat")
# What is tried of the row of Add: what it has, what stands in its place, and what the answer says behind the line's number.
OF_A_ROW = [
    ("Add ", "Sum ", "BinaryOperator has no Sum"),
    ("Target ", "Targett", "Targett is no kind of operand"),
    ("Expression", "Expressive", "Expressive is no class"),
    ("Target", "Target " * 5, "7 operands"),
    ("72", "7G", "7G is no code"),
    ("integer_operator.Add", "integer_operator.Sub", "BinaryOperator has no Sub"),
    ("20.2.5.4", "20.2.5.5", "20.2.5.5 is no section"),
    ("20.2.5.4", "19.6.4", "19.6.4 is no section"),
    ("20.2.5.4 ", "", "integer_operator.Add is no section"),
    ("|", " ", "fewer than 7 columns, or no meaning behind a bar"),
    ("Adds two integers.", "", "the meaning is no sentence"),
    ("Adds", "adds", "the meaning is no sentence"),
    ("integers.", "integers", "the meaning is no sentence"),
    ("integers.", "integers. And stores.", "the meaning is no sentence"),
    ("integers.", "integers | numbers.", "the meaning is no sentence"),
    ("Adds two integers.", "Sum.", "the meaning is no sentence"),
]
# What is tried for each script: the file, its text, what stands in its place, and what the answer must say. LINE is the line of the
# text, and NEXT the one behind it.
CASES = {
    "tools/opcodes.py --check": [
        (f"{GRAMMAR}/src/opcode.rt", "Add = 0x72", "Add = 0x73", f"{GRAMMAR}/src/opcode.rt is stale"),
        (f"{GRAMMAR}/specs/Opcodes.antt", "opcodes.Add = 0x72", "opcodes.Add = 0x73", f"{GRAMMAR}/specs/Opcodes.antt is stale"),
        (f"{GRAMMAR}/specs/Table.antt", "plain opcodes.Zero classes.Data", "plain opcodes.Zero classes.Slot", "Table.antt is stale"),
        ("crates/aml_scan/src/table.rt", "u8 = 0x70", "u8 = 0x71", "crates/aml_scan/src/table.rt is stale"),
        ("crates/aml_terms/src/short.rt", "    1, 1, 0,", "    1, 2, 0,", "crates/aml_terms/src/short.rt is stale"),
        ("crates/aml_operators/src/operators.rt", "OperatorKind::Divide =>", "OperatorKind::Divided =>", "no function evaluates Divide"),
        ("crates/aml_statements/src/statements.rt", "If => begin_if(", "If => begin_while(", "docs/OPCODES.md is stale"),
        ("crates/aml_evaluation/src/resuming.rt", "Frame::Return =>", "Frame::Back =>", "evaluates Return: no step has an arm"),
        ("crates/aml_statements/src/statements.rt", "choose_branch(run", "begin_branch(run", "docs/OPCODES.md is stale"),
        ("crates/aml_accesses/src/accesses.rt", "fn begin_write<", "fn begin_put<", "A store to a field: accesses.rt has no begin_write"),
        ("crates/aml_meaning/specs/FieldCalls.antt", "stored_to :", "stored :", "specs/FieldCalls.antt has no stored_to"),
        ("docs/OPCODES.md", "| 72 | Add |", "| 72 | Sum |", "docs/OPCODES.md is stale"),
        ("docs/OPCODES.md", "Adds two integers.", "Adds two numbers.", "docs/OPCODES.md is stale"),
        ("docs/OPCODES.md", "| 20.2.5.4 | Adds", "| 20.2.5.3 | Adds", "docs/OPCODES.md is stale"),
        (OPCODES, ADD, "", f"{OPCODES}: Add has no row"),
        (OPCODES, ADD, ADD.replace("Add ", "Sum ", 1) + ADD, f"{OPCODES}:NEXT: Add or its code is there already"),
        (OPCODES, ADD, ADD + ADD.replace("72", "9A"), f"{OPCODES}:NEXT: Add or its code is there already"),
        (OPCODES, ADD + CONCAT, CONCAT + ADD, f"{OPCODES}:NEXT: codes rise from row to row"),
        *((OPCODES, ADD, ADD.replace(old, new), f"{OPCODES}:LINE: {said}") for old, new, said in OF_A_ROW),
    ],
    "tools/descriptors.py --check": [
        (f"{RESOURCES}/specs/Descriptors.antt", "item.tag == 0x38", "item.tag == 0x39", "descriptor_of says nothing of the first byte 38"),
        (f"{RESOURCES}/specs/Descriptors.antt", "then Ok EndTag", "then Ok DependentFunctions", "give the first byte 79 another meaning"),
        (f"{RESOURCES}/src/descriptor.rt", "END_DEPENDENT: u8 = 0x38", "END_DEPENDENT: u8 = 0x3A", "no arm, for the first byte 38"),
        (f"{RESOURCES}/src/descriptor.rt", "(ACPI 6.5, 6.4.2.4)", "(ACPI 6.5, 6.4.2.5)", "descriptor.rt says 6.4.2.5"),
        (f"{RESOURCES}/src/descriptor.rt", " | END_DEPENDENT =>", " =>", "no arm, for the first byte 38"),
        (f"{RESOURCES}/specs/Offers.antt", "Err (Resource fault.Dependent)", "Err (Resource fault.NoEnd)", "docs/DESCRIPTORS.md is stale"),
        (f"{RESOURCES}/specs/Current.antt", "behind (Other tag) = behind", "behind (Other tag) = Ok []", "docs/DESCRIPTORS.md is stale"),
        (f"{RESOURCES}/specs/Settings.antt", "0x23 ∷", "0x22 ∷", "docs/DESCRIPTORS.md is stale"),
        ("tables/descriptors.txt", "\n2A  ", "\n2Z  ", "tables/descriptors.txt:15: 2Z is no first byte"),
        ("tables/descriptors.txt", "6.4.2.2 ", "6.4.3.2 ", "tables/descriptors.txt:15: 6.4.3.2 is no section"),
        ("tables/descriptors.txt", "6.4.2.3 ", "6.4.2.4 ", "30 has the section 6.4.2.4"),
        ("tables/descriptors.txt", "Lists DMA channels from 0 to 7.", "DMA", "tables/descriptors.txt:15: the meaning is no sentence"),
        ("tables/descriptors.txt", "\n2A  ", "\n39  ", "tables/descriptors.txt:16: first bytes rise"),
        ("docs/DESCRIPTORS.md", "| 2A | DMA", "| 2A | DMB", "docs/DESCRIPTORS.md is stale"),
    ],
    "tools/report_lines.py --check": [
        (f"{REPORT}/specs/Printing.antt", 'give_words g = codes "give"', 'give_words g = codes "gave"', "doesn't know the line give"),
        (f"{REPORT}/specs/Reading.antt", '(codes "give") then', '(codes "gave") then', "Reading.antt doesn't know the line give"),
        (f"{REPORT}/specs/Reading.antt", '(codes "pin") ||', '(codes "pins") ||', "Reading.antt doesn't know the line pin"),
        (f"{REPORT}/src/line.rt", 'key == b"give"', 'key == b"gave"', "line.rt doesn't know the line give"),
        (f"{REPORT}/src/claimless.rt", '|| key == b"pin".as_slice()', "", "line.rt doesn't know the line pin"),
        (f"{REPORT}/src/line.rt", "        give_line(alloc", "        bound_line(alloc", "read by give_line in the definition"),
        (f"{REPORT}/src/lines.rt", 'b"give"', 'b"gave"', "lines.rt writes no line give"),
        (f"{REPORT}/src/printing.rt", "`give P N` for", "`give P M` for", "has no form `give P N`"),
        ("tools/report_graph.py", '"sci": 2,', '"sci": 3,', "sci stands from version 2 on"),
        ("tools/report_graph.py", '    "give": rf', '    "gave": rf', "report_graph.py doesn't know the line give"),
        ("tables/report_lines.txt", "\ngive ", "\n# give ", "knows the line give, which has no row"),
        ("tables/report_lines.txt", "Claimed.antt: gives_of", "Claimed.antt: gives", "there is no gives in"),
        ("tables/report_lines.txt", "Says which interrupt a link is given.", "Given", "the meaning is no sentence"),
        ("docs/REPORT.md", "`put_sci`", "`put_scis`", "docs/REPORT.md is stale"),
    ],
    "tools/refusals.py": [
        ("docs/REFUSALS.md", "| 42 | DivideByZero", "| 43 | DivideByZero", "no row for 42 DivideByZero"),
        ("docs/REFUSALS.md", "| 5 | OfferOutsideSet", "| 5 | OfferOutside", "no row for 5 OfferOutsideSet"),
        ("docs/REFUSALS.md", "`read_answer`", "`read_answers`", "Bytes.antt has no read_answers"),
        ("docs/REFUSALS.md", "specs/Headers.antt`: `summed`", "specs/Header.antt`: `summed`", "a file that isn't there"),
        ("docs/REFUSALS.md", "`summed`; ", "`length_in`; ", "length_in in crates/ar_tables/specs/Headers.antt doesn't name BadChecksum"),
        ("crates/ar_tables/specs/Headers.antt", "Err (Table BadChecksum)", "Err (Table BadLength)", "doesn't name BadChecksum"),
    ],
    "tools/architecture.py": [
        ("docs/ARCHITECTURE.md", "| | | `sparing` |", "| | | |", "to add: | | | `sparing` | What was gathered"),
        ("docs/ARCHITECTURE.md", "`row_places`", "`row_place`", "aml_scan has no file row_place"),
        ("docs/ARCHITECTURE.md", "`tools/usage.py`", "`tools/usages.py`", "there is no file tools/usages.py"),
        ("docs/ARCHITECTURE.md", "`route_spread` | `route_n", "`route_spread` | `route_solve`, `route_n", "doesn't stand on route_solve"),
        ("docs/ARCHITECTURE.md", "| `timing` |", "| `timings` |", "timing is in no row; to add"),
        ("docs/ARCHITECTURE.md", "| `mode` |", "| `mode`, `sci` |", "ar_tables has sci twice"),
        ("docs/ARCHITECTURE.md", "Gatherings.antt`: `gathered`", "Gatherings.antt`: `collected`", "has no collected"),
        ("docs/ARCHITECTURE.md", "src/program.rt`", "src/programs.rt`", "there is no file acpiroute_lib/src/programs.rt"),
        ("crates.txt", "\ntiming: ", "\ntimings: ", "crates.txt has no crate timing"),
    ],
    "tools/words.py": [
        ("docs/WORDS.md", "| alias |", "| zalias |", "answer (of a call) doesn't stand in its order"),
        ("docs/WORDS.md", "| step (of evaluation) |", "| step |", "step has another meaning too"),
        ("docs/WORDS.md", "route_solve/src/ways.rt", "route_solve/src/way.rt", "there is no file crates/route_solve/src/way.rt"),
        ("docs/WORDS.md", "`route_solve/src/ways.rt`", "`route_solve/src/rows.rt`", "doesn't have the word way"),
    ],
    "tools/row_counts.py": [
        ("crates/test_spoilt_rows/stdout", "1 rows passed", "2 rows passed", "its data has 3 rows, and its stdout has 4"),
    ],
    "tools/asl_rows.py names.rows": [
        (f"{EVALUATION}/operators.rows", "Return(NOr(0xC, 0xA))", "joint denial", "no row of evaluation has the ASL of Nor"),
        (OPCODES, "5B33  Expression   no       20.2.5.4  unsupported", "5B33  Expression   no       20.2.5.4  wide_kind.Timer", "the ASL of Timer"),
    ],
}
# What is tried where iasl is installed.
BY_IASL = [
    (f"{EVALUATION}/names.rows", '# Name(SIZ_, "3")', '# Name(SIZ_, "4")', "row names answer what they hold: a buffer whose size"),
    (f"{EVALUATION}/names.rows", 'Buffer(SIZ_) {7})', 'Buffer(SIZ_) {7)})', "iasl makes nothing"),
]


def copy(to):
    listed = subprocess.run(["git", "-C", TOP, "ls-files"], capture_output=True, text=True, check=True)
    for file in listed.stdout.splitlines():
        os.makedirs(os.path.dirname(f"{to}/{file}"), exist_ok=True)
        shutil.copyfile(f"{TOP}/{file}", f"{to}/{file}")


def write(file, text):
    with open(file, "w", encoding="utf-8") as it:
        it.write(text)


def answer(top, words):
    """The status of a script, and all that it says."""
    script, *more = words.split()
    done = subprocess.run([sys.executable, f"{top}/{script}", *more], capture_output=True, text=True)
    return done.returncode, done.stdout + done.stderr


def is_refused(top, words, file, old, new, said):
    """Whether a script refuses a changed file, and says so."""
    kept = text_of(file)
    if old not in kept:
        print(f"pages_test.py: {file} doesn't have {old!r}", file=sys.stderr)
        return False
    write(f"{top}/{file}", kept.replace(old, new, 1))
    status, found = answer(top, words)
    write(f"{top}/{file}", kept)
    line = kept[:kept.index(old)].count("\n") + 1
    said = said.replace("LINE", str(line)).replace("NEXT", str(line + 1))
    if status != 1 or said not in found:
        print(f"pages_test.py: {words}: {new!r} in {file}: wanted {said!r}, got {status} {found!r}", file=sys.stderr)
        return False
    return True


def main():
    usage.answer_help(__doc__)
    tried = missed = 0
    with tempfile.TemporaryDirectory() as top:
        copy(top)
        if shutil.which("iasl"):
            CASES["tools/asl_rows.py names.rows"] += BY_IASL
        for words, cases in CASES.items():
            if answer(top, words)[0]:
                print(f"pages_test.py: {words}: the tree as it is doesn't pass", file=sys.stderr)
                missed += 1
                continue
            tried += len(cases)
            missed += sum(not is_refused(top, words, *case) for case in cases)
    print(f"{tried} tried, {missed} missed")
    return 1 if missed else 0


if __name__ == "__main__":
    sys.exit(main())
