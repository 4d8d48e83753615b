"""Reads tables/opcodes.txt, and forms the regions of the sources that are written from it (tools/opcodes.py writes or checks them)."""
import re

from pages import Wrong

TABLE = "tables/opcodes.txt"
MOST_OPERANDS = 6
COLUMNS = 7
# The sections of the ACPI Specification 6.5 that have the encodings of terms.
SECTIONS = {
    "20.2.3": "Data Objects Encoding",
    "20.2.5.1": "Namespace Modifier Objects Encoding",
    "20.2.5.2": "Named Objects Encoding",
    "20.2.5.3": "Statement Opcodes Encoding",
    "20.2.5.4": "Expression Opcodes Encoding",
    "20.2.6.1": "Arg Objects Encoding",
    "20.2.6.2": "Local Objects Encoding",
    "20.2.6.3": "Debug Objects Encoding",
    "20.3": "AML Byte Stream Byte Values",
}
# The bytes of an operand that alone says how long a term is.
SIZES = {"ByteData": 1, "WordData": 2, "DWordData": 4, "QWordData": 8}


class Row:
    """One opcode."""

    def __init__(self, columns, operands, meaning):
        self.name, code, self.place, packaged, self.section, self.kind = columns
        self.code, self.packaged = int(code, 16), packaged == "yes"
        self.operands, self.meaning = operands, meaning
        self.line = None  # the number of its line in the table


def variants(text, enum):
    body = re.search(rf"^pub enum {enum} {{\n(.*?)^}}", text, re.MULTILINE | re.DOTALL)[1]
    return re.findall(r"^    (\w+),", body, re.MULTILINE)


def is_sentence(text):
    """Whether a text is one sentence: a capital letter first, two words at least, and no point but the last character."""
    return re.fullmatch(r"[A-Z]\S* [^|]*[^|.\s]\.", text) and ". " not in text


def read_row(line, classes, operand_kinds):
    before, bar, meaning = line.partition("|")
    words = before.split()
    if len(words) < COLUMNS or not bar:
        raise Wrong(f"fewer than {COLUMNS} columns, or no meaning behind a bar")
    columns, operands = words[:COLUMNS - 1], words[COLUMNS - 1:]
    name, code, place, packaged, section, _ = columns
    operands = [] if operands == ["-"] else operands
    if not re.fullmatch(r"[A-Z]\w*", name):
        raise Wrong(f"{name} is no name")
    if not re.fullmatch(r"(?:5B)?[0-9A-F]{1,2}", code):
        raise Wrong(f"{code} is no code")
    if place not in classes:
        raise Wrong(f"{place} is no class")
    if packaged not in ("yes", "no"):
        raise Wrong(f"package is yes or no, not {packaged}")
    if section not in SECTIONS:
        raise Wrong(f"{section} is no section with the encodings of terms")
    if len(operands) > MOST_OPERANDS:
        raise Wrong(f"{len(operands)} operands, and {MOST_OPERANDS} are the most")
    for it in operands:
        if it not in operand_kinds or it == "Nothing":
            raise Wrong(f"{it} is no kind of operand")
    if not is_sentence(meaning.strip()):
        raise Wrong("the meaning is no sentence")
    return Row(columns, operands, meaning.strip())


def read_rows(text, kinds_text):
    """The rows of the table; `kinds_text` is crates/aml_grammar/src/kinds.rt."""
    classes, operand_kinds = variants(kinds_text, "Class"), variants(kinds_text, "OperandKind")
    rows = []
    for number, line in enumerate(text.splitlines(), 1):
        if not line.strip() or line.startswith("#"):
            continue
        try:
            row = read_row(line, classes, operand_kinds)
            if any(it.code == row.code or it.name == row.name for it in rows):
                raise Wrong(f"{row.name} or its code is there already")
            if rows and row.code < rows[-1].code:
                raise Wrong("codes rise from row to row")
        except Wrong as wrong:
            raise Wrong(f"{TABLE}:{number}: {wrong}: {' '.join(line.split())}") from None
        row.line = number
        rows.append(row)
    return rows


def digits(row):
    return f"0x{row.code:04X}" if row.code > 0xFF else f"0x{row.code:02X}"


def definition_row(row):
    operands = "(" + "".join(f"kinds.{it} ∷ " for it in row.operands) + "[])" if row.operands else "[]"
    return f"    {'packaged' if row.packaged else 'plain'} opcodes.{row.name} classes.{row.place} {operands} ∷"


def constants(text):
    """The operand lists that crates/aml_scan/src/table.rt has names for."""
    found = re.findall(r"^const (\w+): OperandKinds = OperandKinds\((.*?)\);", text, re.MULTILINE | re.DOTALL)
    return {tuple(re.findall(r"Kind::(\w+)", inside)): name for name, inside in found}


def code_row(row, names):
    if tuple(row.operands) not in names:
        raise Wrong(f"crates/aml_scan/src/table.rt has no constant for the operands of {row.name}: {' '.join(row.operands)}")
    return f"    Row(Op::{row.name}, {row.place}, {str(row.packaged).lower()}, {names[tuple(row.operands)]}),"


def places(rows, high):
    found = [len(rows)] * 256
    for place, row in enumerate(rows):
        if row.code >> 8 == high:
            found[row.code & 0xFF] = place
    return ["    " + " ".join(f"0x{it:02X}," for it in found[start:start + 16]) for start in range(0, 256, 16)]


def lengths(rows):
    found = [0] * 256
    for row in rows:
        if row.code < 0x100 and not row.packaged and (not row.operands or len(row.operands) == 1 and row.operands[0] in SIZES):
            found[row.code] = 1 + sum(SIZES[it] for it in row.operands)
    return ["    " + " ".join(f"{it}," for it in found[start:start + 32]) for start in range(0, 256, 32)]


# The functions that give the kind of a term, in the order in which they are asked (`kind_of`).
KIND_FUNCTIONS = (
    "data_kind", "declaration_kind", "region_kind", "statement_kind", "slot_kind", "integer_operator", "two_operands", "one_operand",
    "test_kind", "other_operator", "wide_kind",
)
KIND_DEFINITIONS, KIND_CODE = "crates/aml_meaning/specs/Terms.antt", "crates/aml_meaning/src/kinds.rt"
# The files with the enums of kinds and of what they hold.
KIND_ENUMS = (
    "crates/aml_meaning/src/term_kind.rt", "crates/aml_world/src/values/operation_kind.rt", "crates/aml_convert/src/operators.rt",
    "crates/aml_convert/src/logic.rt", "crates/aml_objects/src/value.rt",
)
# An operator that may be evaluated at once is known by its first byte: those on two integers, tests, and these.
AT_ONCE, AT_ONCE_FUNCTIONS = ("Store", "Increment", "Decrement", "LNot"), ("integer_operator", "test_kind")
# The variants that stand around what these functions give where it is an operator.
AROUND = {"integer_operator": [("OperatorKind", "Two"), ("TwoOperands", "Integers")], "test_kind": [("OperatorKind", "Test")]}


class Enums:
    """The enums of kinds: of each variant what it holds, and the word that Terms.antt has for the variants of an enum."""

    def __init__(self, text_of):
        self.holds = {}
        for file in KIND_ENUMS:
            for enum, body in re.findall(r"^pub enum (\w+) \{\n(.*?)^\}", text_of(file), re.MULTILINE | re.DOTALL):
                self.holds[enum] = dict(re.findall(r"^    (\w+)(?:\((\w+)\))?,", body, re.MULTILINE))
        definitions = text_of(KIND_DEFINITIONS)
        self.words = dict(re.findall(r"\.(\w+)\.TheVariants as (\w+)$", definitions, re.MULTILINE))
        self.given = dict(re.findall(r"^abbrev pub (\w+) : Opcode → Option (\w+)$", definitions, re.MULTILINE))

    def parts(self, row):
        """The enums of a row's kind, each with its variant, and the number that the last variant holds, or None."""
        function, *names = row.kind.split(".")
        enum, found = self.given.get(function), []
        for place, name in enumerate(names):
            if enum not in self.holds:
                # (what the variant before it holds is a number)
                if place != len(names) - 1 or not name.isdigit():
                    raise Wrong(f"{TABLE}:{row.line}: {row.kind} is no kind")
                return found, name
            if name not in self.holds[enum]:
                raise Wrong(f"{TABLE}:{row.line}: {enum} has no {name}")
            found.append((enum, name))
            enum = self.holds[enum][name]
        if not found or enum:
            raise Wrong(f"{TABLE}:{row.line}: {row.kind} is no kind")
        return found, None

    def definition(self, row):
        """The kind as Terms.antt has it."""
        found, number = self.parts(row)
        words = [f"{self.words[enum]}.{name}" for enum, name in found] + ([number] if number else [])
        text = words.pop()
        while words:
            text = f"({words.pop()} {text})"
        return text

    def code(self, row, around=()):
        """The kind as the code has it, inside of the variants that stand around it."""
        found, number = self.parts(row)
        words = [f"{enum}::{name}" for enum, name in [*around, *found]]
        text = ("u64::MAX" if int(number) == 2 ** 64 - 1 else number) if number else words.pop()
        while words:
            text = f"{words.pop()}({text})"
        return text


def kind_regions(rows, text_of):
    """The clauses of each function that gives a kind, as a definition and as code, and the operators that are known by a byte."""
    enums, found = Enums(text_of), []
    for it in rows:
        if it.kind.split(".")[0] not in (*KIND_FUNCTIONS, "target", "unsupported"):
            raise Wrong(f"{TABLE}:{it.line}: {it.kind} is no kind")
    for function in KIND_FUNCTIONS:
        mine = [it for it in rows if it.kind.startswith(f"{function}.")]
        clauses = [f"{function} opcodes.{it.name} = Some {enums.definition(it)}" for it in mine]
        found.append((KIND_DEFINITIONS, "-- ", function, clauses))
        found.append((KIND_CODE, "        // ", function, [f"        Opcode::{it.name} => Some({enums.code(it)})," for it in mine]))
    at_once = []
    for it in rows:
        function = it.kind.split(".")[0]
        if function in AT_ONCE_FUNCTIONS or it.name in AT_ONCE:
            at_once.append(f"        {digits(it)} => Some({enums.code(it, AROUND.get(function, ()))}),")
    return [*found, ("crates/aml_frames/src/at_once/short_opcodes.rt", "        // ", "operators that are known by a byte", at_once)]


def regions(rows, text_of):
    """Each region: its file, the comment that begins a line there, its name, and its lines."""
    definitions = [definition_row(it) for it in rows]
    definitions[-1] += " []"
    numbers = ["abbrev pub number_of : Opcode → ℕ", *[f"number_of opcodes.{it.name} = {digits(it)}" for it in rows], ""]
    scan = "crates/aml_scan/src/table.rt"
    names = constants(text_of(scan))
    return [
        ("crates/aml_grammar/src/opcode.rt", "    // ", "codes", [f"    {it.name} = {digits(it)}," for it in rows]),
        ("crates/aml_grammar/specs/Opcodes.antt", "-- ", "codes", numbers),
        ("crates/aml_grammar/specs/Table.antt", "    -- ", "rows", definitions),
        (scan, "// ", "rows", [f"static TABLE: [Row; {len(rows)}] = [", *[code_row(it, names) for it in rows], "];"]),
        (scan, "// ", "number of rows", [f"const NO_ROW: u8 = 0x{len(rows):02X};"]),
        (scan, "    // ", "places", places(rows, 0)),
        (scan, "    // ", "places behind 5B", places(rows, 0x5B)),
        ("crates/aml_terms/src/short.rt", "    // ", "lengths", lengths(rows)),
        *kind_regions(rows, text_of),
    ]


def bounds(comment, name):
    said = f"written by tools/opcodes.py from {TABLE}: {name}"
    return f"{comment}{said}: begin\n", f"{comment}{said}: end\n"


def with_region(file, text, comment, name, lines):
    """The text of a file with one region as the table has it."""
    begin, end = bounds(comment, name)
    if text.count(begin) != 1 or text.count(end) != 1:
        raise Wrong(f"{file} has no region `{name}`")
    before, rest = text.split(begin)
    return before + begin + "".join(f"{it}\n" for it in lines) + end + rest.split(end)[1]


if __name__ == "__main__":
    print(__doc__)
