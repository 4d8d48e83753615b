#!/usr/bin/env python3
"""machine_text.py [--pci FILE] [--pci FUNCTION:REGISTER=BYTES] [--io PORT=BYTES] [--mem ADDRESS=BYTES] [--osi TEXT] [--tables DIR] TABLE..

Makes a machine text, the input of acpiroute, of ACPI tables, and writes it to the standard output.

TABLE is one of these:
  a table file     of /sys/firmware/acpi/tables, of `acpidump -b`, or an .aml file of iasl
  a text           that `acpidump` printed
  a memory dump    from address 0 on, as QEMU's monitor saves one (pmemsave); the tables are found by the RSDP
  a folder         all tables in it, but no folders inside it; files that are no tables are passed over, and named on the error output
  -                a table, a text or a dump from the standard input

One of the tables has to be the DSDT. SSDTs, the FADT and the MADT are taken where they are given; where there is no FADT, a
small one is made, with the System Control Interrupt on interrupt 9, which counts as a source. All other tables are left out,
since acpiroute reads none of them. The tables are put at new addresses, and the RSDP, the XSDT, the FADT's address of the
DSDT and all checksums are made to fit. SSDTs stay in the order in which they are given, but files whose names differ in a
number alone come by that number, so SSDT2 before SSDT10.

Registers that the AML reads have to be given:
  --pci FILE           PCI configuration registers: the text of `lspci -xxxx`, taken as root
  --pci 0:1F.0:60=0A0B PCI configuration registers of one function: the bus, device and function as lspci writes them, with a segment
                       group before them or without, the first register, and the bytes
  --io PORT=BYTES      I/O ports from PORT on
  --mem ADDRESS=BYTES  memory from ADDRESS on
  --osi TEXT           a text that _OSI knows, such as 'Windows 2015'

PORT, ADDRESS and what is before = in --pci are hexadecimal numbers. BYTES are pairs of hexadecimal digits, or in --io and --mem @FILE
for the bytes of a file. All may be given several times; bytes that are given later replace earlier ones.

With --tables DIR the tables are written into the folder DIR too, for `iasl -d`: the DSDT, the FADT, the MADT and the SSDTs, each as a
file of its own such as DSDT.aml. They are written as they were found, with right checksums. Files that are there stay as they are.

    sudo tools/machine_text.py /sys/firmware/acpi/tables > machine.txt
    sudo acpidump | tools/machine_text.py --pci lspci.txt - > machine.txt

The exit status is 0, 1 where a file can't be used (one line on the error output says why), or 2 for wrong usage."""
import argparse
import os
import re
import struct
import sys

sys.dont_write_bytecode = True
import usage
from usage import Fault, complain as note

RSDP_AT = 0xE0000
TABLES_AT = 0x100000
HEADER_BYTES = 36
LAST_ADDRESS = 2**64 - 1
LAST_PORT = 0xFFFF
LAST_REGISTER = 0xFFF
BYTES_A_LINE = 64
# The tables that acpiroute reads.
READ = (b"DSDT", b"SSDT", b"FACP", b"APIC")
# Made anew, or no table with a header.
NEVER_TOLD = (b"RSD ", b"RSDT", b"XSDT", b"FACS")
DUMPED_TABLE = re.compile(r"(?:RSD PTR |[ -~]{4}) @ (?:0x)?[0-9A-Fa-f]+\s*$")
DUMPED_ROW = re.compile(r"\s*([0-9A-Fa-f]{4,}):((?: [0-9A-Fa-f]{2}){1,16})(?: |$)")
PCI_FUNCTION = re.compile(r"(?:([0-9a-fA-F]{4,8}):)?([0-9a-fA-F]{2}):([01][0-9a-fA-F])\.([0-7])(?:\s|$)")
PCI_GIVEN = re.compile(r"(?:([0-9a-fA-F]{1,4}):)?([0-9a-fA-F]{1,2}):([01]?[0-9a-fA-F])\.([0-7]):([0-9a-fA-F]{1,3})=(.*)", re.DOTALL)
PCI_ROW = re.compile(r"([0-9a-fA-F]{2,3}):((?: [0-9a-fA-F]{2}){1,16})\s*$")


class NoTable(Fault):
    """A file that isn't meant as a table."""


# ---- files


def number_in(name):
    """A file's name around its last number, and the number."""
    found = re.fullmatch(r"(.*?)(\d+)(\D*)", name, re.DOTALL)
    return ((found[1], found[3]), int(found[2])) if found else ((name, None), 0)


def by_number(names):
    """The same names, where those that differ in a number alone come by that number."""
    places = {}
    for place, name in enumerate(names):
        places.setdefault(number_in(name)[0], []).append(place)
    ordered = list(names)
    for some in places.values():
        for place, name in zip(some, sorted((names[it] for it in some), key=lambda it: number_in(it)[1])):
            ordered[place] = name
    return ordered


def files_of(names):
    """The files that the words name, with those in folders, and the set of those in folders."""
    files, in_folders = [], set()
    for name in names:
        if os.path.isdir(name):
            found = [it for it in (f"{name}/{entry}" for entry in sorted(os.listdir(name))) if os.path.isfile(it)]
            in_folders |= set(found)
            files += found
        else:
            files.append(name)
    return by_number(files), in_folders - set(names)


def bytes_of(name):
    try:
        if name == "-":
            return sys.stdin.buffer.read()
        with open(name, "rb") as it:
            return it.read()
    except OSError as error:
        raise Fault(f"{name}: {error.strerror}") from error


# ---- tables


def summed(data, at=9):
    """The bytes with a checksum that makes their sum 0."""
    data = bytearray(data)
    data[at] = 0
    data[at] = -sum(data) % 256
    return bytes(data)


def table(signature, revision, content):
    """A table with a header of this program's own."""
    size = HEADER_BYTES + len(content)
    head = struct.pack("<4sIBB6s8sI4sI", signature, size, revision, 0, b"ACPIRT", b"MACHTEXT", 1, b"MTXT", 1)
    return summed(head + content)


def dumped_tables(name, lines):
    """The tables in a text of acpidump."""
    found, table_bytes = [], None
    for number, line in enumerate(lines, 1):
        row = DUMPED_ROW.match(line)
        if DUMPED_TABLE.match(line):
            table_bytes = bytearray()
            found.append(table_bytes)
        elif row and table_bytes is None:
            raise Fault(f"{name}: line {number}: bytes without a line like 'DSDT @ 0x0' before them")
        elif row and int(row[1], 16) != len(table_bytes):
            raise Fault(f"{name}: line {number}: the row at {len(table_bytes):04X} is missing")
        elif row:
            table_bytes += bytes.fromhex(row[2])
    return [bytes(it) for it in found]


def is_dump(data):
    return b"\0" not in data and any(map(DUMPED_TABLE.match, data.decode("latin-1").splitlines()))


def is_text(data):
    """Whether all bytes are those of a text. A table has bytes below 32 in its header: its length is below 2^29."""
    return len(data) > 0 and all(it >= 0x20 or it in b"\t\n\f\r" for it in data)


def kind_of_text(data):
    """What is to be done with a text that stands in the place of a table, where it is known."""
    lines = data.decode("latin-1").splitlines()
    if any(it.startswith(("rsdp ", "mem ")) for it in lines):
        return ": it is a machine text already, for acpiroute to read as it stands"
    if any("DefinitionBlock" in it for it in lines):
        return ": it is an ASL source, of which `iasl` makes a table"
    if lines[0].startswith("acpiroute "):
        return ": it is a report of acpiroute"
    if any(map(PCI_FUNCTION.match, lines)):
        return ": it is the text of lspci, which --pci takes"
    return ""


def tested(name, data):
    """The table, where it is one."""
    if data[:8] == b"RSD PTR ":
        return data
    if is_text(data):
        raise NoTable(f"{name}: a text, and no table{kind_of_text(data)}")
    if len(data) < 8 or len(data) < HEADER_BYTES and data[:4] != b"FACS":
        raise NoTable(f"{name}: no ACPI table: {len(data)} bytes, and a table has at least {HEADER_BYTES}")
    if not all(0x20 <= it < 0x7F for it in data[:4]):
        raise NoTable(f"{name}: no ACPI table: it begins with the bytes {data[:4].hex(' ').upper()}, and not with a signature")
    length = int.from_bytes(data[4:8], "little")
    if length != len(data):
        raise Fault(f"{name}: no whole ACPI table: its header says {length} bytes, and there are {len(data)}")
    return data


# ---- memory dumps


def number_at(data, at, size):
    return int.from_bytes(data[at : at + size], "little")


def root_pointer_in(memory):
    """Where the RSDP stands in the memory of a BIOS, or None."""
    for at in range(0xE0000, min(len(memory), 0x100000) - 35, 16):
        if memory[at : at + 8] == b"RSD PTR " and sum(memory[at : at + 20]) % 256 == 0:
            return at
    return None


def table_at(name, memory, at):
    """The table at an address of a dump."""
    if at + HEADER_BYTES > len(memory):
        raise Fault(f"{name}: the memory dump ends at {len(memory):X}, before the table at {at:X}")
    return tested(f"{name}, address {at:X}", memory[at : at + number_at(memory, at + 4, 4)])


def listed_tables(name, memory, root):
    """The tables that the XSDT lists, or where there is none the RSDT."""
    extended = number_at(memory, root + 24, 8) if memory[root + 15] >= 2 else 0
    size = 8 if extended else 4
    entries = table_at(name, memory, extended or number_at(memory, root + 16, 4))[HEADER_BYTES:]
    addresses = [number_at(entries, it, size) for it in range(0, len(entries), size)]
    return [table_at(name, memory, it) for it in addresses if it and number_at(memory, it, 4) != number_at(b"FACS", 0, 4)]


def dsdt_in(name, memory, tables):
    """The DSDT that the FADT names, as a list of one table, or of none where there is no FADT."""
    for fadt in tables:
        if fadt[:4] == b"FACP":
            extended = number_at(fadt, 140, 8) if len(fadt) >= 148 else 0
            return [table_at(name, memory, extended or number_at(fadt, 40, 4))]
    return []


def tables_in_memory(name, memory):
    tables = listed_tables(name, memory, root_pointer_in(memory))
    return dsdt_in(name, memory, tables) + tables


# ---- the tables of a machine


def tables_in(name):
    """The tables of one file."""
    data = bytes_of(name)
    if is_dump(data):
        return [tested(name, it) for it in dumped_tables(name, data.decode("latin-1").splitlines())]
    if root_pointer_in(data) is not None:
        return tables_in_memory(name, data)
    return [tested(name, data)]


def mended(name, data):
    """A table with a right checksum."""
    right = summed(data)
    if right != data:
        note(f"{name}: the checksum of {data[:4].decode('latin-1')} was wrong, and is made right")
    return right


def tables_or_none(name, in_folders):
    """The tables of one file. A file of a folder that isn't meant as one is passed over."""
    try:
        return tables_in(name)
    except NoTable as fault:
        if name not in in_folders:
            raise
        note(f"{fault}: passed over")
        return []


def gathered(files, in_folders):
    """The tables that acpiroute reads, by their signatures, and the signatures of those that are left out."""
    found, left_out, dsdts = {it: [] for it in READ}, [], {}
    for name in files:
        for data in tables_or_none(name, in_folders):
            signature = data[:4]
            if signature in READ:
                found[signature].append(mended(name, data))
            elif signature not in NEVER_TOLD:
                left_out.append(signature.decode("latin-1"))
            if signature == b"DSDT":
                dsdts.setdefault(found[signature][-1], name)
    found[b"DSDT"] = only_dsdt(dsdts)
    return found, left_out


def only_dsdt(names):
    """The DSDT, which may be given twice, but not in two forms. The names are the files of each form."""
    if not names:
        raise Fault("no DSDT is among the tables")
    if len(names) > 1:
        raise Fault(f"{len(names)} different DSDTs are among the tables, and a machine has one: {', '.join(names.values())}")
    return list(names)


def write_tables(folder, tables):
    """Writes each table into a file of its own."""
    for signature, some in tables.items():
        for number, data in enumerate(some, 1):
            name = f"{folder}/{signature.decode()}{number if signature == b'SSDT' else ''}.aml"
            try:
                os.makedirs(folder, exist_ok=True)
                with open(name, "xb") as it:
                    it.write(data)
            except OSError as error:
                raise Fault(f"{name}: {error.strerror}") from error


def small_fadt():
    """A FADT that says nothing but that the SCI is interrupt 9, as on most PCs."""
    content = bytearray(244 - HEADER_BYTES)
    content[46 - HEADER_BYTES] = 9
    return table(b"FACP", 3, bytes(content))


def with_dsdt_at(fadt, address):
    """A FADT that names the DSDT at this address."""
    if len(fadt) < 44:
        raise Fault(f"the FADT has {len(fadt)} bytes, too few to name a DSDT")
    fadt = bytearray(fadt)
    fadt[40:44] = address.to_bytes(4, "little")
    if len(fadt) >= 148:
        fadt[140:148] = address.to_bytes(8, "little")
    return summed(fadt)


def root_pointer(xsdt_at):
    first = summed(struct.pack("<8sB6sBI", b"RSD PTR ", 0, b"ACPIRT", 2, 0), 8)
    return summed(first + struct.pack("<IQB3x", 36, xsdt_at, 0), 32)


# ---- the text


def rows(data):
    """Offsets and words of the lines that some bytes take."""
    for at in range(0, len(data), BYTES_A_LINE):
        line = data[at : at + BYTES_A_LINE]
        yield at, " ".join(line[it : it + 16].hex().upper() for it in range(0, len(line), 16))


def table_lines(what, at, data):
    return [f"# {what} at {at:X}, {len(data)} bytes"] + [f"mem {at + it:X} {words}" for it, words in rows(data)]


class Memory:
    """The lines of memory, and where tables may be put."""

    def __init__(self, taken):
        self.taken = [(at, at + len(data)) for at, data in taken]
        self.free_from = TABLES_AT
        self.lines = []

    def place(self, at, size):
        """The first address from this one on where a table may be put: at a multiple of 16, and not over bytes that are given."""
        for begin, end in sorted(self.taken):
            if begin < at + size and at < end:
                at = (end + 15) // 16 * 16
        return at

    def put(self, data):
        """Puts a table behind the last one, and answers its address."""
        at = self.place(self.free_from, len(data))
        self.free_from = (at + len(data) + 15) // 16 * 16
        self.lines += table_lines(data[:4].decode("latin-1"), at, data)
        return at


def memory_lines(tables, taken):
    """The lines of the tables, with all that leads to them."""
    memory = Memory(taken)
    dsdt_at = memory.put(tables[b"DSDT"][0])
    fadt = tables[b"FACP"][0] if tables[b"FACP"] else small_fadt()
    addresses = [memory.put(with_dsdt_at(fadt, dsdt_at))]
    addresses += [memory.put(it) for it in tables[b"APIC"] + tables[b"SSDT"]]
    xsdt_at = memory.put(table(b"XSDT", 1, b"".join(it.to_bytes(8, "little") for it in addresses)))
    rsdp_at = memory.place(RSDP_AT, 36)
    return [f"rsdp {rsdp_at:X}", *table_lines("RSDP", rsdp_at, root_pointer(xsdt_at)), *memory.lines]


def pci_functions(name, lines):
    """The registers of each function in a text of lspci: its address, and runs of bytes by their first register."""
    functions, runs = [], None
    for number, line in enumerate(lines, 1):
        function, row = PCI_FUNCTION.match(line), PCI_ROW.match(line)
        if function:
            runs = []
            functions.append((tuple(int(it or "0", 16) for it in function.groups()), runs))
        elif row and runs is None:
            raise Fault(f"{name}: line {number}: registers without a line like '00:1f.0 ISA bridge' before them")
        elif row:
            register, data = int(row[1], 16), bytes.fromhex(row[2])
            if runs and runs[-1][0] + len(runs[-1][1]) == register:
                runs[-1] = (runs[-1][0], runs[-1][1] + data)
            else:
                runs.append((register, data))
    if not any(it for _, it in functions):
        raise Fault(f"{name}: no registers: it has to be the text of lspci -xxxx")
    return functions


def pci_lines(name):
    functions = pci_functions(name, bytes_of(name).decode("latin-1").splitlines())
    if all(at + len(data) <= 64 for _, runs in functions for at, data in runs):
        note(f"{name}: no register above 3F is given: lspci shows these to root alone")
    lines = []
    for (segment, bus, device, function), runs in functions:
        if segment > 0xFFFF:
            note(f"{name}: segment group {segment:X} is left out: none above FFFF can be given")
            continue
        for register, data in runs:
            place = f"pci {segment:X} {bus:X} {device:X} {function:X}"
            lines += [f"{place} {register + it:X} {words}" for it, words in rows(data)]
    return lines


def function_lines(given):
    """The lines of registers that are given by themselves."""
    (segment, bus, device, function, register), data = given
    place = f"pci {segment:X} {bus:X} {device:X} {function:X}"
    return [f"{place} {register + it:X} {words}" for it, words in rows(data)]


def place_lines(word, given):
    return [f"{word} {at + it:X} {words}" for at, data in given for it, words in rows(data)]


def loaded(given, last):
    """Places with their bytes, those of files among them."""
    found = []
    for at, data in given:
        if isinstance(data, str):
            name, data = data, bytes_of(data)
            if at + len(data) - 1 > last:
                raise Fault(f"{name}: {len(data)} bytes from {at:X} on end past {last:X}")
        found.append((at, data))
    return found


def machine_text(words):
    """The machine text that the words of the command line ask for."""
    tables, left_out = gathered(*files_of(words.tables))
    if words.folder is not None:
        write_tables(words.folder, tables)
    memory, ports = loaded(words.mem, LAST_ADDRESS), loaded(words.io, LAST_PORT)
    counts = [f"{len(some)} {signature.decode()}" for signature, some in tables.items() if some]
    lines = [f"# A machine of {', '.join(counts)}"]
    if left_out:
        lines.append(f"# Left out: {', '.join(left_out)}")
    lines += memory_lines(tables, memory)
    lines += place_lines("mem", memory) + place_lines("io", ports)
    lines += [line for it in words.pci for line in (pci_lines(it) if isinstance(it, str) else function_lines(it))]
    lines += [f"osi {text}" for text in words.osi]
    return "\n".join(lines) + "\n"


# ---- the command line


def bytes_up_to(last):
    """Reads PORT=BYTES or ADDRESS=BYTES: the place, and the bytes or the name of the file that has them."""

    def given(text):
        place, found, data = text.partition("=")
        if not found or not re.fullmatch(r"(0[xX])?[0-9A-Fa-f]{1,16}", place) or int(place, 16) > last:
            raise argparse.ArgumentTypeError(f"'{text}' does not begin with a hexadecimal number up to {last:X} and =")
        if data.startswith("@"):
            return int(place, 16), data[1:]
        if not re.fullmatch(r"([0-9A-Fa-f]{2} *)+", data):
            raise argparse.ArgumentTypeError(f"'{data}' is neither pairs of hexadecimal digits nor @FILE")
        if int(place, 16) + len(bytes.fromhex(data)) - 1 > last:
            raise argparse.ArgumentTypeError(f"the bytes of '{text}' end past {last:X}")
        return int(place, 16), bytes.fromhex(data)

    return given


def pci_given(text):
    """Reads FUNCTION:REGISTER=BYTES, or the name of a file with the text of lspci."""
    found = PCI_GIVEN.fullmatch(text)
    if not found:
        if "=" in text and not os.path.exists(text):
            raise argparse.ArgumentTypeError(f"'{text}' is neither a file nor registers such as 0:1F.0:60=0A0B")
        return text
    place = tuple(int(it or "0", 16) for it in found.groups()[:5])
    if not re.fullmatch(r"([0-9A-Fa-f]{2} *)+", found[6]):
        raise argparse.ArgumentTypeError(f"'{found[6]}' is not pairs of hexadecimal digits")
    data = bytes.fromhex(found[6])
    if place[4] + len(data) - 1 > LAST_REGISTER:
        raise argparse.ArgumentTypeError(f"the bytes of '{text}' end past register {LAST_REGISTER:X}")
    return place, data


def osi_given(text):
    if not re.fullmatch(r"[ -~]{1,255}", text):
        raise argparse.ArgumentTypeError("a text of _OSI has 1 to 255 printable ASCII characters")
    return text


def parsed(words):
    parser = usage.parser(__doc__)
    hidden = {"action": "append", "default": [], "help": argparse.SUPPRESS}
    parser.add_argument("--pci", type=pci_given, **hidden)
    parser.add_argument("--io", type=bytes_up_to(LAST_PORT), **hidden)
    parser.add_argument("--mem", type=bytes_up_to(LAST_ADDRESS), **hidden)
    parser.add_argument("--osi", type=osi_given, **hidden)
    parser.add_argument("--tables", dest="folder", metavar="DIR", help=argparse.SUPPRESS)
    parser.add_argument("tables", nargs="+", metavar="TABLE", help=argparse.SUPPRESS)
    found = parser.parse_args(words)
    if len(found.osi) > 64:
        parser.error("at most 64 texts of _OSI may be given")
    return found


def main(words):
    asked = parsed(words)
    return usage.write_out(lambda: machine_text(asked))


if __name__ == "__main__":
    sys.exit(main(sys.argv[1:]))
