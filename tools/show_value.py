#!/usr/bin/env python3
"""show_value.py [VALUE]

Shows a value that `acpiroute eval` wrote, so that people can read it. The value is read from the file VALUE, or from the standard
input where none is named.

    acpiroute eval '\\_SB_.LNKA._PRS' < machine.txt | tools/show_value.py

An integer is shown in decimal and hexadecimal digits, with its EISA id where it can be one, such as PNP0A08. A string is shown as a
text. A buffer is shown as rows of bytes, and where it is a resource template, as its items, each with its offset. A package is shown as
a tree with the index of each element, and where it can be a _PRT, as a table of pins.

The exit status is 0, 1 where the input is no value of eval (one line on the error output says why), or 2 for wrong usage."""
import argparse
import re
import struct
import sys
import uuid

sys.dont_write_bytecode = True
import usage
from usage import Fault

WORDS = re.compile(r"\S+")
PLAIN = ("reference", "none")
DMA_SPEEDS = ("compatibility", "type A", "type B", "type F")
DMA_SIZES = ("8-bit", "8-bit and 16-bit", "16-bit", "reserved")
ADDRESS_KINDS = {0: "memory", 1: "I/O", 2: "bus numbers"}
SHARINGS = ("exclusive", "shared", "exclusive, wakes", "shared, wakes")
PINS = "ABCD"


# ---- values


class Reader:
    """The words of a value."""

    def __init__(self, text):
        self.words, self.at = WORDS.findall(text), 0

    def word(self):
        if self.at == len(self.words):
            raise Fault("the value ends too early")
        self.at += 1
        return self.words[self.at - 1]

    def number(self):
        word = self.word()
        if not re.fullmatch(r"\d+", word):
            raise Fault(f"'{word[:40]}' stands where a number is wanted")
        return int(word)

    def data(self):
        word = self.word()
        if word != "-" and not re.fullmatch(r"([0-9A-Fa-f]{2})+", word):
            raise Fault(f"'{word[:40]}' stands where pairs of hexadecimal digits are wanted")
        return b"" if word == "-" else bytes.fromhex(word)

    def package(self):
        count = self.number()
        if self.word() != "(":
            raise Fault("a package has no ( behind its count")
        elements = []
        while self.at < len(self.words) and self.words[self.at] != ")":
            elements.append(self.value())
        if self.word() != ")" or len(elements) > count:
            raise Fault(f"a package of {count} elements has {len(elements)}")
        return "package", elements + [("none", None)] * (count - len(elements))

    def value(self):
        """A kind, and what is of that kind."""
        kind = self.word()
        if kind == "integer":
            return kind, self.number()
        if kind in ("string", "buffer"):
            return kind, self.data()
        if kind == "name":
            return kind, self.word()
        if kind == "package":
            return self.package()
        if kind in PLAIN:
            return kind, None
        raise Fault(f"no value begins with '{kind[:40]}': show_value.py reads what `acpiroute eval` writes")


def value_of(text):
    if text.startswith("refused"):
        raise Fault(f"no value but a refusal: {text.strip()}. docs/REFUSALS.md has its meaning")
    reader = Reader(text)
    if not reader.words:
        raise Fault("the input is empty: `acpiroute eval` wrote no value, and its error output says why")
    value = reader.value()
    if reader.at != len(reader.words):
        raise Fault(f"'{reader.words[reader.at][:40]}' stands behind the value")
    return value


# ---- integers


def eisa_id(number):
    """The EISA id that a number stands for, or None: three letters of five bits each, the first one highest, and four digits."""
    if number >= 1 << 32:
        return None
    swapped = int.from_bytes(number.to_bytes(4, "little"), "big")
    letters = [swapped >> shift & 31 for shift in (26, 21, 16)]
    if swapped >> 31 or not all(1 <= it <= 26 for it in letters):
        return None
    return "".join(chr(64 + it) for it in letters) + f"{swapped & 0xFFFF:04X}"


def integer_text(number):
    name = eisa_id(number)
    return f"{number} (0x{number:X})" + (f", as an EISA id {name}" if name else "")


# ---- resource templates


def small_number(data, at, size):
    """A number of a descriptor. Descriptors that are too short have been left to `plain`."""
    if at + size > len(data):
        raise IndexError
    return int.from_bytes(data[at : at + size], "little")


def bits_of(mask, count):
    return " ".join(str(it) for it in range(count) if mask >> it & 1) or "-"


def irq(data):
    flags = data[2] if len(data) > 2 else 1
    told = [("level", "edge")[flags & 1], ("active-high", "active-low")[flags >> 3 & 1], SHARINGS[flags >> 4 & 3]]
    return f"IRQ {bits_of(small_number(data, 0, 2), 16)}, {', '.join(told)}" + ("" if len(data) > 2 else " (no flags)")


def dma(data):
    flags = small_number(data, 1, 1)
    master = ", bus master" if flags & 4 else ""
    return f"DMA channels {bits_of(data[0], 8)}, {DMA_SIZES[flags & 3]}, {DMA_SPEEDS[flags >> 5 & 3]}{master}"


def start_dependent(data):
    return "start of dependent functions" + (f", compatibility {data[0] & 3}, performance {data[0] >> 2 & 3}" if data else "")


def io_ports(data):
    low, high, align, size = struct.unpack_from("<HHBB", data, 1)
    return f"I/O ports {low:X} to {high:X}, {size:X} of them, alignment {align:X}, decodes {16 if data[0] & 1 else 10} bits"


def fixed_io_ports(data):
    return f"fixed I/O ports from {small_number(data, 0, 2) & 0x3FF:X}, {small_number(data, 2, 1):X} of them"


def fixed_dma(data):
    width = small_number(data, 4, 1)
    return f"fixed DMA, request line {small_number(data, 0, 2)}, channel {small_number(data, 2, 2)}, {8 << width} bits"


def vendor(data):
    return f"of the vendor, {len(data)} bytes: {data.hex().upper() or '-'}"


def end_tag(data):
    return "end"


def written(data):
    return "read and written" if data[0] & 1 else "read only"


def memory_range_24(data):
    low, high, align, size = struct.unpack_from("<HHHH", data, 1)
    return f"memory {low << 8:X} to {high << 8:X}, {size << 8:X} bytes, alignment {align or 0x10000:X}, {written(data)}"


def memory_range_32(data):
    low, high, align, size = struct.unpack_from("<IIII", data, 1)
    return f"memory {low:X} to {high:X}, {size:X} bytes, alignment {align:X}, {written(data)}"


def fixed_memory_32(data):
    low, size = struct.unpack_from("<II", data, 1)
    return f"memory from {low:X}, {size:X} bytes, {written(data)}"


def source_text(data):
    """The resource source behind a descriptor: its index and its path."""
    return f", of {data[1:].split(bytes(1))[0].decode('latin-1')} index {data[0]}" if len(data) > 1 else ""


def address_space(form, size):
    """A reader of an address space descriptor whose numbers have so many bytes."""

    def told(data):
        kind, general = ADDRESS_KINDS.get(data[0], f"space {data[0]:02X}"), small_number(data, 1, 1)
        grain, low, high, offset, length = struct.unpack_from(form, data, 3)
        ends = [("minimum free", "minimum fixed")[general >> 2 & 1], ("maximum free", "maximum fixed")[general >> 3 & 1]]
        ends += ["subtractive"] * (general >> 1 & 1) + ["consumed" if general & 1 else "produced"]
        moved = f", translated by {offset:X}" if offset else ""
        source = source_text(data[3 + 5 * size:])
        return f"{kind} {low:X} to {high:X}, length {length:X}, granularity {grain:X}{moved}, {', '.join(ends)}{source}"

    return told


def extended_space(data):
    kind, general = ADDRESS_KINDS.get(data[0], f"space {data[0]:02X}"), small_number(data, 1, 1)
    grain, low, high, offset, length, attributes = struct.unpack_from("<6Q", data, 5)
    moved = f", translated by {offset:X}" if offset else ""
    role = "consumed" if general & 1 else "produced"
    return f"{kind} {low:X} to {high:X}, length {length:X}, granularity {grain:X}{moved}, attributes {attributes:X}, {role}"


def extended_interrupt(data):
    flags, count = data[0], small_number(data, 1, 1)
    numbers = [small_number(data, 2 + 4 * it, 4) for it in range(count)]
    told = [("level", "edge")[flags >> 1 & 1], ("active-high", "active-low")[flags >> 2 & 1], SHARINGS[flags >> 3 & 3]]
    role = "consumed" if flags & 1 else "produced"
    return f"interrupts {' '.join(map(str, numbers)) or '-'}, {', '.join(told)}, {role}{source_text(data[2 + 4 * count:])}"


def generic_register(data):
    space, width, offset, size, address = struct.unpack_from("<BBBBQ", data, 0)
    return f"register at {address:X} in address space {space:02X}, {width} bits from bit {offset}, access size {size}"


def named_source(data, at):
    """The path at an offset that a descriptor gives, which counts from its first byte, 3 before its data."""
    return data[max(at - 3, 0):].split(bytes(1))[0].decode("latin-1") or "-"


def gpio(data):
    kind = small_number(data, 1, 1)
    table, source, end = small_number(data, 11, 2), small_number(data, 14, 2), small_number(data, 16, 2)
    pins = [small_number(data, it - 3, 2) for it in range(table, source, 2)]
    what = {0: "interrupt", 1: "I/O"}.get(kind, f"kind {kind}")
    flags = small_number(data, 4, 2)
    told = f", {('level', 'edge')[flags & 1]}, {SHARINGS[flags >> 3 & 3]}" if kind == 0 else ""
    path = f", {end - source} bytes of path" if end < source else ""
    return f"GPIO {what}, pins {' '.join(map(str, pins)) or '-'}{told}, of {named_source(data, source)}{path}"


def serial_bus(data):
    kind, flags, own = small_number(data, 2, 1), small_number(data, 4, 2), small_number(data, 7, 2)
    source = data[9 + own:].split(bytes(1))[0].decode("latin-1") or "-"
    names = {1: "I2C", 2: "SPI", 3: "UART", 4: "CSI-2"}
    values = data[9 : 9 + own]
    address = ""
    if kind == 1 and own >= 6:
        address = f", address {small_number(values, 4, 2):X}, {small_number(values, 0, 4)} Hz, {('7-bit', '10-bit')[flags & 1]}"
    if kind == 2 and own >= 9:
        address = f", chip select {small_number(values, 7, 2):X}, {small_number(values, 0, 4)} Hz, {small_number(values, 4, 1)} data bits"
    if kind == 3 and own >= 10:
        address = f", {small_number(values, 0, 4)} baud"
    return f"{names.get(kind, f'serial bus {kind}')}{address}, of {source}"


def pin_list(what):
    """A reader of a descriptor of pins, told by its first bytes alone."""

    def told(data):
        return f"{what}, {len(data)} bytes: {data.hex().upper()}"

    return told


def clock_input(data):
    flags, divisor, numerator = struct.unpack_from("<HHI", data, 1)
    scale = ("Hz", "kHz", "MHz", "reserved")[flags >> 1 & 3]
    return f"clock input {numerator}/{divisor} {scale}, {('variable', 'fixed')[flags & 1]}{source_text(data[9:])}"


# By the name of a small item and the type of a large one: sections 6.4.2 and 6.4.3 of the ACPI Specification.
SMALL = {
    0x04: irq, 0x05: dma, 0x06: start_dependent, 0x07: lambda data: "end of dependent functions", 0x08: io_ports,
    0x09: fixed_io_ports, 0x0A: fixed_dma, 0x0E: vendor, 0x0F: end_tag,
}
LARGE = {
    0x01: memory_range_24, 0x02: generic_register, 0x04: vendor, 0x05: memory_range_32, 0x06: fixed_memory_32,
    0x07: address_space("<5I", 4), 0x08: address_space("<5H", 2), 0x09: extended_interrupt, 0x0A: address_space("<5Q", 8),
    0x0B: extended_space, 0x0C: gpio, 0x0D: pin_list("pin function"), 0x0E: serial_bus, 0x0F: pin_list("pin configuration"),
    0x10: pin_list("pin group"), 0x11: pin_list("pin group function"), 0x12: pin_list("pin group configuration"), 0x13: clock_input,
}


def items_of(data):
    """The offsets of the items of a template, each with what tells it and its bytes; None where the bytes are no template."""
    items, at = [], 0
    while at < len(data):
        if data[at] & 0x80:
            begin, size, kind = at + 3, int.from_bytes(data[at + 1 : at + 3], "little"), LARGE.get(data[at] & 0x7F)
        else:
            begin, size, kind = at + 1, data[at] & 7, SMALL.get(data[at] >> 3)
        if kind is None or begin + size > len(data):
            return None
        items.append((at, kind, data[begin : begin + size]))
        at = begin + size
        if kind is end_tag:
            return items if at == len(data) else None
    return None


def item_text(kind, data):
    try:
        return kind(data)
    except (IndexError, struct.error):
        return f"an item that is too short: {data.hex().upper() or '-'}"


def template_lines(items):
    """The lines of a template, those between dependent functions further in."""
    lines, depth = [], 0
    for at, kind, data in items:
        inside = depth if kind not in (start_dependent, SMALL[0x07]) else 0
        lines.append(f"{at:4}  {'  ' * inside}{item_text(kind, data)}")
        depth = {start_dependent: 1, SMALL[0x07]: 0}.get(kind, depth)
    return lines


# ---- what is shown


def as_text(data):
    return "".join(chr(it) if 0x20 <= it < 0x7F and it != 0x5C else f"\\x{it:02X}" for it in data)


def rows_of(data):
    """Rows of 16 bytes with their letters."""
    rows = [(at, data[at : at + 16]) for at in range(0, len(data), 16)]
    return [f"{at:4X}  {row.hex(' ').upper():<47}  {''.join(chr(it) if 0x20 <= it < 0x7F else '.' for it in row)}" for at, row in rows]


def buffer_lines(data):
    items = items_of(data)
    head = f"buffer of {len(data)} bytes"
    if items:
        return [f"{head}, as a resource template:"] + ["  " + it for it in template_lines(items)]
    if len(data) == 16:
        head += f", as a UUID {str(uuid.UUID(bytes_le=data)).upper()}"
    return [head + (":" if data else "")] + ["  " + it for it in rows_of(data)]


def pin_of(entry):
    """The row of a table of pins: device, function, pin and what it leads to. None where the value is no such entry."""
    kind, parts = entry
    if kind != "package" or len(parts) != 4 or [it[0] for it in parts[:2]] != ["integer"] * 2 or parts[3][0] != "integer":
        return None
    (_, address), (_, pin), (source_kind, source), (_, index) = parts
    if pin > 3 or address >= 1 << 32 or source_kind not in ("integer", "name", "string", "reference"):
        return None
    if source_kind == "integer":
        leads = f"interrupt {index}" if source == 0 else f"source {source}"
    else:
        named = as_text(source) if source_kind == "string" else source or "a reference"
        leads = named + (f" index {index}" if index else "")
    function = "all" if address & 0xFFFF == 0xFFFF else str(address & 0xFFFF)
    return f"{address >> 16:>6}  {function:>8}  {PINS[pin]:>3}  {leads}"


def pins_of(elements):
    """The rows of a _PRT, or None where some element is none of it."""
    rows = [pin_of(it) for it in elements]
    return rows if rows and all(rows) else None


def package_lines(elements):
    rows = pins_of(elements)
    if rows:
        return [f"package of {len(elements)}, as a _PRT:", "  device  function  pin  leads to"] + ["  " + it for it in rows]
    lines = [f"package of {len(elements)}" + (":" if elements else "")]
    for number, element in enumerate(elements):
        first, *rest = lines_of(element)
        lines += [f"  {number}: {first}"] + ["  " + " " * (len(str(number)) + 2) + it for it in rest]
    return lines


def lines_of(value):
    kind, what = value
    if kind == "integer":
        return [f"integer {integer_text(what)}"]
    if kind == "string":
        return [f'string "{as_text(what)}"']
    if kind == "buffer":
        return buffer_lines(what)
    if kind == "package":
        return package_lines(what)
    return [f"{kind} {what}" if kind == "name" else kind]


def main(words):
    parser = usage.parser(__doc__)
    parser.add_argument("value", nargs="?", metavar="VALUE", help=argparse.SUPPRESS)
    name = parser.parse_args(words).value
    sys.setrecursionlimit(10000)
    return usage.write_out(lambda: "\n".join(lines_of(value_of(usage.ascii_in(name, "value")))) + "\n")


if __name__ == "__main__":
    sys.exit(main(sys.argv[1:]))
