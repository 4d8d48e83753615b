#!/usr/bin/env python3
"""How many reads and writes of fields a second are evaluated.

    benches/fields.py [PROGRAM]

The program is run as `eval` on machines of one control method, which reads or writes a field in a loop: fields of 8, 12 and
64 bits, by accesses of bytes, words, double words and quad words, in a region of memory and in one of ports. Each line has the
seconds of the fastest of three runs, and the operations and the accesses of the register space a second; a write of a part of
a unit is two accesses. Loading and starting are in these seconds, and so is the loop: the first lines say how long they take
by themselves. With no program named, it is acpiroute: build it first by `rt run -- --help` in crates/acpiroute.
"""
import sys

sys.dont_write_bytecode = True
from evaluation import PROGRAM, answer_help, counting, integer, machine, method, package, program_there, run

OPERATIONS = 100_000
START = 0x60
BYTES = 16
# each: the word of its lines in a machine text, and the number of the address space
SPACES = [("mem", 0), ("io", 1)]
# each: name, number in the flags of a field list, bits
WIDTHS = [("Byte", 1, 8), ("Word", 2, 16), ("DWord", 3, 32), ("QWord", 4, 64)]
# each: the first bit of the field in its region, and how many it has
FIELDS = [(0, 8), (4, 12), (0, 64)]


def declarations(space, flags, first, bits):
    """An operation region, and in it a field that is named FLD_."""
    region = b"\x5b\x80REG_" + bytes([space]) + integer(START) + integer(BYTES)
    reserved = b"\x00" + length_of(first) if first else b""
    return region + package(b"\x5b\x81", b"REG_" + bytes([flags]) + reserved + b"FLD_" + length_of(bits))


def length_of(bits):
    """A count of bits as a package length."""
    return bytes([bits]) if bits < 64 else bytes([0x40 | bits & 15, bits >> 4])


def units(first, bits, width):
    """For each unit of a field whether the field covers it whole."""
    end = first + bits
    return [first <= start and start + width <= end for start in range(first // width * width, end, width)]


def text(space, terms):
    """A machine text with these terms, and with bytes where the region is."""
    return machine(terms) + f"{space} {START:X} {bytes(range(1, BYTES + 1)).hex().upper()}\n".encode()


def looping(body):
    """A method whose loop has this body; what it stores is in Local0."""
    return method(b"M000", 0, b"\x70\x0a\x5a\x60" + counting(OPERATIONS, body))


def main():
    answer_help(__doc__)
    program = program_there(sys.argv[1] if len(sys.argv) > 1 else PROGRAM)
    seconds, said = run(program, text("mem", method(b"M000", 0, b"\xa4\x01")), [])
    print(f"{'nothing':28} {seconds:8.3f} s  {said}")
    seconds, said = run(program, text("mem", looping(b"\x70\x60\x61")), [])
    print(f"{'stores to a local':28} {seconds:8.3f} s  {OPERATIONS / seconds:9.0f} operations a second  {said}")
    for name, space in SPACES:
        for width, flags, size in WIDTHS:
            for first, bits in FIELDS:
                whole = units(first, bits, size)
                for verb, body, accesses in [
                    ("read", b"\x70FLD_\x61", len(whole)),
                    ("write", b"\x70\x60FLD_", sum(1 if covered else 2 for covered in whole)),
                ]:
                    terms = declarations(space, flags, first, bits) + looping(body)
                    seconds, said = run(program, text(name, terms), [])
                    case = f"{name} {width:5} {bits:2} bits {verb:5}"
                    rates = f"{OPERATIONS / seconds:9.0f} operations {accesses * OPERATIONS / seconds:9.0f} accesses a second"
                    print(f"{case:28} {seconds:8.3f} s  {rates}  {said}")


if __name__ == "__main__":
    main()
