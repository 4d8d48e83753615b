#!/usr/bin/env python3
"""The least stack on which the deepest evaluations run.

    benches/stack.py [PROGRAM | LIBRARY.a]

For each kind of term, 32 control methods call one another, each through as many terms of this kind, one inside the other, as are
taken; and then 4 of them do the same with the setting `--calls 4 --levels 8`. The last one ends the evaluation by Fatal, so that the terms
around the calls need not give the values that are wanted there.
A program is run on the first of them with ever smaller stacks, and the least one on which it ends without a signal is printed, in KiB,
to the nearest 16. With none named, it is the built one in crates/acpiroute/out. Of a library that tools/kernel_library.py makes,
`acpiroute_eval` is called, and it is printed how far down its stack was written to, in KiB. In the kinds of fields, the calls are those
of `_ADR`, which an access to a register of a PCI device makes. In the last kind a table calls the methods, from devices that nest as
deep as they may.
"""
import pathlib
import resource
import subprocess
import sys
import tempfile

import calls as calls_of_library

sys.dont_write_bytecode = True
from usage import answer_help, file_there, program_there

PROGRAM = pathlib.Path(__file__).parent.parent / "crates/acpiroute/out/acpiroute"
# How many calls there may be, and the options that say so: the default, and the setting of a caller with little stack.
SETTINGS = ((32, []), (4, ["--calls", "4", "--levels", "8"]))


def with_length(code, body):
    """A term whose package length follows its opcode."""
    size = len(body)
    if size + 1 < 64:
        return code + bytes([size + 1]) + body
    size += 2 if size + 2 < 1 << 12 else 3
    count = 1 if size < 1 << 12 else 2
    rest = size >> 4
    return code + bytes([count << 6 | size & 15]) + rest.to_bytes(count, "little") + body


def either(body):
    return with_length(b"\xA0", b"\x00") + with_length(b"\xA1", body)


def index(of):
    return b"\x88" + of + b"\x00\x00"


def dereferenced(term):
    return b"\x83" + term


def buffer(size):
    return with_length(b"\x11", size)


KINDS = {
    "Else": either,
    "If": lambda x: with_length(b"\xA0", b"\x01" + x),
    "While": lambda x: with_length(b"\xA2", b"\x01" + x + b"\xA5"),
    "Add": lambda x: b"\x72" + x + b"\x00\x00",
    "Add, second operand": lambda x: b"\x72\x00" + x + b"\x00",
    "Divide": lambda x: b"\x78" + x + b"\x01\x00\x00",
    "Not": lambda x: b"\x80" + x + b"\x00",
    "Store": lambda x: b"\x70" + x + b"\x60",
    "CopyObject": lambda x: b"\x9D" + x + b"\x60",
    "LNot": lambda x: b"\x92" + x,
    "LAnd": lambda x: b"\x90" + x + b"\x01",
    "Concat": lambda x: b"\x73" + x + b"\x00\x00",
    "ConcatRes": lambda x: b"\x84" + x + b"\x11\x02\x00\x00",
    "ToInteger": lambda x: b"\x99" + x + b"\x00",
    "Index": index,
    "DerefOf": dereferenced,
    "SizeOf of a DerefOf": lambda x: b"\x87" + dereferenced(x),
    "SizeOf of an Index": lambda x: b"\x87" + index(x),
    "ObjectType of an Index": lambda x: b"\x8E" + index(x),
    "CondRefOf of an Index": lambda x: b"\x5B\x12" + index(x) + b"\x00",
    "RefOf of an Index": lambda x: b"\x71" + index(x),
    "RefOf of a DerefOf": lambda x: b"\x71" + dereferenced(x),
    "Increment of an Index": lambda x: b"\x75" + index(x),
    "Acquire of an Index": lambda x: b"\x5B\x23" + index(x) + b"\xFF\xFF",
    "Store to an Index": lambda x: b"\x70\x00" + index(x),
    "Store to a DerefOf": lambda x: b"\x70\x00" + dereferenced(x),
    "Add to an Index": lambda x: b"\x72\x00\x00" + index(x),
    "Divide to an Index": lambda x: b"\x78\x00\x01" + index(x) + b"\x00",
    "Not to an Index": lambda x: b"\x80\x00" + index(x),
    "Buffer": buffer,
    "VarPackage, its size": lambda x: with_length(b"\x13", x),
    "argument of a call": lambda x: b"ID__" + x,
}

# A package holds no calls but in the sizes of its buffers.
ELEMENTS = {
    "Package": lambda x: with_length(b"\x12", b"\x01" + x),
    "VarPackage": lambda x: with_length(b"\x13", b"\x01" + x),
}


def method(name, arguments, body):
    return with_length(b"\x14", name + bytes([arguments]) + body)


def nested(wrap, depth, inner):
    for _ in range(depth):
        inner = wrap(inner)
    return inner


# Refused as 77.
FATAL = b"\x5B\x32\x00\x00\x00\x00\x00\x00"


def calls(wrap, count, depth, last=lambda x: x):
    """A table of so many methods, each of which calls the next one inside so many terms."""
    table = method(b"ID__", 1, b"\xA4\x68")
    for n in range(count - 1):
        table += method(b"M%03d" % n, 0, nested(wrap, depth, last(b"M%03d" % (n + 1))))
    return table + method(b"M%03d" % (count - 1), 0, FATAL)


def fields(wrap, count, depth, access):
    """A table of devices: an access to the register of one calls its `_ADR`, which makes an access to the next one's."""
    register = lambda n: b"\x5C\x2F\x03PCI0D%03dREG_" % n
    asked = lambda n: FATAL if n == count - 1 else nested(wrap, depth, access(register(n + 1)))
    region = b"\x5B\x80SPC_\x02\x00\x0A\x04" + with_length(b"\x5B\x81", b"SPC_\x03REG_\x20")
    table = b"".join(with_length(b"\x5B\x82", b"D%03d" % n + method(b"_ADR", 0, asked(n)) + region) for n in range(1, count))
    bridge = with_length(b"\x5B\x82", b"PCI0" + b"\x08_HID\x0C\x41\xD0\x0A\x03" + table)
    return bridge + method(b"M000", 0, asked(0))


def devices(count, depth):
    """A table of devices one inside the other, the innermost of which has a region whose offset the methods say, each through Else."""
    region = b"\x5B\x80SPC_\x00M000\x01"
    return calls(either, count, 63 if count == 32 else 7) + nested(lambda x: with_length(b"\x5B\x82", b"DEV_" + x), depth, region)


def table(signature, revision, body):
    bytes_of = bytearray(signature + (36 + len(body)).to_bytes(4, "little") + bytes([revision, 0]) + bytes(26) + body)
    bytes_of[9] = -sum(bytes_of) % 256
    return bytes(bytes_of)


def machine(aml):
    """The machine text of a machine whose DSDT holds these bytes."""
    fadt = table(b"FACP", 1, bytes(4) + (0x10000).to_bytes(4, "little") + bytes(4))
    xsdt = table(b"XSDT", 1, (0x1200).to_bytes(8, "little"))
    rsdp = bytearray(b"RSD PTR " + bytes(7) + b"\x02" + bytes(4) + (36).to_bytes(4, "little") + (0x1100).to_bytes(8, "little") + bytes(4))
    rsdp[8] = -sum(rsdp[:20]) % 256
    rsdp[32] = -sum(rsdp) % 256
    parts = ((0x1000, bytes(rsdp)), (0x1100, xsdt), (0x1200, fadt), (0x10000, table(b"DSDT", 2, aml)))
    return ("rsdp 1000\n" + "".join(f"mem {at:X} {it.hex()}\n" for at, it in parts)).encode()


def ended(program, options, text, kib):
    """How a run on so small a stack ended: its status, negative for a signal, and its line of errors."""
    limit = lambda: resource.setrlimit(resource.RLIMIT_STACK, (kib * 1024, kib * 1024))
    words = [program, "eval", "--steps", "1000000000", *options, "\\M000"]
    done = subprocess.run(words, input=text, capture_output=True, preexec_fn=limit)
    return done.returncode, done.stderr.decode().strip()


def least(program, options, text):
    low, high = 16, 16384
    while high - low > 16:
        middle = (low + high) // 2
        if ended(program, options, text, middle)[0] < 0:
            low = middle
        else:
            high = middle
    return high


def deepest(tried, count, options, make):
    """The deepest nesting that is taken, and its text."""
    for depth in range(64, 0, -1):
        text = machine(make(count, depth))
        if tried.ended(options, text) == "refused 77":
            return depth, text
    return 0, machine(make(count, 0))


class Program:
    """A built program."""

    def __init__(self, name):
        self.name = program_there(name)

    def ended(self, options, text):
        return ended(self.name, options, text, 65536)[1]

    def taken(self, options, text):
        return least(self.name, options, text)


class Library:
    """A static library, under a host."""

    def __init__(self, name, folder):
        self.host, self.text = calls_of_library.built(file_there(name), folder), f"{folder}/machine.txt"

    def said(self, options, text):
        with open(self.text, "wb") as it:
            it.write(text)
        words = [self.host, "eval", self.text, " ".join(options)]
        return subprocess.run(words, capture_output=True, text=True, check=True).stdout.split(None, 1)

    def ended(self, options, text):
        return self.said(options, text)[1].strip()

    def taken(self, options, text):
        return -(-int(self.said(options, text)[0]) // 1024)


def cases():
    """Each kind of term, with its table for so many calls and a depth."""
    found = [(name, lambda count, depth, wrap=wrap: calls(wrap, count, depth)) for name, wrap in KINDS.items()]
    found += [(name, lambda count, depth, wrap=wrap: calls(wrap, count, depth, buffer)) for name, wrap in ELEMENTS.items()]
    accesses = (("read", lambda it: it), ("stored to", lambda it: b"\x70\x00" + it), ("counted", lambda it: b"\x75" + it))
    for what, access in accesses:
        found.append((f"Else, and fields {what}", lambda count, depth, access=access: fields(either, count, depth, access)))
    return [*found, ("Else, called from devices", devices)]


def main():
    answer_help(__doc__)
    name = sys.argv[1] if sys.argv[1:] else str(PROGRAM)
    with tempfile.TemporaryDirectory() as folder:
        tried = Library(name, folder) if name.endswith(".a") else Program(name)
        for kind, make in cases():
            said = []
            for count, options in SETTINGS:
                depth, text = deepest(tried, count, options, make)
                said.append(f"{count} calls, {depth} deep: {tried.taken(options, text)} KiB")
            print(f"{kind:28}", "; ".join(said), flush=True)


if __name__ == "__main__":
    main()
