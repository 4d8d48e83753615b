#!/usr/bin/env python3
"""How many steps of AML a second are evaluated.

    benches/evaluation.py [PROGRAM]

The program is run as `eval` on machines of one control method, and the seconds of the fastest of three runs are printed with
the steps that were taken and the steps a second. Loading and starting are in these seconds; the first line says how long
they take by themselves. With no program named, it is acpiroute: build it first by `rt run -- --help` in crates/acpiroute.

The bodies: a loop of a million turns that adds and stores; a loop of ten million steps that only counts; calls of a small
control method; strings that are joined; buffers that are formed; a deep recursion, each call of which ends in a term that
nests as deep as terms may.
"""
import pathlib
import subprocess
import sys
import time

sys.path.insert(0, str(pathlib.Path(__file__).parent.parent / "tools"))
sys.dont_write_bytecode = True
from usage import answer_help, program_there

PROGRAM = pathlib.Path(__file__).parent.parent / "crates/acpiroute/out/acpiroute"


def package(code, body):
    """A term with a package length."""
    for extra in range(4):
        length = len(body) + 1 + extra
        if (extra == 0 and length < 64) or (extra and length < 1 << (4 + 8 * extra)):
            break
    if extra == 0:
        lead = bytes([length])
    else:
        lead = bytes([extra << 6 | length & 15]) + (length >> 4).to_bytes(extra, "little")
    return code + lead + body


def method(name, arguments, body):
    return package(b"\x14", name + bytes([arguments]) + body)


def integer(number):
    return b"\x0c" + number.to_bytes(4, "little")


def table(signature, revision, body):
    head = signature + (36 + len(body)).to_bytes(4, "little") + bytes([revision, 0]) + bytes(26)
    whole = bytearray(head + body)
    whole[9] = -sum(whole) % 256
    return bytes(whole)


def machine(aml):
    """A machine text whose DSDT has these terms."""
    rsdp = bytearray(b"RSD PTR " + bytes(7) + b"\x02" + bytes(4) + (36).to_bytes(4, "little") + (0x1100).to_bytes(8, "little") + bytes(4))
    rsdp[8] = -sum(rsdp[:20]) % 256
    rsdp[32] = -sum(rsdp) % 256
    tables = {
        0x1000: bytes(rsdp),
        0x1100: table(b"XSDT", 1, (0x1200).to_bytes(8, "little")),
        0x1200: table(b"FACP", 1, bytes(4) + (0x1300).to_bytes(4, "little") + bytes(4)),
        0x1300: table(b"DSDT", 2, aml),
    }
    lines = [f"rsdp 1000\n"]
    lines += [f"mem {address:X} {data.hex().upper()}\n" for address, data in tables.items()]
    return "".join(lines).encode()


def counting(turns, body):
    """A loop of so many turns that counts in Local7."""
    condition = b"\x95\x67" + integer(turns)
    return b"\x70\x00\x67" + package(b"\xa2", condition + body + b"\x75\x67")


# each: name, the terms of the DSDT, the steps that the call of M000 takes
def cases():
    turns = 1_000_000
    # a turn: LLess and its operands 3, the body, Increment 1
    loop = counting(turns, b"\x72\x60\x01\x60\x70\x60\x61")
    yield "Add and Store", method(b"M000", 0, b"\x70\x00\x60" + loop), 2 + 2 + 1 + turns * (3 + 3 + 2 + 1) + 3
    empty = 2_500_000
    yield "While", method(b"M000", 0, counting(empty, b"")), 2 + 1 + empty * (3 + 1) + 3
    calls = 20_000
    # a call: the call and its argument 2, Return and its Add 1 + 3
    called = method(b"ADD1", 1, b"\xa4\x72\x68\x01\x00")
    yield "calls", called + method(b"M000", 0, counting(calls, b"ADD1\x67")), 2 + 1 + calls * (3 + 2 + 4 + 1) + 3
    strings = 20_000
    yield "strings", method(b"M000", 0, counting(strings, b"\x73\x0dAB\x00\x0dCD\x00\x60")), 2 + 1 + strings * (3 + 3 + 1) + 3
    buffers = 20_000
    yield "buffers", method(b"M000", 0, counting(buffers, b"\x70\x11\x05\x0a\x02\x01\x02\x60")), 2 + 1 + buffers * (3 + 3 + 1) + 3
    # 32 calls one inside another, each through 62 terms one inside another
    deep = b"\xa4" + b"\x80" * 61 + b"M000\x76\x68" + b"\x00" * 61
    end = package(b"\xa0", b"\x92\x68" + b"\xa4\x00")
    recursion = method(b"M000", 1, end + deep)
    yield "deep recursion", recursion, None


def run(program, text, words):
    seconds = []
    for _ in range(3):
        start = time.monotonic()
        done = subprocess.run([program, "eval", "--steps", "100000000", "\\M000", *words], input=text, capture_output=True)
        seconds.append(time.monotonic() - start)
    return min(seconds), (done.stdout + done.stderr).decode().strip()


def main():
    answer_help(__doc__)
    program = program_there(sys.argv[1] if len(sys.argv) > 1 else PROGRAM)
    seconds, said = run(program, machine(method(b"M000", 0, b"\xa4\x01")), [])
    print(f"{'nothing':16} {seconds:8.3f} s  {said}")
    for name, aml, steps in cases():
        words = ["31"] if steps is None else []
        seconds, said = run(program, machine(aml), words)
        rate = "" if steps is None else f"{steps:9} steps {steps / seconds:12.0f} a second  "
        print(f"{name:16} {seconds:8.3f} s  {rate}{said}")


if __name__ == "__main__":
    main()
