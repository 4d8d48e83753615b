#!/usr/bin/env python3
"""fuzz.py PROGRAM [--minutes M] [--runs N] [--seed S] [--lanes L]: runs the built program over inputs that nobody wrote.

The inputs are the machines of examples/ and their reports with bytes, digits and lines changed, cut or doubled, and machines whose
tables hold random AML under right checksums. A run has to end within ten seconds with a status from 0 to 4, without a signal; a
refusal (status 1) writes nothing to the output and one line `refused N ..` to the errors; any other status writes no such line.
The first input that breaks this is written to fuzz-failure.txt, and the script ends with 1. By default: ten minutes or 100,000 runs."""
import concurrent.futures
import glob
import os
import random
import re
import subprocess
import sys
import threading
import time

sys.dont_write_bytecode = True
from usage import answer_help, program_there

TOP = os.path.dirname(os.path.dirname(os.path.abspath(__file__)))
REFUSED = re.compile(rb"refused (\d+)( at \d+| op [0-9A-F]{4}| tag \d+| line \d+| \\\S*)?\n\Z")
SECONDS = 10
# opcodes and names that random AML is rich in
PIECES = [bytes.fromhex(it) for it in (
    "08", "0A", "0B", "0C", "0D", "0E", "10", "11", "12", "14", "5B80", "5B81", "5B82", "5B86", "5B8C", "5B13", "5B01", "5B23", "70",
    "71", "72", "73", "74", "75", "77", "78", "79", "7A", "83", "86", "87", "88", "8A", "8D", "8E", "90", "92", "93", "95", "96", "97",
    "98", "99", "9C", "A0", "A1", "A2", "A4", "A5", "00", "01", "FF", "60", "61", "68", "69", "5C", "5E", "2E", "2F", "06", "9D")]
NAMES = [b"_SB_", b"_PRT", b"_CRS", b"_PRS", b"_SRS", b"_STA", b"_HID", b"LNKA", b"LNKB", b"PCI0", b"ABCD", b"_INI", b"_PIC", b"_OSI"]


def summed(table):
    """A table with its length and its checksum put right."""
    table = bytearray(table)
    table[4:8] = len(table).to_bytes(4, "little")
    table[9] = 0
    table[9] = -sum(table) % 256
    return bytes(table)


def header(signature, revision):
    return signature + bytes(4) + bytes([revision, 0]) + bytes(26)


def machine(aml):
    """The machine text of a machine whose DSDT holds these bytes."""
    dsdt = summed(header(b"DSDT", 2) + aml)
    fadt = summed(header(b"FACP", 1) + bytes(4) + (0x1300).to_bytes(4, "little") + bytes(4))
    xsdt = summed(header(b"XSDT", 1) + (0x1200).to_bytes(8, "little"))
    rsdp = bytearray(b"RSD PTR " + bytes(7) + b"\x02" + bytes(4) + (36).to_bytes(4, "little") + (0x1100).to_bytes(8, "little") + bytes(4))
    rsdp[8] = -sum(rsdp[:20]) % 256
    rsdp[32] = -sum(rsdp) % 256
    parts = ((0x1000, bytes(rsdp)), (0x1100, xsdt), (0x1200, fadt), (0x1300, dsdt))
    lines = ["rsdp 1000"] + [f"mem {at:X} {it.hex().upper()}" for at, it in parts] + ["io 60 20 00", "pci 0 0 1F 0 60 0A0B0A0B"]
    return "\n".join(lines).encode() + b"\n"


def package(chance, body):
    """A package length for a body, now and then a wrong one."""
    size = len(body) + 1 if len(body) < 62 else len(body) + 2
    size += chance.choice([-3, -1, 1, 5]) if chance.random() < 0.05 else 0
    size = max(size, 0)
    return (bytes([size & 63]) if size < 64 and len(body) < 62 else bytes([0x40 | size & 15, size >> 4 & 255])) + body


def random_aml(chance, depth=0):
    """Random terms: random pieces, names, and objects within objects."""
    out = b""
    for _ in range(chance.randrange(1, 9)):
        kind = chance.randrange(8)
        if kind < 3:
            out += chance.choice(PIECES)
        elif kind < 5:
            out += chance.choice(NAMES)
        elif kind == 5:
            out += bytes(chance.randrange(256) for _ in range(chance.randrange(1, 4)))
        elif depth < 6:
            inner = chance.choice(NAMES) + random_aml(chance, depth + 1)
            if kind == 6:
                out += b"\x14" + package(chance, inner[:4] + bytes([chance.randrange(8)]) + inner[4:])
            else:
                out += chance.choice([b"\x10", b"\x5B\x82"]) + package(chance, inner)
    return out


def mutated(chance, text):
    """A text with a few changes."""
    text = bytearray(text)
    for _ in range(chance.randrange(1, 6)):
        at = chance.randrange(len(text) + 1)
        kind = chance.randrange(6)
        if kind == 0 and at < len(text):
            text[at] = chance.choice(b"0123456789ABCDEF \n-")
        elif kind == 1 and at < len(text):
            text[at] = chance.randrange(256)
        elif kind == 2:
            del text[at : at + chance.randrange(1, 30)]
        elif kind == 3:
            text[at:at] = text[at : at + chance.randrange(1, 60)]
        elif kind == 4:
            lines = bytes(text).split(b"\n")
            chance.shuffle(lines) if chance.random() < 0.2 else lines.insert(chance.randrange(len(lines) + 1), chance.choice(lines))
            text = bytearray(b"\n".join(lines))
        else:
            del text[at:]
        text = text or bytearray(b"\n")
    return bytes(text)


def mended(chance, text):
    """A machine text whose bytes of the last table are changed under a right checksum, where it has such a table."""
    lines = text.split(b"\n")
    whole, first = b"", None
    for place, line in enumerate(lines):
        words = line.split()
        if len(words) >= 3 and words[0] == b"mem" and int(words[1], 16) >= 0x1300:
            first = place if first is None else first
            whole += bytes.fromhex(b"".join(words[2:]).decode())
    if first is None or len(whole) < 40:
        return mutated(chance, text)
    table = bytearray(whole)
    for _ in range(chance.randrange(1, 4)):
        table[chance.randrange(36, len(table))] = chance.choice([chance.randrange(256), chance.choice(PIECES)[-1]])
    kept = [it for it in lines if not (it.startswith(b"mem") and int(it.split()[1], 16) >= 0x1300)]
    return b"\n".join([*kept, b"mem 1300 " + summed(table).hex().upper().encode(), b""])


class Fuzz:
    def __init__(self, program, seed):
        self.program, self.seed, self.failure, self.lock = program, seed, None, threading.Lock()
        self.statuses = {}
        self.machines, self.reports = [], []
        for file in sorted(glob.glob(f"{TOP}/examples/*.txt")):
            with open(file, "rb") as it:
                text = it.read()
            ran = self.run(["route"], text)
            if ran.returncode in (0, 3):
                self.machines.append(text)
                self.reports.append(ran.stdout)

    def run(self, words, text):
        return subprocess.run([self.program, *words], input=text, capture_output=True, timeout=SECONDS, check=False, env={})

    def case(self, number):
        """The words and the input of a run."""
        chance = random.Random(f"{self.seed} {number}")
        kind = chance.randrange(10)
        if kind < 2:
            return ["check"], mutated(chance, chance.choice(self.reports))
        words = chance.choice([
            ["route"], ["route", "--dry"], ["route", "--mode", "pic"], ["route", "--avoid", "5,10"], ["names"],
            ["eval", "\\_SB_.LNKA._CRS"], ["eval", "\\ABCD", "1"],
        ])
        words = words[:1] + ["--steps", "20000"] + words[1:]
        if kind < 4:
            return words, mutated(chance, chance.choice(self.machines))
        if kind < 7:
            return words, mended(chance, chance.choice(self.machines))
        return words, machine(random_aml(chance))

    def fault(self, ran):
        """What a run breaks, or nothing."""
        if not 0 <= ran.returncode <= 4:
            return f"status {ran.returncode}"
        if ran.returncode == 1 and (ran.stdout or not REFUSED.fullmatch(ran.stderr)):
            return "a refusal beside output, or in other words"
        if ran.returncode == 2:
            return "a faulty command line"
        if ran.returncode != 1 and ran.stderr:
            return "a line of errors beside a result"
        return None

    def one(self, number):
        words, text = self.case(number)
        try:
            ran = self.run(words, text)
            fault, status = self.fault(ran), ran.returncode
        except subprocess.TimeoutExpired:
            fault, status = f"no end within {SECONDS} seconds", "none"
        with self.lock:
            self.statuses[status] = self.statuses.get(status, 0) + 1
            if fault and not self.failure:
                self.failure = f"run {number}: {fault}: {' '.join(words)}"
                with open("fuzz-failure.txt", "wb") as it:
                    it.write(text)


def option(words, name, value):
    return type(value)(words[words.index(name) + 1]) if name in words else value


def main(words):
    answer_help(__doc__)
    if not words or words[0].startswith("-"):
        print(__doc__)
        return 2
    runs, minutes = option(words, "--runs", 100_000), option(words, "--minutes", 10.0)
    fuzz = Fuzz(os.path.abspath(program_there(words[0])), option(words, "--seed", "1"))
    end, done = time.time() + 60 * minutes, 0
    with concurrent.futures.ThreadPoolExecutor(option(words, "--lanes", os.cpu_count() or 2)) as pool:
        while done < runs and time.time() < end and not fuzz.failure:
            some = min(500, runs - done)
            list(pool.map(fuzz.one, range(done, done + some)))
            done += some
    print(f"{done} runs; by status: {', '.join(f'{it}: {n}' for it, n in sorted(fuzz.statuses.items(), key=str))}")
    if fuzz.failure:
        print(f"{fuzz.failure}; its input is in fuzz-failure.txt")
        return 1
    return 0


if __name__ == "__main__":
    sys.exit(main(sys.argv[1:]))
