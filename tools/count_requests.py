#!/usr/bin/env python3
"""count_requests.py PROGRAM: counts the requests for memory of the built program while it evaluates short and long methods.

The body of a method is evaluated where it stands in the bytes of its table, and nothing is kept of its terms. So a method of 1,000
terms of a kind that makes no object has to make as many requests as a method of one such term. Both methods stand in the same
machine text, and each is evaluated by a run of its own. The script ends with 1 where the counts differ.

It needs a C compiler (`cc`), for the shim that counts, and a program that is linked to the system's C library."""
import sys
import tempfile

sys.dont_write_bytecode = True
from fuzz import machine
from refuse_memory import Runs
from usage import answer_help, program_there

# how many terms the long method has
TERMS = 1000
# terms that make no object
KINDS = (
    ("Noop", "A3"),
    ("If (One) {Noop}", "A0 03 01 A3"),
    ("If (Zero) {Noop} Else {Noop}", "A0 03 00 A3 A1 02 A3"),
    ("Add (Local0, One, Local0)", "72 60 01 60"),
    ("Store (Arg0, Local1)", "70 68 61"),
)
SHORT, LONG = b"SHRT", b"LONG"
ARGUMENT = "0"


def method(name, term, count):
    """Method (name, 1) with an integer in Local0, the term so many times, and `Return (Zero)`."""
    body = name + b"\x01" + b"\x70\x00\x60" + count * term + b"\xa4\x00"
    size = len(body) + 3
    return b"\x14" + bytes([0x80 | size & 15, size >> 4 & 255, size >> 12]) + body


def requests(runs, text, name):
    """How many requests the evaluation of a method makes."""
    status, _, errors = runs.run(["eval", f"\\{name.decode()}", ARGUMENT], text)
    if status:
        sys.exit(f"\\{name.decode()}: status {status}, errors {errors!r}")
    # the last one is the shim's own
    return runs.made() - 1


def main(words):
    answer_help(__doc__)
    if len(words) != 1:
        sys.exit(__doc__)
    with tempfile.TemporaryDirectory(prefix="count-requests-") as folder:
        runs = Runs(program_there(words[0]), folder)
        for kind, digits in KINDS:
            term = bytes.fromhex(digits)
            text = machine(method(SHORT, term, 1) + method(LONG, term, TERMS))
            short, long = requests(runs, text, SHORT), requests(runs, text, LONG)
            if not short:
                sys.exit("no request was counted; is the program linked to the system's C library?")
            if short != long:
                sys.exit(f"{kind}: a method of one makes {short} requests for memory, and a method of {TERMS:,} makes {long}")
            print(f"{kind}: {short} requests for memory, in a method of one and in a method of {TERMS:,}")


if __name__ == "__main__":
    main(sys.argv[1:])
