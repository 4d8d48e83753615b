#!/usr/bin/env python3
"""How fast 16 MiB of machine text are read.

    benches/machine_text.py [PROGRAM [WORD..]]

The program is run on a machine text of 16,777,216 bytes, the longest that acpiroute takes, and the bytes per second of
the fastest of three runs are printed. With no program named, it is `timing machine-text`, which reads the text and does
nothing else: build it first by `rt run` in crates/timing. The text is the same at each
call: an RSDP's address, and lines of 32 bytes of memory each, from low addresses upwards in the first half and in a
mixed order in the second.
"""
import pathlib
import subprocess
import sys
import time

sys.path.insert(0, str(pathlib.Path(__file__).parent.parent / "tools"))
sys.dont_write_bytecode = True
from usage import answer_help, program_there

SIZE = 16_777_216
LINE_BYTES = 32
PROGRAM = [pathlib.Path(__file__).parent.parent / "crates/timing/out/timing", "machine-text"]


def machine_text():
    lines = ["rsdp 0\n"]
    size = len(lines[0])
    n = 0
    place = 1
    while True:
        upwards = size < SIZE // 2
        place = (place * 1_103_515_245 + 12_345) % 2**31
        address = n * LINE_BYTES if upwards else 2**32 + place
        data = "".join(f"{(n * 7 + i) % 256:02X}" for i in range(LINE_BYTES))
        line = f"mem {address:X} {data}\n"
        if size + len(line) > SIZE:
            break
        lines.append(line)
        size += len(line)
        n += 1
    rest = SIZE - size
    if rest:
        lines.append("#" * (rest - 1) + "\n")
    return "".join(lines).encode()


def main():
    answer_help(__doc__)
    command = sys.argv[1:] or PROGRAM
    program_there(command[0])
    text = machine_text()
    assert len(text) == SIZE
    fastest = None
    for _ in range(3):
        start = time.monotonic()
        subprocess.run(command, input=text, stdout=subprocess.DEVNULL, stderr=subprocess.DEVNULL, check=False)
        seconds = time.monotonic() - start
        fastest = seconds if fastest is None else min(fastest, seconds)
    print(f"{SIZE} bytes, {fastest:.2f} seconds, {SIZE / fastest:.0f} bytes per second")


if __name__ == "__main__":
    main()
