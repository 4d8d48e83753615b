#!/usr/bin/env python3
"""What the calls of a static library cost a program in C.

    benches/calls.py LIBRARY [MACHINE:MODE]..

LIBRARY is one that tools/kernel_library.py makes. For each machine text, by default examples/i440fx.txt and q35.txt, it is routed
in the given mode over a record of accesses, and a line is printed: accesses, calls, milliseconds (of the processor, the least of
20 times), milliseconds a call, allocations a call, the most KiB of memory at once beside the text and the record, and the bytes
of stack.

benches/stack.py measures the stack of the deepest evaluations."""
import os
import subprocess
import sys
import tempfile

sys.path.insert(0, os.path.join(os.path.dirname(os.path.dirname(os.path.abspath(__file__))), "tools"))
sys.dont_write_bytecode = True
from usage import answer_help, file_there

HERE = os.path.dirname(os.path.abspath(__file__))
TOP = os.path.dirname(HERE)


def built(library, folder):
    host = os.path.join(folder, "calls")
    sources = [os.path.join(HERE, "calls.c"), os.path.join(TOP, "examples/c/bytes.c")]
    subprocess.run(["cc", "-std=gnu11", "-O2", "-Wall", "-Wextra", "-Werror", "-I", os.path.join(TOP, "include"), *sources, library,
                    "-lpthread", "-Wl,--gc-sections", "-o", host], check=True)
    return host


def row(host, machine, mode):
    said = subprocess.run([host, "configure", machine, mode], capture_output=True, text=True, check=True).stdout.split()
    accesses, calls, allocations, most, deepest, time = map(int, said[:6])
    name = os.path.splitext(os.path.basename(machine))[0]
    cells = [f"`{name}`, {mode}", accesses, calls, f"{time / 1000:.1f}", f"{time / 1000 / calls:.2f}", f"{allocations // calls:,}"]
    print("|", *(f"{it} |" for it in [*cells, most // 1024, f"{deepest:,}"]), " ".join(said[6:]), flush=True)


def main():
    answer_help(__doc__)
    if len(sys.argv) < 2:
        sys.exit(__doc__)
    library = os.path.abspath(file_there(sys.argv[1]))
    machines = sys.argv[2:] or [f"{TOP}/examples/{it}" for it in ("i440fx.txt:pic", "q35.txt:pic", "q35.txt:apic")]
    machines = [it.rpartition(":")[::2] for it in machines]
    for machine, mode in machines:
        if mode not in ("apic", "pic"):
            sys.exit(f"calls.py: {mode}: a machine text and its mode are wanted, such as examples/q35.txt:pic")
        file_there(machine)
    with tempfile.TemporaryDirectory() as folder:
        host = built(library, folder)
        print("| Machine | Accesses | Calls | Milliseconds | a call | Allocations a call | Most memory, KiB | Stack, bytes |")
        for machine, mode in machines:
            row(host, machine, mode)


if __name__ == "__main__":
    try:
        main()
    except subprocess.CalledProcessError as failed:
        sys.exit(f"calls.py: {failed.cmd[0]} ended with status {failed.returncode}")
