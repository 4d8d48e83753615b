"""Hands on what a gate prints, and tells before its last line at which minute each crate was proved, and its edits begun, and how
many processor minutes the whole run took."""
import os
import sys
import time

start, steps, held = time.time(), [], b""


def busy():
    """The processor seconds of this machine so far, all processes together, or 0 where they can't be read."""
    try:
        with open("/proc/stat", encoding="ascii") as it:
            user, nice, system = it.readline().split()[1:4]
    except (OSError, ValueError):
        return 0
    return (int(user) + int(nice) + int(system)) / os.sysconf("SC_CLK_TCK")


def minute(what):
    return f"minute {(time.time() - start) / 60:.1f}: {what}\n".encode()


busy_before = busy()
for line in sys.stdin.buffer:
    sys.stdout.buffer.write(held)
    sys.stdout.buffer.flush()
    held = line
    said = line.decode(errors="replace").rstrip()
    if said.startswith("rt: ") and said.endswith(("proved", "PROVED")) or "trying its must-fail edits" in said:
        steps.append(minute(said[4:]))
spent = f"ended, after {(busy() - busy_before) / 60:.0f} processor minutes of this machine"
sys.stdout.buffer.write(b"".join([*steps, minute(spent), held]))
