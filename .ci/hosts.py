"""Hands on what a gate prints. Where nothing failed it compiles the static libraries from what was proved, before the last line, and has
examples/embedding.py ask each of their calls from C; where that fails, the last line and the exit status say so."""
import os
import shutil
import subprocess
import sys

TOP = os.path.dirname(os.path.dirname(os.path.abspath(__file__)))
CRATE = os.path.join(TOP, "crates", "acpiroute_c", "out")
KIT = os.path.dirname(os.path.dirname(os.path.realpath(shutil.which("rt") or "/")))
PLAIN = ["--library", os.path.join(CRATE, "libacpiroute_c.a"), "--library", os.path.join(KIT, "c", "liblibc_c.a")]
KERNEL = ["--calls", "--library", os.path.join(CRATE, "kernel", "libacpiroute_kernel.a")]
NO_SSE = ["--calls", "--library", os.path.join(CRATE, "kernel", "libacpiroute_kernel_no_sse.a")]
STEPS = [["tools/kernel_library.py"], ["examples/embedding.py", *PLAIN], ["examples/embedding.py", *KERNEL], ["examples/embedding.py", *NO_SSE]]


def runs(words):
    print(f"hosts: {words[0]}", flush=True)
    return subprocess.run([sys.executable, *words], cwd=TOP, stdin=subprocess.DEVNULL, check=False).returncode == 0


held = b""
for line in sys.stdin.buffer:
    sys.stdout.buffer.write(held)
    sys.stdout.buffer.flush()
    held = line
is_well = b" 0 failed" in held
if is_well and shutil.which("cc") is None:
    print("hosts: cc is not installed: the calls from C are not tried", flush=True)
elif is_well and not all(runs(it) for it in STEPS):
    held = b"0 passed, 1 failed: the calls from C, over the libraries of what was proved\n"
    is_well = False
sys.stdout.buffer.write(held)
sys.exit(0 if is_well else 1)
