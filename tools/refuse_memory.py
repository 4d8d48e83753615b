#!/usr/bin/env python3
"""refuse_memory.py PROGRAM [--every N] [--calls CALLS] [MACHINE ..]: refuses each allocation of the built program in turn.

Each run is made once with ample memory, and then again and again with its first, second, third allocation refused, until none is left
to refuse. A run whose allocation was refused has to end with status 1, an empty output and the one line `refused 99`, or with status 2
where the command line was being read, or exactly as with ample memory where the program didn't need it. By default: route, names and
check on examples/two-links.txt, route and a method on examples/i440fx.txt. With --every N only each Nth allocation is refused.

With --calls, the built program of crates/library_calls is run in the same way. It makes each call of the libraries once, and tells by
itself whether what is promised of want of memory holds.

It needs a C compiler (`cc`), for the shim that refuses, and a program that is linked to the system's C library."""
import os
import subprocess
import sys
import tempfile

sys.dont_write_bytecode = True
from usage import answer_help, file_there, program_there

TOP = os.path.dirname(os.path.dirname(os.path.abspath(__file__)))
SHIM = r"""
#define _GNU_SOURCE
#include <dlfcn.h>
#include <errno.h>
#include <stdio.h>
#include <stdlib.h>
static unsigned long made, refused;
static int is_refused(void) {
    static int known;
    if (!known) { const char *text = getenv("REFUSED_ALLOCATION"); refused = text ? strtoul(text, 0, 10) : 0; known = 1; }
    if (++made != refused) return 0;
    errno = ENOMEM;
    return 1;
}
extern void *__libc_malloc(size_t), *__libc_realloc(void *, size_t), *__libc_calloc(size_t, size_t), *__libc_memalign(size_t, size_t);
void *malloc(size_t size) { return is_refused() ? 0 : __libc_malloc(size); }
void *calloc(size_t n, size_t size) { return is_refused() ? 0 : __libc_calloc(n, size); }
void *realloc(void *old, size_t size) { return is_refused() ? 0 : __libc_realloc(old, size); }
void *aligned_alloc(size_t to, size_t size) { return is_refused() ? 0 : __libc_memalign(to, size); }
int posix_memalign(void **at, size_t to, size_t size) {
    if (is_refused()) return ENOMEM;
    *at = __libc_memalign(to, size);
    return *at ? 0 : ENOMEM;
}
__attribute__((destructor)) static void tell(void) {
    const char *name = getenv("ALLOCATIONS_MADE");
    FILE *file = name ? fopen(name, "w") : 0;
    if (file) { fprintf(file, "%lu", made); fclose(file); }
}
"""


class Runs:
    """Runs of the program under the shim."""

    def __init__(self, program, folder):
        self.program, self.shim, self.counted = os.path.abspath(program), f"{folder}/shim.so", f"{folder}/made"
        with open(f"{folder}/shim.c", "w") as it:
            it.write(SHIM)
        subprocess.run(["cc", "-O2", "-shared", "-fPIC", "-o", self.shim, f"{folder}/shim.c"], check=True)

    def run(self, words, text, refused=0):
        env = {"LD_PRELOAD": self.shim, "REFUSED_ALLOCATION": str(refused), "ALLOCATIONS_MADE": self.counted}
        ran = subprocess.run([self.program, *words], input=text, env=env, capture_output=True, timeout=60)
        return ran.returncode, ran.stdout, ran.stderr

    def made(self):
        with open(self.counted) as it:
            return int(it.read())


def is_promised(found, ample):
    """Whether a run that had an allocation refused ended as it may."""
    status, output, errors = found
    return found == ample or (status == 1 and output == b"" and errors == b"refused 99\n") or (status == 2 and output == b"")


def is_told(found):
    """Whether a run of every call told that what is promised holds, or could not tell anything for want of memory."""
    status, output, errors = found
    told = status == 0 and output in (b"every call answers\n", b"memory ran out, as promised\n")
    return told or (status > 0 and output == b"" and b"emory" in errors)


def fail(what, number, count, found):
    """Ends the script by what a run was that had one of its allocations refused."""
    status, output, errors = found
    sys.exit(f"{what}: with allocation {number} of {count} refused: status {status}, output {output[:1000]!r}, errors {errors!r}")


def tell(what, count, ended, every, how):
    print(f"{what}: {count} allocations, {ended} of {len(range(1, count + 1, every))} refused {how}", flush=True)


def refuse_calls(runs, every):
    """Refuses each allocation of the program that makes every call."""
    ample = runs.run([], b"")
    count, ended = runs.made(), 0
    if ample[:2] != (0, b"every call answers\n"):
        sys.exit(f"the program of every call: status {ample[0]}, output {ample[1]!r}")
    for number in range(1, count + 1, every):
        found = runs.run([], b"", number)
        if not is_told(found):
            fail("every call", number, count, found)
        ended += found[1] == b"memory ran out, as promised\n"
    tell("every call", count, ended, every, "ended one of the calls, as promised")


def refuse_each(runs, words, text, every):
    """Refuses each allocation of one run in turn, and answers how many ended in 99."""
    ample = runs.run(words, text)
    count, ended = runs.made(), 0
    for number in range(1, count + 1, every):
        found = runs.run(words, text, number)
        if not is_promised(found, ample):
            fail(" ".join(words), number, count, found)
        ended += found[2] == b"refused 99\n"
    if not ended:
        sys.exit(f"{' '.join(words)}: no refused allocation was told; is the program linked to the system's C library?")
    tell(" ".join(words), count, ended, every, "ended in 99, as promised the others")


def read(name):
    with open(name, "rb") as it:
        return it.read()


def main(words):
    answer_help(__doc__)
    every = 1
    if "--every" in words:
        at = words.index("--every")
        every = int(words[at + 1])
        del words[at:at + 2]
    calls = None
    if "--calls" in words:
        at = words.index("--calls")
        calls = program_there(words[at + 1])
        del words[at:at + 2]
    if not words:
        sys.exit(__doc__)
    program, machines = program_there(words[0]), [file_there(it) for it in words[1:]]
    at = f"{TOP}/examples"
    plan = [(["route"], it) for it in machines]
    if not machines:
        two, report = f"{at}/two-links.txt", f"{at}/two-links.report"
        plan = [(["route"], two), (["names"], two), (["check"], report), (["route"], f"{at}/index.txt")]
        plan += [(["route", "--dry"], f"{at}/i440fx.txt"), (["eval", "\\_SB_.PCI0._PRT"], f"{at}/i440fx.txt")]
        plan += [(["eval", "\\_OSI", it], two) for it in ("s:Linux", "b:00FF")]
    with tempfile.TemporaryDirectory(prefix="refuse-memory-") as folder:
        runs = Runs(program, folder)
        for arguments, file in plan:
            refuse_each(runs, arguments, read(file), every)
        if calls:
            refuse_calls(Runs(calls, folder), every)


if __name__ == "__main__":
    main(sys.argv[1:])
