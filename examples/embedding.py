#!/usr/bin/env python3
"""embedding.py [--calls] [--library FILE].. [--program PROGRAM]

Builds the host programs of examples/c, with `cc`, and of examples/rust, with `rustc` where it is installed, over the static library,
and runs them over the examples of this folder. Of `host`, which hands a whole machine text in:

- each has to write the stored report, and to end with the status of a run that went well;
- a refused machine and faulty options have to give the error lines and statuses of the program;
- with --program, everything is compared with what the built program does, too.

Of `configure`, which makes each access on the model of a chipset: it has to write the report of the same machine, and the registers of
the model have to be set as that report says.

`calls` asks each call with room enough and too little, with faults, and with each request for memory refused. With --calls it is the only
one that is built: over a library for kernels, too.

--library names the static libraries in the order in which they are linked. Left out, they are those that `rt lib` makes in
crates/acpiroute_c, and the kit's own, by which a library takes memory.

Each difference is printed. The last line is `N passed, M failed`, and the exit status is 0 where none failed."""
import argparse
import os
import shutil
import subprocess
import sys
import tempfile

sys.dont_write_bytecode = True
from check import Check

HERE = os.path.dirname(os.path.abspath(__file__))
TOP = os.path.dirname(HERE)
# The stored reports: each with its machine text and its options.
REPORTS = {
    "two-links": ("two-links", []),
    "two-links.avoid": ("two-links", ["--avoid", "10"]),
    "i440fx": ("i440fx", []),
    "q35.pic": ("q35", ["--mode", "pic"]),
    "q35.apic": ("q35", []),
    "index": ("index", []),
}
# What is refused: the machine text, the options, the status and the error line.
REFUSALS = [
    ("two-links", ["--avoid", "5"], 1, "refused 123 \\_SB_.LNKB\n"),
    ("two-links", ["--avoid", "none"], 2, "bad --avoid\n"),
    ("refused", [], 1, "refused 101\n"),
]

# Machines on the model of a chipset: the stored report, what a register of its own makes other in it, and the registers at the end.
# Behind the index register each register keeps its own value, where a machine text has one byte for both.
ROUTED = "pci 0 0 1 0 60 05 05 0A 0A\nbehind C00 05 05\n"
AS_BEFORE = "pci 0 0 1 0 60 80 80 80 80\nbehind C00 05 05\n"
CONFIGURED = [
    ("i440fx", ("", ""), ROUTED),
    ("index", ("after \\_SB_.LNKA 10\n", "after \\_SB_.LNKA 5\n"), "pci 0 0 1 0 60 80 80 80 80\nbehind C00 05 0A\n"),
    ("two-links", ("", ""), AS_BEFORE),
]


def kit_library():
    rt = shutil.which("rt")
    if rt is None:
        sys.exit("embedding.py: there is no rt here: name the libraries with --library")
    return os.path.join(os.path.dirname(os.path.dirname(os.path.realpath(rt))), "c", "liblibc_c.a")


def built_in_c(libraries, folder, name, sources):
    host = os.path.join(folder, f"{name}_c")
    subprocess.run(["cc", "-std=c11", "-Wall", "-Wextra", "-Werror", "-O2", "-I", os.path.join(TOP, "include"),
                    *(os.path.join(HERE, "c", it) for it in sources), *libraries, "-o", host], check=True)
    return host


def built_in_rust(libraries, folder, name):
    host = os.path.join(folder, f"{name}_rust")
    words = [word for it in libraries for word in ("-C", f"link-arg={os.path.abspath(it)}")]
    subprocess.run(["rustc", "--edition", "2021", "-O", os.path.join(HERE, f"rust/{name}.rs"), *words, "-o", host], check=True)
    return host


def built(libraries, folder):
    """The host programs of each language: `host` and `configure`."""
    hosts = {"C": (built_in_c(libraries, folder, "host", ["host.c", "bytes.c"]),
                   built_in_c(libraries, folder, "configure", ["configure.c", "chipset.c", "bytes.c"]))}
    if shutil.which("rustc") is None:
        print("rustc is not installed: the hosts in Rust are left out")
        return hosts
    hosts["Rust"] = tuple(built_in_rust(libraries, folder, name) for name in ("host", "configure"))
    return hosts


def ran(words, stdin=None):
    done = subprocess.run(words, input=stdin, capture_output=True, timeout=600)
    return done.returncode, done.stdout.decode(), done.stderr.decode()


def text_of(name):
    with open(os.path.join(HERE, name), "rb") as file:
        return file.read()


def check_host(check, language, host):
    for name, (machine, options) in REPORTS.items():
        found = ran([host, os.path.join(HERE, f"{machine}.txt"), *options])
        check.same(f"{language}: {name}", found, (0, text_of(f"{name}.report").decode(), ""))
    for machine, options, status, line in REFUSALS:
        found = ran([host, os.path.join(HERE, f"{machine}.txt"), *options])
        check.same(f"{language}: {machine} {' '.join(options)}", found, (status, "", line))


def unset(report):
    """The report of a run that sets no link."""
    return "".join(line for line in report.splitlines(keepends=True) if not line.startswith(("set ", "after ")))


def check_configure(check, language, host):
    for machine, (old, new), registers in CONFIGURED:
        report = text_of(f"{machine}.report").decode()
        found = ran([host, os.path.join(HERE, f"{machine}.txt")])
        check.same(f"{language}, on a chipset: {machine}", found, (0, report.replace(old, new) if old else report, registers))
        found = ran([host, os.path.join(HERE, f"{machine}.txt"), "dry"])
        check.same(f"{language}, on a chipset, no link set: {machine}", found, (0, unset(report), AS_BEFORE))
    found = ran([host, os.path.join(HERE, "refused.txt")])
    check.same(f"{language}, on a chipset: refused", found, (1, "", "refused 101\n" + AS_BEFORE))


def check_settings(check, host):
    """The other settings, by the host in C: an interrupt that is avoided, one link of which nothing is left, and the mode pic."""
    machine = os.path.join(HERE, "two-links.txt")
    check.same("C, on a chipset: 10 avoided", ran([host, machine, "avoid=10"]), (0, text_of("two-links.avoid.report").decode(), AS_BEFORE))
    check.same("C, on a chipset: 5 avoided", ran([host, machine, "avoid=5"]), (1, "", "refused 123 \\_SB_.LNKB\n" + AS_BEFORE))
    report = text_of("two-links.report").decode().replace("mode apic\n", "mode pic\n")
    check.same("C, on a chipset: pic", ran([host, machine, "pic"]), (0, report, AS_BEFORE))


def check_calls(check, libraries, folder):
    calls = built_in_c(libraries, folder, "calls", ["calls.c", "chipset.c", "bytes.c"])
    status, output, errors = ran([calls, HERE])
    lines = output.splitlines(keepends=True) or [""]
    check.same("C: each call", (status, "".join(lines[:-1]), errors), (0, "", ""))
    print(f"calls: {lines[-1].rstrip()}")


def check_beside(check, language, host, program):
    for machine, options in [*REPORTS.values(), *((it[0], it[1]) for it in REFUSALS), ("two-links", ["--steps", "0"])]:
        found = ran([host, os.path.join(HERE, f"{machine}.txt"), *options])
        wanted = ran([program, "route", *options], text_of(f"{machine}.txt"))
        check.same(f"{language} and the program: {machine} {' '.join(options)}", found, wanted)


def main():
    parser = argparse.ArgumentParser(description=__doc__, formatter_class=argparse.RawDescriptionHelpFormatter)
    parser.add_argument("--library", action="append", default=[])
    parser.add_argument("--program")
    parser.add_argument("--calls", action="store_true")
    asked = parser.parse_args()
    libraries = asked.library or [os.path.join(TOP, "crates/acpiroute_c/out/libacpiroute_c.a"), kit_library()]
    for name in libraries + [asked.program] * bool(asked.program):
        if not os.path.isfile(name):
            sys.exit(f"embedding.py: {name}: no such file")
    check = Check()
    with tempfile.TemporaryDirectory() as folder:
        check_calls(check, libraries, folder)
        for language, (host, configure) in ({} if asked.calls else built(libraries, folder)).items():
            check_host(check, language, host)
            check_configure(check, language, configure)
            if language == "C":
                check_settings(check, configure)
            if asked.program:
                check_beside(check, language, host, os.path.abspath(asked.program))
    print(f"{check.passed} passed, {check.failed} failed")
    sys.exit(1 if check.failed else 0)


if __name__ == "__main__":
    try:
        main()
    except subprocess.CalledProcessError as failed:
        sys.exit(f"embedding.py: {failed.cmd[0]} ended with status {failed.returncode}")
