#!/usr/bin/env python3
"""run.py [--show] [--only TEXT] [--jobs N] [--cpu NAME] LIBRARY

Builds the kernel of this folder over a static library of acpiroute, boots it in QEMU on the machines below, in the modes `pic` and
`apic`, and checks what it says: on each device the interrupt that the report names comes, and no other, and so does the SCI.

LIBRARY is one that tools/kernel_library.py makes: libacpiroute_kernel.a, or libacpiroute_kernel_no_sse.a, over which the kernel
runs with SSE instructions undefined. Interrupts come on the stack of the library's calls, a thousand in a second; the kernel's
stack has 144 KiB and is aligned to 8 bytes; and the processor is QEMU's `qemu64`, with what every x86-64 processor has, but for
two boots on `max`. --cpu names another one. Some boots evaluate in the wide profile, or with at most 4 calls and 16 levels of terms.

Boots that have to fail are among them: where the kernel tries the interrupt after that of the report, each device has to fail;
where it changes an entry of its record, the run has to be stopped; where terms may be one level deep, it has to be refused; where
SSE instructions are undefined under a library that has some, there has to be an exception; and on q35 with a second root bus the
tables of QEMU 7.2 name other interrupts than its hardware raises for that bus, so the device there has to fail, and only it.

--show prints what the kernel says, and --only takes the boots whose names have this text. It needs gcc for x86-64, and
qemu-system-x86_64 with SeaBIOS (Debian: qemu-system-x86). The last line is `N passed, M failed`, and the exit status is 0 where
none failed."""
import argparse
import collections
import concurrent.futures
import os
import re
import shutil
import subprocess
import sys
import tempfile

HERE = os.path.dirname(os.path.abspath(__file__))
SOURCES = ["boot.S", "console.c", "devices.c", "hardware.c", "interrupts.c", "main.c", "memory.c", "routing.c", "tables.c"]
FLAGS = ["-std=gnu11", "-O2", "-Wall", "-Wextra", "-Werror", "-ffreestanding", "-fno-pic", "-mno-red-zone", "-mgeneral-regs-only",
         "-mpreferred-stack-boundary=3", "-fno-stack-protector", "-fno-asynchronous-unwind-tables", "-fno-tree-loop-distribute-patterns"]
# isa-debug-exit ends QEMU with twice the value that is written, and one.
GOOD, BAD = 0x21, 0x23

# What the kernel has to say, beside its verdict: which devices are bad, by their bus, or a line.
Boot = collections.namedtuple("Boot", "name machine processors devices words cpu wanted")

SLOTS = ["edu,addr=3", "edu,addr=4", "edu,addr=5", "edu,addr=6", "e1000,addr=7", "edu,addr=0x1c"]
BRIDGE = ["pci-bridge,id=low,chassis_nr=1,addr=8", "edu,bus=low,addr=1", "edu,bus=low,addr=2", "edu,bus=low,addr=3",
          "edu,bus=low,addr=4", "pci-bridge,id=lower,chassis_nr=2,bus=low,addr=7", "edu,bus=lower,addr=6"]
PORTS = ["pcie-root-port,id=p1,chassis=1,addr=3", "e1000e,bus=p1", "pcie-root-port,id=p2,chassis=2,addr=0x1d", "edu,bus=p2",
         "pcie-root-port,id=p3,chassis=3,addr=9", "pcie-pci-bridge,id=low,bus=p3", "edu,bus=low,addr=2", "edu,bus=low,addr=5"]
SECOND_BUS = ["edu,addr=3", "pxb,id=x,bus_nr=128,addr=5", "edu,bus=x,addr=1", "edu,bus=x,addr=2"]
SECOND_BUS_OF_PORTS = ["edu,addr=3", "pxb-pcie,id=x,bus_nr=128,addr=5", "pcie-root-port,id=p,bus=x,chassis=9,addr=1", "edu,bus=p"]
NONE_BAD, ALL_BAD = "no device is bad", "each device is bad"
BAD_ON_SECOND_BUS = "the devices from bus 80 on are bad"
NOT_OF_THIS_RUN, AN_EXCEPTION = "stopped: the record is not of this run", "stopped: an exception"
REFUSED = "refused 144"
MACHINES = [
    ("pc", "pc", 1, SLOTS, NONE_BAD),
    ("pc, 2 processors", "pc", 2, SLOTS, NONE_BAD),
    ("pc, bridges", "pc", 1, BRIDGE, NONE_BAD),
    ("pc, a second root bus", "pc", 1, SECOND_BUS, NONE_BAD),
    ("q35", "q35", 1, [*SLOTS, "edu,addr=0x19", "edu,addr=0x1e"], NONE_BAD),
    ("q35, 2 processors", "q35", 2, SLOTS, NONE_BAD),
    ("q35, bridges", "q35", 1, BRIDGE, NONE_BAD),
    ("q35, root ports", "q35", 1, PORTS, NONE_BAD),
    ("q35, a second root bus", "q35", 1, SECOND_BUS_OF_PORTS, BAD_ON_SECOND_BUS),
]


def boots(cpu, more_words):
    for name, machine, processors, devices, wanted in MACHINES:
        for mode in ("pic", "apic"):
            yield Boot(f"{name}, {mode}", machine, processors, devices, f"{mode}{more_words}", cpu, wanted)
    for machine in ("pc", "q35"):
        for mode in ("pic", "apic"):
            name = f"{machine}, {mode}, the interrupt after that of the report"
            yield Boot(name, machine, 1, SLOTS, f"{mode} wrong{more_words}", cpu, ALL_BAD)
        yield Boot(f"{machine}, pic, a spoiled record", machine, 1, SLOTS, f"pic spoil{more_words}", cpu, NOT_OF_THIS_RUN)
        for mode in ("pic", "apic"):
            yield Boot(f"{machine}, {mode}, the wide profile", machine, 1, SLOTS, f"{mode} wide{more_words}", cpu, NONE_BAD)
            yield Boot(f"{machine}, {mode}, 4 calls and 16 levels", machine, 1, SLOTS, f"{mode} few{more_words}", cpu, NONE_BAD)
        yield Boot(f"{machine}, pic, one level", machine, 1, SLOTS, f"pic no-levels{more_words}", cpu, REFUSED)
        yield Boot(f"{machine}, pic, the processor max", machine, 1, SLOTS, f"pic{more_words}", "max", NONE_BAD)
        if not more_words:
            yield Boot(f"{machine}, pic, SSE undefined", machine, 1, SLOTS, f"pic no-sse{more_words}", cpu, AN_EXCEPTION)


def built(library, folder):
    kernel = os.path.join(folder, "kernel")
    include = os.path.join(os.path.dirname(os.path.dirname(HERE)), "include")
    objects = []
    for source in SOURCES:
        objects.append(os.path.join(folder, source + ".o"))
        subprocess.run(["gcc", *FLAGS, "-I", HERE, "-I", include, "-c", os.path.join(HERE, source), "-o", objects[-1]], check=True)
    subprocess.run(["gcc", "-nostdlib", "-static", "-no-pie", f"-Wl,-T,{os.path.join(HERE, 'kernel.ld')}", "-Wl,--build-id=none",
                    "-Wl,--gc-sections", *objects, library, "-o", kernel], check=True)
    return kernel


def booted(kernel, boot):
    """The exit status of QEMU, and what the kernel said."""
    command = ["qemu-system-x86_64", "-M", boot.machine, "-cpu", boot.cpu, "-accel", "tcg", "-smp", str(boot.processors), "-m", "256",
               "-display", "none", "-serial", "stdio", "-monitor", "none", "-no-reboot", "-nic", "none",
               "-device", "isa-debug-exit,iobase=0xf4,iosize=4", "-kernel", kernel, "-append", boot.words]
    for device in boot.devices:
        command += ["-device", device]
    try:
        done = subprocess.run(command, stdin=subprocess.DEVNULL, capture_output=True, timeout=300)
    except subprocess.TimeoutExpired as late:
        return None, (late.stdout or b"").decode(errors="replace")
    # (the firmware writes to the same port before)
    return done.returncode, (done.stdout + done.stderr).decode(errors="replace").replace("\r", "")


def devices_in(said):
    """The bus of each device that was tried, and whether it was good; the SCI has none."""
    found = []
    for line in said.splitlines():
        head = re.match(r"device \S+ at ([0-9A-F]+):|sci: ", line)
        if head:
            bus = int(head[1], 16) if head[1] else None
        elif line in ("  good", "  BAD"):
            found.append((bus, line == "  good"))
    return found


def is_as_wanted(boot, status, said):
    if boot.wanted in (NOT_OF_THIS_RUN, AN_EXCEPTION, REFUSED):
        return status == BAD and boot.wanted in said
    devices = devices_in(said)
    if "stopped" in said or len(devices) < 2 or f"tried {len(devices) - 1} devices" not in said:
        return False
    if boot.wanted == NONE_BAD:
        return status == GOOD and all(is_good for _, is_good in devices)
    if boot.wanted == ALL_BAD:
        return status == BAD and not any(is_good for _, is_good in devices)
    return status == BAD and all(is_good == (bus is None or bus < 0x80) for bus, is_good in devices)


def instructions(library):
    return subprocess.run(["objdump", "-d", "--no-show-raw-insn", library], capture_output=True, text=True, check=True).stdout


def main():
    parser = argparse.ArgumentParser(description=__doc__, formatter_class=argparse.RawDescriptionHelpFormatter)
    parser.add_argument("--show", action="store_true")
    parser.add_argument("--only", default="")
    parser.add_argument("--jobs", type=int, default=2)
    parser.add_argument("--cpu", default="qemu64")
    parser.add_argument("library")
    asked = parser.parse_args()
    library = os.path.abspath(asked.library)
    if not os.path.isfile(library):
        sys.exit(f"run.py: {asked.library}: no such file: tools/kernel_library.py makes the libraries")
    for needed in ("gcc", "objdump", "qemu-system-x86_64"):
        if not shutil.which(needed):
            sys.exit(f"run.py: {needed} is not installed")
    code = instructions(library)
    more_words = "" if "%xmm" in code else " no-sse"
    wanted = [it for it in boots(asked.cpu, more_words) if asked.only in it.name]
    passed = 0
    with tempfile.TemporaryDirectory() as folder, concurrent.futures.ThreadPoolExecutor(asked.jobs) as pool:
        kernel = built(library, folder)
        for boot, (status, said) in zip(wanted, pool.map(lambda it: booted(kernel, it), wanted)):
            is_well = is_as_wanted(boot, status, said)
            passed += is_well
            if asked.show or not is_well:
                print(said)
            measured = re.search(r"measured: (.*)", said)
            print(f"{boot.name}: {'passed' if is_well else 'FAILED'} ({boot.wanted}){'; ' + measured[1] if measured else ''}", flush=True)
    print(f"{passed} passed, {len(wanted) - passed} failed")
    sys.exit(0 if passed == len(wanted) else 1)


if __name__ == "__main__":
    try:
        main()
    except subprocess.CalledProcessError as failed:
        sys.exit(f"run.py: {failed.cmd[0]} ended with status {failed.returncode}")
