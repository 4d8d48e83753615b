#!/usr/bin/env python3
"""What the code in a static library does, as objdump, nm and readelf show it, and whether a kernel can link it.

    tools/kernel_code.py

compiles small functions with gcc, each of which breaks one promise, and says whether that is found.

The check of the stack follows each function along all its jumps with the numbers by which the stack pointer and the frame pointer
differ from what they were at the entry. Where ways meet, the higher stack pointer counts. It knows how LLVM makes frames, and says
what it can't follow."""
import collections
import os
import re
import subprocess
import sys
import tempfile

import usage

NEEDED = ["memcpy", "memmove", "memset", "rattle_alloc", "rattle_dealloc", "rattle_realloc"]
SECTIONS_REFUSED = r"\.(eh_frame|gcc_except_table|tdata|tbss|init_array|fini_array|ctors|dtors|preinit_array)\b"
PROGRAMS = ["ld", "nm", "objdump", "readelf", "size"]
UPPER_HALF = "0xFFFFFFFF80000000"
RELOCATIONS = {"R_X86_64_PC32", "R_X86_64_PLT32", "R_X86_64_64"}
# Instructions that not every x86-64 processor has, up to AVX-512: SSE3 and later, and those that came with them. (objdump shows the
# prefix `rep` of a bsf as tzcnt, which is the same bytes, and baseline code has it.)
NEWER = re.compile(
    r"v[a-z]|k[a-z]+[bwdq]$|addsub|hadd|hsub|lddqu|mov(ddup|shdup|sldup|be|ntdqa)|fisttp|monitor|mwait"
    r"|pabs|palignr|phadd|phsub|pmaddubsw|pmulhrsw|pshufb|psign|blend|dpp[sd]|extractps|insertps|mpsadbw"
    r"|packusdw|pblend|pcmp(eqq|gtq|[ei]str)|pextr[bdq]|pinsr[bdq]|phminposuw|pmax(sb|sd|ud|uw)|pmin(sb|sd|ud|uw)"
    r"|pmov[sz]x|pmul(dq|ld)$|ptest|round[ps]|crc32|popcnt|lzcnt|andn$|bextr|bls|bzhi|pdep|pext$|rorx|sarx|shlx|shrx"
    r"|mulx|adcx|adox|cmpxchg16b|lahf|sahf|aes|pclmul|sha\d|gf2p8|rdrand|rdseed|xsave|xrstor")
FLOATING = re.compile(r"f[a-z]|emms")
ACCESS = re.compile(r"(-?0x[0-9a-f]+)?\(%(rsp|rbp)([,)])")
# An access with an index is one of an array, and where the index is not 0, the place without it may lie a few bytes before the array.
BEFORE_ARRAY = 8
PREFIXES = ("notrack", "bnd", "rep", "repz", "repnz", "lock", "data16", "cs")
LINE = re.compile(r"\s+([0-9a-f]+):\s+(\S.*)$")

Library = collections.namedtuple("Library", "name calls has_sse")
# `symbol` is what a step names outside of its function.
Step = collections.namedtuple("Step", "at name operands symbol")
# Where the stack pointer and the frame pointer are, from the entry's stack pointer on (None: elsewhere), and a register that holds
# the end of a loop that touches each page of a large frame.
State = collections.namedtuple("State", "stack frame probe")


def output_of(*words):
    return subprocess.run(words, capture_output=True, text=True, errors="replace", check=True).stdout


def functions_of(archive):
    """Each function's steps, by name, and the functions whose address is taken."""
    functions, taken, steps = {}, set(), []
    for line in output_of("objdump", "-dr", "--no-show-raw-insn", "-w", archive).splitlines():
        head = re.match(r"[0-9a-f]+ <(.+)>:$", line)
        found = LINE.match(line)
        if head:
            steps = functions.setdefault(head[1], [])
        elif found:
            steps.append(step_of(int(found[1], 16), *found[2].partition("R_X86_64_")[::2]))
            if steps[-1].name == "lea" and steps[-1].symbol:
                taken.add(steps[-1].symbol)
    for line in output_of("readelf", "-rW", archive).splitlines():
        if " R_X86_64_64 " in line:
            taken.add(function_of(line.split(maxsplit=4)[-1].split(" + ")[0]))
    return functions, taken & set(functions)


def step_of(at, text, relocation):
    words = re.sub(r"\s+[0-9a-f]+:\s*$", "", text).split("#")[0].strip().split(None, 1)
    while len(words) > 1 and words[0] in PREFIXES:
        words = words[1].split(None, 1)
    return Step(at, words[0], words[1] if len(words) > 1 else "", function_of(relocation.split()[-1]) if relocation else "")


def function_of(name):
    """The function that a relocation names, by itself or by its section."""
    return re.sub(r"^\.text\.(unlikely\.|hot\.)?", "", re.sub(r"[-+]0x[0-9a-f]+$", "", name))


class Stack:
    """A function, followed along its jumps."""

    def __init__(self, steps):
        self.steps, self.faults = steps, []
        self.numbers = {it.at: number for number, it in enumerate(steps)}
        self.states = {}

    def followed(self):
        waiting = [(0, State(0, None, None))]
        while waiting:
            number, state = waiting.pop()
            known = self.states.get(number)
            merged = state if known is None else joined(known, state)
            if merged != known:
                self.states[number] = merged
                waiting += self.after(number, merged)
        for number, step in enumerate(self.steps):
            if number in self.states:
                self.judge(step, self.states[number])
            elif step.name.rstrip("wlq") not in ("nop", "xchg", "int3", "ud2"):
                self.faults.append(f"{step.at:x}: {step.name} is not reached by the check")
        return self.faults

    def judge(self, step, state):
        if step.name.startswith(("lea", "nop")):
            return
        if step.name == "call" and state.frame is None:
            self.faults.append(f"{step.at:x}: a call without a frame")
        for offset, base, after in ACCESS.findall(step.operands):
            at = {"rsp": state.stack, "rbp": state.frame}[base]
            allowed = state.stack - (BEFORE_ARRAY if after == "," else 0)
            if at is not None and at + int(offset or "0", 16) < allowed:
                self.faults.append(f"{step.at:x}: {step.name} {step.operands}, {-state.stack} bytes below the entry")

    def after(self, number, state):
        """The steps that follow, each with its state."""
        step, new = self.steps[number], moved(self.steps[number], state)
        if step.name in ("ret", "ud2", "hlt"):
            return []
        found = []
        if step.name.startswith("j"):
            target = re.match(r"([0-9a-f]+) <", step.operands)
            if target and not step.symbol:
                found.append((self.numbers[int(target[1], 16)], new))
            if step.name == "jmp":
                return found
            before = self.steps[number - 1]
            if step.name == "jne" and before.name == "cmp" and before.operands.endswith("%rsp") and state.probe:
                new = new._replace(stack=state.probe[1])
        return found + ([(number + 1, new)] if number + 1 < len(self.steps) else [])


def joined(one, other):
    same = lambda left, right: left if left == right else None
    return State(max(one.stack, other.stack), same(one.frame, other.frame), same(one.probe, other.probe))


def moved(step, state):
    """What a step makes of the two pointers."""
    stack, frame, probe = state
    name, operands = step.name.rstrip("q"), step.operands
    number = re.match(r"\$(-?0x[0-9a-f]+),%rsp$", operands)
    address = re.match(r"(-?0x[0-9a-f]+)?\(%(rsp|rbp)\),%(\w+)$", operands)
    if name == "push":
        stack -= 8
    elif name == "pop":
        stack, frame = stack + 8, None if operands == "%rbp" else frame
    elif name == "leave":
        stack, frame = frame + 8, None
    elif name in ("sub", "add") and number:
        size = int(number[1], 16)
        stack += size if name == "add" else -size
    elif name == "mov" and operands == "%rsp,%rbp":
        frame = stack
    elif name == "mov" and operands == "%rbp,%rsp":
        stack = frame
    elif name == "lea" and address and (address[2] == "rsp" or frame is not None):
        to = (stack if address[2] == "rsp" else frame) + int(address[1] or "0", 16)
        if address[3] == "rsp":
            stack = to
        elif address[3] == "rbp":
            frame = to
        elif address[2] == "rsp" and to < stack:
            probe = (address[3], to)
    elif operands.endswith(",%rbp") and name not in ("cmp", "test"):
        frame = None
    return State(stack, frame, probe)


def code_faults(functions, library):
    """Instructions and registers that a library promises not to have."""
    refused = r"%([yz]mm|mm\d|st\b|[fg]s:)" if library.has_sse else r"%([xyz]mm|mm\d|st\b|[fg]s:)"
    for name, steps in functions.items():
        for step in steps:
            if re.search(refused, step.operands) or NEWER.match(step.name) or FLOATING.match(step.name):
                yield f"{name}: {step.at:x}: {step.name} {step.operands}"


def entry_faults(functions, taken, library):
    """Functions that are called by their address, or from outside, and don't begin with endbr64; and jumps by a table."""
    for name in sorted({*taken, *library.calls}):
        if functions[name][0].name != "endbr64":
            yield f"{name} does not begin with endbr64"
    for name, steps in functions.items():
        yield from (f"{name}: {it.at:x}: a jump by a table" for it in steps if it.name == "jmp" and it.operands.startswith("*"))


def sizes(archive, calls):
    """How many bytes of code and of constants are linked where these are called, in the upper half of addresses, as kernels are."""
    with tempfile.TemporaryDirectory() as folder:
        made = os.path.join(folder, "linked")
        words = [it for call in calls for it in ("-u", call)] + [f"--defsym={it}={UPPER_HALF}" for it in NEEDED]
        words += [f"-Ttext-segment={UPPER_HALF}", "--unresolved-symbols=ignore-all"]
        subprocess.run(["ld", "-static", "--gc-sections", "-e", calls[0], *words, "-o", made, archive], check=True, capture_output=True)
        text, data, bss = output_of("size", made).splitlines()[1].split()[:3]
        return int(text), int(data) + int(bss)


def judged(library, archive):
    """What is told of a library, and what is not as promised."""
    functions, taken = functions_of(archive)
    faults = [f"{name}: {it}" for name, steps in functions.items() for it in Stack(steps).followed()]
    faults += [*code_faults(functions, library), *entry_faults(functions, taken, library)]
    undefined = output_of("nm", "-uj", archive).split()
    undefined = sorted({it for it in undefined if not it.endswith(":")})
    given = sorted(line.split()[2] for line in output_of("nm", "-g", "--defined-only", archive).splitlines() if len(line.split()) == 3)
    faults += [f"it needs {it}" for it in undefined if it not in NEEDED]
    if given != sorted(library.calls):
        faults.append(f"it gives {' '.join(given)}")
    sections = output_of("readelf", "-SW", archive)
    faults += [f"it has a section {it}" for it in sorted({it[0] for it in re.finditer(SECTIONS_REFUSED, sections)})]
    relocations = set(re.findall(r" (R_X86_64_\w+) ", output_of("readelf", "-rW", archive)))
    faults += [f"it has relocations {it}" for it in sorted(relocations - RELOCATIONS)]
    registers = "general registers and xmm0 to xmm15 (SSE2)" if library.has_sse else "general registers"
    lines = [f"{library.name}: x86-64, no red zone, {registers}, frame pointers, endbr64",
             f"  needs: {' '.join(undefined)}", f"  functions: {len(functions)}, called by address: {len(taken)}",
             f"  bytes of code and constants, and of other data: {' + '.join(map(str, sizes(archive, library.calls)))}"]
    if len(library.calls) > 1:
        lines.append(f"  with acpiroute_configure alone: {' + '.join(map(str, sizes(archive, ['acpiroute_configure'])))}")
    return lines, faults


# Functions in C: what is found in each, where something has to be, and how it is compiled.
GOOD = ["-O2", "-fno-omit-frame-pointer", "-mno-red-zone", "-fcf-protection=branch", "-fno-asynchronous-unwind-tables", "-fno-jump-tables"]
SUM = "int acpiroute_configure(int n) { volatile int a[9]; for (int i = 0; i < 9; i++) a[i] = n; return a[n & 7]; }"
MEMCPY = "void *memcpy(void *, const void *, unsigned long);"
CALL = MEMCPY + " void acpiroute_configure(char *a, char *b, long n) { memcpy(a, b, n); memcpy(b, a, n); }"
SWITCH = "int acpiroute_configure(int n) { switch (n) { " + "".join(f"case {n}: return {n * n % 7};" for n in range(9)) + " } return 9; }"
TRIALS = [
    ("", SUM, []), ("", CALL, []), ("", "long acpiroute_configure(long n) { char a[n + 9000]; memset(a, 1, n); return a[n - 1]; }", []),
    ("below the entry", SUM, ["-mred-zone"]), ("below the entry", SUM, ["-mred-zone", "-fomit-frame-pointer"]),
    ("a call without a frame", CALL, ["-fomit-frame-pointer"]),
    ("endbr64", SUM, ["-fcf-protection=none"]),
    ("ymm", "int acpiroute_configure(int *a) { int s = 0; for (int i = 0; i < 64; i++) s += a[i]; return s; }", ["-mavx2", "-O3"]),
    ("popcnt", "int acpiroute_configure(long n) { return __builtin_popcountl(n); }", ["-mpopcnt"]),
    ("fs:", "_Thread_local int it; int acpiroute_configure(int n) { return it = n; }", []),
    ("it needs puts", "int puts(const char *); int acpiroute_configure(char *n) { return puts(n) + 1; }", []),
    ("it has a section .eh_frame", SUM, ["-fasynchronous-unwind-tables"]),
    ("it gives acpiroute_configure other", SUM + " int other(void) { return 1; }", []),
    ("jump by a table", SWITCH.replace("return ", "return *(volatile int *)"), ["-fjump-tables", "-O1"]),
]


def is_found(wanted, source, flags, folder):
    archive = os.path.join(folder, "tried.o")
    words = ["gcc", *GOOD, *flags, "-Wno-implicit-function-declaration", "-c", "-x", "c", "-", "-o", archive]
    subprocess.run(words, input=source, text=True, check=True, stderr=subprocess.DEVNULL)
    _, faults = judged(Library("tried", ["acpiroute_configure"], True), archive)
    return any(wanted in it for it in faults) if wanted else not faults


def main():
    usage.answer_help(__doc__)
    with tempfile.TemporaryDirectory() as folder:
        missed = [(wanted or "nothing", source) for wanted, source, flags in TRIALS if not is_found(wanted, source, flags, folder)]
    for wanted, source in missed:
        print(f"not found: {wanted}: {source}")
    print(f"{len(TRIALS) - len(missed)} passed, {len(missed)} failed")
    return 1 if missed else 0


if __name__ == "__main__":
    sys.exit(main())
