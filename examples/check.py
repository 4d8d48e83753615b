#!/usr/bin/env python3
"""check.py PROGRAM | check.py --tools | check.py --rows

Runs the examples of this folder over a built acpiroute, for instance build/acpiroute (tools/build.py) or crates/acpiroute/out/acpiroute:

- each command of README.md has to leave the stored report, or the output and the line that stand in this script;
- `check` has to say yes to each report;
- tools/report_graph.py has to make the stored graph of it, and JSON with the same loads;
- tools/show_value.py has to show values as they stand in this script;
- tools/machine_text.py has to make each machine text anew from the tables in it, and to refuse files that are no tables;
- each script of tools/, benches/ and this folder has to answer --help with its text, and those that take a file to name one that is
  missing;
- where iasl is installed, the ASL sources have to compile to these tables.

Each difference is printed. The last line is `N passed, M failed`, and the exit status is 0 where none failed.

With --tools it needs no program, and leaves out what the program prints. With --rows it runs nothing, and prints the examples as
rows for crates/test_program/data/examples.rows."""
import ast
import glob
import json
import os
import shutil
import subprocess
import sys
import tempfile

HERE = os.path.dirname(os.path.abspath(__file__))
TOOLS = os.path.join(os.path.dirname(HERE), "tools")
TOP = os.path.dirname(HERE)
# The scripts that end at once where a file is missing that they are given.
READERS = ["tools/machine_text.py", "tools/report_graph.py", "tools/show_value.py", "tools/fuzz.py", "tools/refuse_memory.py",
           "tools/count_requests.py", "benches/calls.py", "benches/check_hostile.py", "benches/evaluation.py", "benches/fields.py",
           "benches/machine_text.py", "benches/route_solve.py", "benches/stack.py", "examples/check.py", "examples/kernel/run.py"]
CRATES = os.path.join(os.path.dirname(HERE), "crates")
ROWS = os.path.join(CRATES, "test_program/data")
# The reports: each with its machine text and its command.
REPORTS = {
    "two-links": ("two-links", ["route"]),
    "two-links.avoid": ("two-links", ["route", "--avoid", "10"]),
    "i440fx": ("i440fx", ["route"]),
    "i440fx.spread": ("i440fx", ["route", "--spread"]),
    "q35.pic": ("q35", ["route", "--mode", "pic"]),
    "q35.apic": ("q35", ["route"]),
    "index": ("index", ["route"]),
    "isa": ("isa", ["route", "--mode", "pic"]),
    "isa.avoid": ("isa", ["route", "--mode", "pic", "--avoid", "1,3,4,6,7,12,14,15"]),
    "isa.spare": ("isa", ["route", "--mode", "pic", "--spare"]),
    "spare": ("spare", ["route", "--mode", "pic", "--spare"]),
    "spare.spread": ("spare", ["route", "--mode", "pic", "--spare", "--spread"]),
}
# The report of the machine that the core profile refuses.
WIDE_REPORT = r"""acpiroute 2
mode apic
sci 9
avoid -
link \_SB_.LNKA small low offers 5 10 now none
link \_SB_.LNKB small low offers 5 10 now none
pin \_SB_.PCI0 1 A 5 \_SB_.LNKA
pin \_SB_.PCI0 1 B 10 \_SB_.LNKB
give \_SB_.LNKA 5
give \_SB_.LNKB 10
busiest 1
bound - over 9
set \_SB_.LNKA none
set \_SB_.LNKB none
after \_SB_.LNKA none
after \_SB_.LNKB none
"""
# The report of the board with a Switch: five pins are wired, two of them to 17.
SWITCH_REPORT = r"""acpiroute 2
mode apic
sci 9
avoid -
wired 16 1
wired 17 2
wired 18 1
wired 20 1
pin \_SB_.PCI0 31 A 20 wired
pin \_SB_.PCI0.RP01 0 A 16 wired
pin \_SB_.PCI0.RP01 0 B 17 wired
pin \_SB_.PCI0.RP02 0 A 17 wired
pin \_SB_.PCI0.RP02 0 B 18 wired
busiest 2
bound - over 17
"""
# Other commands: the machine text, the words, the exit status, the output and the line of errors.
COMMANDS = [
    ("two-links", ["route", "--avoid", "5"], 1, "", "refused 123 \\_SB_.LNKB\n"),
    ("spare", ["route", "--mode", "pic", "--spare", "--avoid", "5,10,11"], 1, "", "refused 123 \\_SB_.LNKA\n"),
    ("switch", ["route"], 1, "", "refused 73 op 0089\n"),
    ("switch", ["route", "--profile", "wide"], 0, SWITCH_REPORT, ""),
    ("switch", ["eval", "\\_SB_.PCI0.RP01._PRT"], 1, "", "refused 73 op 0089\n"),
    ("refused", ["route"], 1, "", "refused 101\n"),
    ("refused", ["route", "--profile", "wide"], 0, WIDE_REPORT, ""),
    ("refused", ["eval", "\\_SB_.LNKA._PRS"], 0, "buffer 232004187900\n", ""),
    ("refused", ["eval", "\\_SB_.LNKB._PRS"], 0, "buffer 232004087900\n", ""),
]
# The words for machine_text.py beside the tables. The text of two-links is written by hand.
WORDS = {
    "i440fx": ["--pci", "i440fx.lspci"],
    "q35": ["--pci", "q35.lspci"],
    "index": ["--io", "C00=0005"],
    "isa": [],
    "spare": [],
    "switch": [],
    "refused": [],
}
# The ASL sources of each machine text, in the order of its DSDT, SSDT and MADT.
SOURCES = {
    "two-links": ["two-links"],
    "i440fx": ["i440fx"],
    "q35": ["q35"],
    "index": ["index", "index-ssdt", "index-madt"],
    "isa": ["isa"],
    "spare": ["spare"],
    "switch": ["switch"],
    "refused": ["refused"],
}
HEADER_BYTES = 36
# Texts that report_graph.py refuses.
EMPTY_REPORT = "acpiroute 2\nmode apic\nsci none\navoid -\nbusiest 0\nbound none\n"
SPARING_REPORT = r"""acpiroute 3
mode pic
sci none
avoid -
spared \_SB_.KBD_ 1
unread \_SB_.COM1 74
first
link \_SB_.LNKA small low offers 1 5 now 5
give \_SB_.LNKA 5
busiest 1
bound \_SB_.LNKA over 5
set \_SB_.LNKA ok
after \_SB_.LNKA 1
trigger link \_SB_.LNKA level low
trigger sci 9 edge high
bus \_SB_.PCI0 0 128
bus \_SB_.PCI0.P2P_ refused 78
"""
FAULTY_REPORTS = [
    "", "no report\n", "acpiroute 2\r\nmode apic\r\n", "acpiroute 1\n", "acpiroute 2\n", "acpiroute 1\nmode apic\nlink LNKA\n",
    EMPTY_REPORT.replace("2", "3"), EMPTY_REPORT.replace("2", "1"),
    EMPTY_REPORT.replace("avoid -\n", ""), EMPTY_REPORT.replace("sci none\n", ""), EMPTY_REPORT + "sci none\n",
    EMPTY_REPORT.replace("-", "5 5"), EMPTY_REPORT.replace("none", "-", 1),
    EMPTY_REPORT + "first\n", EMPTY_REPORT + "unread \\_SB_ 74\n", SPARING_REPORT.replace("first\n", ""), SPARING_REPORT + "first\n",
    SPARING_REPORT.replace("KBD_ 1", "KBD_"), SPARING_REPORT.replace("level low", "level"), SPARING_REPORT.replace(" 0 128", " 128"),
]
# Values of eval, and what show_value.py shows of them.
SHOWN = {
    "integer 51040321": "integer 51040321 (0x30AD041), as an EISA id PNP0A03",
    "integer 0": "integer 0 (0x0)",
    "string 57696E": 'string "Win"',
    "buffer -": "buffer of 0 bytes",
    "buffer 0102": "buffer of 2 bytes:\n     0  01 02                                            ..",
    "buffer 232004187900": "buffer of 6 bytes, as a resource template:\n     0  IRQ 5 10, level, active-low, shared\n     4  end",
    "buffer 8906000901140000007900":
        "buffer of 11 bytes, as a resource template:\n     0  interrupts 20, level, active-high, shared, consumed\n     9  end",
    "buffer 4701F80CF80C01087900":
        "buffer of 10 bytes, as a resource template:\n     0  I/O ports CF8 to CF8, 8 of them, alignment 1, decodes 16 bits\n     8  end",
    "package 2 ( integer 1 none )": "package of 2:\n  0: integer 1 (0x1)\n  1: none",
    "package 1 ( package 4 ( integer 131071 integer 1 name \\_SB_.LNKA integer 0 ) )":
        "package of 1, as a _PRT:\n  device  function  pin  leads to\n       1       all    B  \\_SB_.LNKA",
    "name \\_SB_": "name \\_SB_",
}
# What is no table: the file, and the word of machine_text.py that says what it is.
TEXTS = {"two-links.asl": "iasl", "two-links.txt": "machine text", "two-links.report": "report", "q35.lspci": "--pci"}
WRONG_WORDS = [
    [], ["--pci", "0:1.0:60=G", "x"], ["--pci", "0:1.0=00", "x"], ["--pci", "0:1.0:FFF=0000", "x"], ["--io", "60"], ["--io", "60=G"],
    ["--mem", "=00"], ["--osi", "", "x"], ["--unknown", "x"],
]
NO_VALUES = ["", "refused 1\n", "acpiroute 2\n", "integer\n", "integer x\n", "buffer 1\n", "package 1 ( integer 1\n", "integer 1 2\n"]


class Check:
    """What passed and what failed."""

    def __init__(self):
        self.passed, self.failed = 0, 0

    def same(self, what, found, wanted):
        if found == wanted:
            self.passed += 1
            return
        self.failed += 1
        print(f"{what}:\n  wanted {wanted!r}\n  found  {found!r}")


def stored(name):
    with open(os.path.join(HERE, name), encoding="ascii") as it:
        return it.read()


def write(file, data):
    with open(file, "wb") as it:
        it.write(data)


def ran(words, text=""):
    """The status, the output and the errors of a command."""
    done = subprocess.run(words, input=text, capture_output=True, text=True, cwd=HERE, check=False)
    return done.returncode, done.stdout, done.stderr


def tool(name, *words):
    return [sys.executable, os.path.join(TOOLS, name), *words]


# ---- the program


def check_program(check, program):
    for name, (machine, words) in REPORTS.items():
        report = stored(f"{name}.report")
        check.same(f"{machine}.txt by {' '.join(words)}", ran([program, *words], stored(f"{machine}.txt")), (0, report, ""))
        check.same(f"check of {name}.report", ran([program, "check"], report), (0, "yes\n", ""))
    for machine, words, status, output, errors in COMMANDS:
        check.same(f"{machine}.txt by {' '.join(words)}", ran([program, *words], stored(f"{machine}.txt")), (status, output, errors))


# ---- report_graph.py


def sources_served(report):
    """How many sources a report counts: a link that is given an interrupt, a wired pin, and the System Control Interrupt."""
    lines = [it.split() for it in report.splitlines()]
    wired = sum(int(it[2]) for it in lines if it[0] == "wired")
    return sum(it[0] == "give" for it in lines) + wired + sum(it[0] == "sci" and it[1] != "none" for it in lines)


def in_version_1(report):
    """The same report in version 1, which has no lines of the System Control Interrupt, of avoided interrupts and of options."""
    lines = [it for it in report.splitlines() if it.split()[0] not in ("sci", "avoid", "spared", "unread", "first", "spread", "trigger", "bus")]
    return "\n".join(["acpiroute 1", *lines[1:]]) + "\n"


def check_graphs(check):
    for name in REPORTS:
        report = stored(f"{name}.report")
        check.same(f"the graph of {name}.report", ran(tool("report_graph.py"), report), (0, stored(f"{name}.dot"), ""))
        told = json.loads(ran(tool("report_graph.py", "--json", f"{name}.report"))[1])
        loads = [it["load"] for it in told["interrupts"]]
        check.same(f"the loads of {name} as JSON", (sum(loads), max(loads)), (sources_served(report), told["busiest"]))
        told = json.loads(ran(tool("report_graph.py", "--json"), in_version_1(report))[1])
        check.same(f"{name}.report in version 1 as JSON", (told["version"], told["sci"], told["avoid"]), (1, None, []))
    for text in FAULTY_REPORTS:
        status, output, errors = ran(tool("report_graph.py"), text)
        check.same(f"report_graph.py over {text!r}", (status, output, errors.count("\n")), (1, "", 1))
    told = json.loads(ran(tool("report_graph.py", "--json"), SPARING_REPORT)[1])
    check.same("a report of version 3 as JSON", (told["spared"], told["unread"], told["links"][0]["as_given"]),
               ([{"device": "\\_SB_.KBD_", "interrupts": [1]}], [{"device": "\\_SB_.COM1", "refused": 74}], False))
    check.same("lines for a kernel as JSON", (told["triggers"], told["buses"]),
               ([{"link": "\\_SB_.LNKA", "trigger": "level", "polarity": "low"}, {"sci": 9, "trigger": "edge", "polarity": "high"}],
                [{"device": "\\_SB_.PCI0", "segment": 0, "bus": 128}, {"device": "\\_SB_.PCI0.P2P_", "refused": 78}]))
    check.same("report_graph.py over a report of nothing", ran(tool("report_graph.py"), EMPTY_REPORT)[0], 0)


def check_values(check):
    for text, wanted in SHOWN.items():
        check.same(f"show_value.py over {text}", ran(tool("show_value.py"), text + "\n"), (0, wanted + "\n", ""))
    for text in NO_VALUES:
        status, output, errors = ran(tool("show_value.py"), text)
        check.same(f"show_value.py over {text!r}", (status, output, errors.count("\n")), (1, "", 1))


# ---- machine_text.py


def memory_of(text):
    """The bytes of memory in a machine text, and the address of its RSDP."""
    memory, root = {}, None
    for line in text.splitlines():
        word, *rest = line.split(" ")
        if word == "rsdp":
            root = int(rest[0], 16)
        if word == "mem":
            memory.update(enumerate(bytes.fromhex("".join(rest[1:])), int(rest[0], 16)))
    return memory, root


def number_at(memory, at, size):
    return int.from_bytes(bytes(memory[at + it] for it in range(size)), "little")


def table_at(memory, at):
    return bytes(memory[at + it] for it in range(number_at(memory, at + 4, 4)))


def tables_of(name):
    """The tables of a machine text: DSDT, SSDTs, MADT, FADT."""
    memory, root = memory_of(stored(f"{name}.txt"))
    xsdt = number_at(memory, root + 24, 8)
    listed = [table_at(memory, number_at(memory, it, 8)) for it in range(xsdt + HEADER_BYTES, xsdt + number_at(memory, xsdt + 4, 4), 8)]
    dsdt = next(table_at(memory, int.from_bytes(it[40:44], "little")) for it in listed if it[:4] == b"FACP")
    return [dsdt] + [it for kind in (b"SSDT", b"APIC", b"FACP") for it in listed if it[:4] == kind]


def without_remarks(text):
    return [it for it in text.splitlines() if not it.startswith("#")]


def as_dump(tables):
    """The tables as a text like that of acpidump."""
    lines = []
    for table in tables:
        lines.append(f"{table[:4].decode()} @ 0x0000000000000000")
        for at in range(0, len(table), 16):
            row = table[at : at + 16]
            letters = "".join(chr(it) if 0x20 <= it < 0x7F else "." for it in row)
            lines.append(f"    {at:04X}: {row.hex(' ').upper():<47}  {letters}")
        lines.append("")
    return "\n".join(lines)


def as_memory(name):
    """The memory of a machine text, from address 0 on."""
    memory, _ = memory_of(stored(f"{name}.txt"))
    return bytes(memory.get(it, 0) for it in range(max(memory) + 1))


def check_machine_texts(check):
    """Each machine text, made of all tables in it, without its FADT, of a text of acpidump, and of a memory dump."""
    for name, words in WORDS.items():
        wanted = without_remarks(stored(f"{name}.txt"))
        tables = tables_of(name)

        def same(what, source, text=""):
            status, output, errors = ran(tool("machine_text.py", *words, source), text)
            check.same(f"{name}.txt from {what}", (status, without_remarks(output), errors), (0, wanted, ""))

        with tempfile.TemporaryDirectory() as folder:
            for number, table in enumerate(tables):
                write(f"{folder}/table{number}.aml", table)
            same("the tables in it", folder)
            os.remove(f"{folder}/table{len(tables) - 1}.aml")
            same("its tables but the FADT", folder)
            write(f"{folder}/memory", as_memory(name))
            same("a memory dump", f"{folder}/memory")
        same("a text like that of acpidump", "-", as_dump(tables))


def check_faults(check):
    """Files that are no tables, and wrong usage."""
    dsdt = tables_of("two-links")[0]
    faults = {"empty": b"", "short": dsdt[:20], "cut": dsdt[:-1], "long": dsdt + b"\0", "text": b"A text.\n" * 9}
    faults["no DSDT"] = b"OEM1" + dsdt[4:]
    with tempfile.TemporaryDirectory() as folder:
        for name, data in faults.items():
            write(f"{folder}/{name}", data)
            status, output, errors = ran(tool("machine_text.py", f"{folder}/{name}"))
            check.same(f"machine_text.py over a table that is {name}", (status, output, errors.count("\n")), (1, "", 1))
    check.same("machine_text.py over a file that is not there", ran(tool("machine_text.py", "nothing.aml"))[0], 1)
    for name, word in TEXTS.items():
        errors = ran(tool("machine_text.py", name))[2]
        check.same(f"machine_text.py over {name}", ("a text, and no table" in errors, word in errors), (True, True))
    for words in WRONG_WORDS:
        check.same(f"machine_text.py {' '.join(words)}", ran(tool("machine_text.py", *words))[:2], (2, ""))


def check_folders(check):
    """Tables that are written into a folder, with files there that are no tables, and two DSDTs; registers that are given by themselves."""
    registers = "0:1.0:60=80808080"
    with tempfile.TemporaryDirectory() as folder:
        write(f"{folder}/memory", as_memory("index"))
        first = ran(tool("machine_text.py", "--tables", f"{folder}/tables", "--pci", registers, f"{folder}/memory"))
        names = ["APIC.aml", "DSDT.aml", "FACP.aml", "SSDT1.aml"]
        check.same("the tables of a memory dump, as files", sorted(os.listdir(f"{folder}/tables")), names)
        check.same("registers that are given by themselves", first[1].splitlines()[-1], "pci 0 0 1 0 60 80808080")
        write(f"{folder}/tables/DSDT.dsl", b"DefinitionBlock\n" * 9)
        again = ran(tool("machine_text.py", "--pci", registers, f"{folder}/tables"))
        found, wanted = (again[0], without_remarks(again[1])), (0, without_remarks(first[1]))
        check.same("a machine text of these files, and of an ASL source beside them", found, wanted)
        check.same("an ASL source in a folder is named", again[2].count("DSDT.dsl"), 1)
        status = ran(tool("machine_text.py", "--tables", f"{folder}/tables", f"{folder}/memory"))[0]
        check.same("files that are there are not replaced", status, 1)
        write(f"{folder}/tables/other.aml", tables_of("two-links")[0])
        errors = ran(tool("machine_text.py", f"{folder}/tables"))[2]
        check.same("two DSDTs are named", [it in errors for it in ("DSDT.aml", "other.aml")], [True, True])


# ---- the words of scripts


def scripts():
    """The scripts that are there, from the top folder on; a release has few of them."""
    folders = ("tools", "benches", "examples", "examples/kernel")
    return sorted(os.path.relpath(it, TOP) for folder in folders for it in glob.glob(f"{TOP}/{folder}/*.py"))


def said_of(script):
    """The last line of what a script says of itself."""
    with open(f"{TOP}/{script}", encoding="utf-8") as it:
        return ast.get_docstring(ast.parse(it.read())).strip().splitlines()[-1].strip()


def check_words(check):
    """Each script tells what it is for, and names a file that is missing."""
    for script in scripts():
        status, said, errors = ran([sys.executable, f"{TOP}/{script}", "--help"])
        check.same(f"{script} --help", (status, said_of(script) in said, errors), (0, True, ""))
    for script in [it for it in READERS if it in scripts()]:
        status, _, errors = ran([sys.executable, f"{TOP}/{script}", "no/such/file"])
        check.same(f"{script} of a missing file", (status in (1, 2), "no/such/file" in errors, "Traceback" in errors), (True, True, False))


# ---- sources


def compiled(name, folder):
    """The table that iasl makes of a source."""
    done = ran(["iasl", "-oa", "-p", f"{folder}/{name}", f"{name}.asl"])
    if done[0] != 0:
        return done[1] + done[2]
    with open(f"{folder}/{name}.aml", "rb") as it:
        return it.read()[HEADER_BYTES:].hex()


def check_sources(check):
    if not shutil.which("iasl"):
        print("iasl isn't installed: the sources are not compiled")
        return
    with tempfile.TemporaryDirectory() as folder:
        for name, sources in SOURCES.items():
            for source, table in zip(sources, tables_of(name)):
                check.same(f"{source}.asl, compiled", compiled(source, folder), table[HEADER_BYTES:].hex())


# ---- rows


def row(name, machine, words, status, output, errors):
    lines = [f"row the example {name}"] + [f"arg {it}" for it in words] + [f"like {machine}.txt"]
    lines += [f"out {it}" for it in output.splitlines()] + [f"err {it}" for it in errors.splitlines()]
    return lines + ([f"status {status}"] if status else [])


def rows():
    """The examples as rows for the program that runs them at the gate."""
    every = [row(name, machine, words, 0, stored(f"{name}.report"), "") for name, (machine, words) in REPORTS.items()]
    every += [row(f"{it[0]} by {' '.join(it[1])}", *it) for it in COMMANDS]
    head = "# The examples of the folder examples/. This file is written by `examples/check.py --rows`."
    return "\n".join([head] + ["\n" + "\n".join(it) for it in every]) + "\n"


def check_rows(check):
    check.same("examples.rows", read_in(ROWS, "examples.rows"), rows())
    for name in SOURCES:
        check.same(f"{name}.txt beside the rows", read_in(ROWS, f"{name}.txt"), stored(f"{name}.txt"))


def read_in(folder, name):
    try:
        with open(os.path.join(folder, name), encoding="ascii") as it:
            return it.read()
    except OSError as error:
        return f"{name}: {error.strerror}"


def main(words):
    if words == ["--rows"]:
        print(rows(), end="")
        return 0
    if words in (["-h"], ["--help"]):
        print(__doc__)
        return 0
    if len(words) != 1 or words[0].startswith("-") and words[0] != "--tools":
        print(__doc__, file=sys.stderr)
        return 2
    if words[0] != "--tools" and not (os.path.isfile(words[0]) and os.access(words[0], os.X_OK)):
        print(f"check.py: {words[0]}: no program is there", file=sys.stderr)
        return 2
    check = Check()
    if words[0] != "--tools":
        check_program(check, os.path.abspath(words[0]))
    check_graphs(check)
    check_values(check)
    check_machine_texts(check)
    check_faults(check)
    check_folders(check)
    check_words(check)
    check_sources(check)
    # a release has no crates
    if os.path.isdir(CRATES):
        check_rows(check)
    print(f"{check.passed} passed, {check.failed} failed")
    return 1 if check.failed else 0


if __name__ == "__main__":
    sys.exit(main(sys.argv[1:]))
