#!/usr/bin/env python3
"""How long `check` takes over reports that were written to keep it busy.

    benches/check_hostile.py [PROGRAM [WORD..]]

The program is run on reports of 16,777,216 bytes, the longest that acpiroute takes, and the seconds of the fastest of three runs
and what it said are printed for each. With no program named, it is `acpiroute check`: build it first by `rt run -- --help` in
crates/acpiroute. The reports are the same at each call; their lines stand in a mixed order, or from the last one to the first.
"""
import pathlib
import random
import subprocess
import sys
import time

sys.path.insert(0, str(pathlib.Path(__file__).parent.parent / "tools"))
sys.dont_write_bytecode = True
from usage import answer_help, program_there

SIZE = 16_777_216
PROGRAM = [pathlib.Path(__file__).parent.parent / "crates/acpiroute/out/acpiroute", "check"]
LETTERS = "ABCDEFGHIJKLMNOPQRSTUVWXYZ_"


def segment(n):
    """The n-th name of four characters."""
    name = ""
    for _ in range(4):
        n, letter = divmod(n, len(LETTERS))
        name = LETTERS[letter] + name
    return name


def path(n):
    """The n-th of many paths."""
    first, second = divmod(n, len(LETTERS) ** 4)
    return "\\" + (segment(first) + "." if first else "") + segment(second)


def numbers(size):
    """Numbers, in ascending order, that take this many bytes with a blank before each."""
    found = []
    n = 0
    while True:
        size -= len(str(n)) + 1
        if size < 0:
            return found
        found.append(n)
        n += 1


def mixed(things):
    random.Random(1).shuffle(things)
    return things


def filled(head, line):
    """A report of this head and then as many of the lines numbered from 0 on as there is room for, the last one first."""
    size = SIZE - len(head)
    lines = []
    while True:
        next_line = line(len(lines))
        size -= len(next_line)
        if size < 0:
            return head + "".join(reversed(lines))
        lines.append(next_line)


def many_gives():
    """A link that is given an interrupt, and more than a million gives of no link."""
    return filled("acpiroute 1\nlink \\AAAA small low offers 5 now -\nbusiest 1\nbound \\AAAA over 5\n", lambda n: f"give {path(n)} 5\n")


def one_path_often():
    """One link, given an interrupt in more than a million lines."""
    return filled("acpiroute 1\nlink \\AAAA small low offers 5 now -\nbusiest 1\nbound \\AAAA over 5\n", lambda n: "give \\AAAA 5\n")


def many_offers():
    """A link that offers more than a million interrupts, and a set of all of them in a mixed order."""
    head = "acpiroute 1\nlink \\AAAA small low offers"
    tail = " now -\ngive \\AAAA 0\nbusiest 1\nbound \\AAAA over"
    found = numbers((SIZE - len(head) - len(tail) - 1) // 2)
    return head + "".join(f" {n}" for n in found) + tail + "".join(f" {n}" for n in mixed(list(found))) + "\n"


def many_avoided():
    """A link that offers more than a million interrupts, of which all but the first are avoided."""
    head = "acpiroute 2\nsci none\navoid"
    link = "\nlink \\AAAA small low offers"
    tail = " now -\ngive \\AAAA 0\nbusiest 1\nbound \\AAAA over 0\n"
    found = numbers((SIZE - len(head) - len(link) - len(tail)) // 2)
    return head + "".join(f" {n}" for n in found[1:]) + link + "".join(f" {n}" for n in found) + tail


def many_set_interrupts():
    """A set of two million interrupts in a mixed order, and 4096 wired ones."""
    head = "acpiroute 1\nlink \\AAAA small low offers 0 now -\ngive \\AAAA 0\nbusiest 2\n"
    head += "".join(f"wired {n} 1\n" for n in mixed(list(range(4096)))) + "bound \\AAAA over"
    return head + "".join(f" {n}" for n in mixed(numbers(SIZE - len(head) - 1))) + "\n"


def many_set_links():
    """A set of more than a million paths in a mixed order."""
    head = "acpiroute 1\nlink \\AAAA small low offers 5 now -\ngive \\AAAA 5\nbusiest 1\nbound"
    tail = " over 5\n"
    count = (SIZE - len(head) - len(tail)) // 11
    return head + "".join(f" {path(n)}" for n in mixed(list(range(count)))) + tail


def long_paths():
    """256 links whose paths differ in their last segment alone, 4096 wired interrupts, and a set of every second link."""
    above = "\\" + "LNKA." * 4_200
    paths = [above + segment(n) for n in range(256)]
    lines = [f"link {p} small low offers 5 6 now -\n" for p in mixed(list(paths))]
    lines += [f"give {p} 5\n" for p in mixed(list(paths))]
    lines += [f"wired {n} 1\n" for n in mixed(list(range(7, 4103)))]
    text = "acpiroute 1\n" + "".join(lines) + "busiest 256\nbound " + " ".join(paths[::2]) + " over 5 6\n"
    assert len(text) <= SIZE
    return text


def many_offers_each():
    """256 links with thousands of interrupts each, 4096 wired interrupts, and a set that has all of them."""
    offers = list(range(100_000, 108_000))
    said = " ".join(str(n) for n in offers)
    lines = [f"link \\{segment(n)} small low offers {said} now -\n" for n in range(256)]
    lines += [f"give \\{segment(n)} {offers[n]}\n" for n in range(256)]
    lines += [f"wired {n} 1\n" for n in range(4096)]
    head = "acpiroute 1\n" + "".join(mixed(lines)) + "busiest 1\nbound " + " ".join(f"\\{segment(n)}" for n in range(256)) + " over"
    others = numbers(SIZE - len(head) - len(said) - 2)
    return head + "".join(f" {n}" for n in mixed([n for n in others if n < 100_000] + offers)) + "\n"


REPORTS = [many_gives, one_path_often, many_offers, many_avoided, many_set_interrupts, many_set_links, long_paths, many_offers_each]


def fastest(command, text):
    seconds = []
    for _ in range(3):
        start = time.monotonic()
        done = subprocess.run(command, input=text, capture_output=True, check=False)
        seconds.append(time.monotonic() - start)
    return min(seconds), (done.stdout + done.stderr).decode().strip() or f"status {done.returncode}"


def main():
    answer_help(__doc__)
    command = sys.argv[1:] or PROGRAM
    program_there(command[0])
    for report in REPORTS:
        text = report().encode()
        assert len(text) <= SIZE
        seconds, said = fastest(command, text)
        print(f"{report.__name__:20} {len(text):10} bytes {seconds:8.3f} s  {said}")


if __name__ == "__main__":
    main()
