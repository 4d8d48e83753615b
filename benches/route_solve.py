#!/usr/bin/env python3
"""How long the first least assignment of many links takes, beside the earlier solver that is kept for tests, and how long it takes from
there to an assignment under which they share as little as they can, and to test that one.

    benches/route_solve.py [--count] [PROGRAM]

The program is crates/timing/out/timing: build it first by `rt run` in crates/timing. Each problem is solved many times in one run
of it, by `timing solver TIMES`, `timing earlier-solver TIMES`, `timing spread TIMES` and `timing spread-check TIMES` in turn, and what a
run with no solution takes is taken off.
The microseconds of a solution are those of the fastest of five runs, of one run where a solution takes half a second. With --count
the instructions of one solution are counted in place of that, by valgrind's callgrind, which other work on the machine doesn't
disturb. The problems are the same at each call.
"""
import pathlib
import random
import re
import subprocess
import sys
import tempfile
import time

sys.path.insert(0, str(pathlib.Path(__file__).parent.parent / "tools"))
sys.dont_write_bytecode = True
from usage import answer_help, program_there

PROGRAM = str(pathlib.Path(__file__).parent.parent / "crates/timing/out/timing")
SOLVERS = ("earlier-solver", "solver")
SHARINGS = ("spread", "spread-check")


class Problem:
    def __init__(self, offers, wired=()):
        self.offers, self.wired = [sorted(set(it)) for it in offers], sorted(wired)

    def text(self):
        lines = [" ".join(map(str, it)) for it in self.offers] + [f"wired {n} {count}" for n, count in self.wired]
        return "".join(f"{it}\n" for it in lines).encode()


# ---- problems of so many links and interrupts


def dense(links, interrupts):
    """All offer all."""
    return Problem([range(1, interrupts + 1)] * links)


def sparse(links, interrupts):
    """Each offers a quarter."""
    chosen = random.Random(links * 1000 + interrupts)
    return Problem([chosen.sample(range(1, interrupts + 1), max(1, interrupts // 4)) for _ in range(links)])


def few(links, interrupts):
    """Each offers three."""
    chosen = random.Random(links * 1000 + interrupts)
    return Problem([chosen.sample(range(1, interrupts + 1), 3) for _ in range(links)])


def tight_wired(links, interrupts):
    """So many sources are wired that all but one interrupt are full when all links, which offer all, are placed."""
    limit = -(-(links + 1) // interrupts)
    wired = [0] * interrupts
    for at in range(limit * interrupts - 1 - links):
        wired[(at * 7) % interrupts] += 1
    return Problem([range(1, interrupts + 1)] * links, [(n + 1, count) for n, count in enumerate(wired) if count])


def tight(links, interrupts):
    """Each is sure to offer one interrupt of its own and a few others, and all but one are full when all are placed."""
    chosen = random.Random(links * 1000 + interrupts)
    last = min(links, interrupts - 1)
    own = [1 + link % last for link in range(links)]
    chosen.shuffle(own)
    return Problem([[n, *chosen.sample(range(1, last + 2), 3)] for n in own])


def stairs(links, interrupts):
    """Each offers two neighbours, the first link the last ones."""
    return Problem([[1 + at % interrupts, 1 + (at + 1) % interrupts] for at in range(links, 0, -1)])


def stairs_up(links, interrupts):
    """Each offers two neighbours, and the last link the first interrupt only, for which all others move."""
    offers = [[1 + at % interrupts, 1 + (at + 1) % interrupts] for at in range(links - 1)]
    return Problem([*offers, [1]])


def long_stairs(links, interrupts):
    """Each offers the interrupt of its place and all after it, so the last links leave the earlier ones little room."""
    return Problem([range(1 + at * interrupts // (links + 1), interrupts + 1) for at in range(links)])


def nested(links, interrupts):
    """Each offers the first interrupts only, the first link all and the last link one."""
    return Problem([range(1, max(1, interrupts - at * interrupts // links) + 1) for at in range(links)])


def halves(links, interrupts):
    """Half of the links offer the first half of the interrupts, the others the second half, and one offers both."""
    half = interrupts // 2
    parts = [range(1, half + 1), range(half + 1, interrupts + 1)]
    return Problem([*[parts[at * 2 // links] for at in range(links - 1)], range(1, interrupts + 1)])


def crowd(links, interrupts):
    """Half of the links offer the first few interrupts, the others all."""
    first = range(1, max(2, interrupts // 8))
    return Problem([first if at % 2 else range(1, interrupts + 1) for at in range(links)])


def last_first(links, interrupts):
    """Each offers a window of neighbours that begins before that of the link before it."""
    width = max(2, interrupts // 4)
    starts = [(links - at) * (interrupts - width) // links for at in range(links)]
    return Problem([range(1 + start, 1 + start + width) for start in starts])


KINDS = [dense, sparse, few, tight, tight_wired, stairs, stairs_up, long_stairs, nested, halves, crowd, last_first]


# ---- measures


def seconds(command, text):
    start = time.monotonic()
    done = subprocess.run(command, input=text, capture_output=True, check=True)
    return time.monotonic() - start, done.stdout


def fastest(program, solver, text):
    """The microseconds of a solution, and what it came to."""
    once, came = seconds([program, solver, "1"], text)
    runs = 5 if once < 0.5 else 1
    times = max(1, min(20000, int(0.1 / once)))
    once = min(seconds([program, solver, str(times)], text)[0] for _ in range(runs)) / times
    times = max(1, min(20000, int(0.1 / once)))
    none = min(seconds([program, solver, "0"], text)[0] for _ in range(runs))
    many = min(seconds([program, solver, str(times)], text)[0] for _ in range(runs))
    return max(many - none, 0) / times * 1e6, came


def instructions(program, solver, times, text):
    with tempfile.NamedTemporaryFile() as out:
        command = ["valgrind", "--tool=callgrind", f"--callgrind-out-file={out.name}", program, solver, str(times)]
        done = subprocess.run(command, input=text, capture_output=True, check=True)
    return int(re.search(rb"Collected : (\d+)", done.stderr)[1]), done.stdout


def counted(program, solver, text):
    """The thousands of instructions of a solution, and what it came to."""
    (none, _), (some, came) = instructions(program, solver, 0, text), instructions(program, solver, 1, text)
    return (some - none) / 1000, came


def main(words):
    answer_help(__doc__)
    measure, unit = (counted, "thousand instructions") if "--count" in words else (fastest, "microseconds")
    program = program_there(next((it for it in words if not it.startswith("--")), PROGRAM))
    print(f"{unit}: the earlier solver, the solver, and the second in parts of the first; links moved to share as little as they can, "
          "and the test")
    for kind in KINDS:
        for links in (16, 64, 256):
            text = kind(links, 255).text()
            (before, came), (now, also) = (measure(program, it, text) for it in SOLVERS)
            same = came.decode().strip() if came == also else f"{came} and {also}"
            (moved, how_many), (test, answer) = (measure(program, it, text) for it in SHARINGS)
            shared = f"{how_many.decode().strip()}, {answer.decode().strip()}"
            both = f"{before:.1f} {now:.1f} {now / before:.2f} ({same})"
            print(f"{links:3} links, {kind.__name__}: {both}; {moved:.1f} {test:.1f} ({shared})", flush=True)


if __name__ == "__main__":
    main(sys.argv[1:])
