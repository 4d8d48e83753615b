#!/usr/bin/env python3
"""gate_model.py [--processors N] [--twice]: how long the gate takes, estimated from the processor seconds of its tasks.

tools/gate_table.txt has a line for each crate: the processor seconds of its proof and of its edits, and the memory of its proof.
The order, the processes and the priorities are the gate's (tools/gate_plan.py); memory is taken as plentiful. Programs run at the
end.

--processors N also prints when each task begins and ends. --twice estimates twice the code: each crate once more beside the
first, and two of the new ones in the longest chain."""
import os
import sys

sys.dont_write_bytecode = True
import gate_plan
from gate_plan import ADDED, ALONE
from usage import answer_help

ROOT = os.path.join(os.path.dirname(os.path.abspath(__file__)), "..")
# seconds for running the programs at the end, once nothing is left to prove
LAST = 30
# how much less of a processor a process gets at the next lower priority
NEXT_LOWER = 1.25


def source_lines(name):
    """How many lines the files of a crate's src/ have."""
    found = 0
    for at, _, files in os.walk(f"{ROOT}/crates/{name}/src"):
        for file in files:
            with open(f"{at}/{file}", "rb") as it:
                found += it.read().count(b"\n")
    return found


def read_repository():
    """Each crate with those that its line of crates.txt names."""
    deps = {}
    with open(f"{ROOT}/crates.txt", encoding="utf-8") as it:
        for line in it.read().splitlines():
            if line.strip() and not line.startswith("#"):
                name, _, below = line.partition(":")
                deps[name.split()[0]] = below.split()
    return {name: [it for it in below if it in deps] for name, below in deps.items()}


def twice(deps, rows):
    again = lambda name: f"{name}_2"
    for name in [*deps]:
        deps[again(name)] = [again(it) for it in deps[name]]
        rows[again(name)] = rows[name]
    # two of the new crates stand in the longest chain
    deps["acpi_links_2"].append("acpi_configure")
    deps["acpi_configure_2"] = ["acpi_links_2"]
    deps["acpiroute_lib"].append("acpi_configure_2")


def below(deps, name):
    found = []
    for it in deps[name]:
        found += [low for low in [*below(deps, it), it] if low not in found]
    return found


def tasks_of(deps, rows):
    """The gate's tasks, with what each waits for and its lines. What it does is the model's, and what memory it needs is left out."""
    tasks = {}
    for name in sorted(deps, key=lambda it: len(below(deps, it))):
        lines = source_lines(name.removesuffix("_2"))
        tasks[name, "proof"] = ([(it, "proof") for it in below(deps, name)], lines, 0, None)
        if rows.get(name, [0, 0])[1]:
            tasks[name, "edits"] = ([(name, "proof")], lines, 0, None)
    return tasks


class Running:
    """A task that has begun: the seconds in which it is one process, those that its processes share, and its weight beside others."""

    def __init__(self, seconds, processes, niceness, begun):
        self.alone, self.shared = ALONE * seconds, seconds * (1 - ALONE + ADDED * (processes - 1))
        self.processes, self.weight, self.begun = processes, NEXT_LOWER**-niceness, begun

    def most(self):
        return 1 if self.alone > 0 else self.processes

    def left(self):
        return self.alone if self.alone > 0 else self.shared

    def spend(self, seconds):
        if self.alone > 0:
            self.alone = self.alone - seconds if self.alone - seconds > 1e-6 else 0
        else:
            self.shared -= seconds


def shares(running, processors):
    """How much of the processors each running task gets: by weight, and no more than it has processes."""
    given, left, free = {}, dict(running), processors
    while left:
        whole = sum(it.weight * it.most() for it in left.values())
        full = [key for key, it in left.items() if free * it.weight * it.most() / whole >= it.most()]
        for key in full or [*left]:
            given[key] = left[key].most() if full else free * left[key].weight * left[key].most() / whole
        free -= sum(given[key] for key in full)
        left = {key: it for key, it in left.items() if key not in given}
    return given


def run(tasks, table, processors):
    """The seconds at which each task begins and ends."""
    plan = gate_plan.Plan(tasks, table, processors)
    left, running, ended, now = plan.in_order(), {}, {}, 0.0
    while left or running:
        for key in [it for it in left if all(low in ended for low in tasks[it][0])]:
            if len(running) < 2 * processors:
                left.remove(key)
                running[key] = Running(max(plan.seconds(key), 0.1), plan.processes(key), plan.niceness(key), now)
        given = shares(running, processors)
        step = min(it.left() / given[key] for key, it in running.items())
        now += step
        for key, it in [*running.items()]:
            it.spend(step * given[key])
            if it.alone <= 0 and it.shared <= 1e-6:
                ended[key] = it.begun, now
                del running[key]
    return ended


def longest_chain(deps, rows):
    longest = {}
    for name in sorted(deps, key=lambda it: len(below(deps, it))):
        before = max(deps[name], key=lambda it: longest[it][0], default=None)
        seconds, names = longest[before] if before else (0, [])
        longest[name] = seconds + rows[name][0], [*names, name]
    return max(longest.values())


def main(words):
    answer_help(__doc__)
    asked = [int(words[words.index("--processors") + 1])] if "--processors" in words else [4, 2]
    deps, rows = read_repository(), gate_plan.read_table()
    if missing := [it for it in deps if it not in rows]:
        sys.exit(f"tools/gate_table.txt has no line for {', '.join(missing)}")
    if "--twice" in words:
        twice(deps, rows)
    tasks = tasks_of(deps, rows)
    print(f"work: {sum(sum(rows[it][:2]) for it in deps) / 60:.0f} processor minutes, with one process each")
    seconds, names = longest_chain(deps, rows)
    print(f"longest chain: {seconds / 60:.1f} of them: {', '.join(names)}")
    for count in asked:
        ended = run(tasks, rows, count)
        print(f"{count} processors: {(max(end for _, end in ended.values()) + LAST) / 60:.1f} minutes")
        if "--processors" in words:
            for (name, what), (begun, end) in sorted(ended.items(), key=lambda it: it[1][1]):
                print(f"  {begun / 60:5.1f} {end / 60:5.1f} {name} {what}")


if __name__ == "__main__":
    main(sys.argv[1:])
