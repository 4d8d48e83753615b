"""How the gate begins its tasks: in which order, with how many processes, and at which priority.

A task's key is a crate's name, what is done, and in some kits a number. What is done is its `proof`, its `tests`, its `edits`
(all of them, or the one with the number), the `seed`, which is the check that its edits begin with, or what a kit adds to those.
A task is described as the kit's `rt ci` does: by what it waits for, its lines, the bytes of memory that it is expected to need,
and a call.

The slack of a task is how many seconds later it could begin without the whole run ending later, if no task waited for a processor. What
has next to none belongs to the longest chain. Its proofs get several processes and end sooner, so another chain may be the longest then:
what has next to none by that reckoning belongs to the chains that have several processes, too."""
import collections
import os

FILE = os.path.join(os.path.dirname(os.path.abspath(__file__)), "gate_table.txt")
# the seconds of a proof for each line, where the table doesn't have the crate
SECONDS_A_LINE = 0.25
# what is added to a memory that was measured
MARGIN = 1.25
# a task with at most so many seconds of slack belongs to the longest chain
CHAIN = 60
# so many seconds of slack lower the priority of a task by one step
STEP = 60
LOWEST = 15
# what a further process of a proof takes of the memory of the first, by the kit's estimate
FURTHER = 0.6
# how often the slack is reckoned anew with what several processes save
ROUNDS = 2
# the part of a proof in which it is one process, whatever it was given, and what each further process adds to the processor seconds
ALONE, ADDED = 0.12, 0.12


def read_table():
    """The rows of tools/gate_table.txt: of each crate the seconds of its proof and of its edits, and the GB of memory of its proof."""
    with open(FILE, encoding="utf-8") as it:
        rows = [line.split("#")[0].split() for line in it]
    return {row[0]: [float(it) for it in row[1:]] for row in rows if row}


class Plan:
    def __init__(self, tasks, table, processors):
        self.tasks, self.table, self.processors = tasks, table, processors
        self.tries = collections.Counter(key[0] for key in tasks if key[1] == "edits")
        self.several = min(4, max(2, processors // 2)) if processors > 1 else 1
        self.chain = set()
        self.slack = self.slacks()
        for _ in range(ROUNDS):
            self.chain |= {it for it in tasks if it[1] == "proof" and self.slack[it] <= CHAIN}
            self.slack = self.slacks()

    def slacks(self):
        """The slack of each task, with the processes that proofs have so far."""
        before, behind = {}, {it: self.lasting(it) for it in self.tasks}
        # (a task comes after those that it waits for)
        for key, task in self.tasks.items():
            before[key] = max((before[it] + self.lasting(it) for it in task[0]), default=0)
        for key in reversed([*self.tasks]):
            for it in self.tasks[key][0]:
                behind[it] = max(behind[it], self.lasting(it) + behind[key])
        longest = max((before[it] + behind[it] for it in self.tasks), default=0)
        return {it: longest - before[it] - behind[it] for it in self.tasks}

    def lasting(self, key):
        """How many seconds a task lasts that never waits for a processor."""
        processes = self.processes(key)
        return self.seconds(key) * (ALONE + (1 - ALONE + ADDED * (processes - 1)) / processes)

    def seconds(self, key):
        """The processor seconds of a task with one process."""
        name, what = key[:2]
        if what not in ("proof", "seed", "edits"):
            return 0.0
        if name not in self.table:
            return SECONDS_A_LINE * self.tasks[key][1]
        proof, edits = self.table[name][:2]
        return edits / self.tries[name] if what == "edits" else proof

    def in_order(self):
        """The tasks, those first that can wait least."""
        return sorted(self.tasks, key=lambda it: self.slack[it])

    def is_in_chain(self, key):
        return key in self.chain

    def processes(self, key):
        return self.several if self.is_in_chain(key) else 1

    def niceness(self, key):
        return int(min(LOWEST, self.slack[key] / STEP))

    def memory(self, key, processes):
        """The bytes that a task takes: as measured with all its processes, or as the kit expects."""
        expected = self.tasks[key][2] * (1 + FURTHER * (processes - 1))
        row = self.table.get(key[0], [])
        return min(expected, MARGIN * 1e9 * row[2]) if len(row) > 2 else expected


if __name__ == "__main__":
    print(__doc__)
