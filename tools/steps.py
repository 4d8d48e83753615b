"""Which functions of the crates of evaluation evaluate a term, followed through the sources: from the arm of a match that begins it, by the calls
of other steps, by the frames that are left to wait, and by what is done with a target. A step is a function that answers what is left to
do (`Next`), or a flow."""
import os
import re

from pages import Wrong, files_in, text_of

# The crates of evaluation, lowest first. No two of their files have one name.
CRATES = ("aml_frames", "aml_accesses", "aml_declarations", "aml_targets", "aml_statements", "aml_operators", "aml_evaluation")
# The files that have no steps: those of the loop, which puts on the stack what a step leaves and begins it; and the types.
LOOPS, TYPES = ("stack", "waiting"), "frames"
# What all terms share isn't followed: other terms, lists, targets, stores and accesses of fields, and going over what was read.
SHARED = {
    "begin_term", "told_turn", "begin_target", "begin_access", "begin_read", "begin_write", "store_value", "complete", "done", "resume",
}
SHARED_USE = ("TargetUse", "Store")
# A function: how far it stands in, its name, its head with the contract, and its body.
FUNCTION = re.compile(r"(?ms)^( *)(?:pub(?:\(\w+\))? )?fn (\w+)(.*?)(?:^\1| )\{\n(.*?)^\1\}")
STEP = re.compile(r"-> (?:Result<(?:Next|Flow)>|Next)\s")
# An arm of a match for a variant of an enum: how far it stands in, its pattern, and what it does.
ARM = re.compile(r"(?ms)^( *)(\w+::\w[^\n;]*?) =>(.*?)(?=^\1\w|^(?!\1|\n))")
VARIANT = re.compile(r"\b(\w+)::(\w+)\b")
CALL = re.compile(r"(?<![\w.:])(\w+)\(")
# What an arm does itself, beside calling a step.
OWN_WORK = re.compile(r"\brun\.|\bNext::|\bFrame::")


class Sources:
    """The files of the crates of evaluation: their functions, each by its file and its name, and which of them are steps."""

    def __init__(self):
        self.functions, self.steps = {}, {}
        for path in (it for crate in CRATES for it in files_in(f"crates/{crate}/src/**/*.rt")):
            file = os.path.basename(path)[:-3]
            for _, name, head, body in FUNCTION.findall(text_of(path)):
                self.functions[file, name] = body
                if STEP.search(f"{head}\n") and file not in (*LOOPS, TYPES):
                    self.steps[file, name] = body
        self.join_values()

    def join_values(self):
        """Takes a step `x_value`, which `x` leaves an operand to that is no integer, as a part of `x`: no step of its own."""
        for file, name in [it for it in self.steps if it[1].endswith("_value")]:
            whole = file, name.removesuffix("_value")
            if whole in self.steps:
                self.steps[whole] += self.steps.pop((file, name))
                self.functions[whole] = self.steps[whole]

    def callee(self, file, name):
        """The function that a name stands for in a file: its own, or the one of another file; None where there is none."""
        if (file, name) in self.functions:
            return file, name
        return next((it for it in self.functions if it[1] == name), None)

    def called(self, file, text):
        """The steps that a text of a file calls, each once."""
        found = dict.fromkeys(self.callee(file, name) for name in CALL.findall(text))
        return [it for it in found if it in self.steps and it[1] not in SHARED]

    def arm(self, enum, variant):
        """The step that has an arm for a variant, and what it does there; None where no step has one."""
        for place, body in self.steps.items():
            for _, pattern, text in arms(body):
                if (enum, variant) in VARIANT.findall(pattern):
                    return place, text
        return None

    def in_loop(self, enum, variant):
        """What the loop does for a variant: the text of its arm, and of the functions of the loop that it calls."""
        loop = {name: body for (file, name), body in self.functions.items() if file in LOOPS}
        found = [text for body in loop.values() for _, pattern, text in arms(body) if VARIANT.match(pattern).groups() == (enum, variant)]
        return found + [loop[name] for text in found for name in re.findall(r"(\w+)\(", text) if name in loop]

    def after(self, variant):
        """The frames that the loop puts on the stack for what a step leaves (`Next`), and the steps by which it begins this."""
        put = [it[1] for text in self.in_loop("Next", variant) for it in VARIANT.findall(text) if it[0] == "Frame"]
        return put, [step for text in self.in_loop("Control", variant) for step in self.called(LOOPS[0], text)]


def arms(text):
    """The arms of all matches in a text, also of those inside others."""
    for found in ARM.finditer(text):
        yield found.groups()
        yield from arms(found[3])


def chosen(text, choices):
    """A text without the arms that aren't taken, where these variants are chosen, and without the patterns of the others."""
    def left(found):
        known = [(enum, variant) for enum, variant in VARIANT.findall(found[2]) if enum in choices]
        if known and all(choices[enum] != variant for enum, variant in known):
            return ""
        return chosen(found[3], choices)
    return ARM.sub(left, text)


class Trail:
    """The steps of one term, in the order in which evaluation comes to them. `enums` are those whose variants choose an arm."""

    def __init__(self, sources, enums):
        self.sources, self.enums = sources, enums
        self.steps, self.seen = [], set()

    def follow_arm(self, enum, variant, choices):
        """Goes on with the arm of a variant. The step that has the arm is left out where all that it does there is to call another one."""
        found = self.sources.arm(enum, variant)
        if not found:
            raise Wrong(f"no step has an arm for {enum}::{variant}")
        place, text = found
        hands_on = self.sources.called(place[0], text) and not OWN_WORK.search(text)
        self.follow(place, text, {**choices, enum: variant}, not hands_on)

    def follow(self, place, text, choices, is_named=True):
        """Goes on with what a step does, where these variants are chosen."""
        text = chosen(text, choices)
        state = place, text, frozenset(choices.items())
        if state in self.seen:
            return
        self.seen.add(state)
        if is_named and place not in self.steps:
            self.steps.append(place)
        made = dict.fromkeys(VARIANT.findall(text))
        choices = {**choices, **{enum: variant for enum, variant in made if enum in self.enums}}
        for enum, variant in made:
            if enum == "Frame" or enum == SHARED_USE[0] and (enum, variant) != SHARED_USE:
                self.follow_arm(enum, variant, choices)
        called = self.sources.called(place[0], text)
        for frames, begun in (self.sources.after(variant) for enum, variant in made if enum == "Next"):
            called.extend(begun)
            for frame in frames:
                self.follow_arm("Frame", frame, choices)
        for step in called:
            self.follow(step, self.sources.steps[step], choices)


def steps_of(sources, enums, enum, variant):
    """The steps that evaluate the terms of a kind, each by its file and its name."""
    trail = Trail(sources, enums)
    trail.follow_arm(enum, variant, {})
    return trail.steps


if __name__ == "__main__":
    print(__doc__)
