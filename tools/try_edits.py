#!/usr/bin/env python3
"""try_edits.py [--all] [--lanes N] [--check] [NAME..]: tries the must-fail edits of crates that have changed.

Run it at the top of a checkout in which the libraries are built: by the gate (`.ci/run`, in a fresh clone), or by `rt all check`.
The edits of a crate are its files must-fail/*.edit, which the gate tries too, and those must-fail/*.md that hold lines `old:`,
which only this script tries. An edit is tried over a copy of the work that one check of the crate keeps, so none costs a whole
proof:

- first together with others that change other functions: a function is proved from its own body and from the contracts of those
  that it calls, so an edit counts as refused where the check says that something in the very function which it changes is not
  proved;
- those that this doesn't show are tried together again, or in two halves where it shows none, until one is left. Where the crate doesn't
  compile with them, it is found before any proof with which of them it doesn't;
- that one is tried by itself, as in the gate, and so is an edit that changes a function's head or something outside of functions.

A crate is passed over where must-fail/tried.md has the sum of all that a verdict on its edits rests on:

- the crate's line of crates.txt; its files of src/ (but no tests), specs/ and proofs/; its edits;
- of each library below, what the built library hands on: its public items with their clauses and no bodies, and its
  definitions. A body or a proof below that changes nothing of them leaves the sum as it is.

--check tries nothing, reads the repository's own files and the sums, and fails where one differs: for a hook or a push. Of a crate
below which a library isn't built, it compares what the crate's own files say, and tells so."""
import concurrent.futures
import functools
import hashlib
import os
import re
import shutil
import signal
import sys
import tempfile
import threading

sys.dont_write_bytecode = True
import kit
from usage import answer_help

# how many edits one check tries at most
TOGETHER = 16
# the same where functions call one another in a cycle: each check of such a crate costs much, however few of its functions changed
TOGETHER_IN_A_CYCLE = 64
# how many edits one lane tries at most, or one group
IN_ONE_LANE = 24
# how the names of temporary folders begin: those that a killed run leaves are removed by the kit's commands
PREFIX = f"rt-edits-{os.getpid()}-"


rt = kit.load()
rtlib = rt.rtlib
# what the kit's `rt` says of an edit that the check refused, or gave up on: some kits have a word for each, others say yes
REFUSED = getattr(rt, "REFUSED", True)
AT_LIMIT = getattr(rt, "AT_LIMIT", REFUSED)


# ---- the sum of all that a verdict rests on


def edits_of(crate):
    folder = f"{crate.folder}/must-fail"
    names = sorted(os.listdir(folder)) if os.path.isdir(folder) else []
    files = [f"{folder}/{it}" for it in names if it.endswith((".edit", ".md")) and it != "tried.md"]
    return [it for it in files if re.search(r"(?m)^old: ", rtlib.text_of(it) or "")]


def files_below(folder):
    for at, folders, names in os.walk(folder):
        folders.sort()
        yield from (f"{at}/{it}" for it in sorted(names))


def added(sum, folder, file):
    with open(file, "rb") as it:
        sum.update(os.path.relpath(file, folder).encode() + b"\0" + it.read() + b"\0")


def own_sum(crate):
    """The sum of the crate's own files. Another kit leaves it as it is: what one sound prover refused, no other proves."""
    found = hashlib.sha256(repr((crate.of_kit, [it.name for it in crate.deps])).encode())
    for part in ("src", "specs", "proofs"):
        for file in files_below(f"{crate.folder}/{part}"):
            if not re.match(r"src/tests(\.rt$|/)", os.path.relpath(file, crate.folder)):
                added(found, crate.folder, file)
    for edit in edits_of(crate):
        # (the same edit may be in the gate or aside)
        with open(edit, "rb") as it:
            found.update(os.path.splitext(os.path.basename(edit))[0].encode() + b"\0" + it.read() + b"\0")
    return found.hexdigest()


def below_sum(crate):
    """The sum of what the built libraries below hand on."""
    found = hashlib.sha256()
    for library in sorted(crate.below(), key=lambda it: it.name):
        for part in ("lang/src", "lang/antt/specs"):
            for file in files_below(f"{library.rlib}/{part}"):
                added(found, library.rlib, file)
    return found.hexdigest()


def tried(crate, word):
    text = rtlib.text_of(f"{crate.folder}/must-fail/tried.md") or ""
    said = re.search(rf"(?m)^{word} ([0-9a-f]{{64}})$", text)
    return said[1] if said else None


@functools.lru_cache(maxsize=None)
def built_by(crate):
    """Who built a library from the files that stand there, or "" where nobody did."""
    return "kit" if crate.is_built() else "gate" if kit.is_by_gate(rt, crate) else ""


def are_built(crates):
    """Whether these libraries are built, all of them by the gate or all by the kit's other commands: what was proved over the
    statements of a library fits no other build of it."""
    return {built_by(it) for it in crates} in (set(), {"kit"}, {"gate"})


def is_old(crate):
    if tried(crate, "own") != own_sum(crate):
        return True
    return are_built(crate.below()) and tried(crate, "below") != below_sum(crate)


# ---- the functions that an edit changes


def module_of(path):
    inside = re.sub(r"\.rt$", "", path.removeprefix("src/"))
    return [it for it in inside.split("/") if it not in ("lib", "main", "mod")]


def function_at(text, place):
    """The name of the function whose head or body holds a place of a source file, and where it begins and ends, if one does."""
    for head in reversed(list(re.finditer(r"(?m)^( *)(?:pub(?:\([a-z]+\))? )?(?:const )?fn (\w+)", text[:place]))):
        end = re.compile(rf"(?m)^{head[1]}\}}").search(text, head.end())
        if end and place < end.end():
            return head[2], head.start(), end.end()
        if not head[1]:
            return None
    return None


def body_at(text, place):
    """The name of the function whose body holds a place of a source file, if one does. Behind a head and its clauses, a line ends
    in a brace."""
    found = function_at(text, place)
    begin = re.compile(r"(?m)\{$").search(text, found[1]) if found else None
    return found[0] if begin and begin.end() <= place else None


class Edit:
    """An edit, and where it changes bodies: pairs of a file and a function's name, or None where it changes anything else."""

    def __init__(self, crate, file):
        self.file, self.name = file, os.path.basename(file)
        self.texts, self.why = rt.read_edit(file, crate.folder)
        self.pairs, self.changes = [], set()
        path, old, texts = "", None, {}
        with open(file, encoding="utf-8") as it:
            lines = it.read().split("\n")
        for line in lines:
            if line.startswith("file: "):
                path = line[len("file: "):].strip()
                texts.setdefault(path, rtlib.text_of(f"{crate.folder}/{path}") or "")
            elif line.startswith("old: "):
                old = line[len("old: "):]
            elif line.startswith("new:") and old is not None:
                new = re.sub(r"\A ", "", line[len("new:"):])
                self.pairs.append((path, old, new))
                is_clear = path.startswith("src/") and texts[path].count(old) == 1
                found = body_at(texts[path], texts[path].find(old)) if is_clear else None
                self.changes = self.changes | {(path, found)} if found and self.changes is not None else None
                texts[path] = texts[path].replace(old, new)
                old = None


def together(crate, edits):
    """Edits in groups, in each of which no two change the same function: a function is proved from its own body and from the
    contracts of those that it calls, so in a group each edit is refused or not as it is by itself."""
    groups, most = [], TOGETHER_IN_A_CYCLE if has_cycle(crate) else TOGETHER
    for edit in edits:
        for group in groups:
            is_free = len(group) < most and not any(edit.changes & it.changes for it in group)
            if is_free and applied(crate, [*group, edit]):
                group.append(edit)
                break
        else:
            groups.append([edit])
    return groups


def has_cycle(crate):
    files = [it for it in files_below(f"{crate.folder}/src") if it.endswith(".rt")]
    return any("#[cycle(" in (rtlib.text_of(it) or "") for it in files)


def applied(crate, edits):
    """The texts with all these edits, or None where one of them can't be applied beside the others."""
    texts = {}
    for path, old, new in (it for edit in edits for it in edit.pairs):
        text = texts.get(path) or rtlib.text_of(f"{crate.folder}/{path}") or ""
        if text.count(old) != 1:
            return None
        texts[path] = text.replace(old, new)
    return texts


# what a proof file is told that names something which an edit took away
NAMES_WHAT_IS_GONE = r"has no field|is not in scope|has no `|was not admitted"


def place_told(text, number):
    """The end of the line with a number, or, where a function's attributes begin there, of the line with its head."""
    lines = text.split("\n")
    while number < len(lines) and lines[number - 1].lstrip().startswith(("#[", "//")):
        number += 1
    return sum(len(it) + 1 for it in lines[:number]) - 1


def unproved(crate, texts, lines):
    """The pairs of a file and a function of which a check says that something in it is not proved."""
    found = set()
    for line in lines:
        at = re.match(r"note: (?:\./)?(src/\S+?):(\d+):\d+: it is not proved", line)
        if at:
            text = texts.get(at[1]) or rtlib.text_of(f"{crate.folder}/{at[1]}") or ""
            named = function_at(text, place_told(text, int(at[2])))
            found |= {(at[1], named[0])} if named else set()
        # (the answers of a cycle of functions stand in one file)
        at = re.match(r"(?:\./)?proofs/\+\w+/\w+\.antt:\d+:\d+: error: `([\w:]+)::(\w+)-", line)
        if at and not re.search(NAMES_WHAT_IS_GONE, line):
            found |= {(file, at[2]) for file in files_with(crate, texts, at[1].replace("::", "/"), at[2])}
        at = re.match(r"fn \S+: no proof: expected answers in \./proofs/(\S+)/(\w+)/Answers\.antt", line)
        at = at or re.match(r"(?:\./)?proofs/(\S+)/(\w+)/(?:Answers|Invariants|Proof)\.antt:\d+:\d+: error", line)
        if at and not re.search(NAMES_WHAT_IS_GONE, line):
            found |= {(file, at[2]) for file in files_with(crate, texts, at[1], at[2])}
    return found


def files_with(crate, texts, path, name):
    """The file that has a function whose proof lies below a path: its module's, or any other where it is of a type that has functions
    in several files. Where more than one of those has a function of this name, it is none, which no edit changes."""
    has = re.compile(rf"(?m)^ *(?:pub(?:\([a-z]+\))? )?(?:const )?fn {name}\b")
    own = [f"src/{end}.rt" for end in (path, path.rpartition("/")[0])]
    files = [os.path.relpath(it, crate.folder) for it in files_below(f"{crate.folder}/src")]
    files = [it for it in files if has.search(texts.get(it) or rtlib.text_of(f"{crate.folder}/{it}") or "")]
    near = [it for it in files if it in own] or files
    return near if len(near) == 1 else [None]


# ---- trying


class Starts:
    """The work that the tries of a crate begin with: what the crate's own checks kept, or else what one check from nothing keeps."""

    def __init__(self, crates, room, processes):
        self.room, self.processes, self.made = room, processes, {}
        self.locks = {it.name: threading.Lock() for it in crates}

    def of(self, crate):
        """The folder of that work, or None where the crate is not proved."""
        with self.locks[crate.name]:
            if crate.name not in self.made:
                self.made[crate.name] = self.begun(crate)
            return self.made[crate.name]

    def begun(self, crate):
        own, kept = f"{crate.folder}/out/incremental", f"{self.room}/{crate.name}"
        self.end(crate)
        is_kept = os.path.isdir(own)
        shutil.copytree(own, kept) if is_kept else os.mkdir(kept)
        for processes in (1 if is_kept else self.processes, 1):
            status = rt.checked(crate, {}, ["--jobs", str(processes)], kept).returncode
            if status != -signal.SIGKILL:
                break
        return None if status else kept

    def end(self, crate):
        shutil.rmtree(f"{self.room}/{crate.name}", ignore_errors=True)


def compiles(crate, group):
    """Whether the crate compiles with these edits, before any proof."""
    texts = applied(crate, group)
    return texts is not None and rt.checked(crate, texts, ["--jobs", "1", "--only="], None).returncode == 0


def compiling(crate, group):
    """Those of a group of edits with which the crate compiles, and the others."""
    if compiles(crate, group):
        return group, []
    if len(group) == 1:
        return [], group
    half = len(group) // 2
    (first, odd), (second, more) = compiling(crate, group[:half]), compiling(crate, group[half:])
    return first + second, odd + more


def try_group(crate, group, kept):
    """What to say of each edit of a group that one check of them all shows to be refused, by the edit's name, and whether the crate
    compiled."""
    texts = applied(crate, group)
    if not texts:
        return {}, True
    ran = rt.checked(crate, texts, ["--jobs", "1"], kept)
    lines = ran.stdout.rstrip("\n").split("\n")
    is_refused = ran.returncode == 1 and lines[-1].startswith("logic=not-proved") and not rtlib.STALE.search(ran.stdout)
    if not is_refused or any(rt.unread(it, texts) for it in lines):
        return {}, ran.returncode != 1 or lines[-1].startswith("logic=")
    found = unproved(crate, texts, lines)
    if found - set().union(*(it.changes for it in group)):
        # what nobody changed is not proved either: the edits are not independent
        return {}, True
    said = "refused, as it must be: not proved beside other edits of the crate, none of them of the same function:"
    return {it.name: f"must-fail {crate.name}/{it.name}: {said} {sorted(it.changes)[0][1]}" for it in group if it.changes <= found}, True


def try_together(crate, edits, kept):
    """What the gate's own judgement, or a check of several edits, says of each edit, by its name: whether it is refused, and a line."""
    if len(edits) == 1:
        return {edits[0].name: rt.must_fail(crate, edits[0].file, ["--jobs", "1"], kept)}
    told, has_compiled = try_group(crate, edits, kept)
    shown = {name: (REFUSED, text) for name, text in told.items()}
    left = [it for it in edits if it.name not in shown]
    half = (len(left) + 1) // 2
    parts = [left] if shown else [left[:half], left[half:]]
    if not has_compiled:
        well, odd = compiling(crate, left)
        parts = [well, *([it] for it in odd)] if odd else parts
    for part in parts:
        shown |= try_together(crate, part, kept) if part else {}
    return shown


def try_some(crate, groups, starts):
    """Tries groups of edits of a crate over one copy of its kept work; returns the lines to print and whether all were refused."""
    said, well = [], True
    with tempfile.TemporaryDirectory(prefix=PREFIX) as room:
        start, kept = starts.of(crate), f"{room}/kept"
        if not start:
            return [f"{crate.name}: its check failed, or was killed: no edit was tried"], False
        getattr(rt, "linked", shutil.copytree)(start, kept)
        for group in groups:
            for came, text in try_together(crate, group, kept).values():
                # (an edit that can't be applied or compiled shows nothing, nor does one that was not tried)
                said, well = said + [text], well and came in (REFUSED, AT_LIMIT)
        # what the edits left in the folder must not have spoilt the crate's own verdict
        if rt.checked(crate, {}, ["--jobs", "1"], kept).returncode:
            return [*said, f"{crate.name}: not proved over what its edits left: try it again from nothing"], False
    return said, well


def sums(crate):
    return own_sum(crate), below_sum(crate)


def state(crate):
    """What a crate's edits are tried on: its sums, and what tells whether a file was changed meanwhile, also where it was changed back."""
    built = [os.stat(f"{it.rlib}/format") for it in crate.below()]
    return sums(crate), getattr(rt, "touched", lambda _: [])(crate), [(it.st_ino, it.st_mtime_ns) for it in built]


def note(crate, found):
    with open(f"{crate.folder}/must-fail/tried.md", "w", encoding="utf-8") as it:
        it.write("Every edit of this folder was refused for the crate with these sums, which `tools/try_edits.py` writes.\n\n")
        it.write(f"own {found[0]}\nbelow {found[1]}\nedits {len(edits_of(crate))}\n")


def groups_of(crate):
    edits = [Edit(crate, it) for it in edits_of(crate)]
    alone = [it for it in edits if it.why or not it.changes]
    return together(crate, [it for it in edits if it not in alone]) + [[it] for it in alone]


def shared_out(groups):
    """Groups in parts of some twenty edits, or of one group, each of which is tried in one lane."""
    parts = [[]]
    for group in groups:
        if sum(map(len, parts[-1])) + len(group) > IN_ONE_LANE and parts[-1]:
            parts.append([])
        parts[-1].append(group)
    return parts


def try_crates(crates, lanes):
    # (what changes while edits are tried is not what they were tried on)
    before = {it.name: state(it) for it in crates}
    parts = {it.name: shared_out(groups_of(it)) for it in crates}
    left, wells = {name: len(it) for name, it in parts.items()}, dict.fromkeys(parts, True)
    with tempfile.TemporaryDirectory(prefix=PREFIX) as room, concurrent.futures.ThreadPoolExecutor(lanes) as pool:
        starts = Starts(crates, room, lanes)
        runs = {pool.submit(try_some, crate, some, starts): crate for crate in crates for some in parts[crate.name]}
        try:
            for run in concurrent.futures.as_completed(runs):
                crate, (said, well) = runs[run], result_of(run, runs[run])
                print("\n".join(said), flush=True)
                left[crate.name] -= 1
                wells[crate.name] = wells[crate.name] and well
                if left[crate.name]:
                    continue
                starts.end(crate)
                if wells[crate.name] and state(crate) == before[crate.name]:
                    note(crate, sums(crate))
        except BaseException:
            pool.shutdown(wait=False, cancel_futures=True)
            raise
    return [name for name, well in wells.items() if not well]


def result_of(run, crate):
    """What a lane gave. One that failed fails its crate, and no other."""
    try:
        return run.result()
    except (OSError, shutil.Error) as why:
        return [f"{crate.name}: NOT TRIED: {why}"], False


def main(words):
    answer_help(__doc__)
    lanes = int(words[words.index("--lanes") + 1]) if "--lanes" in words else 2
    names = [it for it in words if re.fullmatch(r"[a-z_][a-z0-9_]*", it)]
    rtlib.guarded()
    crates = [it for it in rtlib.crates_below(os.getcwd()) if edits_of(it) and (not names or it.name in names)]
    unknown = [it for it in names if it not in [crate.name for crate in crates]]
    if unknown:
        print(f"no crate with edits has this name: {', '.join(unknown)}")
        return 2
    if "--check" in words:
        old = [it for it in crates if is_old(it)]
        is_whole = all(are_built(it.below()) for it in crates)
        built = "" if is_whole else " (some by their own files alone, as a library below them isn't built)"
        print(f"{len(old)} of {len(crates)} crates have changed since their edits were tried{built}")
        print("".join(f"{it.name}: {len(edits_of(it))} edits to try\n" for it in old), end="")
        return 1 if old else 0
    lacking = [it.name for it in crates if not are_built(it.below())]
    if lacking:
        print(f"the libraries below {', '.join(lacking)} are not built: rm -rf crates/*/out, and then .ci/run or rt all check")
        return 2
    changed = [it for it in crates if "--all" in words or is_old(it)]
    print(f"{len(changed)} of {len(crates)} crates have changed since their edits were tried", flush=True)
    failed = try_crates(changed, lanes)
    print(f"{len(changed) - len(failed)} of {len(changed)} crates refused all their edits")
    return 1 if failed else 0


if __name__ == "__main__":
    sys.exit(main(sys.argv[1:]))
