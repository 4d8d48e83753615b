#!/usr/bin/env python3
"""try_law_edits.py [--others] [--code] [--check] [--lanes N] [--kept FOLDER] [--note] [--left] [NAME..]:
tries edits of definitions that a law has to refuse.

A law of `aml_laws`, `aml_spelling`, `machine_laws` or `recorded_laws` is about definitions of the crates below, which no edit of its own crate
can change. So these edits stand in crates/LAWS/definitions/NAME.md. Such a file says what is wrong with the definition and why the law
doesn't hold of it, and then has these lines:

    law: NAME             a law of this crate that has to refuse the edit; one at least
    file: crates/..       a file of specs/, src/ or proofs/ of a crate below
    old: TEXT             stands once in that file; `old:` again has the next line of the text
    new: TEXT             stands in its place, with as many lines as it needs; further pairs apply to what the earlier ones made

The edit is applied to a copy of the sources, and the laws that it names are checked there, with the libraries below as sources, so none of
them has to be built. The functions of these that no law and no type needs are left out (tools/definitions_alone.py). Edits are tried together
where no definition that one of them changes rests on one that another changes: such an edit counts as refused where the check refuses a lemma
on which the law rests, and which itself rests on what this edit changes and on nothing that another one does. What this doesn't show is tried
again in smaller groups, and at last by itself. A check begins with what one check of all laws that are named, without any edit, has kept. An
edit comes to one of these:

    REFUSED       none of the laws that it names is proved
    NOT REFUSED   one of them is proved: the law says too little
    BAD EDIT      a text doesn't stand once in its file, or a definition can't be read: this shows nothing
    NOT TRIED     the check was killed, or ended without a verdict

--others   checks all laws of the crate, and lists which others an edit refuses too: those that rest on a refused lemma that rests on what this
           edit changes and on nothing that another one of its group does; `perhaps` stands before those that may be refused by either. These
           are the most that can be refused: laws share lemmas, so one whose proof breaks may still hold of the changed definition
--code     where an edit changes code, so that it agrees with the definition: checks that just the functions with changed text are proved. Then
           only the laws stand in the way of the wrong definition
--check    tries nothing: tells which edits can't be applied, and which laws have none
--lanes N  tries so many at a time; 1 if it isn't given. Each takes one to four GB
--kept FOLDER  keeps there what the check without edits proved, for the next run over the same sources
--note     writes what came of each edit to crates/LAWS/definitions/tried.md; the rows of edits that were not tried stay
--left     tries just those of which that table doesn't tell yet what came of them

NAME is a law crate, or the name of an edit; without one, all edits are tried. Run it at the top of a checkout."""
import concurrent.futures
import functools
import hashlib
import os
import queue
import re
import shutil
import subprocess
import sys
import tempfile
import threading

sys.dont_write_bytecode = True
from definitions_alone import Lemmas, files_below, leave_definitions
from try_edits import PREFIX, function_at, module_of, rt, rtlib
from usage import answer_help


# how many edits are tried together at most
TOGETHER = 48


# ---- the edits


def law_crates(top):
    """The crates with edits of definitions below them."""
    return [it for it in rtlib.crates_below(top) if os.path.isdir(f"{it.folder}/definitions")]


@functools.lru_cache(maxsize=None)
def laws_of(crate):
    """The public functions of a law crate, each with its path below the crate."""
    found = {}
    for at, folders, names in os.walk(f"{crate.folder}/src"):
        folders.sort()
        for name in sorted(names):
            path = os.path.relpath(f"{at}/{name}", crate.folder)
            for law in re.findall(r"(?m)^pub fn (\w+)", rtlib.text_of(f"{at}/{name}")):
                found[law] = "::".join([*module_of(path), law])
    return found


class LawEdit:
    """An edit: the laws that have to refuse it, its pairs of texts, and the functions whose text it changes, each by its crate."""

    def __init__(self, crate, file, top):
        self.crate, self.name = crate.name, os.path.splitext(os.path.basename(file))[0]
        self.texts, self.functions, self.changes, self.under, self.rests, self.why = {}, {}, set(), set(), {}, None
        lines = rtlib.text_of(file).split("\n")
        self.laws = [it.removeprefix("law: ").strip() for it in lines if it.startswith("law: ")]
        unknown = [it for it in self.laws if it not in laws_of(crate)]
        if unknown or not self.laws:
            self.why = f"{crate.name} has no law {unknown[0]}" if unknown else "it names no law"
        below = {it.name for it in crate.below()}
        self.pairs = pairs_of(lines)
        for path, old, new in self.pairs:
            self.why = self.why or self.applied(top, below, path, old, new)
        if not self.pairs:
            self.why = "it has no 'old:' and 'new:' pair"

    def applied(self, top, below, path, old, new):
        """Puts a text in place of another one, or says why it can't."""
        at = re.fullmatch(r"crates/(\w+)/(specs|src|proofs)/\S+", path)
        if not at or at[1] not in below:
            return f"{path or 'an edit without a file'} is no file of a crate below {self.crate}"
        text = self.texts.get(path) or rtlib.text_of(f"{top}/{path}") or ""
        if text.count(old) != 1:
            return f"an 'old:' text is in {path} {text.count(old)} times, and not once: {old[:80]}"
        found = function_at(text, text.find(old)) if at[2] == "src" else None
        if found:
            inside = path.removeprefix(f"crates/{at[1]}/")
            name = "::".join([*module_of(inside), *type_around(text, found[1]), found[0]])
            functions = self.functions.setdefault(at[1], [])
            functions += [] if name in functions else [name]
        self.texts[path] = text.replace(old, new)
        return None


def pairs_of(lines):
    """Each `old:` text of an edit with its file and its `new:` text. Lines that follow one another make one text."""
    found, path, before = [], "", ""
    for line in lines:
        word, _, said = line.partition(":")
        said = said.removeprefix(" ")
        if word == "file":
            path = said.strip()
        elif word == "old" and before == "old":
            found[-1][1].append(said)
        elif word == "old":
            found.append((path, [said], []))
        elif word == "new" and found:
            found[-1][2].append(said)
        before = word
    return [(path, "\n".join(old), "\n".join(new)) for path, old, new in found]


def type_around(text, place):
    """The type in whose `impl` a function stands that begins at a place, if it is in one."""
    line = text[place:].split("\n", 1)[0]
    heads = re.findall(r"(?m)^impl(?:<[^{]*?>)? (?:\S+ for )?(\w+)", text[:place])
    return heads[-1:] if line.startswith(" ") else []


def edits_of(crate, top):
    folder = f"{crate.folder}/definitions"
    return [LawEdit(crate, f"{folder}/{it}", top) for it in sorted(os.listdir(folder)) if it.endswith(".md") and it != "tried.md"]


def definition_pairs(edit):
    return [it for it in edit.pairs if "/src/" not in it[0]]


def read_rests(lemmas, crate, edits, others):
    """Finds what the laws that edits name, or all laws, may rest on, which definitions each edit changes, and what these rest on."""
    laws = laws_of(crate)
    rests = {law: lemmas.of_law(crate.name, laws[law]) for law in (laws if others else dict.fromkeys(law for it in edits for law in it.laws))}
    for edit in edits:
        edit.rests = rests
        for path, old, _ in definition_pairs(edit):
            place = (rtlib.text_of(f"{lemmas.top}/{path}") or "").find(old)
            edit.changes |= {(path, lemmas.at(path, it)) for it in (place, place + len(old) - 1) if not old.startswith("use ")}
        edit.under = lemmas.below(edit.changes)


def grouped(edits):
    """Edits in groups, in each of which no two change the same line, or a definition on which what the other one changes rests: each lemma
    that rests on that rests on both."""
    groups = []
    for edit in edits:
        for group in groups:
            if len(group) < TOGETHER and not any(edit.changes & it.under or it.changes & edit.under or lines_of(edit) & lines_of(it) for it in group):
                group.append(edit)
                break
        else:
            groups.append([edit])
    return groups


def lines_of(edit):
    return {(path, line) for path, old, _ in definition_pairs(edit) for line in old.split("\n")}


# ---- checks of a copy


class Copy:
    """A copy of the sources in a folder of its own: for a law crate without the functions of the libraries below it."""

    def __init__(self, top, room, law_crate=None):
        self.folder, self.kept, self.was = f"{room}/tree", f"{room}/kept", {}
        rt.copy_crates(top, self.folder)
        self.crates = {it.name: it for it in rtlib.crates_below(self.folder)}
        if law_crate:
            leave_definitions(self.crates[law_crate].below(), self.crates[law_crate])

    def put(self, pairs):
        """Puts texts in place of others; returns the files that they change."""
        for path, old, new in pairs:
            text = rtlib.text_of(f"{self.folder}/{path}")
            self.was.setdefault(path, text)
            self.write(path, text.replace(old, new))
        return set(self.was)

    def back(self):
        for path, text in self.was.items():
            self.write(path, text)
        self.was = {}

    def write(self, path, text):
        with open(f"{self.folder}/{path}", "w", encoding="utf-8") as it:
            it.write(text)

    def checked(self, name, functions, kept):
        """The lines that a check of some functions of a crate says, and its status; the libraries below it are sources."""
        crate = self.crates[name]
        flags = ["--jobs", "1", *(word for it in functions for word in ("--only", it))]
        words = [*crate.words(flags, keeps=False, as_source=True), "--incremental", kept]
        how = {"cwd": crate.folder, "stdin": subprocess.DEVNULL, "stdout": subprocess.PIPE, "stderr": subprocess.STDOUT, "errors": "replace"}
        ran = subprocess.run([*rtlib.guarded(), rtlib.RATTLE, "check", *words], **how)
        return ran.stdout.rstrip("\n").split("\n"), ran.returncode

    def sum(self, name):
        """What a check of a crate of the copy rests on."""
        found = hashlib.sha256((rtlib.text_of(f"{rtlib.KIT}/WHAT") or "").encode())
        for crate in sorted([*self.crates[name].below(), self.crates[name]], key=lambda it: it.name):
            for file in files_below(crate.folder, (".rt", ".antt")):
                found.update(os.path.relpath(file, self.folder).encode() + (rtlib.text_of(file) or "").encode())
        return found.hexdigest()


def has_verdict(lines):
    return any(re.match(r"only=\d+ proved=\d+", it) for it in lines)


def unproved(name, lines):
    """The functions of a crate of which a check says that they are not proved."""
    told = [re.match(rf"fn {name}::(\S+): (?:not proved|no proof|could not tell)", it) for it in lines]
    return [it[1] for it in told if it]


def unread(lines, changed):
    """The first line that says that a definition or a changed file can't be read, and the file; nothing where there is none."""
    for line in lines:
        at = re.match(r"(?:\./|\S*/crates/(\w+)/)?((?:src|specs|proofs)/\S+?\.(?:antt|rt)):\d+:\d+: error", line)
        if at and (at[2].startswith("specs/") or f"crates/{at[1]}/{at[2]}" in changed):
            return line, f"crates/{at[1]}/{at[2]}"
    return None


# ---- trying


def try_group(group, copy, lemmas, others, tell):
    """Tries the edits of a group, and tells what each comes to, as soon as a check shows it."""
    laws = laws_of(copy.crates[group[0].crate])
    asked = list(laws) if others else list(dict.fromkeys(law for it in group for law in it.laws))
    changed = copy.put(it for edit in group for it in definition_pairs(edit))
    try:
        lines, status = copy.checked(group[0].crate, [laws[it] for it in asked], copy.kept)
    finally:
        copy.back()
    found = {it.name: verdict(it, group, lemmas, lines, status, others, changed) for it in group}
    for it in group:
        if found[it.name]:
            tell(it, *found[it.name])
    left = [it for it in group if found[it.name] is None]
    for part in parts_of(left, group, unread(lines, changed)):
        if part:
            try_group(part, copy, lemmas, others, tell)


def parts_of(left, group, bad):
    """What is tried again together: of a file that can't be read each edit by itself, and else in halves where nothing was shown."""
    own = [it for it in left if bad and bad[1] in {path for path, _, _ in it.pairs}]
    if own:
        return [*([it] for it in own), [it for it in left if it not in own]]
    half = (len(left) + 1) // 2
    return [left] if len(left) < len(group) else [left[:half], left[half:]]


def verdict(edit, group, lemmas, lines, status, others=False, changed=()):
    """What an edit of a group comes to, or None where the check of the group doesn't show it."""
    bad, is_alone = unread(lines, changed), len(group) == 1
    is_own = is_alone or (bad and bad[1] in {path for path, _, _ in edit.pairs})
    if (bad and is_own) or not has_verdict(lines):
        why = f"it can't be read: {bad[0][:200]}" if bad else f"the check ended with status {status}: {lines[0][:200]}"
        return ("BAD EDIT" if bad or status == 1 else "NOT TRIED", why) if is_alone else None
    refused = [it.rpartition("::")[2] for it in unproved(edit.crate, lines)]
    proved = [it for it in edit.laws if it not in refused]
    if proved:
        return "NOT REFUSED", f"proved: {', '.join(proved)}"
    shown = [first_of(edit, law, [it for it in group if it is not edit], lemmas, lines) for law in edit.laws]
    if not all(shown) and not is_alone:
        return None
    beside = f"; by others: {', '.join(others_of(edit, group, refused, lemmas, lines)) or 'none'}" if others else ""
    return "REFUSED", f"by {', '.join(edit.laws)}" + (f", first at {shown[0]}" if shown[0] else "") + beside


def others_of(edit, group, refused, lemmas, lines):
    """The other laws that an edit refuses. Of those that no lemma shows it of, and that may rest on what it changes, it is said that they
    perhaps are."""
    found = []
    for law in refused:
        if law in edit.laws or not edit.changes & edit.rests[law]:
            continue
        of_each = [it for it in group if first_of(it, law, [other for other in group if other is not it], lemmas, lines)]
        if edit in of_each or len(group) == 1:
            found.append(law)
        elif not of_each:
            found.append(f"perhaps {law}")
    return found


def first_of(edit, law, others, lemmas, lines):
    """The first lemma that is refused, of those that a law rests on and that rest on what this edit changes and on nothing that another one
    does."""
    for line in lines:
        at = re.match(r"(?:\./|\S*/crates/(\w+)/)?(proofs/\S+\.antt):(\d+):\d+: error: `([^`]+)`", line)
        lemma = (f"crates/{at[1] or edit.crate}/{at[2]}", at[4]) if at else None
        if lemma and lemma in edit.rests[law]:
            rests = lemmas.below_one(*lemma)
            if edit.changes & rests and not any(it.changes & rests for it in others):
                return f"{lemma[0]}:{at[3]}, `{lemma[1]}`"
    return ""


def code_of(edit, copy):
    """Whether the functions that an edit changes are proved with the definition that it makes."""
    if not edit.functions:
        return "no code is changed"
    copy.put(edit.pairs)
    try:
        said = []
        for name, functions in edit.functions.items():
            lines, _ = copy.checked(name, functions, copy.kept)
            bad = unproved(name, lines)
            came = f"NOT PROVED: {', '.join(bad)}" if bad or not has_verdict(lines) else "proved"
            said.append(f"{', '.join(f'{name}::{it}' for it in functions)} {came}")
        return "; ".join(said)
    finally:
        copy.back()


def is_seeded(copy, crate, laws, kept):
    """Checks some laws without any edit, unless the folder has them; tells whether all are proved."""
    os.makedirs(kept, exist_ok=True)
    mark, sum = f"{kept}/proved-{crate.name}", copy.sum(crate.name)
    was, *proved = (rtlib.text_of(mark) or "").split() or [""]
    if was == sum and set(laws) <= set(proved):
        return True
    lines, _ = copy.checked(crate.name, [laws_of(crate)[it] for it in laws], kept)
    if not has_verdict(lines) or unproved(crate.name, lines):
        print(f"{crate.name}: its laws are not proved without an edit: {', '.join(unproved(crate.name, lines)) or lines[0][:200]}")
        print("".join(f"    {it[:200]}\n" for it in [it for it in lines if ": error" in it][:8]), end="", flush=True)
        return False
    with open(mark, "w", encoding="utf-8") as it:
        it.write(f"{sum} {' '.join(sorted({*laws, *(proved if was == sum else [])}))}")
    return True


TRIED = """# What came of the edits of this folder

`tools/try_law_edits.py --note` writes this table.

| Edit | What came of it |
|---|---|
"""


UNTRIED = "not tried yet"


def note(crate, names, found):
    """Writes what came of edits into the table that stands with them."""
    rows = noted(crate) | {name: f"{came}: {said}" for name, (came, said) in found.items()}
    with open(f"{crate.folder}/definitions/tried.md", "w", encoding="utf-8") as it:
        it.write(TRIED + "".join(f"| `{name}` | {rows.get(name, UNTRIED)} |\n" for name in names))


def noted(crate):
    """The rows of the table, by edits."""
    return dict(re.findall(r"(?m)^\| `(\w+)` \| (.*) \|$", rtlib.text_of(f"{crate.folder}/definitions/tried.md") or ""))


class Lanes:
    """Copies that are tried in side by side."""

    def __init__(self, top, room, crate, count, with_code):
        self.free = queue.SimpleQueue()
        for lane in range(count):
            copies = [Copy(top, f"{room}/{lane}", crate), Copy(top, f"{room}/{lane}-code") if with_code else None]
            self.free.put(copies)
        self.count = count

    def each(self, call, items):
        with concurrent.futures.ThreadPoolExecutor(self.count) as pool:
            yield from (it.result() for it in concurrent.futures.as_completed([pool.submit(self.in_one, call, it) for it in items]))

    def in_one(self, call, item):
        copies = self.free.get()
        try:
            return call(copies, item)
        finally:
            self.free.put(copies)


def try_crate(top, crate, edits, words, kept):
    """Tries the edits of a law crate; returns how many its laws refused."""
    others, code, count = "--others" in words, "--code" in words, int(value_of(words, "--lanes") or 1)
    all_found = {it.name: ("BAD EDIT", it.why) for it in edits if it.why}
    for name, (came, why) in all_found.items():
        print(f"{crate.name}/{name}: {came}: {why}", flush=True)
    edits = [it for it in edits if not it.why]
    laws = list(laws_of(crate)) if others else list(dict.fromkeys(law for it in edits for law in it.laws))
    lemmas = Lemmas(top)
    read_rests(lemmas, crate, edits, others)
    groups = grouped(edits)
    with tempfile.TemporaryDirectory(prefix=PREFIX) as room:
        lanes = Lanes(top, room, crate.name, count, code)
        if not lanes.in_one(lambda copies, _: is_seeded(copies[0], crate, laws, kept), None):
            return 0

        lock, names = threading.Lock(), [it.name for it in edits_of(crate, top)]

        def tried(copies, group):
            for it in copies:
                if it:
                    rt.linked(kept, it.kept)
            try_group(group, copies[0], lemmas, others, lambda *it: tell(copies[1], *it))
            for it in copies:
                if it:
                    shutil.rmtree(it.kept)

        def tell(copy, edit, came, said):
            said += f"; {code_of(edit, copy)}" if code and came == "REFUSED" else ""
            with lock:
                all_found[edit.name] = came, said
                print(f"{crate.name}/{edit.name}: {came}: {said}", flush=True)
                if "--note" in words:
                    note(crate, names, all_found)

        for _ in lanes.each(tried, groups):
            pass
        return len([it for it in all_found.values() if it[0] == "REFUSED" and "NOT PROVED" not in it[1]])


def value_of(words, flag):
    return words[words.index(flag) + 1] if flag in words else None


def look(crates, edits):
    """Tells which edits can't be applied, and which laws have none."""
    wrong = [it for it in edits if it.why]
    for it in wrong:
        print(f"{it.crate}/{it.name}: BAD EDIT: {it.why}")
    for crate in crates:
        named = {law for it in edits if it.crate == crate.name for law in it.laws}
        laws = laws_of(crate)
        print(f"{crate.name}: {len([it for it in laws if it in named])} of {len(laws)} laws have an edit")
        print("".join(f"    {it}\n" for it in laws if it not in named), end="")
    return 1 if wrong else 0


def main(words):
    answer_help(__doc__)
    rtlib.guarded()
    top = os.getcwd()
    taken = [value_of(words, "--lanes"), value_of(words, "--kept")]
    names = [it for it in words if not it.startswith("--") and it not in taken]
    crates = law_crates(top)
    edits = [edit for crate in crates for edit in edits_of(crate, top)]
    unknown = [it for it in names if it not in [*(crate.name for crate in crates), *(edit.name for edit in edits)]]
    if unknown:
        print(f"no law crate and no edit has this name: {', '.join(unknown)}")
        return 2
    edits = [it for it in edits if not names or it.name in names or it.crate in names]
    if "--left" in words:
        rows = {it.name: noted(it) for it in crates}
        edits = [it for it in edits if rows[it.crate].get(it.name, UNTRIED) == UNTRIED]
    crates = [it for it in crates if it.name in [edit.crate for edit in edits]]
    if "--check" in words:
        return look(crates, edits)
    with tempfile.TemporaryDirectory(prefix=PREFIX) as room:
        kept = os.path.abspath(value_of(words, "--kept") or f"{room}/kept")
        well = sum(try_crate(top, it, [edit for edit in edits if edit.crate == it.name], words, kept) for it in crates)
    print(f"{well} of {len(edits)} edits were refused by the laws that they name")
    return 0 if well == len(edits) else 1


if __name__ == "__main__":
    sys.exit(main(sys.argv[1:]))
