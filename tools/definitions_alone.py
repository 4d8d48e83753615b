"""What a law of the law crates rests on: its definitions and lemmas, without the functions of the libraries below it.

`leave_definitions` takes the functions out of a copy of a library's sources: a law calls few of them, and a check of the law is five times
as short without the others. Types stay, with the functions of those traits that a type needs (`==`, `<`, printing, conversions of refusals).
What these, constants and laws call stays, too, and an `impl` of any other trait where something that stays names its type. What is proved
of functions goes, but for those that laws call. `Lemmas` follows the names in definitions and proofs, and tells which of them a law may rest on."""
import functools
import os
import re
import shutil


HEAD = re.compile(r"^( *)(?:pub(?:\([a-z]+\))? )?(?:const )?fn (\w+)")
BLOCK = re.compile(r"(?:pub(?:\([a-z]+\))? )?(?:impl|trait)\b")
TRAIT = re.compile(r"(?m)^(?:pub(?:\([a-z]+\))? )?trait (\w+)")
IMPL = re.compile(r"^impl(?:<[^{]*?>)? ((?:\w+::)*\w+)(?:<[^{]*?>)? for (?:&(?:'\w+ )?(?:mut )?)?(?:\w+::)*(\w+)")
CLAUSE = re.compile(r" +(?:requires|ensures|ghost)\b")
USE = re.compile(r"(?m)^ *(?:pub(?:\([a-z]+\))? )?use (\w+)[^;]*;\n")
# the files of what is proved of a function
PROOFS = {"Answers.antt", "Invariants.antt", "Proof.antt"}
# traits of std that no type needs, as those that these libraries declare
NEEDLESS = {"Iterator", "Read", "Write"}


def text_of(file):
    with open(file, encoding="utf-8") as it:
        return it.read()


def files_below(folder, end):
    return sorted(f"{at}/{name}" for at, _, names in os.walk(folder) for name in names if name.endswith(end))


# ---- libraries without their functions


class Function:
    """A function in a file, from its remarks and attributes to the end of its body."""

    def __init__(self, lines, head, block):
        at = HEAD.match(lines[head])
        self.name, self.begin = at[2], head
        self.is_inside = bool(at[1])
        is_of_trait = self.is_inside and re.search(r"\btrait\b", block.split("{")[0].split("<")[0])
        ends = (f"{at[1]}}}", f"{at[1]}{{}}")
        self.end = next(it for it in range(head, len(lines)) if lines[it] in ends or (is_of_trait and lines[it].endswith(";")))
        self.begin = begin_of(lines, head, at[1])
        # a type needs it, or a trait names it
        self.stays = self.is_inside and bool(is_of_trait or " for " in block)
        self.text = "\n".join(without_clauses(lines[head : self.end + 1], at[1]))
        self.body = self.text if is_of_trait else "\n".join(body_of(lines[head : self.end + 1], at[1]))


def without_clauses(lines, indent):
    """A function's head and body: behind clauses the body begins on a line of its own."""
    clause = next((number for number, line in enumerate(lines) if number and CLAUSE.match(line)), None)
    return lines if clause is None else lines[:clause] + body_of(lines, indent)


def body_of(lines, indent):
    own = (number for number, line in enumerate(lines) if line in (f"{indent}{{", f"{indent}{{}}"))
    return lines[next(own, next((number for number, line in enumerate(lines) if line.endswith("{")), 0)) :]


class Impl:
    """An `impl` of a trait that no type needs: it stays only where a function that stays names its type."""

    def __init__(self, lines, head):
        self.trait, self.type = IMPL.match(lines[head])[1].rpartition("::")[2], IMPL.match(lines[head])[2]
        self.begin = begin_of(lines, head, "")
        self.end = next(it for it in range(head, len(lines)) if lines[it] == "}" or lines[it].endswith("{}"))
        self.text = "\n".join(lines[head : self.end + 1])


def begin_of(lines, head, indent):
    """Where the remarks and attributes of an item begin."""
    while head and lines[head - 1].startswith((f"{indent}///", f"{indent}#[")):
        head -= 1
    return head


def functions_in(lines):
    found, block, behind = [], "", 0
    for number, line in enumerate(lines):
        block = line if BLOCK.match(line) else block
        if number >= behind and HEAD.match(line):
            found.append(Function(lines, number, block))
            behind = found[-1].end + 1
    return found


class Library:
    """The sources of a library, and its functions."""

    def __init__(self, folder, below):
        self.folder, self.below = folder, below
        self.lines = {it: text_of(it).split("\n") for it in files_below(f"{folder}/src", ".rt")}
        self.functions = {it: functions_in(lines) for it, lines in self.lines.items()}
        self.impls, self.kept, self.all_gone = {}, set(), None

    def find_impls(self, traits):
        """Finds the `impl`s of these traits. Their functions stay or go with them."""
        for file, lines in self.lines.items():
            heads = (number for number, line in enumerate(lines) if IMPL.match(line))
            found = [it for it in (Impl(lines, head) for head in heads) if it.trait in traits]
            self.impls[file] = found
            inside = {line for it in found for line in range(it.begin, it.end + 1)}
            self.functions[file] = [it for it in self.functions[file] if it.begin not in inside]

    def all(self):
        return [it for found in self.functions.values() for it in found]

    def named(self, name, lead):
        """The functions that a call may mean: a method behind `.`, a function of no type where nothing stands before the name."""
        return [it for it in self.all() if it.name == name and (lead == "::" or it.is_inside == (lead == "."))]

    def first_needed(self):
        """The texts that call functions which have to stay: bodies of functions that types need, and constants."""
        constants = [line for lines in self.lines.values() for line in lines if re.match(r"(?:pub(?:\([a-z]+\))? )?(?:const|static) ", line)]
        return [it.text for it in self.all() if it.stays] + constants

    def stay(self, items):
        """Keeps some items; returns the texts of those that were not kept before."""
        new = [it for it in items if it not in self.kept]
        self.kept.update(new)
        return [(self, it.text) for it in new]

    def gone(self, libraries):
        """The names of functions that are gone, and of no other one: of its own, and of those below that it hands on."""
        if self.all_gone is None:
            stay = {it.name for it in self.all() if self.keeps(it)}
            self.all_gone = {it.name for it in self.all()} - stay
            handed_on = (use for lines in self.lines.values() for use in USE.finditer("\n".join(lines)) if use[0].startswith("pub use"))
            for use in handed_on:
                if use[1] in libraries:
                    self.all_gone |= names_used(use[0]) & libraries[use[1]].gone(libraries) - stay
        return self.all_gone

    def keeps(self, item):
        return item in self.kept or getattr(item, "stays", False)


def keep_what_is_called(libraries, todo):
    """Keeps what some texts call, each the text of a library, and what they name needs."""
    impls = [(it, impl) for it in libraries.values() for found in it.impls.values() for impl in found]
    while todo:
        library, text = todo.pop()
        text = re.sub(r"//.*", "", text)
        for lead, name in set(re.findall(r"(::|\.(?=\w+(?:\(|::<))|\b(?=\w+(?:\(|::<)))(\w+)", text)):
            own = library.named(name, lead)
            others = [] if not lead and own else [libraries[it] for it in library.below if it in libraries]
            todo += library.stay(own)
            for it in others:
                todo += it.stay(it.named(name, lead))
        names = set(re.findall(r"\w+", text))
        for it, impl in impls:
            todo += it.stay([impl] if impl.type in names else [])


def leave_definitions(crates, law_crate=None):
    """Takes the functions out of these crates' sources, and all that is proved of functions, but for what a law calls."""
    libraries = {it.name: Library(it.folder, [dep.name for dep in it.below()]) for it in crates}
    traits = NEEDLESS | {name for it in libraries.values() for lines in it.lines.values() for name in TRAIT.findall("\n".join(lines))}
    for it in libraries.values():
        it.find_impls(traits)
    if law_crate:
        laws = Library(law_crate.folder, list(libraries))
        keep_what_is_called(libraries, [(laws, it.body) for it in laws.all()])
    proved = {name: {it.name for it in library.kept if isinstance(it, Function)} for name, library in libraries.items()}
    keep_what_is_called(libraries, [(it, text) for it in libraries.values() for text in it.first_needed()])
    for name, library in libraries.items():
        for file, lines in library.lines.items():
            items = [*library.functions[file], *library.impls[file]]
            gone = {line for it in items if not library.keeps(it) for line in range(it.begin, it.end + 1)}
            text = "\n".join(line for number, line in enumerate(lines) if number not in gone)
            with open(file, "w", encoding="utf-8") as it:
                it.write(USE.sub(lambda use: without_names(use, libraries, name), text))
        for at, _, names in os.walk(f"{library.folder}/proofs", topdown=False):
            # (the folder of a function, and not that of the crate or of a module, whose lemmas may stand in files of these names)
            if PROOFS & set(names) and "Lib.antt" not in names and os.path.basename(at) not in proved[name]:
                shutil.rmtree(at)


def names_used(use):
    return {last_name(it) for it in re.findall(r"[\w:]+(?: as \w+)?", use)}


def last_name(used):
    return used.split(" as ")[0].rpartition("::")[2]


def without_names(use, libraries, own):
    """A `use` without the names of functions that are gone."""
    gone = libraries[use[1] if use[1] in libraries else own].gone(libraries)
    names = r"[\w:]+(?: as \w+)?"
    text = re.sub(r"\{([^{}]*)\}", lambda it: "{" + ", ".join(name for name in re.findall(names, it[1]) if last_name(name) not in gone) + "}", use[0])
    last = re.search(r"(\w+)(?: as \w+)?;\n$", text)
    return "" if re.search(r"\{\s*\}", text) or (last and last[1] in gone) else text


# ---- what a law rests on

SIGNATURE = re.compile(r"^(\s*)(?:(?:(?:abbrev|unfoldable|pub|mutual|record|data) )*([^\s:(){}=]+) (?:\(.*\) |\{.*\} )*:(?: |$)|(?:pub )?ruleset (\S+) =)")


def name_of(line):
    """The name that a line begins to say something of, if it does."""
    at = SIGNATURE.match(line)
    return (at[2] or at[3]) if at else None


def names_in(text):
    return set(re.findall(r"[^\s(){}\[\],;.]+", text))


class Lemmas:
    """The definitions and lemmas of a tree, each a file and a name, with what stands under the name."""

    def __init__(self, top):
        self.top = top

    @functools.lru_cache(maxsize=None)
    def file_of(self, name):
        """The file of a module, or None where it is none of this tree: of a type, the one that declares it."""
        crate, part, *rest = [*name.split("."), "", ""]
        rest = [it for it in rest if it]
        kinds = [f"crates/{crate}/src/" + "/".join(rest[1:it]) + ".rt" for it in range(len(rest), 1, -1)]
        texts = [f"crates/{crate}/{part}/" + "/".join(rest[:it]) + ".antt" for it in range(len(rest), 0, -1)]
        found = kinds if rest[:1] in (["declared"], ["contracts"]) else texts
        return next((it for it in found if os.path.isfile(f"{self.top}/{it}")), None)

    def imported(self, text):
        return {it for it in map(self.file_of, re.findall(r"\bRattle\.([A-Za-z_][\w.]*\w)", text)) if it}

    @functools.lru_cache(maxsize=None)
    def blocks(self, file):
        """What stands under each name of a file, and the files that it names."""
        text = text_of(f"{self.top}/{file}")
        if file.endswith(".rt"):
            # (of a type the definitions that its model names)
            text = "\n".join(it for it in text.split("\n") if it.startswith("    ghost"))
            return {"": names_in(text)}, self.imported(text)
        found, name, inside = {"": set()}, "", None
        for line in text.split("\n"):
            line = line.split("-- ")[0] if not line.startswith("--") else ""
            if line.startswith("use "):
                continue
            said = name_of(line)
            if inside is not None and (not line.strip() or len(line) - len(line.lstrip()) > inside):
                # (a field or a constructor stands for its type)
                found[name] |= names_in(line)
                if said:
                    found.setdefault(said, set()).add(name)
                continue
            inside = None
            if said:
                name = said
                inside = len(line) - len(line.lstrip()) if re.match(r"\s*(?:pub )?(?:record|data) ", line) else None
            found.setdefault(name, set()).update(names_in(line))
        return found, self.imported(text)

    @functools.lru_cache(maxsize=None)
    def direct(self, file, name):
        """The definitions and lemmas that one names itself; of a type's file all."""
        blocks, files = self.blocks(file)
        found = []
        for it in [file, *files]:
            others = self.blocks(it)[0].keys()
            found += [(it, other) for other in (others if it.endswith(".rt") else blocks[name] & others)]
        return found

    def below(self, start):
        """All definitions and lemmas that some of them may rest on, with these."""
        seen, todo = set(), list(start)
        while todo:
            it = todo.pop()
            if it not in seen:
                seen.add(it)
                todo += self.direct(*it)
        return seen

    @functools.lru_cache(maxsize=None)
    def below_one(self, file, name):
        return self.below([(file, name)])

    def of_law(self, crate, path):
        """What a law may rest on: the names in its contract, in its attributes, and in its proof."""
        *module, law = path.split("::")
        text = text_of(f"{self.top}/crates/{crate}/src/{'/'.join(module) or 'lib'}.rt")
        lines = text.split("\n")
        head = next(number for number, line in enumerate(lines) if re.match(rf"pub fn {law}\b", line))
        own = Function(lines, head, "")
        said = "\n".join(lines[own.begin : own.end + 1])
        files = self.imported("\n".join(it for it in lines if it.startswith("ghost use")))
        start = [(it, name) for it in files for name in self.blocks(it)[0] if name in names_in(said) or it.endswith(".rt")]
        for place in re.findall(r"\b(\w+)::(specs|proofs)::([\w:]+)::([\w-]+)", said):
            file = self.file_of(f"{crate if place[0] == 'crate' else place[0]}.{place[1]}.{place[2].replace('::', '.')}")
            start.append((file, place[3]))
        for file in files_below(f"{self.top}/crates/{crate}/proofs/{'/'.join([*module, law])}", ".antt"):
            start += [(os.path.relpath(file, self.top), name) for name in self.blocks(os.path.relpath(file, self.top))[0]]
        return self.below(start)

    def at(self, file, place):
        """The name under which a place of a file stands."""
        text = text_of(f"{self.top}/{file}")
        lines = text[: text.find("\n", place)].split("\n")
        return next((it for it in map(name_of, reversed(lines)) if it), "")


if __name__ == "__main__":
    print(__doc__)
