"""The kit's own command `rt` as a module, so that scripts prove crates and judge edits as the gate does."""
import contextlib
import importlib.machinery
import importlib.util
import os
import shutil
import sys
import threading


def load():
    """The module. As a program, it would begin to work."""
    found = shutil.which("rt")
    if not found:
        sys.exit("the kit's command rt is not on the PATH")
    loader = importlib.machinery.SourceFileLoader("rt", os.path.realpath(found))
    made = importlib.util.module_from_spec(importlib.util.spec_from_loader("rt", loader))
    sys.modules["rt"] = made
    loader.exec_module(made)
    # (a kit that does it in another way is left as it is)
    with contextlib.suppress(Exception):
        visit_once(made.rtlib.Crate)
    return made


def visit_once(kind):
    """Has the kit go to each library below a crate once. Some kits (`rattle-kit-13b` is one) go along each path of dependencies, which are
    180,000 for the program, at each question. What they answer stays the same."""
    kits_below, kits_stamp, asked = kind.below, kind.stamp, threading.local()

    def below(crate):
        if "libraries_below" not in crate.__dict__:
            crate.libraries_below = kits_below(crate)
        return [*crate.libraries_below]

    def stamp(crate):
        sums = getattr(asked, "sums", None)
        if sums is not None:
            if crate.folder not in sums:
                sums[crate.folder] = kits_stamp(crate)
            return sums[crate.folder]
        # (files may change from one question to the next)
        asked.sums = {}
        try:
            return kits_stamp(crate)
        finally:
            asked.sums = None

    kind.below, kind.stamp = below, stamp


def stamps(rt):
    """Each crate of the repository, with a sum of its files and of those below it; empty where a kit has no such sum."""
    # (what follows from it is a convenience, so nothing here may end the gate)
    with contextlib.suppress(Exception, SystemExit):
        return {it.name: (it, it.stamp()) for it in rt.rtlib.crates_below(os.getcwd())}
    return {}


def mark_built(stamps, name):
    """Marks a library that the gate built with a sum of its sources. The kit gives it no stamp, since it was proved over the statements of
    the libraries below it, so only tools/try_edits.py and tools/slow_modules.py use it."""
    with contextlib.suppress(Exception, SystemExit):
        crate, stamp = stamps[name]
        if os.path.isdir(crate.rlib) and not os.path.exists(f"{os.path.dirname(crate.rlib)}/stamp") and crate.stamp() == stamp:
            with open(mark_of(crate), "w", encoding="utf-8") as it:
                it.write(stamp)


def checked_of(crate):
    """Where the gate leaves its check of a static library."""
    return os.path.join(crate.folder, "out", "checked")


def mark_of(crate):
    return f"{os.path.dirname(crate.rlib)}/by-gate"


def is_by_gate(rt, crate):
    """Whether the gate built this library, from the files that stand there now."""
    return os.path.isdir(crate.rlib) and rt.rtlib.text_of(mark_of(crate)) == crate.stamp()


if __name__ == "__main__":
    print(__doc__)
