"""The kit's `rt ci`, with the processors shared out so that the run ends sooner.

What is proved, tried and run, and whether it passes, is the kit's own: this script replaces its `in_lanes` alone, which decides
in which order the tasks begin and with how many processes. With RT_JOBS set, or under a kit whose tasks this script can't plan,
the kit's own order is used. Under a kit that has no such call, plain `rt ci` runs.

The longest chain of proofs decides how long a run takes. The kit shares the idle processors among all tasks that can begin, and a
proof keeps what it got, so the chain mostly gets one. Here its proofs get several processes, and other tasks begin beside them at
a lower priority: as many as memory holds, and at most two tasks for each processor in all. `tools/gate_plan.py` says which they
are.

The check of a static library is also written to its out/checked, from which tools/kernel_library.py compiles it without a second proof."""
import contextlib
import os
import queue
import sys
import threading

sys.dont_write_bytecode = True
sys.path.append(os.path.join(os.path.dirname(os.path.abspath(__file__)), "..", "tools"))
import gate_plan
import kit
import usage

if __name__ == "__main__":
    usage.answer_help(__doc__)
rt = kit.load()
KITS_OWN = getattr(rt, "in_lanes", None)


def in_lanes(tasks, *more, **named):
    """Runs tasks side by side, each once those that it waits for have ended, and returns what each gave. A task is what it waits for,
    its lines, the memory that it needs, and a call that takes what was given so far and a number of processes."""
    planned = None if more or named or os.environ.get("RT_JOBS") else plan_of(tasks)
    stamps = kit.stamps(rt)
    given = in_order(planned, tasks) if planned else KITS_OWN(tasks, *more, **named)
    for key in tasks:
        if key[1] == "proof" and given[key]:
            kit.mark_built(stamps, key[0])
    return given


def keep_checks():
    """Has the check of a static library write what it checked. It is the kit's own check with one flag more; a kit that checks in another
    way is left as it is."""
    kits_own = getattr(rt.Crate, "ci", None)

    def ci(crate, *words):
        if getattr(crate, "is_static", False) and hasattr(crate, "prove"):
            prove, more = crate.prove, ["-o", kit.checked_of(crate)]
            # (the kit makes a copy of the crate for each task)
            crate.prove = lambda *commands: prove(*([*it, *more] if it[0] == "check" and "-o" not in it else it for it in commands))
        return kits_own(crate, *words)

    if kits_own:
        rt.Crate.ci = ci


def plan_of(tasks):
    """The plan of the tasks, or None where a kit describes them in another way than this script knows, which costs nothing but time."""
    try:
        plan = gate_plan.Plan(tasks, gate_plan.read_table(), rt.processors())
        for key, (_, _, _, call) in tasks.items():
            # (asked now, so that a plan that can't answer is found here)
            if not callable(call) or plan.memory(key, plan.processes(key)) < 0 or plan.niceness(key) < 0:
                raise TypeError(key)
        room_for_all()
        return plan
    except (TypeError, ValueError, LookupError, AttributeError, OSError) as why:
        print(f"gate: this kit's tasks can't be planned ({why!r}), so they run in the kit's own order")
        return None


def room_for_all():
    """How many bytes of memory the tasks may take together, as far as what is free now tells."""
    return 0.85 * rt.free()


def in_order(plan, tasks):
    """Runs the tasks in the order of a plan."""
    # this removes the folders that some kits make for edits
    with getattr(rt, "ending", contextlib.nullcontext)():
        running = {}
        try:
            return ended_in_order(plan, tasks, running)
        finally:
            # (after this the kit removes files and puts others back, so no task may still run)
            for thread, _ in running.values():
                thread.join()


def ended_in_order(plan, tasks, running):
    left, given, ended, memory = plan.in_order(), {}, queue.SimpleQueue(), 0
    while left or running:
        # (what other programs give back is used, too)
        memory = max(memory, room_for_all())
        for key in [it for it in left if all(low in given for low in tasks[it][0])]:
            processes = fitting(plan, key, memory - sum(it for _, it in running.values()))
            if len(running) < 2 * plan.processors and (processes or not running):
                left.remove(key)
                thread = begun(tasks[key][3], key, given, processes or 1, plan.niceness(key), ended)
                running[key] = thread, plan.memory(key, processes or 1)
            elif plan.is_in_chain(key):
                # what it waits for is not given to others
                break
        key, gave, fault = ended.get()
        del running[key]
        if fault is not None:
            raise fault
        given[key] = gave
    return given


def fitting(plan, key, room):
    """With how many processes a task fits into so much memory: 0 where it doesn't with one."""
    return next((it for it in range(plan.processes(key), 0, -1) if plan.memory(key, it) <= room), 0)


def begun(call, key, given, processes, niceness, ended):
    """Begins a task in a thread of its own: Linux keeps a priority for each thread, and the programs that it starts inherit it."""

    def work():
        # (a sandbox may forbid it)
        with contextlib.suppress(OSError):
            os.setpriority(os.PRIO_PROCESS, threading.get_native_id(), os.getpriority(os.PRIO_PROCESS, 0) + niceness)
        try:
            ended.put((key, call(given, processes), None))
        except BaseException as it:
            ended.put((key, None, it))

    thread = threading.Thread(target=work, daemon=True)
    thread.start()
    return thread


if __name__ == "__main__":
    if not KITS_OWN:
        os.execvp("rt", ["rt", "ci"])
    rt.in_lanes = in_lanes
    keep_checks()
    sys.exit(rt.main(["ci"]))
