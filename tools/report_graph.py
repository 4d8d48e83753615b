#!/usr/bin/env python3
"""report_graph.py [--json] [REPORT]

Draws a report of acpiroute: writes it as a graph in Graphviz's language, or with --json as JSON, to the standard output. The report
is read from the file REPORT, or from the standard input where none is named.

    acpiroute route < machine.txt | tools/report_graph.py | dot -Tsvg > machine.svg

On the left are the pins of devices and the System Control Interrupt (SCI), in the middle the link devices, on the right the interrupts
with their loads: the sources that each serves. Devices whose pins lead to the same are drawn as one. A thick line leads to the
interrupt that a link is given, dotted lines to the others that it offers, grey ones to those that are avoided. Links and interrupts of
the `bound` line are filled, and an interrupt that is as busy as the busiest has a double line around it. Links that are not present and
interrupts that are avoided or spared are drawn with dashes. Links are drawn in red whose setting was refused, or whose `after` is another
interrupt than they were given. The legend below the picture says so of what is in it. Reports of version 1, 2 and 3 are read.

The exit status is 0, 1 where the input is no report (one line on the error output says why), or 2 for wrong usage."""
import argparse
import json
import re
import sys

sys.dont_write_bytecode = True
import usage
from usage import Fault

PATH = r"\\(?:[A-Z_][A-Z0-9_]{3}(?:\.[A-Z_][A-Z0-9_]{3})*)?"
NUMBER = r"(?:0|[1-9]\d*)"
NUMBERS = rf"{NUMBER}(?: {NUMBER})*"
STATE = rf"none|-|{NUMBERS}"
# Each kind of line after the first one, with its parts.
LINES = {word: re.compile(f"{word} {rest}" if rest else word) for word, rest in {
    "mode": r"(apic|pic)",
    "ioapic": rf"({NUMBER}) at ([0-9A-F]{{8}}) base ({NUMBER})",
    "override": rf"({NUMBER}) to ({NUMBER}) flags ([0-9A-F]{{4}})",
    "sci": rf"(?:none|({NUMBER}))",
    "avoid": rf"(?:-|({NUMBERS}))",
    "spared": rf"({PATH}) ({NUMBERS})",
    "unread": rf"({PATH}) ({NUMBER})",
    "first": r"",
    "spread": r"",
    "link": rf"({PATH}) (small|extended) (low|high) offers ({NUMBERS}) now ({STATE})",
    "wired": rf"({NUMBER}) ({NUMBER})",
    "pin": rf"({PATH}) ({NUMBER}) ([A-D]) (?:({NUMBER}) wired|({NUMBER}|absent) ({PATH}))",
    "give": rf"({PATH}) ({NUMBER})",
    "busiest": rf"({NUMBER})",
    "bound": rf"(?:(none)|(-|{PATH}(?: {PATH})*) over ({NUMBERS}))",
    "set": rf"({PATH}) (?:(ok|none)|refused ({NUMBER}))",
    "after": rf"({PATH}) (?:({STATE})|refused ({NUMBER}))",
    "trigger": rf"(?:link ({PATH})|(wired|sci) ({NUMBER})) (level|edge) (low|high)",
    "bus": rf"({PATH}) (?:({NUMBER}) ({NUMBER})|refused ({NUMBER}))",
}.items()}
# The lines that stand from a version on, and those of them that stand there once.
SINCE = {"sci": 2, "avoid": 2, "spared": 3, "unread": 3, "first": 3, "spread": 3, "trigger": 3, "bus": 3}
ONCE = ("sci", "avoid", "first")


# ---- the report


def state(text):
    """What a link is set to: None without _CRS, else a list."""
    return None if text == "none" else [] if text == "-" else numbers(text)


def numbers(text):
    return [int(it) for it in text.split()]


def unless_refused(told, refusal):
    return {"refused": int(refusal)} if refusal else told


def is_refused(told):
    return isinstance(told, dict)


def is_as_given(link):
    """Whether a link is set to the interrupt that it was given; one that can't tell, since it has no _CRS, counts as set so."""
    return link["after"] is None or link["after"] == [link["give"]]


class Report:
    """A report, gathered line by line."""

    def __init__(self, version):
        self.version = version
        self.mode, self.sci, self.busiest, self.bound = None, None, None, None
        self.bound_is_told = False
        self.io_apics, self.overrides, self.avoid, self.pins = [], [], [], []
        self.links, self.wired = {}, {}
        self.spared, self.unread, self.rule = [], [], "first"
        self.triggers, self.buses = [], []
        self.added = set()

    def known(self, path):
        if path not in self.links:
            raise Fault(f"{path} has no line 'link' before this one")
        return self.links[path]

    def add_mode(self, mode):
        self.mode = mode

    def add_ioapic(self, number, address, base):
        self.io_apics.append({"id": int(number), "address": address, "base": int(base)})

    def add_override(self, source, interrupt, flags):
        self.overrides.append({"source": int(source), "interrupt": int(interrupt), "flags": flags})

    def add_sci(self, interrupt):
        self.sci = int(interrupt) if interrupt else None

    def add_avoid(self, interrupts):
        self.avoid = numbers(interrupts or "")
        if sorted(set(self.avoid)) != self.avoid:
            raise Fault("the interrupts that are avoided don't ascend")

    def add_spared(self, device, interrupts):
        self.spared.append({"device": device, "interrupts": numbers(interrupts)})

    def add_unread(self, device, refusal):
        self.unread.append({"device": device, "refused": int(refusal)})

    def add_trigger(self, path, source, interrupt, trigger, polarity):
        had = {"link": path} if path else {source: int(interrupt)}
        self.triggers.append({**had, "trigger": trigger, "polarity": polarity})

    def add_bus(self, device, segment, bus, refusal):
        told = {"refused": int(refusal)} if refusal else {"segment": int(segment), "bus": int(bus)}
        self.buses.append({"device": device, **told})

    def add_first(self):
        self.rule = "first"

    def add_spread(self):
        self.rule = "spread"

    def add_link(self, path, form, polarity, offers, now):
        if path in self.links:
            raise Fault(f"{path} has a second line 'link'")
        self.links[path] = {"path": path, "form": form, "polarity": polarity, "offers": numbers(offers), "now": state(now)}

    def add_wired(self, interrupt, count):
        self.wired[int(interrupt)] = int(count)

    def add_pin(self, device, number, pin, wired, given, link):
        found = {"device": device, "number": int(number), "pin": pin, "link": link, "interrupt": int(wired or "0")}
        if not wired:
            found["interrupt"] = None if given == "absent" else int(given)
        self.pins.append(found)

    def add_give(self, path, interrupt):
        self.known(path)["give"] = int(interrupt)

    def add_busiest(self, load):
        self.busiest = int(load)

    def add_bound(self, none, links, interrupts):
        self.bound_is_told = True
        if not none:
            paths = [] if links == "-" else links.split()
            self.bound = {"links": [self.known(it)["path"] for it in paths], "interrupts": numbers(interrupts)}

    def add_set(self, path, word, refusal):
        self.known(path)["set"] = unless_refused(word, refusal)

    def add_after(self, path, text, refusal):
        self.known(path)["after"] = unless_refused(state(text or "none"), refusal)

    def add(self, line):
        word = line.split(" ", 1)[0]
        if word not in LINES or self.version < SINCE.get(word, 1):
            raise Fault(f"no line of a report of version {self.version} begins with '{word[:40]}'")
        # a report says one rule of its choice
        once = "first" if word == "spread" else word
        if once in self.added:
            raise Fault(f"a second line '{word}'")
        self.added |= {once} & set(ONCE)
        found = LINES[word].fullmatch(line)
        if not found:
            raise Fault(f"not a line '{word}' of a report: '{line[:120]}'")
        getattr(self, f"add_{word}")(*found.groups())

    def tested(self):
        for path, link in self.links.items():
            if "give" not in link:
                raise Fault(f"{path} has no line 'give'")
        told = [("mode", self.mode), ("busiest", self.busiest is not None), ("bound", self.bound_is_told)]
        told += [(word, self.version < SINCE[word] or word in self.added) for word in ONCE]
        for word, is_told in told:
            if not is_told:
                raise Fault(f"the line '{word}' is missing")
        return self

    def spared_interrupts(self):
        return {it for device in self.spared for it in device["interrupts"]}

    def interrupts(self):
        """Each interrupt that is offered or wired, and that of the SCI, with its load."""
        found = {it: [] for link in self.links.values() for it in link["offers"] + [link["give"]]}
        found.update({it: [] for it in self.wired})
        if self.sci is not None:
            found[self.sci] = []
        for link in self.links.values():
            found[link["give"]].append(link["path"])
        return [self.interrupt(it, links) for it, links in sorted(found.items())]

    def interrupt(self, number, links):
        """An interrupt, and the links that are given it: the load counts these, the pins that are wired to it, and the SCI."""
        wired, sci = self.wired.get(number, 0), number == self.sci
        inside = self.bound["interrupts"] if self.bound else []
        return {"number": number, "load": len(links) + wired + sci, "wired": wired, "sci": sci, "links": links,
                "avoided": number in self.avoid, "spared": number in self.spared_interrupts(), "in_bound": number in inside}


def report_of(text):
    """The report that a text is."""
    if "\r" in text:
        raise Fault("the report has Windows line ends, which `tr -d '\\r'` takes away")
    lines = text.split("\n")
    if lines[0] not in ("acpiroute 1", "acpiroute 2", "acpiroute 3"):
        begins = "'acpiroute 1', 'acpiroute 2' or 'acpiroute 3'"
        raise Fault(f"line 1: a report of acpiroute begins with {begins}" if text else "the input is empty")
    report = Report(int(lines[0][-1]))
    for number, line in enumerate(lines[1:-1] if lines[-1] == "" else lines[1:], 2):
        try:
            report.add(line)
        except Fault as fault:
            raise Fault(f"line {number}: {fault}") from None
    return report.tested()


# ---- JSON


def link_json(link):
    """A link; where it was set, whether it is set to what it was given."""
    return {**link, "as_given": is_as_given(link)} if "after" in link else link


def as_json(report):
    whole = {
        "version": report.version, "mode": report.mode, "io_apics": report.io_apics, "overrides": report.overrides,
        "sci": report.sci, "avoid": report.avoid,
        "spared": report.spared, "unread": report.unread, "rule": report.rule,
        "links": [link_json(it) for it in report.links.values()], "pins": report.pins, "interrupts": report.interrupts(),
        "busiest": report.busiest, "bound": report.bound, "triggers": report.triggers, "buses": report.buses,
    }
    return json.dumps(whole, indent=2) + "\n"


# ---- Graphviz


def quoted(text):
    return '"' + text.replace("\\", "\\\\").replace('"', '\\"').replace("\n", "\\n") + '"'


def line_of(name, **attributes):
    some = ", ".join(f"{key}={quoted(str(value))}" for key, value in attributes.items())
    return f"  {name} [{some}];"


def state_text(numbers_set):
    return "none" if numbers_set is None else " ".join(map(str, numbers_set)) or "-"


def outcome_text(told, text):
    return f"refused {told['refused']}" if is_refused(told) else text(told)


def link_text(link):
    """What is written in the box of a link device."""
    lines = [link["path"], f"{link['form']} {link['polarity']}", f"offers {' '.join(map(str, link['offers']))}"]
    lines.append(f"now {state_text(link['now'])}, given {link['give']}")
    if "set" in link:
        lines.append(f"set: {outcome_text(link['set'], str)}")
    if "after" in link:
        otherwise = f", not {link['give']}" if is_set_otherwise(link) else ""
        lines.append(f"after: {outcome_text(link['after'], state_text)}{otherwise}")
    return "\n".join(lines)


def is_set_otherwise(link):
    """Whether the link's `_CRS` answers, after all links were set, something else than the interrupt that it was given."""
    return isinstance(link.get("after"), list) and not is_as_given(link)


def is_faulty(link):
    return is_refused(link.get("set")) or is_refused(link.get("after")) or is_set_otherwise(link)


def link_lines(report):
    inside = report.bound["links"] if report.bound else []
    lines = []
    for link in report.links.values():
        colour = {"style": "filled", "fillcolor": "lightsalmon"} if link["path"] in inside else {}
        if is_faulty(link):
            colour.update(color="red", penwidth=2)
        lines.append(line_of(quoted(link["path"]), label=link_text(link), **colour))
    absent = dict.fromkeys(it["link"] for it in report.pins if it["link"] and it["interrupt"] is None)
    return lines + [line_of(quoted(it), label=f"{it}\nabsent", style="dashed") for it in absent]


def interrupt_text(it):
    """What is written in the ellipse of an interrupt."""
    others = [f"{it['wired']} wired"] * bool(it["wired"]) + ["SCI"] * it["sci"]
    lines = [str(it["number"]), f"load {it['load']}" + (f" ({', '.join(others)})" if others else "")]
    return "\n".join(lines + ["avoided"] * it["avoided"] + ["spared"] * it["spared"])


def interrupt_lines(report):
    lines = []
    for it in report.interrupts():
        style = ["filled"] * it["in_bound"] + ["dashed"] * (it["avoided"] or it["spared"])
        colour = {"style": ",".join(style)} if style else {}
        if it["in_bound"]:
            colour["fillcolor"] = "lightsalmon"
        rings = 2 if it["load"] == report.busiest and it["load"] else 1
        lines.append(line_of(quoted(f"interrupt {it['number']}"), label=interrupt_text(it), shape="ellipse", peripheries=rings, **colour))
    names = " ".join(quoted(f"interrupt {it['number']}") + ";" for it in report.interrupts())
    return lines + ([f'  {{ rank="sink"; {names} }}'] if names else [])


def offer_lines(report):
    lines = []
    for link in report.links.values():
        for it in link["offers"]:
            kind = {"penwidth": 2} if it == link["give"] else {"style": "dotted", "arrowhead": "none"}
            if it in report.avoid or it in report.spared_interrupts():
                kind["color"] = "grey"
            lines.append(line_of(f"{quoted(link['path'])} -> {quoted('interrupt ' + str(it))}", **kind))
    return lines


def target_of(pin):
    return pin["link"] or f"interrupt {pin['interrupt']}"


def groups_of(pins):
    """The numbers of devices by what their pins lead to: those that lead to the same are drawn together."""
    devices, groups = {}, {}
    for pin in pins:
        devices.setdefault((pin["device"], pin["number"]), []).append((pin["pin"], target_of(pin)))
    for (device, number), leads in devices.items():
        groups.setdefault((device, tuple(leads)), []).append(number)
    return groups


def device_text(numbers_drawn):
    """Device numbers, six in a line."""
    words = [str(it) for it in numbers_drawn]
    rows = [" ".join(words[it : it + 6]) for it in range(0, len(words), 6)]
    return "\n".join([f"device{'s' * (len(words) > 1)} {rows[0]}", *rows[1:]])


def pin_lines(report):
    lines = []
    for (device, leads), some in groups_of(report.pins).items():
        name = quoted(f"{device} {some[0]}")
        cells = "|".join(f"<{pin}> {pin}" for pin, _ in leads)
        label = quoted(f"{{{{{device}\n{device_text(some)}}}|{{{cells}}}}}")
        lines.append(f'  {name} [shape="record", label={label}];')
        lines += [f"  {name}:{pin} -> {quoted(target)};" for pin, target in leads]
    return lines


def sci_lines(report):
    """The System Control Interrupt, and the interrupt that is its source."""
    return [] if report.sci is None else ['  "SCI";', f"  \"SCI\" -> {quoted(f'interrupt {report.sci}')};"]


def title(report):
    lines = [f"mode {report.mode}, busiest {report.busiest}"]
    lines += [f"I/O APIC {it['id']} at {it['address']}, interrupts from {it['base']}" for it in report.io_apics]
    lines += [f"source {it['source']} is interrupt {it['interrupt']}, flags {it['flags']}" for it in report.overrides]
    lines += [f"avoided: {' '.join(map(str, report.avoid))}"] if report.avoid else []
    lines += [f"spared for {it['device']}: {' '.join(map(str, it['interrupts']))}" for it in report.spared]
    lines += [f"{it['device']} couldn't be asked: refused {it['refused']}" for it in report.unread]
    return "\n".join([*lines, "", *legend(report)])


def legend(report):
    """What the forms and colours say that are in the picture."""
    bound = report.bound or {"links": [], "interrupts": []}
    interrupts = report.interrupts()
    said = [
        (report.links, "thick line: the interrupt that the link is given; dotted line: one that it offers"),
        (report.busiest, "double line around an interrupt: as busy as the busiest"),
        (bound["interrupts"], "filled: the line 'bound', which proves that no choice has a less busy busiest interrupt"),
        (any(it["interrupt"] is None for it in report.pins), "dashed box: a link that is not present"),
        (any(it["avoided"] for it in interrupts), "dashed ellipse, grey line: an interrupt that is avoided"),
        (any(it["spared"] for it in interrupts), "dashed ellipse, grey line: an interrupt that is spared"),
        (any(map(is_faulty, report.links.values())),
         "red: a link that refused its setting, or is set to another interrupt than it was given"),
    ]
    return [text for is_there, text in said if is_there]


def as_graph(report):
    lines = ["digraph acpiroute {", '  rankdir="LR";', f"  label={quoted(title(report))};", '  node [shape="box", fontname="monospace"];']
    lines += pin_lines(report) + sci_lines(report) + link_lines(report) + interrupt_lines(report) + offer_lines(report)
    return "\n".join([*lines, "}", ""])


def main(words):
    parser = usage.parser(__doc__)
    parser.add_argument("--json", action="store_true", help=argparse.SUPPRESS)
    parser.add_argument("report", nargs="?", metavar="REPORT", help=argparse.SUPPRESS)
    asked = parser.parse_args(words)
    form = as_json if asked.json else as_graph
    return usage.write_out(lambda: form(report_of(usage.ascii_in(asked.report, "report"))))


if __name__ == "__main__":
    sys.exit(main(sys.argv[1:]))
