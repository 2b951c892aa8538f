#!/usr/bin/env python3
"""Measures a gate that is running, and prints what each crate cost, as a Markdown table in processor minutes.

    rt ci & docs/gate_minutes.py --pid $!     # measures what that gate starts, and ends with it
    docs/gate_minutes.py                      # measures every prover, compiler and linker of the machine, until Ctrl-C

`proof` is what was proved and built of the crate itself, `tests` the same with its test functions, `edits` the tries of its must-fail edits
with the check that they begin with. What the gate waited for beside these (the runs of tests and programs, the layout of files) has a row of its own.
The processes are looked at three times a second, and each counts with what it had used when it was last seen, also before the measuring began.
"""
import argparse
import os
import signal
import time

TOP = os.path.dirname(os.path.dirname(os.path.abspath(__file__)))
TICK, PAUSE = os.sysconf("SC_CLK_TCK"), 0.3
NAMES = ("rattle", "clang", "ld")
KINDS = ("proof", "tests", "edits")
OTHER = "(other)"


def stat_of(pid):
    """A process's name, its parent, when it started, and its own processor time and that of the children it waited for, in seconds."""
    with open(f"/proc/{pid}/stat", encoding="utf-8", errors="replace") as file:
        text = file.read()
    end = text.rindex(")")
    fields = text[end + 2 :].split()
    user, system, child_user, child_system = (int(it) / TICK for it in fields[11:15])
    return text[text.index("(") + 1 : end], int(fields[1]), fields[19], user + system, child_user + child_system


def place_of(pid):
    """The crate and the kind of a process, by its words and its working folder."""
    with open(f"/proc/{pid}/cmdline", encoding="utf-8", errors="replace") as file:
        words = file.read().split("\0")
    folder = os.readlink(f"/proc/{pid}/cwd")
    in_edit = os.path.basename(folder).startswith("rt-edit-")
    if "--crate-name" in words[:-1]:
        crate = words[words.index("--crate-name") + 1]
    elif os.path.basename(os.path.dirname(folder)) == "crates":
        crate = os.path.basename(folder)
    else:
        return OTHER, "proof"
    is_test = "--test" in words or any(it.endswith(("_tests", "_tests.o")) for it in words)
    return crate, "edits" if in_edit else "tests" if is_test else "proof"


class Process:
    """A process of the gate, and what it had used when it was last seen."""

    def __init__(self, pid, parent):
        # what a prover starts belongs to the crate and the kind of that prover, wherever it works
        self.parent = parent
        self.place = parent.place if parent else place_of(pid)
        self.begin = self.end = time.monotonic()
        self.own = self.waited = self.of_seen = 0.0

    def used(self):
        """Its own time, and of its children's what was not counted at those that were seen: so no child counts twice, and what a child used
        behind its last sample counts at the parent that waited for it."""
        return self.own + max(0.0, self.waited - self.of_seen)


class Watch:
    """What was seen of a gate so far."""

    def __init__(self, gate):
        self.gate = gate
        self.running, self.ended = {}, []
        self.begin, self.waited_before, self.waited = time.monotonic(), None, 0.0

    def is_of_gate(self, pid, stats):
        while pid in stats and pid != self.gate:
            pid = stats[pid][1]
        return self.gate is None or pid == self.gate

    def sample(self):
        """Looks at all processes once. Tells whether the gate still runs."""
        stats = {}
        for pid in (int(it) for it in os.listdir("/proc") if it.isdigit()):
            try:
                stats[pid] = stat_of(pid)
            except (OSError, ValueError):
                pass
        # by their start, so that a parent comes before its children
        for pid in sorted(stats, key=lambda it: (int(stats[it][2]), it)):
            self.note(pid, stats)
        for key in [it for it in self.running if it[0] not in stats or stats[it[0]][2] != it[1]]:
            self.end(key)
        if self.gate in stats:
            self.waited = stats[self.gate][4]
            if self.waited_before is None:
                self.waited_before = self.waited
        return self.gate is None or self.gate in stats

    def note(self, pid, stats):
        name, parent, start, own, waited = stats[pid]
        key = pid, start
        if key not in self.running:
            if not name.startswith(NAMES) or not self.is_of_gate(pid, stats):
                return
            above = stats.get(parent)
            try:
                self.running[key] = Process(pid, self.running.get((parent, above[2])) if above else None)
            except OSError:
                return
        process = self.running[key]
        process.own, process.waited, process.end = own, waited, time.monotonic()

    def end(self, key):
        process = self.running.pop(key)
        if process.parent:
            process.parent.of_seen += process.used()
        self.ended.append(process)

    def minutes(self):
        """The processor minutes of each crate and kind, and the minutes for which its proof was seen."""
        used, lasted = {}, {}
        for process in [*self.ended, *self.running.values()]:
            crate, kind = process.place
            row = used.setdefault(crate, dict.fromkeys(KINDS, 0.0))
            row[kind] += process.used() / 60
            if kind == "proof" and not process.parent:
                lasted[crate] = lasted.get(crate, 0.0) + (process.end - process.begin) / 60
        return used, lasted


def needs_of(top):
    """The crates of crates.txt, each with those of them that it stands on."""
    needs = {}
    with open(os.path.join(top, "crates.txt"), encoding="utf-8") as file:
        for line in file:
            name, _, below = line.partition("#")[0].partition(":")
            if name.strip():
                needs[name.split()[0]] = below.split()
    return {name: [it for it in below if it in needs] for name, below in needs.items()}


def longest_chain(needs, cost):
    """The crates, lowest first, each of which stands on the one before, whose costs are the most together."""
    best = {}

    def chain(name):
        if name not in best:
            total, names = max((chain(it) for it in needs[name]), default=(0.0, []))
            best[name] = total + cost.get(name, 0.0), [*names, name]
        return best[name]

    return max(chain(name) for name in needs)


def kind_of_cores():
    with open("/proc/cpuinfo", encoding="utf-8") as file:
        return next((line.partition(":")[2].strip() for line in file if line.startswith("model name")), "of an unknown kind")


def print_table(watch, top):
    used, lasted = watch.minutes()
    print("| Crate | proof | tests | edits | sum |\n|---|---|---|---|---|")
    sums = [sum(row[kind] for row in used.values()) for kind in KINDS]
    rows = sorted(used.items(), key=lambda it: (it[0] == OTHER, -sum(it[1].values()), it[0]))
    for crate, row in [*rows, ("all", dict(zip(KINDS, sums)))]:
        cells = [f"{row[kind]:.1f}" for kind in KINDS]
        print(f"| {crate} | {' | '.join(cells)} | {sum(row.values()):.1f} |")
    wall = (time.monotonic() - watch.begin) / 60
    print(f"\nProcessor minutes, of a run of {wall:.1f} minutes on {os.cpu_count()} cores ({kind_of_cores()}).")
    if watch.waited_before is not None:
        beside = (watch.waited - watch.waited_before) / 60 - sum(sums)
        if beside > 0:
            print(f"The gate waited for {beside:.1f} more: the runs of tests and programs, and what ended before it was seen.")
    needs = needs_of(top)
    total, names = longest_chain(needs, {name: row["proof"] for name, row in used.items()})
    took = sum(lasted.get(name, 0.0) for name in names)
    print(f"The longest chain of proofs takes {total:.1f} processor minutes, {took:.1f} by the clock: {', '.join(names)}.")


def main():
    words = argparse.ArgumentParser(description=__doc__.partition("\n")[0])
    words.add_argument("--pid", type=int, help="the process of the gate: what it starts is measured, until it ends")
    words.add_argument("--top", default=TOP, help="the folder whose crates.txt says which crate stands on which (%(default)s)")
    given = words.parse_args()
    watch = Watch(given.pid)
    signal.signal(signal.SIGTERM, signal.default_int_handler)
    try:
        while watch.sample():
            time.sleep(PAUSE)
    except KeyboardInterrupt:
        pass
    print_table(watch, given.top)


if __name__ == "__main__":
    main()
