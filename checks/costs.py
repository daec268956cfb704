#!/usr/bin/env python3
"""costs.py [--runs FILE]: measures what the gate costs and prints docs/COSTS.md.

Without --runs it runs `rt ci --anew`, which proves and tries everything from nothing, in a clone of the last commit, and keeps
what it measured in checks/runs.tsv; that takes an hour or more, and the figures are good where the machine does nothing else.
With --runs FILE it prints the page from what an earlier run kept there. Of several runs of one kind in a crate the last counts,
so that what was measured anew can be added at the end of the file.

A line of checks/runs.tsv is one check: crate, kind (proof, tests, edit, or program for a build of what was proved), processor seconds (user and system), seconds from
its begin to its end, and the greatest memory in MB (pages that its processes share counted once), with tabs between them; a
line that begins with # is a remark, which the page shows. The budgets stand in checks/budgets.tsv: crate and processor minutes
of its proof, or of its tests where the crate has tests alone."""
import os
import subprocess
import sys
import tempfile
import time

HERE = os.path.dirname(os.path.abspath(__file__))
TOP = os.path.dirname(HERE)
TICKS = os.sysconf("SC_CLK_TCK")
# Seconds between two looks at the processes, so a check is measured but for its last half second.
STEP = 0.5


def memory_of(process):
    """The memory of a process in bytes, its share of what it has together with others."""
    try:
        with open(f"/proc/{process}/smaps_rollup") as it:
            return 1024 * sum(int(line.split()[1]) for line in it if line.startswith("Pss:"))
    except OSError:
        return 0


def processes():
    """Each process of the machine: its parent, its name, and its processor seconds with those of its ended children."""
    found = {}
    for name in os.listdir("/proc"):
        if not name.isdigit():
            continue
        try:
            with open(f"/proc/{name}/stat") as it:
                text = it.read()
        except (FileNotFoundError, ProcessLookupError):
            continue
        end = text.rindex(")")
        fields = text[end + 2:].split()
        seconds = sum(int(it) for it in fields[11:15]) / TICKS
        found[int(name)] = (int(fields[1]), text[text.index("(") + 1:end], seconds)
    return found


def check_above(found, process, root):
    """The outermost process of the prover at or above this one and below root, if there is one."""
    check = None
    while process in found and process != root:
        if found[process][1] == "rattle":
            check = process
        process = found[process][0]
    return check if process == root else None


def kind_of(process):
    """The crate and the kind of a check, or None of what is no check of a crate."""
    with open(f"/proc/{process}/cmdline") as it:
        words = it.read().split("\0")
    if "--crate-name" not in words:
        return None
    crate = words[words.index("--crate-name") + 1]
    if "/rt-edit-" in os.readlink(f"/proc/{process}/cwd"):
        return crate, "edit"
    if "--crate-checked" in words:
        return crate, "program"
    return crate, "tests" if "--test" in words else "proof"


class Checks:
    """The checks that run below a process."""

    def __init__(self, root):
        self.root, self.running, self.ended = root, {}, []

    def look(self):
        found, now = processes(), time.time()
        seen = {}
        for process, (_, _, seconds) in found.items():
            check = check_above(found, process, self.root)
            if check is not None:
                spent, held = seen.get(check, (0, 0))
                seen[check] = (spent + seconds, held + memory_of(process))
        for check, (seconds, memory) in seen.items():
            if check not in self.running:
                try:
                    self.running[check] = [kind_of(check), now, now, 0, 0]
                except OSError:
                    continue
            it = self.running[check]
            self.running[check] = [it[0], it[1], now, max(it[3], seconds), max(it[4], memory)]
        for check in [it for it in self.running if it not in seen]:
            self.end(self.running.pop(check))

    def end(self, check):
        kind, begin, end, seconds, memory = check
        if kind:
            self.ended.append((*kind, f"{seconds:.1f}", f"{end - begin:.1f}", f"{memory / 1e6:.0f}"))


def measure(runs):
    """Runs the gate from nothing in a clone, and writes its checks to the file."""
    with tempfile.TemporaryDirectory() as room:
        subprocess.run(["git", "clone", "-q", TOP, f"{room}/clone"], check=True)
        with open(f"{room}/log", "w") as log:
            gate = subprocess.Popen(["rt", "ci", "--anew"], cwd=f"{room}/clone", stdout=log, stderr=log)
            checks = Checks(gate.pid)
            while gate.poll() is None:
                checks.look()
                time.sleep(STEP)
            checks.look()
        if gate.returncode != 0:
            with open(f"{room}/log") as log:
                sys.exit("costs: the gate failed:\n" + log.read()[-2000:])
    with open(runs, "w") as it:
        it.writelines("\t".join(check) + "\n" for check in checks.ended)


def table(path):
    with open(path) as it:
        return [line.rstrip("\n").split("\t") for line in it if line.strip() and not line.startswith("#")]


def remarks(path):
    with open(path) as it:
        return [line[1:].strip() for line in it if line.startswith("#")]


def crates():
    """The crates of crates.txt, each with those of the repository that it stands on."""
    with open(f"{TOP}/crates.txt") as it:
        lines = [line.split("#")[0].split(":") for line in it if ":" in line]
    names = [left.split()[0] for left, _ in lines]
    return {left.split()[0]: [it for it in right.split() if it in names] for left, right in lines}


def costs(runs):
    """What each crate costs: of proof and tests the seconds and the memory, of edits their number, seconds and memory."""
    found = {}
    for crate, kind, seconds, _, memory in table(runs):
        seconds, memory = float(seconds), float(memory)
        count, spent, held = found.get((crate, kind), (0, 0, 0))
        if kind in ("edit", "program"):
            found[crate, kind] = (count + 1, spent + seconds, max(held, memory))
        else:
            found[crate, kind] = (1, seconds, memory)
    return found


def longest_chain(stands_on, seconds):
    """The chain of crates, each standing on the one before, whose checks take longest one after the other."""
    chains = {}

    def chain(crate):
        if crate not in chains:
            below = max((chain(it) for it in stands_on[crate]), default=(0, []))
            chains[crate] = (below[0] + seconds.get(crate, 0), below[1] + [crate])
        return chains[crate]

    return max(chain(crate) for crate in stands_on)


def page(runs):
    stands_on, found = crates(), costs(runs)
    budgets = {crate: float(minutes) for crate, minutes in table(f"{HERE}/budgets.tsv")}
    minutes = lambda crate, *kinds: sum(found.get((crate, kind), (0, 0, 0))[1] for kind in kinds) / 60
    shown = lambda value: f"{value:.1f}" if value else ""
    memory = lambda crate: max(found.get((crate, kind), (0, 0, 0))[2] for kind in ("proof", "tests", "edit")) / 1000
    yield "# What the gate costs"
    yield ""
    yield "Processor minutes from nothing, and the greatest memory of one check in GB, as `python3 checks/costs.py` measured them."
    yield "Where a crate has edits in must-fail/, the gate proves it once more before it tries them; that is part of the minutes of"
    yield "its edits. A crate with tests is proved once more with them; that, and the builds of a program, is part of the minutes of"
    yield "its tests. A budget is the most that a crate may cost (its proof, or its tests where it has tests alone); it is lowered"
    yield "when a crate grows cheaper."
    yield ""
    for remark in remarks(runs):
        yield remark
        yield ""
    yield "| Crate | Proof | Budget | Tests | Edits | Memory |"
    yield "|---|---|---|---|---|---|"
    for crate in stands_on:
        row = [shown(minutes(crate, "proof")), shown(budgets.get(crate, 0)), shown(minutes(crate, "tests", "program")), shown(minutes(crate, "edit")), shown(memory(crate))]
        yield f"| `{crate}` | " + " | ".join(row) + " |"
    sums = [sum(minutes(crate, *kinds) for crate in stands_on) for kinds in (["proof"], ["tests", "program"], ["edit"])]
    budget = sum(budgets.get(crate, 0) for crate in stands_on)
    yield f"| Sum | {sums[0]:.1f} | {budget:.1f} | {sums[1]:.1f} | {sums[2]:.1f} | |"
    yield ""
    spent, chain = longest_chain(stands_on, {crate: max(minutes(crate, "proof"), minutes(crate, "tests") if not minutes(crate, "proof") else 0) for crate in stands_on})
    yield f"All together: {sum(sums):.0f} processor minutes. The longest chain, one crate after the other at one job each, takes {spent:.0f} minutes:"
    yield ", ".join(f"`{it}`" for it in chain) + "."
    over = [crate for crate in stands_on if max(minutes(crate, "proof"), minutes(crate, "tests") if crate.endswith("_tests") else 0) > budgets.get(crate, 0)]
    if over:
        yield ""
        yield "Over their budgets: " + ", ".join(f"`{it}`" for it in over) + "."


def main():
    runs = f"{HERE}/runs.tsv"
    if len(sys.argv) == 3 and sys.argv[1] == "--runs":
        runs = sys.argv[2]
    elif len(sys.argv) > 1:
        sys.exit("usage: python3 checks/costs.py [--runs FILE]")
    else:
        measure(runs)
    print("\n".join(page(runs)))


if __name__ == "__main__":
    main()
