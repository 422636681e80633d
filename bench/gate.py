#!/usr/bin/env python3
"""What a gate's run costs: processor seconds of each crate's proof, tests and must-fail edits, and for 1,000 lines.

    bench/gate.py [--log FILE] [-- COMMAND..]     runs the command (`rt ci` where none is given), measures it, and prints the table
    bench/gate.py --of FILE..                     prints the table of what earlier runs wrote with --log

A run from nothing is measured where nothing is kept on the machine (`rt ci --anew`, or a new machine). Where several logs are given, or a
log is written to again, the last run that did a piece of work counts for it: so the logs of the runs in which the crates were proved one
after the other add up to a run from nothing. Every second it looks at the processes below the command, and counts what each has used; what
ends between two looks is counted by its parent, and stands in the line `not told apart`. Linux alone; it runs outside the gate."""

import json
import os
import resource
import subprocess
import sys
import time

TOP = os.path.dirname(os.path.dirname(os.path.abspath(__file__)))
TICK = os.sysconf("SC_CLK_TCK")
KINDS = ("proof", "tests", "edits")
LOOK_EVERY = 0.5


def stat_of(process):
    """The parent of a process, when it began, and the processor seconds that it has used itself."""
    with open(f"/proc/{process}/stat") as file:
        fields = file.read().rpartition(")")[2].split()
    return int(fields[1]), fields[19], (int(fields[11]) + int(fields[12])) / TICK


def work_of(process):
    """What a process works on: a crate and the kind of work, or None where it proves nothing."""
    with open(f"/proc/{process}/cmdline") as file:
        words = file.read().split("\0")
    if "--crate-name" not in words:
        return None
    crate = words[words.index("--crate-name") + 1]
    if os.path.basename(os.readlink(f"/proc/{process}/cwd")).startswith("rt-edit"):
        return crate, "edits"
    return crate, "tests" if "--test" in words else "proof"


def look(top, seen):
    """Notes what each process below the top one has used by now."""
    parents, used = {}, {}
    for name in os.listdir("/proc"):
        if name.isdigit():
            try:
                parents[int(name)], began, used[int(name), began] = stat_of(name)
            except (OSError, IndexError):
                pass
    for (process, began), seconds in used.items():
        above = process
        while above not in (top, 0, None):
            above = parents.get(above)
        if above != top:
            continue
        try:
            work = seen.get((process, began), (None,))[0] or work_of(process)
        except OSError:
            continue
        seen[process, began] = work, seconds


def measure(command):
    """Runs the command, and gives its status, the seconds of each piece of work, and those of all of it."""
    seen, began = {}, time.time()
    running = subprocess.Popen(command)
    while running.poll() is None:
        look(running.pid, seen)
        time.sleep(LOOK_EVERY)
    spent = {}
    for work, seconds in seen.values():
        if work:
            spent[work] = spent.get(work, 0) + seconds
    whole = resource.getrusage(resource.RUSAGE_CHILDREN)
    return running.returncode, spent, whole.ru_utime + whole.ru_stime, time.time() - began


def lines_of(crate):
    """How many lines of code, definitions and proofs a crate has."""
    count = 0
    for part in ("src", "specs", "proofs"):
        for folder, _, names in os.walk(f"{TOP}/crates/{crate}/{part}"):
            for name in names:
                with open(f"{folder}/{name}", "rb") as file:
                    count += file.read().count(b"\n")
    return count


def read_logs(files):
    """The seconds of each piece of work by the last run that did it, and those that were not told apart."""
    spent, rest = {}, 0.0
    for file in files:
        with open(file) as log:
            for line in log:
                said = json.loads(line)
                if "crate" in said:
                    spent[said["crate"], said["kind"]] = said["seconds"]
                else:
                    rest += said["rest"]
    return spent, rest


def print_table(spent, rest):
    crates = sorted({crate for crate, _ in spent}, key=lambda it: -sum(spent.get((it, kind), 0) for kind in KINDS))
    print(f"{'crate':22}{'lines':>8}{'proof':>8}{'tests':>8}{'edits':>8}{'all':>8}{'a 1,000 lines':>15}   (processor seconds)")
    for crate in crates:
        of = [spent.get((crate, kind), 0) for kind in KINDS]
        lines = lines_of(crate)
        share = f"{sum(of) * 1000 / lines:15.0f}" if lines else f"{'':15}"
        print(f"{crate:22}{lines:8}" + "".join(f"{it:8.0f}" for it in (*of, sum(of))) + share)
    sums = [sum(spent.get((crate, kind), 0) for crate in crates) for kind in KINDS]
    told = ", ".join(f"{kind} {it / 60:.1f}" for kind, it in zip(KINDS, sums))
    print(f"processor minutes: {(sum(sums) + rest) / 60:.1f} ({told}, not told apart {rest / 60:.1f})")


def main(words):
    if words[:1] == ["--of"] and words[1:]:
        print_table(*read_logs(words[1:]))
        return 0
    log = None
    if words[:1] == ["--log"] and words[1:]:
        log, words = os.path.abspath(words[1]), words[2:]
    if words and words[0] != "--":
        print(__doc__, file=sys.stderr)
        return 2
    os.chdir(TOP)
    status, spent, whole, wall = measure(words[1:] or ["rt", "ci"])
    rest = max(whole - sum(spent.values()), 0)
    if log:
        with open(log, "a") as file:
            for (crate, kind), seconds in sorted(spent.items()):
                file.write(json.dumps({"crate": crate, "kind": kind, "seconds": round(seconds, 1)}) + "\n")
            file.write(json.dumps({"rest": round(rest, 1), "status": status, "wall": round(wall)}) + "\n")
    print_table(spent, rest)
    print(f"wall: {wall / 60:.1f} minutes; status {status}")
    return status


if __name__ == "__main__":
    sys.exit(main(sys.argv[1:]))
