#!/usr/bin/env python3
"""What a whole run of the gate takes, crate by crate, in processor minutes.

    python3 tools/gate_minutes.py run LOG [WORD ..]   runs `rt ci WORD ..` and writes to LOG what each prover took
    python3 tools/gate_minutes.py table LOG           prints the table of all crates from such a log
    python3 tools/gate_minutes.py document            writes the table of docs/PROVING.md from the newest log, which is
                                                      gate.json in a folder of bench/runs whose name ends in gate
    python3 tools/gate_minutes.py check               says whether that table is so; the status is 1 where it is not

While the gate runs, each prover's processor time (user and system, all its threads) is read from /proc once a second,
so that of each less than a second is missed; the sum that stands below the table is the kernel's own, of all
processes of the run. `alone` is a crate's proof, `tests` the crate once more with its tests, `edits` what its
must-fail edits take, with the check that they begin with. Standard library alone; Linux.
"""
import glob
import json
import os
import re
import resource
import subprocess
import sys
import time

TICKS = os.sysconf("SC_CLK_TCK")
TOP = os.path.join(os.path.dirname(os.path.abspath(__file__)), "..")
PROVING = os.path.join(TOP, "docs/PROVING.md")
# A crate has a row of its own in docs/PROVING.md where it takes so many minutes in all.
LEAST_MINUTES = 5.5


def prover(pid):
    """The prover with this number: its key, crate and kind, and the seconds that it has taken so far."""
    with open("/proc/%s/cmdline" % pid, encoding="utf-8", errors="replace") as file:
        words = file.read().split("\0")
    if "--crate-name" not in words:
        return None
    with open("/proc/%s/stat" % pid, encoding="utf-8", errors="replace") as file:
        fields = file.read().rpartition(")")[2].split()
    folder = os.readlink("/proc/%s/cwd" % pid)
    kind = "edits" if "/rt-edit" in folder else "tests" if "--test" in words else "alone"
    crate = words[words.index("--crate-name") + 1]
    return (pid, fields[19]), (crate, kind, (int(fields[11]) + int(fields[12])) / TICKS)


def below(root):
    """The numbers of all processes that this process began."""
    parents = {}
    for pid in filter(str.isdigit, os.listdir("/proc")):
        try:
            with open("/proc/%s/stat" % pid, encoding="utf-8", errors="replace") as file:
                parents[int(pid)] = int(file.read().rpartition(")")[2].split()[1])
        except (OSError, ValueError):
            pass
    found, todo = set(), [root]
    while todo:
        above = todo.pop()
        more = {pid for pid, parent in parents.items() if parent == above} - found
        found |= more
        todo += more
    return found


def run(log, words):
    began, seen = time.time(), {}
    gate = subprocess.Popen(["rt", "ci", *words])
    while gate.poll() is None:
        for pid in below(os.getpid()):
            try:
                found = prover(pid)
            except (OSError, ValueError, IndexError):
                continue
            if found:
                seen[found[0]] = found[1]
        time.sleep(1)
    used = resource.getrusage(resource.RUSAGE_CHILDREN)
    with open(log, "w", encoding="utf-8") as file:
        json.dump({"words": words, "status": gate.returncode, "clock": time.time() - began,
                   "processor": used.ru_utime + used.ru_stime, "processors": len(os.sched_getaffinity(0)),
                   "provers": sorted(seen.values())}, file, indent=0)
    return gate.returncode


def row_of(name, kinds):
    cells = ("%.1f" % kinds[kind] if kind in kinds else "" for kind in ("alone", "tests", "edits"))
    return "| %s | %s |" % (name, " | ".join(cells))


def sum_of(rows):
    """The minutes of each kind that some crates take together."""
    return {kind: sum(kinds.get(kind, 0) for _, kinds in rows) for kind in ("alone", "tests", "edits")}


def table(log, least):
    """The lines of the table: a row for each crate of so many minutes or more, one for the others, one for all."""
    with open(log, encoding="utf-8") as file:
        found = json.load(file)
    minutes = {}
    for crate, kind, seconds in found["provers"]:
        of_crate = minutes.setdefault(crate, {})
        of_crate[kind] = of_crate.get(kind, 0) + seconds / 60
    rows = sorted(minutes.items(), key=lambda row: -sum(row[1].values()))
    large = [row for row in rows if sum(row[1].values()) >= least]
    lines = ["| crate | alone | tests | edits |", "|---|---:|---:|---:|"]
    lines += [row_of("`%s`" % crate, kinds) for crate, kinds in large]
    if len(large) < len(rows):
        lines.append(row_of("%d others" % (len(rows) - len(large)), sum_of(rows[len(large):])))
    lines += [row_of("all", sum_of(rows)), "", "Together %.0f processor minutes, %.0f minutes by the clock on %d "
              "processors." % (found["processor"] / 60, found["clock"] / 60, found["processors"])]
    return lines


def document():
    """docs/PROVING.md as it is, and with the table of the newest log."""
    with open(PROVING, encoding="utf-8") as file:
        old = file.read()
    log = sorted(glob.glob(os.path.join(TOP, "bench/runs/*-gate/gate.json")))[-1]
    begin = old.index("\n", old.index("<!-- made by tools/gate_minutes.py")) + 1
    end = old.index("<!-- end -->", begin)
    return old, old[:begin] + "\n".join(table(log, LEAST_MINUTES)) + "\n" + old[end:]


def main(words):
    if len(words) >= 2 and words[0] == "run":
        return run(words[1], words[2:])
    if len(words) == 2 and words[0] == "table" and re.search(r"\S", words[1]):
        print("\n".join(table(words[1], 0)))
        return 0
    if words == ["document"] or words == ["check"]:
        old, new = document()
        if words == ["document"]:
            with open(PROVING, "w", encoding="utf-8") as file:
                file.write(new)
        elif old != new:
            print("docs/PROVING.md: the table of the gate is not that of the newest gate.json in bench/runs")
            return 1
        return 0
    print(__doc__)
    return 2


if __name__ == "__main__":
    sys.exit(main(sys.argv[1:]))
