#!/usr/bin/env python3
"""Compiles formulas with the vtree of tools/good_vtree.py and with the three start trees, and prints a table.

    python3 tools/measure_good_vtree.py PROGRAM SECONDS [--ways] FILE...

With --ways the table has the ways to a smaller diagram in place of the start trees.
Each cell has the size of the diagram and the seconds of the processor that PROGRAM took, with reading; `late` is a run
that did not end in SECONDS of the processor. Of a run under half a
second the least of three counts. The column before the last has the seconds that the tool took.
"""
import os
import resource
import subprocess
import sys
import tempfile

TOOL = os.path.join(os.path.dirname(os.path.abspath(__file__)), "good_vtree.py")


def least(words, seconds):
    """The run, or the quickest of three where it is short."""
    first = run(words, seconds)
    if first and first[1] < 0.5:
        return min([first, run(words, seconds), run(words, seconds)], key=lambda result: result[1])
    return first


def run(words, seconds):
    """The printed line and the seconds of the processor, or None where it did not end in time."""
    def limit():
        resource.setrlimit(resource.RLIMIT_CPU, (seconds, seconds))
    process = subprocess.Popen(words, stdout=subprocess.PIPE, stderr=subprocess.DEVNULL, preexec_fn=limit)
    printed = process.stdout.read().decode()
    _, status, used = os.wait4(process.pid, 0)
    process.returncode = status
    return (printed, used.ru_utime + used.ru_stime) if status == 0 else None


def cell(result):
    return "%s, %.3f" % (result[0].split()[-1], result[1]) if result else "late"


def row(program, seconds, path):
    kind = "--" + path.rsplit(".", 1)[1]
    starts = [least([program, kind, path, "--start", start], seconds) for start in ("balanced", "right", "left")]
    with tempfile.TemporaryDirectory() as folder:
        vtree, formula = os.path.join(folder, "vtree"), os.path.join(folder, "formula")
        made = run([sys.executable, TOOL, path, "--out-vtree", vtree, "--out-formula", formula], 60)
        good = least([program, kind, formula, "--vtree", vtree], seconds)
    best = min((start[1] for start in starts if start), default=None)
    said = "no" if good is None or best is not None and good[1] > best else "yes"
    name = os.path.basename(path).rsplit(".", 1)[0]
    return [name] + [cell(start) for start in starts] + [cell(good), "%.2f" % made[1], said]


# each way: whether the tool's vtree and order of groups are taken, and the further words
WAYS = [
    (False, ["--start", "right"]),
    (True, []),
    (True, ["--minimise", "3", "--slack", "100"]),
    (True, ["--minimise", "3"]),
    (True, ["--every", "50"]),
]


def row_of_ways(program, seconds, path):
    kind = "--" + path.rsplit(".", 1)[1]
    with tempfile.TemporaryDirectory() as folder:
        vtree, formula = os.path.join(folder, "vtree"), os.path.join(folder, "formula")
        run([sys.executable, TOOL, path, "--out-vtree", vtree, "--out-formula", formula], 60)
        cells = [cell(run([program, kind] + ([formula, "--vtree", vtree] if good else [path]) + words, seconds))
                 for good, words in WAYS]
    return [os.path.basename(path).rsplit(".", 1)[0]] + cells


def main():
    program, seconds, paths = os.path.abspath(sys.argv[1]), int(sys.argv[2]), sys.argv[3:]
    if paths[0] == "--ways":
        print("| formula | " + " | ".join("`%s`" % " ".join((["--vtree V"] if good else []) + words)
                                        for good, words in WAYS) + " |\n|---|---|---|---|---|---|")
        for path in paths[1:]:
            print("| %s |" % " | ".join(row_of_ways(program, seconds, path)), flush=True)
        return
    print("| formula | balanced | right | left | with the tool | tool | at most the best |")
    print("|---|---|---|---|---|---:|---|")
    for path in paths:
        print("| %s |" % " | ".join(row(program, seconds, path)), flush=True)


if __name__ == "__main__":
    main()
