#!/usr/bin/env python3
"""Times the moves of a vtree under a compiled formula: `time_moves.py PROGRAM [--pairs N] [--runs N]`.

The formulas are random clauses, each over variables within a window, on the balanced vtree. The second one has some ten
times the size of the first. The places are the internal nodes of the vtree at which fewer than one node in a hundred of
the compiled formula stands, and at least one. At each of them the vtree is swapped and swapped back, so that all places
see the same diagrams; the time of a move is what a run with these commands takes beside one without them, divided by
their number. A second table has the places with the most nodes. In a third one the places are those over the last
variables of the right-linear vtree, where some clauses over them alone make the same nodes, and the rest of the formula
grows tenfold.

Times are those of the processor for the whole process, the least of several runs. No clause speaks of time, so this
stands in no gate.
"""
import argparse
import os
import random
import resource
import subprocess
import sys
import tempfile

LEAST_VISIBLE = 0.02


def clauses(variables, count, window, seed):
    """Clauses of three literals, each over variables within a window."""
    chance = random.Random(seed)
    lines = []
    for _ in range(count):
        first = chance.randint(1, variables - window + 1)
        chosen = sorted(chance.sample(range(first, first + window), 3))
        lines.append(" ".join(str(x if chance.random() < 0.5 else -x) for x in chosen) + " 0")
    return "p cnf %d %d\n%s\n" % (variables, count, "\n".join(lines))


def time_of(program, folder, lines, start="balanced"):
    """The processor's time for a script over the formula, and what it prints."""
    with open(os.path.join(folder, "s"), "w", encoding="ascii") as file:
        file.write("".join(line + "\n" for line in lines))
    before = resource.getrusage(resource.RUSAGE_CHILDREN)
    words = [program, "--cnf", "f", "--start", start, "--script", "s"]
    done = subprocess.run(words, cwd=folder, capture_output=True, text=True)
    after = resource.getrusage(resource.RUSAGE_CHILDREN)
    if done.returncode != 0:
        sys.exit("time_moves: status %d: %s" % (done.returncode, done.stderr.strip()))
    return after.ru_utime + after.ru_stime - before.ru_utime - before.ru_stime, done.stdout


def least_time(program, folder, lines, runs, start="balanced"):
    return min(time_of(program, folder, lines, start)[0] for _ in range(runs))


def nodes_at(folder):
    """How many nodes of the written diagram stand at each position."""
    counts = {}
    with open(os.path.join(folder, "d"), encoding="ascii") as file:
        for words in (line.split() for line in file):
            if words[0] == "D":
                counts[int(words[2])] = counts.get(int(words[2]), 0) + 1
    return counts


def positions_of(folder):
    """The internal positions of the written vtree, with those of their children."""
    with open(os.path.join(folder, "v"), encoding="ascii") as file:
        rows = [line.split() for line in file if line.startswith("I")]
    return {int(row[1]): (int(row[2]), int(row[3])) for row in rows}


def swapped_position(children, position):
    """Where the node at a position stands once its two sides are swapped: its in-order number counts the left side."""
    def least(at):
        return least(children[at][0]) if at in children else at

    def count(at):
        return 1 + sum(count(child) for child in children[at]) if at in children else 1

    return least(position) + count(children[position][1])


def time_places(program, folder, places, children, alone, pairs, runs, start="balanced"):
    """The time of one move, over swaps there and back at each of the places; more pairs where it is too short."""
    while True:
        lines = ["input f"]
        for place in places:
            lines += ["swap %d" % place, "swap %d" % swapped_position(children, place)] * pairs
        taken = least_time(program, folder, lines, runs, start) - alone
        if taken > LEAST_VISIBLE or len(lines) * 4 > 100000:
            return taken / (len(lines) - 1), len(lines) - 1
        pairs *= 4


def tell(name, number, total, seconds, moves, alone):
    print("| %s | %d | %s | %d | %.3f ms | %s |" % (
        name, number, total, moves, 1000 * seconds, "%.0f" % (alone / seconds) if seconds > 0 else "not measured"))


def measure(program, label, variables, count, window, seed, pairs, runs):
    with tempfile.TemporaryDirectory() as folder:
        with open(os.path.join(folder, "f"), "w", encoding="ascii") as file:
            file.write(clauses(variables, count, window, seed))
        _, printed = time_of(program, folder, ["input f", "write f d", "vtree v", "size f"])
        alone = least_time(program, folder, ["input f"], runs)
        counts, children = nodes_at(folder), positions_of(folder)
        total = sum(counts.values())
        print("\n%s: %d variables, %d clauses, %s, %d nodes; compiled in %.1f ms\n" % (
            label, variables, count, printed.strip(), total, 1000 * alone))
        print("| places | number | nodes at each | moves | one move | compiling anew takes so many moves |")
        print("|---|---:|---|---:|---:|---:|")
        few = sorted(p for p in children if 0 < counts.get(p, 0) * 100 < total)
        many = sorted(children, key=lambda p: -counts.get(p, 0))[:3]
        for name, places in (("under 1% of the nodes", few), ("the most nodes", many)):
            if places:
                numbers = [counts.get(p, 0) for p in places]
                seconds, moves = time_places(program, folder, places, children, alone, pairs, runs)
                tell(name, len(places), "%d to %d" % (min(numbers), max(numbers)), seconds, moves, alone)
        return total, alone


def beside(variables, count, window, own, seed):
    """A formula whose last `own` variables have clauses of their own, apart from all others."""
    rest = clauses(variables, count, window, seed).split("\n", 1)[1]
    last = clauses(own, own, 4, 7).split("\n", 1)[1]
    moved = []
    for line in last.splitlines():
        numbers = [int(word) for word in line.split()[:-1]]
        moved.append(" ".join(str(x + variables if x > 0 else x - variables) for x in numbers) + " 0")
    return "p cnf %d %d\n%s%s\n" % (variables + own, count + own, rest, "\n".join(moved))


def measure_rest(program, variables, count, window, own, runs):
    with tempfile.TemporaryDirectory() as folder:
        with open(os.path.join(folder, "f"), "w", encoding="ascii") as file:
            file.write(beside(variables, count, window, own, 1))
        time_of(program, folder, ["input f", "write f d", "vtree v"], "right")
        alone = least_time(program, folder, ["input f"], runs, "right")
        counts, children = nodes_at(folder), positions_of(folder)
        # the vtree node over the variables k and those behind it has the position 2 k - 1
        places = [p for p in sorted(children) if p > 2 * variables]
        seconds, moves = time_places(program, folder, places, children, alone, 64, runs, "right")
        name = "the last %d of %d variables" % (own, variables + own)
        numbers = [counts.get(p, 0) for p in places]
        tell("%s, %d nodes in all" % (name, sum(counts.values())), len(places),
             "%d to %d" % (min(numbers), max(numbers)), seconds, moves, alone)
        return seconds


def main():
    words = argparse.ArgumentParser(description="Times the moves of a vtree under a compiled formula.")
    words.add_argument("program")
    words.add_argument("--pairs", type=int, default=4, help="swaps there and back at each place, at first")
    words.add_argument("--runs", type=int, default=3, help="runs of which the least time counts")
    given = words.parse_args()
    program = os.path.abspath(given.program)
    print("load %.1f" % os.getloadavg()[0])
    small, _ = measure(program, "The smaller formula", 60, 90, 8, 1, given.pairs, given.runs)
    large, _ = measure(program, "The larger formula", 600, 900, 8, 1, given.pairs, given.runs)
    print("\nThe larger one has %.1f times the nodes of the smaller one." % (large / max(small, 1)))
    print("\n| places | number | nodes at each | moves | one move | compiling anew takes so many moves |")
    print("|---|---:|---|---:|---:|---:|")
    few = measure_rest(program, 60, 90, 16, 12, given.runs)
    more = measure_rest(program, 60, 90, 24, 12, given.runs)
    print("\nWith the larger rest a move takes %.2f times the time." % (more / few))


if __name__ == "__main__":
    main()
