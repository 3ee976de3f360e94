#!/usr/bin/env python3
"""Tries families of inputs that grow step by step: the time over what has to be made stays nearly the same.

    python3 tools/check_scaling.py PROGRAM [--only WORD] [--seconds SECONDS]

PROGRAM is the built sddc. Each row of the printed table is a family: its sizes, the seconds of the processor that each
took, the nanoseconds over each thing that had to be made, and by which factor these rise from one size to the next, in
the geometric mean. A family holds where that is at most 1.3 and no run takes more than SECONDS. The status is 1 where
one does not hold, and its names are printed. A run of all families takes some minutes.

What has to be made is told by the program itself: the elements of the diagrams that a run makes, by `size` in another
run that is not timed; or it is the number of lines, or of the vtree nodes
between the leaves of groups. What only prepares a run, as the diagram that is
written, is a run of its own, whose time is taken away. Of three runs the quickest counts where they are short.

- pairs: a DNF of terms over i and n + i, whose diagram doubles with each term
- sorting network: odd-even transposition of n inputs by `and` and `not`, with and without a `drop` of each wire behind
  its last use, on the right tree, where a step makes about as much as it answers
- load: a file of k roots, of which the last one is bound. It is to take what that one takes in a file of its own, and
  a tenth of the time of reading the file
- groups, clauses: over the first and another one of n variables, those that change nothing; over the vtree nodes
  between their leaves
- parity and adder: n variables, one after another; two numbers of n bits
- random DNF: terms of three literals
- lines: scripts of n lines over diagrams of about the same size, with and without `drop`
- given, write: of a diagram that doubles
"""
import argparse
import collections
import itertools
import os
import random
import resource
import subprocess
import sys
import tempfile

MOST_RISE = 1.3
# A run of fewer seconds is done three times.
SHORT = 1.0

# a size; the words of the run; those of what only prepares it, with the status of that where it is not 0; how many
# things have to be made
Step = collections.namedtuple("Step", "size words prepares made")
# a family: its name, the function from a size to its step, and the sizes
Family = collections.namedtuple("Family", "name step sizes")


class Late(Exception):
    """A run that took too long."""


class Failed(Exception):
    """A run that ended with another status than it should."""


class Bench:
    """The program, and a folder for the files of one size."""

    def __init__(self, program, seconds):
        self.program, self.seconds = os.path.abspath(program), seconds
        self.folder, self.numbers = None, itertools.count()

    def path(self, text=""):
        path = os.path.join(self.folder, "f%d" % next(self.numbers))
        with open(path, "w", encoding="ascii") as file:
            file.write(text)
        return path

    def run(self, words, status=0):
        """What the run printed, and its seconds of the processor."""
        def limit():
            resource.setrlimit(resource.RLIMIT_CPU, (self.seconds, self.seconds))
        with open(os.path.join(self.folder, "printed"), "w+", encoding="ascii") as printed:
            process = subprocess.Popen([self.program] + words, stdout=printed, stderr=subprocess.DEVNULL,
                                       preexec_fn=limit)
            _, ended, used = os.wait4(process.pid, 0)
            process.returncode = ended
            if os.WIFSIGNALED(ended):
                raise Late()
            if os.WEXITSTATUS(ended) != status:
                raise Failed("status %d: %s" % (os.WEXITSTATUS(ended), " ".join(words)))
            printed.seek(0)
            return printed.read(), used.ru_utime + used.ru_stime

    def seconds_of(self, words, status=0):
        """The seconds of the quickest of three runs, or of one where it is long."""
        first = self.run(words, status)[1]
        return first if first > SHORT else min(first, self.run(words, status)[1], self.run(words, status)[1])

    def formula(self, kind, variables, groups):
        lines = ["p %s %d %d" % (kind, variables, len(groups))] + [" ".join(map(str, group + [0])) for group in groups]
        return ["--" + kind, self.path("\n".join(lines) + "\n")]

    def script(self, lines):
        return ["--script", self.path("\n".join(lines) + "\n")]


BINDING = {"input", "load", "lit", "true", "false", "and", "or", "xor", "not", "given", "forget"}


def sizes_in(printed):
    """The sum of the sizes that a run printed."""
    return sum(int(line.split()[1]) for line in printed.splitlines() if line.startswith("size "))


def scripted(bench, size, words, lines, before=()):
    """A script over a formula. What has to be made are the elements of all that it binds behind what is before."""
    counted = list(before)
    for line in lines:
        verb, name = line.split()[:2]
        counted += [line, "size " + name] if verb in BINDING else [line]
    made = sizes_in(bench.run(words + bench.script(counted))[0])
    prepares = words + bench.script(before) if before else None
    return Step(size, words + bench.script(list(before) + list(lines)), prepares, made)


def no_groups(bench, variables, shape):
    return bench.formula("cnf", variables, []) + ["--start", shape]


def pairs_formula(bench, shape, count):
    terms = [[i, count + i] for i in range(1, count + 1)]
    return bench.formula("dnf", 2 * count, terms) + ["--start", shape]


def pairs(shape):
    def step(bench, count):
        words = pairs_formula(bench, shape, count)
        return Step(count, words, None, sizes_in(bench.run(words)[0]))
    return step


def sorting_network(has_drops):
    """As an and-inverter graph has it, with a `not` for each inverted wire."""
    def step(bench, count):
        lines = ["lit w%d %d" % (i, i + 1) for i in range(count)]
        wires, numbers = ["w%d" % i for i in range(count)], itertools.count(count)
        for i in (i for part in range(count) for i in range(part % 2, count - 1, 2)):
            first, second = wires[i:i + 2]
            least, greatest = "w%d" % next(numbers), "w%d" % next(numbers)
            inner = ["%s%s" % (letter, least) for letter in "abc"]
            lines += ["and %s %s %s" % (least, first, second), "not %s %s" % (inner[0], first),
                      "not %s %s" % (inner[1], second), "and %s %s %s" % (inner[2], inner[0], inner[1]),
                      "not %s %s" % (greatest, inner[2])]
            if has_drops:
                lines += ["drop " + name for name in [first, second] + inner]
            wires[i:i + 2] = greatest, least
        return scripted(bench, count, no_groups(bench, count, "right"), lines)
    return step


def random_roots(count, variables, terms):
    """The lines that bind so many DNFs of three literals a term, and the names of these."""
    draw = random.Random(1)
    lines = ["lit %s%d %s%d" % (name, i, sign, i)
             for i in range(1, variables + 1) for name, sign in (("p", ""), ("n", "-"))]
    for root in range(count):
        lines.append("false r%d_0" % root)
        for term in range(terms):
            first, second, third = (draw.choice("pn") + str(i) for i in draw.sample(range(1, variables + 1), 3))
            lines += ["and a %s %s" % (first, second), "and b a %s" % third,
                      "or r%d_%d r%d_%d b" % (root, term + 1, root, term), "drop a", "drop b",
                      "drop r%d_%d" % (root, term)]
    return lines, ["r%d_%d" % (root, terms) for root in range(count)]


def load(shape):
    """The first of the roots stands last in each file, so that as much is to be built of each."""
    def step(bench, count):
        words = no_groups(bench, 30, shape)
        lines, names = random_roots(count, 30, 15)
        files = bench.path(), bench.path()
        writes = ["write %s %s" % (" ".join(names[1:] + names[:1]), files[0]), "write %s %s" % (names[0], files[1])]
        bench.run(words + bench.script(lines + writes))
        # a leaf can't be moved, so that a run ends behind the reading
        reading = words + bench.script(["swap 0", "load f " + files[0]])
        alone = words + bench.script(["load f " + files[1]])
        made = 1e9 * (bench.seconds_of(alone) + bench.seconds_of(reading, 3) / 10)
        return Step(count, words + bench.script(["load f " + files[0]]), (reading, 3), made)
    return step


def between(shape, variables):
    """How many vtree nodes stand between the leaves of the first variable and of another one, about in the mean."""
    return 2 * (variables.bit_length() - 1) if shape == "balanced" else variables // 2


def groups(shape, mark):
    """The groups over the first variable and each other one, and then 5,000 that change nothing. The vtree nodes between
    the leaves of these count."""
    def step(bench, variables):
        draw = random.Random(1)
        each = [mark + [1, -i] for i in range(2, variables + 1)]
        again = [draw.choice(each) for _ in range(5000)]
        words = bench.formula("cnf", variables, each + again) + ["--start", shape]
        return Step(variables, words, bench.formula("cnf", variables, each) + ["--start", shape],
                    5000 * between(shape, variables))
    return step


def parity(shape):
    def step(bench, count):
        lines = ["lit x%d %d" % (i, i) for i in range(1, count + 1)] + ["false s0"]
        for i in range(1, count + 1):
            lines += ["xor s%d s%d x%d" % (i, i - 1, i), "drop s%d" % (i - 1)]
        return scripted(bench, count, no_groups(bench, count, shape), lines)
    return step


def adder(shape):
    def step(bench, bits):
        lines = ["lit %s%d %d" % (name, i, 2 * i + at) for i in range(bits) for name, at in (("x", 1), ("y", 2))]
        lines.append("false c0")
        for i in range(bits):
            lines += [line.replace("#", str(i)).replace("+", str(i + 1)) for line in (
                "xor h# x# y#", "xor s# h# c#", "and g# x# y#", "and k# h# c#", "or c+ g# k#", "drop h#", "drop g#",
                "drop k#", "drop c#")]
        return scripted(bench, bits, no_groups(bench, 2 * bits, shape), lines)
    return step


def random_dnf(shape):
    """What has to be made are the diagrams behind each term, from the sizes behind each eighth part of the terms."""
    def step(bench, variables):
        draw = random.Random(variables)
        terms = [[draw.choice((-1, 1)) * i for i in draw.sample(range(1, variables + 1), 3)] for _ in range(variables)]
        parts = [bench.formula("dnf", variables, terms[:variables * part // 8]) for part in range(1, 9)]
        made = sum(sizes_in(bench.run(part + ["--start", shape])[0]) for part in parts) * variables // 8
        return Step(variables, parts[-1] + ["--start", shape], None, made)
    return step


def lines_of(shape, has_drops):
    """Each line joins one of the hundred last names to a literal of twelve variables."""
    def step(bench, count):
        draw = random.Random(1)
        lines = ["lit x%d %d" % (i, i) for i in range(1, 13)]
        names = collections.deque("x%d" % i for i in range(1, 13))
        while len(lines) < count:
            name = "n%d" % len(lines)
            lines.append("%s %s %s x%d" % (draw.choice(("and", "or", "xor", "xor")), name, draw.choice(names),
                                           draw.randint(1, 12)))
            names.append(name)
            if len(names) > 100:
                left = names.popleft()
                lines += ["drop " + left] if has_drops and left[0] == "n" else []
        words = no_groups(bench, 12, shape)
        return Step(count, words + bench.script(lines), None, count)
    return step


def given(shape):
    def step(bench, count):
        lines = ["given g%d f %d" % (i, i) for i in range(1, 2 * count + 1, 3)]
        return scripted(bench, count, pairs_formula(bench, shape, count), lines, ["input f"])
    return step


def write(shape):
    def step(bench, count):
        words = pairs_formula(bench, shape, count)
        made = sizes_in(bench.run(words)[0])
        writes = ["write f " + bench.path(), "write f f " + bench.path()]
        return Step(count, words + bench.script(["input f"] + writes), words + bench.script(["input f"]), made)
    return step


FAMILIES = (
    [Family("pairs, " + shape, pairs(shape), sizes)
     for shape, sizes in (("balanced", range(14, 20)), ("right", range(14, 20)))]
    + [Family("sorting network, %s drops" % said, sorting_network(said == "with"), (56, 68, 80, 96, 112))
       for said in ("with", "no")]
    + [Family("load, " + shape, load(shape), (1, 4, 16, 64, 256, 1024)) for shape in ("right", "balanced")]
    + [Family("%s, %s" % (said, shape), groups(shape, ["x"] if said == "groups" else []), (64, 128, 256, 512, 1024))
       for said in ("groups", "clauses") for shape in ("right", "left", "balanced")]
    + [Family("parity, " + shape, parity(shape), (128, 256, 512, 1024)) for shape in ("right", "balanced")]
    + [Family("adder, " + shape, adder(shape), (64, 128, 256, 512)) for shape in ("right", "balanced")]
    + [Family("random DNF, " + shape, random_dnf(shape), (24, 27, 30, 33, 36)) for shape in ("right", "balanced")]
    + [Family("lines, %s drops" % said, lines_of("right", said == "with"), (10000, 20000, 40000, 80000))
       for said in ("with", "no")]
    + [Family("given, " + shape, given(shape), range(13, 18)) for shape in ("right", "balanced")]
    + [Family("write, " + shape, write(shape), range(12, 17)) for shape in ("right", "balanced")]
)


def seconds_of_step(bench, step):
    """The seconds of a size without those of what prepares it, at least a thousandth."""
    words, status = step.prepares if isinstance(step.prepares, tuple) else (step.prepares, 0)
    prepares = bench.seconds_of(words, status) if words else 0
    return max(bench.seconds_of(step.words) - prepares, 0.001)


def measure(bench, family):
    """The sizes, seconds and nanoseconds each, up to the first size that is late."""
    sizes, seconds, each = [], [], []
    for size in family.sizes:
        with tempfile.TemporaryDirectory() as bench.folder:
            sizes.append(str(size))
            try:
                step = family.step(bench, size)
                seconds.append(seconds_of_step(bench, step))
            except Late:
                return sizes, seconds, each, None
            each.append(1e9 * seconds[-1] / step.made)
    return sizes, seconds, each, (each[-1] / each[0]) ** (1 / (len(each) - 1))


def row(bench, family):
    """Prints the row of a family, and answers whether it holds."""
    sizes, seconds, each, rise = measure(bench, family)
    holds = rise is not None and rise <= MOST_RISE
    cells = [family.name, ", ".join(sizes), ", ".join("%.3f" % time for time in seconds),
             ", ".join("%.3g" % time if time < 100 else "%.0f" % time for time in each),
             "late" if rise is None else "%.2f" % rise, "yes" if holds else "no"]
    print("| %s |" % " | ".join(cells), flush=True)
    return holds


def main():
    parser = argparse.ArgumentParser(description=__doc__, formatter_class=argparse.RawDescriptionHelpFormatter)
    parser.add_argument("program", metavar="PROGRAM")
    parser.add_argument("--only", metavar="WORD", default="", help="the families with WORD in their name")
    parser.add_argument("--seconds", type=int, default=20, help="what a run may take; 20 where it is not given")
    words = parser.parse_args()
    bench = Bench(words.program, words.seconds)
    print("| family | sizes | seconds | nanoseconds each | mean rise | holds |\n|---|---|---|---|---:|---|")
    try:
        failed = [family.name for family in FAMILIES if words.only in family.name and not row(bench, family)]
    except Failed as failure:
        sys.exit("check_scaling: %s" % failure)
    if failed:
        sys.exit("does not hold: " + "; ".join(failed))


if __name__ == "__main__":
    main()
