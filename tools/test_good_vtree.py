#!/usr/bin/env python3
"""Tests tools/good_vtree.py, and with the program what it makes: `python3 tools/test_good_vtree.py [PROGRAM]`.

Without a word the program is the one that the gate built, where it is there. Its status is 1 where a test fails.
"""
import os
import pathlib
import random
import resource
import subprocess
import sys
import tempfile
import time
import unittest

sys.dont_write_bytecode = True
import bounded_formulas
import good_vtree

HERE = os.path.dirname(os.path.abspath(__file__))
TOOL = os.path.join(HERE, "good_vtree.py")
EXAMPLES = os.path.join(HERE, "..", "examples")
PROGRAM = os.path.join(HERE, "..", "crates", "sd_cli", "out", "sd_cli")

# a formula file, and what is said of it behind its name
FAULTS = [
    (b"", "no header"),
    (b"% a\np cnf 1 0\n", "no header"),
    (b"c a\n\np sat 2 1\n1 0\n", "line 3: bad header"),
    (b"p cnf 2\n", "line 1: bad header"),
    (b"p cnf 0 0\n", "variables out of range: 0"),
    (b"p cnf 1025 0\n", "variables out of range: 1025"),
    (b"p cnf 2 1000001\n", "too many groups: 1000001"),
    (b"p cnf 2 1\n1 +2 0\n", "line 2: bad word"),
    (b"p cnf 2 1\n1 x2 0\n", "line 2: bad word"),
    (b"p dnf 2 1\nx1 2 0\n", "line 2: bad word"),
    (b"p cnf 2 1\n1\n -3 0\n", "line 3: literal out of range: -3"),
    (b"p cnf 2 1\n1 0 x", "last group is not ended"),
    (b"p cnf 2 2\n1 0\n", "2 stated, 1 found"),
]

# a formula file and its groups
READ = [
    (b"c a\n p\tcnf 3 3\r\n1 -2\n0 3 0 c\xff", None),
    (b"c a\n p\tcnf 3 3\r\n1 -2\n\nc\xff\n0 3 -0 x 1 3 0\n% 9\n0\n", [(False, [1, -2]), (False, [3]), (True, [1, 3])]),
    (b"p cnf 3 4\nx1 -2 0 x0 x-0 007 0", None),
    (b"p cnf 3 4\nx1 -2 0 x0 x-0 003 3 0", [(True, [1, -2]), (True, []), (True, []), (False, [3, 3])]),
    (b"p dnf 2 2\n0 1 2 0", [(False, []), (False, [1, 2])]),
]


def text_of(kind, variables, groups):
    return good_vtree.formula_text(kind, variables, groups).encode()


def random_formula(choose):
    """Any groups: empty and exclusive ones, repeated and opposite literals, variables that stand in no group."""
    variables = choose.randint(1, 12)
    literals = [literal for literal in range(-variables, variables + 1) if literal]
    kind = choose.choice(["cnf", "dnf"])
    groups = [(kind == "cnf" and choose.random() < 0.2, choose.choices(literals, k=choose.choice([0, 1, 2, 3, 3, 4])))
              for _ in range(choose.randint(0, 20))]
    return kind, variables, groups


def plain_order(near):
    """The order of min-fill, with all pairs counted at each step."""
    near = {variable: set(good_vtree.members(near[variable])) for variable in range(1, len(near))}
    order = []

    def rank(variable):
        around = near[variable]
        return sum(b not in near[a] for a in around for b in around if a < b), len(around), variable

    while near:
        variable = min(near, key=rank)
        around = near.pop(variable)
        order.append((variable, sum(1 << other for other in around)))
        for other in around:
            near[other] = (near[other] | around) - {other, variable}
    return order


class GoodVtree(unittest.TestCase):
    def setUp(self):
        folder = tempfile.TemporaryDirectory()
        self.addCleanup(folder.cleanup)
        self.folder = folder.name

    def path(self, name):
        return os.path.join(self.folder, name)

    def make(self, data):
        """Runs the tool on a formula file."""
        with open(self.path("in"), "wb") as file:
            file.write(data)
        good_vtree.run([self.path("in"), "--out-vtree", self.path("vtree"), "--out-formula", self.path("out")])

    def compile(self, kind, name):
        """The line that the program prints with the vtree and the formula of that name, and the text that it writes."""
        limit = lambda: resource.setrlimit(resource.RLIMIT_CPU, (5, 5))
        run = subprocess.run([PROGRAM, "--" + kind, self.path(name), "--vtree", self.path("vtree"),
                              "--out-sdd", self.path("sdd")], stdout=subprocess.PIPE, preexec_fn=limit, check=True)
        with open(self.path("sdd"), "rb") as file:
            return run.stdout, file.read()

    def test_faults(self):
        for data, said in FAULTS:
            with self.assertRaises(good_vtree.Fault, msg=data) as caught:
                good_vtree.read_formula(data)
            self.assertEqual(str(caught.exception), said)
        with self.assertRaises(good_vtree.Fault) as caught:
            self.make(FAULTS[-1][0])
        self.assertEqual(str(caught.exception), "%s: %s" % (self.path("in"), FAULTS[-1][1]))
        for words in [["a"], ["a", "--out-vtree"], ["a", "--out-vtree", "a"], ["--other"]]:
            self.assertRaises(good_vtree.Fault, good_vtree.run, words)
        run = subprocess.run([sys.executable, TOOL, "none", "--out-vtree", "v"], stderr=subprocess.PIPE, text=True,
                             cwd=self.folder)
        self.assertEqual((run.returncode, run.stderr.count("\n")), (1, 1), run.stderr)

    def test_same_faults(self):
        """The program says the same of each fault."""
        if not os.path.exists(PROGRAM):
            self.skipTest("there is no %s" % PROGRAM)
        for data, said in FAULTS:
            with open(self.path("in"), "wb") as file:
                file.write(data)
            kind = "--dnf" if b"p dnf" in data else "--cnf"
            run = subprocess.run([PROGRAM, kind, self.path("in")], stderr=subprocess.PIPE, text=True)
            self.assertEqual(run.stderr, "sddc: %s: %s\n" % (self.path("in"), said))

    def test_reading(self):
        for data, groups in READ:
            if groups is None:
                self.assertRaises(good_vtree.Fault, good_vtree.read_formula, data)
            else:
                self.assertEqual(good_vtree.read_formula(data)[2], groups)

    def test_elimination(self):
        for seed in range(40):
            choose = random.Random(seed)
            variables = choose.randint(1, 30)
            groups = [(False, choose.sample(range(1, variables + 1), min(variables, choose.randint(1, 4))))
                      for _ in range(choose.randint(0, 60))]
            near = good_vtree.neighbours_of(variables, groups)
            self.assertEqual(good_vtree.eliminate(near), plain_order(near))

    def test_outputs(self):
        """The vtree has each variable once, and the groups are the same ones in another order."""
        for seed in range(100):
            kind, variables, groups = random_formula(random.Random(seed))
            tree = good_vtree.good_vtree(variables, groups)
            leaves = [variable for variable in good_vtree.post_order(tree) if variable]
            self.assertEqual(sorted(leaves), list(range(1, variables + 1)))
            written = good_vtree.read_formula(text_of(kind, variables, good_vtree.in_order(tree, groups)))
            self.assertEqual((written[0], written[1], sorted(written[2])), (kind, variables, sorted(groups)))

    def test_example(self):
        examples = pathlib.Path(EXAMPLES)
        self.make((examples / "grid.cnf").read_bytes())
        self.assertEqual(pathlib.Path(self.path("vtree")).read_text(), (examples / "grid.vtree").read_text())

    def test_time(self):
        """1,024 variables and 100,000 groups in ten seconds of the processor."""
        choose = random.Random("many")
        clauses = [(False, choose.sample(range(1, 1025), 3)) for _ in range(100000)]
        data = text_of("cnf", 1024, clauses)
        before = time.process_time()
        self.make(data)
        self.assertLess(time.process_time() - before, 10)

    def test_texts(self):
        """Both orders of the groups give one text: examples, and formulas at random."""
        if not os.path.exists(PROGRAM):
            self.skipTest("there is no %s" % PROGRAM)
        files = [path.read_bytes() for path in sorted(pathlib.Path(EXAMPLES).glob("*.?nf"))]
        for data in files + [text_of(*random_formula(random.Random(seed))) for seed in range(40)]:
            self.make(data)
            kind = good_vtree.read_formula(data)[0]
            self.assertEqual(self.compile(kind, "in"), self.compile(kind, "out"), data)

    def test_bounded_width(self):
        """Each formula of bounded treewidth is compiled in five seconds of the processor."""
        if not os.path.exists(PROGRAM):
            self.skipTest("there is no %s" % PROGRAM)
        for row in bounded_formulas.FORMULAS:
            variables, clauses = bounded_formulas.formula(*row)
            self.make(text_of("cnf", variables, [(False, clause) for clause in clauses]))
            printed, _ = self.compile("cnf", "out")
            self.assertGreater(int(printed.split()[1]), 0, row)


if __name__ == "__main__":
    if len(sys.argv) == 2:
        PROGRAM = os.path.abspath(sys.argv.pop())
    if not os.path.exists(PROGRAM):
        print("test_good_vtree: there is no %s, so that only what needs no program is tested" % PROGRAM)
    unittest.main()
