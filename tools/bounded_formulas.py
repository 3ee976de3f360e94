#!/usr/bin/env python3
"""Formulas of bounded treewidth, the same on every machine: `python3 tools/bounded_formulas.py DIR` writes them all.

Grids, partial k-trees and chains of blocks, with variables and groups in shuffled order, so that neither says how the
formula was made.
"""
import os
import random
import sys

# family, numbers; the treewidth is at most the last number
FORMULAS = [
    ("grid", 20, 3), ("grid", 250, 4), ("grid", 60, 6), ("grid", 30, 8),
    ("tree", 100, 4), ("tree", 300, 3), ("tree", 200, 6), ("tree", 1024, 5),
    ("blocks", 60, 5), ("blocks", 1024, 4), ("blocks", 300, 8), ("blocks", 500, 6),
]


def name_of(family, length, width):
    return "%s-%d-%d" % (family, length, width)


def clause(choose, variables):
    """Literals at random, one of them at least true where just the variables of even number are."""
    while True:
        literals = [variable if choose.random() < 0.5 else -variable for variable in variables]
        if any((literal > 0) == (literal % 2 == 0) for literal in literals):
            return literals


def grid(choose, length, width):
    """A clause for each two neighbours of a grid."""
    groups = []
    for row in range(length):
        for column in range(width):
            here = row * width + column + 1
            if column + 1 < width:
                groups.append(clause(choose, [here, here + 1]))
            if row + 1 < length:
                groups.append(clause(choose, [here, here + width]))
    return length * width, groups


def tree(choose, variables, width):
    """A random partial k-tree: each variable joins k of a bag, by two clauses over it and some of them."""
    bags, groups = [list(range(1, width + 1))], []
    for variable in range(width + 1, variables + 1):
        bag = choose.choice(bags)
        for _ in range(2):
            groups.append(clause(choose, [variable] + choose.sample(bag, 2)))
        bags.append([variable] + choose.sample(bag, width - 1))
    return variables, groups


def blocks(choose, variables, width):
    """Blocks of k + 1 variables in a chain, each with two of the one before: as many random clauses as variables."""
    groups, first = [], 1
    while first + width <= variables:
        block = range(first, first + width + 1)
        groups += [clause(choose, choose.sample(block, 3)) for _ in block]
        first += width - 1
    return variables, groups


def formula(family, length, width):
    """The number of variables and the clauses."""
    choose = random.Random(name_of(family, length, width))
    variables, groups = globals()[family](choose, length, width)
    names = list(range(1, variables + 1))
    choose.shuffle(names)
    groups = [[names[abs(literal) - 1] * (1 if literal > 0 else -1) for literal in group] for group in groups]
    choose.shuffle(groups)
    for group in groups:
        choose.shuffle(group)
    return variables, groups


def main():
    for row in FORMULAS:
        variables, groups = formula(*row)
        with open(os.path.join(sys.argv[1], name_of(*row) + ".cnf"), "w") as file:
            file.write("p cnf %d %d\n" % (variables, len(groups)))
            file.writelines(" ".join(map(str, group + [0])) + "\n" for group in groups)


if __name__ == "__main__":
    main()
