#!/usr/bin/env python3
"""Makes a vtree for a formula, and puts its groups in an order that serves it.

    python3 tools/good_vtree.py FORMULA --out-vtree V [--out-formula F]

FORMULA is a CNF or DNF in DIMACS as sddc reads it (docs/FORMATS.md). V gets a vtree in the format of the SDD Package.
F gets the same groups, those first that the vtree completes first. Below, sets of variables are integers with a bit
for each, and a vtree is a variable or a pair of vtrees.
"""
import argparse
import functools
import pathlib
import re
import sys

MAX_BYTES, MAX_VARIABLES, MAX_GROUPS = 67108864, 1024, 1000000
# Once so many pairs of variables were tested, the elimination goes on by degree alone.
MAX_STEPS = 1000000

count = getattr(int, "bit_count", lambda bits: bin(bits).count("1"))

class Fault(Exception):
    """What is wrong with the words or a file, in one line."""

def lines_of(data):
    """The number and the words of each line that is neither blank nor a comment."""
    data = data.replace(b"\t", b" ").replace(b"\r", b" ")
    for number, line in enumerate(data.split(b"\n"), 1):
        words = [word for word in line.split(b" ") if word]
        if words and words[0][:1] != b"c":
            yield number, words

def read_formula(data):
    """The kind, the number of variables and the groups: pairs of whether it is exclusive, and its literals."""
    if len(data) > MAX_BYTES:
        raise Fault("too long")
    lines = lines_of(data)
    number, header = next(lines, (0, [b""]))
    if header[0] != b"p":
        raise Fault("no header")
    if not re.fullmatch(rb"p (cnf|dnf)( [0-9]{1,18}){2}", b" ".join(header)):
        raise Fault("line %d: bad header" % number)
    variables, stated = map(int, header[2:])
    if not 1 <= variables <= MAX_VARIABLES:
        raise Fault("variables out of range: %d" % variables)
    if stated > MAX_GROUPS:
        raise Fault("too many groups: %d" % stated)
    groups = read_groups(lines, variables, header[1] == b"cnf")
    if len(groups) != stated:
        raise Fault("%d stated, %d found" % (stated, len(groups)))
    return header[1].decode(), variables, groups

def read_groups(lines, variables, has_marks):
    known = {b"%d" % literal: literal for literal in range(-variables, variables + 1)}
    groups, literals, exclusive = [], [], False
    for number, words in lines:
        if words[0][:1] == b"%":
            break
        for word in words:
            literal = known.get(word)
            if literal is None:
                if has_marks and word[:1] == b"x" and not literals and not exclusive:
                    exclusive, word = True, word[1:]
                    if not word:
                        continue
                if not re.fullmatch(rb"-?[0-9]{1,18}", word):
                    raise Fault("line %d: bad word" % number)
                literal = int(word)
                if abs(literal) > variables:
                    raise Fault("line %d: literal out of range: %d" % (number, literal))
            if literal:
                literals.append(literal)
            else:
                groups.append((exclusive, literals))
                literals, exclusive = [], False
    if literals or exclusive:
        raise Fault("last group is not ended")
    return groups

def members(bits):
    while bits:
        low = bits & -bits
        yield low.bit_length() - 1
        bits ^= low

def neighbours_of(variables, groups):
    """For each variable those with which it stands in a group."""
    near = [0] * (variables + 1)
    for bits in {sum(1 << variable for variable in {abs(literal) for literal in literals}) for _, literals in groups}:
        for variable in members(bits):
            near[variable] |= bits
    return [bits & ~(1 << variable) for variable, bits in enumerate(near)]

def missing(near, around):
    """How many pairs of these are no neighbours."""
    return sum(count(around & ~near[other]) - 1 for other in members(around)) // 2

def eliminate(near):
    """The order of min-fill, ties by degree and then number, with each one's neighbours among those behind it."""
    near = near[:]
    left = set(range(1, len(near)))
    degree = [count(bits) for bits in near]
    fill = [missing(near, bits) for bits in near]
    order, steps = [], 0
    while left:
        variable = min(left, key=lambda other: (fill[other] if steps <= MAX_STEPS else 0, degree[other], other))
        around = near[variable]
        left.discard(variable)
        order.append((variable, around))
        steps += update_fill(near, variable, fill) if steps <= MAX_STEPS else 0
        for other in members(around):
            near[other] = (near[other] | around) & ~(1 << other | 1 << variable)
            degree[other] = count(near[other])
    return order

def update_fill(near, variable, fill):
    """What changes as a variable is eliminated and its neighbours become each other's; how many pairs were tested."""
    around = near[variable]
    new = {other: around & ~near[other] & ~(1 << other) for other in members(around)}
    ends = sum(1 << other for other in new if new[other])
    outside = functools.reduce(int.__or__, (near[other] for other in new), 0) & ~around & ~(1 << variable)
    lacks, steps = {}, 0
    for other in members(outside):
        lacks[other] = count(around & ~near[other])
        common = near[other] & ends
        if common & (common - 1):
            fill[other] -= sum(count(common & new[end]) for end in members(common)) // 2
            steps += count(common)
    for other in new:
        beyond = near[other] & outside
        fill[other] = sum(map(lacks.get, members(beyond))) + missing(near, beyond)
        steps += count(beyond)
    return steps

def vtree_of_order(order):
    """Each variable to the left of what it cuts: the parts that are left without it and those behind it."""
    place = {variable: index for index, (variable, _) in enumerate(order)}
    below = {variable: [] for variable in place}
    whole = []
    for variable, around in order:
        part = side_by_side(below.pop(variable))
        part = (part[0] + 1, (variable, part[1])) if part else (1, variable)
        (below[min(members(around), key=place.get)] if around else whole).append(part)
    return side_by_side(whole)[1]

def side_by_side(parts):
    """One part of all, smaller ones to the left: a part is a number of variables and their vtree."""
    if not parts:
        return None
    *smaller, (size, tree) = sorted(parts, key=lambda part: part[0])
    for more, left in reversed(smaller):
        size, tree = size + more, (left, tree)
    return size, tree

def post_order(tree):
    """The nodes, each behind its children: a variable, or 0 for a pair."""
    nodes, stack = [], [tree]
    while stack:
        node = stack.pop()
        nodes.append(0 if isinstance(node, tuple) else node)
        if isinstance(node, tuple):
            stack += node
    return nodes[::-1]

def cost(tree, near):
    """How many elements there may be: at each pair two for each assignment of what stands in groups across it."""
    total, stack = 0, []
    for variable in post_order(tree):
        if variable:
            stack.append((1 << variable, near[variable]))
        else:
            right, left = stack.pop(), stack.pop()
            inside, around = left[0] | right[0], left[1] | right[1]
            primes = min(count(left[0] & right[1]), count(left[1] & right[0])) if count(left[0]) > 1 else 1
            total += 1 << count(around & ~inside) + primes
            stack.append((inside, around))
    return total

# Where a vtree may come to more elements than this, the bound tells nothing, and the numbering of the variables, which
# mostly follows what the formula is made of, is kept.
MAX_COST = 1 << 30
def good_vtree(variables, groups):
    """The vtree by min-fill, or the right tree where that has the lower bound or neither bound tells anything."""
    near = neighbours_of(variables, groups)
    tree = vtree_of_order(eliminate(near))
    numbered = functools.reduce(lambda rest, variable: (variable, rest), range(variables - 1, 0, -1), variables)
    bound = cost(tree, near)
    return numbered if bound > MAX_COST or cost(numbered, near) <= bound else tree

def vtree_text(tree):
    lines, stack = [], []
    for index, variable in enumerate(post_order(tree)):
        right, left = (0, 0) if variable else (stack.pop(), stack.pop())
        lines.append("L %d %d" % (index, variable) if variable else "I %d %d %d" % (index, left, right))
        stack.append(index)
    return "vtree %d\n%s\n" % (len(lines), "\n".join(lines))

def in_order(tree, groups):
    """The groups as the vtree completes them: by the last node over all of a group, then by their variables' places."""
    nodes = post_order(tree)
    place = {variable: index for index, variable in enumerate(nodes) if variable}
    above, first, stack = [0] * len(nodes), list(range(len(nodes))), []
    for index, variable in enumerate(nodes):
        if not variable:
            right, left = stack.pop(), stack.pop()
            above[left] = above[right] = index
            first[index] = first[left]
        stack.append(index)
    @functools.lru_cache(None)
    def node_over(low, high):
        while first[high] > low:
            high = above[high]
        return high
    def key(group):
        places = sorted((place[abs(literal)] for literal in group[1]), reverse=True)
        return node_over(places[-1], places[0]) if places else -1, places
    return sorted(groups, key=key)

def formula_text(kind, variables, groups):
    lines = ["x " * exclusive + " ".join(map(str, literals + [0])) + "\n" for exclusive, literals in groups]
    return "p %s %d %d\n%s" % (kind, variables, len(groups), "".join(lines))

class Words(argparse.ArgumentParser):
    def error(self, message):
        raise Fault(message)

def run(words):
    parser = Words(description="Makes a vtree for a formula, and puts its groups in an order that serves it.")
    parser.add_argument("formula", metavar="FORMULA")
    parser.add_argument("--out-vtree", metavar="V", required=True)
    parser.add_argument("--out-formula", metavar="F")
    words = parser.parse_args(words)
    if len({words.formula, words.out_vtree, words.out_formula}) < 3:
        raise Fault("file named twice")
    try:
        kind, variables, groups = read_formula(pathlib.Path(words.formula).read_bytes())
    except Fault as fault:
        raise Fault("%s: %s" % (words.formula, fault)) from None
    tree = good_vtree(variables, groups)
    outputs = [(words.out_vtree, vtree_text(tree))]
    if words.out_formula:
        outputs.append((words.out_formula, formula_text(kind, variables, in_order(tree, groups))))
    for name, text in outputs:
        pathlib.Path(name).write_bytes(text.encode())

if __name__ == "__main__":
    try:
        run(sys.argv[1:])
    except (Fault, OSError) as fault:
        sys.exit("good_vtree: %s" % fault)
