#!/usr/bin/env python3
"""Tries the planted bugs of tools/plants/ outside the gate: `try_plants.py [CRATE ..]`, all where no crate is named.

A plant, tools/plants/CRATE/NAME.edit, turns the meaning of the code of CRATE, as the must-fail edits of the gate do and
in their form: a line `file: PATH`, then pairs of lines `old: TEXT` (standing once in that file) and `new: TEXT`. Its
first line, `refused-by: ..`, says which clause or goal refuses it. Those that tell most stand in crates/CRATE/must-fail
and are tried by the gate; the others stand here, so that the gate stays short.

The repository is copied to a temporary folder in which the plants are the must-fail edits of their crates, and there
`rt must-fail` tries them. For each plant one line is printed:

  refused     by a clause or a goal, as it must be
  by a name   refused, but only since a proof file names what the plant took away, or at a limit of the prover: this
              shows nothing of the contract, so change a value and keep the names
  proved      the contract lets it through: it is too weak, or the plant means the same as the code
  bad         it cannot be applied, compiled or read: mend it
  not tried   for another reason, which is told below it

The status is 0 where all are refused, else 1. Each plant takes a check of its crate, 6 to 90 seconds, after those of
the crate and of the crates below, which take minutes where no `rt check` on this machine kept them; all together take
more than an hour on four processors. With --list nothing is tried: it prints for each plant whether its texts stand.
"""
import glob
import os
import re
import shutil
import subprocess
import sys
import tempfile

TOP = os.path.realpath(os.path.join(os.path.dirname(os.path.abspath(__file__)), ".."))
# How what `rt` says of an edit begins, and what that is called here.
SAID = (("refused, as it must be (only", "by a name"), ("refused", "refused"), ("NOT REFUSED", "proved"),
        ("BAD EDIT", "bad"))


def plants_of(crate):
    return sorted(glob.glob(os.path.join(TOP, "tools/plants", crate, "*.edit")))


def fault_of(crate, plant):
    """What hinders that a plant is applied, or None."""
    with open(plant, encoding="utf-8") as file:
        lines = file.read().splitlines()
    if not lines or not re.match(r"refused-by: \S", lines[0]):
        return "its first line is not `refused-by: ..`"
    texts, path, old = {}, None, None
    for line in lines[1:]:
        word, _, text = line.partition(" ")
        if word == "file:":
            path = os.path.join(TOP, "crates", crate, text.strip())
            if not os.path.isfile(path):
                return "there is no " + text
            with open(path, encoding="utf-8") as file:
                texts.setdefault(path, file.read())
        elif word == "old:":
            old = text
        elif word == "new:":
            if not path or not old or texts[path].count(old) != 1:
                return "its text stands %s times: %s" % (texts.get(path, "").count(old or "\0"), old)
            texts[path], old = texts[path].replace(old, text), None
        else:
            return "a line that says nothing: " + line
    return None if texts else "it names no file"


def copied(room, crates):
    """The repository in the folder, with the plants of the crates in the place of the must-fail edits."""
    shutil.copytree(os.path.join(TOP, "crates"), os.path.join(room, "crates"),
                    ignore=shutil.ignore_patterns("out", "must-fail"))
    for name in ("crates.txt", "HANDLES"):
        shutil.copy(os.path.join(TOP, name), room)
    for crate in crates:
        edits = os.path.join(room, "crates", crate, "must-fail")
        os.mkdir(edits)
        for plant in plants_of(crate):
            with open(plant, encoding="utf-8") as file:
                text = file.read().partition("\n")[2]
            with open(os.path.join(edits, os.path.basename(plant)), "w", encoding="utf-8") as file:
                file.write(text)


def tried(crate, room):
    """Tries the plants of a crate in the copy, prints what each came to, and answers whether all are refused."""
    ran = subprocess.run(["rt", "must-fail", crate], cwd=room, stdin=subprocess.DEVNULL, stdout=subprocess.PIPE,
                         stderr=subprocess.STDOUT, text=True, errors="replace")
    told = dict(re.findall(r"must-fail %s/(\S+?)\.edit: (.*)" % crate, ran.stdout))
    well = True
    for plant in plants_of(crate):
        name = os.path.basename(plant)[:-5]
        said = told.get(name, "nothing was said of it")
        kind = next((kind for words, kind in SAID if said.startswith(words)), "not tried")
        print("%-11s %s/%s" % (kind, crate, name), flush=True)
        if kind != "refused":
            well = False
            print("            " + said[:300], flush=True)
    if not told:
        print(ran.stdout[-2000:], flush=True)
    return well


def main(words):
    names = [word for word in words if word != "--list"]
    crates = names or sorted(os.listdir(os.path.join(TOP, "tools/plants")))
    if not all(plants_of(crate) for crate in crates):
        sys.exit("tools/plants has no plants of one of these: " + ", ".join(crates))
    if "--list" in words:
        faults = [(plant, fault_of(crate, plant)) for crate in crates for plant in plants_of(crate)]
        for plant, fault in faults:
            name = os.path.relpath(plant, TOP)
            print("bad    %s: %s" % (name, fault) if fault else "stands %s" % name)
        return int(any(fault for _, fault in faults))
    with tempfile.TemporaryDirectory(prefix="plants-") as room:
        copied(room, crates)
        return int(not all([tried(crate, room) for crate in crates]))


if __name__ == "__main__":
    sys.exit(main(sys.argv[1:]))
