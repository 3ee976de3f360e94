#!/usr/bin/env python3
"""Counts the definitions that a reader of the contract of `run` has to believe.

Starts at the clauses of `sd_tool::run`, follows each name through the imports of the file that it stands in, and
prints how many definitions are reached, and their lines, without comments and blank lines. With --list it names them,
and checks that each stands in one of the files that docs/DEFINITIONS.md lists at its head. With --files it prints that
list: each file comes behind those whose words it uses. Definitions of the standard library are not counted, nor are
enums and structs of the code.
"""
import itertools
import os
import re
import sys

TOP = os.path.join(os.path.dirname(os.path.abspath(__file__)), "..")
CRATES = os.path.join(TOP, "crates")
IMPORT = re.compile(r"^(?:unfoldable |pub |ghost )*use Rattle\.([\w.+]+?)\.(?:\{([^}]*)\}|(\w+))(?: as (\w+))?;?$")
NAME = re.compile(r"[A-Za-z_]\w*(?:\.[A-Za-z_]\w*)*")


def file_of(module):
    """The file of a module of specs/, or None for one of the standard library."""
    parts = module.split(".")
    path = os.path.join(CRATES, *parts) + ".antt"
    return path if os.path.isfile(path) else None


def without_comments(lines, mark):
    return [line.rstrip("\n") for line in lines if line.strip() and not line.lstrip().startswith(mark)]


def imports_of(lines):
    """Local name -> (module, name there); and local name -> module, for modules."""
    names, modules = {}, {}
    for line in lines:
        found = IMPORT.match(line.strip())
        if not found:
            continue
        module, listed, last, alias = found.groups()
        if listed is None:
            modules[alias or last] = module + "." + last
            names[alias or last] = (module, last)
            continue
        for item in listed.split(","):
            words = item.split()
            if words:
                names[words[-1]] = (module, words[0])
    return names, modules


class SpecsFile:
    """The definitions of one file: their lines by name, and the data type of each constructor."""

    def __init__(self, path):
        lines = without_comments(open(path, encoding="utf-8"), "--")
        self.imports, self.modules = imports_of(lines)
        self.definitions = {}
        self.constructors = {}
        current, mutual = None, False
        for line in lines:
            if line.startswith(("use ", "pub use ", "unfoldable pub use ")):
                current, mutual = None, False
                continue
            if line.strip() in ("mutual", "abbrev mutual", "unfoldable mutual"):
                current, mutual = None, True
                continue
            if not line.startswith((" ", "\t", "|", "}", ")", "]")):
                current, mutual = self.name_of(line, current), False
            elif mutual and re.match(r"  \S", line):
                current = self.name_of(line, current)
            if current:
                self.definitions.setdefault(current, []).append(line)
        for name, body in self.definitions.items():
            if " data " in " " + body[0]:
                for line in body[1:]:
                    for constructor in re.findall(r"^  (\w+) :", line):
                        self.constructors[constructor] = name

    @staticmethod
    def name_of(line, current):
        words = line.split()
        words = [w for w in words if w not in ("abbrev", "unfoldable", "pub", "record", "data", "inductive", "ghost")]
        name = words[0].strip("(")
        return name if name else current


FILES = {}


def specs(path):
    if path not in FILES:
        FILES[path] = SpecsFile(path)
    return FILES[path]


def reach(module, name, seen):
    """Collects the definition of a module and all that it speaks of."""
    path = file_of(module)
    if path is None or (path, name) in seen:
        return
    file = specs(path)
    name = file.constructors.get(name, name)
    if (path, name) in seen:
        return
    if name not in file.definitions:
        if name in file.imports:
            reach(*file.imports[name], seen)
        return
    seen[(path, name)] = len(file.definitions[name])
    follow("\n".join(file.definitions[name]), module, file, seen)


def follow(text, module, file, seen):
    for word in NAME.findall(re.sub(r'"[^"]*"', '""', text)):
        first, _, rest = word.partition(".")
        if rest and first in file.modules:
            reach(file.modules[first], rest.split(".")[0], seen)
        elif first in file.imports:
            reach(*file.imports[first], seen)
        elif first in file.definitions or first in file.constructors:
            reach(module, first, seen)


def clauses_of_run():
    path = os.path.join(CRATES, "sd_tool", "src", "whole_run.rt")
    lines = open(path, encoding="utf-8").read().split("\n")
    begin = next(i for i, line in enumerate(lines) if line.startswith("pub fn run"))
    end = next(i for i in range(begin, len(lines)) if lines[i] == "{")
    imports, modules = imports_of(lines)
    return "\n".join(lines[begin:end]), imports, modules


def crate_of(path):
    return os.path.relpath(path, CRATES).split(os.sep)[0]


def in_reading_order(paths):
    """The files, each behind those of them whose words it uses."""
    ordered = []

    def put(path, waiting):
        if path in ordered or path in waiting:
            return
        for module in sorted({module for module, _ in specs(path).imports.values()}):
            used = file_of(module)
            if used in paths:
                put(used, waiting | {path})
        ordered.append(path)

    crates = re.findall(r"^(\w+):", open(os.path.join(TOP, "crates.txt"), encoding="utf-8").read(), re.M)
    for path in sorted(paths, key=lambda path: (crates.index(crate_of(path)), path)):
        put(path, frozenset())
    return ordered


def files_told():
    """The files that docs/DEFINITIONS.md lists before its first section."""
    text = open(os.path.join(TOP, "docs", "DEFINITIONS.md"), encoding="utf-8").read().split("\n## ")[0]
    told = set()
    for crate, names in re.findall(r"`(sd_\w+)`: ((?:`\w+`(?:, )?)+)", text):
        told |= {os.path.join(crate, "specs", name + ".antt") for name in re.findall(r"`(\w+)`", names)}
    return told


def main():
    text, imports, modules = clauses_of_run()
    seen = {}
    for word in NAME.findall(text):
        first = word.split(".")[0]
        if first in imports:
            reach(*imports[first], seen)
    paths = {path for path, _ in seen}
    missing = []
    if "--list" in sys.argv:
        for (path, name), count in sorted(seen.items()):
            print(f"{count:4} {os.path.relpath(path, CRATES)} {name}")
        missing = sorted({os.path.relpath(path, CRATES) for path in paths} - files_told())
        for path in missing:
            print(f"{path}: docs/DEFINITIONS.md does not list it at its head")
    if "--files" in sys.argv:
        for crate, group in itertools.groupby(in_reading_order(paths), crate_of):
            print(f"- `{crate}`: " + ", ".join(f"`{os.path.basename(path)[:-5]}`" for path in group))
    print(f"{len(seen)} definitions, {sum(seen.values())} lines")
    sys.exit(1 if missing else 0)


main()
