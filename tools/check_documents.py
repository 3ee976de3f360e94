#!/usr/bin/env python3
"""Checks that the documents say what the code says, and prints what differs.

README's table of options against the options of `sd_words`, the fault texts of docs/FORMATS.md against the tables
of the readers and the table of answers of `sd_tool`, the crates of docs/MAP.md against crates.txt, each clause, edit,
case and test that the answers of docs/PROVED.md or the rows of docs/TESTS.md name, each path that a document names and
each link against the files, the number of definitions in README against the count, the pictures and tables of speed and
of the gate's minutes against the raw tables in bench/runs, and the commands of README and docs/TOUR.md against
examples/expected.txt, which has what each prints and writes. With --run PROGRAM it runs these too, as the merge gate
does. `LIMITS` says how long each document may be, and its paragraphs and cells, and `LONGEST_SENTENCE` each sentence;
none names a commit. The status is 1 where something differs.
"""
import fnmatch
import glob
import json
import os
import re
import subprocess
import sys
import tempfile

TOP = os.path.join(os.path.dirname(os.path.abspath(__file__)), "..")
DOCUMENTS = ["README.md", "CHANGES.md", "CONTRIBUTING.md"]
DOCUMENTS += sorted(os.path.relpath(path, TOP) for path in glob.glob(TOP + "/docs/*.md"))
faults = []
# The most lines of a document, and words of a paragraph and of a cell of it.
LIMITS = {
    "README.md": (160, 80, 45),
    "CONTRIBUTING.md": (60, 80, 45),
    "docs/MAP.md": (None, 100, 25),
    "docs/TOUR.md": (None, 100, 45),
    "docs/DEFINITIONS.md": (None, 100, 45),
    "docs/PROVED.md": (None, 100, 40),
    "docs/DECISIONS.md": (None, 60, 45),
    "docs/PROVING.md": (350, 80, 45),
    "docs/SPEED.md": (250, 80, 45),
}
OTHER_LIMITS = (None, 120, 45)
# The most words of a sentence of any document.
LONGEST_SENTENCE = 30
HOURS = ["no", "one", "two", "three", "four", "five", "six"]


def text_of(path):
    with open(os.path.join(TOP, path), encoding="utf-8") as file:
        return file.read()


def expect(holds, fault):
    if not holds:
        faults.append(fault)


def rows_of(text):
    """The rows of all tables of a text, as lists of cells."""
    return [[cell.strip() for cell in line.strip().strip("|").split("|")]
            for line in text.splitlines() if line.startswith("|")]


def check_options():
    source = text_of("crates/sd_words/src/options.rt")
    order = re.search(r"ALL_OPTIONS.*?\[(.*?)\];", source, re.S).group(1)
    variants = re.findall(r"OptionName::(\w+)", order)
    word = dict(re.findall(r'OptionName::(\w+) => "([\w-]+)"', source))
    ranges = dict((name, (low, high)) for name, low, high
                  in re.findall(r"OptionName::(\w+) => Some\(\(([\d_]+), ([\d_]+)\)\)", source))
    table = {row[0]: row for row in rows_of(text_of("README.md")) if row[0].startswith("`--")}
    expect(list(table) == ["`--%s`" % word[name] for name in variants],
           "README.md: the table of options has not just the options, in their order")
    for name, bounds in ranges.items():
        said = "%s to %s" % tuple("{:,}".format(int(bound)) for bound in bounds)
        row = table.get("`--%s`" % word[name], ["", ""])
        expect(row[1].split(",  ")[0].startswith(said), "README.md: --%s is %s" % (word[name], said))
    for name, number in re.findall(r"DEFAULT_(\w+): u32 = ([\d_]+);", source):
        said = "else {:,}".format(int(number))
        expect(said in table.get("`--%s`" % name.lower(), ["", ""])[1], "README.md: --%s, %s" % (name.lower(), said))


# The functions by cases over faults that give their texts, and the files in which they stand.
FAULT_TEXTS = {
    "formula_fault_text": "crates/sd_formula/specs/Dimacs.antt",
    "vtree_fault_text": "crates/sd_vfile/specs/Reads.antt",
    "sdd_fault_text": "crates/sd_file/specs/Reads.antt",
    "script_fault_text": "crates/sd_script/specs/Faults.antt",
    "words_fault_text": "crates/sd_words/specs/Rows.antt",
    "aiger_fault_text": "crates/sd_aiger/specs/Reads.antt",
}


def texts_defined(definition):
    """The texts of such a function, with # for each number."""
    texts = set()
    specs = text_of(FAULT_TEXTS[definition])
    for line in re.findall(r"^%s .*? = (.*)$" % definition, specs, re.M):
        if line == "[]":
            continue
        named = re.fullmatch(r"(\w+) n", line)
        if named:
            line = re.search(r"^%s n\w* = (.*)$" % named.group(1), specs, re.M).group(1)
        parts = re.findall(r'codes "([^"]*)"|(number_text|signed_text|word_of|\+\+ name)', line)
        text = "".join(string if string else "#" for string, _ in parts)
        if line.startswith("at_line"):
            text = ": line #" + text
        if line.startswith("counts"):
            text = ": # stated, # found"
        texts.add(text)
    return texts


def texts_told(section):
    """The texts of the table of a section, with # for each placeholder."""
    body = re.search(r"^## %s\n(.*?)(?=^## |\Z)" % re.escape(section), text_of("docs/FORMATS.md"), re.M | re.S).group(1)
    return set(re.sub(r"\b[A-Z]\b", "#", row[1].strip("`")) for row in rows_of(body)
               if len(row) == 3 and row[1].startswith("`: "))


def check_faults():
    for definition, section in [("formula_fault_text", "DIMACS"), ("sdd_fault_text", "SDD files"),
                                ("aiger_fault_text", "AIGER circuits"),
                                ("vtree_fault_text", "Vtree files"), ("script_fault_text", "Scripts")]:
        defined, told = texts_defined(definition), texts_told(section)
        for text in sorted(defined - told):
            faults.append("docs/FORMATS.md, %s: lacks the fault '%s'" % (section, text))
        for text in sorted(told - defined):
            faults.append("docs/FORMATS.md, %s: no fault has the text '%s'" % (section, text))
    told = text_of("docs/FORMATS.md")
    ends = text_of("crates/sd_tool/specs/Ends.antt")
    table = ends[ends.index("answer_of Finished"):ends.index("\nabbrev pub status_of")]
    for string in re.findall(r'codes "([^"]*)"', table):
        expect(string.strip() in told, "docs/FORMATS.md: lacks '%s'" % string)
    for text in texts_defined("words_fault_text"):
        expect("`sddc: %s" % text.split("#")[0] in told, "docs/FORMATS.md: lacks '%s'" % text)


def check_crates():
    listed = set(re.findall(r"^(\w+):", text_of("crates.txt"), re.M))
    told = {row[0].strip("`") for row in rows_of(text_of("docs/MAP.md")) if len(row) == 4} - {"crate", "---"}
    for name in sorted(listed ^ told):
        faults.append("docs/MAP.md: %s a row for %s" % ("lacks" if name in listed else "needs no", name))


def sources():
    """The crate and the text of each file of code."""
    for path in sorted(glob.glob(TOP + "/crates/*/src/**/*.rt", recursive=True)):
        yield os.path.relpath(path, TOP).split("/")[1], text_of(path)


def check_answers():
    """Each clause of a row is one of its calls, each law and edit one of a crate that has such a call."""
    clauses, homes, laws, edits = {}, {}, {}, {}
    for crate, text in sources():
        parts = re.split(r"\bfn (\w+)", text)
        for name, rest in zip(parts[1::2], parts[2::2]):
            clauses.setdefault(name, set()).update(re.findall(r"ensures (\w+) {", rest))
            homes.setdefault(name, set()).add(crate)
            if re.search(r"^{}$", rest, re.M):
                laws.setdefault(name, set()).add(crate)
    for path in glob.glob(TOP + "/crates/*/must-fail/*.edit") + glob.glob(TOP + "/tools/plants/*/*.edit"):
        edits.setdefault(os.path.basename(path)[:-5], set()).update(path.split("/")[-3:-1])
    cases = set()
    for path in glob.glob(TOP + "/crates/sd_cases/data/*.cases"):
        cases.update(re.findall(r"^(?:case|differs) (\w+)$", text_of(os.path.relpath(path, TOP)), re.M))
    calls = []
    answers = text_of("docs/PROVED.md").partition("## Answers and their causes")[2]
    for row in rows_of(answers)[2:]:
        calls = [name for name in re.findall(r"`(\w+)`", row[0]) if name in homes] or calls
        known = set().union(*(clauses[name] for name in calls))
        crates = set().union(*(homes[name] for name in calls))
        for name in re.findall(r"`(\w+)`", row[3]):
            expect(name in known or laws.get(name, set()) & crates,
                   "docs/PROVED.md: %s: no clause or law is named %s" % (row[0], name))
        for name in re.findall(r"`(\w+)`", row[4]):
            expect(name in homes or name in cases or edits.get(name, set()) & crates,
                   "docs/PROVED.md: %s: no edit, case or test is named %s" % (row[0], name))


def tests_of(path):
    """The tests of a file of code."""
    return set(re.findall(r"#\[test\]\s+(?:///.*\s+)*fn (\w+)", text_of(path)))


def check_tests():
    """TESTS names cases and tests that are there, each file of cases and each test."""
    homes = {"calls": "crates/sd_call_tests/src", "workers": "crates/sd_worker_tests/src"}
    cases, tests, named = {}, {}, set()
    for path in glob.glob(TOP + "/crates/sd_cases/data/*.cases"):
        text = text_of(os.path.relpath(path, TOP))
        cases[os.path.basename(path)] = set(re.findall(r"^(?:case|differs) (\w+)$", text, re.M))
    for path in glob.glob(TOP + "/crates/*/src/**/*.rt", recursive=True):
        path = os.path.relpath(path, TOP)
        tests[path] = tests_of(path)
    for row in rows_of(text_of("docs/TESTS.md")):
        for cell in row[1:3]:
            known = set()
            for word in re.findall(r"`([^`]*)`", cell):
                first, _, rest = word.partition("/")
                path = homes.get(first, "crates/" + first) + "/" + rest
                if word in cases or path in tests:
                    known = cases[word] if word in cases else tests[path]
                    named.add(word if word in cases else "")
                    continue
                found = {name for name in known if fnmatch.fnmatchcase(name, word)}
                expect(found, "docs/TESTS.md: %s: no case or test is named %s" % (row[0], word))
                named |= found
    for name in sorted(set(cases) - named - {"differs.cases"}):
        faults.append("docs/TESTS.md: names no case of %s" % name)
    for name in sorted(set().union(*tests.values()) - named):
        faults.append("docs/TESTS.md: does not name the test %s" % name)


def check_cases():
    named = text_of("crates/sd_cases/args").split()
    there = [os.path.basename(path) for path in glob.glob(TOP + "/crates/sd_cases/data/*.cases")]
    expect(sorted(named) == sorted(there), "crates/sd_cases/args: names not just the files of data/")


def check_paths():
    for document in DOCUMENTS:
        for path in re.findall(r"(?:crates|docs|examples|tools)/[\w./-]*\w", text_of(document)):
            expect(os.path.exists(os.path.join(TOP, path)), "%s: there is no %s" % (document, path))


def check_crate_paths():
    """In MAP, a path in a crate follows the crate's name in its row, or begins with it."""
    crates = os.listdir(os.path.join(TOP, "crates"))
    for row in text_of("docs/MAP.md").splitlines():
        crate = None
        for word in re.findall(r"`([^`]*)`", row):
            if word.split("/")[0] in crates:
                crate, _, word = word.partition("/")
            if crate and re.fullmatch(r"(?:src|specs|proofs)/[\w/+]+\.(?:rt|antt)", word):
                found = os.path.exists(os.path.join(TOP, "crates", crate, word))
                expect(found, "docs/MAP.md: %s has no %s" % (crate, word))


def check_count():
    counted = subprocess.run([sys.executable, os.path.join(TOP, "tools/reached_definitions.py")],
                             stdout=subprocess.PIPE, text=True, check=True).stdout
    definitions, lines = re.findall(r"\d+", counted)
    said = "{} definitions of {:,} lines".format(definitions, int(lines))
    expect(said in text_of("README.md"), "README.md: a reader believes %s" % said)
    log = json.loads(text_of(os.path.relpath(sorted(glob.glob(TOP + "/bench/runs/*-gate/gate.json"))[-1], TOP)))
    said = "about %s processor hours" % HOURS[round(log["processor"] / 3600)]
    for document in "README.md", "CONTRIBUTING.md":
        expect(said in text_of(document), "%s: the gate takes %s" % (document, said))


def stored_runs():
    """The stored runs: the words, what is printed, and for each file written the one that it is equal to."""
    runs = []
    for line in text_of("examples/expected.txt").splitlines():
        if line.startswith("$ "):
            runs.append((line[2:], [], []))
        elif line.startswith("= "):
            runs[-1][2].append(line[2:].split())
        elif line and not line.startswith("#"):
            runs[-1][1].append(line)
    return runs


def sizes_in(text):
    """The size of each root of an SDD file: of those that its lines name, or else of its last node."""
    below, roots = {}, []
    for words in map(str.split, text.splitlines()[1:]):
        if words[0] != "c":
            below[words[1]] = words[4:] if words[0] == "D" else []
        elif words[1] == "root":
            roots.append(words[3])
    sizes = []
    for root in roots or list(below)[-1:]:
        seen, left = set(), [root]
        while left:
            node = left.pop()
            if node not in seen:
                seen.add(node)
                left += below[node]
        sizes.append(sum(len(below[node]) // 2 for node in seen))
    return sizes


def sentences_of(text):
    return re.split(r"(?:(?<=[.!?:;])|(?<=[.!?:;]\*\*))\s+(?=[A-Z`*(\[])", text)


def check_commits():
    """No document names a commit."""
    for document in DOCUMENTS:
        for number, line in enumerate(text_of(document).splitlines(), 1):
            for word in re.findall(r"\b[0-9a-f]{7,40}\b", line):
                named = re.search(r"\d", word) and re.search(r"[a-f]", word) and word != "dac8208d650f15bf"
                expect(not named, "%s:%d: names a commit: %s" % (document, number, word))


def check_lengths():
    """A sentence ends at a mark before a capital, which may be the last of bold words, or with its paragraph."""
    for document in DOCUMENTS:
        most_lines, longest_paragraph, longest_cell = LIMITS.get(document, OTHER_LIMITS)
        text = text_of(document)
        lines = len(text.splitlines())
        expect(most_lines is None or lines <= most_lines, "%s: %d lines, of at most %s" % (document, lines, most_lines))
        text = re.sub(r"^```.*?^```|<!--.*?-->", "", text, flags=re.M | re.S)
        paragraphs, found = re.split(r"\n\s*\n|\n(?=[-|#>]|\d+\. )", text), []
        for paragraph in paragraphs:
            cells = paragraph.strip().strip("|").split("|") if paragraph.lstrip().startswith("|") else []
            found += [("cell", longest_cell, cell) for cell in cells] or [("paragraph", longest_paragraph, paragraph)]
            found += [("sentence", LONGEST_SENTENCE, sentence) for sentence in sentences_of(paragraph) if not cells]
        for kind, limit, words in found:
            count, whole = len(words.split()), text_of(document)
            number = whole[:whole.find(words.strip())].count("\n") + 1
            expect(count <= limit, "%s:%d: a %s of %d words, of at most %d" % (document, number, kind, count, limit))
    for number, line in enumerate(text_of("docs/SPEED.md").splitlines(), 1):
        expect(len(line) <= 120, "docs/SPEED.md:%d: a line of over 120 columns" % number)


def anchors_of(document):
    """The names by which the headings of a document are linked."""
    headings = re.findall(r"^#+ (.*)$", text_of(document), re.M)
    return {re.sub(r"[^\w\- ]", "", heading).lower().replace(" ", "-") for heading in headings}


def check_links():
    for document in DOCUMENTS:
        for target in re.findall(r"\]\(([^)\s]+)\)", text_of(document)):
            path, _, anchor = target.partition("#")
            path = os.path.normpath(os.path.join(os.path.dirname(document), path)) if path else document
            there = os.path.exists(os.path.join(TOP, path))
            expect(there, "%s: there is no %s" % (document, target))
            expect(not there or not anchor or anchor in anchors_of(path), "%s: no heading is %s" % (document, target))


def check_made():
    """What tools make of the raw tables is as they make it."""
    for words in (["draw_speed.py", "--check"], ["gate_minutes.py", "check"]):
        run = subprocess.run([sys.executable, os.path.join(TOP, "tools", words[0])] + words[1:],
                             stdout=subprocess.PIPE, stderr=subprocess.STDOUT, text=True)
        faults.extend(run.stdout.splitlines() or (["%s failed" % words[0]] if run.returncode else []))


def check_commands(program):
    runs = stored_runs()
    stored = set(words for words, _, _ in runs)
    for words in re.findall(r"^\./sddc (.*)$", text_of("README.md") + text_of("docs/TOUR.md"), re.M):
        expect(words in stored, "examples/expected.txt: lacks ./sddc %s" % words)
    for words, printed, files in runs:
        for name, same in files:
            expect(os.path.exists(os.path.join(TOP, same)), "examples/expected.txt: there is no %s" % same)
            expect(name in words.split() or ".script" in words, "examples/expected.txt: %s is not written" % name)
            sizes = ["size %d" % size for size in sizes_in(text_of(same))]
            expect([line for line in printed if line.startswith("size ")] == sizes,
                   "examples/expected.txt: %s has %s" % (same, ", ".join(sizes)))
    if program:
        for words, printed, files in runs:
            run_stored(program, words, printed, files)


def run_stored(program, words, printed, files):
    with tempfile.TemporaryDirectory() as folder:
        os.symlink(os.path.abspath(os.path.join(TOP, "examples")), os.path.join(folder, "examples"))
        moved = words.split()
        for name, _ in files:
            moved = [os.path.join(folder, os.path.basename(name)) if word == name else word for word in moved]
        run = subprocess.run([os.path.abspath(program)] + moved, cwd=folder, stdout=subprocess.PIPE, text=True)
        expect(run.returncode == 0 and run.stdout.splitlines() == printed,
               "./sddc %s: printed %r" % (words, run.stdout))
        for name, same in files:
            # A file that a script names is written where the script says.
            path = os.path.join(folder, os.path.basename(name)) if name in words.split() else name
            written = open(path, encoding="utf-8").read() if os.path.exists(path) else None
            expect(written == text_of(same), "./sddc %s: %s differs from %s" % (words, name, same))
        if "--out-sdd" in moved:
            expect_canonical(program, folder, moved, files[0][1])


def expect_canonical(program, folder, words, same):
    """The stored file that these words write is one that a check over their vtree accepts."""
    tree = os.path.join(folder, "written.vtree")
    subprocess.run([os.path.abspath(program)] + words + ["--out-vtree", tree], cwd=folder, stdout=subprocess.DEVNULL)
    run = subprocess.run([os.path.abspath(program), "--check", same, "--vtree", tree], cwd=folder,
                         stdout=subprocess.PIPE, text=True)
    expect(run.stdout == "yes\n", "./sddc --check %s: printed %r" % (same, run.stdout))


def main():
    check_options()
    check_faults()
    check_crates()
    check_answers()
    check_cases()
    check_tests()
    check_paths()
    check_crate_paths()
    check_count()
    check_commits()
    check_lengths()
    check_links()
    check_made()
    check_commands(sys.argv[2] if sys.argv[1:2] == ["--run"] else None)
    for fault in faults:
        print(fault)
    if not faults:
        print("the documents agree with the code")
    return 1 if faults else 0


if __name__ == "__main__":
    sys.exit(main())
