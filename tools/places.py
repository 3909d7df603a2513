#!/usr/bin/env python3
"""Counts the places of docs/DESIGN-PASS.md in the sources of a commit, or of the working tree.

    python3 tools/places.py [-v] [COMMIT]

It goes by text: a row is a place to look at. -v prints each place.
"""
import collections
import glob
import re
import subprocess
import sys


def sources(commit):
    """The lines of each file of crates/*/src, with its path."""
    if commit is None:
        for path in sorted(glob.glob("crates/*/src/**/*.rt", recursive=True)):
            yield path, open(path, encoding="utf-8").read().splitlines()
        return
    listed = subprocess.run(["git", "ls-tree", "-r", "--name-only", commit, "crates"], check=True, capture_output=True, text=True).stdout
    for path in listed.splitlines():
        if re.match(r"crates/[^/]+/src/.*\.rt$", path):
            shown = subprocess.run(["git", "show", f"{commit}:{path}"], check=True, capture_output=True, text=True).stdout
            yield path, shown.splitlines()


CLAUSE = re.compile(r"\s*(requires|ensures|ghost)\b")


def code(lines):
    """The lines that are code: no comments, clauses or ghost members."""
    return [(n, line) for n, line in enumerate(lines, 1) if not CLAUSE.match(line) and not line.strip().startswith("//")]


def functions(lines):
    """Each function that has a body, with the line where it begins, its signature, its clauses and its body."""
    for start, line in enumerate(lines):
        head = re.match(r"(\s*)(pub(\(\w+\))? )?(const )?fn \w+", line)
        if not head:
            continue
        opens = start
        while not re.search(r"(;|\{|\})$", lines[opens]) or (CLAUSE.match(lines[opens]) and not lines[opens].endswith(";")):
            opens += 1
        if not lines[opens].endswith("{"):
            continue
        end = next(n for n in range(opens, len(lines)) if lines[n] == head.group(1) + "}")
        block = lines[start : opens + 1]
        clauses = [l.strip() for l in block if CLAUSE.match(l)]
        signature = " ".join(l.strip() for l in block if not CLAUSE.match(l))
        yield start + 1, signature, clauses, [l.split("//")[0] for l in lines[opens + 1 : end]]


def shape(body):
    """The body with a mark for each name and number."""
    text = re.sub(r"\s+", " ", " ".join(body)).strip()
    return re.sub(r"\b\w+(::\w+)*\b", "_", text)


def main():
    args = [a for a in sys.argv[1:] if a != "-v"]
    found = collections.OrderedDict()

    def place(point, what, path, n, text):
        found.setdefault((point, what), []).append((path, n, text.strip()))

    shapes, facts, groups = collections.defaultdict(list), collections.defaultdict(list), collections.defaultdict(list)
    for path, lines in sources(args[0] if args else None):
        text = code(lines)
        for (n, line), (_, after) in zip(text, text[1:] + [(0, "")]):
            if re.search(r"else \{$", line) and re.search(r"return (None|Err\(Fail|unreachable)|^\s*unreachable", after):
                place("1", "a value taken out by `let .. else`, to give up without it", path, n, line)
            if re.match(r"\s*(Some|Ok|Err|None)(\(.*\))? => (Some|Ok|Err|None|Answer|write|return Err|unreachable)\b", line) or re.match(r"\s*Ok\(\(\)\) => ", line):
                place("1", "an arm that only passes an Option or a Result on", path, n, line)
            if re.search(r"\bfor code in|\[(code|place)\b|\(code\)\)", line) and "fn from_code" not in line:
                place("1", "a loop or an index by the number of a unit", path, n, line)
            if re.search(r"\bwhile\b|\bfor \w+ in \(?0\.\.", line):
                place("3", "a loop that counts, or goes on by hand", path, n, line)
            if re.search(r"\w+ \+= 1;", line):
                place("3", "a count by hand", path, n, line)
            if re.search(r"impl(<.*>)? (PartialEq|PartialOrd|Ord|Eq|Hash|Clone|Copy|Default|From<.*>|TryFrom<.*>|fmt::Display|fmt::Debug) for", line):
                place("4", "an impl of a comparison, a conversion or a text by hand", path, n, line)
            if re.search(r"fn (same_sign|is_zero|is_separator|positive|duration|negated|sign_text|at_most|from_code)\b", line):
                place("4", "a function that compares, converts or writes, by the names at the start", path, n, line)
            if re.search(r": &?\[\w+; \w+\]", line):
                place("6", "an array by unit code, or a set in one number", path, n, line)
            if re.search(r"bits: u16,", line) and "fn " not in line:
                place("6", "an array by unit code, or a set in one number", path, n, line)
            if re.search(r"&(mut )?dyn |Box<dyn|\bfn\(|match step|match kind", line):
                place("7", "a dyn value, a function pointer or a switch on a step", path, n, line)
        if path.endswith("tests.rt"):
            continue
        for n, signature, clauses, body in functions(lines):
            name = re.search(r"fn (\w+)", signature).group(1)
            form = shape(body)
            if form.count("_") > 1:
                shapes[form].append((path, n, name))
            for clause in clauses:
                if clause.startswith("requires"):
                    for fact in re.sub(r"requires( \w+)? \{ (.*) \}$", r"\2", clause).split(" × "):
                        facts[re.sub(r"\b(unit|secs_each|size)\b", "x", fact).strip("()")].append((path, n, name))
            names = tuple(sorted(re.findall(r"(\w+): ", re.sub(r"requires.*|ensures.*", "", signature))))
            if len(names) >= 2:
                groups[names].append((path, n, name))
    for places in (p for p in shapes.values() if len(p) > 1):
        for path, n, name in places:
            place("2", "a function of the same shape as another", path, n, name)
    for clause, places in facts.items():
        if len(places) > 2:
            for path, n, name in places:
                place("5", "a function that requires what two others require", path, n, f"{name}: {clause}")
    for names, places in groups.items():
        if len(places) > 2:
            for path, n, name in places:
                place("5", "a function whose parameters two others have too", path, n, f"{name}: {', '.join(names)}")
    for (point, what), places in sorted(found.items()):
        print(f"{point}  {what}: {len(places)}")
        if "-v" in sys.argv:
            for path, n, text in places:
                print(f"     {path}:{n}: {text}")


main()
