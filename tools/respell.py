#!/usr/bin/env python3
"""Brings the repository's own definitions and lemmas to Rattle's spelling: words in snake case, types in camel case.

usage: python3 tools/respell.py        at the top of the repository, once, after the kit's own script

A name with a dash that is declared in specs/ or proofs/, or that an import gives, gets underscores, or, where it
begins with a capital, the capitals of its words. The names that Rattle makes (goals, loops) keep theirs, and so do
strings, the functions of src/ and every name of the library. It stops, and changes nothing, where two names of one
module would fall together.
"""

import pathlib
import re
import sys

LETTER = r"[A-Za-z0-9_'\u2080-\u2089\u2115\u2124]"
NAME = rf"{LETTER}+(?:-{LETTER}+)+"
DECLARED = re.compile(rf"^\s*(?:abbrev |pub |unfoldable |data |record |ruleset )*({NAME})(?=\s*(?:\{{|\(|:))(?!\s*:\s*goal\.)")
RENAMED = re.compile(rf"\bas «?({NAME})»?(?=[,}}])")
TOKEN = re.compile(rf"(?<![\w'-])«{NAME}»|(?<![\w'-]){NAME}(?![\w'-])")
STRING = re.compile(r'"(?:[^"\\]|\\.)*"')
# lines of the list at the head of a file: a name, then what it is
LISTED = re.compile(rf"^--     ({NAME})")


def respelled(name):
    words = name.split("-")
    if name[0].isupper():
        return "".join(w[0].upper() + w[1:] for w in words)
    return "_".join(words)


def files(suffix, *folders):
    for crate in sorted(pathlib.Path("crates").iterdir()):
        for folder in folders:
            yield from sorted((crate / folder).rglob("*" + suffix))


def declared():
    names = {}
    for path in [*files(".antt", "specs", "proofs"), *files(".rt", "src")]:
        for line in path.read_text(encoding="utf-8").split("\n"):
            for name in RENAMED.findall(line) if line.lstrip().startswith(("use ", "ghost use ")) else DECLARED.findall(line):
                names.setdefault(name, []).append(str(path))
    return names


def clashes(names):
    for name, where in names.items():
        new = respelled(name)
        old = re.compile(rf"^\s*(?:abbrev |pub |unfoldable |data |record )*{re.escape(new)}(?=\s*[:({{])", re.M)
        for path in where:
            if old.search(pathlib.Path(path).read_text(encoding="utf-8")):
                yield f"{path}: {name} would be {new}, which stands there already"


def turned(line, names, source):
    def one(found):
        name = found.group(0).strip("«»")
        return respelled(name) if name in names else found.group(0)

    mark = "//" if source else "--"
    code, comment = line, ""
    at = re.search(rf"(?:^|\s){mark}(?:\s|$)", line)
    if at:
        code, comment = line[: at.start()], line[at.start() :]
    pieces, last = [], 0
    for text in STRING.finditer(code) if source else []:
        pieces += [TOKEN.sub(one, code[last : text.start()]), text.group(0)]
        last = text.end()
    pieces.append(TOKEN.sub(one, code[last:]))
    listed = LISTED.match(comment)
    if listed and not source:
        name = TOKEN.sub(one, listed.group(1))
        rest = re.sub(r"  +", lambda gap: gap.group(0) + " " * (len(listed.group(1)) - len(name)), comment[listed.end(1) :], count=1)
        comment = comment[: listed.start(1)] + name + rest
    return "".join(pieces) + comment


def main():
    names = declared()
    found = list(clashes(names))
    if found:
        print("\n".join(found), file=sys.stderr)
        return 1
    for suffix, folders in ((".antt", ("specs", "proofs")), (".rt", ("src",))):
        for path in files(suffix, *folders):
            old = path.read_text(encoding="utf-8")
            new = "\n".join(turned(line, names, suffix == ".rt") for line in old.split("\n"))
            if new != old:
                path.write_text(new, encoding="utf-8")
    for name in sorted(names):
        print(f"{name} -> {respelled(name)}")
    return 0


sys.exit(main())
