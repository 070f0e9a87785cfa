#!/usr/bin/env python3
"""Brings the names of this repository's own definitions and lemmas to today's spelling.

Functions, lemmas, fields and constructors of specs/ and proofs/ become snake case (`rate-ratio`
is `rate_ratio`), types and statements camel case (`Fronts-nest` is `FrontsNest`). Names of the
library, names that Rattle makes (goals, steps) and all that stands in comments of code, strings,
inputs and outputs keep their spelling; in docs/ and README.md only names in backticks change.

    python3 tools/respell.py            changes the files below the current folder
    python3 tools/respell.py --list     prints old and new names alone
"""
import glob
import re
import sys

WORD = r"[A-Za-z_][A-Za-z_0-9']*(?:-[A-Za-z_0-9']+)+"
TOKEN = re.compile(r"(?<![\w'-])" + WORD + r"(?![\w'-])")
DECLARED = re.compile(r"(" + WORD + r")((?:\s+[A-Za-z_'0-9-]+)*)\s*:\s*([^\n]*)")
ANSWER_FILES = ("Answers.antt", "Invariants.antt", "Choices.antt", "Proof.antt")


def without_comments(text):
    return re.sub(r"(?m)--(?!\w).*", "", text)


def antt_files():
    return sorted(glob.glob("crates/*/specs/**/*.antt", recursive=True)
                  + glob.glob("crates/*/proofs/**/*.antt", recursive=True))


def declared_names():
    """The dashed names that a file of specs/ or proofs/ declares; a goal's answer is none."""
    names, foreign = set(), set()
    for path in antt_files():
        text = without_comments(open(path, encoding="utf-8").read())
        for found in DECLARED.finditer(text):
            if path.endswith(ANSWER_FILES) and found.group(3).startswith("goal."):
                continue
            names.update(n for n in [found.group(1)] + found.group(2).split() if "-" in n)
        for found in re.finditer(r"(?m)^use (\S+?)\.\{([^}]*)\}", text):
            if not re.match(r"Rattle\.(?!std\b)", found.group(1)):
                foreign.update(n.strip() for n in found.group(2).split(","))
    return names - foreign


def respelled(name):
    if name[0].isupper():
        return "".join(part[0].upper() + part[1:] for part in name.split("-"))
    return name.replace("-", "_")


def change(text, new, pieces):
    """Changes the names in those stretches of the text that `pieces` finds."""
    def in_piece(found):
        return TOKEN.sub(lambda t: new.get(t.group(), t.group()), found.group())
    return pieces.sub(in_piece, text)


# What may change: in antt all but comments, in code all but comments and strings, in pages backticks.
ANTT = re.compile(r"(?m)(?:(?!--(?!\w)).)+|(?<=--)[^\n]*`[^`\n]*`")
CODE = re.compile(r"\"(?:\\.|[^\"\\])*\"|//[^\n]*|[^\"/]+|/")
PAGE = re.compile(r"`[^`\n]+`")


def change_antt(text, new):
    lines = []
    for line in text.split("\n"):
        cut = re.search(r"--(?!\w)", line)
        body, comment = (line[:cut.start()], line[cut.start():]) if cut else (line, "")
        body = TOKEN.sub(lambda t: new.get(t.group(), t.group()), body)
        lines.append(body + change(comment, new, PAGE))
    return "\n".join(lines)


def change_code(text, new):
    def piece(found):
        stretch = found.group()
        if stretch.startswith(('"', "//")):
            return stretch
        return TOKEN.sub(lambda t: new.get(t.group(), t.group()), stretch)
    return CODE.sub(piece, text)


def main():
    new = {name: respelled(name) for name in declared_names()}
    if "--list" in sys.argv:
        for name in sorted(new):
            print(name, new[name])
        return
    for path in antt_files():
        write(path, change_antt, new)
    for path in glob.glob("crates/*/src/**/*.rt", recursive=True):
        write(path, change_code, new)
    for path in glob.glob("docs/*.md") + ["README.md"]:
        write(path, lambda text, new: change(text, new, PAGE), new)


def write(path, changed, new):
    old = open(path, encoding="utf-8").read()
    text = changed(old, new)
    if text != old:
        open(path, "w", encoding="utf-8").write(text)


main()
