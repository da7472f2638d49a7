#!/usr/bin/env python3
"""Brings the repository's own definitions and lemmas to snake case: `set-of` becomes `set_of`.

Run once at the top of the repository, on what the toolchain's port.py has made. Names that the toolchain makes
(goals, invariants, the steps of a proof) and names of its library are left alone. What would fall together with
another name has a name of its own in APART.
"""
import glob
import re
import sys

APART = {}

# Words of the library that port.py imports under the name of another of its words.
WORDS = [("AllByRecursion", "All"), ("ContainsAt", "Has")]

WORD = r"[A-Za-z0-9_'′◌]+(?:-[A-Za-z0-9_'′◌]+)*"
GOAL = re.compile(r"(?:need|goal|given)\.")


def sources():
    for folder in ("specs", "proofs"):
        yield from sorted(glob.glob(f"crates/*/{folder}/**/*.antt", recursive=True))


def defined():
    """The names with a dash that the repository defines, each with the files that do."""
    names = {}
    for path in sources():
        for line in open(path, encoding="utf-8"):
            heads = []
            sign = re.match(rf"^\s*(?:pub |abbrev |unfoldable )*((?:{WORD} )+|{WORD}) ?:(?: |$)", line)
            if sign and not GOAL.match(line[sign.end():]):
                heads += sign.group(1).split()
            made = re.match(r"^\s*(?:pub |abbrev |unfoldable )*(?:data|record) (?:pub )?(\S+)", line)
            if made:
                heads.append(made.group(1))
            heads += re.findall(r"deriving \w+ as (\S+)", line)
            if re.match(r"^\s*(?:pub )?use ", line):
                heads += re.findall(rf" as ({WORD})", line)
            for name in heads:
                if "-" in name:
                    names.setdefault(name, set()).add(path)
    return names


def of_the_library():
    names = set()
    for path in list(sources()) + sorted(glob.glob("crates/*/src/**/*.rt", recursive=True)):
        for line in open(path, encoding="utf-8"):
            use = re.match(r"^\s*(?:ghost )?use (?:Rattle\.std|Rattle\.core|borrow|mathlib|lib|Prim)\b.*\{(.*)\}", line)
            if use:
                names.update(name.strip().split(" as ")[0] for name in use.group(1).split(","))
    return names


def main():
    theirs = of_the_library()
    ours = defined()
    for name in sorted(ours):
        if name in theirs:
            print("left, since the library has it:", name, sorted(ours[name])[0])
    new = {name: APART.get(name, name.replace("-", "_")) for name in ours if name not in theirs}
    token = re.compile(WORD)
    said = set()
    for path in list(sources()) + sorted(glob.glob("crates/*/src/**/*.rt", recursive=True)):
        text = open(path, encoding="utf-8").read()
        words = set(token.findall(text))
        for name in words & set(new):
            if new[name] in words and (name, path) not in said:
                said.add((name, path))
                print("falls together:", name, "in", path)
        out = token.sub(lambda m: new.get(m.group(0), m.group(0)), text)
        for theirs_now, alias in WORDS:
            if f"{theirs_now} as {alias}" in out:
                out = out.replace(f"{theirs_now} as {alias}", theirs_now)
                out = token.sub(lambda m: theirs_now if m.group(0) == alias else m.group(0), out)
        if out != text and "--dry" not in sys.argv:
            open(path, "w", encoding="utf-8").write(out)
    print(len(new), "names respelled")


main()
