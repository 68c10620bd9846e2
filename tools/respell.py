#!/usr/bin/env python3
"""Respells the repository's own definitions and lemmas: the words of a name are joined by underscores, not by hyphens.

usage: python3 tools/respell.py        at the top of the repository, once, after port.py

A name is the repository's own where a file of specs/ or proofs/ declares it; names that Rattle makes of the code (goals, and what stands
behind a dot of c or goal) keep their hyphens. Fields of the repository's records are respelled behind a dot too. In docs/ and README.md
names are respelled between backticks. Functions of src/ and strings have no hyphens, so no name of theirs is touched.
It stops, and writes nothing, where two of the repository's names would fall together.
"""
import glob
import os
import re
import sys

MADE = ("Answers.antt", "Invariants.antt", "Choices.antt", "Proof.antt")
DECLARES = re.compile(r"^(\s*)((?:(?:abbrev|unfoldable|pub|record|data)\s+)*)([^\s(){}:.;,\"λ]+)((?:\s*[({][^=]*[)}])*)\s*:\s")
NAME = re.compile(r"(?<![\w'.\-])([A-Za-z][\w']*(?:-[\w']+)+)(?![\w'\-])")
FIELD = re.compile(r"(?<=\.)([A-Za-z][\w']*(?:-[\w']+)+)(?![\w'\-])")
QUOTED = re.compile(r"`[^`\n]*`")


def files(*patterns):
    return sorted(p for pattern in patterns for p in glob.glob(pattern, recursive=True) if "/out/" not in p)


def read(path):
    with open(path, encoding="utf-8") as f:
        return f.read()


# The names that files of specs/ and proofs/ declare, those of them that are fields of a record, and every name without a hyphen.
def declared():
    names, fields, plain = set(), set(), set()
    for path in files("crates/*/specs/**/*.antt", "crates/*/proofs/**/*.antt"):
        made, record = os.path.basename(path) in MADE, False
        for line in read(path).splitlines():
            found = DECLARES.match(line)
            if found and not (made and "goal." in line):
                name = found[3]
                if "-" in name:
                    names.add(name)
                    if found[1] and record:
                        fields.add(name)
                else:
                    plain.add(name)
            if line and not line[0].isspace():
                record = bool(re.match(r"(pub )?record ", line))
    return names, fields, plain


def main():
    names, fields, plain = declared()
    new = {name: name.replace("-", "_") for name in names}
    clash = [n for n in names if new[n] in plain] + [n for n in names if sum(new[m] == new[n] for m in names) > 1]
    if clash:
        sys.exit("respell: these fall together with another name: " + ", ".join(sorted(set(clash))))

    def respelled(text):
        text = NAME.sub(lambda m: new.get(m[1], m[1]), text)
        return FIELD.sub(lambda m: new[m[1]] if m[1] in fields else m[1], text)

    for path in files("crates/*/specs/**/*.antt", "crates/*/proofs/**/*.antt", "crates/*/src/**/*.rt"):
        old = read(path)
        text = respelled(old)
        if text != old:
            with open(path, "w", encoding="utf-8") as f:
                f.write(text)
    for path in files("docs/*.md", "README.md"):
        if os.path.basename(path) == "PORT.md":
            continue
        old = read(path)
        text = QUOTED.sub(lambda m: respelled(m[0]), old)
        if text != old:
            with open(path, "w", encoding="utf-8") as f:
                f.write(text)
    print(f"respell: {len(names)} names")


main()
