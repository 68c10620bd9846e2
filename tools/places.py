"""Places that today's Rattle has a plainer form for, counted by their text.

    python3 tools/places.py [-l]

Prints a line for each pattern: the point of docs/DESIGN-PASS.md, the pattern's name and how many places of src/ match, and with -l the places
themselves. A pattern finds what looks like a place; docs/DESIGN-PASS.md says which of them are and what became of them.
"""

import collections
import pathlib
import re
import sys

CRATES = pathlib.Path(__file__).resolve().parent.parent / "crates"

# point, name, pattern over the whole text of a file
PATTERNS = [
    (1, "own enum", r"^(?:pub(?:\(crate\))? )?enum \w+"),
    (1, "nothing passed up by hand", r"else \{\s*return None;\s*\}|None => None\b"),
    (1, "a fault passed up by hand", r"Err\((\w+)\) => return Err\(|if let Err\((\w+)\) = [^{]*\{\s*return Err\("),
    (1, "an outcome mapped by hand", r"Some\((\w+)\) => Some\(|Ok\((\w+)\) => Ok\("),
    (1, "nothing made a fault by hand", r"let (?:Some|Ok)\([^)]*\) = [^;{]* else \{\s*return Err\(|Some\(\w+\) => Err\("),
    (1, "number for a kind, section or refusal", r"\b(?:section|kind|number|code): (?:u32|i32)\b|match kind \{"),
    (3, "loop over a range of indices", r"for \w+ in [\w.*]+\.\."),
    (3, "while", r"^\s*while "),
    (3, "index kept for the proof alone", r"for \(i, o\) in offsets"),
    (4, "printing by hand", r"^(?:pub(?:\(crate\))? )?fn \w*(?:word|text|show)\b|Contact::Clear => \"|Class::Part => \""),
    (4, "conversion by hand", r"^    pub fn contact\(|^fn to_\w+\(|^fn (?:told|index|distance)\(\w+: i32\)"),
    (4, "lossless or tested cast", r"\bas (?:u64|i64|i128|u32|i32|usize|isize)\b"),
    (4, "equality by a field", r"pitch\.microns != "),
    (6, "array with a length beside it", r"\[\w+; \d+\],\n\s*count: usize"),
    (7, "switch on the step to run", r"match topic \{|^(?:pub(?:\(crate\))? )?enum Topic"),
]


def sources():
    return sorted(p for p in CRATES.glob("*/src/**/*.rt"))


def answers():
    """The answers and the lines of each crate's proofs."""
    found = []
    for p in sorted(CRATES.glob("*/proofs/**/*.antt")):
        text = p.read_text()
        found += [(p, m.group(0)) for m in re.finditer(r"^pub \S+ : goal\.\S+", text, re.M)]
    return found


def facts():
    """The facts of `requires` clauses, by how many contracts ask each."""
    seen = collections.Counter()
    for p in sources():
        for m in re.finditer(r"^\s+requires(?: \w+)? \{ (.*) \}$", p.read_text(), re.M):
            for fact in re.split(r" × ", m.group(1)):
                seen[re.sub(r"^\(+|\)+$", "", fact)] += 1
    return [(fact, n) for fact, n in seen.most_common() if n >= 3]


def main():
    listed = "-l" in sys.argv[1:]
    for point, name, pattern in PATTERNS:
        places = []
        for p in sources():
            text = p.read_text()
            for m in re.finditer(pattern, text, re.M):
                line = text.count("\n", 0, m.start()) + 1
                places.append(f"{p.relative_to(CRATES)}:{line}: {m.group(0).split(chr(10))[0].strip()}")
        print(f"{point} {name}: {len(places)}")
        if listed:
            print("".join(f"    {place}\n" for place in places), end="")
    print(f"5 fact asked by three contracts or more: {len(facts())}")
    if listed:
        print("".join(f"    {n} × {fact}\n" for fact, n in facts()), end="")
    print(f"8 answer: {len(answers())}")


main()
