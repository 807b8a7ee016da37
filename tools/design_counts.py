#!/usr/bin/env python3
"""Counts the places of docs/DESIGN-PASS.md in crates/*/src: usage: tools/design_counts.py [--places] [FOLDER]
By text alone: what a pattern finds, a reader judges."""
import glob
import os
import re
import sys

# point, what is counted, pattern on one line of code
LINES = [
    ("1", "enums of the shape of Option or Result", r"^(pub )?enum (Verdict|Scan|Place|Spot|Found|Frames|Line|Input)\b"),
    ("1", "functions that answer one of them", r"-> (Verdict|Scan|Place|Spot|Found|Frames|Line|Input)\b"),
    ("1", "structs of an answer or a flag with a value beside it", r"^    (pub )?(answer: (Verdict|Scan)|known: bool),"),
    ("1", "refusals by their number", r"(Refused|Fault)\([0-9]+,"),
    ("1", "numbers that stand for nothing or for a case", r"return 4294967296;|NOT_TOLD|^    16384 \+|< 16384|result\.text|text: 0,$|at: 0, left: 0"),
    ("1", "kinds as numbers", r"\bkind(\([^()]*(\([^()]*\))?[^()]*\))? (==|!=|>=|<=) [0-9]|kind: [0-9]"),
    ("3", "while and loop", r"^\s*('[a-z]+: )?(while .*|loop) \{"),
    ("3", "counters stepped by hand", r"^\s*[a-z]+ [+-]= ([0-9]+|[A-Z_]+);"),
    ("4", "conversions by hand", r"\bfn (byte|wide16|least|or_last|as_numbers|answered|told|measured|no_candidate|no_view|front_refused|walk_refused|set_range)\b"),
    ("5", "clauses with Held", r"\bHeld [a-z]+\.now"),
    ("5", "clauses with Tables", r"\bTables t\.now"),
    ("5", "clauses with all checks of a table", r"string_checks .*≡ Accepted\)"),
    ("5", "clauses with TreeReady, Ready, LineReady or OutlineReady", r"\b(Tree|Line|Outline)?Ready Bits64 "),
    ("6", "a text as a buffer, an offset and a length", r"\bq: &\[u8\], p: usize, n: usize|^    q: &\[u8\],$"),
    ("6", "parallel arrays of a group", r"^\s*(at|left|seen|low|high|first|last|least|most|estimate|met|text|results?|end): &(mut )?\[u?(32|size); 64\]"),
    ("7", "steps chosen by a flag or a kind", r"^    match kind \{"),
]


def blank(line):
    return "" if line.lstrip().startswith("//") or "ghost use" in line else line


def signature_counts(text):
    for m in re.finditer(r"\bfn (\w+)(?:<[^>()]*>)?\(", text):
        i, deep, n, j = m.end(), 1, 0, m.end()
        part = ""
        while deep:
            c = text[j]
            deep += (c in "([<") - (c in ")]>" and text[j - 1] != "-")
            if c == "," and deep == 1 or deep == 0:
                n += bool(part.strip())
                part = ""
            else:
                part += c
            j += 1
        yield m.group(1), n


def main():
    words = [w for w in sys.argv[1:] if not w.startswith("-")]
    show = "--places" in sys.argv
    root = words[0] if words else os.path.dirname(os.path.dirname(os.path.abspath(__file__)))
    files = sorted(glob.glob(os.path.join(root, "crates/*/src/**/*.rt"), recursive=True))
    found = {}
    for f in files:
        name = os.path.relpath(f, os.path.join(root, "crates"))
        text = open(f).read()
        for k, line in enumerate(map(blank, text.split("\n")), 1):
            for p, what, pattern in LINES:
                if re.search(pattern, line):
                    found.setdefault((p, what), []).append(f"{name}:{k}: {line.strip()}")
        for fn, n in signature_counts("\n".join(map(blank, text.split("\n")))):
            if n > 8:
                found.setdefault(("5", "functions of more than 8 parameters"), []).append(f"{name}: {fn}: {n}")
    rows = [(p, w) for p, w, _ in LINES] + [("5", "functions of more than 8 parameters")]
    for row in sorted(rows, key=lambda r: r[0]):
        places = found.get(row, [])
        print(f"{row[0]}  {len(places):4}  {row[1]}")
        if show:
            for place in places:
                print("        " + place)


main()
