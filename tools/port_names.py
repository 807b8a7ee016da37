#!/usr/bin/env python3
"""Brings the definitions and lemmas of this repository to today's spelling, once, after the kit's own port.py.

usage: tools/port_names.py     at the top of a checkout

Definitions, lemmas and fields are in snake case; types and modules keep their capitals. A dash stays only where it joins two names of
definitions, as in `splice-length`. The answers to a function's goals keep their names, since the kit gives them. A name that would fall
together with another one is printed and stays as it is.
"""
import os
import re
import sys

HEAD = re.compile(r"^\s*(?:(?:abbrev|unfoldable|pub|axiom)\s+)*([A-Za-z_µμ][\w'-]*)((?:\s+[A-Za-z_][\w'-]*)*)\s*:\s*(.*)$")
KIND = re.compile(r"^\s*(?:pub\s+)?(?:record|data|module)\s")
TOKEN = re.compile(r"[^\W\d][\w'ᴰ·?-]*|«[^»]*»")
CASES = re.compile(r"(?<=[a-z0-9])([A-Z])")
# Names that would fall together with a field of a struct.
PLAIN = {"nameBuckets": "name_bucket_count", "valueBuckets": "value_bucket_count", "usedNodes": "used_node_count"}
# Lemmas that give way to a definition, and variables, in one file each.
GIVES_WAY = {
    "crates/frames/proofs/Pairs.antt": {"is_digit": "is_digit_lem"},
    "crates/frames/proofs/Digits.antt": {"is_digit": "is_digit_lem"},
    "crates/strings/proofs/Prefetched.antt": {"stands_at": "stands_here"},
    "crates/strings/proofs/ahead/text_span_at/Proof.antt": {"stands_at": "stands_here"},
    "crates/strings/proofs/OldTexts.antt": {"text_in": "text_in_lem"},
    "crates/nodes/proofs/Agree.antt": {"text_at": "text_kept"},
    "crates/nodes/specs/inner/Held.antt": {"valueBuckets": "value_buckets"},
}
STD = {"length", "take", "drop", "set", "get_or", "append", "map", "reverse", "sum", "replicate", "cond", "zero", "suc", "min", "max"}


def files(*endings):
    for folder, dirs, names in os.walk("crates"):
        dirs[:] = sorted(d for d in dirs if d != "out")
        for n in sorted(names):
            if n.endswith(endings):
                yield os.path.join(folder, n)


def text(p):
    with open(p, encoding="utf-8") as f:
        return f.read()


def declared():
    """Every name that a file of ours declares; the names of definitions of specs/; the answers to goals."""
    own, defined, answers = set(), set(), set()
    for p in files(".antt"):
        if "/+" in p:  # a cycle of calls has a folder of its own, and only answers in it
            continue
        for line in text(p).split("\n"):
            m = HEAD.match(line)
            if not m or KIND.match(line) or line.lstrip().startswith("--"):
                continue
            for n in (m[1] + m[2]).split():
                if re.match(r"\(?\w+ : tie\.|tie\.", m[3]) and not m[3].startswith("("):
                    answers.add(n)
                elif re.match(r"statement\b|\{M : Type 1\} → statement", m[3]):
                    answers.add(n)
                else:
                    own.add(n)
                    if "/specs/" in p:
                        defined.add(n)
    return own, defined, answers


def respelled(n, known):
    if n[0].isupper():
        return n
    snake = CASES.sub(lambda m: "_" + m[1].lower(), n)
    parts = snake.split("-")
    if len(parts) > 1 and all(x in known for x in parts):
        return snake
    return "_".join(parts)


def camels():
    """Every word in camel case that begins small: also definitions over several lines, and variables."""
    found = set()
    for p in files(".antt"):
        for line in text(p).split("\n"):
            for m in TOKEN.finditer(line.split("--")[0]):
                if m[0][0].islower() and CASES.search(m[0]) and "-" not in m[0] and "·" not in m[0]:
                    found.add(m[0])
    return found


def table():
    own, defined, answers = declared()
    lower = {n for n in defined if not n[0].isupper()}
    known = STD | {CASES.sub(lambda m: "_" + m[1].lower(), n) for n in lower}
    turned, to = dict(PLAIN), {b: a for a, b in PLAIN.items()}
    given = {a for names in GIVES_WAY.values() for a in names} | set(PLAIN)
    own = (own | camels()) - given
    for n in sorted(own - answers, key=lambda n: ("-" in n, n)):
        new = respelled(n, known)
        if new == n:
            continue
        if new in own or new in to or new in {"in", "as", "data"}:
            print(f"stays: {n} (would be {new})")
            continue
        turned[n] = new
        to[new] = n
    return turned


def turn(t, turned):
    return TOKEN.sub(lambda m: turned.get(m[0], m[0]), t)


def in_quotes(t, turned):
    return re.sub(r"`[^`\n]*`", lambda m: turn(m[0], turned), t)


def line_by_line(t, turned, mark):
    out = []
    for line in t.split("\n"):
        i = line.find(mark)
        head, note = (line, "") if i < 0 else (line[:i], line[i:])
        camel = {a: b for a, b in turned.items() if "-" not in a}
        out.append(turn(head, turned) + turn(in_quotes(note, turned), camel))
    return "\n".join(out)


def main():
    turned = table()
    for p in files(".antt"):
        write(p, line_by_line(text(p), turned | GIVES_WAY.get(p, {}), "--"))
    for p in files(".rt", ".edit"):
        write(p, line_by_line(text(p), turned, "//"))
    for top in ("README.md", "CONTRIBUTING.md", "docs"):
        for folder, dirs, names in os.walk(top) if os.path.isdir(top) else [(".", [], [top])]:
            for n in names:
                if n.endswith(".md") and n not in ("PORT.md",):
                    p = os.path.join(folder, n)
                    write(p, in_quotes(text(p), turned))
    print(f"{len(turned)} names respelled")


def write(p, t):
    if t != text(p):
        with open(p, "w", encoding="utf-8") as f:
            f.write(t)


if __name__ == "__main__":
    sys.exit(main())
