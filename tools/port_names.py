#!/usr/bin/env python3
"""Brings this repository's own definitions and lemmas to the spelling of today's Rattle: words in snake case, facts and
types in camel case. Run once, at the top, right after port.py: usage: python3 tools/port_names.py

It goes by whole names, over specs/, proofs/ and the clauses of src/. Comments, strings, functions of src/ and the names
that Rattle makes (goals, steps, labels) stay. With --list it prints the names and their new spellings and changes nothing.
"""
import collections
import glob
import re
import sys

KEEP = {"goal", "need"}
# Names whose plain respelling would say something else.
BY_HAND = {
    "bit-xor": "bit_of_xor",  # bit_xor, bit_and and bit_or are std's
    "bit-and": "bit_of_and",
    "bit-or": "bit_of_or",
    "parityOf": "parity_of",
    "Are-bytes": "AreBytes",
    "big-endian": "big_endian",
    "little-endian": "little_endian",
}
SIGNED = re.compile(
    r"^\s*(?:(?:unfoldable|abbrev|pub|mutual)\s+)*([^\s(){}:.;,=]+)((?: +\([^)]*\)| +\{[^}]*\})*)\s*:(?!:)"
)
DECLARED = re.compile(r"^\s*(?:pub )?(?:record|data) +(?:pub )?([^\s(){}:.;,=]+)")
ANSWER = re.compile(r":\s*(goal|need)\.")


def respelled(name):
    if name in BY_HAND:
        return BY_HAND[name]
    if name[0].isupper():
        return "".join(part[0].upper() + part[1:] for part in name.split("-"))
    name = re.sub(r"([a-z0-9])([A-Z])", lambda m: m[1] + "_" + m[2].lower(), name)
    return name.replace("-", "_")


def declared(texts):
    """Every name with a dash or a hump that a file of specs/ or proofs/ gives a type, answers to goals aside."""
    names = set(BY_HAND)
    for path, text in texts.items():
        if not path.endswith(".antt"):
            continue
        for line in text.split("\n"):
            s = line.strip()
            if s.startswith(("--", "use ", "let ", "mod ", "pub mod ")) or ANSWER.search(line):
                continue
            for m in (SIGNED.match(line), DECLARED.match(line)):
                if m and (("-" in m[1]) or re.search(r"^[a-z].*[A-Z]", m[1])):
                    names.add(m[1])
    return names


def parts(path, text):
    """The text in pieces, each with whether names in it are turned."""
    comment = r"//[^\n]*" if path.endswith(".rt") else r"--[^\n]*"
    string = r'|b?"(?:\\.|[^"\\])*"' if path.endswith(".rt") else ""
    at = 0
    for m in re.finditer(f"(?:(?<=\\s)|^)(?:{comment}){string}", text, re.M):
        yield text[at : m.start()], True
        yield m[0], False
        at = m.end()
    yield text[at:], True


def main():
    paths = [p for p in glob.glob("crates/**/*", recursive=True) if p.endswith((".antt", ".rt"))]
    texts = {p: open(p, encoding="utf-8").read() for p in paths}
    names = {n: respelled(n) for n in declared(texts)}
    by_new = collections.defaultdict(list)
    for old, new in names.items():
        by_new[new].append(old)
    for new, olds in by_new.items():
        if len(olds) > 1:
            print(f"look: {', '.join(sorted(olds))} would all be {new}")
    if "--list" in sys.argv:
        for old in sorted(names):
            print(old, names[old])
        return
    word = re.compile(r"(?<![\w'\-])(" + "|".join(sorted(map(re.escape, names), key=len, reverse=True)) + r")(?![\w'\-])")
    for path, text in texts.items():
        out = "".join(word.sub(lambda m: names[m[1]], t) if turned else t for t, turned in parts(path, text))
        if out != text:
            with open(path, "w", encoding="utf-8") as f:
                f.write(out)


main()
