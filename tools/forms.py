#!/usr/bin/env python3
"""Counts, in the sources at a commit, the forms of code that docs/DESIGN-PASS.md speaks of.

    tools/forms.py [COMMIT] [-v]

With -v each place is printed. Text is compared, not meaning: what is found is read by hand afterwards.
"""
import re
import subprocess
import sys
from collections import defaultdict
from difflib import SequenceMatcher

arguments = [a for a in sys.argv[1:] if a != "-v"]
commit = arguments[0] if arguments else "HEAD"
verbose = "-v" in sys.argv

PATTERNS = [
    ("1 enums", r"^\s*(pub )?enum "),
    ("1 flags and counts beside a value", r"^\s*(pub )?\w+: bool,|\], (bool|usize)\)|outcome: Result"),
    ("1 numbers for kinds and refusals", r"(->|Result<)[^;]*, u8>|\.number\(\) [!=]=|Err\([0-9]+\)|\b(code|fault|tag_code): u8"),
    ("1 Option or Result taken apart by hand",
     r"None => (return )?(Err\(|None)|Err\((\w+)\) => (return )?Err\(|Ok\((\w+)\) => Ok\(|Err\(_\) => unreachable|let Some\(\w+\) = .* else \{|let Ok\(\w+\) = .* else \{|let _ ="),
    ("3 while", r"\bwhile\b"),
    ("3 for over a range", r"^\s*for \w+ in .*\.\."),
    ("3 enumerate", r"\.enumerate\(\)"),
    ("3 counters", r"^\s*\w+ \+= "),
    ("3 for with push or ?", None),
    ("4 comparisons, conversions, printing by impl",
     r"^impl.*\b(PartialEq|Eq|PartialOrd|Ord|Clone|Copy|From<.*|TryFrom<.*|FromStr|Display|Debug|Default|Hash) for "),
    ("4 conversions by function", r"fn (from_parts|named|fitting|number|into_\w+|to_\w+|value_or_fault|decode_len|u8|is_alike|of_table)\b"),
    ("4 printing by function", r"fn (name_of_\w+|put\w*|write\w*|say\w*|hex_digit|encode)\b"),
    ("6 lengths beside a buffer", r"^\s*(pub(\(crate\))? )?(len|filled|depth): usize"),
    ("7 matches that choose a step", r"\bmatch (\*?self|codec|unit|field|name|value|leaf|word|\w+\.hierarchy|hierarchy|kind|length|\w+\.code)\b"),
]


def git(*args):
    return subprocess.run(["git", *args], check=True, capture_output=True, text=True).stdout


files = [f for f in git("ls-tree", "-r", "--name-only", commit, "crates").split("\n")
         if re.match(r"crates/\w+/src/.*\.rt$", f)]
text = {f: git("show", f"{commit}:{f}") for f in files}


def show(name, places):
    print(f"{len(places):4}  {name}")
    if verbose:
        for p in places:
            print("        " + p)


def code_lines(f):
    for n, line in enumerate(text[f].split("\n"), 1):
        if not line.lstrip().startswith(("//", "ghost use")):
            yield n, line


for name, pattern in PATTERNS:
    if pattern is None:
        places = []
        for f in files:
            lines = list(code_lines(f))
            for i, (n, line) in enumerate(lines):
                if re.match(r"\s*for ", line):
                    body = " ".join(l for _, l in lines[i + 1:i + 4])
                    if re.search(r"\.push\(|let Some", body):
                        places.append(f"{f}:{n}: {line.strip()}")
        show(name, places)
        continue
    r = re.compile(pattern)
    show(name, [f"{f}:{n}: {line.strip()}" for f in files for n, line in code_lines(f) if r.search(line)])

# Functions: name, signature, clauses, body.
FN = re.compile(r"^( *)(?:pub(?:\(\w+\))? )?(?:extern \"C\" )?fn (\w+)", re.M)
functions = []
for f in files:
    src = text[f]
    for m in FN.finditer(src):
        rest = src[m.start():]
        end = re.search(r"^" + m.group(1) + r"\}|;$", rest, re.M)
        functions.append((f, m.group(2), rest[:end.end()] if end else rest))


def body_tokens(t):
    t = re.sub(r"//.*", "", t)
    t = re.sub(r"^\s*(requires|ensures)\b.*$", "", t, flags=re.M)
    return re.findall(r"\w+|[^\s\w]", t)


NUMERIC = re.compile(r"^(\d\w*|u8|u16|u32|u64|u128|usize|b|0x\w+|[A-Z]\w*)$")


def shape(tokens):
    return ["#" if NUMERIC.match(t) else t for t in tokens]


twins = []
for i, (f, n, t) in enumerate(functions):
    a = body_tokens(t)
    if len(a) < 20 or t.rstrip().endswith(";"):
        continue
    for g, m, u in functions[i + 1:]:
        b = body_tokens(u)
        if len(b) < 20 or u.rstrip().endswith(";"):
            continue
        if not 0.75 < len(a) / len(b) < 1.34:
            continue
        ratio = SequenceMatcher(None, shape(a), shape(b), autojunk=False).ratio()
        if ratio >= 0.85:
            twins.append(f"{ratio:.2f} {f} {n} ~ {g} {m}")
show("2 pairs of functions of one shape", twins)

impls = defaultdict(list)
for f in files:
    for n, line in code_lines(f):
        m = re.match(r"impl(?:<[^{]*?>)? (\w+)(?:<.*?>)? for ", line)
        if m:
            impls[m.group(1)].append(f"{f}:{n}")
show("2 traits with two impls or more", [f"{t}: {', '.join(ps)}" for t, ps in impls.items() if len(ps) >= 2])

clauses = defaultdict(list)
params = defaultdict(list)
for f, n, t in functions:
    crate = f.split("/")[1]
    for c in re.findall(r"^\s*(?:requires|ensures)(?: \w+)? \{(.*)\}\s*$", t, re.M):
        clauses[(crate, re.sub(r"\.(now|old|new|entry)\b", "", c.strip()))].append(n)
    head = re.split(r"^\s*(?:requires|ensures)|\{", t, maxsplit=1, flags=re.M)[0]
    names = sorted(n for n in set(re.findall(r"(\w+): (?!HostRuntime|Global)", head)) if n.islower() and n != "heap")
    for i, p in enumerate(names):
        for q in names[i + 1:]:
            params[(crate, p, q)].append(n)
show("5 clauses that stand on three functions or more of one crate",
     [f"{c}: {{ {x} }} of {', '.join(ns)}" for (c, x), ns in clauses.items() if len(ns) >= 3])
show("5 pairs of parameters in three functions or more of one crate",
     [f"{c}: {p}, {q} of {', '.join(ns)}" for (c, p, q), ns in params.items() if len(set(ns)) >= 3])
