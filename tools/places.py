#!/usr/bin/env python3
"""Counts the places in src/ and proofs/ that an older form of the language leaves, point by point.

usage: tools/places.py [--list] [REV]       at the top of the checkout; without REV the working tree; --list prints each place
A place is found by its text, so each has to be read: docs/DESIGN-PASS.md says of each what it is.
"""
import re
import subprocess
import sys

args = [a for a in sys.argv[1:] if a != "--list"]
rev = args[0] if args else None


def git(*words):
    return subprocess.run(["git", *words], capture_output=True, text=True, check=True).stdout


names = git("ls-tree", "-r", "--name-only", rev).split() if rev else git("ls-files", "-co", "--exclude-standard").split()
texts = {}
for n in sorted(names):
    if re.match(r"crates/[a-z0-9_]+/(src/.*\.rt|proofs/.*(Answers|Invariants)\.antt)$", n):
        texts[n] = git("show", f"{rev}:{n}") if rev else open(n, encoding="utf-8").read()
sources = {n: t for n, t in texts.items() if n.endswith(".rt")}


def lines(pattern, skip=r"^\s*//"):
    return [(n, i, l.strip()) for n, t in sources.items() for i, l in enumerate(t.split("\n"), 1) if re.search(pattern, l) and not re.search(skip, l)]


def signatures():
    for n, t in sources.items():
        for m in re.finditer(r"\bfn (\w+)(?:<[^(]*>)?\(([^)]*(?:\([^)]*\)[^)]*)*)\)", t):
            yield n, t[: m.start()].count("\n") + 1, m.group(1), [p for p in re.split(r",\s*(?![^<(]*[>)])", m.group(2).strip().rstrip(",")) if p]


def clauses():
    seen = {}
    for n, t in sources.items():
        for m in re.finditer(r"^\s*requires (?:\w+ )?\{(.*?)\}\s*$", t, re.M | re.S):
            for fact in re.split(r"\s×\s", " ".join(m.group(1).split())):
                fact = re.sub(r"^\((.*)\)$", r"\1", fact.strip())
                seen.setdefault(fact, []).append((n, t[: m.start()].count("\n") + 1, fact))
    return [p for places in seen.values() if len(places) > 2 for p in places]


named = {}
for n, i, f, _ in signatures():
    named.setdefault(f, []).append((n, i, "fn " + f))
points = [
    ("1 own enums", lines(r"^\s*(pub |pub\(crate\) )?enum ")),
    ("1 a number or a flag for 'none', tested", lines(r"(==|!=) 0\b|\b0 (==|!=)|< 0\b|\.well\b")),
    ("2 functions of one name", [p for ps in named.values() if len(ps) > 1 for p in ps]),
    ("3 loops", lines(r"^\s*(let \w+ = )?('\w+: )?(while|loop|for)\b")),
    ("4 casts", lines(r" as (u8|u16|u32|u64|usize|isize)\b")),
    ("4 comparing, converting, copying by hand", lines(r"\bfn (less|more|least|greater|equal|mirrors|same|wide|between|due_number|copy|append|reverse_into|entry|label_at)\b")),
    ("5 functions of more than six parameters", [(n, i, f"fn {f}: {len(ps)}") for n, i, f, ps in signatures() if len(ps) > 6]),
    ("5 facts that three or more contracts ask", clauses()),
    ("6 arrays", lines(r"(:|=|->) (&mut )?\[.*; .*\]")),
    ("7 a bool that says which step", lines(r"^\s*(\w+: bool,|.*\bfn .*: bool\b.*)$")),
]
for what, places in points:
    print(f"{len(places):5}  {what}")
    if "--list" in sys.argv:
        for n, i, text in places:
            print(f"         {n}:{i}: {text[:110]}")
goals = {}
for n, t in texts.items():
    if n.endswith("Answers.antt"):
        crate = n.split("/")[1]
        goals[crate] = goals.get(crate, 0) + len(re.findall(r"^\s*(?:pub )?\S+ : goal\.\S+\s*$", t, re.M))
print(f"{sum(goals.values()):5}  8 goals answered by hand: " + ", ".join(f"{c} {k}" for c, k in sorted(goals.items()) if k))
