#!/usr/bin/env python3
"""Counts the places of docs/DESIGN-PASS.md in the crates: `tools/places.py` in the working tree, `tools/places.py COMMIT` in a commit.
With --list WORD the lines of the rows whose name holds WORD are printed too."""
import collections
import difflib
import re
import subprocess
import sys

ROWS = [
    ("1 own enums", r"^\s*(pub )?enum \w"),
    ("1 a flag in a struct", r"^\s*(pub )?\w+: bool,"),
    ("1 numbers for none (comments that say 0 for none)", r"//.*\b(0 (where|for|if)|or 0\b|0, or)"),
    ("1 numbers for refusals", r"refusal_word\(\d+\)|^\s*return ([1-9]|10);|\d+ \* 4294967296,|=> ([1-9]|10),$"),
    ("1 numbers for kinds", r"\bkind: u(32|size)\b|kind(\([^=!]*\))? [!=]= \d|\bkind < \d"),
    ("3 loops by hand", r"^\s*(while |loop \{)"),
    ("3 for loops", r"^\s*for "),
    ("4 widening casts", r" as (u64|usize|u32)\b"),
    ("4 words by hand", r"16777216|65536 \* w"),
    ("4 lesser and greater by hand", r"if (\w+) (<|<=|>) (\w+) \{ (\1|\3) \} else \{ (\1|\3) \}"),
    ("6 buffers of bytes", r"= \[0u8; "),
    ("7 a chain's test of a number", r"^\s*if \w+ == \d+ \{$"),
    ("7 matches", r"^\s*(let .* = )?match "),
]


def read(commit):
    if commit:
        names = subprocess.run(["git", "ls-tree", "-r", "--name-only", commit, "crates"], capture_output=True, text=True, check=True).stdout.split("\n")
    else:
        names = subprocess.run(["git", "ls-files", "crates"], capture_output=True, text=True, check=True).stdout.split("\n")
    out = {}
    for n in names:
        if not re.search(r"/src/.*\.rt$|/proofs/.*Answers\.antt$", n):
            continue
        if commit:
            out[n] = subprocess.run(["git", "show", f"{commit}:{n}"], capture_output=True, text=True, check=True).stdout
        else:
            try:
                out[n] = open(n).read()
            except FileNotFoundError:
                pass
    return out


def functions(text):
    """Name, clauses and body of each function."""
    lines = text.split("\n")
    i = 0
    while i < len(lines):
        m = re.match(r"(\s*)(pub )?(extern \"C\" )?fn (\w+)", lines[i])
        if not m:
            i += 1
            continue
        pad, j = m.group(1), i
        clauses = []
        while j < len(lines) and lines[j] != pad + "{" and not lines[j].startswith(pad + "}"):
            c = re.match(r"\s*requires (?:\w+ )?\{ (.*) \}$", lines[j])
            if c:
                clauses.append(c.group(1))
            j += 1
        k = j
        while k < len(lines) and not lines[k].startswith(pad + "}"):
            k += 1
        yield m.group(4), clauses, "\n".join(lines[j + 1 : k])
        i = k + 1


def twins(files):
    """Pairs of functions of four lines or more whose bodies differ in less than a sixth of their words, names and numbers apart."""
    bodies = []
    for n, t in files.items():
        if n.endswith(".rt"):
            for name, _, body in functions(t):
                words = re.findall(r"\w+|[^\w\s]", re.sub(r"//.*", "", body))
                words = [w if w in ("if", "else", "while", "for", "loop", "match", "return", "let", "mut") else "n" if w.isalnum() else w for w in words]
                if body.count("\n") >= 3:
                    bodies.append((n, name, words))
    found = []
    for i in range(len(bodies)):
        for j in range(i):
            a, b = bodies[i], bodies[j]
            if min(len(a[2]), len(b[2])) * 8 < 7 * max(len(a[2]), len(b[2])):
                continue
            s = difflib.SequenceMatcher(None, a[2], b[2], autojunk=False)
            if s.quick_ratio() > 0.93 and s.ratio() > 0.93:
                found.append(f"{b[0]} {b[1]} ~ {a[0]} {a[1]}")
    return found


def main():
    args = [a for a in sys.argv[1:] if not a.startswith("--")]
    word = None
    if "--list" in sys.argv:
        word = args.pop()
    files = read(args[0] if args else None)
    for name, pattern in ROWS:
        r = re.compile(pattern)
        hits = []
        for n, t in sorted(files.items()):
            if n.endswith(".rt"):
                for i, line in enumerate(t.split("\n"), 1):
                    code = line if "//" in pattern else line.split("//")[0].rstrip()
                    hits += [f"{n}:{i}: {line.strip()}"] * len(r.findall(code))
        print(f"{name}: {len(hits)}")
        if word and word in name:
            print("\n".join("    " + h for h in hits))
    found = twins(files)
    print(f"2 twins (pairs of bodies alike but for names and numbers): {len(found)}")
    if word and word in "twins":
        print("\n".join("    " + f for f in found))
    count = collections.Counter()
    for n, t in files.items():
        if n.endswith(".rt"):
            for name, clauses, _ in functions(t):
                count.update(set(clauses))
    often = {c: k for c, k in count.items() if k >= 3}
    print(f"5 clauses that stand in three functions or more: {len(often)}, {sum(often.values())} times")
    if word and word in "clauses":
        print("\n".join(f"    {k} {c}" for c, k in sorted(often.items(), key=lambda x: -x[1])))
    answers = [t for n, t in files.items() if n.endswith("Answers.antt")]
    print(f"8 answers: {sum(len(re.findall(r'(?m)^pub [^:]* : goal', t)) for t in answers)} in {sum(t.count(chr(10)) for t in answers)} lines")


main()
