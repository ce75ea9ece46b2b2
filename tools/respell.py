#!/usr/bin/env python3
"""Spells this repository's own definitions and lemmas as Rattle's style asks: words in snake case.

Run once, at the top, right after port.py. It goes by text: a name that a file of specs/ or proofs/ declares in camel case
gets underscores, wherever it stands in crates/, in clauses, specs, proofs and must-fail edits. `result`, a word of today's
clauses, becomes `result_words` where it is the definition of that name, and a clause that kept its λ for its sake loses it.
"""

import os
import re

DECLARED = re.compile(r"\s*(?:(?:abbrev|unfoldable|pub)\s+)*([a-z][^\s:({]*)\s*(?:[:({]|$)")
FACTS = {"validRatio": "ValidRatio"} # a fact is spelled as a type
# Names that would fall together with one that gets underscores: in these crates' specs/ and proofs/*.antt.
APART = {
    "index_theory": {"is_greater": "is_greater_lem", "is_divisor": "is_divisor_lem", "same_index": "same_index_lem"},
    "kd_leaf": {"goes_on": "goes_on_lem"},
    "kd_theory": {"goes_other": "goes-other"},
}
HUMP = re.compile(r"(?<=[a-z0-9])([A-Z])")
WORD = re.compile(r"(?<![\w'])[a-z][\w']*")
KEPT = re.compile(r"ensures\*( \w+)? \{ λ (\w+)\. ⌜ (.*) ⌝ \}$")


def files(*endings):
    for folder, dirs, names in os.walk("crates"):
        dirs[:] = sorted(d for d in dirs if d != "out")
        for name in sorted(names):
            if name.endswith(endings):
                yield os.path.join(folder, name)


def read(path):
    with open(path, encoding="utf-8") as f:
        return f.read()


def humped():
    """The words in camel case that some name declared in specs/ or proofs/ is made of."""
    found = set()
    for path in files(".antt"):
        for line in read(path).split("\n"):
            m = DECLARED.match(line)
            if m and not line.startswith(("use ", "--")):
                found |= {w for w in WORD.findall(m[1]) if HUMP.search(w)}
    return found


def plain(word):
    return FACTS.get(word) or HUMP.sub(lambda m: "_" + m[1].lower(), word)


def apart(path, text):
    part = path.split(os.sep)
    if path.endswith(".antt") and len(part) == 4:
        for old, new in APART.get(part[1], {}).items():
            text = re.sub(rf"(?<![\w.'-]){old}(?![\w'-])", new, text)
    return text


def result_words(path, text):
    """`result` where it is the definition of crates/monomial/specs/Operations.antt."""
    own = path.endswith("monomial/specs/Operations.antt")
    if not own and not re.search(r"specs\.Operations\.\{[^}]*(?<![\w-])result(?![\w-])", text):
        return text
    out = []
    for line in text.split("\n"):
        if not line.lstrip().startswith(("--", "//")):
            line = re.sub(r"(?<![\w.'-])result(?![\w'-])", "result_words", line)
        out.append(no_lambda(line) if path.endswith(".rt") else line)
    return "\n".join(out)


def no_lambda(line):
    m = KEPT.search(line)
    if not m:
        return line
    body = m[3] if m[2] == "_" else re.sub(rf"(?<![\w.'-]){m[2]}(?![\w'-])", "result", m[3])
    return line[: m.start()] + f"ensures{m[1] or ''} {{ {body} }}"


def main():
    words = humped()
    names = re.compile(r"(?<![\w'])(" + "|".join(sorted(map(re.escape, words), key=len, reverse=True)) + r")(?![\w'])")
    for path in files(".antt", ".rt", ".edit"):
        text = read(path)
        new = names.sub(lambda m: plain(m[1]), result_words(path, apart(path, text)))
        if new != text:
            with open(path, "w", encoding="utf-8") as f:
                f.write(new)


if __name__ == "__main__":
    main()
