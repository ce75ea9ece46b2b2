#!/usr/bin/env python3
"""Prints, for docs/DESIGN-PASS.md, each public signature, clause, type, definition and theorem that differs from those of a commit, old (-) and new (+):
`tools/changes.py COMMIT`. It reads by the rules of the kit's contracts.py; the theorems of proofs/ are read here."""
import os
import re
import subprocess
import sys
import tempfile

sys.path.insert(0, "/opt/rattle/port")
import contracts


def theorems(root):
    """The statements of proofs/*.antt by crate and name; answers and invariants of one function are no theorems."""
    out = {}
    for folder, _, names in os.walk(os.path.join(root, "crates")):
        parts = os.path.relpath(folder, root).split(os.sep)
        if len(parts) < 3 or parts[2] != "proofs" or "out" in parts:
            continue
        for f in names:
            if not f.endswith(".antt") or f in ("Answers.antt", "Invariants.antt", "Proof.antt", "Lib.antt"):
                continue
            lines = open(os.path.join(folder, f), encoding="utf-8").read().split("\n")
            for i, line in enumerate(lines):
                m = re.match(r"(?:(?:pub|abbrev|unfoldable) )*(?:(record|data) )?([^\s:(){},=|]+)(?: .*)? :(?: |$)", line) or re.match(r"(?:(?:pub|abbrev|unfoldable) )*(record|data) ([^\s:]+)", line) or re.match(r"(?:pub )?()([^\s:(){},=|]+)$", line)
                if not m or line.startswith(("use ", "pub mod", "mod ", "--")):
                    continue
                text = [line]
                for after in lines[i + 1 :]:
                    if not after.startswith(" "):
                        break
                    text.append(after)
                out.setdefault((parts[1], m[2]), []).append(contracts.squeeze(" ".join(text)))
    return out


def types(root):
    """The declarations of structs, enums and traits in src/."""
    out = {}
    for folder, _, names in os.walk(os.path.join(root, "crates")):
        parts = os.path.relpath(folder, root).split(os.sep)
        if len(parts) < 3 or parts[2] != "src":
            continue
        for f in names:
            if not f.endswith(".rt"):
                continue
            raw = open(os.path.join(folder, f), encoding="utf-8").read()
            t = contracts.blank(raw)
            for m in re.finditer(r"^pub (?:struct|enum|trait) (\w+)", t, re.M):
                j = re.compile(r"[{;(]").search(t, m.end()).start()
                end = contracts.closing(t, j) if t[j] == "{" else t.find(";", j) + 1
                text = "\n".join(re.sub(r"\s*//.*", "", l) for l in raw[m.start() : end].split("\n"))
                out.setdefault((parts[1], m[1]), []).append(contracts.squeeze(text))
    return out


def show(title, rows):
    if rows:
        print(f"### {title}\n")
        for name, old, new in rows:
            print(f"{name}\n")
            print("\n".join([f"    - {x}" for x in old] + [f"    + {x}" for x in new]) + "\n")


def beside(old, new):
    """Rows of what changed, went or came; what only moved to another crate, with the same text, is none."""
    rows = []
    texts = {(k[1], x) for k, v in new.items() for x in v}
    for k in sorted(set(old) | set(new)):
        a = sorted(x for x in old.get(k, []) if x not in new.get(k, []) and (k[1], x) not in texts)
        b = sorted(x for x in new.get(k, []) if x not in old.get(k, []) and not any(x in v and q[1] == k[1] for q, v in old.items()))
        if a or b:
            rows.append(("`" + " ".join(k) + "`", a, b))
    return rows


# Functions that have another name, crate or type now, where a method of the same name in the same crate does not tell.
NOW = {
    ("divisor_index", "opening_good"): ("divisor_index", "is_good"),
    ("divmask", "map"): ("divmask", "map"),
    ("divmask_table", "bits_at"): ("divmask", "bits_at"),
    ("divmask_table", "put_pair"): ("words", "put"),
    ("index_image", "label_in"): ("index_image", "label"),
    ("index_image", "map_of"): ("index_image", "map", "Image<'a>"),
    ("index_image", "masks_of"): ("divmask", "map_pair"),
    ("index_tables", "in_range"): ("label_sound", "numbers_ok"),
    ("kd_labelling", "label_at"): ("index_image", "row_label"),
    ("kd_slots", "mask_of"): ("divmask", "map"),
    ("label_insert", "highest"): ("label_insert", "free_labels"),
    ("label_insert", "lowest"): ("label_insert", "free_labels"),
    ("query_writing", "put_six"): ("query_writing", "put_all"),
}


def moved(old, new, gone):
    """Old and new contract of each function that is a method now, or has another name."""
    text = lambda f: ["fn" + f["sign"]] + [f"{w} {{ {c[2]} }}" for w in ("requires", "ensures") for c in f[w]]
    rows, rest = [], []
    for name in gone:
        crate, file, *_ = name.split(" ")
        fn = name.split(" (")[0].split(" ")[-1]
        olds = [f for k, v in old.items() if (k[0], k[1], k[3]) == (crate, file, fn) for f in v]
        to = NOW.get((crate, fn), (crate, fn))
        if name.startswith("divmask src/pairs.rt map "):
            to = ("divmask", "map_pair")
        news = [(k, f) for k, v in new.items() if (k[0], k[3]) == to[:2] and to[2:] in ((), (k[2],)) and (k not in old or to[0] == "label_sound") for f in v]
        if olds and news:
            k, f = news[0]
            rows.append((f"`{name.split(' (')[0]}`, now `{' '.join(x for x in k if x)}`", text(olds[0]), text(f)))
        else:
            rest.append(name)
    return rows, rest


def main():
    commit = sys.argv[1]
    with tempfile.TemporaryDirectory() as d:
        subprocess.run(f"git archive {commit} crates crates.txt | tar -x -C {d}", shell=True, check=True)
        n = os.path.join(d, "new")
        os.mkdir(n)
        subprocess.run(f"git ls-files crates crates.txt | tar -c -T - 2>/dev/null | tar -x -C {n}", shell=True, check=True)
        r = contracts.compare(d, n)
        # a program's functions are its own affair
        ours = lambda name: not os.path.exists(os.path.join(n, "crates", name.split(" ")[0], "src", "main.rt"))
        signs = {x[0]: x for x in r["signatures changed"]}
        clauses = {x[0]: x for x in r["contracts changed"]}
        rows = []
        for name in filter(ours, sorted(set(signs) | set(clauses))):
            old, new = [], []
            if name in signs:
                old.append("fn" + signs[name][1])
                new.append("fn" + signs[name][2])
            if name in clauses:
                for word, i in (("requires", 1), ("ensures", 2)):
                    a, b = ([(c[0] + " " + c[1]).strip() for c in clauses[name][k]] for k in (i, i + 2))
                    ta, tb = [c[1] for c in clauses[name][i]], [c[1] for c in clauses[name][i + 2]]
                    old += [f"{word} {{ {c} }}" for c in ta if c not in tb]
                    new += [f"{word} {{ {c} }}" for c in tb if c not in ta]
            if old or new:
                rows.append(("`" + name + "`", old, new))
        show("Functions", rows)
        rows, rest = moved(contracts.read(d)[1], contracts.read(n)[1], [x for x in r["functions not found again"] if ours(x)])
        show("Functions that moved", rows)
        show("Functions that are gone", [(f"`{x}`", [], []) for x in rest])
        show("Types", [x for x in beside(types(d), types(n)) if ours(x[0].strip("`"))])
        ghosts = r["ghost items and constants"]
        show("Ghost items and constants", [x for x in [("`" + " ".join(x[:-2]) + "`", x[-2], x[-1]) for x in ghosts["changed"]] + [("`" + " ".join(x) + "`, gone", [], []) for x in ghosts["gone"]] if ours(x[0].strip("`"))])
        specs = [contracts.read(x)[3] for x in (d, n)]
        show("Definitions of specs/", beside(*specs))
        show("Theorems and lemmas of proofs/", beside(theorems(d), theorems(n)))


main()
