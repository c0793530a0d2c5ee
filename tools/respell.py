#!/usr/bin/env python3
"""Brings the names that this repository declares in its specs and proofs to snake case, once, after the kit's own porting script.

usage: python3 tools/respell.py     at the top of the repository

A name of a definition, a lemma, a record's field or a constructor that has a dash between words, as field-number, is written with
an underscore, as field_number, wherever it stands in a clause, a definition or a proof. Names that the toolchain makes for goals and
steps keep their dashes, and so do names that a file takes from the toolchain's library. Text in comments stays, but for the lists of
main statements at the head of a file. Nothing in the code of src/ is touched but clauses and ghost imports.
"""

import os
import re
import sys

NAME = re.compile(r"[^\s(){}\[\],;:.«»\"`]+")
DECLARED = re.compile(r"^\s*(?:pub |abbrev |unfoldable |record |data )*([^\s(){}\[\],;:.]+)\s*(?:\([^)]*\)\s*|\{[^}]*\}\s*)*:(?=\s)")
IMPORT = re.compile(r"^\s*(?:pub )?(?:ghost )?use ([\w.]+)\.\{(.*)\}")
# whole names, in camel case or in an operator's form, that have no dash to go by
OTHERS = {
    "◌or-else◌": "◌or_else◌",
    "or-else": "or_else",
    "sameM": "same_mono",
    "lessM": "less_mono",
    "addS": "add_sums",
    "negS": "opposite_sum",
    "mulS": "mul_sums",
    "evalM": "eval_mono",
    "evalS": "eval_sum",
    "choiceM": "choice_mono",
    "choiceS": "choice_sum",
    "sameM→eq": "same_mono→eq",
    "addS-ok": "add_sums_ok",
    "negS-ok": "opposite_sum_ok",
    "mulS-ok": "mul_sums_ok",
}


def files(crate):
    for folder, dirs, names in os.walk(os.path.join("crates", crate)):
        dirs[:] = sorted(d for d in dirs if d != "out")
        for name in sorted(names):
            if name.endswith((".antt", ".rt")):
                yield os.path.join(folder, name)


def dashed(name):
    return re.search(r"[\w⊕⊗]-[\w⊕⊗]", name) is not None


def own(path, crates):
    parts = path.split(".")
    return parts[0] == "Rattle" and len(parts) > 1 and parts[1] in crates


def main():
    crates = sorted(os.listdir("crates"))
    texts = {p: open(p, encoding="utf-8").read() for c in crates for p in files(c)}
    declared, goals = set(), set()
    for p, text in texts.items():
        if not p.endswith(".antt"):
            continue
        for line in text.split("\n"):
            if line.lstrip().startswith("--") or IMPORT.match(line):
                continue
            goals.update(re.findall(r"\bgoal\.([^\s(){}\[\],;]+)", line))
            m = DECLARED.match(line)
            if m and not re.search(r":\s+goal\.", line):
                declared.add(m.group(1))
    turned = {n: n.replace("-", "_") for n in declared if dashed(n) and n not in goals}
    turned.update(OTHERS)
    taken = sorted(new for old, new in turned.items() if old in declared and new in declared)
    if taken:
        sys.exit(f"respell: these names would fall together with names that stand: {taken}")

    changed = 0
    for p, text in texts.items():
        lines, kept, heads = text.split("\n"), set(), False
        for line in lines:
            m = IMPORT.match(line)
            if m and not own(m.group(1), crates):
                for it in m.group(2).split(","):
                    words = it.split(" as ")
                    if len(words) == 1:
                        kept.add(it.strip())
        out = []
        for line in lines:
            m = IMPORT.match(line)
            comment = line.lstrip().startswith("--" if p.endswith(".antt") else "//")
            if comment:
                heads = "Main statement" in line or (heads and line.startswith("--"))
                if not heads:
                    out.append(line)
                    continue
            else:
                heads = False
            if m and not own(m.group(1), crates):
                # only what a library's name is called here
                line = re.sub(r"( as )([^\s,}]+)", lambda w: w.group(1) + turned.get(w.group(2), w.group(2)), line)
            else:
                line = NAME.sub(lambda w: turned.get(w.group(0), w.group(0)) if w.group(0) not in kept else w.group(0), line)
            out.append(line)
        new = "\n".join(out)
        if new != text:
            changed += 1
            with open(p, "w", encoding="utf-8") as f:
                f.write(new)
    print(f"respell: {len(turned)} names, {changed} files changed")


if __name__ == "__main__":
    main()
