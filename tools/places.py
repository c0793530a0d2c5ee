#!/usr/bin/env python3
"""Finds the places in crates/*/src that read like an older language, point by point.

    python3 tools/places.py            counts the places of the files as they stand
    python3 tools/places.py --list     and lists them
    python3 tools/places.py --at COMMIT [--list]     the same of the files of a commit

The points are those of docs/DESIGN-PASS.md. Each is found by a plain rule on the text (below); a rule finds places to look at, and
the page says of each that is left why it stays.
"""
import collections
import re
import subprocess
import sys


def read(commit):
    if commit:
        names = subprocess.run(["git", "ls-tree", "-r", "--name-only", commit, "crates"], capture_output=True, text=True, check=True).stdout.split()
        names = [n for n in names if re.match(r"crates/[^/]+/src/.*\.rt$", n)]
        return {n: subprocess.run(["git", "show", f"{commit}:{n}"], capture_output=True, text=True, check=True).stdout for n in names}
    names = subprocess.run(["git", "ls-files", "--cached", "--others", "--exclude-standard", "crates"], capture_output=True, text=True, check=True).stdout.split()
    found = {}
    for n in names:
        if re.match(r"crates/[^/]+/src/.*\.rt$", n):
            try:
                found[n] = open(n).read()
            except FileNotFoundError:
                pass
    return found


def functions(text):
    """The functions of a file: line, name, head (signature and clauses), body."""
    lines = text.split("\n")
    out = []
    i = 0
    while i < len(lines):
        m = re.match(r"(\s*)(pub(\([a-z]+\))? )?fn (\w+)", lines[i])
        if not m:
            i += 1
            continue
        indent = m.group(1)
        j = i
        while j < len(lines) and not (lines[j] == indent + "{" or lines[j].rstrip().endswith("{") and not re.match(r"\s*(requires|ensures)", lines[j]) or lines[j].rstrip().endswith(";") and not re.match(r"\s*(requires|ensures)", lines[j])):
            if re.match(r"\s*(requires|ensures)[^{]*\{.*\};$", lines[j]):
                break
            j += 1
        head = "\n".join(lines[i : j + 1])
        k = j
        while k < len(lines) and lines[k] != indent + "}" and not (k == j and lines[j].rstrip().endswith((";", "}"))):
            k += 1
        out.append((i + 1, m.group(4), head, "\n".join(lines[j + 1 : k])))
        i = max(k, i + 1)
    return out


def lines_with(files, pattern, where=lambda n: True):
    found = []
    for n, text in sorted(files.items()):
        if not where(n):
            continue
        for i, line in enumerate(text.split("\n"), 1):
            if re.search(pattern, line) and not line.lstrip().startswith("//"):
                found.append((f"{n}:{i}", line.strip()))
    return found


def product(name):
    return not name.startswith("crates/vectors/")


def main():
    args = sys.argv[1:]
    commit = args[args.index("--at") + 1] if "--at" in args else None
    files = read(commit)
    own = {n: t for n, t in files.items() if product(n)}
    all_functions = [(n, *f) for n, t in sorted(own.items()) for f in functions(t)]
    points = collections.OrderedDict()

    points["1 numbers for kinds"] = lines_with(files, r"_KIND\b|\bWHOLE: u8|\bkind: u8|\(u8, usize, usize\)")
    points["1 flags for refusals: a bool from a function that writes"] = [
        (f"{n}:{line}", name) for n, line, name, head, body in all_functions if "-> bool" in head and "&mut" in head.split("requires")[0].split("ensures")[0]
    ]
    points["1 a refusal as Option, or an Option in a Result"] = lines_with(own, r"-> Option<\w*Fault>|Result<Option<")
    points["1 cases of a Result spelled out in a clause"] = lines_with(files, r"(requires|ensures).*elim result")

    names = collections.defaultdict(list)
    for n, line, name, head, body in all_functions:
        if body and "impl" not in name:
            names[re.sub(r"\s+", " ", body)].append((n, line, name))
    same_name = collections.defaultdict(list)
    for n, line, name, head, body in all_functions:
        same_name[name].append((f"{n}:{line}", name))
    public_methods = {"number", "layer", "index", "order", "sum", "opposite", "product", "characteristic", "exponent", "inverse", "new", "from", "fmt", "drop", "main", "unit", "parts", "steps", "place", "run"}
    points["2 functions of one name in several files"] = [p for name, ps in sorted(same_name.items()) if len(ps) > 1 and name not in public_methods for p in ps]
    constants = collections.defaultdict(list)
    for n, text in sorted(own.items()):
        for i, line in enumerate(text.split("\n"), 1):
            m = re.match(r"\s*(pub(\(crate\))? )?const (\w+): [^=]+= (\d+);", line)
            if m:
                constants[m.group(3)].append((f"{n}:{i}", line.strip()))
    points["2 constants of one name in several files"] = [p for name, ps in sorted(constants.items()) if len(ps) > 1 for p in ps]

    points["3 loops over an index"] = lines_with(files, r"\bfor (?!_ )\w+ in [^{]*\.\.")
    points["3 loops that count by hand"] = [
        (f"{n}:{line}", name) for n, line, name, head, body in all_functions if re.search(r"^\s*(while|loop|for)\b", body, re.M) and re.search(r"[+-]= 1;|saturating_add\(1\)", body)
    ]
    points["3 loops with enumerate that index another slice"] = [
        (f"{n}:{line}", name) for n, line, name, head, body in all_functions for m in re.finditer(r"^\s*for \((\w+), [^{]*enumerate\(\) \{\n((?:.*\n)*?)(?=\s*\}\n|\Z)", body + "\n", re.M) if re.search(r"\[[^\]]*\b" + m.group(1) + r"\b[^\]]*\]", m.group(2))
    ]
    points["3 searches by a loop that returns"] = [
        (f"{n}:{line}", name) for n, line, name, head, body in all_functions if re.search(r"^\s*for\b", body, re.M) and re.search(r"^\s+return (Some\(|true|false|i;)", body, re.M)
    ]

    points["4 by hand: order, conversion, copying, printing"] = (
        lines_with(own, r"256 \*|b'0'|return a\[i\] < b\[i\]|Some\(b\) => Some|Ok\(n\) => n,|Err\(_\) => unreachable")
        + [(f"{n}:{line}", name) for n, line, name, head, body in all_functions if re.search(r"print(ln)?!\(rt", body)]
    )

    clauses = collections.defaultdict(list)
    for n, line, name, head, body in all_functions:
        for c in re.findall(r"requires (?:\w+ )?\{(.*)\}", head):
            clauses[(n.split("/")[1], c.strip())].append((f"{n}:{line}", name))
    points["5 a requires that stands in three or more functions of a crate"] = [
        (ps[0][0], f"{len(ps)} functions: {c}") for (crate, c), ps in sorted(clauses.items()) if len(ps) >= 3
    ]

    points["6 a length answered beside a lent buffer, by a function that cannot be refused"] = [
        (f"{n}:{line}", name) for n, line, name, head, body in all_functions if re.search(r"-> (usize|\(\w+, usize, usize\))", head) and re.search(r": &(\'\w+ )?mut \[u16\]", head)
    ]
    points["6 structs with a length or a place beside a buffer"] = lines_with(own, r"^\s*(pub(\(crate\))? )?(length|at|used|len): ")

    points["7 switches on a number"] = lines_with(own, r"if \w*kind\w* ==|if more ==|if levels ==|match kind\b")
    total = 0
    for name, places in points.items():
        print(f"{name}: {len(places)}")
        total += len(places)
        if "--list" in args:
            for where, what in places:
                print(f"    {where}: {what}")
    answers = subprocess.run(["git", "ls-tree", "-r", "--name-only", commit or "HEAD", "crates"], capture_output=True, text=True).stdout.split()
    print("8 files of answers:", sum(a.endswith("/Answers.antt") for a in answers), "files of invariants:", sum(a.endswith("/Invariants.antt") for a in answers))
    print("in all, points 1 to 7:", total)


main()
