#!/usr/bin/env python3
"""Lists the places in crates/*/src/ that docs/DESIGN-PASS.md counts, point by point, as file:line: text.

Usage: tools/places.py [POINT..] [--count]. A row is a place to look at, not a verdict on it.
"""
import collections
import glob
import re
import sys

LINES = {
    "1": [r"^\s*(pub(\(crate\))? )?enum \w", r"\b(number|layer): \d", r"=> \(?\d+,", r"\bjudgement\(\d", r"\b(number|verdict) [!=]= 0", r"\bnumber: 0\b"],
    "3": [r"^\s*(while|loop)\b", r"\bfor \w+ in \w+\.\.", r"\.enumerate\(\)", r"\bif i == 0\b"],
    "4": [r"fn refusal\(", r"refused, \{", r"const NONE\b", r"fn \w+_text\(", r"fn \w+_name\(", r"impl .*\b(PartialEq|PartialOrd|Ord|Clone|Display)\b", r"fn print_(hex|byte|zeros|last|fraction)\("],
    "6": [r"^\s*(pub(\(crate\))? )?(len|start|end): usize,", r"\[&str; \d+\]", r"let mut filled\b"],
    "7": [r"match (step_on|request|style|self\.seek)\b", r"match intake\.", r"match (fill|take_some|take_all)\b"],
}


def sources():
    for path in sorted(glob.glob("crates/*/src/*.rt")):
        with open(path, encoding="utf-8") as f:
            yield path, f.read().split("\n")


def by_line(point):
    for path, lines in sources():
        for n, line in enumerate(lines, 1):
            code = line.split("//")[0]
            if any(re.search(r, code) for r in LINES[point]):
                yield f"{path}:{n}: {line.strip()}"


def twins():
    """Functions and types whose name is declared in more than one file, and functions of one file that differ in a width or a suffix."""
    seen = collections.defaultdict(list)
    for path, lines in sources():
        for n, line in enumerate(lines, 1):
            m = re.match(r"\s*(?:pub(?:\(crate\))? )?(fn|struct) (\w+)", line)
            if m and m.group(2) not in ("main", "run", "new", "claims", "judge", "list", "look", "limit", "refusal", "from", "fmt", "default"):
                seen[m.group(2)].append(f"{path}:{n}")
    for name, places in sorted(seen.items()):
        if len({p.split(":")[0] for p in places}) > 1:
            yield f"{name}: {' '.join(places)}"
    for group in (["u16_at", "u32_at", "u64_at"], ["one_byte", "two_bytes", "four_bytes"], ["first_wrong_sum", "first_wrong_form"]):
        found = [p for name in group for p in seen.get(name, [])]
        if found:
            yield f"{'/'.join(group)}: {' '.join(found)}"


def repeated():
    """Clauses that stand word for word in three or more contracts, and functions of seven or more parameters."""
    clauses = collections.Counter()
    for path, lines in sources():
        text = "\n".join(lines)
        for line in lines:
            m = re.match(r"\s+((?:ensures|requires) .*)", line)
            if m:
                clauses[m.group(1)] += 1
        for m in re.finditer(r"fn (\w+)(?:<[^(]*>)?\(([^)]*)\)", text):
            count = len([p for p in m.group(2).split(",") if ":" in p or "self" in p])
            if count >= 7:
                yield f"{path}: fn {m.group(1)} has {count} parameters"
    for clause, n in sorted(clauses.items()):
        if n >= 3:
            yield f"{n} times: {clause}"


def proofs():
    """Lines of proof by crate."""
    for folder in sorted(glob.glob("crates/*")):
        files = glob.glob(f"{folder}/proofs/**/*.antt", recursive=True)
        lines = sum(len(open(f, encoding="utf-8").read().split("\n")) - 1 for f in files)
        if files:
            yield f"{folder}: {lines} lines in {len(files)} files"


def main(arguments):
    points = [a for a in arguments if a.isdigit()] or ["1", "2", "3", "4", "5", "6", "7", "8"]
    for point in points:
        rows = {"2": twins, "5": repeated, "8": proofs}.get(point, lambda: by_line(point))()
        rows = list(rows)
        print(f"-- point {point}: {len(rows)}")
        if "--count" not in arguments:
            print("\n".join(rows))


if __name__ == "__main__":
    main(sys.argv[1:])
