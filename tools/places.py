#!/usr/bin/env python3
"""Lists the places in src/ that docs/DESIGN-PASS.md counts, point by point: tools/places.py [COMMIT].

Without a commit it reads the working tree. A hit is a line to be read, and not yet a place.
"""
import re
import subprocess
import sys

POINTS = {
    "1 marks, codes and numbers in place of Option, Result, enums":
        r"const NONE|^\s+(pub )?\w+: bool,|-> u8\b|\bnumber: u8|number == 0",
    "3 loops":
        r"^\s*(for|while|loop)\b",
    "4 equality, conversion and printing by hand":
        r"impl PartialEq|fn same_\w+|fn (number|word)\b|fn new\(\w+: u64\)|\bas (u64|u32|usize|u8)\b"
        r"|if \w+ \{ 1 \}|fn is_down|fn (to|from)_cell\(.*\{$|\.word\(\)|\.number\(\)",
    "5 facts of a value that stand in contracts, as premises":
        r"^\s+requires\b",
    "5 parameters that travel together":
        r"semiring: &S,?$|semiring: &S, |status: Status, up: u64, down: u64",
    "6 buffers and lists":
        r"\[u64; \d+\]|\[u8; \d+\]|\[\[u64; \d+\]; \d+\]|Vec<|copy_from_slice",
    "7 switches on a step, function tables":
        r"^\s*match |dyn |fn\(",
}
WORD = re.compile(r'"[^"]*"|\d[\d_]*|[A-Za-z_]\w*|::|->|=>|&&|\|\||\S')
KEYWORDS = {"if", "else", "for", "in", "match", "return", "let", "mut", "impl", "fn", "self", "true", "false"}


def sources(commit):
    if commit:
        names = subprocess.run(["git", "ls-tree", "-r", "--name-only", commit, "crates"], capture_output=True, text=True, check=True)
        read = lambda name: subprocess.run(["git", "show", f"{commit}:{name}"], capture_output=True, text=True, check=True).stdout
    else:
        names = subprocess.run(["git", "ls-files", "crates"], capture_output=True, text=True, check=True)
        read = lambda name: open(name).read()
    for name in names.stdout.split():
        if "/src/" in name and name.endswith(".rt"):
            yield name, read(name).split("\n")


def shape(lines):
    """A body with its names, numbers and texts taken away."""
    words = WORD.findall(" ".join(line for line in lines if not line.strip().startswith("//")))
    return tuple(w if w in KEYWORDS or not re.match(r"[\w\"]", w) else "." for w in words)


def bodies(lines):
    """Each function's name, line and body. The layout puts `{` and `}` of a body at the function's indent."""
    for i, line in enumerate(lines):
        head = re.match(r"( *)(?:pub(?:\(crate\))? )?fn (\w+)", line)
        start = None
        for j in range(i, len(lines)) if head else ():
            if start is None and (lines[j] == head[1] + "{" or lines[j].endswith(" {")):
                start = j + 1
            elif start is None and (lines[j].endswith(";") or lines[j] == head[1] + "{}"):
                break
            elif start is not None and lines[j] == head[1] + "}":
                yield f"fn {head[2]}", i + 1, shape(lines[start:j])
                break


def structs(lines):
    """Each struct's name, line and the names of its fields."""
    for i, line in enumerate(lines):
        head = re.match(r"(?:pub(?:\(crate\))? )?struct (\w+).* \{$", line)
        if head:
            end = next(j for j in range(i, len(lines)) if lines[j] == "}")
            fields = tuple(re.findall(r"^    (?:pub(?:\(crate\))? )?(\w+): .*,$", "\n".join(lines[i:end]), re.M))
            yield f"struct {head[1]}", i + 1, fields


def main():
    files = list(sources(sys.argv[1] if len(sys.argv) > 1 else None))
    for point, pattern in POINTS.items():
        hits = [(n, i, l) for n, lines in files for i, l in enumerate(lines, 1)
                if re.search(pattern, l) and not l.strip().startswith(("//", "ghost", "ensures"))]
        print(f"== {point}: {len(hits)}")
        for name, i, line in hits:
            print(f"{name}:{i}: {line.strip()}")
    twins = {}
    for name, lines in files:
        for what, i, kind in [*bodies(lines), *structs(lines)]:
            twins.setdefault(kind, []).append(f"{name}:{i} {what}")
    groups = [v for k, v in twins.items() if len(v) > 1 and len(k) > (1 if " struct " in v[0] else 6)]
    print(f"== 2 functions with bodies of one shape, types with the same fields: {len(groups)} groups")
    for group in groups:
        print("  ".join(group))


main()
