#!/usr/bin/env python3
"""Counts, in src/ as it was at a commit, the places that docs/DESIGN-PASS.md speaks of.

    tools/places.py COMMIT [-v]

prints for each point how many lines, signatures or files its pattern finds, and with -v which. What a place is about is
read, not counted: a pattern also finds what is no place, and some patterns are the names that places had.
"""
import re
import subprocess
import sys

LINES = [
    ("1 own enums, sentinels, numbers for kinds",
     r"^pub enum |\bUNREACHED\b|let mut best|-> (\[)?u8\b|refusal: u8|unwrap_or\(9\)|settled: bool"),
    ("3 loops", r"^ *('\w+: )?(for |while |loop \{)"),
    ("4 conversions, comparisons and printing by hand",
     r"fn (number|grade|of|same|names|yes_or_no|holds_line)\b|fn (from|fmt|eq|cmp)\b| as State\b"),
    ("5 what a function asks (requires)", r"^ *requires\b"),
    ("6 fixed arrays outside tests", r"[;,] *STATE_BOUND[\]>]"),
    ("7 matches, pointers and dyn", r"\bmatch |\bfn\(|\bdyn "),
]

# What the parameters of one function have together.
SIGNATURES = [
    ("5 a machine and an order", [r"\bmachine: &", r"\border: &"]),
    ("5 pairs and strikes", [r"\bpairs: &", r"\bstrikes: &"]),
    ("5 a machine and pairs", [r"\bmachine: &|\bon: &|&self.*\bmade: ", r"\bpairs: &"]),
    ("5 a sheet", [r"\bsheet: &"]),
    ("5 two states", [r"\bs: usize", r"\b[tu]: usize"]),
    ("6 memory with a number of its places", [r"&(mut )?\[|\bstrikes: &", r"\b(n|k|made): usize"]),
]


def git(*args):
    return subprocess.run(["git", *args], check=True, capture_output=True, text=True).stdout


def sources(commit):
    names = git("ls-tree", "-r", "--name-only", commit).splitlines()
    for name in names:
        if re.fullmatch(r"crates/\w+/src/\w+\.rt", name):
            yield name, git("show", f"{commit}:{name}").splitlines()


def lines_with(files, pattern):
    return [f"{name}:{i}: {line.strip()}" for name, lines in files for i, line in enumerate(lines, 1)
            if re.search(pattern, line) and not line.strip().startswith("//")]


def signatures(files):
    for name, lines in files:
        for m in re.finditer(r"\bfn (\w+)[^(]*\(([^)]*)\)", "\n".join(lines)):
            yield f"{name}: {m.group(1)}", " ".join(m.group(2).split())


def repeated(files, run=4):
    """Runs of lines that stand twice; short lines, imports and comments aside."""
    seen, found = {}, []
    for name, lines in files:
        kept = [(i, line.strip()) for i, line in enumerate(lines, 1)]
        kept = [(i, s) for i, s in kept if len(s) > 3 and not re.match(r"//|ghost use|use |pub use", s)]
        for k in range(len(kept) - run + 1):
            key = tuple(s for _, s in kept[k:k + run])
            place = f"{name}:{kept[k][0]}"
            if key in seen:
                found.append(f"{seen[key]} and {place}")
            else:
                seen[key] = place
    return found


def show(title, hits, verbose):
    print(f"{len(hits):5}  {title}")
    if verbose:
        for hit in hits:
            print(f"         {hit}")


def main():
    commit, verbose = sys.argv[1], "-v" in sys.argv[2:]
    files = list(sources(commit))
    for title, pattern in LINES:
        show(title, lines_with(files, pattern), verbose)
    for title, parts in SIGNATURES:
        show(title, [place for place, params in signatures(files) if all(re.search(p, params) for p in parts)], verbose)
    show("2 runs of four lines that stand twice", repeated(files), verbose)
    proofs = [n for n in git("ls-tree", "-r", "--name-only", commit).splitlines() if re.match(r"crates/\w+/proofs/.*\.antt", n)]
    show("8 files of answers", [n for n in proofs if n.endswith("/Answers.antt")], verbose)
    show("8 lines of proofs", [line for n in proofs for line in git("show", f"{commit}:{n}").splitlines()], False)


main()
