#!/usr/bin/env python3
"""Spells the repository's own definitions, lemmas and fields as the toolchain's library does.

usage: python3 tools/respell.py        at the top of the repository, after the toolchain's own port script

Types keep their capitals and lose dashes (Walks-decide is WalksDecide); every other name is in snake case
(flagsAtMost is flags_at_most, left-gone is left_gone). Names that the toolchain makes (goals, steps, generated
fields) and names of its library stay. Stops, with nothing written, where two names would fall together.
"""

import collections
import glob
import re
import sys

WORD = re.compile(r"(?<![\w'′\-])[A-Za-z_][\w'′→≤]*(?:-[\w'′→≤]+)*")
DECLARED = re.compile(r"(?m)^\s*(?:abbrev |unfoldable )?(?:pub )?(?:record |data )?([A-Za-z][\w'′\-]*)\s*(?:\{|\(|:)")
IMPORT = re.compile(r"use Rattle\.(?:std|core|denote)[\w.\-+]*\.\{([^}]*)\}")
GOAL = re.compile(r"(?m)^(?:abbrev )?(?:pub )?([\w\-']+) : goal\.")
BOUND = re.compile(r"(?:λ|\blet)\s+([^.:=→\n]+?)(?=[.:=])|[({]([^:(){}→\n]+) :")
MADE = re.compile(r"\.(?:Goals|Given)\.\{([^}]*)\}")


# Names that would fall together with another one, or hide it.
OWN = {"by-step": "by_step_lem", "settled-in": "settled_in_lem"}


def files():
    for pattern in ("crates/*/specs/**/*.antt", "crates/*/proofs/**/*.antt", "crates/*/src/**/*.rt"):
        yield from sorted(glob.glob(pattern, recursive=True))


def odd(name):
    return "-" in name or re.match(r"[a-z]+\w*[A-Z]", name) is not None


def turned(name):
    if name in OWN:
        return OWN[name]
    if name[0].isupper():
        return "".join(part[0].upper() + part[1:] for part in name.split("-"))
    name = name.replace("-", "_")
    return re.sub(r"(?<=[a-z0-9])([A-Z])", lambda m: "_" + m.group(1), name).lower()


def names_in(lists):
    return {n.strip().split(" as ")[0].strip() for group in lists for n in group.split(",")}


def main():
    texts = {f: open(f, encoding="utf-8").read() for f in files()}
    library, made, declared, bound, words = set(), set(), set(), set(), collections.Counter()
    for path, text in texts.items():
        library |= names_in(IMPORT.findall(text))
        made |= names_in(MADE.findall(text)) | set(GOAL.findall(text))
        if path.endswith(".antt"):
            declared |= {n for n in DECLARED.findall(text) if odd(n)}
            for groups in BOUND.findall(text):
                bound |= {n for group in groups for n in WORD.findall(group) if odd(n)}
        words.update(WORD.findall(text))
    turn = {n: turned(n) for n in sorted((declared | bound) - library - made)}
    together = collections.defaultdict(set)
    for old, new in turn.items():
        together[new].add(old)
    bad = [(new, olds) for new, olds in together.items() if len(olds) > 1 or new in library]
    taken = [(old, new) for old, new in turn.items() if new in words and new not in turn]
    for old, new in taken:
        print(f"look: {old} becomes {new}, a word that is there already")
    if bad:
        for new, olds in bad:
            print(f"falls together: {', '.join(sorted(olds))} -> {new}")
        sys.exit(1)

    def respelled(m):
        start, word = m.start(), m.group(0)
        if m.string[max(0, start - 5) : start] == "goal.":
            return word
        if word not in declared and m.string[start - 1 : start] == ".":
            return word
        return turn.get(word, word)

    for path, text in texts.items():
        after = WORD.sub(respelled, text)
        if after != text:
            with open(path, "w", encoding="utf-8") as f:
                f.write(after)
    for old, new in turn.items():
        print(f"{old} {new}")


main()
