#!/usr/bin/env python3
"""Brings the repository's own names in specs/ and proofs/ to the spelling of today's Rattle, once, right after the kit's port.py.

usage: python3 tools/respell.py        at the top of the repository

Definitions, lemmas, fields and constructors with dashes get underscores; records and data types with dashes become camel case.
Names that Rattle makes (goals, invariants, measures) keep theirs, and so do the functions of src/, strings, inputs and outputs.
In a .rt file only what stands outside strings is turned; in README.md and docs/ only what stands in backquotes.
It stops, with nothing written, where two names that the files declare would fall together. Where a new spelling stands in a file already, as the
function of src/ that a definition is named after does, or a step of a proof that is named after a call, it says so: those are to be the same word.
"""

import collections
import glob
import re
import sys

PLAIN = r"[A-Za-z_][A-Za-z0-9_'-]*"
WORD = re.compile(r"(?<![A-Za-z0-9_'-])" + PLAIN)
NAMED = re.compile(r"^\s*(?:(?:abbrev|unfoldable|opaque|instance|pub|mod|private)\s+)*(" + PLAIN + r")\s*:(?!:)")
BOUND = re.compile(r"^\s*(?:\||let)\s*(" + PLAIN + r")\s*:(?!:)")
ALIAS = re.compile(r"\bas (" + PLAIN + r")(?=\s*[,}])")
TYPED = re.compile(r"^\s*(?:pub\s+)?(?:record|data|inductive)\s+(" + PLAIN + r")")
MADE = re.compile(r"^(returns|ensures|loop|overflow|invariant|decreases|then|else|if|in|drop|fold|call)-|-(requires|init|preserved|smaller)(-\d+)?$")
STRING = re.compile(r'b?"(?:[^"\\]|\\.)*"')


def antt_files():
    found = glob.glob("crates/*/specs/**/*.antt", recursive=True) + glob.glob("crates/*/proofs/**/*.antt", recursive=True)
    return sorted(f for f in found if "/out/" not in f)


def read(path):
    with open(path, encoding="utf-8") as f:
        return f.read()


def in_function_folder(path):
    return re.search(r"/(Answers|Invariants|Proof)\.antt$", path) and path.split("/proofs/")[-1].count("/") > 0


def own_names(files):
    """The dashed names that the files declare, each with its new spelling; and the names that they declare without dashes."""
    new, plain = {}, set()
    for path in files:
        text = read(path)
        goals = set(re.findall(r"\b(?:goal|given)\.(" + PLAIN + ")", text))
        for name in ALIAS.findall(text):
            if "-" in name:
                new[name] = name.replace("-", "_")
        for line in text.splitlines():
            typed = TYPED.match(line)
            named = typed or NAMED.match(line) or BOUND.match(line)
            if not named:
                continue
            name = named[1]
            if "-" not in name:
                plain.add(name)
                continue
            if in_function_folder(path) and (name in goals or MADE.search(name)):
                continue
            if typed or name[0].isupper():
                new[name] = "".join(w[0].upper() + w[1:] for w in name.split("-"))
            else:
                new[name] = name.replace("-", "_")
    return new, plain


def turn(text, new):
    return WORD.sub(lambda m: new.get(m[0], m[0]), text)


def turn_rt(text, new):
    out, at = [], 0
    for m in STRING.finditer(text):
        out += [turn(text[at : m.start()], new), m[0]]
        at = m.end()
    return "".join(out + [turn(text[at:], new)])


def turn_page(text, new):
    return re.sub(r"`[^`\n]+`", lambda m: turn(m[0], new), text)


def main():
    files = antt_files()
    new, plain = own_names(files)
    spelled = collections.defaultdict(set)
    for old, name in new.items():
        spelled[name].add(old)
    falls = [f"{' and '.join(sorted(olds))} become {name}" for name, olds in spelled.items() if len(olds) > 1]
    falls += [f"{old} becomes {name}, which is declared" for old, name in new.items() if name in plain]
    todo, looks = {}, []
    for path in files + sorted(glob.glob("crates/*/src/**/*.rt", recursive=True)) + ["README.md"] + sorted(glob.glob("docs/*.md")):
        text = read(path)
        how = turn_rt if path.endswith(".rt") else turn_page if path.endswith(".md") else turn
        turned = how(text, new)
        if turned == text:
            continue
        if not path.endswith(".md"):
            words = set(WORD.findall(text))
            looks += [f"look: {path}: {old} is {new[old]} now, as stands there" for old in sorted(words & set(new)) if new[old] in words]
        todo[path] = turned
    if falls:
        print("\n".join(falls))
        print("respell: nothing is written")
        return 1
    for path, text in todo.items():
        with open(path, "w", encoding="utf-8") as f:
            f.write(text)
    print("\n".join(looks))
    print(f"respell: {len(new)} names in {len(todo)} files")
    return 0


if __name__ == "__main__":
    sys.exit(main())
