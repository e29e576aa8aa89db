#!/usr/bin/env python3
"""Lists the places of src/ where an older form may stand, by plain patterns, and counts them.

    tools/places.py [COMMIT]       every place, a line for each, and the counts
    tools/places.py --count [COMMIT]    the counts alone

Without a commit it reads the files as they stand here. Each pattern is a first sieve: a line that it finds is a
candidate, and docs/DESIGN-PASS.md says of each what was done. Run it from the repository's root.
"""
import difflib
import glob
import re
import subprocess
import sys


def sources(commit):
    """Path and text of each .rt file of src/."""
    if commit is None:
        for path in sorted(glob.glob("crates/*/src/**/*.rt", recursive=True)):
            yield path, open(path, encoding="utf-8").read()
        return
    names = subprocess.run(["git", "ls-tree", "-r", "--name-only", commit, "crates"], capture_output=True, text=True, check=True)
    for path in sorted(names.stdout.split()):
        if "/src/" in path and path.endswith(".rt"):
            yield path, subprocess.run(["git", "show", f"{commit}:{path}"], capture_output=True, text=True, check=True).stdout


def code_lines(text):
    """Numbered lines that are code: no comments, no clauses, no imports."""
    for number, line in enumerate(text.split("\n"), 1):
        bare = line.strip()
        if bare and not bare.startswith(("//", "requires", "ensures", "ghost", "use ", "pub use ")):
            yield number, line


LINES = {
    "1 a flag among the fields": r"^\s+(pub(\(\w+\))? )?\w+: bool,$",
    "1 a value with a number that means none": r"^\s+(pub )?next: u64|// 0 in a free|^\s+(pub\(crate\) )?length: usize,$",
    "1 types with few derives": r"#\[derive\(Clone, Copy\)\]",
    "1 a Result read as a flag": r"\.is_ok\(\)",
    "3 while": r"^\s*while ",
    "3 an index counted by for": r"^\s*for [a-z]\w* in .*\.\.|^\s*for \(\w+, \w+\) in .*enumerate",
    "3 a count raised by hand": r"(saturating|wrapping)_add\(1\)",
    "4 a library trait by hand": r"^impl.* (Clone|Copy|Default|PartialEq|Eq|Ord|PartialOrd|fmt::Display|Display|From<.*>|FromStr|TryFrom<.*>) for ",
    "4 a conversion by a free function": r"^\s*(pub(\(\w+\))? )?fn \w+_(of|on)\(",
    "4 a cast that cannot lose": r"\bas (u32|u64|usize)\b",
    "6 an array with its length beside": r"^\s+(pub(\(\w+\))? )?(len|used|length): (usize|u32),$",
    "6 a buffer and a length as parameters": r"\w+: &mut \[\w+\], \w+: usize",
    "7 a switch on a step": r"match (turn|desk\.step|self\.step|call|line|step)\b",
    "7 dyn and function pointers": r"\bdyn \w|: fn\(",
}

TOKEN = re.compile(r"[A-Za-z_]\w*|\d+|\"[^\"]*\"|[^\sA-Za-z_0-9]")
KEYWORDS = set("if else match let mut return Some None Ok Err self Self for in while as true false fn".split())


def functions(text):
    """Name, line and body of each function with a body."""
    lines = text.split("\n")
    for start, line in enumerate(lines):
        found = re.match(r"^(\s*)(pub(\(\w+\))? )?fn (\w+)", line)
        if not found:
            continue
        indent = found.group(1)
        body = []
        inside = False
        for later in lines[start:]:
            if inside and later.startswith(indent + "}") and not later.strip("} \t"):
                yield found.group(4), start + 1, "\n".join(body)
                break
            if inside:
                body.append(later)
            if later == indent + "{" or (later.startswith(indent) and later.endswith("{") and not later.strip().startswith(("requires", "ensures"))):
                inside = True
            if later.endswith(";") and not inside:
                break


def shape(body):
    """A body with its own names, numbers and texts taken out, in the order in which they come."""
    seen = {}
    out = []
    for token in TOKEN.findall(re.sub(r"//.*", "", body)):
        if re.match(r"[A-Za-z_\d\"]", token) and token not in KEYWORDS:
            out.append("x%d" % seen.setdefault(token, len(seen)))
        else:
            out.append(token)
    return tuple(out)


def twins(files, least=14):
    """Groups of functions whose bodies have one shape of at least so many tokens."""
    groups = {}
    for path, text in files:
        for name, line, body in functions(text):
            s = shape(body)
            if len(s) >= least:
                groups.setdefault(s, []).append(f"{path}:{line} {name}")
    return [g for g in groups.values() if len(g) > 1]


def near_twins(files, least=20, alike=0.85):
    """Pairs of functions whose bodies have nearly one shape; those of one shape are counted elsewhere."""
    all_shapes = []
    for path, text in files:
        for name, line, body in functions(text):
            s = shape(body)
            if len(s) >= least:
                all_shapes.append((f"{path}:{line} {name}", s))
    pairs = []
    for i, (first, s) in enumerate(all_shapes):
        for second, t in all_shapes[i + 1 :]:
            if s == t or not 0.7 < len(s) / len(t) < 1.43:
                continue
            matcher = difflib.SequenceMatcher(None, s, t, False)
            if matcher.quick_ratio() >= alike and matcher.ratio() >= alike:
                pairs.append([first, second])
    return pairs


def repeated_refusals(files):
    """Refusals that several functions of one crate return, each by a test of its own."""
    groups = {}
    for path, text in files:
        if "_examples" in path:
            continue
        for number, line in code_lines(text):
            for case in re.findall(r"Err\((\w+::\w+)", line):
                groups.setdefault((path.split("/")[1], case), []).append(f"{path}:{number} {case}")
    return [g for g in groups.values() if len(g) > 1]


def repeated_clauses(files):
    """Facts that are asked for in three or more contracts, names of variables taken out."""
    groups = {}
    for path, text in files:
        for number, line in enumerate(text.split("\n"), 1):
            found = re.match(r"^\s*requires (\w+ )?\{ (.*) \}", line)
            if found:
                groups.setdefault(shape(found.group(2)), []).append(f"{path}:{number} {found.group(2)}")
    return [g for g in groups.values() if len(g) > 2]


def parameters(files):
    """Groups of three or more parameters that stand together in three or more functions."""
    groups = {}
    for path, text in files:
        for found in re.finditer(r"fn (\w+)(<[^>]*>)?\(([^)]*)\)", text):
            names = re.findall(r"(\w+): (&?(?:mut )?[\w<>, \[\]&']+?)(?:,|$)", found.group(3).replace("\n", " ").strip())
            line = text.count("\n", 0, found.start()) + 1
            for i in range(len(names) - 2):
                key = tuple(f"{n}: {t.strip()}" for n, t in names[i : i + 3])
                groups.setdefault((path, key), []).append(f"{path}:{line} {found.group(1)}({', '.join(key)})")
    return [g for g in groups.values() if len(g) > 2]


def main():
    arguments = [a for a in sys.argv[1:] if a != "--count"]
    quiet = "--count" in sys.argv
    files = list(sources(arguments[0] if arguments else None))
    found = {}
    for kind, pattern in LINES.items():
        found[kind] = [f"{path}:{n} {line.strip()}" for path, text in files for n, line in code_lines(text) if re.search(pattern, line)]
    found["1 a refusal tested by hand in several functions"] = [place for g in repeated_refusals(files) for place in g]
    found["2 functions of nearly one shape"] = [" = ".join(g) for g in near_twins(files)]
    found["2 functions of one shape"] = [" = ".join(g) for g in twins(files)]
    found["5 a fact asked in three contracts or more"] = [" | ".join(g) for g in repeated_clauses(files)]
    found["5 parameters that go together"] = [" | ".join(g) for g in parameters(files)]
    for kind in sorted(found):
        if not quiet:
            print(f"\n== {kind}")
            for place in found[kind]:
                print("  " + place)
        print(f"{len(found[kind]):4} {kind}")


main()
