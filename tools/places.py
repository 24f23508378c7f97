#!/usr/bin/env python3
"""Lists the lines of crates/*/src/*.rt where an older form may stand, by point, with a count for each.

    python3 tools/places.py [--count]        (--count: the counts alone)

Each point has a pattern for lines of code (comments apart) or a small reading of signatures and clauses. What is
listed is a candidate; docs/DESIGN-PASS.md says of each what it is.
"""
import collections
import glob
import re
import sys

crates = [line.split(":")[0].split()[0] for line in open("crates.txt") if line.strip() and not line.startswith("#")]
files = [f for c in crates for f in sorted(glob.glob(f"crates/{c}/src/**/*.rt", recursive=True))]

LINES = {
    "1a own enums": r"^\s*(pub(\(\w+\))? )?enum ",
    "1b a pair that holds a Result or a bool": r"(->|^\s*\)\s*->).*\(.*,\s*(bool|Result<.*>)\)|->.*\(Option<\w+>, bool\)",
    "1c a number or a bool as the answer of a function": r"\bfn .*->\s*(u8|u32|usize|bool|Result<usize, \w+>)\s*\{?$",
    "3 loops by while, loop or a range": r"\b(while|loop)\b|\bfor\b.*\bin\b.*\.\.",
    "4a comparisons, conversions and printing by hand": r"\bfn (compare|eq|cmp|of|from|fmt|print|put|put_\w+|encode|decode|word|number|letter|name_\w+)\b",
    "4b an Option or a Result taken apart to be handed on": r"(Some\(.*\)|None|Ok\(.*\)|Err\(.*\)) => (Some|None|Ok|Err|true|false|at\b|make\b|Make|n <|0,)",
    "6 a length or a place beside a buffer; an array of fixed length": r"^\s*(pub )?(count|len|at|end|cursor|left): |: \[[^\]]*; ?[A-Z_0-9a-z:]+\]|-> .*\[[^\]]*; ?[A-Z_0-9a-z:]+\]|mut \w+ = \[",
    "7 a match that chooses a step or a make": r"^\s*(match (self|step|turn|make|call|char::from)|\w+::\w+.* => (map|pool|put|\w+::take|read)\b)",
}


def code(path):
    for n, line in enumerate(open(path), 1):
        yield n, re.sub(r"//.*", "", line.rstrip("\n"))


def functions():
    """(file, name, parameters, clauses) of each function."""
    for path in files:
        text = "\n".join(line for _, line in code(path))
        for m in re.finditer(r"\bfn (\w+)(<[^>]*>)?\((.*?)\)(.*?)(?=\n\s*\{\n|\{$|;\n|\n\n)", text, re.S):
            yield path, m.group(1), m.group(3), m.group(4)


def shared():
    """Premises and requirements that stand in the contracts of three functions of a crate or more."""
    seen = collections.defaultdict(set)
    for path, name, params, clauses in functions():
        crate = path.split("/")[1]
        for m in re.finditer(r"(requires|ensures)\s*(\w+)?\s*\{(.*)\}", clauses):
            facts = [m.group(3).strip()] if m.group(1) == "requires" else [p.strip() for p in m.group(3).split("→")[:-1]]
            for fact in facts:
                fact = re.sub(r"\b(self|ranges|rows|pool|line|rest|part|out|memory)\b", "_", fact)
                if re.match(r"^[A-Za-z(_]", fact) and "λ" not in fact and "(" + "i j" not in fact:
                    seen[crate, fact].add(f"{path.split('/src/')[1]}:{name}")
    return sorted((k, sorted(v)) for k, v in seen.items() if len(v) >= 3)


def travelling():
    """Parameters that stand together, three or more of them, in two functions of a file or more."""
    seen = collections.defaultdict(set)
    for path, name, params, _ in functions():
        names = frozenset(re.findall(r"(\w+):", params))
        if len(names) >= 3:
            seen[path].add((name, names))
    for path, fns in seen.items():
        groups = collections.defaultdict(set)
        for a, x in fns:
            for b, y in fns:
                if a < b and len(x & y) >= 3:
                    groups[tuple(sorted(x & y))] |= {a, b}
        for names, who in sorted(groups.items()):
            yield path, names, sorted(who)


def main():
    count = "--count" in sys.argv
    for title, pattern in LINES.items():
        hits = [(p, n, line.strip()) for p in files for n, line in code(p) if re.search(pattern, line)]
        print(f"{title}: {len(hits)}")
        if not count:
            for p, n, line in hits:
                print(f"    {p}:{n}: {line}")
    facts = shared()
    print(f"5a facts in the contracts of three functions or more: {len(facts)}")
    if not count:
        for (crate, fact), who in facts:
            print(f"    {crate}: {fact}  [{len(who)}: {', '.join(who)}]")
    groups = list(travelling())
    print(f"5b parameters that travel together: {len(groups)}")
    if not count:
        for path, names, who in groups:
            print(f"    {path}: {', '.join(names)}  [{', '.join(who)}]")
    for c in crates:
        answers = glob.glob(f"crates/{c}/proofs/**/Answers.antt", recursive=True)
        lemmas = [f for f in glob.glob(f"crates/{c}/proofs/*.antt") if not f.endswith("Lib.antt")]
        a = sum(len(re.findall(r"^pub ", open(f).read(), re.M)) for f in answers)
        lines = sum(len(open(f).readlines()) for f in lemmas)
        if a or lines:
            print(f"8 {c}: {a} answers in {len(answers)} files, {lines} lines in {len(lemmas)} files of lemmas")


main()
