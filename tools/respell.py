#!/usr/bin/env python3
"""Brings the repository's own definitions and lemmas to today's spelling, after port.py.

usage: python3 tools/respell.py        at the top of the repository, once

Words are in snake case, types in camel case. Every name with a dash that is defined in crates/*/specs or crates/*/proofs
is respelled, there, in the clauses and ghost items of src/, in must-fail edits, and between backquotes in README.md and docs/:
definitions, lemmas, fields, constructors, names after `where`, and names bound by `let` or `λ`. Names that Rattle makes
(goals, steps) and names that a file imports from the kit's libraries stay. It lists names that would fall together.
"""

import os
import re
import sys

NAME = r"[^\s:(){}\[\].,;=«»⌜⌝∗|]+"
DEFINED = re.compile(r"^\s*(?:(?:abbrev|unfoldable|pub|record|data|ruleset|λ)\s+)*(" + NAME + r")(?:\s+[({][^=]*?[)}])*\s*:\s(?!goal\.)")
RECORD = re.compile(r"^\s*(?:(?:pub|abbrev)\s+)*(?:record|data|ruleset)\s+(" + NAME + r")")
BOUND = re.compile(r"\blet\s+(" + NAME + r")|λ\s+\(?(" + NAME + r")|\((" + NAME + r")\s*:")
WORD = re.compile(r"(?<![\w'′◌·-])[\w'′]+(?:-[\w'′]+)+(?![\w'′◌·-])")
OTHERS = re.compile(r"^\s*(?:ghost )?use\s+(?!Rattle\.(?:OWN)\.)\S*\.\{([^}]*)\}", re.M)
PATH = re.compile(r"(?:Rattle\.\w+\.(?:specs|proofs)(?:\.[\w+-]+)*|[A-Z]\w*)$")


def files(root, *ends):
    for folder, dirs, names in os.walk(root):
        dirs[:] = sorted(d for d in dirs if d not in ("out", "target", ".git"))
        for n in sorted(names):
            if n.endswith(ends):
                yield os.path.join(folder, n)


def read(path):
    with open(path, encoding="utf-8") as f:
        return f.read()


def spelled(name):
    parts = name.split("-")
    if parts[0][:1].isupper():
        return "".join(p[:1].upper() + p[1:] for p in parts)
    return "_".join(parts)


def goals(text):
    """The names in a file of answers that Rattle makes, and so the file must keep."""
    return set(re.findall(r"^(?:abbrev )?(?:pub )?(\S+) : goal\.", text, re.M))


def own_names(crates):
    own, fields, plain = set(), set(), set()
    for path in files(crates, ".antt"):
        text = read(path)
        made = goals(text)
        for line in text.splitlines():
            if line.lstrip().startswith(("--", "use ")):
                continue
            for m in (DEFINED.match(line), RECORD.match(line)):
                if m and m.group(1) not in made:
                    (own if "-" in m.group(1) else plain).add(m.group(1))
                    if re.match(r"^\s+pub ", line) and "-" in m.group(1):
                        fields.add(m.group(1))
            for m in BOUND.finditer(line):
                name = next(g for g in m.groups() if g)
                if "-" in name and name not in made:
                    own.add(name)
    return {n for n in own if WORD.fullmatch(n)}, fields, plain


def respell(text, own, fields, kept, comments=True):
    def word(m):
        name = m.group(0)
        if name not in own or name in kept:
            return name
        before = text[: m.start()]
        if before.endswith("."):
            path = re.search(r"[\w+.'-]*$", before[:-1]).group(0)
            if not (name in fields or PATH.search(path)):
                return name
        return spelled(name)

    return WORD.sub(word, text)


def main():
    root = os.getcwd()
    crates = os.path.join(root, "crates")
    libraries = sorted(d for d in os.listdir(crates))
    others = re.compile(OTHERS.pattern.replace("OWN", "|".join(libraries)), re.M)
    own, fields, plain = own_names(crates)
    new = {}
    for n in sorted(own):
        new.setdefault(spelled(n), []).append(n)
    for n, olds in new.items():
        if len(olds) > 1 or n in plain:
            print(f"look: {' '.join(olds)} would be {n}" + (", which is there too" if n in plain else ""))
    changed = 0
    for path in files(crates, ".antt", ".rt", ".edit"):
        text = read(path)
        kept = goals(text)
        for m in others.finditer(text):
            kept |= {n.strip().split(" as ")[0] for n in m.group(1).split(",")}
        after = respell(text, own, fields, kept)
        if path.endswith(".antt") and os.sep + "proofs" + os.sep in path:
            for n in set(re.findall(r"goal\.(\S+)", after)) & {spelled(k) for k in own}:
                print(f"look: {path}: goal.{n}")
        if after != text:
            with open(path, "w", encoding="utf-8") as f:
                f.write(after)
            changed += 1
    for path in [os.path.join(root, "README.md"), *files(os.path.join(root, "docs"), ".md")]:
        if os.path.exists(path) and os.path.basename(path) != "PORT.md":
            text = read(path)
            after = re.sub(r"`[^`\n]*`", lambda m: respell(m.group(0), own, fields, set()), text)
            if after != text:
                with open(path, "w", encoding="utf-8") as f:
                    f.write(after)
                changed += 1
    print(f"respell: {len(own)} names, {changed} files changed")
    print("names: " + ", ".join(f"{n} {spelled(n)}" for n in sorted(own)), file=sys.stderr)


main()
