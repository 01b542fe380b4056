#!/usr/bin/env python3
"""Brings the names of definitions and lemmas to one spelling: values in snake case, types in camel case.

usage: tools/spell_names.py        at the top of the repository, once, after the kit's port.py

Renames what the repository's own .antt files declare (definitions, lemmas, types, constructors, fields), in the .antt files, in the
clauses of the .rt files and in the must-fail edits. The names of goals, which the checker makes, keep their spelling, and so do the
names of functions, the library's names and strings.
"""
import glob
import re
import sys
from collections import defaultdict

HEAD = re.compile(r"^\s*(?:(?:abbrev|unfoldable|pub|data|record)\s+)*([^\s:(){}«»,;.]+)((?:\s+[^\s:]+)*?)\s+:(?:\s|$)")
RECORD = re.compile(r"^\s*(?:pub\s+)?(?:record|data)\s+(?:pub\s+)?([^\s:(){}]+)")
IMPORT = re.compile(r"^(?:ghost )?use (Rattle\.[\w.]+|[\w.]+)\.\{([^}]*)\}", re.M)
LETTER = r"[\w'\-?′₀-₉]"


# names that would fall together with others that stand beside them
APART = {"Cut-off": "IsCutOff"}


def spelled(name):
    if name in APART:
        return APART[name]
    if name[0].isupper():
        return "".join(part[:1].upper() + part[1:] for part in re.split("[-_]", name))
    return name.replace("-", "_")


def main():
    antts = sorted(glob.glob("crates/*/specs/**/*.antt", recursive=True) + glob.glob("crates/*/proofs/**/*.antt", recursive=True))
    rts = sorted(glob.glob("crates/*/src/**/*.rt", recursive=True))
    edits = sorted(glob.glob("crates/*/must-fail/*.edit"))
    crates = {path.split("/")[1] for path in rts}
    texts = {path: open(path, encoding="utf-8").read() for path in antts + rts + edits}
    declared, fields, goals, foreign = set(), set(), set(), defaultdict(set)
    for path in antts:
        for line in texts[path].split("\n"):
            head = HEAD.match(line) or RECORD.match(line)
            if head and ("-" in head.group(1) or re.match("[A-Z].*_", head.group(1))) and not head.group(1).startswith("--"):
                kind = goals if re.search(r":\s+goal\.", line) else fields if line.startswith(" ") else declared
                kind.add(head.group(1))
    for path in antts + rts:
        for module, names in IMPORT.findall(texts[path]):
            parts = module.split(".")
            if not (parts[0] == "Rattle" and parts[1] in crates):
                for name in re.split(r"[,\s]+", names):
                    foreign[name].add(path)
    names = {name: spelled(name) for name in (declared | fields) - goals}
    every = set()
    for path in antts + rts:
        every |= set(re.findall(LETTER + "+", texts[path]))
    for name in sorted(names):
        if name in foreign:
            print(f"the library's too, kept where it is imported: {name} in {sorted(foreign[name])[:3]}", file=sys.stderr)
        if names[name] in every:
            print(f"falls together: {name} and {names[name]}", file=sys.stderr)
    pattern = re.compile("(?<!" + LETTER + ")(" + "|".join(re.escape(name) for name in sorted(names, key=len, reverse=True)) + ")(?!" + LETTER + ")")
    count = 0
    for path, text in texts.items():
        kept = {name for name in names if path in foreign.get(name, ())}
        answers = path.endswith(("/Answers.antt", "/Invariants.antt"))

        # what a proof takes of a value by a dot is a field of a record, or a step that the checker has named
        def change(m):
            name, before = m.group(0), m.string[max(0, m.start() - 200):m.start()]
            taken = re.search(r"(?:^|[\s(])([a-z]\w*)(?:\.[\w'-]+)*\.$", before)
            step = answers and re.search(r"(?:^|[\s(])c\.$", before)
            return name if name in kept or step or taken and taken.group(1) not in ("spec", "specs") and name not in fields else names[name]

        if path.endswith(".antt"):
            new = pattern.sub(change, text)
        else:
            # a string keeps what it says
            pieces = re.split(r'("(?:[^"\\\n]|\\.)*")', text)
            new = "".join(piece if k % 2 else pattern.sub(change, piece) for k, piece in enumerate(pieces))
        if new != text:
            open(path, "w", encoding="utf-8").write(new)
            count += 1
    print(f"{len(names)} names, {count} files")


main()
