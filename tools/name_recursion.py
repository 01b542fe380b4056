#!/usr/bin/env python3
"""Calls the library's AllByRecursion by its own name, where the kit's port.py had imported it as All.

usage: tools/name_recursion.py        at the top of the repository, once, after tools/spell_names.py
"""
import glob
import re

for path in sorted(glob.glob("crates/**/*.antt", recursive=True) + glob.glob("crates/**/*.rt", recursive=True)):
    text = open(path, encoding="utf-8").read()
    if "AllByRecursion as All" not in text:
        continue
    lines = text.replace("AllByRecursion as All", "AllByRecursion").split("\n")
    for k, line in enumerate(lines):
        if not re.match(r"\s*(--|//)", line):
            lines[k] = re.sub(r"(?<![\w'\-.])All(?![\w'\-])", "AllByRecursion", line)
    open(path, "w", encoding="utf-8").write("\n".join(lines))
