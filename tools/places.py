#!/usr/bin/env python3
"""Lists the places of the code that are written in an older form, point by point, at a commit or in the checkout.

    python3 tools/places.py [--list] [COMMIT]

It reads crates/*/src/*.rt only. What it lists is judged by a reader; docs/DESIGN-PASS.md says what came of each place.
"""
import collections
import re
import subprocess
import sys

PATTERNS = [
    ("1 enums of our own", r"^\s*(pub )?enum \w+"),
    ("1 numbers for kinds and refusals", r"\bkind_of\(|\bkind: u32|_KIND: u32|\bnumber: u32|, kind\)|\((case|bytes|line|self\.bytes|seek\(.*\)), (\w+, )?\d+\)|count_kind\(\w+, \d+\)"),
    ("1 flags", r"\b(gives|found|grew|strict|negative)\b[a-z_]*: bool|\bgives\b|let mut \w+ = (false|true);"),
    ("3 counted by hand", r"\bfor \w+ in [\w.()]+\.\.|\bwhile |^\s*\w+ \+= 1;|^\s*\w+ -= 1;|^\s*\w+ \+= 1 \+"),
    ("4 conversions, printing and copies by hand", r"^impl.* (From|TryFrom|Display|Debug|Clone|Default|PartialEq|Eq|Ord|PartialOrd)\b.* for |fn (refusal|name_of|of_word|new|start|of)\(|\bas (u8|u16|u32|u64|i32|i64|usize)\b"),
    ("6 buffers, parallel tables, lists searched by hand", r"\[[\w:]+; [\w:]+\]|\b(len|count|last|tanks|cases): usize,|\bmiddle\b|4 \* \w+|\.len\(\) / 4"),
    ("7 switches on a step, tables of functions", r"\bfn\(|\bdyn |Run::|match self \{"),
]


def files(commit):
    if commit:
        names = subprocess.run(["git", "ls-tree", "-r", "--name-only", commit, "crates"], capture_output=True, text=True, check=True).stdout.split()
    else:
        names = subprocess.run(["git", "ls-files", "-co", "--exclude-standard", "crates"], capture_output=True, text=True, check=True).stdout.split()
    for name in sorted(set(names)):
        if re.fullmatch(r"crates/\w+/src/.*\.rt", name):
            if commit:
                text = subprocess.run(["git", "show", f"{commit}:{name}"], capture_output=True, text=True, check=True).stdout
            else:
                try:
                    text = open(name).read()
                except FileNotFoundError:
                    continue
            yield name, text


def without_comments(text):
    return re.sub(r"//.*", "", text)


FUNCTION = re.compile(r"^( *)(?:pub(?:\([\w ]+\))? )?(?:const )?fn (\w+)[^\n]*(?:\n\1(?! {0,3}\}$).*|\n)*?\n\1\}", re.M)


def functions(texts):
    """Name, file and text of each function with a body."""
    for name, text in texts:
        for found in FUNCTION.finditer(without_comments(text)):
            yield found.group(2), name, found.group(0)


def parameters(function):
    head = function.split("{")[0]
    inside = head[head.find("("):]
    return re.findall(r"\b(\w+): ([^,()]+)", inside.split(")\n")[0])


def shape(body):
    """The body with every name and number that is not a word of the language put as one sign."""
    words = {"fn", "let", "mut", "if", "else", "for", "in", "while", "match", "return", "self", "Some", "None", "Ok", "Err", "ensures", "requires", "pub"}
    tokens = re.findall(r"\w+|[^\w\s]", re.sub(r"^\s*(requires|ensures).*$", "", body, flags=re.M))
    return " ".join(t if t in words or not re.match(r"\w", t) else "_" for t in tokens)


def twins(texts):
    groups = collections.defaultdict(list)
    for name, file, text in functions(texts):
        shaped = shape(text)
        if len(shaped.split()) >= 30 and not re.search(r"\{\s*true\s*\}$", text):
            groups[shaped].append(f"{file}: {name}")
    for group in groups.values():
        if len(group) > 1:
            yield " = ".join(group)


def repeated_facts(texts):
    counts = collections.defaultdict(set)
    for name, file, text in functions(texts):
        crate = file.split("/")[1]
        for clause in re.findall(r"^\s*(?:requires|ensures)[^{\n]*\{ (.*) \}$", text, re.M):
            for fact in re.split(r" → | × ", clause):
                fact = re.sub(r"\b(first|second|high|low|gains|losses|weights|from|to|source|target)\b", "_", fact.strip("() "))
                if len(fact) > 12 and not re.match(r"(\(?\w+\)? )?:|result ≡|self|r : ℕ", fact):
                    counts[crate, fact].add(name)
    for (crate, fact), names in sorted(counts.items()):
        if len(names) > 2:
            yield f"{crate}: {fact}: {', '.join(sorted(names))}"


def travelling(texts):
    counts = collections.defaultdict(set)
    for name, file, text in functions(texts):
        crate = file.split("/")[1]
        given = sorted({(a, b.strip()) for a, b in parameters(text)})
        for i, first in enumerate(given):
            for second in given[i + 1:]:
                counts[crate, first, second].add(name)
    for (crate, first, second), names in sorted(counts.items()):
        if len(names) > 2:
            yield f"{crate}: {first[0]}: {first[1]} with {second[0]}: {second[1]}: {', '.join(sorted(names))}"


def main():
    commit = next((a for a in sys.argv[1:] if not a.startswith("--")), None)
    listed = "--list" in sys.argv
    texts = list(files(commit))
    rows = []
    for title, pattern in PATTERNS:
        rows.append((title, [f"{name}:{i}: {line.strip()}" for name, text in texts for i, line in enumerate(text.split("\n"), 1) if re.search(pattern, line.split("//")[0])]))
    rows.append(("2 functions of one shape", list(twins(texts))))
    rows.append(("5 facts in three contracts of a crate", list(repeated_facts(texts))))
    rows.append(("5 parameters together in three functions of a crate", list(travelling(texts))))
    for title, places in sorted(rows):
        print(f"{title}: {len(places)}")
        if listed:
            for place in places:
                print(f"    {place}")


main()
