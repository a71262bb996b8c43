#!/usr/bin/env python3
"""Lists the places of src/ that docs/DESIGN-PASS.md counts: those where an older form may stand for one that today's Rattle has.

usage: places.py [--list] [FOLDER]

FOLDER is the top of a checkout, by default this one. It prints how many places each point has, crate by crate; --list prints the places too.
What it finds by shape or by name is a candidate, and the page says of each what became of it.
"""

import difflib
import itertools
import os
import re
import sys

CRATES = "value wavemem layout entries fst offset search signal equality numbers derivation steps transform rows lines calls answers yoksimert bench".split()
HEAD = re.compile(r'^( *)(?:pub(?:\(crate\))? )?(?:extern "C" )?fn (\w+)')
WORD = re.compile(r"[A-Za-z_]\w*|\d\w*|[^\s\w]")
KEYWORDS = set("fn let mut if else while for in loop return match break as true false self Self pub impl struct enum const".split())
# What holds of a name that compares, converts or prints.
HAND = re.compile(
    r"^(min|less|lesser|smaller|join|wide|number|mark|digit|word|decode|encode|(from|to|as)_\w+|same_\w+|equal_\w+|are_\w+|repeats_real|write_real"
    r"|\w+_(number|letter)|(states|kind|letter|real)_(of|at|bits)|real_equals|copy_from|write_block|read_block|push_zeros|write_byte)$"
)
# What a comment says of a number that stands for no value.
NONE = re.compile(r"^ *//.*\b(?:and|answers?) (?:0|9|16) (?:for|of|where|if)\b|^ *//.*, (?:16|9) (?:for|of)\b")


def read(root):
    """The lines of each source, by crate and file."""
    for crate in CRATES:
        folder = os.path.join(root, "crates", crate, "src")
        for name in sorted(os.listdir(folder)) if os.path.isdir(folder) else []:
            with open(os.path.join(folder, name), encoding="utf-8") as file:
                yield crate, name, file.read().split("\n")


def functions(lines):
    """Name, first line, contract's lines, body's lines of each function."""
    i = 0
    while i < len(lines):
        head = HEAD.match(lines[i])
        if head is None:
            i += 1
            continue
        indent, start = head[1], i
        while i < len(lines) and lines[i] != indent + "}" and not (lines[i].endswith(";") and lines[i].startswith(indent + "    fn")):
            i += 1
        text = lines[start : i + 1]
        clauses = [line.strip() for line in text if re.match(r" *(requires|ensures)", line)]
        yield head[2], start + 1, clauses, [line for line in text if line.strip() not in clauses]
        i += 1


def parameters(text):
    head = " ".join(line.strip() for line in text)
    head = head[head.index("(") + 1 :]
    depth, out = 1, ""
    for letter in head:
        depth += letter in "([<"
        depth -= letter in ")]>"
        if depth == 0:
            break
        out += letter
    return frozenset(re.sub(r"'\w+ |\bmut ", "", p.strip()) for p in re.split(r",(?![^\[<(]*[\]>)])", out) if ":" in p)


def shape(text):
    """The tokens of a function with its names, types and numbers left out."""
    return [t if not re.match(r"\w", t) or t in KEYWORDS else ("0" if t[0].isdigit() else "x") for t in WORD.findall(" ".join(text))]


def options(lines):
    """Enums with one case for none or for a refusal beside a value, flags and numbers beside a value, numbers for none."""
    text = "\n".join(lines)
    for found in re.finditer(r"(?m)^(?:pub )?enum (\w+) \{\n(.*?)^\}", text, re.S):
        cases = re.findall(r"(?m)^    (\w+)([({,])", found[2])
        plain = [name for name, mark in cases if mark == ","]
        if len(cases) <= 3 and (any(name == "Refused" for name, _ in cases) or len(plain) == 1 and len(cases) == 2):
            yield text.count("\n", 0, found.start()) + 1, "enum " + found[1]
    for found in re.finditer(r"(?m)^(?:pub )?struct (\w+)[^\n]*\{\n(.*?)^\}", text, re.S):
        if re.search(r"\b(number: u32|has_\w+: bool|found: bool)", found[2]):
            yield text.count("\n", 0, found.start()) + 1, "struct " + found[1]
    for at, line in enumerate(lines):
        if NONE.search(line):
            yield at + 1, line.strip()


def twins(found, least=40, alike=0.93):
    """Functions of one shape, in groups."""
    long = [f for f in found if len(f[3]) >= least]
    group = list(range(len(long)))
    for i, j in itertools.combinations(range(len(long)), 2):
        a, b = long[i][3], long[j][3]
        if min(len(a), len(b)) < alike * max(len(a), len(b)):
            continue
        match = difflib.SequenceMatcher(None, a, b, autojunk=False)
        if match.quick_ratio() >= alike and match.ratio() >= alike:
            old, new = group[j], group[i]
            group = [new if g == old else g for g in group]
    for g in sorted(set(group)):
        members = [long[k] for k in range(len(long)) if group[k] == g]
        if len(members) > 1:
            yield members


def main():
    arguments = [a for a in sys.argv[1:] if a != "--list"]
    root = arguments[0] if arguments else os.path.join(os.path.dirname(os.path.abspath(__file__)), "..")
    points = {number: [] for number in range(1, 9)}
    every, facts, groups = [], {}, {}
    for crate, name, lines in read(root):
        place = f"{crate}/{name}"
        points[1] += [(crate, f"{place}:{at}: {what}") for at, what in options(lines)]
        for at, line in enumerate(lines):
            if re.match(r" *(while|loop)\b", line) or re.match(r" *for \w+ in \(?\w+\.\.", line):
                points[3].append((crate, f"{place}:{at + 1}: {line.strip()}"))
            if re.match(r" *(pub )?\w+: &?(mut )?\[\w+; \w+\],?$", line) or re.match(r" *let mut \w+ = \[.*; \w+\];", line):
                points[6].append((crate, f"{place}:{at + 1}: {line.strip()}"))
            if re.match(r" *(return )?match \w+ \{$", line):
                arms = list(itertools.takewhile(lambda l: l.strip() != "}", lines[at + 1 :]))
                if sum(bool(re.search(r"=> [\w:.]+\(", arm)) for arm in arms) >= 3 and not any(re.search(r"=> [A-Z]\w*::", arm) for arm in arms):
                    points[7].append((crate, f"{place}:{at + 1}: {line.strip()}"))
        for function, at, clauses, text in functions(lines):
            here = f"{place}:{at}: {function}"
            every.append((crate, here, function, shape(text)))
            if HAND.match(function):
                points[4].append((crate, here))
            for clause in clauses:
                if clause.startswith("requires"):
                    for fact in set(re.findall(r"\b([A-Z]\w+|is_bad\w*)\b", re.sub(r"\b[A-Z]\w*\.[\w.]+", "", clause))):
                        facts.setdefault(fact, []).append((crate, here))
            few = parameters(text)
            for three in itertools.combinations(sorted(few), 3):
                groups.setdefault(three, []).append((crate, here))
    for members in twins(every):
        names = ", ".join(sorted({here for _, here, _, _ in members}))
        points[2].append((members[0][0], names))
    points[5] += [(uses[0][0], f"fact {fact}: {len(uses)} functions") for fact, uses in sorted(facts.items()) if len(uses) >= 3]
    seen = {}
    for three, uses in groups.items():
        if len(uses) >= 3:
            seen.setdefault(tuple(uses), set()).update(three)
    points[5] += [(uses[0][0], f"parameters {', '.join(sorted(names))}: {len(uses)} functions") for uses, names in sorted(seen.items())]
    for crate in CRATES:
        folder = os.path.join(root, "crates", crate, "proofs")
        for at, _, files in os.walk(folder):
            for name in files:
                if name in ("Answers.antt", "Invariants.antt"):
                    points[8].append((crate, os.path.relpath(os.path.join(at, name), os.path.join(root, "crates"))))
    for number, places in points.items():
        by = [(crate, sum(c == crate for c, _ in places)) for crate in CRATES]
        print(f"point {number}: {len(places)} ({', '.join(f'{crate} {count}' for crate, count in by if count)})")
        if "--list" in sys.argv and number != 8:
            print("".join(f"  {what}\n" for _, what in places), end="")


main()
