#!/usr/bin/env python3
"""Brings the repository's own names in specs/ and proofs/ to one spelling: words of definitions, lemmas and fields are joined
by underscores, as `levelOf` to `level_of` and `run-is-laid-out` to `run_is_laid_out`. Names of src/, types and modules stay.

usage: spell.py [--table FILE] [--docs] FOLDER

FOLDER is the top of a checkout, and files are rewritten in place. --table writes the old and new names, one pair a line. --docs turns code spans
of *.md and names in strings and comments of rust/ as well. A name that would fall together with another in a file stays, and is printed.
"""

import os
import re
import sys

WORD = re.compile(r'[^\s(){}.;,@"«»`⟦⟧⌜⌝]+')
PLAIN = re.compile(r"[A-Za-z][A-Za-z0-9_'₀-₉-]*\Z")
HEAD = re.compile(
    r"(?m)^[ \t]*(?:(?:abbrev|unfoldable|pub)[ \t]+)*(?:data[ \t]+|record[ \t]+)?([^\s(){}.;,@\"«»=]+(?:[ \t]+[^\s(){}.;,@\"«»=:]+)*)[ \t]*(?:[({][^\n]*?)?[ \t]:[ \t\n]"
)
FIELD = re.compile(r"[{;][ \t]*([^\s(){}.;,@\"«»=]+)[ \t]:[ \t]")
USE = re.compile(r"(?m)^[ \t]*(?:pub )?(?:ghost )?use[ \t]+([^\s;{]+?)\.?(?:\{([^}]*)\})?(?:[ \t]+as[ \t]+\S+)?;?[ \t]*$")
STRING = re.compile(r'b?"(?:[^"\\\n]|\\.)*"')
SPAN = re.compile(r"`[^`\n]+`")


# Lemmas that would fall together with a definition, where an earlier script has spelled them already, by crate.
LEMMAS = {"wavemem": ("by_bits",), "transform": ("codes_at",), "yoksimert": ("kept_of", "fed_by")}


def snake(name):
    if name[:1].isupper():
        return name
    words = re.sub(r"(?<=[a-z0-9'])[A-Z]", lambda m: "_" + m[0].lower(), name)
    words = re.sub(r"[A-Z]", lambda m: m[0].lower(), words)
    return words.replace("-", "_")


def crates(root):
    top = os.path.join(root, "crates")
    return [c for c in sorted(os.listdir(top)) if os.path.isdir(os.path.join(top, c, "src"))]


def files(root, ends):
    for folder, dirs, names in os.walk(root):
        dirs[:] = sorted(d for d in dirs if d not in ("out", "target", ".git"))
        for n in sorted(names):
            if n.endswith(ends):
                yield os.path.join(folder, n)


def read(path):
    with open(path, encoding="utf-8") as f:
        return f.read()


def is_lemma_file(path):
    """Not the file of a function's own proof, whose names go by the function."""
    return not path.endswith("/Proof.antt")


def declared(text):
    names = set()
    bare = STRING.sub('""', re.sub(r"(?m)--.*$", "", text))
    for m in HEAD.finditer(bare):
        for n in m[1].split():
            names.add(n)
    for m in FIELD.finditer(bare):
        names.add(m[1])
    return names


def foreign(text, own):
    """The names that a file imports from libraries."""
    names = set()
    for m in USE.finditer(text):
        if m[2] is None:
            continue
        step = m[1].split(".")
        if step[0] == "Rattle" and len(step) > 1 and step[1] in own:
            continue
        for item in m[2].split(","):
            names.update(item.split(" as ")[0].split())
    return names


def turned(text, table, kept):
    def turn(m):
        w = m[0]
        # an operator's parts, as ◌is◌, and labels that the checker makes stay
        return table[w] if w in table and w not in kept else w

    return WORD.sub(turn, text)


def turn_rt(text, table, kept):
    parts = []
    at = 0
    for m in re.finditer(r'"(?:[^"\\\n]|\\.)*"|b\'(?:[^\'\\]|\\.)\'', text):
        parts += [turned(text[at : m.start()], table, kept), m[0]]
        at = m.end()
    return "".join(parts) + turned(text[at:], table, kept)


def main(argv):
    docs = "--docs" in argv
    argv = [a for a in argv if a != "--docs"]
    out = None
    if "--table" in argv:
        i = argv.index("--table")
        out = argv[i + 1]
        del argv[i : i + 2]
    root = argv[0]
    own = crates(root)
    antt, rt = [], []
    for c in own:
        where = os.path.join(root, "crates", c)
        antt += list(files(where, ".antt"))
        rt += list(files(where, ".rt"))
    edits = list(files(os.path.join(root, "crates"), ".edit"))
    texts = {p: read(p) for p in antt + rt + edits}
    names = set()
    where = {}
    for p in antt:
        if is_lemma_file(p):
            for n in declared(texts[p]):
                names.add(n)
                where.setdefault(n, p)
    table = {n: snake(n) for n in names if PLAIN.match(n) and snake(n) != n}
    # A lemma that would have a definition's name gets `_lem`.
    taken = {table[n] for n in table if "-" not in n} | {n for n in names if n not in table}
    for old in sorted(table):
        if "-" in old and table[old] in taken:
            table[old] += "_lem"
            print("lemma:", old, table[old])
    new = {}
    for old in sorted(table):
        new.setdefault(table[old], []).append(old)
    for to, olds in new.items():
        if len(olds) > 1 or to in names and to not in sum(LEMMAS.values(), ()):
            print("together:", to, olds, [where[o] for o in olds])
    held = {}
    for p, text in texts.items():
        words = set(WORD.findall(text))
        lib = foreign(text, own)
        for old in table:
            if old in words and table[old] in words and old not in lib:
                held.setdefault(old, []).append(p)
        kept = {n for n in table if n in lib}
        if kept & words:
            print("library's:", os.path.relpath(p, root), sorted(kept & words))
    for old, ps in sorted(held.items()):
        print("meets:", old, table[old], [os.path.relpath(p, root) for p in ps][:6], len(ps))
    print(len(table), "names")
    if out:
        with open(out, "w", encoding="utf-8") as f:
            f.writelines(f"{o}\t{n}\n" for o, n in sorted(table.items()))
    for p, text in texts.items():
        kept = {n for n in table if n in foreign(text, own)}
        crate = os.path.relpath(p, os.path.join(root, "crates")).split(os.sep)[0]
        if p.endswith(".antt") and is_lemma_file(p):
            text = turned(text, {n: n + "_lem" for n in LEMMAS.get(crate, ())}, set())
        done = turn_rt(text, table, kept) if p.endswith(".rt") else turned(text, table, kept)
        if done != text:
            with open(p, "w", encoding="utf-8") as f:
                f.write(done)
        elif done != texts[p]:
            with open(p, "w", encoding="utf-8") as f:
                f.write(done)
    if docs:
        for p in list(files(os.path.join(root, "docs"), ".md")) + [os.path.join(root, "README.md")]:
            if os.path.basename(p).startswith("PORT"):
                continue
            text = read(p)
            done = SPAN.sub(lambda m: turned(m[0], table, set()), text)
            if done != text:
                with open(p, "w", encoding="utf-8") as f:
                    f.write(done)
    return 0


if __name__ == "__main__":
    raise SystemExit(main(sys.argv[1:]))
