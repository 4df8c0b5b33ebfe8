#!/usr/bin/env python3
"""Writes tools/respell.tsv: each name of this repository's definitions and lemmas that today's spelling turns, and what it becomes.

usage: python3 tools/table.py LIBRARY      at the top, in the commit that port.py left; LIBRARY holds the library's own .antt files

A word is in snake case. A dash joins two names, and a plain word is added with an underscore: so a dash stays where both sides begin and end
with a definition's name, and becomes an underscore elsewhere. A name with a dash that the library has too, or whose new spelling stands in the
repository already, is printed and left out. A function of src/ and a definition may have one name.
"""
import collections
import os
import re
import sys

# Lemmas and fields that would have a definition's name, and fields that stand beside ones which port.py turned.
LEMMAS = {"gap_at": "gap_at_is", "numbers_of": "numbers_of_is", "once_more": "once_more_is", "product_at": "product_at_is", "in-a": "in_a", "in-x": "in_x", "in-y": "in_y", "inRows": "in_rows", "inColumns": "in_columns", "topStart": "top_start"}

WORD = re.compile(r'[^\s(){}\[\].;,@"«»⟨⟩`]+')
DECLARED = re.compile(r'^[ \t]*(?:(?:unfoldable|abbrev|pub|record|data|ruleset|opaque)\s+)*([^\s(){}\[\];,."]+)[ \t]+(?:[^:=\n]*[\s)}])?:(?!=)', re.M)


def texts(top, ends):
    for folder, dirs, files in os.walk(top):
        dirs[:] = sorted(d for d in dirs if d != "out")
        for f in sorted(files):
            if f.endswith(ends):
                with open(os.path.join(folder, f), encoding="utf-8", errors="replace") as it:
                    yield os.path.join(folder, f), it.read()


def snake(word):
    if not (word[0].islower() and re.search("[A-Z]", word)):
        return word
    parted = re.sub(r"(?<=[a-z0-9])(?=[A-Z])|(?<=[A-Z])(?=[A-Z][a-z])", "_", word)
    return parted.lower()


def respelled(name, defined):
    parts = [re.sub(r"^getD(?![a-z])", "get_or", p) for p in name.split("-")]
    turned = [snake(p) if p else p for p in parts]
    out = turned[0]
    for i in range(1, len(parts)):
        both = parts[i - 1] in defined and parts[i] in defined
        out += ("-" if both else "_") + turned[i]
    return out


def main():
    library = set()
    for _, text in texts(sys.argv[1], (".antt",)):
        library.update(WORD.findall(text))
    declared, defined, used = collections.Counter(), set(), set()
    for path, text in texts("crates", (".antt", ".rt")):
        used.update(WORD.findall(text))
        if path.endswith(".antt"):
            for m in DECLARED.finditer(text):
                if re.match(r"[ \t]*:\s*tie\.", text[m.end(1):]):
                    continue
                declared[m.group(1)] += 1
                if "/specs/" in path:
                    defined.add(m.group(1))
    defined |= {w for w in "length take drop set map cond get_or getD min max append replicate".split()}
    rows = dict(LEMMAS)
    used.update(rows.values())
    for name in sorted(declared, key=lambda n: ("-" in n, n)):
        if name in rows or not re.match(r"[a-z]", name) or not re.search(r"[A-Z]|-", name):
            continue
        new = respelled(name, defined)
        if new == name:
            continue
        if "-" not in name:
            rows[name] = new
            used.add(new)
        elif name in library:
            print("left, the library has it:", name)
        elif new in used:
            print("left, two would fall together:", name, new)
        else:
            rows[name] = new
            used.add(new)
    with open("tools/respell.tsv", "w", encoding="utf-8") as it:
        for name, new in sorted(rows.items()):
            print(name, new, sep="\t", file=it)


main()
