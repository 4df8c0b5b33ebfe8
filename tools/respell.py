#!/usr/bin/env python3
"""Brings the names of tools/respell.tsv to today's spelling in every crate, its edits and the pages. Run once, after port.py.

A name 'X·y' of a source file, a definition y of module X beside a function y, is written 'X.y', and the module is brought instead.
"""
import os
import re

WORD = re.compile(r'[^\s(){}\[\].;,@"«»⟨⟩`]+')
SPAN = re.compile(r"`[^`\n]*`|^    .*$", re.M)
DOTTED = re.compile(r"\b([A-Z]\w*)·(\w+)")
# A record has the module's name there.
APART = {"Stood·linked": "stood_linked"}


def turned(text, names):
    def word(m):
        bare = m.group(0).rstrip("'")
        primed = names.get(bare, bare) if "-" not in bare else bare
        return names.get(m.group(0), primed + m.group(0)[len(bare):])

    return WORD.sub(word, text)


def modules(text):
    """Brings the modules of the names 'X·y', in place of 'y as X·y'."""
    for whole, plain in APART.items():
        text = text.replace(whole, plain)
    brought = re.compile(r"^ghost use (Rattle[\w.]*)\.\{\w+ as [A-Z]\w*·\w+\};$", re.M)
    text = brought.sub(r"ghost use \1;", text)
    lines, seen = [], set()
    for line in text.split("\n"):
        if re.fullmatch(r"ghost use Rattle[\w.]*;", line):
            if line in seen:
                continue
            seen.add(line)
        lines.append(line)
    return DOTTED.sub(r"\1.\2", "\n".join(lines))


def main():
    with open("tools/respell.tsv", encoding="utf-8") as it:
        names = dict(line.rstrip("\n").split("\t") for line in it)
    for folder, dirs, files in os.walk("."):
        dirs[:] = sorted(d for d in dirs if d not in (".git", "out", "tools", "build", "target"))
        for f in sorted(files):
            path = os.path.join(folder, f)
            if f.endswith((".antt", ".rt", ".edit")) and path.startswith("./crates/"):
                change = lambda t: turned(t, names)
            elif f.endswith(".md"):
                change = lambda t: SPAN.sub(lambda m: turned(m.group(0), names), t)
            else:
                continue
            with open(path, encoding="utf-8") as it:
                old = it.read()
            new = change(modules(old) if f.endswith(".rt") else old)
            if new != old:
                with open(path, "w", encoding="utf-8") as it:
                    it.write(new)


main()
