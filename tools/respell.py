#!/usr/bin/env python3
"""Respells the repository's own definitions and lemmas: words in snake case, types in camel case.

usage: python3 tools/respell.py      at the top of the repository, once, after the kit's port.py

It was run once, when the repository was brought from an older Rattle to the one that its README names. Names of functions of src/ have
no hyphens, and so stay; comments and strings stay. It says which names fall together with another, and then changes nothing.
"""
import collections
import os
import re
import sys

# a name of two words or more
LONG = r"[A-Za-z][\w'₀-₉+]*(?:-[\w'₀-₉+]+)+"
# where one is defined: at the head of a line of a file of definitions or lemmas, with its type, or as another name of an import
HEAD = re.compile(r"\s*(?:(?:pub|abbrev|unfoldable|record|data|let|opaque) )*(" + LONG + r")(?: [({].*[)}])? :(?: (.*))?$")
ALIAS = re.compile(r"\bas (" + LONG + r")(?=[},;\s])")
NAME = re.compile(r"(?<![\w'₀-₉-])" + LONG + r"(?![\w'₀-₉-])")
# names of one word, or of words that are joined otherwise, whose case says another thing than what they are
OTHERS = {"SHR": "shr", "ROTR": "rotr", "Ch": "ch", "Maj": "maj", "opened_up": "OpenedUp", "worlds-opened-up": "WorldsOpenedUp",
          "Goes_on": "GoesOn", "numbers-bytes-++": "numbers_bytes_append"}
OTHER = re.compile(r"(?<![\w'₀-₉-])(?:" + "|".join(re.escape(n) for n in OTHERS) + r")(?![\w'₀-₉+-])")
# what is no name: comments, strings and characters
ANTT = re.compile(r'("(?:\\.|[^"\\])*"|(?:^|(?<=[\s(]))--(?=\s|$)[^\n]*|\{-.*?-\})', re.M | re.S)
RUST = re.compile(r'("(?:\\.|[^"\\])*"|//[^\n]*)')


def respelled(name):
    if name in OTHERS:
        return OTHERS[name]
    if name[0].isupper():
        return "".join(part[0].upper() + part[1:] for part in name.split("-"))
    return name.replace("-", "_")


def files():
    for folder, dirs, names in os.walk("crates"):
        dirs[:] = sorted(d for d in dirs if d != "out")
        for n in sorted(names):
            if n.endswith((".antt", ".rt")):
                yield os.path.join(folder, n)


def parts(path, text):
    """The text in parts: those at even places are code, those at odd ones are not."""
    return (RUST if path.endswith(".rt") else ANTT).split(text)


def defined(path, code):
    """The names that some code defines. In the proof of a function those that the kit makes, and what is local, are not the repository's."""
    names = set(ALIAS.findall(code))
    made = re.search(r"/proofs/.+/", path)
    for line in code.split("\n") if path.endswith(".antt") else []:
        head = HEAD.match(line)
        if head and not (made and (line.startswith(" ") or re.match(r"(?:goal|need|rule)\w*\.", head.group(2) or ""))):
            names.add(head.group(1))
    return names


def main():
    texts = {}
    own = set(OTHERS)
    for path in files():
        with open(path, encoding="utf-8") as f:
            texts[path] = parts(path, f.read())
        own |= defined(path, "".join(texts[path][::2]))
    olds = collections.defaultdict(set)
    for name in own:
        olds[respelled(name)].add(name)
    together = {new: old for new, old in olds.items() if len(old) > 1}
    if together:
        for new, old in sorted(together.items()):
            print(f"{', '.join(sorted(old))} would all be {new}")
        sys.exit(1)
    changed = 0
    for path, pieces in texts.items():
        for i in range(0, len(pieces), 2):
            pieces[i] = NAME.sub(lambda m: respelled(m.group()) if m.group() in own else m.group(), pieces[i])
            pieces[i] = OTHER.sub(lambda m: respelled(m.group()), pieces[i])
        new = "".join(pieces)
        with open(path, encoding="utf-8") as f:
            if f.read() == new:
                continue
        with open(path, "w", encoding="utf-8") as f:
            f.write(new)
        changed += 1
    print(f"{len(own)} names respelled, {changed} files changed")


if __name__ == "__main__":
    main()
