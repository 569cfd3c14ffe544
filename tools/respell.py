#!/usr/bin/env python3
"""Brings the repository's own definitions, lemmas and labels to snake case, by respelled.tsv beside this file.

usage: tools/respell.py [FOLDER]     the top of the repository, after port.py has run there once

A line of respelled.tsv is a name, a tab, and the name that stands for it. Names of Rust's side, strings and comments in Rust are not turned.
In the folder of one function's proof a label after a dot is Rattle's: a function's name keeps the spelling of its source there.
"""

import os
import re
import sys

HERE = os.path.dirname(os.path.realpath(__file__))
NAME = re.compile(r'[^\s(){}.;,@"«»]+')
USE = re.compile(r"\buse\s+([^\s;{]+)\.\{([^}]*)\}")
OF_A_FUNCTION = re.compile(r"/proofs/[^/]+/")
STRING = re.compile(r'"(?:[^"\\]|\\.)*"')


def read(path):
    with open(path, encoding="utf-8") as f:
        return f.read()


def is_ours(module):
    steps = module.split(".")
    return steps[0] == "Rattle" and len(steps) > 1 and steps[1] not in ("std", "core")


def names_of_libraries(text):
    """The names that a file imports from a library: they are not the repository's."""
    found = set()
    for m in USE.finditer(text):
        if not is_ours(m[1]):
            found |= {it.split(" as ")[0].strip() for it in m[2].split(",")}
    return found


def turn_antt(text, path, table, functions):
    foreign = names_of_libraries(text)
    of_a_function = OF_A_FUNCTION.search(path)

    def name(m):
        word = m[0]
        after_dot = m.start() and text[m.start() - 1] == "."
        if of_a_function and after_dot:
            plain = word.removesuffix("_lem").replace("-", "_")
            if plain in functions and plain != word:
                return plain
        if word in foreign:
            return word
        return table.get(word, word)

    return NAME.sub(name, text)


def turn_rt(text, table):
    foreign = names_of_libraries(text)

    def line(text):
        kept = []

        def keep(m):
            kept.append(m[0])
            return f'"{len(kept) - 1}"'

        def name(m):
            return m[0] if m[0] in foreign else table.get(m[0], m[0])

        turned = NAME.sub(name, STRING.sub(keep, text))
        return re.sub(r'"(\d+)"', lambda m: kept[int(m[1])], turned)

    return "\n".join(it if it.lstrip().startswith("//") else line(it) for it in text.split("\n"))


def main():
    root = sys.argv[1] if len(sys.argv) > 1 else os.path.dirname(HERE)
    with open(os.path.join(HERE, "respelled.tsv"), encoding="utf-8") as f:
        table = dict(it.rstrip("\n").split("\t") for it in f)
    paths = []
    for folder, dirs, files in os.walk(os.path.join(root, "crates")):
        dirs[:] = sorted(it for it in dirs if it != "out")
        paths += [os.path.join(folder, it) for it in files if it.endswith((".antt", ".rt"))]
    functions = set()
    for path in paths:
        if path.endswith(".rt"):
            functions |= set(re.findall(r"\bfn (\w+)", read(path)))
    for path in sorted(paths):
        text = read(path)
        turned = turn_rt(text, table) if path.endswith(".rt") else turn_antt(text, path, table, functions)
        if turned != text:
            with open(path, "w", encoding="utf-8") as f:
                f.write(turned)


main()
