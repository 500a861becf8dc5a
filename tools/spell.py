#!/usr/bin/env python3
"""Brings the names of definitions and lemmas to snake case: fieldBytes is field_bytes, length-bytesOf is length-bytes_of.

usage: spell.py FOLDER...

FOLDER holds crates/. Of each name the parts between dashes that begin with a small letter are turned; types, facts
and modules, which begin with a capital, stay, and so do strings. It reads .antt files whole and, of .rt files,
whatever is no string: source names have no such spelling. A lemma whose name a definition now gets is given _lem.
A second run changes nothing. --check writes nothing, and lists the names that meet another.
"""
import os
import re
import sys

WORD = re.compile(r"[^\s(){}.;,@\"«»\[\]\\:`'|]+")
STRING = re.compile(r"\"(?:[^\"\\]|\\.)*\"", re.S)
PART = re.compile(r"[a-z][A-Za-z0-9_]*\Z")
DECLARED = re.compile(r"(?m)^\s*(?:abbrev |unfoldable |pub )*([^\s(){}.;,:]+) +:(?: |$)")
USED = re.compile(r"(?m)^\s*(?:pub )?use (Rattle\.\w+\.proofs\.[\w.+]+)\.\{([^}]*)\}")


def files(top):
    for folder, inner, names in os.walk(os.path.join(top, "crates")):
        inner[:] = sorted(it for it in inner if it != "out")
        for name in sorted(names):
            if name.endswith((".antt", ".rt")):
                yield os.path.join(folder, name)


def part(text):
    if not PART.match(text) or not re.search("[A-Z]", text):
        return text
    return re.sub("_?([A-Z]+)", lambda it: "_" + it.group(1).lower(), text)


def turned(word):
    return "-".join(part(it) for it in word.split("-"))


def pieces(text):
    """The text as (is code, piece): strings apart."""
    at = 0
    for it in STRING.finditer(text):
        yield True, text[at:it.start()]
        yield False, it.group()
        at = it.end()
    yield True, text[at:]


def respelled(text):
    return "".join(WORD.sub(lambda it: turned(it.group()), piece) if code else piece for code, piece in pieces(text))


def module(path):
    """The module of a file of lemmas, or None."""
    it = re.search(r"crates/(\w+)/proofs/(\w+)\.antt$", path)
    return it and f"Rattle.{it.group(1)}.proofs.{it.group(2)}"


def lemmas_moved(texts):
    """Gives _lem to each lemma whose name a definition gets, where it is declared and where it is imported."""
    gets = {turned(it) for text in texts.values() for code, piece in pieces(text) if code for it in WORD.findall(piece) if turned(it) != it}
    moved = {}
    for path, text in texts.items():
        if module(path):
            names = gets.intersection(DECLARED.findall(text))
            if names:
                moved[module(path)] = names
    for path, text in texts.items():
        names = set(moved.get(module(path), ()))
        for of, listed in USED.findall(text):
            names |= moved.get(of, set()).intersection(it.strip() for it in listed.split(","))
        for name in names:
            alone = re.compile(r"(?<![\w.'-])" + re.escape(name) + r"(?![\w'.-])")
            text = "".join(alone.sub(name + "_lem", piece) if code else piece for code, piece in pieces(text))
        texts[path] = text
    return moved


def main(tops):
    texts = {}
    for top in tops:
        for path in files(top):
            with open(path, encoding="utf-8") as it:
                texts[path] = it.read()
    had = dict(texts)
    for of, names in sorted(lemmas_moved(texts).items()):
        print(f"{of}: " + ", ".join(f"{it} is {it}_lem" for it in sorted(names)))
    words = set()
    for text in texts.values():
        for code, piece in pieces(text):
            if code:
                words.update(WORD.findall(piece))
    new = {word: turned(word) for word in words if turned(word) != word}
    met = sorted((old, to) for old, to in new.items() if to in words)
    for old, to in met:
        print(f"meets: {old} would be {to}, which is a name already")
    twice = {}
    for old, to in new.items():
        twice.setdefault(to, []).append(old)
    for to, olds in sorted(twice.items()):
        if len(olds) > 1:
            print(f"meets: {' and '.join(sorted(olds))} would both be {to}")
    if "--check" in sys.argv:
        return 0
    for path, text in texts.items():
        to = respelled(text)
        if to != had[path]:
            with open(path, "w", encoding="utf-8") as it:
                it.write(to)
    print(f"{len(new)} names")
    return 0


if __name__ == "__main__":
    raise SystemExit(main([it for it in sys.argv[1:] if it != "--check"]))
