#!/usr/bin/env python3
"""Respells this repository's own definitions and lemmas: respell.tsv has each old name and its new one.

usage: tools/respell.py     in the repository's folder, once, over crates/

Turns whole names alone, in specs/, proofs/ and src/, where only clauses have names with a dash; a comment and a text in
quotes stay. A name right behind `c.`, `l.`, `given.` or `goal.` is one that the checker made, and stays.
"""
import pathlib
import re

HERE = pathlib.Path(__file__).resolve().parent
TABLE = dict(line.split("\t") for line in (HERE / "respell.tsv").read_text(encoding="utf-8").splitlines())
PART = r"[^\s(){}\[\].,;:λ\"«»]"
NAME = re.compile(rf"(?<!{PART})({'|'.join(sorted(map(re.escape, TABLE), key=len, reverse=True))})(?!{PART})")
MADE = re.compile(r"(?<!\S)\(*(?:c|l|given|goal)\.$")
QUIET = {".antt": re.compile(r'--[^\n]*|"(?:[^"\\\n]|\\.)*"'), ".rt": re.compile(r'//[^\n]*|"(?:[^"\\]|\\.)*"')}


def turned(code):
    def new(m):
        return m.group() if MADE.search(code[: m.start()][-20:]) else TABLE[m.group()]

    return NAME.sub(new, code)


def turn(text, quiet):
    out, at = [], 0
    for m in quiet.finditer(text):
        out += [turned(text[at : m.start()]), m.group()]
        at = m.end()
    return "".join(out) + turned(text[at:])


def main():
    changed = 0
    for path in sorted(pathlib.Path("crates").rglob("*")):
        if path.suffix in QUIET and "out" not in path.parts:
            old = path.read_text(encoding="utf-8")
            new = turn(old, QUIET[path.suffix])
            if new != old:
                path.write_text(new, encoding="utf-8")
                changed += 1
    print(f"respell: {changed} files changed")


main()
