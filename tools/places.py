#!/usr/bin/env python3
"""Lists places of src/ that an older form of the language may have left, by kind: places.py [COMMIT] [KIND].

Reads the files as they are at COMMIT (else as they lie here) and changes nothing. A line is a place to look at: docs/DESIGN-PASS.md
says which kinds there are and what became of each place. Without KIND only the counts are printed.
"""
import collections
import re
import subprocess
import sys

# One line a place.
LINES = {
    "1 flags": r"^ +(pub(\(crate\))? )?\w+: bool,$",
    "1 refusals as numbers": r"\(u8, (u8, )?usize\)|\(usize, u8, usize\)",
    "1 kinds as numbers": r"\b(kind|code|signal|family|form|address|target|comparison)[a-z_]*: u8\b",
    "1 enums": r"^ *(pub(\(crate\))? )?enum \w",
    "3 counted loops": r"\bfor \w+ in [^{]*\.\.|^ *(while|loop)\b",
    "4 conversions": r"\bfn (new|of|from_\w+|to_\w+|number|place|value|term|comparison|guard|change|variable|kind|told|verdict|refusal)\(",
    "4 equality, order, copies": r"\bfn (eq|ne|cmp|partial_cmp|clone|default|hash)\(",
    "5 members of bounds one by one": r"H\.Host\.can\b.*H\.Host\.counts",
    "6 arrays in fields, parameters and results": r"(: |-> |-> Result<)&?('\w+ )?(mut )?\[[^\];]+; [^\]]+\]",
    "7 dispatch": r"\bdyn \w|\bfn\(|\bF: Fn|impl Fn",
}


def git(*words):
    return subprocess.run(["git", *words], capture_output=True, text=True, check=True).stdout


def files(commit, inside):
    """The paths and texts of the files below crates/*/INSIDE."""
    names = git("ls-tree", "-r", "--name-only", commit) if commit else git("ls-files", "-co", "--exclude-standard")
    for name in names.splitlines():
        if re.fullmatch(r"crates/\w+/" + inside, name):
            yield name, git("show", f"{commit}:{name}") if commit else open(name, encoding="utf-8").read()


def lines(sources, pattern):
    for name, text in sources:
        for number, line in enumerate(text.splitlines(), 1):
            if not line.lstrip().startswith("//") and re.search(pattern, line):
                yield f"{name}:{number}: {line.strip()}"


def functions(sources):
    """Where each function stands, its head and its body, by braces."""
    for name, text in sources:
        for start in re.finditer(r"^ *(pub(\(crate\))? )?fn (\w+)", text, re.M):
            open_body = re.search(r"^ *\{\}?$|\{$", text[start.start():], re.M)
            if not open_body:
                continue
            begin = start.start() + open_body.start()
            indent = re.match(r" *", text[start.start():]).group()
            end = text.find("\n" + indent + "}", begin)
            where = f"{name}:{text.count(chr(10), 0, start.start()) + 1}: {start.group(3)}"
            yield where, text[start.start():begin], text[begin:end]


def shape(body):
    """A body with every name, number and text alike."""
    body = re.sub(r"//[^\n]*", "", body)
    words = re.findall(r'"[^"]*"|\w+|[^\w\s]', body)
    keep = {"if", "else", "match", "for", "in", "return", "let", "mut", "while", "Ok", "Err", "Some", "None", "self"}
    return " ".join(w if not re.match(r'["\w]', w) or w in keep else "a" for w in words)


def twins(sources):
    groups = collections.defaultdict(list)
    for where, _, body in functions(sources):
        if len(shape(body).split()) >= 16:
            groups[shape(body)].append(where)
    for group in groups.values():
        if len(group) > 1:
            yield " | ".join(group)


def clauses(sources):
    """Conditions that three or more functions ask or promise in the same words."""
    where = collections.defaultdict(set)
    for place, head, _ in functions(sources):
        for found in re.finditer(r"(requires|ensures)( \w+)? \{ (.*) \}$", head, re.M):
            where[found.group(1) + " " + found.group(3)].add(place)
    for text, places in where.items():
        if len(places) >= 3:
            yield f"{text} -- " + " | ".join(sorted(places))


def companions(sources):
    """Two or more parameters, names and types, that three or more functions of one file take together."""
    where = collections.defaultdict(set)
    for place, head, _ in functions(sources):
        inside = re.search(r"\((.*?)\)( ->|\n|$)", head, re.S)
        parameters = re.findall(r"(\w+: [^,]+(?:, \w+>)?)", inside.group(1)) if inside else []
        parameters = [" ".join(p.split()) for p in parameters]
        for i, first in enumerate(parameters):
            for second in parameters[i + 1:]:
                where[(place.split(":")[0], first, second)].add(place)
    for (_, first, second), places in where.items():
        if len(places) >= 3:
            yield f"{first}, {second} -- " + " | ".join(sorted(places))


def main():
    words = sys.argv[1:]
    commit = words.pop(0) if words and re.fullmatch(r"[0-9a-f]{7,40}|HEAD", words[0]) else None
    wanted = " ".join(words)
    sources = list(files(commit, r"src/.*\.rt"))
    found = {kind: list(lines(sources, pattern)) for kind, pattern in LINES.items()}
    found["2 twins"] = list(twins(sources))
    found["5 clauses"] = list(clauses(sources))
    found["5 companions"] = list(companions(sources))
    found["8 answers"] = list(lines(files(commit, r"proofs/.*Answers\.antt"), r"^(pub )?\S+ : goal\."))
    for kind in sorted(found):
        if wanted and kind.startswith(wanted):
            print("\n".join(f"{kind}: {place}" for place in found[kind]))
        elif not wanted:
            print(f"{kind}: {len(found[kind])}")


if __name__ == "__main__":
    main()
