#!/usr/bin/env python3
"""Spells the definitions, fields and lemmas of this repository as today's Rattle does: words in snake case.

usage: python3 tools/respell.py        at the top of the repository, once, after port.py

A name that specs/ or proofs/*.antt has and that no library lent is spelled anew: 'twinOf' and 'twin-of' become 'twin_of'. Where two names
would fall together, TAKEN says what the second is called. Strings, and words of comments that are no names, stay.
Edits in must-fail/ and names in backticks in README.md and docs/ are spelled alike, those that port.py spelled included.
"""

import os
import re

NAME = re.compile(r'[^\s(){}.;,@"«»\[\]|`]+')
PLAIN = re.compile(r"[A-Za-z_0-9'₀-₉-]+")
USE = re.compile(r"use ([^\s;{]+?)\.\{([^}]*)\}")
STRING = re.compile(r'b?"(?:[^"\\]|\\.|\\\n)*"')
BESIDE = re.compile(r"/proofs/.+/[^/]+\.antt$")

# Lemmas that would be called as the definition that they are about, or as a name in scope there.
TAKEN = {
    "pairs-at": "pairs_at_lem",
    "query-at": "query_at_lem",
    "queries-at": "queries_at_lem",
    "terms-at": "terms_at_lem",
    "visits-in": "visits_in_lem",
    "further-at": "further_at_lem",
    "pair-at": "pair_at_lem",
    "next-at": "next_at_lem",
    "key-of": "key_of_lem",
    "P-fits": "p_fits",
    "P1-lines": "p1_lines",
    "P7-line": "p7_line",
}


def snake(name):
    return re.sub(r"(?<=[a-z0-9])[A-Z]", lambda m: "_" + m[0].lower(), name).replace("-", "_")


def below(top, endings):
    for folder, folders, files in os.walk(top):
        folders[:] = sorted(f for f in folders if f not in ("out", ".git", "target"))
        for f in sorted(files):
            if f.endswith(endings):
                yield os.path.join(folder, f)


def read(path):
    with open(path, encoding="utf-8") as f:
        return f.read()


def comment(line, mark):
    found = re.search(rf"(?<!\S){mark}", line)
    return (line[: found.start()], line[found.start() :]) if found else (line, "")


def lent(texts, crates):
    """Every name that some file takes from a library."""
    names = set()
    for text in texts.values():
        for path, inside in USE.findall(text):
            steps = path.split(".")
            if steps[0] != "Rattle" or steps[1] not in crates:
                names.update(w for part in inside.split(",") for w in part.strip().split(" as "))
    return names


def table(texts, crates):
    """Old and new spelling of each name that is spelled anew."""
    libraries, found = lent(texts, crates), {}
    for path, text in texts.items():
        if path.endswith(".rt") or BESIDE.search(path):
            continue
        for line in text.split("\n"):
            for name in NAME.findall(comment(line, "--")[0]):
                odd = re.search(r"[A-Za-z0-9']-[A-Za-z0-9]", name) or re.match(r"[a-z_][a-z0-9_]*[A-Z]", name)
                if odd and PLAIN.fullmatch(name) and name not in libraries:
                    found[name] = TAKEN.get(name) or snake(name)
    return found


def turned(code, names):
    return NAME.sub(lambda m: names.get(m[0], m[0]), code)


def of_code(text, mark, names):
    camel = {old: new for old, new in names.items() if "-" not in old}
    lines = []
    for line in text.split("\n"):
        code, said = comment(line, mark)
        kept = STRING.findall(code) if mark == "//" else []
        if not kept:
            code = turned(code, names)
        lines.append(code + turned(said, camel))
    return "\n".join(lines)


def of_page(text, names, declared):
    """Names in backticks, by the table or where the snake case of a camel case name is declared."""

    def name(word):
        if word[0] in names:
            return names[word[0]]
        return snake(word[0]) if re.match(r"[a-z]+[a-z0-9]*[A-Z]", word[0]) and snake(word[0]) in declared else word[0]

    return re.sub(r"`[^`\n]*`", lambda m: NAME.sub(name, m[0]), text)


def main():
    crates = set(os.listdir("crates"))
    texts = {path: read(path) for path in below("crates", (".rt", ".antt"))}
    names = table(texts, crates)
    declared = {w for path, text in texts.items() if path.endswith(".antt") for w in NAME.findall(text)} | set(names.values())
    new = {path: of_code(text, "//" if path.endswith(".rt") else "--", names) for path, text in texts.items()}
    edits = {path: read(path) for path in below("crates", (".edit",))}
    pages = {path: read(path) for path in ["README.md", *below("docs", (".md",))]}
    new.update({path: turned(text, names) for path, text in edits.items()})
    new.update({path: of_page(text, names, declared) for path, text in pages.items()})
    old = {**texts, **edits, **pages}
    for path, text in new.items():
        if text != old[path]:
            with open(path, "w", encoding="utf-8") as f:
                f.write(text)
    print(f"respelled {len(names)} names in {sum(new[p] != old[p] for p in new)} files")


main()
