#!/usr/bin/env python3
"""Turns the repository's own antt names to snake case: `first-plan` to `first_plan`.

usage: python3 tools/snake_names.py [FOLDER]      (FOLDER has crates/; default: this checkout)

Turned is every name that a file of specs/ or proofs/ declares with a dash in it: definitions, lemmas, fields, constructors, parameters and the names of
a `where` or a `let`, wherever the name stands as a whole word in specs/, proofs/, src/ and must-fail/. In must-fail/ a word is turned too if its new
spelling is declared, since port.py leaves edits as they are. What stays: a name whose head is a type (`Le-refl`), a name that is declared as an answer
to a goal of a function (`returns-2`, whose parts a dash joins), and all names of Rattle and its library. `M-one`, a lemma about road M, becomes `m_one`.
Functions, exported names and strings have no dash within a name and so keep theirs. Names that would fall together with another declared name of the
same file are told, and nothing is written. A second run writes nothing more.
"""

import os
import re
import sys

WORD = re.compile(r'[^\s(){}.;,@"«»⌜⌝\x60]+')
DECLARED = re.compile(
    r"\s*(?:(?:pattern|unfoldable|abbrev|pub|record|data|axiom|let|in)\s+)*"
    r'([^\s(){}.;,@"«»:]+(?: [^\s(){}.;,@"«»:]+)*)\s*:(?:\s+(.*)|$)'
)
BOUND = re.compile(r'[({]([^\s(){}.;,@"«»:]+(?: [^\s(){}.;,@"«»:]+)*) : ')
ANSWER = re.compile(r"(?:tie|goal|[\w-]+)\.(?:Need|need|invariant|decreases|rebase|goal)|(?:tie|goal)\.")


def files(top, endings):
    for folder, dirs, names in os.walk(os.path.join(top, "crates")):
        dirs[:] = sorted(d for d in dirs if d not in ("out", ".git"))
        for name in sorted(names):
            if name.endswith(endings):
                yield os.path.join(folder, name)


def read(path):
    with open(path, encoding="utf-8") as f:
        return f.read()


def turned(name):
    if name.startswith("M-"):
        name = "m" + name[1:]
    return name.replace("-", "_")


def declared(top):
    """The names that are declared with a dash, but for answers to goals and names headed by a type; the answers; and the names without a dash."""
    own, answers, plain = set(), set(), set()
    for path in files(top, (".antt",)):
        for line in read(path).splitlines():
            if re.match(r"\s*--|use ", line):
                continue
            m = DECLARED.match(line)
            words = [(w, m[2] or "") for w in m[1].split()] if m else []
            words += [(w, "") for b in BOUND.findall(line) for w in b.split()]
            for word, kind in words:
                if "-" not in word:
                    plain.add(word)
                elif re.match(r"[a-zα-ω]|M-", word):
                    (answers if ANSWER.match(kind) else own).add(word)
    return own, answers, plain


def together(top, table):
    """Where a name of the table and its new spelling are both declared in one file, or both imported there."""
    found = []
    for path in files(top, (".antt",)):
        names = set()
        for line in read(path).splitlines():
            m = DECLARED.match(line)
            if m and not line.startswith(" "):
                names.update(m[1].split())
            m = re.match(r"use [^{]*\{(.*)\}", line)
            if m:
                names.update(WORD.findall(m[1]))
        found += [f"{path}: {n} and {table[n]}" for n in sorted(names) if n in table and table[n] in names]
    return found


def main(argv):
    top = argv[0] if argv else os.path.dirname(os.path.dirname(os.path.abspath(__file__)))
    own, answers, plain = declared(top)
    table = {n: turned(n) for n in own}
    new_names = plain | set(table.values())
    both = together(top, table)
    if both:
        print("\n".join(both))
        return 1
    changed = 0
    for path in files(top, (".antt", ".rt", ".edit")):
        text = read(path)
        new = WORD.sub(lambda m: table.get(m[0], m[0]), text)
        if path.endswith(".edit"):
            new = WORD.sub(lambda m: turned(m[0]) if re.match("[a-z]", m[0]) and turned(m[0]) in new_names else m[0], new)
        if new != text:
            with open(path, "w", encoding="utf-8") as f:
                f.write(new)
            changed += 1
    print(f"{len(table)} names, {changed} files; kept as answers and elsewhere a name: {', '.join(sorted(own & answers)) or 'none'}")
    return 0


if __name__ == "__main__":
    raise SystemExit(main(sys.argv[1:]))
