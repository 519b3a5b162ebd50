#!/usr/bin/env python3
"""Respells the repository's own definitions and lemmas: words in snake case, as today's Rattle spells them.

usage: tools/respell.py [ROOT]

It turns, by the rows of tools/respell.tsv (old, tab, new), whole words alone: in specs/ and proofs/ everywhere, in src/ the
`ghost use` items, the clauses and comments' code spans, in must-fail/ the edits, and in README.md and docs/ the code spans. Rows of
tools/respell-lemmas.tsv turn in specs/ and proofs/ alone, where no dot stands before: lemmas whose names would fall together with
a definition's. Run once, behind port.py; a second run writes nothing more.
"""

import os
import re
import sys

HERE = os.path.dirname(os.path.realpath(__file__))
WORD = re.compile(r"[^\s(){}.;,@\"«»\[\]⌜⌝&`/:|*]+")
CLAUSE = re.compile(r"\b(?:requires|ensures|ghost)\b\s*\*?\s*(?:\w+\s*)?(?::\s*)?\{")
GHOST_USE = re.compile(r"ghost\s+use\b[^;]*;")
SPAN = re.compile(r"`[^`\n]+`")
# goals' names in a function's proof file keep Rattle's own spelling
GOAL = re.compile(r"^(?:abbrev )?(\S+) : tie\.(?:Need|invariant|decreases)", re.M)


def table(name):
    with open(os.path.join(HERE, name), encoding="utf-8") as f:
        return dict(l.rstrip("\n").split("\t") for l in f if l.strip())


def turned(text, rows, lemmas=None, kept=()):
    def one(m):
        w = m.group(0)
        if w in kept:
            return w
        if lemmas and w in lemmas and text[m.start() - 1 : m.start()] != ".":
            return lemmas[w]
        return rows.get(w, w)

    return WORD.sub(one, text)


def clauses(text, rows):
    """The same in `ghost use` items, clauses and comments' code spans alone."""
    out, at = [], 0
    for m in sorted([*GHOST_USE.finditer(text), *CLAUSE.finditer(text), *SPAN.finditer(text)], key=lambda m: m.start()):
        if m.start() < at:
            continue
        end = m.end()
        if m.group(0).endswith("{"):
            depth = 1
            while depth:
                depth += {"{": 1, "}": -1}.get(text[end], 0)
                end += 1
        out += [text[at : m.start()], turned(text[m.start() : end], rows)]
        at = end
    return "".join(out) + text[at:]


def main(root):
    rows, lemmas = table("respell.tsv"), table("respell-lemmas.tsv")
    for folder, dirs, files in os.walk(root):
        dirs[:] = [d for d in dirs if d not in (".git", "out", "target", "tools")]
        for name in files:
            path = os.path.join(folder, name)
            inside = os.path.relpath(path, root)
            if not name.endswith((".antt", ".rt", ".edit", ".md")) or inside == os.path.join("docs", "PORT.md"):
                continue
            with open(path, encoding="utf-8") as f:
                old = f.read()
            if name.endswith(".antt"):
                new = turned(old, rows, lemmas, set(GOAL.findall(old)) if name == "Proof.antt" else ())
            elif name.endswith(".edit"):
                new = turned(old, rows)
            elif name.endswith(".rt"):
                new = clauses(old, rows)
            else:
                new = SPAN.sub(lambda m: turned(m.group(0), rows), old)
            if new != old:
                with open(path, "w", encoding="utf-8") as f:
                    f.write(new)


if __name__ == "__main__":
    main(sys.argv[1] if len(sys.argv) > 1 else os.path.dirname(HERE))
