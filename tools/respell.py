#!/usr/bin/env python3
"""Brings the definitions and lemmas of this repository to snake case, as the library spells its own.

usage: python3 tools/respell.py      at the top of the repository, once, straight after the kit's port.py

A name is turned where a file of specs/ or proofs/ declares it, or binds it in a signature or by let, with a dash:
`rows-for` becomes `rows_for`. Names that Rattle makes (the goals of an answer file, `loop-i-preserved`), functions of src/
and strings stay. In source files only clauses, ghost fields and ghost imports are read. It stops, and writes nothing,
where a new name is also that of another definition or import of these files.
"""

import os
import re
import sys

# a lemma that is named after a function of the older library, which has another name now
RENAMED = {"getD-paired": "get_or_paired", "getD-tally": "get_or_tally"}
LETTER = r"[^\s(){}\[\]:;.,`\"«»|@]"
WORD = re.compile(rf"\"[^\"\n]*\"|(?<!{LETTER}){LETTER}+")
DECLARED = re.compile(r"^\s*(?:(?:pub|abbrev|unfoldable|data|record)\s+)*(" + LETTER + r"+)\s*(?:[({].*)?:\s(.*)")
BOUND = re.compile(r"[({]((?:" + LETTER + r"+\s+)+):\s")
LOCAL = re.compile(r"(?:\blet\s+(" + LETTER + r"+)|λ\s+((?:" + LETTER + r"+\s+)*" + LETTER + r"+)\.)")
IMPORTED = re.compile(r"\buse\s+([\w.·+-]+)\.\{([^}]*)\}")
# what carries clauses in a source file: each clause, ghost field and ghost import, to the brace that closes it
CLAUSE = re.compile(r"(?m)^\s*(?:ghost\s+use\b[^;]*;|(?:requires|ensures)\b|ghost\s+\w+\s*[:=])")


def files(ending):
    for folder, dirs, names in os.walk("crates"):
        dirs[:] = sorted(d for d in dirs if d not in ("out", "target"))
        for name in sorted(names):
            if name.endswith(ending):
                yield os.path.join(folder, name)


def read(path):
    with open(path, encoding="utf-8") as f:
        return f.read()


def declared(text):
    """The names that a text declares or binds, but for the goals that it answers."""
    for line in text.splitlines():
        if line.lstrip().startswith("--"):
            continue
        m = DECLARED.match(line)
        if m and not re.match(r"(goal|given|need|needs)\.", m.group(2)):
            yield m.group(1)
        for group in BOUND.findall(line):
            yield from group.split()
        for one, many in LOCAL.findall(line):
            yield from (one or many).split()


def turned(name):
    return RENAMED.get(name) or (name.replace("-", "_") if re.search(r"[a-z]-[a-z]", name) else name)


def table(texts):
    """The names to turn, and those of them that would fall together with another name."""
    mine = {n for t in texts.values() for n in declared(t)}
    others = {n.strip().split(" as ")[-1].strip() for t in texts.values() for _, names in IMPORTED.findall(t) for n in names.split(",")}
    names = {n: turned(n) for n in mine if turned(n) != n}
    kept = (mine | others) - set(names)
    new = list(names.values())
    return names, sorted(n for n in names if names[n] in kept or new.count(names[n]) > 1)


def respelled(text, names):
    return WORD.sub(lambda m: names.get(m.group(0), m.group(0)), text)


def clauses(text, names):
    """Turns the clauses of a source file, and nothing else of it."""
    out, at = [], 0
    for m in CLAUSE.finditer(text):
        if m.start() < at:
            continue
        end = m.end()
        if not m.group(0).rstrip().endswith(";"):
            depth, i = 0, text.index("{", m.end() - 1) if "{" in text[m.end() - 1:] else len(text)
            while i < len(text):
                depth += {"{": 1, "}": -1}.get(text[i], 0)
                i += 1
                if depth == 0:
                    break
            end = i
        out.append(text[at:m.start()] + respelled(text[m.start():end], names))
        at = end
    return "".join(out) + text[at:]


def main():
    if not os.path.isdir("crates"):
        sys.exit("respell: run it at the top of the repository")
    proofs = {p: read(p) for p in files(".antt")}
    names, together = table(proofs)
    if together:
        sys.exit("respell: these would fall together with another name: " + ", ".join(f"{n} -> {names[n]}" for n in together))
    sources = {p: read(p) for p in files(".rt")}
    new = {p: respelled(t, names) for p, t in proofs.items()} | {p: clauses(t, names) for p, t in sources.items()}
    old = proofs | sources
    changed = [p for p in sorted(new) if new[p] != old[p]]
    for p in changed:
        with open(p, "w", encoding="utf-8") as f:
            f.write(new[p])
    print(f"respell: {len(names)} names turned, in {len(changed)} files")
    for n in sorted(names):
        print(f"  {n} -> {names[n]}")


main()
