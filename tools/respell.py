#!/usr/bin/env python3
"""Respells the repository's own definitions and lemmas: snake case for values, camel case for types.

usage: python3 tools/respell.py          at the top of the repository: rewrites crates/*/{src,specs,proofs} in place
       python3 tools/respell.py --map    prints each old name with its new one, and changes nothing

Names that come from the toolchain (imports of Rattle.std, names of goals and of steps) keep their spelling, as do comments
but for what stands in backquotes.
"""
import collections
import os
import re
import sys

WORD = r"[A-Za-z_\u2115][A-Za-z0-9_'\u2115]*(?:-[A-Za-z0-9_'\u2115]+)+"
DECLARED = re.compile(r"^(?:\s*)(?:(?:abbrev|unfoldable|pub|record|data|ghost)\s+)*(" + WORD + r")(?=\s|\{|\(|:)")
BINDER = re.compile(r"[(\u03bb{]\s*((?:[\w'-]+\s+)*[\w'-]+)\s*(?::|\.)")
IMPORT = re.compile(r"\buse\s+(Rattle[.\w'+-]*|Prim[.\w]*|[\w.]+)\.\{([^}]*)\}")


def files():
    for root, folders, names in os.walk("crates"):
        folders[:] = sorted(f for f in folders if f != "out")
        for name in sorted(names):
            if name.endswith((".antt", ".rt")):
                yield os.path.join(root, name)


def is_goal(line):
    return re.search(r":\s*goal\.", line) is not None


def names_of():
    """The repository's own names with a dash, the goals' names, and the toolchain's names."""
    own, goals, foreign = set(), set(), set()
    for path in files():
        with open(path, encoding="utf-8") as f:
            text = f.read()
        for m in IMPORT.finditer(text):
            if not re.match(r"Rattle\.(" + "|".join(CRATES) + r")\.", m[1] + "."):
                foreign.update(w.split(" as ")[0].strip() for w in m[2].split(","))
        if path.endswith(".rt"):
            continue
        lines = text.split("\n")
        for line in lines:
            if line.lstrip().startswith("--"):
                continue
            m = DECLARED.match(line)
            if m and is_goal(line):
                goals.add(m[1])
            elif m:
                own.add(m[1])
            for b in BINDER.finditer(line):
                own.update(w for w in b[1].split() if re.fullmatch(WORD, w))
            for w in re.findall(r"\blet (" + WORD + r")\b", line):
                own.add(w)
    own.add("in-handles")  # bound on the left of a clause
    return own, goals, foreign


def respelled(word):
    if word[0].isupper():
        return "".join(p[0].upper() + p[1:] if p[0].isalpha() else p for p in word.split("-"))
    return word.replace("-", "_")


CRATES = sorted(os.listdir("crates"))


def main():
    own, goals, foreign = names_of()
    own = {w for w in own if w not in foreign and w not in goals}
    table = {w: respelled(w) for w in own}
    if sys.argv[1:] == ["--map"]:
        for w in sorted(table):
            print(w, table[w])
        return
    word = re.compile(r"(?<![\w'-])" + WORD + r"(?![\w'-])")
    for path in files():
        with open(path, encoding="utf-8") as f:
            text = f.read()
        steps = os.path.basename(path) in ("Answers.antt", "Invariants.antt", "Proof.antt")

        def turn(m):
            w = m[0]
            if w not in table:
                return w
            before = m.string[: m.start()]
            if steps and re.search(r"(?<![\w'])goal\.$", before):
                return w
            if steps and re.search(r"(?<![\w'.])[clw]\d?\.$", before):
                return w
            return table[w]

        out = []
        for line in text.split("\n"):
            mark = re.search(r"(^|\s)--(\s|$)" if path.endswith(".antt") else r"//", line)
            ghost = path.endswith(".antt") or re.search(r"\b(ghost|requires|ensures)\b", line) or line.lstrip().startswith(("\u2192", "\u2261", "("))
            if mark:
                code, note = line[: mark.start()], line[mark.start():]
                note = re.sub(r"`[^`]*`", lambda q: word.sub(turn, q[0]), note)
            else:
                code, note = line, ""
            if ghost or path.endswith(".rt"):
                code = word.sub(turn, code)
            out.append(code + note)
        new = "\n".join(out)
        if new != text:
            with open(path, "w", encoding="utf-8") as f:
                f.write(new)


main()
