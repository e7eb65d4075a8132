#!/usr/bin/env python3
"""Brings the names of the repository's own definitions and lemmas to one spelling: words in snake case, types and modules in camel case.

usage: names.py            prints what would fall together, and changes nothing
       names.py --write    rewrites crates/*/src, specs and proofs, the texts of crates/*/must-fail, and the pages

Names of the library keep their spelling, and so do names that the check makes for a function's goals. In pages only what stands between backticks
changes, in strings nothing.
"""
import glob
import os
import re
import sys

TOKEN = re.compile(r"[^\s(){}\[\];,.\"`:=]+(?:[^\s(){}\[\];,.\"`]*[^\s(){}\[\];,.\"`:=])?")
KEBAB = re.compile(r"[^\W\d_][^\s-]*(?:-[^\s-]+)+")
USE = re.compile(r"\buse\s+([\w.'◌·+-]+)\.\{([^}]*)\}")
GENERATED = re.compile(r"(returns|then|else|in|if|loop|overflow|offset|slice|bounds|nonzero|invariant|decreases|match|At|In|Then|Else|After|prove|shape|view)[-_]|.*-(is|item|index|iterator|requires|own|was|test)$")
OF_A_FUNCTION = {"Answers.antt", "Invariants.antt", "Choices.antt", "Proof.antt"}
OWN = {p.split("/")[1] for p in glob.glob("crates/*/")}


def files():
    for e in ("src/**/*.rt", "specs/**/*.antt", "proofs/**/*.antt"):
        yield from sorted(glob.glob("crates/*/" + e, recursive=True))


def pieces(path, text):
    """The text in pieces, each code, a comment or a string."""
    if path.endswith(".rt"):
        pattern = r"//[^\n]*|b?\"(?:\\.|[^\"\\])*\"|b?'(?:\\.|[^'\\\n])'"
    else:
        pattern = r"(?<!\S)--[^\n]*|\"(?:\\.|[^\"\\])*\""
    at = 0
    for m in re.finditer(pattern, text):
        yield "code", text[at : m.start()]
        yield ("comment" if m[0][0] in "/-" else "string"), m[0]
        at = m.end()
    yield "code", text[at:]


def is_own(module):
    parts = module.split(".")
    return parts[0] == "Rattle" and len(parts) > 1 and parts[1] in OWN


def spelled(name):
    if name[0].isupper():
        return "".join(w[0].upper() + w[1:] for w in name.split("-"))
    return name.replace("-", "_")


class File:
    """What a file says of names: its tokens, and which of them it takes from the library, and which from the repository's own modules."""

    def __init__(self, path):
        self.path = path
        self.text = open(path).read()
        self.tokens, self.foreign, self.taken = set(), set(), set()
        self.goals = os.path.basename(path) in OF_A_FUNCTION and path.split("/")[-2] != "proofs" and "/specs/" not in path
        for kind, piece in pieces(path, self.text):
            if kind != "code":
                continue
            self.tokens |= {m[0] for m in TOKEN.finditer(piece)}
            for m in USE.finditer(piece):
                names = {w for n in m[2].split(",") for w in n.split(" as ")}
                names = {n.strip() for n in names}
                generated = ".proofs." in m[1] and re.search(r"\.(Goals|Given|Lts)(\.|$)", m[1])
                (self.taken if is_own(m[1]) and not generated else self.foreign).update(names)

        own = r"^([^\s(){}:;,.]+)(?= :)" if self.goals else r"(?!)"
        self.taken |= {m[1] for m in re.finditer(own, self.text, re.M)}

    def turns(self, token, names, declared):
        """Whether this file's token is one of the names to respell."""
        if token not in names or token in self.foreign:
            return False
        if not self.goals:
            return True
        return token in self.taken or (token in declared and not GENERATED.match(token))


def declarations(f):
    """What a file of definitions or lemmas declares: functions, types, constructors and fields, by the colon behind their names."""
    found = set()
    for kind, piece in pieces(f.path, f.text):
        if kind == "code":
            for m in re.finditer(r"^[ ]*(?:(?:pub|abbrev|opaque|unfoldable|record|data|instance|private)\s+)*((?:[^\s(){}:;,.]+\s+)*?[^\s(){}:;,.]+)(?=\s*(?::|\(|\{))", piece, re.M):
                found |= set(m[1].split())
    return found


def main():
    all_files = [File(p) for p in files()]
    plain = [f for f in all_files if not f.goals]
    seen = set().union(*(f.tokens - f.foreign for f in plain), *(f.taken for f in all_files))
    declared = set().union(*(declarations(f) for f in plain if f.path.endswith(".antt")))
    names = {n: spelled(n) for n in seen if KEBAB.fullmatch(n)}
    told = {}
    for n, to in sorted(names.items()):
        both = [f.path for f in plain if f.path.endswith(".antt") and n in f.tokens - f.foreign and to in f.tokens]
        if both:
            print("falls together:", n, to, *both)
        if to in told:
            print("two names:", n, told[to], to)
        told[to] = n
    print(len(names), "names")
    if "--write" not in sys.argv:
        return
    for f in all_files:
        out = []
        for kind, piece in pieces(f.path, f.text):
            if kind == "code":
                piece = TOKEN.sub(lambda m: names[m[0]] if f.turns(m[0], names, declared) else m[0], piece)
            elif kind == "comment":
                piece = TOKEN.sub(lambda m: names.get(m[0], m[0]), piece)
            out.append(piece)
        new = "".join(out)
        if new != f.text:
            open(f.path, "w").write(new)
    for path in sorted(glob.glob("crates/*/must-fail/*.edit")):
        text = open(path).read()
        new = "\n".join(l if l.startswith("file:") else TOKEN.sub(lambda m: names.get(m[0], m[0]), l) for l in text.split("\n"))
        if new != text:
            open(path, "w").write(new)
    for path in ["README.md", *sorted(glob.glob("docs/*.md"))]:
        text = open(path).read()
        new = re.sub(r"`([^`\n]*)`", lambda m: "`" + TOKEN.sub(lambda t: names.get(t[0], t[0]), m[1]) + "`", text)
        if new != text:
            open(path, "w").write(new)


main()
