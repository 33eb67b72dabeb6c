#!/usr/bin/env python3
"""Brings this repository's own definitions and lemmas to today's spelling, after port.py: run once, at the top.

Names in lower camel case (`numberIn`) get underscores. A dash in a lemma's name stays where the words on both sides of it are names
(of specs/, or of what is imported from the library), and is an underscore elsewhere. Types, modules and what src/ declares keep their names.
A name that would fall together with another of the same file is left as it is, and said.
"""

import collections
import os
import re
import sys

TOKEN = re.compile(r"[^\s(){}\[\].,;:|@\"`⌜⌝«»]+")
DECLARED = re.compile(r"^(\s*)((?:(?:abbrev|unfoldable|pub|data|record|ruleset)\s+)*)([^\s:(){}\[\]|,;=«»]+)((?:\s*[\{(][^)}]*[})])*)\s*:(\s|$)")
CAMEL = re.compile(r"([a-z0-9₀-₉])([A-Z])")


def snake(name):
    return CAMEL.sub(lambda m: m.group(1) + "_" + m.group(2).lower(), name)


def files(*ends):
    for top in ("crates", "docs"):
        for folder, dirs, names in os.walk(top):
            dirs[:] = sorted(d for d in dirs if d != "out")
            for f in sorted(names):
                if f.endswith(ends):
                    yield os.path.join(folder, f)


def shared(path):
    """Whether an .antt file is one of specs/ or of the lemmas, and no function's proof."""
    parts = path.split("/")
    return len(parts) == 4 and parts[2] in ("specs", "proofs")


def read(path):
    with open(path, encoding="utf-8") as f:
        return f.read()


def main():
    texts = {p: read(p) for p in files(".antt", ".rt", ".edit", ".md")}
    antt = [p for p in texts if p.endswith(".antt")]
    own, specs, library = collections.defaultdict(set), set(), set()
    for p in antt:
        for line in texts[p].splitlines():
            m = re.match(r"use (\S+?)\.\{(.*)\}", line)
            if m and not m.group(1).startswith("Rattle.") or m and m.group(1).startswith("Rattle.std."):
                library |= {w.strip() for w in m.group(2).split(",")}
            if line.startswith("use ") or line.lstrip().startswith("--") or not shared(p):
                continue
            m = DECLARED.match(line)
            if m:
                own[m.group(3)].add(p)
                if "/specs/" in p:
                    specs.add(snake(m.group(3)))
    words = specs | library

    def spelled(name):
        parts = snake(name).split("-")
        text = parts[0]
        for a, b in zip(parts, parts[1:]):
            text += ("-" if a in words and b in words else "_") + b
        return text

    turn = {n: spelled(n) for n in own if n[0].islower() and spelled(n) != n}
    # words that no declaration has, as the variables of a clause
    for p in antt:
        for t in TOKEN.findall(texts[p]):
            if t[0].islower() and CAMEL.search(t) and "-" not in t:
                turn.setdefault(t, snake(t))
    # a lemma that has its definition's new name already
    for n in sorted(own):
        if "-" not in n and turn.get(n, n) != n and turn[n] in own:
            print(f"look: {turn[n]} is {n}'s now, and was a name in {' '.join(sorted(own[turn[n]]))}")
            turn[turn[n]] = turn[n] + "_lem"
    # what a function's proof may name: what it imports of this repository
    where = {}
    for p in texts:
        seen = set(TOKEN.findall(texts[p]))
        if p.endswith(".antt") and not shared(p):
            named = set()
            for m in re.finditer(r"(?m)^use (Rattle\.\S+?)\.\{(.*)\}", texts[p]):
                named |= {w.strip() for w in m.group(2).split(",")}
            seen = {t for t in seen if t in named or CAMEL.search(t)}
        where[p] = seen
    clash = {}
    for p in antt:
        seen = set(TOKEN.findall(texts[p]))
        for t in where[p]:
            if t in turn and turn[t] in seen:
                clash.setdefault(t, p)
        new = collections.Counter(turn[t] for t in where[p] if t in turn)
        for t in where[p]:
            if t in turn and new[turn[t]] > 1 and "-" in t:
                clash.setdefault(t, p)
    for t, p in sorted(clash.items()):
        print(f"look: {t} would fall together with {turn[t]} in {p}")
        turn[t] = turn[t] + "_lem" if "-" in t else turn[t]
    for p, text in texts.items():
        dashes = p.endswith((".antt", ".edit"))

        def one(m):
            t = m.group(0)
            if t in turn and t in where[p] and ("-" not in t or dashes):
                return turn[t]
            return t

        if p.endswith((".rt", ".md")):
            # strings of the code keep their text
            new = "".join(s if s.startswith('"') and p.endswith(".rt") else TOKEN.sub(one, s) for s in re.split(r'("(?:[^"\\\n]|\\.)*")', text))
        else:
            new = TOKEN.sub(one, text)
        if new != text:
            with open(p, "w", encoding="utf-8") as f:
                f.write(new)
    print(f"{len(turn)} names turned")


if __name__ == "__main__":
    sys.exit(main())
