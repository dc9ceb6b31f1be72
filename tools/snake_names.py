#!/usr/bin/env python3
"""Spells the repository's own definitions, lemmas, fields and bound names in snake case: two-words becomes two_words.

usage: tools/snake_names.py [--dry]        at the top of the repository, once, after the toolchain's own port script

A name is the repository's own if a file of specs/ or proofs/ declares it. Goals and steps that the checker names, names of
its library, text in comments and strings, and functions of src/ stay as they are.
"""

import collections
import os
import re
import sys

WORD = re.compile(r"[^\s(){}\[\].,;:⟦⟧⌜⌝λ→`\"«»]+")
DASHED = re.compile(r"\w-\w")
HEAD = re.compile(
    r"^(\s*)((?:(?:abbrev|unfoldable|pub|ruleset|record|data)\s+)*)([^\s(){}\[\].,;:]+)\s*((?:\([^()]*(?:\([^()]*(?:\([^()]*\)[^()]*)*\)[^()]*)*\)\s*|\{[^{}]*\}\s*)*):\s",
    re.M,
)
BINDER = re.compile(r"[({]((?:[^\s(){}\[\].,;:]+\s)+):\s")
LET = re.compile(r"\b(?:let|in|do)\s+([^\s(){}\[\].,;:]+)\s*(?::|=)")
USE = re.compile(r"^use (\S+?)\.\{([^}]*)\}", re.M)
ALIAS = re.compile(r"^use (Rattle\.\S+) as (\S+)", re.M)
GOAL = re.compile(r":\s*(?:goal|need)\.")


def files():
    for folder, folders, names in os.walk("crates"):
        folders[:] = sorted(f for f in folders if f not in ("out", "data", "must-fail"))
        for name in sorted(names):
            if name.endswith((".antt", ".rt")):
                yield os.path.join(folder, name)


def bare(text):
    return re.sub(r"(?m)--( [^\n]*)?$", "", text)


def declared(texts):
    """The dashed names that the repository declares, and those that it takes from elsewhere."""
    own, taken, goals = collections.Counter(), set(), set()
    for path, text in texts.items():
        if not path.endswith(".antt"):
            continue
        text = bare(text)
        for m in USE.finditer(text):
            parts = m.group(1).split(".")
            mine = parts[0] == "Rattle" and os.path.isdir(os.path.join("crates", parts[1]))
            for name in m.group(2).split(","):
                name = name.strip().split(" as ")[0].strip()
                if not mine and DASHED.search(name):
                    taken.add(name)
        for m in ALIAS.finditer(text):
            if DASHED.search(m.group(2)) and os.path.isdir(os.path.join("crates", m.group(1).split(".")[1])):
                own[m.group(2)] += 1
        lines = text.split("\n")
        for m in HEAD.finditer(text):
            name = m.group(3)
            line = text[m.start() : text.find("\n", m.end() - 1)]
            if DASHED.search(name):
                if GOAL.search(line):
                    goals.add(name)
                else:
                    own[name] += 1
        for m in BINDER.finditer(text):
            for name in m.group(1).split():
                if DASHED.search(name):
                    own[name] += 1
        for m in LET.finditer(text):
            if DASHED.search(m.group(1)):
                own[m.group(1)] += 1
    return own, taken, goals


def spell(name):
    return re.sub(r"(?<=\w)-(?=\w)", "_", name)


def antt(text, names, dotted):
    out, at = [], 0
    for m in re.finditer(r"--(?: [^\n]*)?$|\"(?:[^\"\\]|\\.)*\"|" + WORD.pattern, text, re.M):
        word = m.group(0)
        out.append(text[at : m.start()])
        at = m.end()
        if word.startswith(("--", '"')) or word not in names:
            out.append(word)
            continue
        if text[m.start() - 1 : m.start()] == ".":
            dotted[re.search(r"[^\s(){}\[\]]*$", text[: m.start()]).group(0)[-24:] + word] += 1
        out.append(spell(word))
    return "".join(out) + text[at:]


def rust(text, names):
    out = []
    for line in text.split("\n"):
        code = re.split(r"//", line, 1)
        pieces = re.split(r"(\"(?:[^\"\\]|\\.)*\")", code[0])
        for i in range(0, len(pieces), 2):
            pieces[i] = WORD.sub(lambda m: spell(m.group(0)) if m.group(0) in names else m.group(0), pieces[i])
        out.append("".join(pieces) + ("//" + code[1] if len(code) > 1 else ""))
    return "\n".join(out)


def main():
    dry = "--dry" in sys.argv
    texts = {p: open(p, encoding="utf-8").read() for p in files()}
    own, taken, goals = declared(texts)
    names = {n for n in own if n not in taken and n not in goals}
    words = collections.Counter()
    for p, t in texts.items():
        words.update(WORD.findall(bare(t) if p.endswith(".antt") else t))
    together = sorted(n for n in names if words[spell(n)])
    print("kept, since a goal or the library has the name:", sorted(set(own) - names))
    print("fall together with a word that is there:", [(n, words[spell(n)]) for n in together])
    spelt = collections.defaultdict(set)
    for n in names:
        spelt[spell(n)].add(n)
    print("fall together with one another:", [v for v in spelt.values() if len(v) > 1])
    dotted = collections.Counter()
    for p, t in texts.items():
        new = antt(t, names, dotted) if p.endswith(".antt") else rust(t, names)
        if new != t and not dry:
            open(p, "w", encoding="utf-8").write(new)
    print("after a dot:", sorted(dotted.items()))
    print(len(names), "names")


main()
