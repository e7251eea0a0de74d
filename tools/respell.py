#!/usr/bin/env python3
"""Spells this repository's own definitions and lemmas as today's Rattle does: words in snake case, and a dash only
between two names. It was run once, after the kit's port.py, and is kept so that the port can be done over.

usage: tools/respell.py            at the top; rewrites crates/*/{src,specs,proofs,wrong,must-fail}, README.md and docs/

A word in camel case whose first letter is small becomes snake case: `floorOf` is `floor_of`. In a lemma's name a dash
stays where names of definitions or functions stand on both sides of it, and else becomes `_`. Names of functions of
src/, of goals and of steps keep their spelling: a file proofs/FUNCTION/Proof.antt gets only names of other files.
A new name that is taken already is not given, and told.
"""
import os
import re
import sys
from pathlib import Path

ROOT = Path(__file__).resolve().parent.parent
# A comment, a text, a quoted word, or a word.
TOKEN = re.compile(r"--[^\n]*|\"(?:[^\"\\]|\\.)*\"|«[^»]*»|[^\s(){}.;,@\"«»\[\]\\`]+")
DECLARED = re.compile(r"^\s*(?:(?:unfoldable|abbrev|pub|data|record)\s+)*([^\s:(){},λ=]+)(?:\s[^\n=]*?)?\s:(?:\s|$)", re.M)
# Lemmas that have, after the kit's port.py, the name that a definition gets; and fields and variables, which may share it.
LEMMAS = "all_right below_one from_one is_state kept_in made_in quiet_at same_at same_end same_from room_in whole_part".split()
FIELDS = "keys_in lfo_code lfo_depth lfo_duty lfo_frequency release_level".split()
CAMEL = re.compile(r"^[a-z][^-]*[a-z0-9'₀][A-Z]|^[a-z][A-Z]")


def files(*kinds):
    for kind in kinds:
        yield from sorted(ROOT.glob(f"crates/*/{kind}"))


ANTT = [*files("specs/**/*.antt"), *files("proofs/**/*.antt")]
LAWS = [f for f in ANTT if f.name not in ("Proof.antt", "Answers.antt", "Invariants.antt")]


def snake(word):
    return re.sub(r"(?<=[a-z0-9'])([A-Z])", r"_\1", word).lower()


def plain(word):
    """A name without capitals inside its words; a part that is a fact's name keeps them."""
    return "-".join(snake(part) if CAMEL.match(part) else part for part in word.split("-"))


def joined(name, known):
    """The name with a dash only between two known names."""
    parts, made, i = name.split("-"), [], 0
    while i < len(parts):
        for j in range(len(parts), i, -1):
            word = "_".join(parts[i:j])
            if word in known or j == i + 1:
                made.append((word, word in known))
                i = j
                break
    text = made[0][0]
    for (_, left), (word, right) in zip(made, made[1:]):
        text += ("-" if left and right else "_") + word
    return text


def words_of(text):
    """The words of a file, but for what stands behind a dot: fields, steps of the code, and parts of a module's path."""
    return {m[0] for m in TOKEN.finditer(text) if not m[0].startswith(("--", '"', "«")) and text[m.start() - 1 : m.start()] != "."}


def tables():
    text = {f: f.read_text() for f in ANTT}
    every, laws = set(), {}
    for f in ANTT:
        every.update(words_of(text[f]))
    for f in LAWS:
        for name in DECLARED.findall(text[f]):
            laws.setdefault(name, f)
    known = set()
    for f in files("src/*.rt"):
        known.update(re.findall(r"\bfn (\w+)", f.read_text()))
    for f in LAWS:
        if "/specs/" in str(f):
            known.update(plain(n) for n in DECLARED.findall(text[f]) if "-" not in n)
        for module, names in re.findall(r"^use (\S+)\.\{([^}]*)\}", text[f], re.M):
            known.update(n.strip() for n in names.split(",") if "-" not in n)
    camel = {w: plain(w) for w in every if any(CAMEL.match(part) for part in w.split("-"))}
    dashed = {n: joined(plain(n), known) for n in laws if "-" in n.strip("-")}
    to, taken, told = {word: word + "_lem" for word in LEMMAS}, {word + "_lem": word for word in LEMMAS}, []
    every = every - set(LEMMAS) - set(FIELDS)
    for old, new in [*sorted(i for i in camel.items() if "-" not in i[0]), *sorted(dashed.items())]:
        if old == new:
            continue
        # a lemma that would have its definition's name
        if old in dashed and (new in every or new in taken):
            new += "_lem"
        if new in every or new in taken:
            told.append(f"{old}: {new} is taken" + (f" by {taken[new]}" if new in taken else ""))
        else:
            to[old] = taken[new] = new
            taken[new] = old
    for name in every:  # what port.py respelled in the code stands in pages and edits as it was
        HERE.add(to.get(name, name))
    return to, told, set(camel), text


HERE = set()


def today(word, to):
    """The name of today for one that a page or an edit has."""
    if word in to:
        return to[word]
    for new in (plain(word), word.replace("-", "_")):
        if word not in HERE and new in HERE:
            return new
    return word


def respell(text, to, camel):
    def turned(m):
        w = m.group(0)
        if w.startswith("--"):
            return comment(w, to, camel)
        if w.startswith(('"', "«")) or w not in to:
            return w
        # a step or a goal of a proof keeps its name; a word in camel case is never one
        before = m.string[max(0, m.start() - 1) : m.start()]
        if before == "." and w not in camel and m.string[max(0, m.start() - 2) : m.start() - 1] != "":
            module = re.search(r"([^\s(){};,]+)\.$", m.string[: m.start()])
            if not (module and re.match(r"(Rattle\.|[A-Z])", module.group(1))):
                return w
        return to[w]

    return TOKEN.sub(turned, text)


def comment(text, to, camel):
    text = re.sub(r"`([^`\n]*)`", lambda m: "`" + re.sub(r"[^\s(){}.;,\[\]]+", lambda n: today(n.group(0), to), m.group(1)) + "`", text)
    return re.sub(r"(?<![\w'-])[a-z][\w']*[A-Z][\w']*(?![\w'-])", lambda m: today(m.group(0), to), text)


def main():
    to, told, camel, text = tables()
    changed = 0
    for f in ANTT:
        mine = to
        if f.name == "Proof.antt":
            own = {n for n in DECLARED.findall(text[f])}
            mine = {old: new for old, new in to.items() if old not in own or old in camel}
        new = respell(text[f], mine, camel)
        if new != text[f]:
            f.write_text(new)
            changed += 1
    small = {old: new for old, new in to.items() if old in camel and "-" not in old}
    for f in [*files("src/*.rt"), *files("wrong/*.edit"), *files("must-fail/*.edit"), ROOT / "README.md", *sorted(ROOT.glob("docs/*.md"))]:
        had = f.read_text()
        new = comment(had, to if f.suffix == ".md" else small, camel)
        if new != had:
            f.write_text(new)
            changed += 1
    print("\n".join(told))
    print(f"{len(to)} names respelled in {changed} files; {len(told)} kept, since the new name is taken")


if __name__ == "__main__":
    main()
