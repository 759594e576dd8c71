#!/usr/bin/env python3
"""Brings the names of this repository's own definitions and lemmas to today's spelling, after port.py: words in snake case.

usage: python3 tools/port/respell.py [FOLDER]     in the repository, or in FOLDER, right after port.py

A word in camel case that is no type becomes snake case. In a name with dashes, a field's or a definition's become
underscores; a lemma's dash stays only between two names of definitions. Functions of src/, strings and files of inputs and
outputs keep theirs: nothing outside clauses is in camel case there. In pages, what stands in backticks is turned alike.
"""

import collections
import os
import re
import sys

# the name that would otherwise fall together with another
OWN = {
    "getD-there": "get_or-there",
    "span-getD": "span-get_or",
    "skips_after": "skips_after_lem",
    "same_from": "same_from_lem",
    "skip_at": "skip_at_lem",
    "told_in": "told_in_lem",
    "items_at": "items_at_lem",
    "same_bool": "same_bool_lem",
    "goes_on": "goes_on_lem",
    "as-rule": "as_the_rule",
}
# where a field of a record of anchors has the name of the definition that it is about, and stays
KEEPS = {("skips_after", "call"), ("goes_on", "call_trials"), ("goes_on", "route"), ("skips_after", "engine")}
# names of the library that stand in names of lemmas
STD = set("length map take drop append set sets get_or some none true false or and not suc zero min reverse replicate eqb ltb leb cond".split())
CAMEL = re.compile(r"[a-z][a-z0-9]*[A-Z]\w*")
DECLARED = re.compile(r"( *)(abbrev |unfoldable )?(pub )?(abbrev |unfoldable )?([\w◌'-]+) :")
NAME = re.compile(r"[\w◌'][\w◌'-]*")
# what the check makes for each function, and what only the walks by hand name
MADE = re.compile(r"(Need|After|In|Then|Else|Joined|At|Start)-")


def snake(word):
    word = re.sub(r"([a-z0-9'])([A-Z])", r"\1_\2", word)
    return re.sub(r"([A-Z])([A-Z][a-z])", r"\1_\2", word).lower()


def files(root):
    for folder, dirs, names in os.walk(os.path.join(root, "crates")):
        dirs[:] = sorted(d for d in dirs if d not in ("out", ".git"))
        for name in sorted(names):
            if name.endswith((".rt", ".antt")):
                yield os.path.join(folder, name)


def pages(root):
    for folder in (root, os.path.join(root, "docs")):
        for name in sorted(os.listdir(folder)) if os.path.isdir(folder) else []:
            if name.endswith(".md") and not name.startswith("PORT"):
                yield os.path.join(folder, name)


def declared(root):
    found = collections.defaultdict(set)
    for path in files(root):
        # what a walk by hand declares is for that walk alone
        if not path.endswith(".antt") or path.endswith("/Proof.antt"):
            continue
        for line in open(path, encoding="utf-8"):
            m = DECLARED.match(line)
            if m:
                found[m.group(5)].add("def" if m.group(2) or m.group(4) else "field" if m.group(1) else "lemma")
    return found


def spelling(found):
    """The old and the new name of all that is declared and changes."""
    plain = {n for n, kinds in found.items() if "-" not in n and "def" in kinds}
    words = plain | {snake(n) for n in plain} | STD
    new = {}
    for name, kinds in found.items():
        if name in OWN:
            new[name] = OWN[name]
            continue
        parts = [snake(p) if CAMEL.match(p) else p for p in name.split("-")]
        text = parts[0]
        for before, part in zip(parts, parts[1:]):
            joins = kinds == {"lemma"} and before in words and part in words
            text += ("-" if joins else "_") + part
        if text != name:
            new[name] = text
    # a statement that would have the name of the function that it speaks of
    taken = collections.Counter(new.get(name, name) for name in found)
    for name in found:
        text = new.get(name, name)
        if "-" in name and taken[text] > 1:
            new[name] = text + "_lem"
    return new


def turn_line(line, new, crate, dashes):
    def turn(m):
        word = m.group(0)
        if MADE.match(word) or (word, crate) in KEEPS:
            return word
        if word in new and (dashes or "-" not in word):
            return new[word]
        # a camel word that is declared in no file of antt, or part of a name that the check makes
        return "-".join(snake(p) if CAMEL.fullmatch(p) else p for p in word.split("-"))

    return NAME.sub(turn, line)


def turn_text(path, text, new, crate):
    mark = "--" if path.endswith(".antt") else "//"
    lines = []
    for line in text.split("\n"):
        code, sign, said = (line, "", "")
        at = re.search(r"(^|\s)" + re.escape(mark) + r"(\s|$)", line)
        if at:
            code, sign, said = line[:at.start()], line[at.start():at.end()], line[at.end():]
        clause = path.endswith(".antt") or re.search(r"\b(ensures|requires|ghost)\b", line)
        # strings and code of src/ have nothing in camel case
        lines.append(turn_line(code, new, crate, clause) + sign + turn_line(said, {k: v for k, v in new.items() if CAMEL.match(k) and "-" not in k}, crate, False))
    return "\n".join(lines)


def main(argv):
    root = argv[0] if argv else "."
    found = declared(root)
    new = spelling(found)
    after = collections.defaultdict(set)
    for name in found:
        after[new.get(name, name)].add(name)
    for name, olds in sorted(after.items()):
        if len(olds) > 1:
            print(f"fall together: {name}: {', '.join(sorted(olds))}")
    changed = 0
    for path in files(root):
        crate = os.path.relpath(path, os.path.join(root, "crates")).split(os.sep)[0]
        text = open(path, encoding="utf-8").read()
        turned = turn_text(path, text, new, crate)
        if turned != text:
            changed += 1
            with open(path, "w", encoding="utf-8") as f:
                f.write(turned)
    for path in pages(root):
        text = open(path, encoding="utf-8").read()
        turned = re.sub(r"`[^`\n]*`", lambda m: turn_line(m.group(0), new, "", True), text)
        if turned != text:
            changed += 1
            with open(path, "w", encoding="utf-8") as f:
                f.write(turned)
    print(f"{len(new)} names, {changed} files")
    return 0


if __name__ == "__main__":
    raise SystemExit(main(sys.argv[1:]))
