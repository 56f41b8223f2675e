#!/usr/bin/env python3
"""Brings the repository's own definitions and lemmas to one spelling: facts, types and modules in upper camel case, all
else in snake case, with a dash only where it joins the names of two functions, as in `total-map`.

usage: python3 tools/respell.py [FOLDER]     once, at the top of a repository whose names still have dashes
It reads the files of FOLDER/crates, and the pages of docs/ between backticks, as text. Functions of src/, strings,
comments outside backticks and names that the toolchain makes (those of goals and steps) keep their spelling.
"""
import collections
import os
import re
import sys

ROOT = sys.argv[1] if len(sys.argv) > 1 else "."
GENERATED = ("Answers.antt", "Invariants.antt", "Choices.antt", "Proof.antt")
NAME = r"[^\s(){}\[\];,.`:\"]+"
DEFINED = re.compile(r"^\s*(?:abbrev |unfoldable |pub |ruleset )*(" + NAME + r") *:(?!:)\s*(.*)$")
DECLARED = re.compile(r"^\s*(?:pub )?(?:record|data) (" + NAME + r")( .*)$")
# names of lemmas that hold a word which the library spells otherwise today
OTHERWISE = {"at-getD": "at_get_or", "getD-change-other": "get_or-change_other", "getD-change-same": "get_or-change_same"}
# functions of the library whose names a lemma's name joins by a dash
LIBRARY = {"length", "take", "drop", "map", "replicate", "append"}


def files(ends):
    for folder, dirs, names in os.walk(os.path.join(ROOT, "crates")):
        dirs[:] = sorted(d for d in dirs if d != "out")
        for name in sorted(names):
            if name.endswith(ends):
                yield os.path.join(folder, name)


def defined():
    """Each name that a file of specs/ or proofs/ defines, with the kind of file and the rest of its line."""
    found = {}
    for path in files(".antt"):
        made = path.endswith(GENERATED)
        for line in open(path, encoding="utf-8"):
            if line.lstrip().startswith("--"):
                continue
            m = DECLARED.match(line) or DEFINED.match(line)
            if not m:
                continue
            if made and ("goal." in line or re.match(r"^(invariant|decreases)-", m.group(1))):
                continue
            found.setdefault(m.group(1), []).append((path, line.strip()))
    return found


def functions(names):
    """The names in snake case that stand for functions: definitions in specs/ or proofs/ with a mark, or without one
    where the result is no fact."""
    out = set(LIBRARY)
    for name, places in names.items():
        for _, line in places:
            if re.match(r"(abbrev|unfoldable)\b", line) and "-" not in name:
                out.add(name)
            elif re.match(r"(abbrev|unfoldable)\b", line):
                out.add(name.replace("-", "_"))
    return {f.replace("_", "-") for f in out}


def camel(name):
    return "".join(p[:1].upper() + p[1:] for p in re.split(r"[-_]", name))


def snake(name, known):
    """a-b-c: the longest known functions from the left stay whole; a dash is kept between two functions alone."""
    parts = name.split("-")
    whole = "-".join(parts)
    if whole in known:
        return "_".join(parts)
    for cut in range(len(parts) - 1, 0, -1):
        left, right = "-".join(parts[:cut]), "-".join(parts[cut:])
        if left in known and right in known:
            return left.replace("-", "_") + "-" + right.replace("-", "_")
    return "_".join(parts)


def pages():
    docs = os.path.join(ROOT, "docs")
    names = [os.path.join(docs, n) for n in sorted(os.listdir(docs)) if n.endswith(".md")] if os.path.isdir(docs) else []
    return names + [os.path.join(ROOT, "README.md")]


def rewrite(path, text, new):
    if new != text:
        with open(path, "w", encoding="utf-8") as f:
            f.write(new)


def renaming():
    names = defined()
    known = functions(names)
    out = {}
    for name in names:
        if name in OTHERWISE:
            new = OTHERWISE[name]
        elif name[0].isupper():
            new = camel(name) if re.search(r"[-_]", name) else name
        elif "-" in name:
            new = snake(name, known)
        else:
            continue
        if new != name:
            out[name] = new
    return names, out


# a word, but not a step of the code behind the facts `c` or `w` of an answer, which the toolchain names
TOKEN = re.compile(r"[^\s(){}\[\];,.`:\"]+")
STEP = re.compile(r"(?<![\w.])[cw]\.$")


def respell_text(text, table):
    return TOKEN.sub(lambda m: m.group(0) if STEP.search(text, max(0, m.start() - 3), m.start()) else table.get(m.group(0), m.group(0)), text)


def respell_comment(text, table):
    return re.sub(r"`[^`]*`", lambda m: respell_text(m.group(0), table), text)


def antt(text, table):
    out = []
    for line in text.split("\n"):
        at = re.search(r"(^|\s)--(\s|$)", line)
        code, rest = (line[: at.start()], line[at.start():]) if at else (line, "")
        out.append(respell_text(code, table) + respell_comment(rest, table))
    return "\n".join(out)


def rt(text, table):
    """Clauses, ghost items and `ghost use` lines alone: the braces that follow the words below."""
    out, i = [], 0
    opener = re.compile(r"\b(ghost use [^;]*;|(?:requires|ensures)\*?(?: \w+)? \{|ghost (?:invariant )?\w+(?:: \{| = \{))")
    while True:
        m = opener.search(text, i)
        if not m:
            out.append(text[i:])
            return "".join(out)
        start = text.rfind("\n", 0, m.start()) + 1
        if "//" in text[start:m.start()]:
            out.append(text[i:m.end()])
            i = m.end()
            continue
        out.append(text[i:m.start()])
        if m.group(0).startswith("ghost use"):
            out.append(respell_text(m.group(0), table))
            i = m.end()
            continue
        depth, j = 1, m.end()
        while depth:
            depth += {"{": 1, "}": -1}.get(text[j], 0)
            j += 1
        out.append(m.group(0) + respell_text(text[m.end():j], table))
        i = j


def main():
    names, table = renaming()
    taken = collections.Counter(table.values())
    for old, new in table.items():
        if taken[new] > 1 or new in names:
            raise SystemExit(f"respell: {old} would fall together with another name, {new}")
    for path in files((".antt", ".rt")):
        with open(path, encoding="utf-8") as f:
            text = f.read()
        rewrite(path, text, antt(text, table) if path.endswith(".antt") else rt(text, table))
    for path in pages():
        with open(path, encoding="utf-8") as f:
            text = f.read()
        known = set(names) | set(table.values())
        others = {t: n for t in TOKEN.findall(text) if "-" in t and t not in table for n in (camel(t) if t[0].isupper() else t.replace("-", "_"),) if n in known}
        rewrite(path, text, respell_comment(text, others | table))
    for old in sorted(table):
        print(f"{old} -> {table[old]}")


if __name__ == "__main__":
    main()
