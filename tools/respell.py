#!/usr/bin/env python3
"""Respells this repository's own definitions and lemmas: words in snake case, types and facts in camel case.

    python3 tools/respell.py [FOLDER]

Run once over a checkout that the toolchain's own upgrade script has turned. It renames what the files of specs/ and
proofs/ define, there and wherever the sources' clauses cite it: `kept-groups` becomes `kept_groups`, `Comes-back`
becomes `ComesBack`. Functions, fields, strings and comments of the sources keep their spelling, and so do the names
that the check gives to goals. Where the new name would be that of something else, OTHER has one of its own.
"""

import os
import re
import sys

TOP = sys.argv[1] if len(sys.argv) > 1 else "."

# a word that would have had the name of a field that the same clause reads
OTHER = {"turned_down": "turned_down_count"}

# the generated names of goals and steps that are spelled otherwise today
MADE = [
    (re.compile(r"(?<![\w-])(returns-)?in-(err|ok)-"), r"\1in_\2-"),
    (re.compile(r"(?<![\w-])overflow-(add|sub|mul|shl|shr|cast)\b"), r"overflow_\1"),
]

# what may stand in a name of antt
NAME = r"[^\s(){}\[\],;.:\"`|=]"


def files(ending, part=""):
    out = []
    for at, folders, names in os.walk(os.path.join(TOP, "crates")):
        folders[:] = sorted(f for f in folders if f not in ("out", "target"))
        out += [os.path.join(at, n) for n in sorted(names) if n.endswith(ending) and part in at + "/"]
    return out


def read(path):
    with open(path, encoding="utf-8") as f:
        return f.read()


def respelled(name):
    if "-" not in name:
        return OTHER.get(name, name)
    if name[0].isupper():
        return "".join(p[:1].upper() + p[1:] for p in name.split("-"))
    new = name.replace("-", "_")
    return OTHER.get(new, new)


def defined():
    """The names that files of specs/ and proofs/ define, but for the answers to goals."""
    found = {}
    for path in files(".antt"):
        in_record = False
        for line in read(path).splitlines():
            if re.match(r"(?:pub\s+)?(?:record|data)\b", line):
                in_record = True
            elif line and not line[0].isspace():
                in_record = False
            m = re.match(r"(\s*)((?:(?:abbrev|unfoldable|pub|record|data)\s+)*)(" + NAME + r"+)(\s|$)(.*)", line)
            if not m or m[3].startswith("--") or m[3] in ("use", "let", "in", "unfolding"):
                continue
            is_type = re.search(r"\b(record|data)\b", m[2])
            is_signature = re.match(r"\s*: ", " " + m[5]) or re.match(r"\s*:\s*$", " " + m[5])
            if m[1] and not (in_record and is_signature):
                continue
            if not (is_type or is_signature) or re.search(r"\bgoal\.", m[5]):
                continue
            found.setdefault(m[3], set()).add(path)
    return found


def blank(text):
    """A source's text with its comments and strings blanked."""
    return re.sub(r"//[^\n]*|\"(?:\\.|[^\"\\\n])*\"", lambda m: re.sub(r"[^\n]", " ", m[0]), text)


def main():
    names = defined()
    turned = {n: respelled(n) for n in names if respelled(n) != n}
    turned |= {n.replace("_", "-"): new for n, new in OTHER.items()}
    taken = {}
    for n in sorted(names):
        taken.setdefault(respelled(n), []).append(n)
    for new, olds in taken.items():
        if len(olds) > 1:
            print("falls together:", new, olds)
    whole = re.compile(r"(?<!" + NAME + r")(" + "|".join(re.escape(n) for n in sorted(turned, key=len, reverse=True)) + r")(?!" + NAME + r")")
    changed = 0
    for path in files(".antt"):
        text = read(path)
        for line in text.splitlines():
            m = re.match(r"use (Rattle\.std\.[\w.]+|borrow\.[\w.]+|denote\.[\w.]+)\.\{(.*)\}", line)
            for n in m[2].split(", ") if m else []:
                if n in turned:
                    print("also a name of the library:", n, path)
        out = []
        for line in text.split("\n"):
            head, dash, rest = line.partition("--") if line.lstrip().startswith("--") else (line, "", "")
            if not dash:
                # a definition that OTHER renames is left alone behind a dot, where it is a field
                head = re.sub(whole.pattern, lambda m: m[0] if head[: m.start()].endswith(".") and m[0] in OTHER else turned[m[0]], head)
                for pattern, by in MADE:
                    head = pattern.sub(by, head)
            out.append(head + dash + rest)
        new = "\n".join(out)
        if new != text:
            changed += 1
            with open(path, "w", encoding="utf-8") as f:
                f.write(new)
    for path in files(".rt"):
        text = read(path)
        seen = blank(text)
        out, last = [], 0
        for m in whole.finditer(seen):
            inside = seen.rfind("ghost use", 0, m.start()) > seen.rfind("\n", 0, m.start()) - 1
            line = seen[seen.rfind("\n", 0, m.start()) + 1 : m.start()]
            clause = re.search(r"\b(?:requires|ensures|ghost)\b", line) or re.search(r"\b(?:requires|ensures|ghost)\b[^;]*$", seen[: m.start()])
            if m[0] in OTHER and not inside and not re.search(r"≡ $", seen[: m.start()]):
                continue
            if not (inside or clause):
                print("left in", path, ":", m[0])
                continue
            out.append(text[last : m.start()] + turned[m[0]])
            last = m.end()
        new = "".join(out) + text[last:]
        if new != text:
            changed += 1
            with open(path, "w", encoding="utf-8") as f:
                f.write(new)
    print(f"{len(turned)} names respelled, {changed} files changed")


main()
