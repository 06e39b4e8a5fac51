#!/usr/bin/env python3
"""Respells this repository's own definitions and lemmas: words in snake case, types in camel case.

usage: python3 tools/respell.py            run once, at the top, after the toolchain's own port.py

A name is the repository's own if it stands with a hyphen in specs/ or proofs/ and is not imported from
a library of the toolchain. Names that the check makes (goals, and what a goal knows of a call) keep
theirs. It stops where two names would fall together. Functions of src/, strings and comments stay.
"""

import os
import re
import sys

NAME = re.compile(r"(?<![\w'«»\-])[A-Za-z_][\w']*(?:-[\w']+)+(?![\w'«»\-])")
MADE = re.compile(r"^(returns|loop|in|invariant|variant|overflow|nonzero|index|bound)\b")
CRATES = "disk bits image overlay survey ledger pack workbench trials pack_trials".split()


def files(ending):
    for folder, dirs, names in os.walk("crates"):
        dirs[:] = sorted(d for d in dirs if d != "out")
        for n in sorted(names):
            if n.endswith(ending):
                yield os.path.join(folder, n)


def of_function(path):
    """Whether a file belongs to the proof of one function."""
    return "/proofs/" in path and os.path.basename(path) in ("Answers.antt", "Invariants.antt", "Proof.antt", "Choices.antt")


def split(line, mark):
    """A line's text and its comment."""
    at, quoted = 0, False
    while at < len(line):
        if line[at] == '"':
            quoted = not quoted
        elif not quoted and line.startswith(mark, at) and (mark == "//" or at == 0 or line[at - 1] == " "):
            return line[:at], line[at:]
        at += 1
    return line, ""


def imported(text):
    """The names that a file takes from libraries of the toolchain."""
    found = set()
    for m in re.finditer(r"use ([\w.+·'-]+)\.\{([^}]*)\}", text):
        parts = m.group(1).split(".")
        if len(parts) > 1 and parts[1] in CRATES:
            continue
        found |= set(NAME.findall(m.group(2)))
    return found


def respelled(name):
    parts = name.split("-")
    if name[0].isupper():
        return "".join(p[:1].upper() + p[1:] for p in parts)
    return "_".join("get" if p == "getD" else p for p in parts)


def made_here(text):
    """The names of goals that a function's file answers."""
    return set(re.findall(r"(?:goal|given)\.([\w'-]+)", text))


def own_names():
    library, own, plain = set(), set(), set()
    for p in files(".antt"):
        text = open(p, encoding="utf-8").read()
        library |= imported(text)
        if of_function(p):
            made = made_here(text)
            for line in text.split("\n"):
                code, _ = split(line, "--")
                m = re.match(r"(?:pub |abbrev |unfoldable )*([\w'-]+) :", code)
                if m and NAME.fullmatch(m.group(1)) and m.group(1) not in made:
                    own.add(m.group(1))
            continue
        for line in text.split("\n"):
            code, _ = split(line, "--")
            own |= set(NAME.findall(code))
            plain |= set(re.findall(r"(?<![\w'«»\-])[A-Za-z_][\w']*(?![\w'«»\-])", code))
    return own - library, library, plain


def turned(code, names, stay):
    return NAME.sub(lambda m: names[m.group(0)] if m.group(0) in names and m.group(0) not in stay else m.group(0), code)


def turn_file(p, names, mark):
    text = open(p, encoding="utf-8").read()
    stay = made_here(text) if of_function(p) else set()
    lines = []
    for line in text.split("\n"):
        code, comment = split(line, mark)
        pieces = code.split('"')
        pieces = [turned(s, names, stay) if i % 2 == 0 else s for i, s in enumerate(pieces)]
        lines.append('"'.join(pieces) + comment)
    new = "\n".join(lines)
    if new != text:
        open(p, "w", encoding="utf-8").write(new)
        return 1
    return 0


def main():
    own, library, plain = own_names()
    names = {n: respelled(n) for n in sorted(own)}
    back = {}
    for n, m in names.items():
        back.setdefault(m, []).append(n)
    clash = {m: ns for m, ns in back.items() if len(ns) > 1}
    taken = {m: ns for m, ns in back.items() if m in plain}
    for m, ns in clash.items():
        print(f"fall together: {', '.join(ns)} -> {m}")
    for m, ns in taken.items():
        print(f"stands already: {', '.join(ns)} -> {m}")
    if clash or "--list" in sys.argv:
        for n, m in names.items():
            print(n, m)
        return 1 if clash else 0
    count = sum(turn_file(p, names, "--") for p in files(".antt"))
    count += sum(turn_file(p, names, "//") for p in files(".rt"))
    count += sum(turn_file(p, names, "\0") for p in files(".edit"))
    print(f"{len(names)} names, {count} files")
    return 0


if __name__ == "__main__":
    raise SystemExit(main())
