#!/usr/bin/env python3
"""Brings the repository's own definitions and lemmas to today's spelling: words in snake case.

usage: tools/snake_names.py [--list]      at the top of the repository, once, right after the kit's port.py

A definition, a lemma, a constructor or a record's field that is declared in an .antt file of crates/ and is spelled in camel case
(`laterMoment`) or with dashes between words (`later-moment`) becomes `later_moment`. A dash stays where it joins two names, one of which was
in camel case or has a capital or a sign: `length-applyInputs` becomes `length-apply_inputs`. Types and modules keep their names. The names
are turned wherever they stand in .antt files, and in the .rt files' clauses, ghost lines and comments; not in strings, functions, fields or
types of src/. With --list it writes nothing and prints the old and the new names, and each name that falls together with another.
"""

import os
import re
import sys

ROOT = os.path.dirname(os.path.dirname(os.path.abspath(__file__)))
OWN = set(os.listdir(os.path.join(ROOT, "crates")))
WORD = r"[^\s(){}.;,@\"«»\[\]\\λ:]+"
TOKEN = re.compile(r"--[^\n]*|\"(?:[^\"\\]|\\.)*\"|" + WORD)
RUST_TOKEN = re.compile(r"//[^\n]*|b?\"(?:[^\"\\]|\\.)*\"|b?'(?:[^'\\]|\\.)'|" + WORD)
DECLARED = re.compile(r"(?m)^[ ]*(?:(?:abbrev|unfoldable|opaque)[ ]+)*(?:pub[ ]+)?((?:" + WORD + r"[ ]+)+):[ ]")
NO_NAMES = set("let in use module where data record rw open case elim if then else → = | with".split())


def texts(ending):
    for folder, dirs, files in os.walk(os.path.join(ROOT, "crates")):
        dirs[:] = sorted(d for d in dirs if d not in ("out", "data"))
        for f in sorted(files):
            if f.endswith(ending):
                yield os.path.join(folder, f)


def read(path):
    with open(path, encoding="utf-8", newline="") as f:
        return f.read()


def snaked(word):
    """A word in camel case, in snake case."""
    word = re.sub(r"getD(?![a-z])", "get_or", word)
    return re.sub(r"(?<=[a-z0-9])([A-Z])", lambda m: "_" + m[1].lower(), word)


def is_camel(part):
    return re.match(r"[a-z]", part) and re.search(r"[A-Z]", part)


def is_name(part):
    """A part that a dash joins to another: a type, a sign, or a name in camel case."""
    return not re.fullmatch(r"[a-z0-9_'₀-₉]+", part)


def turned(name):
    name = name.replace("′", "'")
    parts = name.split("-")
    out = snaked(parts[0]) if is_camel(parts[0]) else parts[0]
    for before, part in zip(parts, parts[1:]):
        dash = "-" if is_name(before) or is_name(part) else "_"
        out += dash + (snaked(part) if is_camel(part) else part)
    return out


def declared():
    found = {}
    for path in texts(".antt"):
        by_hand = os.path.basename(path) == "Proof.antt"
        text = re.sub(r"--[^\n]*", "", read(path))
        for m in DECLARED.finditer(text):
            names = m[1].split()
            if names[0] in NO_NAMES or any(n in NO_NAMES for n in names):
                continue
            if by_hand and "pub" not in m[0].split(m[1].split()[0])[0].split():
                continue
            for n in names:
                if ("-" in n.strip("-") or is_camel(n) or "′" in n) and re.match(r"\w", n):
                    found.setdefault(n, set()).add(os.path.relpath(path, ROOT))
    return found


def plain():
    """The names declared in .antt files that are spelled so already."""
    out = set()
    for path in texts(".antt"):
        if os.path.basename(path) != "Proof.antt":
            for m in DECLARED.finditer(re.sub(r"--[^\n]*", "", read(path))):
                names = m[1].split()
                if not any(n in NO_NAMES for n in names):
                    out.update(n for n in names if turned(n) == n)
    return out


def table():
    """Old to new. A lemma that would have a definition's name gets `_lem`."""
    names, there = {}, plain()
    for n in sorted(declared(), key=lambda n: ("-" in n, n)):
        it = turned(n)
        while it != n and it in there:
            it += "_lem"
        if it != n:
            names[n] = it
            there.add(it)
    return names


def in_comment(text, names):
    """Camel case in a comment is a name; words with dashes only between backticks."""
    text = re.sub(WORD, lambda m: names[m[0]] if m[0] in names and is_camel(m[0]) else m[0], text)
    return re.sub(r"`([^`\n]*)`", lambda m: "`" + re.sub(WORD, lambda w: names.get(w[0], w[0]), m[1]) + "`", text)


USE = re.compile(r"(?m)^[ ]*(?:pub |ghost )*use ([^\s{;]+?)(?:\.\{([^}]*)\}| as (\S+?))?;?$")


def of_library(text, own):
    """What a file names of the libraries: the names that it imports, and the names that it gives to modules."""
    names, modules = set(), set()
    for m in USE.finditer(text):
        parts = m[1].split(".")
        if parts[0] == "Rattle" and len(parts) > 1 and parts[1] in own:
            continue
        names.update(it.split(" as ")[-1].strip() for it in (m[2] or "").split(","))
        if m[3]:
            modules.add(m[3])
    return names, modules


LIBRARIES = set("lib mathlib native Prim borrow denote base seplogic mir prog types contract sound heap".split())


def is_library(text, at, modules):
    """Does the name at `at` stand behind a path of the libraries, or behind a name that the file gives to one of their modules?"""
    start = at
    while start > 0 and re.match(r"[^\s(){};,\"«»\[\]\\λ:]", text[start - 1]):
        start -= 1
    path = text[start:at].split(".")[:-1]
    return bool(path) and (path[0] in LIBRARIES or path[0] in modules or (path[0] == "Rattle" and len(path) > 1 and path[1] not in OWN))


def antt(text, names):
    kept, modules = of_library(text, OWN)

    def one(m):
        it = m[0]
        if it.startswith("--"):
            return in_comment(it, names)
        if it in kept or is_library(text, m.start(), modules):
            return it
        return it if it.startswith('"') else names.get(it, it)

    return TOKEN.sub(one, text)


def rust(text, names):
    kept, _ = of_library(text, OWN)

    def one(m):
        it = m[0]
        if it in kept:
            return it
        if it.startswith("//"):
            return in_comment(it, names)
        return it if it[:1] in "\"'" or it[:2] in ('b"', "b'") else names.get(it, it)

    return RUST_TOKEN.sub(one, text)


def main(argv):
    names = table()
    if argv == ["--list"]:
        new = {}
        for old, it in sorted(names.items()):
            print(old, it)
            new.setdefault(it, []).append(old)
        for it, olds in sorted(new.items()):
            if len(olds) > 1:
                print("together:", it, *olds)
        for path in [*texts(".antt"), *texts(".rt")]:
            there = set(TOKEN.findall(read(path)))
            for t in sorted(there):
                if t in new and any(old in there for old in new[t]):
                    print("stands:", os.path.relpath(path, ROOT), t, *(old for old in new[t] if old in there))
        return 0
    if argv:
        print(__doc__)
        return 2
    for ending, turn in ((".antt", antt), (".rt", rust)):
        for path in texts(ending):
            old = read(path)
            new = turn(old, names)
            if new != old:
                with open(path, "w", encoding="utf-8", newline="") as f:
                    f.write(new)
    return 0


if __name__ == "__main__":
    raise SystemExit(main(sys.argv[1:]))
