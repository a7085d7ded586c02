#!/usr/bin/env python3
"""Brings this repository's own definitions and lemmas to today's spelling: types and facts in upper camel case, all else in snake case.

usage: python3 tools/respell.py      at the top of the repository, once, after the kit's port.py

A name is the repository's own if one of its .antt files declares it: by a signature, as a record, data, constructor or field, as an argument, or by let or λ.
Names that Rattle makes (goals, steps, clauses) and the library's keep their spelling. Functions of src/, strings and comments are left as they are.
It stops, and writes nothing, if two names would fall together. A name may come to be that of a module or of a function of src/, which stand elsewhere.
"""

import os
import re
import sys

NAME = r"[^\s(){};,.:λ→\[\]«»|`\"]+"
TOKEN = re.compile(r"[\w'⊑₀₁₂₃₄]+(?:-[\w'⊑₀₁₂₃₄]+)*")

APART = {"without-cr": "without_cr_lem"}  # a lemma that would have the name of its function


def files(*ends):
    for folder, dirs, names in os.walk("crates"):
        dirs[:] = sorted(d for d in dirs if d != "out")
        for n in sorted(names):
            if n.endswith(ends):
                yield os.path.join(folder, n)


def read(path):
    with open(path, encoding="utf-8") as f:
        return f.read()


def declared():
    """The names that the repository declares."""
    own = set()
    for path in files(".antt"):
        text = re.sub(r"--[ \n].*", "", read(path))
        for line in text.split("\n"):
            m = re.match(r"\s*(?:pub |abbrev |unfoldable )*(" + NAME + r") : (.*)", line)
            if m and not m.group(2).startswith(("goal.", "need.")):
                own.add(m.group(1))
            m = re.match(r"\s*(?:pub |abbrev )*(?:record|data) (" + NAME + ")", line)
            if m:
                own.add(m.group(1))
            for m in re.finditer(r"[({]((?:" + NAME + r" )+): ", line):
                own |= set(m.group(1).split())
            own |= set(re.findall(r"let (" + NAME + ") [=:]", line))
            for m in re.finditer(r"λ ((?:" + NAME + r" ?)+)\.", line):
                own |= set(m.group(1).split())
    return own


def respelled(name):
    if name in APART:
        return APART[name]
    parts = re.split("[-_]", name)
    if name[0].isupper():
        return "".join(p[:1].upper() + p[1:] for p in parts)
    return "_".join(re.sub("[A-Z]+", lambda m: "_" + m.group(0).lower(), p).lstrip("_") for p in parts) if re.search("[a-z][A-Z]", name) else "_".join(parts)


def renames():
    own = declared()
    to = {n: respelled(n) for n in own if TOKEN.fullmatch(n) and len(n) > 1 and "'" not in n}
    to = {n: w for n, w in to.items() if n != w}
    bad = sorted(f"{n} and {w}" for n, w in to.items() if w in own)
    bad += sorted(f"{n} twice" for n in set(to.values()) if list(to.values()).count(n) > 1)
    if bad:
        print("respell: these names would fall together: " + ", ".join(bad), file=sys.stderr)
        raise SystemExit(2)
    return to


def turn(text, to, skip):
    """Renames each whole token outside the places that skip matches."""
    def whole(m):
        return to.get(m.group(0), m.group(0))

    out, at = [], 0
    for m in re.finditer(skip, text):
        out += [TOKEN.sub(whole, text[at:m.start()]), m.group(0)]
        at = m.end()
    return "".join(out) + TOKEN.sub(whole, text[at:])


def main():
    to = renames()
    skips = {".antt": r"--[ \n].*", ".rt": r"//.*|b?\"(?:[^\"\\]|\\.)*\"", ".edit": r"(?m)^file:.*"}
    n = 0
    for end, skip in skips.items():
        for path in files(end):
            old = read(path)
            new = turn(old, to, skip)
            if new != old:
                n += 1
                with open(path, "w", encoding="utf-8") as f:
                    f.write(new)
    for path in ["README.md", *sorted("docs/" + f for f in os.listdir("docs") if f.endswith(".md") and f != "PORT.md")]:
        old = read(path)
        new = re.sub(r"`[^`\n]+`", lambda m: turn(m.group(0), to, r"(?!)x"), old)
        if new != old:
            n += 1
            with open(path, "w", encoding="utf-8") as f:
                f.write(new)
    print(f"respell: {len(to)} names, {n} files")


if __name__ == "__main__":
    main()
