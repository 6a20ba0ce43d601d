#!/usr/bin/env python3
"""Brings the names of this repository to the spelling of today's Rattle, once, behind port.py and before its commit.

usage: python3 tools/respell.py      at the top of the checkout; HEAD is the text before port.py

What it turns, in the .rt and .antt files below crates/:
- a definition in camel case becomes snake case: isDigit, is_digit;
- the RFC's names utf8-char, utf8-tail, utf8-1 .. become utf8_char, ..;
- a lemma or a theorem of this repository keeps its dashes, which port.py took where the library has a name like it: one_byte_refused is
  one-byte-refused again, since `oneOf` and `one-of` fell together otherwise. What stood there before is read from HEAD;
- the crates core and log, whose names the kit has, become intake and logs; what port.py took for the kit's core is put right.
Functions of src/, exported names, strings, inputs and outputs keep their names.
"""

import difflib
import os
import re
import subprocess

RENAMED = {"core": "intake", "log": "logs"}
NAME = re.compile(r"[A-Za-z_][\w'′₀-₉]*(?:-[\w'′₀-₉]+)*")
CAMEL = re.compile(r"[a-z][a-z0-9]*(?:[A-Z][a-z0-9]*)+['′]*")
STRING = re.compile(r'b?"(?:[^"\\]|\\.)*"')
SIGNATURE = re.compile(r"^\s*(?:(?:pub|abbrev|unfoldable)\s+)*([a-z][\w'′₀-₉-]*)(?: [^:=→]*)? : ")
IN_RFC = re.compile(r"\butf8-(char|tail|[1-4])\b")


def git(*words):
    return subprocess.run(["git", *words], check=True, capture_output=True, text=True).stdout


def files():
    for folder, dirs, names in os.walk("crates"):
        dirs[:] = sorted(d for d in dirs if d != "out")
        yield from (os.path.join(folder, n) for n in sorted(names) if n.endswith((".rt", ".antt")))


def read(path):
    with open(path, encoding="utf-8") as f:
        return f.read()


def before(path):
    try:
        return git("show", "HEAD:" + path)
    except subprocess.CalledProcessError:
        return ""


def snake(name):
    return re.sub(r"(?<=[a-z0-9])[A-Z]", lambda m: "_" + m[0].lower(), name)


def turned(name):
    """Each part of a name that is in camel case, in snake case."""
    return "-".join(snake(p) if CAMEL.fullmatch(p) else p for p in name.split("-"))


def key(name):
    return re.sub(r"[-_'′]", "", name).lower()


def defined_with_dashes(olds):
    """The lemmas and theorems of proofs/ that have a dash, but for a function's own theorem, whose name is the function's."""
    found = set()
    for path, text in olds.items():
        if "/proofs/" in path:
            found |= {m[1] for l in text.splitlines() if (m := SIGNATURE.match(l)) and "-" in m[1] and not m[1].endswith("-spec")}
    return found


def imported(text, crates):
    """The names that a file brings from elsewhere than this repository."""
    names = set()
    for m in re.finditer(r"^\s*(?:ghost |unfoldable |pub )*use ([^\s{;]+)\{([^}]*)\}", text, re.M):
        parts = m[1].split(".")
        if not (parts[0] == "Rattle" and parts[1] in crates):
            names |= {n.split(" as ")[-1].strip() for n in m[2].split(",")}
    return names


def main():
    crates = {c for c in os.listdir("crates")}
    paths = list(files())
    olds = {p: before(p) for p in paths}
    lemmas = defined_with_dashes(olds)
    for path in paths:
        new, old = read(path), olds[path]
        foreign = imported(new, crates)
        strings = [m.span() for m in STRING.finditer(new)] if path.endswith(".rt") else []
        now = list(NAME.finditer(new))
        was = NAME.findall(old)
        stood = {}
        for a, b, n in difflib.SequenceMatcher(None, [key(m[0]) for m in now], [key(w) for w in was], autojunk=False).get_matching_blocks():
            stood.update({a + i: was[b + i] for i in range(n)})
        out, end = [], 0
        for i, m in enumerate(now):
            name = m[0]
            if any(a <= m.start() < b for a, b in strings):
                continue
            had = stood.get(i)
            if had in lemmas and name == had.replace("-", "_").replace("′", "'") and name not in foreign:
                name = had.replace("′", "'")
            name = turned(name)
            out += [new[end : m.start()], name]
            end = m.end()
        text = IN_RFC.sub(lambda m: "utf8_" + m[1], "".join(out) + new[end:])
        # what port.py took for the kit's core, and the other way round
        own = {f[:-5] for f in os.listdir("crates/core/specs") if f.endswith(".antt")} | {"declared.Taken"}
        text = re.sub(r"Rattle\.core\.specs\.([A-Z]\w*)", lambda m: m[0] if m[1] in own else f"Rattle.std.specs.{m[1]}", text)
        text = re.sub(r"Rattle\.std\.specs\.((?:declared\.)?[A-Z]\w*)(?!\w)", lambda m: f"Rattle.core.specs.{m[1]}" if m[1] in own else m[0], text)
        for a, b in RENAMED.items():
            text = re.sub(rf"\bRattle\.{a}\b", f"Rattle.{b}", text)
            if path.endswith(".rt"):
                text = re.sub(rf"(?<![\w:]){a}::", f"{b}::", text)
        if text != read(path):
            with open(path, "w", encoding="utf-8") as f:
                f.write(text)
    listed = read("crates.txt")
    for a, b in RENAMED.items():
        git("mv", f"crates/{a}", f"crates/{b}")
        listed = re.sub(rf"(?<![\w]){a}(?![\w])", b, listed)
    with open("crates.txt", "w", encoding="utf-8") as f:
        f.write(listed)


main()
