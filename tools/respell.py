#!/usr/bin/env python3
"""Brings this repository's own definitions and lemmas to today's spelling. Run once, at the top, right after the kit's port.py.

Words are in snake case: maxRows is max_rows. Of a lemma's dashes those stay that join two names of definitions, as in
told-rows; a plain word is joined with _, as in one_self. A type's name has no _ in it. Names that Rattle makes for a
function's proof (proofs/FUNCTION/Proof.antt) are left alone, and so are functions of src/, C names, strings, inputs and
outputs. It prints each name that it changes, and names that would fall together, and then writes nothing.
"""

import collections
import glob
import os
import re
import sys

WORD = r"[^\s(){}\[\].;,@\"«»|λ]+"
TOKEN = re.compile(r"--[^\n]*|\"(?:[^\"\\]|\\.)*\"|«[^»]*»|" + WORD)
TOKEN_CODE = re.compile(r"//[^\n]*|b?\"(?:[^\"\\]|\\.)*\"|b?'(?:[^'\\]|\\.)'|[A-Za-z_#◌][\w#'◌]*")
HEAD = re.compile(r"^(?:abbrev |unfoldable )?(?:pub )?(record |data )?([^\s:(){}]+)\s*(?=[:({])")
HEAD_TYPE = re.compile(r"^(?:abbrev |unfoldable )?(?:pub )?(record |data )([^\s:(){}]+)")
PART = re.compile(r"^  (?:pub )?([^\s:(){}|]+) *:")
PATH = re.compile(r"Rattle(\.[\w+]+)+")
INNER = re.compile(r"^\s+(?:abbrev |unfoldable )?(?:pub )?(?:record |data )?([a-z][\w'#]+[A-Z][\w'#]*|[a-z][\w'#]*[A-Z][\w'#]+)\s*(?=[:({])")
NO_NAME = re.compile(r"^(use|pub use|mod|pub mod|module|unfolding|open|infix|syntax|--)\b|^--")


def read(p):
    with open(p, encoding="utf-8", newline="") as f:
        return f.read()


def files(*patterns):
    return sorted(p for q in patterns for p in glob.glob(q, recursive=True) if "/out/" not in p)


def declared():
    """Each name that a file of specs/ or proofs/ declares, with its kinds; and each that only a lemma file or a proof does."""
    found, words, inner = collections.defaultdict(set), set(), set()
    for p in files("crates/*/specs/**/*.antt", "crates/*/proofs/**/*.antt"):
        made = os.path.basename(p) == "Proof.antt"
        into = None
        for line in read(p).split("\n"):
            if not line.strip() or NO_NAME.match(line):
                continue
            if line[0].isspace():
                if INNER.match(line):
                    inner.add(INNER.match(line).group(1))
                m = into and PART.match(line)
                if m:
                    found[m.group(1)].add(into)
                continue
            into = None
            m = HEAD.match(line) or HEAD_TYPE.match(line)
            if not m:
                continue
            if made and (": tie." in line or line.rstrip().endswith("statement M")):
                continue
            kind = (m.group(1) or "def").strip()
            found[m.group(2)].add(kind)
            if kind != "def":
                into = "field" if kind == "record" else "constructor"
            if "/specs/" in p and re.match(r"^(abbrev|unfoldable) ", line):
                words.add(m.group(2))
    return found, words, inner


def imported():
    """Names that come from the kit."""
    names = set()
    for p in files("crates/**/*.antt", "crates/*/src/**/*.rt"):
        for module, group in re.findall(r"use ([\w.+◌'·-]+)\.\{([^}]*)\}", read(p)):
            parts = module.split(".")
            if len(parts) > 1 and parts[0] == "Rattle" and os.path.isdir("crates/" + parts[1]):
                continue
            names |= {n.strip().split(" as ")[0] for n in group.split(",") if n.strip()}
    return names


def snake(word):
    if not word[:1].islower():
        return word
    return re.sub(r"(?<=[a-z0-9])([A-Z])", lambda m: "_" + m.group(1).lower(), word)


def respelled(name, names):
    if name in OWN:
        return OWN[name]
    if name[:1].isupper():
        return "".join(w[:1].upper() + w[1:] for w in name.split("_")) if "_" in name and "-" not in name else name
    parts = name.split("-")
    out = snake(parts[0])
    for left, right in zip(parts, parts[1:]):
        out += ("-" if left in names and right in names else "_") + snake(right)
    return out


OWN = {"N#": "nodes#"}


def main():
    found, words, inner = declared()
    kit = imported()
    names = words | {n for n in kit if "-" not in n}
    turn = {}
    for n in sorted(found):
        new = respelled(n, names)
        if new != n and n not in kit and not (n[:1].isupper() and "-" in n):
            turn[n] = new
    # A name that is there already, or that two names would become: the lemma, or the word that a function of src/ or a variable hides, ends in _lem.
    settled = (set(found) - set(turn)) | kit
    for n in sorted(turn, key=lambda n: ("-" in n, n)):
        if turn[n] in settled:
            turn[n] += "_lem"
        settled.add(turn[n])
    texts = {p: PATH.sub("", read(p)) for p in files("crates/**/*.antt", "crates/*/src/**/*.rt")}
    every = {p: set(TOKEN.findall(t)) | set(re.findall(r"[A-Za-z_]\w*", t) if p.endswith(".rt") else []) for p, t in texts.items()}
    words_of = every.get
    for p, t in texts.items():
        tokens = set(TOKEN.findall(t)) | set(re.findall(r"[A-Za-z_]\w*", t) if p.endswith(".rt") else [])
        for n in sorted(turn):
            if n in tokens and turn[n] in tokens:
                turn[n] += "_lem"
    count = collections.Counter(turn.values())
    for n in [n for n in turn if "-" in n and count[turn[n]] > 1]:
        del turn[n]
    # what a module with parameters or a where declares, last, so that it takes no name away
    settled = set(found) | set(turn.values()) | kit
    for n in sorted(inner - set(turn) - kit):
        new = snake(n)
        while new in settled or any(n in tokens and new in tokens for tokens in map(words_of, texts)):
            new += "_lem"
        turn[n] = new
        settled.add(new)
    clash = []
    for p, t in texts.items():
        tokens = set(TOKEN.findall(t)) | set(re.findall(r"[A-Za-z_]\w*", t) if p.endswith(".rt") else [])
        clash += [f"clash: {p}: {n} -> {turn[n]}" for n in turn if n in tokens and turn[n] in tokens]
    if len(set(turn.values())) < len(turn):
        clash += [f"clash: {n} -> {new}" for n, new in turn.items() if count[new] > 1]
    if clash:
        print("\n".join(clash))
        return 1
    for n, new in turn.items():
        print(n, new)
    for p in files("crates/*/specs/**/*.antt", "crates/*/proofs/**/*.antt"):
        t = read(p)
        u = TOKEN.sub(lambda m: turn.get(m.group(0), m.group(0)), t)
        if u != t:
            with open(p, "w", encoding="utf-8", newline="") as f:
                f.write(u)
    for p in files("crates/*/src/**/*.rt"):
        t = read(p)
        u = TOKEN_CODE.sub(lambda m: turn.get(m.group(0), m.group(0)) if re.search("[A-Z#]", m.group(0)) else m.group(0), t)
        if u != t:
            with open(p, "w", encoding="utf-8", newline="") as f:
                f.write(u)
    for p in files("crates/*/must-fail/*.edit"):
        out, rt = [], False
        for line in read(p).split("\n"):
            if line.startswith("file: "):
                rt = line.endswith(".rt")
            if line.startswith(("old: ", "new: ")):
                pattern = TOKEN_CODE if rt else TOKEN
                line = line[:5] + pattern.sub(lambda m: turn.get(m.group(0), m.group(0)) if not rt or re.search("[A-Z#]", m.group(0)) else m.group(0), line[5:])
            out.append(line)
        u = "\n".join(out)
        if u != read(p):
            with open(p, "w", encoding="utf-8", newline="") as f:
                f.write(u)
    return 0


if __name__ == "__main__":
    sys.exit(main())
