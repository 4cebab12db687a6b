#!/usr/bin/env python3
"""Turns the names that Rattle makes, in proofs/FUNCTION/Proof.antt of one crate, to today's.

usage: retie.py CRATE_FOLDER NAMES     where NAMES is the names.json of `rt check --generated DIR --old-names` in that crate

Goals, steps and states get their new names, and the list of answers at the end is laid out in today's order: an answer
that the file names stands in its goal's place, and `search rules` in the place of one that is not named. It prints what
it could not place. Old proofs are otherwise kept as they are.
"""

import collections
import json
import os
import re
import sys

# In a clause or a path, a field: a dot and a name with no space before it.
FIELD = re.compile(r"(?<=[\w)'#-])\.([A-Za-z_][\w'#-]*)")
TIE = re.compile(r"\btie\.([A-Za-z_+][\w'+#·-]*)")
ALWAYS = {"pre": "requires", "good": "well_formed", "inv": "invariant", "well-formed": "well_formed", "type-inv": "type_inv", "ghost-name": "ghost_name"}


def flat(name):
    return re.sub("-+", "-", name.replace("_", "-"))


def alike(name):
    return re.sub("[-_]", "", name).lower()


def bare(name):
    return re.sub(r"^(overflow|nonzero)-", "", flat(name))


def goal_forms(old, new):
    yield from (flat(old), bare(old), flat(new), bare(new))
    o = flat(old)
    for a, b in (("slice-write-", "bounds-"), ("part-", "slice-bounds-"), ("same-length", "shape-of"), ("slice-read-", "bounds-")):
        if o.startswith(a):
            yield b + o[len(a):]


class Names:
    def __init__(self, table):
        self.needs = table["needs"]
        self.goals = {}
        for old, new in self.needs:
            for form in goal_forms(old, new):
                self.goals.setdefault(form, new)
        self.states, self.steps = {}, collections.defaultdict(list)
        for place, new in zip(table["places"], table["places_by_name"]):
            self.states[flat(place[0])] = new
            old_step, new_step = place[2]
            if old_step and new_step not in self.steps[alike(old_step)]:
                self.steps[alike(old_step)].append(new_step)
        self.callees = {p[3].split("::")[-1] for p in table["places"] if p[3]}
        self.loops = [it[0] for it in table["loops"]]
        self.all_new = {new for _, new in self.needs}


def blocks(text):
    """The file in blocks: each begins at a line with no indent after an empty line."""
    return re.split(r"\n\n+", text.strip("\n"))


def take_args(text):
    """The arguments of a call: terms in parentheses or single words."""
    out, i, n = [], 0, len(text)
    while i < n:
        if text[i].isspace():
            i += 1
            continue
        j, depth = i, 0
        while j < n and (depth or not text[j].isspace()):
            if text[j] in "([{":
                depth += 1
            elif text[j] in ")]}":
                if depth == 0:
                    break
                depth -= 1
            j += 1
        if j == i:
            break
        out.append(text[i:j])
        i = j
    return out, i


def turn(path, fn, names, say):
    with open(path, encoding="utf-8") as f:
        text = f.read()
    if "Tie as tie" not in text:
        return say("walks by hand, left alone")

    def tie(m):
        word = m.group(1)
        if word in ("spec", "close"):
            return m.group(0)
        for kind in ("invariant-", "decreases-"):
            if word.startswith(kind):
                rest = flat(word[len(kind):])
                for old, new in names.loops:
                    if rest == flat(old) or rest == flat(new):
                        return "tie." + kind + new
        if word.startswith("Need-"):
            for form in (flat(word[5:]), bare(word[5:])):
                if form in names.goals:
                    return "tie.Need-" + names.goals[form]
            say("no goal " + word)
            return m.group(0)
        if word in names.states.values():
            return m.group(0)
        if flat(word) in names.states:
            return "tie." + names.states[flat(word)]
        say("no state " + word)
        return m.group(0)

    text = TIE.sub(tie, text)

    def step(word):
        if word in ALWAYS:
            return ALWAYS[word]
        found = names.steps.get(alike(word)) or names.steps.get(alike(word.replace("is_Is", "is_"))) or names.steps.get(alike(re.sub("_lem$", "", word))) or []
        new = [n for n in found if n != flat(word) + "-1" and n != word + "-1"]
        if not new or word in new:
            return word
        if len(new) > 1:
            say(f"step {word} is one of {' '.join(new)}")
        return new[0]

    # A step is the first field of a state; what comes behind it are parts of a fact or of a value.
    def place(m, parts):
        var, fields = m.group(1), m.group(2)[1:].split(".")
        fields = [ALWAYS.get(f, f) for f in fields]
        if var in parts:
            return var + "." + ".".join(fields)
        for i, f in enumerate(fields):
            if f != "before":
                fields[i] = step(f)
                break
        return var + "." + ".".join(fields)

    def in_block(block):
        parts = set(re.findall(r"let ([^\s:(){}.;,]+)(?: : [^=]*?)? = \(?[\w'#-]+(?:\.[\w'#-]+)*\.(?!before\b)[\w'#-]+\)? in", block))
        parts |= set(re.findall(r"let ([^\s:(){}.;,]+)(?: : [^=]*?)? = \([^()]*\)\.args in", block))
        lines = []
        for line in block.split("\n"):
            if not line.startswith(("use ", "pub use ", "--")):
                line = re.sub(r"(?<![\w.'#-])([A-Za-z_][\w'#₀₁₂-]*|(?<=\)))((?:\.[A-Za-z_][\w'#-]*)+)", lambda m: place(m, parts) if m.group(1) != "tie" else m.group(0), line)
            lines.append(line)
        return "\n".join(lines)

    text = "\n\n".join(in_block(b) for b in re.split(r"\n\n", text))

    text = re.sub(r"(\.if-[\w-]+)\.left(?![\w-])", r"\1.false", text)
    # a test of `!f(..)` says today that what f gave is false, and not that `not` of it is true; its failing that it is true
    def negated(m):
        tested = re.search(r"\.if-not-([\w-]+)\.(?:true|false)$", m.group(0)).group(1)
        if tested not in names.callees and re.sub(r"-\d+$", "", tested) not in names.callees:
            return m.group(0)
        return f"(not_from_{'false' if m.group(1) == 'true' else 'true'} _ {m.group(0)})"

    text = re.sub(r"(?<![\w'.#-])[\w'#-]+(?:\.[\w'#-]+)*\.if-not-[\w-]+\.(true|false)(?![\w'-])", negated, text)
    used = [n for n in ("not_from_false", "not_from_true") if f"({n} _ " in text]
    if used:
        m = re.search(r"(?m)^use ", text)
        text = text[: m.start()] + f"use Rattle.std.proofs.lemmas.Bool.{{{', '.join(used)}}}\n" + text[m.start():]
    # which name answers which goal
    answers = {}
    for m in re.finditer(r"(?m)^(?:pub )?([^\s:(){}]+) : tie\.Need-(\S+)", text):
        answers[m.group(2)] = m.group(1)
    spec = re.search(r"(?s)\(\s*tie\.spec\b", text)
    if not spec:
        spec = re.search(r"tie\.spec\b", text)
    if not spec:
        return say("no tie.spec")
    args, used = take_args(text[spec.end():])
    tail = text[spec.end() + used:]
    first = [a for a in args if not a.startswith("(")]
    loops = []
    for m in re.finditer(r"(?m)^(?:abbrev )?(?:pub )?([^\s:(){}]+) : tie\.(invariant|decreases)-(\S+)", text):
        loops.append(m.group(1))
    heads = []
    for old, new in names.loops:
        for kind in ("invariant", "decreases"):
            for m in re.finditer(r"(?m)^(?:abbrev )?(?:pub )?([^\s:(){}]+) : tie\.(invariant|decreases)-(\S+)", text):
                if m.group(2) == kind and m.group(3).split()[0] == new:
                    heads.append(m.group(1))
    inline = [a for a in args if a.startswith("(") and not re.fullmatch(r"\(λ c( κs)?\. search rules\)", a)]
    if inline:
        say(f"inline answers: {inline}")
    rest = [a for a in args if a not in heads]
    same = len(rest) == len(names.needs)
    out = heads[:]
    for i, (old, new) in enumerate(names.needs):
        if new in answers:
            out.append(answers[new])
        elif same and rest[i] in inline:
            out.append(re.sub(r"(?:\.before)+\.(?!before\b)", ".", rest[i]))
        elif re.search(r"-requires(-|$)", new):
            out.append("(λ c κs. search rules)")
        else:
            out.append("(λ c. search rules)")
    lost = [a for a in answers.values() if a not in out]
    if lost:
        say(f"answers with no place: {lost}")
    body = "".join("\n    " + a for a in out)
    whole = "tie.spec" + body
    begin = text.rindex("tie.spec", 0, spec.end())
    if not out:
        whole = "tie.spec"
    text = text[:begin] + whole + tail
    if "tie.close tie.spec" not in text and "tie.close (tie.spec" not in text:
        text = re.sub(r"tie\.close\s*\(\s*tie\.spec", "tie.close\n    (tie.spec", text)
    if "search rules" in text and "borrow.Author.Rules.{rules}" not in text:
        m = re.search(r"(?m)^use ", text)
        text = text[: m.start()] + "use borrow.Author.Rules.{rules}\n" + text[m.start():]
    # the proof's own name
    wanted = fn + "_spec"
    m = re.search(r"(?m)^pub (\S+) : .*statement M", text)
    if m and m.group(1) != wanted:
        old = m.group(1)
        text = re.sub(r"(?m)^(pub )?" + re.escape(old) + r"(?=[ \n])", lambda m: (m.group(1) or "") + wanted, text)
    with open(path, "w", encoding="utf-8") as f:
        f.write(text if text.endswith("\n") else text + "\n")


def main(crate, table):
    with open(table, encoding="utf-8") as f:
        tables = json.load(f)
    name = os.path.basename(os.path.abspath(crate))
    proofs = os.path.join(crate, "proofs")
    for folder, _, files in os.walk(proofs):
        if "Proof.antt" not in files:
            continue
        path = os.path.relpath(folder, proofs).replace("/", ".")
        fn = os.path.basename(folder)

        def say(text):
            print(f"{name}::{path}: {text}")

        keys = [k for k in tables if k == f"Rattle-{name}-proofs.{path}.Lts" or k.startswith(f"Rattle-{name}-proofs.{path}.Lts")]
        if len(keys) != 1:
            say(f"tables: {keys}")
            continue
        turn(os.path.join(folder, "Proof.antt"), fn, Names(tables[keys[0]]), say)


if __name__ == "__main__":
    main(sys.argv[1], sys.argv[2])
