#!/usr/bin/env python3
"""Second half of retie.py: says in each Proof.antt of a crate where a fact stands, in today's way.

usage: reach.py CRATE_FOLDER NAMES     (names.json as for retie.py; run after it, and again at will)

A path to a field leaves out the `.before` in front of it, since each state has the fields of the states before it. Where a state itself
is handed on, the number of `.before` is counted anew. What a call left of an argument goes by the argument's name.
"""

import json
import os
import re
import sys

KEEP = {"lifetimes"}
NAME = r"[A-Za-z_][\w'#₀₁₂-]*"


class Table:
    def __init__(self, table, root):
        self.parent, self.goal_state, self.params, self.step = {}, {}, {}, {}
        olds = [p[0] for p in table["places"]]
        news = table["places_by_name"]
        by_old = dict(zip(olds, news))
        for p, new in zip(table["places"], news):
            self.parent[new] = by_old.get(p[1]) if p[1] else None
            self.step[new] = p[2][1]
            if p[3] and p[3] in table["params"]:
                self.params[p[2][1]] = table["params"][p[3]]
        for (old, new), (_, state) in zip(table["needs"], table["asked_at"]):
            self.goal_state[new] = state

    def known(self, state):
        """The fields that can be read of a state."""
        out = {"args", "requires", "ranges", "lifetimes", "well_formed"}
        while state is not None:
            out.add(self.step.get(state))
            state = self.parent.get(state)
        return out

    def far(self, a, b):
        n = 0
        while a is not None:
            if a == b:
                return n
            up = self.parent.get(a)
            # an arm that tells a variant's fields is one state with it
            if up == f"{a}-1":
                up = self.parent.get(up)
            a, n = up, n + 1
        return None


def blocks(text):
    out, cur = [], []
    for line in text.split("\n"):
        if line and not line[0].isspace() and cur and not cur[-1].strip():
            out.append("\n".join(cur))
            cur = []
        cur.append(line)
    out.append("\n".join(cur))
    return out


def turn(path, crate, fn, table, root, say):
    with open(path, encoding="utf-8") as f:
        text = f.read()
    if "Tie as tie" not in text:
        return
    T = Table(table, root)
    takes, gives = {}, {}
    for m in re.finditer(r"(?m)^(?:abbrev )?(?:pub )?(" + NAME + r") : \((?:" + NAME + r") : tie\.([^\s)]+)", text):
        takes[m.group(1)] = m.group(2)
    for m in re.finditer(r"(?m)^(?:abbrev )?(?:pub )?(" + NAME + r") : tie\.(?!Need|invariant|decreases)([^\s)]+)[^→\n]*→(?:\s*tie\.([^\s)]+)\s*)?", text):
        takes[m.group(1)] = m.group(2)
        if m.group(3):
            gives[m.group(1)] = m.group(3)
    for m in re.finditer(r"(?m)^(?:abbrev )?(?:pub )?(" + NAME + r") : \((?:" + NAME + r") : tie\.[^)]*\) → tie\.([^\s)]+)", text):
        gives[m.group(1)] = m.group(2)

    def one(block):
        m = re.search(r"(?m)^(?:abbrev )?(?:pub )?(" + NAME + r") : ", block)
        if not m:
            return block
        name = m.group(1)
        need = re.search(r"(?m)^(?:pub )?" + re.escape(name) + r" : tie\.Need-(\S+)", block)
        state = T.goal_state.get(need.group(1)) if need else takes.get(name)
        body = re.search(r"(?m)^" + re.escape(name) + r" (" + NAME + r")", block[m.end():])
        if not state or not body:
            return block
        start = m.end() + body.start()
        head, code = block[:start], block[start:]
        var = body.group(1)
        env = {var: state}
        result = gives.get(name)

        def typed(word, v):
            """The state that v (a state) is handed on as, where a helper takes it."""
            t = takes.get(word)
            return t

        # aliases, in their order
        pos = 0
        alias = re.compile(r"let (" + NAME + r")(?: : [^=]*)? = ((?:" + NAME + r" )?\(?)(" + NAME + r")((?:\.before)*)(\)?) in")
        while True:
            a = alias.search(code, pos)
            if not a:
                break
            t, pre, v, befores, post = a.groups()
            pos = a.end()
            if v not in env:
                continue
            helper = pre.strip().strip("(").strip()
            if helper:
                if helper in gives:
                    env[t] = gives[helper]
                continue
            # where t is handed on as one state, and nothing is read of it that comes behind that state, it is that state
            d, env[t] = 0, env[v]
            rest = code[a.end():]
            asked = {takes[u] for u in re.findall(r"(?<![\w.'#-])(" + "|".join(map(re.escape, takes) or ["\\b"]) + r") \(?" + re.escape(t) + r"(?:\.before)*(?![\w.'#-])", rest)} if takes else set()
            whole = re.search(r"(?<![\w.'#-])" + re.escape(t) + r"(?:\.before)*(?![\w.'#-])", re.sub(r"(?<![\w.'#-])(?:" + "|".join(map(re.escape, takes) or ["\\b"]) + r") \(?" + re.escape(t) + r"(?:\.before)*(?![\w.'#-])", "", rest)) if takes else None
            fields = set(re.findall(r"(?<![\w.'#-])" + re.escape(t) + r"(?:\.before)*\.(?!before\b)(" + NAME + ")", rest))
            if len(asked) == 1 and not whole:
                (wanted,) = asked
                far = T.far(env[v], wanted)
                if far is not None and fields <= T.known(wanted):
                    d, env[t] = far, wanted
            new = f"let {t} = {v}{'.before' * d} in"
            code = code[: a.start()] + new + code[a.end():]
            pos = a.start() + len(new)

        # a state handed on to a helper
        def handed(u):
            word, paren, v, befores = u.groups()
            if word in takes and v in env:
                d = T.far(env[v], takes[word])
                if d is not None:
                    return f"{word} {paren}{v}{'.before' * d}"
            return u.group(0)

        helpers = "|".join(sorted(map(re.escape, takes), key=len, reverse=True))
        states = "|".join(sorted(map(re.escape, env), key=len, reverse=True))
        if helpers:
            code = re.sub(r"(?<![\w.'#-])(" + helpers + r") (\(?)(" + states + r")((?:\.before)*)(?![\w.'#-])", handed, code)
        # the whole body is a state
        if result:
            b = re.fullmatch(re.escape(name) + r" (" + NAME + r") =\s+(" + NAME + r")((?:\.before)*)(\s*)", code)
            if b and b.group(2) in env:
                d = T.far(env[b.group(2)], result)
                if d is not None:
                    code = f"{name} {b.group(1)} = {b.group(2)}{'.before' * d}{b.group(4)}"
        # a field
        def field(u):
            v, befores, f = u.groups()
            if f in KEEP:
                return u.group(0)
            return f"{v}.{f}"

        code = re.sub(r"(?<![\w.'#-])(" + NAME + r")((?:\.before)+)\.(?!before\b)([A-Za-z_][\w'#-]*)", field, code)
        code = re.sub(r"\)((?:\.before)+)\.(?!before\b)([A-Za-z_][\w'#-]*)", lambda u: f").{u.group(2)}", code)
        # the statement of a helper speaks of the same state
        said = re.match(r"(?s)(.*?: \((" + NAME + r") : tie\.[^)]*\)\s*→)(.*)", head) if not need else None
        if said:
            v = said.group(2)
            tail = said.group(3)
            if helpers:
                env = {v: state}
                tail = re.sub(r"(?<![\w.'#-])(" + helpers + r") (\(?)(" + re.escape(v) + r")((?:\.before)*)(?![\w.'#-])", handed, tail)
            tail = re.sub(r"(?<![\w.'#-])(" + NAME + r")((?:\.before)+)\.(?!before\b)([A-Za-z_][\w'#-]*)", field, tail)
            head = said.group(1) + tail
        # what a call left of an argument goes by the argument's name, and not by its place
        named = dict(re.findall(r"let (" + NAME + r") = [\w'.#-]+\.(" + NAME + r") in", code))

        def argument(u):
            step = named.get(u.group(1), u.group(1))
            k = u.group(3).count(".1")
            if step not in T.params or k >= len(T.params[step]):
                return u.group(0)
            return f"{u.group(1)}.{'auto' if u.group(2) == 'kept' else u.group(2)}.{T.params[step][k]}"

        code = re.sub(r"(?<![\w'#-])(" + NAME + r")\.(auto|new|kept)((?:\.1)*\.0)(?![\w.])", argument, code)
        head = re.sub(r"(?<![\w'#-])(" + NAME + r")\.(auto|new|kept)((?:\.1)*\.0)(?![\w.])", argument, head)
        return head + code

    out = "\n".join(one(b) for b in blocks(text))
    if out != text:
        with open(path, "w", encoding="utf-8") as f:
            f.write(out)


def main(crate, table):
    with open(table, encoding="utf-8") as f:
        tables = json.load(f)
    crate = os.path.abspath(crate)
    name, root = os.path.basename(crate), os.path.dirname(crate)
    proofs = os.path.join(crate, "proofs")
    for folder, _, files in os.walk(proofs):
        if "Proof.antt" not in files:
            continue
        path = os.path.relpath(folder, proofs).replace("/", ".")
        key = f"Rattle-{name}-proofs.{path}.Lts"
        if key in tables:
            turn(os.path.join(folder, "Proof.antt"), name, os.path.basename(folder), tables[key], root, lambda t: print(f"{name}::{path}: {t}"))


if __name__ == "__main__":
    main(sys.argv[1], sys.argv[2])
