#!/usr/bin/env python3
"""Turns `⊎_elim (λ w. ..) (λ w. ..) c.STEP.branch` in Proof.antt files to today's fields of a join.

usage: tools/turn_joins.py CRATE GENERATED    at the top of the checkout, after turn_ties.py; GENERATED is what `rattle check --generated` writes
"""

import os
import re
import sys


def joins(text):
    """Step -> for each way to the join, the names of its fields."""
    fields = {}
    for m in re.finditer(r"(?m)^( *)pub record (By-\d+-\S+) [^\n]*where\n((?:\1  .*\n|\1   .*\n|\n)*)", text):
        fields[m.group(2)] = re.findall(r"(?m)^%s  pub (\S+) :" % m.group(1), m.group(3))
    ways = {}
    for m in re.finditer(r"(?m)^( *)pub data Came-(\S+) [^\n]*where\n((?:\1  .*\n)*)", text):
        ways[m.group(2)] = [fields.get(x, []) for x in re.findall(r": (By-\d+-\S+)", m.group(3))]
    steps = {}
    for m in re.finditer(r"(?m)^( *)pub (\S+) : Step-(Joined-\S+) ", text):
        if m.group(3) in ways:
            steps.setdefault(m.group(2), []).append(ways[m.group(3)])
    return steps


def close(text, i):
    depth = 0
    while i < len(text):
        depth += (text[i] == "(") - (text[i] == ")")
        i += 1
        if depth == 0:
            return i
    return -1


def lambdas(arg):
    """The λ terms in an argument, in order, as (start, end, variable)."""
    m = re.match(r"\(\s*λ (\S+?)\. ", arg)
    if m:
        return [(0, len(arg), m.group(1))]
    m = re.match(r"\(\s*⊎_elim\s*", arg)
    out = []
    if m:
        i = m.end()
        while i < len(arg) and arg[i] == "(":
            j = close(arg, i)
            out += [(i + a, i + b, v) for a, b, v in lambdas(arg[i:j])]
            i = j
            while i < len(arg) and arg[i].isspace():
                i += 1
    return out


def turn(text, steps, path):
    at = 0
    while True:
        i = text.find("⊎_elim", at)
        if i < 0:
            return text
        at = i + 6
        k = at
        args = []
        while True:
            while k < len(text) and text[k].isspace():
                k += 1
            if k < len(text) and text[k] == "(" and len(args) < 2:
                j = close(text, k)
                args.append((k, j))
                k = j
            else:
                break
        m = re.compile(r"\(?([^\s()]*?)\.([^\s().]+)\.(?:branch|came|branch-raw)(?![\w-])").match(text, k)
        if not m or len(args) != 2:
            continue
        ways = steps.get(m.group(2), [])
        if not ways:
            print(f"{path}: no join {m.group(2)}")
            continue
        found = []
        for a, b in args:
            found += [(a + x, a + y, v) for x, y, v in lambdas(text[a:b])]
        fit = [w for w in ways if len(w) == len(found)]
        if not fit or any(w != fit[0] for w in fit):
            print(f"{path}: join {m.group(2)}: {len(found)} ways written, {[len(w) for w in ways]} there")
            if not fit:
                continue
        new = text[: m.end()]
        new = re.sub(r"\.(branch|came)$", ".branch-raw", new)
        tail = text[m.end() :]
        for (x, y, v), names in sorted(zip(found, fit[0]), reverse=True):
            def name(q):
                n = int(q.group(1))
                if n >= len(names):
                    print(f"{path}: {q.group(0)} of {names}")
                    return q.group(0)
                rest = {"taken": ".true", "left": ".false"}.get((q.group(2) or "")[1:], q.group(2) or "")
                return f"{v}.{names[n]}{rest}"
            part = re.sub(r"(?<![\w.'-])" + re.escape(v) + r"\.(\d+)(\.taken|\.left)?(?![\w'-])", name, new[x:y])
            new = new[:x] + part + new[y:]
        text = new + tail


def main():
    crate, made = sys.argv[1:3]
    for folder, dirs, names in os.walk(f"crates/{crate}/proofs"):
        if "Proof.antt" not in names:
            continue
        sub = re.sub(r"^crates/%s/proofs/" % crate, "", folder)
        where = f"{made}/Rattle-{crate}-proofs/{sub}"
        steps = {}
        if os.path.isdir(where):
            for n in sorted(os.listdir(where)):
                if n.startswith("Lts") and n.endswith(".antt"):
                    for k, v in joins(open(os.path.join(where, n), encoding="utf-8").read()).items():
                        steps.setdefault(k, []).extend(v)
        path = os.path.join(folder, "Proof.antt")
        text = open(path, encoding="utf-8").read()
        new = turn(text, steps, path)
        if new != text:
            open(path, "w", encoding="utf-8").write(new)


main()
