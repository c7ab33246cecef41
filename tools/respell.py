#!/usr/bin/env python3
"""Brings the repository's own names to today's spelling, once, after port.py.

usage: tools/respell.py [--list]    at the top of the checkout

A definition (abbrev, unfoldable, data, record, and the members of the last two) is written in snake case. In a lemma's name a dash still joins two names, and a definition's
name within it is respelled. Names of files in a function's own folder of proofs/ stay, since Rattle makes most of them; so do names that stand in the library.
"""

import os
import re
import sys

NAME = r"[^\s(){}:;,.\[\]]+"
HEAD = re.compile(r"(?:(abbrev|unfoldable)\s+)?(?:pub\s+)?(?:(data|record)\s+)?(" + NAME + r")\s*(?:[({].*)?:")
MEMBER = re.compile(r"\s+(?:pub\s+)?(" + NAME + r")\s*:")
TOKEN = re.compile(r"[^\s(){}:;,.\[\]`\"]+")


def walk(root, ends):
    for folder, dirs, names in os.walk(root):
        dirs[:] = sorted(d for d in dirs if d not in ("out", "target", ".git"))
        for n in sorted(names):
            if n.endswith(ends):
                yield os.path.join(folder, n)


def function_file(path):
    return os.path.basename(path) in ("Proof.antt", "Answers.antt", "Invariants.antt")


def names():
    """The definitions' names and the lemmas' names."""
    defined, lemmas = set(), set()
    for path in walk("crates", (".antt",)):
        if function_file(path):
            continue
        members = False
        for line in open(path, encoding="utf-8"):
            if re.match(r"(abbrev |unfoldable )?mutual", line):
                members = True
            elif line[:1] not in (" ", "\n", "-") and (m := HEAD.match(line)):
                members = m.group(2) is not None
                (defined if m.group(1) or m.group(2) else lemmas).add(m.group(3))
            elif line.startswith("  ") and members and (m := MEMBER.match(line)):
                defined.add(m.group(1))
            elif line.strip() and not line.startswith((" ", "--")):
                members = False
    return defined, lemmas


def library():
    found = set()
    for path in walk("/opt/rattle/rattle/std", (".antt",)):
        for line in open(path, encoding="utf-8"):
            if line[:1] not in (" ", "\n", "-") and (m := HEAD.match(line)):
                found.add(m.group(3))
    return found


def table():
    defined, lemmas = names()
    std = library()
    to = {n: n.replace("-", "_") for n in defined if "-" in n and not n.startswith("-")}
    words = {tuple(n.split("-")) for n in to}
    for n in lemmas - defined:
        if "-" not in n or n in std:
            continue
        parts, out, i = n.split("-"), [], 0
        while i < len(parts):
            size = max((k for k in range(2, len(parts) - i + 1) if tuple(parts[i : i + k]) in words), default=1)
            out.append("_".join(parts[i : i + size]))
            i += size
        new = "-".join(out)
        if new != n and not (len(out) == 1 and new in to.values()):
            to[n] = new
    every = defined | lemmas
    clash = [(a, b) for a, b in to.items() if b in every] + [(a, b) for a, b in to.items() if sum(1 for x in to.values() if x == b) > 1]
    return to, clash


def turned(text, to):
    return TOKEN.sub(lambda m: to.get(m.group(0), m.group(0)), text)


def quoted(text, to):
    """Only what stands between backticks."""
    return re.sub(r"`[^`\n]*`", lambda m: turned(m.group(0), to), text)


def source(text, to):
    out = []
    for line in text.split("\n"):
        if line.lstrip().startswith("//"):
            out.append(quoted(line, to))
        else:
            out.append("".join(p if p.startswith('"') else turned(p, to) for p in re.split(r'("(?:[^"\\]|\\.)*")', line)))
    return "\n".join(out)


def main():
    to, clash = table()
    for a, b in sorted(set(clash)):
        print(f"falls together: {a} {b}", file=sys.stderr)
    if clash:
        return 1
    if "--list" in sys.argv:
        for a in sorted(to):
            print(a, to[a])
        return 0
    for path in walk(".", (".antt", ".rt", ".edit", ".md", ".py")):
        if path.endswith(".py") and not path.startswith("./tests/must_fail"):
            continue
        with open(path, encoding="utf-8") as f:
            text = f.read()
        if path.endswith(".md") or path.endswith(".py"):
            new = quoted(text, to)
        elif path.endswith(".rt"):
            new = source(text, to)
        else:
            new = turned(text, to)
        if new != text:
            with open(path, "w", encoding="utf-8") as f:
                f.write(new)
    return 0


if __name__ == "__main__":
    raise SystemExit(main())
