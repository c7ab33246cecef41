#!/usr/bin/env python3
"""Writes the clauses that `rt check` asks for into the lemma files.

usage: tools/mend_clauses.py CRATE LOG    at the top of the checkout; LOG is what `rt check` printed in that crate
"""

import re
import sys


def end_of(lines, name, at):
    """The line after the last clause of `name` about line `at`, and the clauses' indent."""

    def head(line):
        return re.sub(r"^(abbrev |unfoldable )?(pub )?", "", line.lstrip()).split(" ")[0]

    indent, i = None, at
    while i >= 0 and head(lines[i]) != name:
        i -= 1
    indent = len(lines[i]) - len(lines[i].lstrip())
    last = i
    for j in range(i + 1, len(lines)):
        l = lines[j]
        here = len(l) - len(l.lstrip())
        if not l.strip() or here < indent and not l.lstrip().startswith((")", "]", "}")):
            break
        if here == indent and head(l) != name and not l.lstrip().startswith(("unfolding", ")", "]", "}")):
            break
        last = j
    return last + 1, " " * indent


def main():
    crate, log = sys.argv[1:3]
    said = open(log, encoding="utf-8").read().split("\n")
    todo = {}
    i = 0
    while i < len(said):
        m = re.match(r"(\S+):(\d+):\d+: error: `(\S+)`: write the clauses? ?(?:`(.*)`)?$", said[i])
        if m:
            path, at, name, one = m.group(1), int(m.group(2)), m.group(3), m.group(4)
            clauses = [one] if one else []
            if not one:
                j = i + 1
                while j < len(said) and said[j].startswith("  "):
                    if said[j].startswith(f"  {name} "):
                        clauses.append(said[j][2:])
                    j += 1
            todo.setdefault(path, []).append((at - 1, name, clauses))
        i += 1
    n = 0
    for path, asked in todo.items():
        full = re.sub(r"^.*/crates/", "crates/", path) if path.startswith("/") else f"crates/{crate}/{path}"
        lines = open(full, encoding="utf-8").read().split("\n")
        for at, name, clauses in sorted(asked, reverse=True):
            e, indent = end_of(lines, name, at)
            lines[e:e] = [indent + c for c in clauses]
            n += len(clauses)
        open(full, "w", encoding="utf-8").write("\n".join(lines))
    print(f"{n} clauses written")


main()
