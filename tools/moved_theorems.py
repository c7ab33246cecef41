#!/usr/bin/env python3
"""The statements of the files of laws that move_laws.py moved, beside those of an older tree of the repository.

usage: tools/moved_theorems.py OLD            compares: OLD is a folder with the older tree, whose laws stand in specs/
       tools/moved_theorems.py OLD --list     prints every statement, file by file
"""

import os
import re
import sys

HEAD = re.compile(r"( *)((?:abbrev |unfoldable )?(?:pub )?(?:data |record )?)([^\s(){}:;,.\[\]]+) ?(?:[({].*)?: ?")


def statements(path):
    """Name -> statement, its spaces as one, with the parameters of the sections around it."""
    found, sections = {}, []
    lines = open(path, encoding="utf-8").read().split("\n")
    i = 0
    while i < len(lines):
        l = lines[i]
        indent = len(l) - len(l.lstrip())
        if l.strip():
            sections = [s for s in sections if s[0] < indent]
        if re.match(r" *module _", l):
            text = l.strip()
            while not text.endswith("where"):
                i += 1
                text += " " + lines[i].strip()
            sections.append((indent, text))
        elif not l.lstrip().startswith(("--", "use ", "pub mod", "mod ", "unfolding")) and (m := HEAD.match(l)) and (indent == 0 or sections or l.lstrip().startswith("pub")):
            text, j = l.strip(), i + 1
            name = m.group(3)
            while j < len(lines) and (len(lines[j]) - len(lines[j].lstrip()) > indent) and not lines[j].strip().startswith("--"):
                text += " " + lines[j].strip()
                j += 1
            key = (tuple(re.sub(r"\s+", " ", s[1]) for s in sections), name)
            found[key] = re.sub(r"\s+", " ", text)
            i = j - 1
        i += 1
    return found


def main():
    old, listing = sys.argv[1], "--list" in sys.argv
    differ = count = 0
    for crate in sorted(os.listdir("crates")):
        theory = f"crates/{crate}/proofs/Theory"
        for folder, dirs, names in sorted(os.walk(theory)):
            for n in sorted(names):
                path = os.path.join(folder, n)
                at = os.path.relpath(path, theory)
                was = f"{old}/crates/{crate}/specs/{at}"
                now = statements(path)
                if not now:
                    continue
                if listing:
                    print(f"\n### {crate}, {at[:-5]}\n\n```text")
                    last = ()
                    for (sections, name), text in now.items():
                        if sections != last:
                            print("\n".join(sections[len(os.path.commonprefix([sections, last])) :]))
                            last = sections
                        print(text)
                    print("```")
                    continue
                then = statements(was) if os.path.exists(was) else {}
                count += len(now)
                for key in sorted(set(now) | set(then), key=str):
                    if now.get(key) != then.get(key):
                        differ += 1
                        print(f"{crate}/{at}: {key[1]}\n  old: {then.get(key)}\n  new: {now.get(key)}")
    if not listing:
        print(f"{count} statements, {differ} differ")


main()
