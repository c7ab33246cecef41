#!/usr/bin/env python3
"""Names that a file of crates/ brings in and never uses: by a `use` line of an antt file, or by a `use` or `ghost use` line of the source.

imports.py          lists them and exits 1 if there are any
imports.py --fix    drops them from those lines
"""
import os
import pathlib
import re
import sys

import options

HERE = pathlib.Path(__file__).resolve().parent.parent
KINDS = {
    # suffix: (how a line that brings names in starts, what a comment starts with)
    ".antt": (r"(use )", "--"),
    ".rt": (r"((?:pub )?use |ghost use )", "//"),
}
# What stands between names: one of antt may have hyphens, also in a contract in the source.
BETWEEN = {"use": r"[^\w]+", "antt": r"[\s(){}.;,]+"}


def used(name, tokens):
    parts = [p for p in name.split("◌") if p]
    return name in tokens or all(p in tokens for p in parts)


def unused(text, start, comment):
    lines = text.split("\n")
    body = "\n".join(l for l in lines if not re.match(start, l))
    code = re.sub(comment + r".*", "", body)
    names_of = {kind: set(re.split(between, code)) for kind, between in BETWEEN.items()}
    for line in lines:
        tokens = names_of["antt" if comment == "--" or line.startswith("ghost ") else "use"]
        match = re.fullmatch(start + r"(.*)\.\{(.*)\}(;?)", line)
        single = re.fullmatch(start + r"(?:.*::)?(\w+);", line)
        if match:
            names = match[3].split(", ")
            idle = [n for n in names if not used(n.split(" as ")[-1], tokens)]
            if idle:
                kept = [n for n in names if n not in idle]
                yield line, idle, f"{match[1]}{match[2]}.{{{', '.join(kept)}}}{match[4]}\n" if kept else ""
        elif single and not line.startswith("pub ") and not used(single[2], tokens):
            yield line, [single[2]], ""


def main():
    parser = options.Options(__doc__)
    parser.add_argument("--fix", action="store_true")
    fix = parser.parse_args().fix
    os.chdir(HERE)
    found = 0
    for path in sorted(p for p in pathlib.Path("crates").rglob("*") if p.suffix in KINDS and p.parts[2] != "out"):
        text = path.read_text()
        for line, idle, mended in list(unused(text, *KINDS[path.suffix])):
            if fix:
                text = text.replace(line + "\n", mended)
            else:
                print(f"{path}: not used: {', '.join(idle)}")
            found += 1
        if fix:
            path.write_text(text)
    print(f"imports: {found} lines {'mended' if fix else 'with unused names'}")
    return 1 if found and not fix else 0


if __name__ == "__main__":
    sys.exit(main())
