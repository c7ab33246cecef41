#!/usr/bin/env python3
"""Writes `.new.PARAMETER` for the `.new.0`, `.new.1.0` .. of the older Rattle in Proof.antt files.

usage: tools/turn_new.py CRATE NAMES.json    at the top of the checkout, after turn_ties.py
"""

import json
import os
import re
import sys


def main():
    crate, path = sys.argv[1:3]
    listed = json.load(open(path, encoding="utf-8"))
    params, steps = {}, {}
    for key, of in listed.items():
        m = re.fullmatch(r"Rattle-%s-proofs\.(.*)\.(Lts(?:-.*)?)" % crate, key)
        if not m:
            continue
        params.update(of["params"])
        for at in of["places"]:
            if at[3]:
                steps.setdefault(m.group(1), {}).setdefault(at[2][1], set()).add(at[3])
    for folder, dirs, names in os.walk(f"crates/{crate}/proofs"):
        if "Proof.antt" not in names:
            continue
        mod = re.sub(r"^crates/%s/proofs/" % crate, "", folder).replace("/", ".")
        file = os.path.join(folder, "Proof.antt")
        text = open(file, encoding="utf-8").read()

        def go(m):
            callees = {tuple(params.get(c, ())) for c in steps.get(mod, {}).get(m.group(1), ())}
            n = m.group(2).count(".1")
            if len(callees) != 1 or len(next(iter(callees))) <= n:
                print(f"{file}: {m.group(0)}: {callees}")
                return m.group(0)
            return f".{m.group(1)}.new.{next(iter(callees))[n]}"

        new = re.sub(r"\.([^\s.(){}]+)\.new((?:\.1)*)\.0(?![\w-])", go, text)
        if new != text:
            open(file, "w", encoding="utf-8").write(new)


main()
