#!/usr/bin/env python3
"""Moves the files of laws from specs/ to proofs/Theory/ in every crate, and turns their paths.

usage: tools/move_laws.py    at the top of the checkout; a second run moves nothing, and turns paths that are still the older ones

A wrong definition has to be refused by the laws that rest on it. `rt ci` takes a law of specs/ that rests on a refused one for a text that can't be read, and the edit
for a bad one; of a law in proofs/ it doesn't. Files of laws are those in a folder of a specs file's name; statements and proofs stay as they are.
"""

import os
import re
import subprocess

MORE = {"rules": ["Code/Running"]}


def main():
    turned = {}
    for crate in sorted(os.listdir("crates")):
        specs = f"crates/{crate}/specs"
        laws = []
        for folder, dirs, names in os.walk(specs):
            for n in sorted(names):
                sub = os.path.relpath(os.path.join(folder, n), specs)
                parts = sub[:-5].split("/")
                if not n.endswith(".antt") or len(parts) == 1 or parts[0] == "Code" and len(parts) == 2 and sub[:-5] not in MORE.get(crate, []):
                    continue
                laws.append(parts)
        if not laws:
            continue
        nodes = {}
        for parts in laws:
            at = "/".join(parts)
            old, new = f"{specs}/{at}.antt", f"crates/{crate}/proofs/Theory/{at}.antt"
            os.makedirs(os.path.dirname(new), exist_ok=True)
            subprocess.run(["git", "mv", old, new], check=True)
            turned[f"Rattle.{crate}.specs.{'.'.join(parts)}"] = f"Rattle.{crate}.proofs.Theory.{'.'.join(parts)}"
            for k in range(1, len(parts) + 1):
                nodes.setdefault("/".join(parts[: k - 1]), set()).add(parts[k - 1])
        moved = {"/".join(p) for p in laws}
        for node, children in sorted(nodes.items()):
            lines = [f"pub mod {c}" for c in sorted(children)]
            path = f"crates/{crate}/proofs/Theory/{node}.antt" if node else f"crates/{crate}/proofs/Theory.antt"
            if node in moved:
                continue
            with open(path, "w", encoding="utf-8") as f:
                f.write("\n".join(lines) + "\n")
            # The definitions declare them no more.
            was = f"{specs}/{node}.antt" if node else f"{specs}/Lib.antt"
            if os.path.exists(was):
                text = open(was, encoding="utf-8").read()
                for c in children:
                    if f"{node}/{c}".lstrip("/") in moved or not os.path.exists(f"{specs}/{node}/{c}.antt".replace("//", "/")):
                        text = re.sub(rf"(?m)^(pub )?mod {c}\n", "", text)
                open(was, "w", encoding="utf-8").write(text)
        lib = f"crates/{crate}/proofs/Lib.antt"
        text = open(lib, encoding="utf-8").read() if os.path.exists(lib) else ""
        if "pub mod Theory\n" not in text:
            with open(lib, "w", encoding="utf-8") as f:
                f.write("pub mod Theory\n" + text)
    for crate in sorted(os.listdir("crates")):
        theory = f"crates/{crate}/proofs/Theory"
        for folder, dirs, names in os.walk(theory):
            for n in names:
                at = os.path.relpath(os.path.join(folder, n), theory)[:-5].replace("/", ".")
                if not os.path.exists(f"crates/{crate}/specs/{at.replace('.', '/')}.antt"):
                    turned[f"Rattle.{crate}.specs.{at}"] = f"Rattle.{crate}.proofs.Theory.{at}"
    paths = re.compile(r"Rattle\.\w+\.specs\.[\w.']+")
    for folder, dirs, names in os.walk("crates"):
        dirs[:] = [d for d in dirs if d != "out"]
        for n in names:
            if n.endswith((".antt", ".rt", ".edit")):
                p = os.path.join(folder, n)
                text = open(p, encoding="utf-8").read()
                new = paths.sub(lambda m: turned.get(m.group(0).rstrip("."), m.group(0).rstrip(".")) + ("." if m.group(0).endswith(".") else ""), text)
                if new != text:
                    open(p, "w", encoding="utf-8").write(new)
    print(f"{len(turned)} files moved")


main()
