#!/usr/bin/env python3
"""How long the check of a crate takes, function by function and law by law.

checks.py NAME            checks the crate from nothing, and prints the seconds of each function and each file of specs/ and proofs/, the longest first
checks.py NAME --most N   so many lines (20)

The check is that of `rt check`, by one job and over a folder of its own: what crates/NAME/out keeps is neither used nor changed. The crates below must have been
built there, by `rt check` in the folder of NAME or by `rt ci`. The check writes a file as it ends a module: the time since the last one is this module's. The sum
leaves out reading the crates below. On a busy machine the times say little.
"""
import argparse
import collections
import pathlib
import re
import subprocess
import sys
import tempfile

ROOT = pathlib.Path(__file__).resolve().parent.parent
KIT = pathlib.Path("/opt/rattle")


def owner(half, path):
    """The function or file that a module belongs to: rattle makes several modules for a function, below its path."""
    path = path[:path.index("TheLinks")] if "TheLinks" in path else path
    if half == "specs" and path[:1] == ["contracts"]:
        path = path[1:]
    elif half == "specs":
        return "/".join([half, *path])
    function = [part for part in path if not part[:1].isupper()]
    return "::".join(function) if function else "/".join([half, *path])


def seconds(folder, crate):
    files = sorted((path.stat().st_mtime_ns, path.name) for path in folder.glob("*/*.oantt"))
    found = collections.Counter()
    for (before, _), (time, name) in zip(files, files[1:]):
        module = re.fullmatch(rf"Rattle-{crate}[.-](specs|proofs)\.?(.*)\.oantt", name)
        if module:
            found[owner(module[1], [part for part in module[2].split(".") if part])] += (time - before) / 1e9
    return found


def crates():
    """What crates.txt says of each crate: whether it is a static library, and the crates that it uses."""
    found = {}
    for line in (ROOT / "crates.txt").read_text().split("\n"):
        words, colon, below = line.split("#")[0].partition(":")
        if colon:
            name, *more = words.split()
            found[name] = "staticlib" in more, below.split()
    return found


def command(name, folder):
    """The check of a crate, as `rt check` makes it, over this folder."""
    is_staticlib, below = crates()[name]
    at = ROOT / "crates" / name
    words = [KIT / "bin" / "rattle", "check", "--crate-name", name, "src/main.rt" if (at / "src" / "main.rt").exists() else "src/lib.rt"]
    words += ["--extern", f"std={KIT}/rlibs/std.rlib", "-L", f"dependency={KIT}/rlibs"]
    for lower in below:
        rlib = ROOT / "crates" / lower / "out" / "rlib"
        words += ["--extern", f"{lower}={rlib}/{lower}.rlib", "-L", f"dependency={rlib}"]
    words += ["--antt-project", KIT / "rattle" / "logic" / "antt-project.json", "--logic-built", KIT / "logic_built"]
    words += ["--incremental", folder, "--jobs", "1", *(["--crate-type", "staticlib"] if is_staticlib else [])]
    return words, at


def main():
    parser = argparse.ArgumentParser(description=__doc__, formatter_class=argparse.RawDescriptionHelpFormatter, allow_abbrev=False)
    parser.add_argument("name", choices=crates(), metavar="NAME")
    parser.add_argument("--most", type=int, default=20)
    options = parser.parse_args()
    missing = [name for name in crates()[options.name][1] if not (ROOT / "crates" / name / "out" / "rlib" / f"{name}.rlib").exists()]
    if missing:
        print(f"checks.py: not built: {', '.join(missing)}; `rt check` in crates/{options.name} builds the crates below it")
        return 2
    with tempfile.TemporaryDirectory(prefix="checks-") as folder:
        words, at = command(options.name, folder)
        done = subprocess.run(words, cwd=at, stdin=subprocess.DEVNULL, stdout=subprocess.PIPE, stderr=subprocess.STDOUT, text=True, errors="replace")
        if done.returncode:
            print(done.stdout[-2000:])
            return 1
        found = seconds(pathlib.Path(folder), options.name)
    for name, time in found.most_common(options.most):
        print(f"{time:7.2f} {name}")
    print(f"{sum(found.values()):7.2f} in all, of {len(found)} functions and files")
    return 0


if __name__ == "__main__":
    sys.exit(main())
