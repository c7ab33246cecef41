#!/usr/bin/env python3
"""What must be believed: docs/BELIEVE.md against the definitions.

The believed files are those of specs/ beside Lib.antt and Code.antt. Laws stand in proofs/Theory/, and what only the proofs of the code need in specs/Code/.
Fails where
- the page leaves out a believed file, names another, or counts its lines otherwise;
- a believed file cites a file of ours that isn't believed, or holds a proof;
- a contract of a public call, or the statement of a theorem, that docs/PROMISES.md names cites a definition outside the believed files.

believe.py            checks
believe.py --count    prints each believed file with its lines
"""
import os
import pathlib
import re
import sys

import options

HERE = pathlib.Path(__file__).resolve().parent.parent
CRATES = pathlib.Path("crates")
NOT_LISTED = {"Lib.antt", "Code.antt"}
# A definition opens with one of these; anything else in a believed file would be a proof.
DEFINES = re.compile(r"(?:abbrev |unfoldable |pub data |pub record |data |record |abbrev mutual$|module )")
CITATION = re.compile(r"(?:ghost )?(?:pub )?use Rattle\.(\w+)\.(specs|proofs)\.([^\s{}]+)\.\{([^}]*)\};?$")


def code_of(path):
    """The lines of a file, without comments and empty lines."""
    mark = "//" if path.suffix == ".rt" else "--"
    lines = (line.split(mark)[0].rstrip() for line in path.read_text().split("\n"))
    return [line for line in lines if line]


def lines_of(path):
    """How many lines define something: without comments, empty lines, imports and names of modules."""
    return sum(not re.match(r"(use |pub mod )", line) for line in code_of(path))


def believed():
    return {p for p in CRATES.glob("*/specs/*.antt") if p.name not in NOT_LISTED}


def citations(lines):
    """What the imports of a file bring in from files of ours: the name there, with the file. What the toolchain makes of the code's structs is in no file."""
    found = {}
    for line in lines:
        match = CITATION.match(line)
        if match and (CRATES / match[1]).is_dir() and not match[3].startswith("declared."):
            file = CRATES / match[1] / match[2] / (match[3].replace(".", "/") + ".antt")
            for item in match[4].split(","):
                name, _, renamed = item.strip().partition(" as ")
                found[renamed or name] = file
    return found


def words(text):
    return set(re.split(r"[\s(){},;]+", re.sub(r"\.(?=[a-z«])", " .", text)))


# ---- the believed files


def check_page(problems):
    page = pathlib.Path("docs/BELIEVE.md").read_text()
    listed = {CRATES / m[1]: int(m[2]) for m in re.finditer(r"^\| \d+ \| `([^`]+)` \|.*\| (\d+) \|$", page, re.M)}
    for path in sorted(believed() - set(listed)):
        problems.append(f"docs/BELIEVE.md leaves out {path}")
    for path, count in sorted(listed.items()):
        if path not in believed():
            problems.append(f"docs/BELIEVE.md names {path}, which is no file of definitions")
        elif lines_of(path) != count:
            problems.append(f"docs/BELIEVE.md gives {path} {count} lines; it has {lines_of(path)}")
    total = re.search(r"Total: ([\d,]+) lines", page)
    if not total or int(total[1].replace(",", "")) != sum(listed.values()):
        problems.append(f"docs/BELIEVE.md: the total is {sum(listed.values())}")


def check_files(problems):
    for path in sorted(believed()):
        lines = code_of(path)
        for name, file in citations(lines).items():
            if file not in believed():
                problems.append(f"{path} cites {name} of {file}, which isn't believed")
        for line in lines:
            opens = re.match(r"(?:pub )?\S+ :(?: |$)", line)
            if opens and not DEFINES.match(line):
                problems.append(f"{path} holds a proof: {line[:60]}")


# ---- what the promises cite


def check_cited(problems, what, text, cited, path, local=()):
    for word in sorted(words(text)):
        for name in (word, f"◌{word}◌"):
            if name in cited and cited[name] not in believed():
                problems.append(f"{what} ({path}) cites {name} of {cited[name]}")
        if word in local:
            problems.append(f"{what} ({path}) cites {word}, defined in that file")


def functions(path):
    """The functions of a source file, each with its contract."""
    text = "\n".join(code_of(path))
    return {m[1]: m[0] for m in re.finditer(r"fn (\w+)(?:.|\n)*?\n *\{\n", text)}


def check_calls(problems, promises):
    table = promises.split("## Public calls")[1].split("\n## ")[0].split("\nBetween our crates")[0]
    names = [name for row in re.findall(r"^\| (`\w+::[^|]*)\|", table, re.M) for name in re.findall(r"`([\w:]+)`", row)]
    for name in names:
        crate, *middle, function = name.split("::")
        path = CRATES / crate / "src" / f"{middle[0] if middle else 'lib'}.rt"
        shown = re.search(rf"^pub use (\w+)::{function};", path.read_text(), re.M)  # a call that another module has
        path = path.with_name(f"{shown[1]}.rt") if shown else path
        contract = functions(path).get(function)
        if contract is None:
            problems.append(f"docs/PROMISES.md names the call {name}, which isn't there")
            continue
        if "requires" in contract:
            problems.append(f"{name} asks for something")
        check_cited(problems, name, contract, citations(code_of(path)), path)
    return len(names)


def statements(path):
    """The public laws of a file, each with its statement and the parameters of the modules around it; and what the file defines itself."""
    laws, local, around, name, indent = {}, set(), [], None, 0
    for line in code_of(path):
        depth = len(line) - len(line.lstrip())
        while around and depth <= around[-1][0]:
            around.pop()
        if line.lstrip().startswith("module ") or line.strip() == "mutual":
            around.append((depth, line))
            name = None
            continue
        opens = re.match(r"\s*(abbrev |unfoldable )?(pub )?(data |record )?(\S+)((?: \(.*\)| \{.*\})*) :(?: |$)", line)
        if opens and depth == (around[-1][0] + 2 if around else 0):
            name, indent = opens[4], depth
            if opens[1] or opens[3]:
                local.add(name)
                name = None
            elif opens[2]:
                laws[name] = " ".join(text for _, text in around) + line
        elif name in laws:
            if re.match(re.escape(name) + r"(?: |$)", line.strip()):
                name = None
            else:
                laws[name] += " " + line
    return laws, local


def check_theorems(problems, promises):
    names = set(re.findall(r"`([a-z][\w'-]*)`", promises.split("## Must-fail edits")[0]))
    found = set()
    for path in sorted(CRATES.glob("*/proofs/Theory/**/*.antt")):
        laws, local = statements(path)
        for name in sorted(names & set(laws)):
            found.add(name)
            check_cited(problems, name, laws[name], citations(code_of(path)), path, local)
    return len(found)


def main():
    parser = options.Options(__doc__)
    parser.add_argument("--count", action="store_true")
    count = parser.parse_args().count
    os.chdir(HERE)
    if count:
        for path in sorted(believed()):
            print(f"{lines_of(path):4} {path}")
        return 0
    problems = []
    promises = pathlib.Path("docs/PROMISES.md").read_text()
    check_page(problems)
    check_files(problems)
    calls = check_calls(problems, promises)
    theorems = check_theorems(problems, promises)
    for problem in problems:
        print(problem)
    print(f"believe: {len(believed())} files, {calls} calls, {theorems} theorems, {len(problems)} problems")
    return 1 if problems else 0


if __name__ == "__main__":
    sys.exit(main())
