#!/usr/bin/env python3
"""docs/PROMISES.md against the sources: what it cites is there.

Fails where
- a definition or theorem isn't public in the file named ("`demand` in standing's Runs/Laws" is crates/standing/proofs/Theory/Runs/Laws.antt, and a file of
  definitions is below specs/);
- a case in quotes is none of tests/cases.py, or after `tests/catalogue.py` none of that program's;
- a function that a crate shows to others is in neither table of calls or in both, a public call has a `requires`, or the table of calls between crates has
  other callers, or says of a function that it requires nothing where it does or the other way round;
- a table has rows of different lengths, or no head.
What it says of wrong programs is looked at by must_fail.py, what the contracts and theorems cite by believe.py.
"""
import pathlib
import re
import sys

import believe
import cases
import catalogue
import options

CRATES = believe.HERE / "crates"
PAGE = believe.HERE / "docs" / "PROMISES.md"
CITATION = re.compile(r"((?:`[\w'-]+`(?:, | and |, with )?)+) in (\w+)'s? ([A-Z][\w/]*)")
CASES = re.compile(r'(`tests/catalogue\.py`)?((?:,? ?"[^"]+")+)')


def check_citations(page, problems):
    count = 0
    for names, crate, file in CITATION.findall(page):
        public = set()
        for place in ("specs", "proofs/Theory"):
            path = CRATES / crate / place / f"{file}.antt"
            if path.exists():
                public |= set(re.findall(r"^\s*(?:abbrev |unfoldable )?pub (?:data |record )?(\S+)", path.read_text(), re.M))
        for name in re.findall(r"`([\w'-]+)`", names):
            count += 1
            if name not in public:
                problems.append(f"{name} is not in {crate}'s {file}")
    return count


def check_cases(page, problems):
    makers = [cases.stored_cases, cases.node_cases, cases.equality_cases, cases.row_room_cases, cases.kept_aside_cases]
    makers += [cases.large_store_cases, cases.large_answer_cases, cases.large_run_cases]
    trials = {c.name for make in makers for c in cases.made(make)}
    edges = {name for name, *_ in [*catalogue.worked_cases(), *catalogue.limit_cases()]}
    count = 0
    for line in (line for line in page.split("\n") if line.startswith("|")):
        for program, quoted in CASES.findall(line):
            for name in re.findall(r'"([^"]+)"', quoted):
                count += 1
                known = edges if program else trials
                # "12:" stands for all cases whose names start so
                if name not in known and not (re.fullmatch(r"\d+:", name) and any(n.startswith(name) for n in known)):
                    problems.append(f"no case {name!r} in {'tests/catalogue.py' if program else 'tests/cases.py'}")
    return count


def check_tables(page, problems):
    before, lines = None, page.split("\n")
    for number, line in enumerate(lines, 1):
        cells = len(re.findall(r"(?<!\\)\|", line)) if line.startswith("|") else None
        if cells and not before and not re.fullmatch(r"\|(?:---\|)+", "".join(lines[number:number + 1])):
            problems.append(f"line {number} starts a table without a head: an empty line may have cut it")
        if before and cells and cells != before:
            problems.append(f"line {number} has {cells - 1} cells, and the one above {before - 1}")
        before = cells


# ---- calls

def brought_in(text, start):
    """The paths that the source's lines bring in which begin so, each whole: `use a::{b, c::d};` is a::b and a::c::d."""
    def each(tree):
        head, brace, rest = tree.partition("{")
        if not brace:
            return [tree.strip()]
        parts, depth, part = [], 0, ""
        for sign in rest[: rest.rindex("}")]:
            depth += (sign == "{") - (sign == "}")
            if sign == "," and depth == 0:
                parts, part = [*parts, part], ""
            else:
                part += sign
        return [head.strip() + path for inner in [*parts, part] if inner.strip() for path in each(inner.strip())]

    return [path for tree in re.findall(rf"^{start} ([^;]*);", text, re.M) for path in each(" ".join(tree.split()))]


def of_traits(prefix, code):
    """The functions of a module's public traits, each under its trait, and those of each `impl TRAIT for TYPE`: under the trait where it is one of these, which says
    their contract, and else under the type. A trait's function ends in a semicolon, or has a body too."""
    found = {}
    traits = {m[1]: m[0] for m in re.finditer(r"^pub trait (\w+)(?:.|\n)*?^\}", code, re.M)}
    hidden = set(re.findall(r"^trait (\w+)", code, re.M))
    blocks = [(name, text) for name, text in traits.items()]
    for block in re.finditer(r"^impl(?:<.*?>)? ([\w:]+)(?:<.*?>)? for (\w+)(?:.|\n)*?^\}", code, re.M):
        trait = block[1].split("::")[-1]
        if trait not in hidden:
            blocks.append((trait if trait in traits else block[2], block[0]))
    for name, text in blocks:
        for m in re.finditer(r"^    fn (\w+)(?:.|\n)*?[;{]$", text, re.M):
            found[f"{prefix}{name}::{m[1]}"] = "requires" in m[0] or found.get(f"{prefix}{name}::{m[1]}", False)
    return found


def shown():
    """The functions that each library shows to other crates, with whether they require something."""
    found = {}
    for lib in sorted(CRATES.glob("*/src/lib.rt")):
        crate, text = lib.parent.parent.name, lib.read_text()
        files = [(lib, f"{crate}::")] + [(lib.with_name(f"{m}.rt"), f"{crate}::{m}::") for m in re.findall(r"^pub mod (\w+);", text, re.M)]
        for path, prefix in files:
            code = "\n".join(believe.code_of(path))
            found.update({prefix + m[1]: "requires" in m[0] for m in re.finditer(r'^pub (?:extern "C" )?fn (\w+)(?:.|\n)*?\n\{', code, re.M)})
            for block in re.finditer(r"^impl(?:<.*?>)? (\w+)(?:<.*?>)? \{\n(?:.|\n)*?^\}", code, re.M):
                found.update({f"{prefix}{block[1]}::{m[1]}": "requires" in m[0] for m in re.finditer(r"^    pub fn (\w+)(?:.|\n)*?\n    \{", block[0], re.M)})
            found.update(of_traits(prefix, code))
        for module, name in [path.split("::") for path in brought_in(text, "pub use")]:
            found[f"{crate}::{name}"] = "requires" in believe.functions(lib.with_name(f"{module}.rt"))[name]
    return found


def is_called(text, what):
    """Whether a text without comments and imports calls this (a pattern), or hands it on as an argument."""
    return re.search(rf"(?<![\w:.]){what}\(", text) or re.search(rf"[(,]\s*{what}\s*[,)]", text)


def callers(name):
    """The crates that call a function of another crate, or hand it on as an argument, by its path or by the last module of it. A method is called on a value, or by its
    type or a type parameter, where the type or trait is brought in. Comments call nothing."""
    crate, *modules, function = name.split("::")
    found = set()
    for path in CRATES.glob("*/src/*.rt"):
        if path.parent.parent.name == crate:
            continue
        code = "\n".join(believe.code_of(path))
        imports = {place.removesuffix("::self") for place in brought_in(code, "use")}
        text = re.sub(r"(?m)^(?:pub |ghost )?use [^;]*;", "", code)
        if modules and modules[-1][0].isupper():
            types = "|".join([modules[-1], *re.findall(rf"\b(\w+): (?:\w+ \+ )*{modules[-1]}\b", text)])
            called = "::".join([crate, *modules]) in imports and (is_called(text, rf"(?:{types})::{function}") or re.search(rf"\.{function}\(", text))
        else:
            short = modules and "::".join([crate, *modules]) in imports and is_called(text, f"{modules[-1]}::{function}")
            called = is_called(text, name) or short or name in imports and is_called(text, function)
        if called:
            found.add(path.parent.parent.name)
    return found


def check_calls(page, problems):
    public, between = page.split("## Public calls")[1].split("\n## ")[0].split("\nBetween our crates")
    calls = {name for row in re.findall(r"^\| (`\w+::[^|]*)\|", public, re.M) for name in re.findall(r"`([\w:]+)`", row)}
    others = {m[1]: (m[2], m[3]) for m in re.finditer(r"^\| `([\w:]+)` \(([^)]*)\) \| ([^|]*) \|", between, re.M)}
    found = shown()
    for name in sorted(set(found) ^ (calls | set(others))):
        problems.append(f"{name} is shown to other crates, and in no table of calls" if name in found else f"{name} is in a table of calls, and not shown to other crates")
    for name in sorted(calls & set(others)):
        problems.append(f"{name} is in both tables of calls")
    problems += [f"{name} is a public call, and has a `requires`" for name in sorted(calls) if found.get(name)]
    for name, (by, requires) in others.items():
        if name in found and found[name] == requires.startswith("nothing"):
            problems.append(f"{name} {'requires something' if found[name] else 'requires nothing'}, and the table says: {requires}")
        told = set() if by == "no other crate" else set(by.split(", "))
        if told != callers(name):
            problems.append(f"{name} is called from {', '.join(sorted(callers(name))) or 'no other crate'}, and the table says: {by}")
    return len(calls), len(others)


def main():
    options.Options(__doc__).parse_args()
    page = PAGE.read_text().split("## Must-fail edits")[0]
    problems = []
    cited = check_citations(page, problems)
    quoted = check_cases(page, problems)
    check_tables(PAGE.read_text(), problems)
    calls, others = check_calls(page, problems)
    for problem in problems:
        print(f"promises: {problem}")
    print(f"promises: {cited} citations, {quoted} cases, {calls} public calls, {others} between crates, {len(problems)} problems")
    return 1 if problems else 0


if __name__ == "__main__":
    sys.exit(main())
