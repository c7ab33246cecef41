#!/usr/bin/env python3
"""The wrong programs of crates/*/must-fail, against the prover and docs/PROMISES.md.

must_fail.py            what is said of the edits, against what the last `rt ci` of tests/run printed (target/ci.log)
must_fail.py --each     tries every wrong program alone, once `rt ci` or `rt check` has built the crates (some ten minutes)
must_fail.py --write    writes the table of docs/PROMISES.md anew

An edit file holds one or more wrong programs. Each starts with its name and what is wrong, then the facts that can't be proved of it, then its changes:

    # constant_endless: every query is endless.
    # fails: returns-2 in proofs/listing/is_endless; true is not false
    file: src/listing.rt
    old: ..
    new: ..

One check tries all wrong programs of a file. So each of several in one file changes the body of a function of its own, or a private table that this function alone
names, and the facts named are of this function's proof: a function is proved from its body and the contracts of what it calls, so such a fact fails by this change
alone. A definition moves everything above it, and a change of one has a file to itself.

Fails where
- an edit file isn't of this form, names a law that isn't in its file, or two of its programs change one function;
- `rt ci` didn't say of an edit that it is refused, or that only by a limit or a missing name, or named first a fact that none of its programs names;
- with --each, a wrong program alone is proved, or a fact that it names doesn't fail, or only because another failed;
- the table of wrong programs in docs/PROMISES.md is not the one that the files make;
- docs/PROMISES.md leaves a wrong program out, or cites a name that no wrong program, no function and no definition has.
"""
import concurrent.futures
import functools
import os
import pathlib
import re
import shutil
import subprocess
import sys
import tempfile

import options

ROOT = pathlib.Path(__file__).resolve().parent.parent
PROMISES = ROOT / "docs" / "PROMISES.md"
KIT = pathlib.Path("/opt/rattle")
FIRST, LAST = "<!-- made by tests/must_fail.py --write: from here -->", "<!-- to here -->"


class Bad(Exception):
    """What is wrong with an edit file."""


class Program:
    """A wrong program: its name, what is wrong, the facts that fail as (fact, file), why, and its changes as (file, old, new)."""

    def __init__(self, path, lines):
        named = re.fullmatch(r"# (\w+): (.*\.)", lines[0])
        fails = re.fullmatch(r"# fails: ([^;]*)(?:; (.*))?", lines[1]) if len(lines) > 1 else None
        if not named or not fails:
            raise Bad(f"{path}: a wrong program starts with `# name: what is wrong.` and `# fails: FACT in FILE`, and not with {lines[0]!r}")
        self.path, self.name, self.wrong, self.because = path, named[1], named[2], fails[2]
        self.facts = [tuple(fact.split(" in ")) for fact in fails[1].split(", ")]
        self.changes, file, old = [], None, None
        for line in lines[2:]:
            word, _, rest = line.partition(": ")
            if word == "file":
                file = rest
            elif word == "old":
                old = rest
            elif word == "new" and file and old:
                self.changes.append((file, old, rest))
            else:
                raise Bad(f"{path}: {self.name}: {line!r}")
        if not self.changes or any(len(fact) != 2 for fact in self.facts):
            raise Bad(f"{path}: {self.name} names no fact with its file, or changes nothing")

    def crate(self):
        return self.path.parent.parent.name

    def missing_laws(self):
        """What is wrong with the facts that it names of files of laws. A fact of a function's proof is in no file where `search` finds it."""
        crate = self.path.parent.parent
        for fact, file in self.facts:
            law = crate / f"{file}.antt"
            if law.exists():
                if not re.search(rf"^ *(?:pub )?{re.escape(fact)}(?: \(.*\)| \{{.*\}})* :(?: |$)", law.read_text(), re.M):
                    yield f"{file} has no {fact}"
            elif not file.startswith("proofs/") or file.startswith("proofs/Theory/"):
                yield f"there is no {file}.antt"

    def functions(self):
        """The functions whose bodies or private tables it changes, as the folders of their proofs; None for a change outside of any."""
        return {function_at(self.path.parent.parent, file, old) for file, old, _ in self.changes}


@functools.cache
def functions_of(crate):
    """The functions of a crate with a body: the end of their proofs' paths, each with its source file, where its text starts and ends there, and the name of its cycle.
    The path is module/function, or module/Type/function of a method, with the trait's name behind the type's where it is a trait's. A function that a trait only
    declares ends in a semicolon, and has no text of its own."""
    found = {}
    for path in (crate / "src").glob("*.rt"):
        source, module = path.read_text(), [] if path.stem in ("lib", "main") else [path.stem]
        types = [*re.finditer(r"^impl(?:<[^>]*>)? (?:(\w+) for )?(\w+).*?^\}$", source, re.M | re.S)]
        for f in re.finditer(r"^( *)(?:pub )?(?:extern \"C\" )?fn (\w+)(?:(?![{;]$).)*\{$.*?^\1\}$", source, re.M | re.S):
            method = [t[2][0].upper() + t[2][1:] + (t[1] or "") for t in types if t.start() < f.start() < t.end()]
            cycle = re.search(r"#\[cycle\((\w+)\)\]\n(?: *#\[.*\]\n)*$", source[: f.start()])
            found["/".join([*module, *method, f[2]])] = (f"src/{path.name}", f.start(), f.end(), cycle and cycle[1])
    return found


def function_at(crate, file, text):
    """The function of a source file that has the text. A private table is of the function that alone names it, in the whole crate."""
    if not file.startswith("src/"):
        return None
    source = (crate / file).read_text()
    functions = {path: (start, end) for path, (place, start, end, _) in functions_of(crate).items() if place == file}
    at = source.find(text)
    around = [path for path, (start, end) in functions.items() if start <= at < end]
    for table in re.finditer(r"^const (\w+)[^\n]*\[\n.*?^\];$", source, re.M | re.S):
        if table.start() <= at < table.end():
            named = rf"\b{table[1]}\b"
            elsewhere = any(re.search(named, other.read_text()) for other in (crate / "src").glob("**/*.rt") if other != crate / file)
            around = [path for path, (start, end) in functions.items() if re.search(named, source[start:end])] if not elsewhere else []
    return around[0] if len(around) == 1 else None


def function_on(crate, file, line):
    """The function of a source file that has this line. A change leaves the lines where they are, since its texts are one line each."""
    at = sum(len(text) for text in (crate / file).read_text().splitlines(keepends=True)[: line - 1])
    return next((path for path, (place, start, end, _) in functions_of(crate).items() if place == file and start <= at < end), None)


def is_proof_of(crate, function, fact, file):
    """Whether a fact of a proof file is one of this function. Functions that call each other have one file, under their cycle's name, and there each fact has the name of
    its own function first; one that calls itself alone is a cycle with its name."""
    *module, name = function.split("/")
    *folder, last = file.split("/")[1:]
    cycle = functions_of(crate)[function][3]
    if last.startswith("+") and cycle:
        of_function = last == f"+{cycle}" and fact.replace("_", "-").startswith(name.replace("_", "-") + "-")
    else:
        of_function = last in (name, f"+{name}")
    return file.startswith("proofs/") and folder == module and of_function


def programs_of(path):
    parts = re.split(r"\n\n+", path.read_text().strip())
    programs = [Program(path, part.split("\n")) for part in parts]
    if len(programs) == 1:
        if programs[0].name != path.stem:
            raise Bad(f"{path}: its only wrong program is called {programs[0].name}")
        return programs
    seen = set()
    for program in programs:
        functions = program.functions()
        if len(functions) != 1 or None in functions or functions & seen:
            raise Bad(f"{path}: {program.name} doesn't change the body, or the private table, of one function of its own")
        for fact, file in program.facts:
            if not is_proof_of(path.parent.parent, *functions, fact, file):
                raise Bad(f"{path}: {program.name}: {fact} in {file} is not of the proof of {functions}")
        seen |= functions
    return programs


def all_programs(problems):
    order = [line.split(":")[0].split()[0] for line in (ROOT / "crates.txt").read_text().split("\n") if line and line[0] != "#"]
    found = []
    for crate in order:
        names = set()
        for path in sorted((ROOT / "crates" / crate / "must-fail").glob("*.edit")):
            try:
                programs = programs_of(path)
            except Bad as bad:
                problems.append(str(bad))
                continue
            for program in programs:
                if program.name in names:
                    problems.append(f"{path}: {program.name} is a name twice in {crate}")
                names.add(program.name)
                problems += [f"{path}: {program.name}: {missing}" for missing in program.missing_laws()]
            found += programs
    return found


# ---- what the prover says

LOG = ROOT / "target" / "ci.log"

# A message that tells nothing of the program: the fact only follows from another, or the proof file no longer fits the code's shape.
EMPTY = re.compile(r"was not admitted|that can be named from here|has no field `|not checked: ")


def failures(text):
    """What a log shows as failing: the fact, the file that names it, and the line where that is a source file. Of a function without a proof file the log names what
    `search` does not find."""
    found = []
    # A message may go on in further lines, which begin with two spaces.
    for line in re.sub(r"\n  +", " ", text).split("\n"):
        fact = re.match(r"(?:so far: )?(?:\./)?(?:\S*?must-fail \S+: refused, as it must be: (?:\./)?)?((?:specs|proofs)/\S+?)(?:/Proof|/Answers|/Invariants)?\.antt:\d+:\d+: error: `([^`]*)`(?:: | is not admitted: )(.*)", line)
        made = re.match(r"(?:so far: )?fn .*: no proof: expected .*? in (?:\./)?(proofs/\S+)/\w+\.antt; `search` did not prove (.*)", line)
        told = re.match(r"(?:\S*?must-fail \S+: refused, as it must be: )?note: (src/\w+\.rt):(\d+):\d+: (?:it is not proved .*|`search` found no proof )\(`([^`]*)`\)", line)
        wrong = re.match(r"(?:so far: )?(?:\S*?must-fail \S+: refused, as it must be: )?(?:\./)?(src/\w+\.rt):(\d+):\d+: error: `([^`]*)`(?:: | is not admitted: )(.*)", line)
        if fact and not EMPTY.search(fact[3]):
            found.append((fact[2], fact[1], None))
        elif made:
            found += [(name, made[1], None) for name in re.findall(r"`([^`]*)`", made[2])]
        elif told or wrong and not EMPTY.search(wrong[4]):
            # A goal that is made of the changed code, or of a function without answers: the line tells the function.
            place = told or wrong
            found.append((place[3], place[1], int(place[2])))
    return found


def fails(crate, fact, file, failed):
    """Whether a fact is among those that fail. A goal that is named with its source file is one of the function that has its line there, and of no other."""
    def is_it(name, place, line):
        if line is None or name != fact:
            return (name, place) == (fact, file)
        function = function_on(crate, place, line)
        return function is not None and is_proof_of(crate, function, fact, file)

    return any(is_it(*failure) for failure in failed)


def check_log(programs, problems):
    """What `rt ci` printed of each edit: that it is refused, for more than a name that the change took away, and a first fact that fails, which one of the edit's
    programs names. That each fact of each program fails is for --each: `rt` tries all programs of a file at once, and prints no more than the first fact."""
    if not LOG.exists():
        problems.append(f"no log {LOG.relative_to(ROOT)}: tests/run writes it")
        return
    said = dict(re.findall(r"^rt: must-fail (\S+)\.edit: (.*)$", LOG.read_text(errors="replace"), re.M))
    for path in dict.fromkeys(p.path for p in programs):
        edit = f"{path.parent.parent.name}/{path.stem}"
        line = said.get(edit, "")
        if not line.startswith("refused, as it must be"):
            problems.append(f"{edit}: not refused: {line or 'rt ci says nothing of it'}")
            continue
        if line.startswith("refused, as it must be ("):
            problems.append(f"{edit}: {line}")
            continue
        first = failures(line.partition("refused, as it must be: ")[2])
        if not any(fails(path.parent.parent, fact, file, first) for p in programs if p.path == path for fact, file in p.facts):
            problems.append(f"{edit}: what fails first is named by none of its programs: {line[:200]}")


def try_alone(program, deps):
    """The log of a check of the crate with this wrong program alone."""
    crate = program.path.parent.parent
    with tempfile.TemporaryDirectory(prefix="must-fail-") as room:
        for part in ("src", "specs", "proofs"):
            if (crate / part).is_dir():
                shutil.copytree(crate / part, f"{room}/{part}")
        for file, old, new in program.changes:
            text = pathlib.Path(room, file).read_text()
            if text.count(old) != 1:
                return f"an 'old:' text is in {file} {text.count(old)} times"
            pathlib.Path(room, file).write_text(text.replace(old, new))
        words = [KIT / "bin" / "rattle", "check", "--crate-name", crate.name, "src/main.rt" if (crate / "src" / "main.rt").exists() else "src/lib.rt"]
        words += ["--extern", f"std={KIT}/rlibs/std.rlib", "-L", f"dependency={KIT}/rlibs"]
        for dep in deps[crate.name]:
            rlib = ROOT / "crates" / dep / "out" / "rlib"
            words += ["--extern", f"{dep}={rlib}/{dep}.rlib", "-L", f"dependency={rlib}"]
        words += ["--antt-project", KIT / "rattle" / "logic" / "antt-project.json", "--logic-built", KIT / "logic_built", "--links", f"{crate.name}=", "--jobs", "1"]
        if "staticlib" in deps[f"{crate.name} kind"]:
            words += ["--crate-type", "staticlib"]
        kept = crate / "out" / "incremental"
        if kept.is_dir():
            subprocess.run(["cp", "-al", kept, f"{room}/kept"], check=True)
            words += ["--incremental", f"{room}/kept"]
        functions = program.functions()
        if None not in functions:
            for function in functions:
                words += ["--only", function.replace("/", "::")]
        return subprocess.run(words, cwd=room, stdin=subprocess.DEVNULL, stdout=subprocess.PIPE, stderr=subprocess.STDOUT, text=True, errors="replace").stdout


def check_each(programs, problems):
    deps = {}
    for line in (ROOT / "crates.txt").read_text().split("\n"):
        if line and line[0] != "#":
            name, _, rest = line.partition(":")
            deps[name.split()[0]], deps[name.split()[0] + " kind"] = rest.split(), name.split()[1:]
    with concurrent.futures.ThreadPoolExecutor(int(os.environ.get("TRIES", os.cpu_count() or 1))) as pool:
        for program, log in zip(programs, pool.map(lambda p: try_alone(p, deps), programs), strict=True):
            failed = failures(log)
            for fact, file in program.facts:
                if not fails(program.path.parent.parent, fact, file, failed):
                    shown = ", ".join(f"{f} in {p}" + (f", line {line}" if line else "") for f, p, line in dict.fromkeys(failed)) or log.strip().split("\n")[-1][:200]
                    problems.append(f"{program.crate()}/{program.path.stem}, {program.name}: {fact} in {file} doesn't fail; what fails: {shown}")


# ---- the promises

def fact_text(program):
    facts = {}
    for fact, file in program.facts:
        facts.setdefault(file, []).append(f"`{fact}`")
    text = "; ".join(f"{', '.join(names)} in {file}" for file, names in facts.items())
    return text + (f": {program.because}" if program.because else "")


def table(programs):
    rows = [f"| {p.crate()} | `{p.name}` | {p.wrong[0].upper()}{p.wrong[1:-1]} | {fact_text(p)} |" for p in programs]
    return "\n".join([FIRST, "| crate | wrong program | what is wrong | fact that can't be proved |", "|---|---|---|---|", *rows, LAST])


def parts_of_page(page):
    """What stands before the table, the table, and what stands after."""
    if page.count(FIRST) != 1 or page.count(LAST) != 1:
        raise Bad(f"docs/PROMISES.md has no single place for the table: {FIRST} .. {LAST}")
    before, rest = page.split(FIRST)
    made, after = rest.split(LAST)
    return before, FIRST + made + LAST, after


def check_promises(programs, problems):
    try:
        before, made, after = parts_of_page(PROMISES.read_text())
    except Bad as bad:
        problems.append(str(bad))
        return
    if made != table(programs):
        problems.append("docs/PROMISES.md: the table of wrong programs is another than the files make; tests/must_fail.py --write")
    cited = set(re.findall(r"`([a-z0-9]+(?:_[a-z0-9]+)+)`", before + after))
    names = {p.name for p in programs}
    sources = "\n".join(p.read_text() for p in ROOT.glob("crates/*/src/*.rt"))
    functions = set(re.findall(r"fn (\w+)", sources))
    theory = "\n".join(p.read_text() for p in ROOT.glob("crates/*/*/**/*.antt") if p.relative_to(ROOT).parts[2] in ("specs", "proofs"))
    functions |= set(re.findall(r"^ *(?:(?:abbrev|unfoldable) )?pub (?:data |record )?(\w+)\b", theory, re.M))
    for name in sorted(names - cited):
        problems.append(f"docs/PROMISES.md: no promise says that {name} tries it")
    for name in sorted(cited - names - functions):
        problems.append(f"docs/PROMISES.md cites {name}, which is no wrong program and no function")


def main():
    parser = options.Options(__doc__)
    parser.add_argument("--write", action="store_true", help="write the table of docs/PROMISES.md anew")
    parser.add_argument("--each", action="store_true", help="try every wrong program alone")
    parser.add_argument("--crate", help="with --each, those of this crate alone")
    chosen = parser.parse_args()
    problems = []
    programs = all_programs(problems)
    if chosen.write:
        before, _, after = parts_of_page(PROMISES.read_text())
        PROMISES.write_text(before + table(programs) + after)
    if chosen.each:
        check_each([p for p in programs if chosen.crate in (None, p.crate())], problems)
    else:
        check_log(programs, problems)
    check_promises(programs, problems)
    for problem in problems:
        print(f"must-fail: {problem}")
    print(f"must-fail: {len(programs)} wrong programs in {len({p.path for p in programs})} edits, {len(problems)} problems")
    return 1 if problems else 0


if __name__ == "__main__":
    sys.exit(main())
