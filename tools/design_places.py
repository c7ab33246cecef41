#!/usr/bin/env python3
"""The places of docs/DESIGN-PASS.md: what crates/*/src has of each older form, by text.

design_places.py [COMMIT]        counts, of the checkout or of a commit
design_places.py -l [COMMIT]     and each place
"""
import difflib
import pathlib
import re
import subprocess
import sys

ROOT = pathlib.Path(__file__).resolve().parent.parent


def sources(commit):
    """The source files, as (path, text)."""
    if commit:
        names = subprocess.run(["git", "ls-tree", "-r", "--name-only", commit, "crates"], cwd=ROOT, capture_output=True, text=True, check=True).stdout.split("\n")
        for name in sorted(n for n in names if re.fullmatch(r"crates/\w+/src/.*\.rt", n)):
            yield name, subprocess.run(["git", "show", f"{commit}:{name}"], cwd=ROOT, capture_output=True, text=True, check=True).stdout
    else:
        for path in sorted(ROOT.glob("crates/*/src/**/*.rt")):
            yield str(path.relative_to(ROOT)), path.read_text()


def functions(text):
    """The functions of a file, as (line, name, parameters, clauses, body)."""
    for m in re.finditer(r"^( *)(?:pub )?(?:extern \"C\" )?fn (\w+)(?:<[^(]*>)?\(", text, re.M):
        depth, i = 1, m.end()
        while depth:
            depth += {"(": 1, ")": -1}.get(text[i], 0)
            i += 1
        parameters = text[m.end():i - 1]
        indent = m[1]
        end = re.compile(rf"^{indent}\}}$", re.M).search(text, i)
        whole = text[i:end.start() if end else len(text)]
        start = re.search(rf"^{indent}\{{$|\{{$", whole, re.M)
        opening = whole.rfind("\n" + indent + "{\n")
        if opening < 0:
            opening = start.start() if start else 0
        yield text[:m.start()].count("\n") + 1, m[2], parameters, whole[:opening], whole[opening:]


def lines(pattern, text):
    return [(text[:m.start()].count("\n") + 1, m[0].strip().split("\n")[0]) for m in re.finditer(pattern, text, re.M)]


# Points 1, 3, 4 and 6 by lines.
BY_LINE = {
    "1 an answer as an enum beside other fields": r"pub answer: Answer|^pub enum Answer",
    "1 a refusal by its number": r"Answer::Refused\(\d+|\brefused\(\d+|unopened\(\d+",
    "1 an answer taken apart by hand": r"if let Answer::Refused|match \w+ \{\n\s*Answer::|Answer::Refused\(number, \w+\) =>",
    "1 a flag beside a value": r"pub (?:over|endless|held|there|failed|whole|fits|ended|started|named|denied|safe): bool",
    "1 a number for a kind": r"match kind \{|\bkind [!=]= |kind: u32|kind < \d|\d < kind|match (?:effect|cause) \{",
    "1 a number for an outcome": r"^(?:pub )?const (?:OPEN|MET|UNMET|BELOW|SAME|ABOVE|ALL|OVER|GIVEN_UP|NOTHING|COLUMN|DENIED|SUBJECT|NAMED|TERM|RELATION|EQUALITY|OUT|WITHIN|DONE|UNSAID|FAILED|UNKNOWN|INFINITE|SPARE)\b",
    "3 a loop that counts by hand": r"^\s*while .*\{",
    "4 a comparison by hand": r"^\s*(?:pub )?fn (?:below|same|agree|compared|is_of|is_lower)\b",
    "4 a conversion by hand": r"^\s*(?:pub )?fn (?:wide|entry|copy|word|words|long|quad|pair|code|bytes)\b",
    "4 a cast that From does": r"\b\w+(?:\[[^\]]*\])? as (?:u32|u64|u16)\b(?! [|&])",
    "6 an array and a count beside it, as parameters": r"(?:nodes: &(?:'a )?\[u32; NODES\],\s*n: usize|(?:gs|list): &(?:'a )?(?:mut )?\[u8; GOALS\],\s*[mn]: usize|columns: &(?:'a )?\[u8; COLUMNS\],\s*k: usize|rows: &(?:'a )?(?:mut )?\[u32; ASIDE\],\s*n: usize|values: &\[u32; NUMBERS\],\s*(?:count|n): usize|[xy]s: &\[u32; NUMBERS\],\s*[nm]: usize|relations: &'a \[u8; PLACES\],\s*values: &'a \[u32; VALUES\],\s*count: usize)",
    "6 an array as a slice, for the proof's sake": r"^\s*// As (?:a )?slices?[:,]",
    "7 a step by a flag": r"\b(?:removes|removal|as_words|denied): bool|\bkind: u8",
}


def counted(commit, listed):
    places = {name: [] for name in BY_LINE}
    every, clauses = [], {}
    for path, text in sources(commit):
        short = path.replace("crates/", "").replace("/src/", " ")
        for name, pattern in BY_LINE.items():
            places[name] += [f"{short}:{at}: {what}" for at, what in lines(pattern, text)]
        for at, name, parameters, said, body in functions(text):
            every.append((short, at, name, parameters, body))
            for clause in re.findall(r"(?:requires|ensures)\*?(?: \w+)? \{ (.*) \}$", said, re.M):
                for fact in re.split(r" × ", clause):
                    clauses.setdefault(fact.strip("() "), []).append(f"{short}:{at}: {name}")
    places["5 parameters that travel together"] = [
        f"{short}:{at}: {name}" for short, at, name, parameters, _ in every
        if sum(bool(re.search(rf"\b{p}: &", parameters)) for p in ("form", "relations", "values")) > 1 or len([p for p in re.split(r",(?![^<\[]*[>\]])", parameters) if p.strip()]) > 7]
    places["5 a fact in three or more contracts"] = [f"{len(at)} times: {fact}" for fact, at in sorted(clauses.items()) if len(at) > 2 and len(fact) > 24]
    twins = []
    def tokens(body):
        return re.findall(r"\w+|[^\w\s]", re.sub(r"//.*", "", body))
    told = [(short, at, name, tokens(body)) for short, at, name, _, body in every]
    for i, (a, at, name, xs) in enumerate(told):
        for b, bt, other, ys in told[i + 1:]:
            if min(len(xs), len(ys)) >= 30 and max(len(xs), len(ys)) < 1.3 * min(len(xs), len(ys)):
                m = difflib.SequenceMatcher(None, xs, ys, autojunk=False)
                if m.quick_ratio() > 0.8 and m.ratio() > 0.8:
                    twins.append(f"{a}:{at}: {name} and {b}:{bt}: {other}")
    places["2 bodies alike by four tokens in five"] = twins
    tree = subprocess.run(["git", "ls-tree", "-r", "--name-only", commit or "HEAD", "crates"], cwd=ROOT, capture_output=True, text=True, check=True).stdout.split("\n") if commit else [str(p.relative_to(ROOT)) for p in ROOT.glob("crates/*/proofs/**/*.antt")]
    places["8 a proof that walks the code"] = [n for n in tree if n.endswith("/Proof.antt")]
    for name in sorted(places):
        print(f"{len(places[name]):5}  {name}")
        if listed:
            for place in places[name]:
                print(f"           {place}")


if __name__ == "__main__":
    words = sys.argv[1:]
    listed = "-l" in words
    rest = [w for w in words if w != "-l"]
    counted(rest[0] if rest else None, listed)
