#!/usr/bin/env python3
"""The program crates/trials on the cases of cases.py, against what document 01's account says of them (account.py).

trials.py             compares crates/trials/stdin and crates/trials/stdout with the stored cases; exit status 1 where they differ
trials.py --write     writes both files
trials.py --random N  runs the built program on N batches of random queries, verdicts, stores, answers (some of them to shapes that the steps of the
                      search are for, some with rows that come in any order and by several ways) and runs, on the verdicts of all formulas of at
                      most five nodes over seven leaves, on the answers of all such formulas over six leaves and six stores, for each node on a
                      verdict that names it alone, on verdicts with an equality on either side of an and, on rows in rooms that are too small and
                      large, and on answers of many rows, and compares; exit status 1 where they differ
"""
import pathlib
import random
import signal
import subprocess
import sys

import account
import cases
import options
import report

HERE = pathlib.Path(__file__).resolve().parent.parent
STORED = HERE / "crates" / "trials"
PROGRAM = HERE / "target" / "bin" / "trials"
PATIENCE = 600  # seconds for one run of the program
SHOWN = 5  # so many of the cases that differ are shown, the others counted


def say(text):
    print(f"trials: {text}", flush=True)


# ---- a case whose line is another

def differing_call(case, line):
    """Of two lines of a run, the first call that differs: its number, and what was expected and came of it. Call 0 is the beginning."""
    wanted, came = (text.split(account.NEXT_CALL) for text in (case.line(), line))
    at = report.first_difference(wanted, came)
    return at, *(parts[at].strip() if at < len(parts) else "(no such call)" for parts in (wanted, came))


def shown(case, line):
    """The case, what was expected of it and what came; of a run, the call that differs."""
    wanted, title = case.line(), case.title()
    if case.kind == "o":
        at, wanted, line = differing_call(case, line)
        title += f", call {at} of {len(case.calls)}, {case.calls[at - 1]}" if 0 < at <= len(case.calls) else ", past its last call" if at else ", at its beginning"
    named = f"{case.name}:"
    if wanted.startswith(named) and line.startswith(named):
        wanted, line = (text[len(named):].strip() for text in (wanted, line))
    return f"{title}\n{report.pointed(wanted, line)}"


def show_some(where, faults):
    """Prints the first faults, and returns the number of all."""
    for text in faults[:SHOWN]:
        say(f"{where}: {text}")
    if len(faults) > SHOWN:
        say(f"{where}: {len(faults) - SHOWN} more")
    return len(faults)


# ---- the built program

WELL = "ended with exit status 0"


def run_program(given):
    """How the program ended, in words; standard output and standard error."""
    try:
        done = subprocess.run([PROGRAM], input=given, capture_output=True, timeout=PATIENCE)
    except subprocess.TimeoutExpired as late:
        return f"was stopped after {PATIENCE} seconds", late.stdout or b"", late.stderr or b""
    except OSError as error:
        return f"can't be started: {error.strerror}", b"", b""
    status = done.returncode
    return f"was ended by {signal.Signals(-status).name}" if status < 0 else f"ended with exit status {status}", done.stdout, done.stderr


def batch_faults(batch):
    """What differs where the program is run on some cases: a text for each."""
    ended, out, err = run_program(b"".join(case.given() for case in batch))
    *lines, rest = out.decode(errors="replace").split("\n")
    faults = [shown(case, line) for case, line in zip(batch, lines) if line != case.line()]
    end = f"the program {ended}" + (f", standard error {err[:300].decode(errors='replace')!r}," if err else "")
    if len(lines) < len(batch):
        begun = f", having written {rest[:100]!r} of its line" if rest else ""
        faults.append(f"{end} after {len(lines)} of {len(batch)} cases, at {batch[len(lines)].title()}{begun}")
    elif ended != WELL or err:
        faults.append(f"{end} after all {len(batch)} cases")
    elif len(lines) > len(batch) or rest:
        faults.append(f"the program writes on after all {len(batch)} cases: {(lines + [rest])[len(batch)][:100]!r}")
    return faults


def batches(chosen):
    """The cases in parts that the program takes at once."""
    batch, size = [], 0
    for case in chosen:
        if batch and size + len(case.given()) >= cases.ROOM:
            yield batch
            batch, size = [], 0
        batch.append(case)
        size += len(case.given())
    if batch:
        yield batch


def compare(where, chosen):
    """The built program against the account on these cases; how often they differ."""
    return show_some(where, [fault for batch in batches(chosen) for fault in batch_faults(batch)])


RANDOM = [(cases.random_query_cases, 400), (cases.random_store_cases, 40), (cases.random_verdict_cases, 400), (cases.random_answer_cases, 300),
          (cases.random_prenex_cases, 100), (cases.random_join_cases, 400), (cases.random_goal_cases, 240), (cases.random_row_cases, 300),
          (cases.random_run_cases, 6)]


def runs(number):
    """The random cases of so many batches, and those that are the same at every run: a name, the function that makes them, and what it is given."""
    for batch in range(number):
        for k, (make, count) in enumerate(RANDOM):
            yield f"batch {batch}", make, random.Random(batch * len(RANDOM) + k), count
    for make in (cases.small_verdict_cases, cases.small_answer_cases):
        for size in range(1, 6):
            yield f"{size} nodes", make, size
    yield "each node", cases.node_cases
    yield "equality on either side", cases.equality_cases
    yield "rows in other rooms", cases.row_room_cases
    yield "rows kept aside", cases.kept_aside_cases
    yield "large stores", cases.large_store_cases
    yield "large answers", cases.large_answer_cases
    yield "large lists", cases.large_run_cases


def compare_random(number):
    if not PROGRAM.is_file():
        say(f"{PROGRAM.relative_to(HERE)} is not there: `tools/build trials` makes it")
        return 1
    differ, ran, of = 0, {}, {" safe": 0, " endless rest": 0, " rows": 0, " refused 18": 0}
    calls = {" ; done 0 0": 0, " ; done": 0, " ;": 0}
    for where, make, *words in runs(number):
        chosen = cases.made(make, *words)
        differ += compare(where, chosen)
        ran[make.__name__] = ran.get(make.__name__, 0) + len(chosen)
        for case in chosen:
            for text in of:
                of[text] += text in case.reply and case.kind != "o"
            for text in calls:
                calls[text] += case.reply.count(text)
    say(", ".join(f"{n} {name}" for name, n in ran.items()))
    say(f"{of[' safe']} verdicts safe; {of[' rows']} answers listed, {of[' endless rest']} endless, {of[' refused 18']} without room; {differ} differ")
    moved = calls[" ; done"] - calls[" ; done 0 0"]
    say(f"{calls[' ;']} calls on standing lists, {calls[' ; done']} accepted, {moved} with rows that joined or left")
    return 1 if differ else 0


# ---- the stored files

def stored_cases():
    """The stored inputs and lines, by kind and name."""
    data, lines = (STORED / "stdin").read_bytes(), (STORED / "stdout").read_bytes().decode(errors="replace").split("\n")[:-1]
    found, at = {}, 0
    while at + 4 <= len(data):
        name, body = data[at + 1], int.from_bytes(data[at + 2:at + 4], "big")
        end = at + 4 + name + body
        key = chr(data[at]), data[at + 4:at + 4 + name].decode(errors="replace")
        found[key] = data[at:end], lines[len(found)] if len(found) < len(lines) else None
        at = end
    return found


def stored_faults(chosen):
    """What differs of the stored files: a text for each case."""
    stored, wanted, faults = stored_cases(), [(case.kind, case.name) for case in chosen], []
    for key, case in zip(wanted, chosen):
        given, line = stored.get(key, (None, None))
        if given is None:
            faults.append(f"{case.title()} is not stored")
        elif given != case.given():
            faults.append(f"{case.title()}, its input\n{report.hex_pointed(case.given(), given)}")
        elif line is None:
            faults.append(f"{case.title()} has no line in stdout")
        elif line != case.line():
            faults.append(shown(case, line))
    return faults + [f"{name} ({cases.KINDS.get(kind, 'of no kind')}) is stored, and no case" for kind, name in stored if (kind, name) not in wanted]


def compare_stored(chosen, given, wanted):
    """Whether the stored files are what the account gives; what differs is printed."""
    missing = [name for name in ("stdin", "stdout") if not (STORED / name).is_file()]
    if missing:
        say(f"crates/trials: {' and '.join(missing)} not there; tests/trials.py --write makes them")
        return False
    if (STORED / "stdin").read_bytes() == given and (STORED / "stdout").read_bytes() == wanted:
        return True
    if not show_some("stored", stored_faults(chosen)):
        say("stored: the cases stand in another order, or more stands behind them")
    say("crates/trials/stdin and stdout are not what document 01's account gives; where it is right, tests/trials.py --write writes them")
    return False


def stored(write):
    chosen = cases.made(cases.stored_cases)
    given = b"".join(case.given() for case in chosen)
    wanted = "".join(case.line() + "\n" for case in chosen).encode()
    names = [case.title() for case in chosen]
    twice = sorted({name for name in names if names.count(name) > 1})
    if twice or len(given) >= 65536:
        say(f"several stored cases have one name: {', '.join(twice)}" if twice else f"the stored cases have {len(given)} bytes: the program takes 65,535 at once")
        return 1
    if write:
        (STORED / "stdin").write_bytes(given)
        (STORED / "stdout").write_bytes(wanted)
    elif not compare_stored(chosen, given, wanted):
        return 1
    causes = sorted({int(case.reply.split(" refused ")[1].split()[0]) for case in chosen if " refused " in case.reply})
    say(f"{len(chosen)} cases, causes {causes}")
    return 0


def main():
    parser = options.Options(__doc__)
    one = parser.add_mutually_exclusive_group()
    one.add_argument("--write", action="store_true")
    one.add_argument("--random", type=options.number, metavar="N")
    chosen = parser.parse_args()
    try:
        return stored(chosen.write) if chosen.random is None else compare_random(chosen.random)
    except cases.Disagree as found:
        say(found)
        return 1


if __name__ == "__main__":
    sys.exit(main())
