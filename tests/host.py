#!/usr/bin/env python3
"""The C side of the host's entries: builds examples/menu_line.c, tests/host_fuzz.c and tests/host_long.c over the
static library, plain and with sanitizers, and runs them; menu_line also over reads that are interrupted, cut short or
fail (reads.c).

host.py                 makes the library first, by `tools/build host`
host.py --library PATH  takes this library
host.py --rounds N      tries N random inputs plain (20,000), N * 3 / 20 with sanitizers and N / 100 under valgrind
host.py --seed N        other random inputs

An example is an input X.bin below examples/ with its lines in X.expected, or input.bin with them in expected.txt. The
last line says what ran and how much of it failed; the exit status is 1 where something did.
"""
import concurrent.futures
import os
import pathlib
import re
import subprocess
import sys

import options
import report
import streams

ROOT = pathlib.Path(__file__).resolve().parent.parent
BUILT = ROOT / "target" / "host"
LIBRARY = ROOT / "target" / "staticlib" / "libhost.a"

WARNINGS = ["-O2", "-Wall", "-Wextra", "-Wpedantic", "-Werror", "-I", ROOT / "include"]
KINDS = {"plain": [], "sanitized": ["-fsanitize=address,undefined", "-fno-sanitize-recover=all", "-g"]}
PROGRAMS = {"menu_line": ["examples/menu_line.c"], "host_fuzz": ["tests/host_fuzz.c", "tests/host_account.c"],
            "host_long": ["tests/host_long.c"]}
VALGRIND = ["valgrind", "-q", "--error-exitcode=99"]
PATIENCE = 900  # seconds

# The entries from C++: an empty input is refused 2, an empty rule 20 at its length.
CPP = """#include "palmrummy.h"
int main() {
    uint8_t input[1] = {0}, out[PALMRUMMY_VERDICT] = {0};
    uint32_t verdict = palmrummy_verdict(input, 0, out);
    uint64_t answer = palmrummy_answer(input, 0, out, sizeof out), place[1] = {7};
    uint32_t rule = palmrummy_rule(input, 0, out, place);
    return palmrummy_verdict_is_refused(verdict) && palmrummy_refusal_number(verdict) == 2 &&
           palmrummy_answer_is_refused(answer) && palmrummy_refusal_number(answer) == 2 &&
           palmrummy_rule_is_refused(rule) && palmrummy_refusal_number(rule) == 20 && place[0] == 0 ? 0 : 1;
}
"""


def run(command, data=b"", stdout=subprocess.PIPE):
    """The exit status, standard output and standard error of a command."""
    try:
        done = subprocess.run([str(word) for word in command], input=data, stdout=stdout, stderr=subprocess.PIPE,
                              cwd=ROOT, timeout=PATIENCE)
    except (OSError, subprocess.TimeoutExpired) as error:
        return -1, b"", f"{error}\n".encode()
    return done.returncode, done.stdout or b"", done.stderr


def shown(status, out, err):
    return f"exit {status}\n{out.decode(errors='replace')}{err.decode(errors='replace')}"


# ---- checks: each hands back what went wrong, or nothing


def succeed(*command):
    reply = run(command)
    return None if reply[0] == 0 else shown(*reply)


def build(program, kind, library):
    folder = BUILT / kind
    folder.mkdir(parents=True, exist_ok=True)
    return succeed("gcc", "-std=c11", *WARNINGS, *KINDS[kind], "-o", folder / program, *PROGRAMS[program], library)


def build_cpp(library):
    BUILT.mkdir(parents=True, exist_ok=True)
    source = BUILT / "entries.cc"
    source.write_text(CPP)
    program = BUILT / "entries"
    return succeed("g++", "-std=c++11", *WARNINGS, "-o", program, source, library) or succeed(program)


def output_fault(reply, expected):
    """Nothing, where the program prints this and nothing on standard error."""
    status, out, err = reply
    if status or err:
        return shown(*reply)
    return None if out == expected else f"it prints other lines\n{report.diff(expected, out, 'expected', 'printed')}"


def prints(command, expected, data=b""):
    return output_fault(run(command, data), expected)


def declines(command, status, device=os.devnull):
    """The example program ends so, with one line on standard error; the device takes its standard output."""
    with open(device, "wb") as out:
        reply = run(command, stdout=out)
    return None if reply[0] == status and reply[2].count(b"\n") == 1 else shown(*reply)


def build_reads():
    try:
        streams.failing_reads()
    except (OSError, subprocess.CalledProcessError) as error:
        return f"{error}"


def reads(program, parts, expected, words):
    """Over an input that comes part by part, and over reads that are interrupted, cut short or fail: see reads.c. Where
    nothing is expected, a read fails: nothing is printed, and a line on standard error says why."""
    reply = streams.run(program, parts, pause=0.003, env=streams.with_reads(**words))
    if expected is not None:
        return output_fault(reply, expected)
    return None if reply == (1, b"", b"menu_line: standard input: Input/output error\n") else shown(*reply)


def fuzzes(command, inputs, seed, first=0):
    reply = run([*command, inputs, seed, first])
    last = reply[1].decode(errors="replace").splitlines()[-1:]
    right = rf"host fuzz: {inputs} inputs, \d+ accepted, \d+ refused, \d+ endless, 0 failed"
    return None if reply[0] == 0 and last and re.fullmatch(right, last[0]) else shown(*reply)


def long_answers(*command):
    reply = run(command)
    right = reply[0] == 0 and re.fullmatch(rb"host long: [1-9]\d* calls, 0 failed\n", reply[1])
    return None if right else shown(*reply)


# ---- what is run


def examples():
    """The inputs below examples/ that have an expected output, with it."""
    found = []
    for path in sorted((ROOT / "examples").rglob("*.bin")):
        expected = path.with_suffix(".expected")
        if path.name == "input.bin" and not expected.exists():
            expected = path.with_name("expected.txt")
        if expected.exists():
            found.append((path, expected.read_bytes()))
    return found


def fuzz_jobs(counts, seed):
    plain, sanitized, slow = counts
    half = plain // 2
    program = BUILT / "plain" / "host_fuzz"
    yield "fuzz under valgrind", fuzzes, [*VALGRIND, program], slow, seed + 2
    yield "fuzz, plain, first half", fuzzes, [program], half, seed
    yield "fuzz, plain, second half", fuzzes, [program], plain - half, seed, half
    yield "fuzz, sanitized", fuzzes, [BUILT / "sanitized" / "host_fuzz"], sanitized, seed + 1


def long_jobs():
    plain, sanitized = BUILT / "plain" / "host_long", BUILT / "sanitized" / "host_long"
    yield "long answers", long_answers, plain
    yield "long answers, sanitized", long_answers, sanitized
    yield "long answers under valgrind", long_answers, *VALGRIND, plain, 10000


def example_jobs(found):
    plain, sanitized = BUILT / "plain" / "menu_line", BUILT / "sanitized" / "menu_line"
    for number, (path, expected) in enumerate(found):
        name = path.relative_to(ROOT)
        yield f"{name}", prints, [plain, path], expected
        yield f"{name} on standard input", prints, [plain], expected, path.read_bytes()
        yield f"{name}, sanitized", prints, [sanitized, path], expected
        if number < 3:
            yield f"{name} under valgrind", prints, [*VALGRIND, plain, path], expected
    for program in plain, sanitized:
        yield "no bytes", prints, [program], b"refused 2 0\n"
        yield "8,192 bytes", prints, [program], b"refused 3 0\n", bytes(8192)
        yield "8,193 bytes", prints, [program], b"refused 2 0\n", bytes(8193)
        yield "100,000 bytes", prints, [program], b"refused 2 0\n", bytes(100000)
        yield "no such file", declines, [program, "no/such/file"], 1
        yield "a folder", declines, [program, ROOT], 1
        yield "two files", declines, [program, "one", "two"], 2
        yield "a full device", declines, [program], 1, "/dev/full"


def read_jobs(found):
    """The example program on the shortest example: an interrupted read is made again, and a short one followed by
    another; where a read fails, the status is 1."""
    program = BUILT / "plain" / "menu_line"
    for path, expected in sorted(found, key=lambda example: example[0].stat().st_size)[:1]:
        data = path.read_bytes()
        single = [data[i:i + 1] for i in range(len(data))]
        yield "byte by byte", reads, program, single, expected, {}
        yield "byte by byte, with signals", reads, program, single, expected, {"SIGNALS": "1"}
        for letters in ("iiriri", "i" * 300, "r" * 100, "ri" * 100):
            yield f"reads {letters[:8]}", reads, program, [data], expected, {"READS": letters}
        for letters in ("e", "rre", "riie", "iie"):
            yield f"reads {letters}", reads, program, [data], None, {"READS": letters}


def usage_jobs():
    for name in "host_fuzz", "host_long":
        program = BUILT / "plain" / name
        yield f"{name} --help", succeed, program, "--help"
        for words in ["--rounds"], ["7x"], ["-7"], [""], [9 ** 40], [0, 1, 2, 3]:
            yield f"{name} {' '.join(map(str, words))}", declines, [program, *words], 2


def failures(pool, jobs):
    """Runs jobs at once: the number of those that fail. What went wrong is printed."""
    count = 0
    waiting = [(name, pool.submit(check, *words)) for name, check, *words in jobs]
    for name, result in waiting:
        if result.result():
            print(f"host: {name}: {result.result()}", flush=True)
            count += 1
    return count


def given_words():
    parser = options.Options(__doc__)
    parser.add_argument("--library", type=pathlib.Path, metavar="PATH")
    parser.add_argument("--rounds", type=options.number, default=20000, metavar="N")
    parser.add_argument("--seed", type=options.number, default=1, metavar="N")
    given = parser.parse_args()
    if given.library and not given.library.is_file():
        parser.error(f"{given.library} is not there")
    return given


def main():
    given = given_words()
    library = given.library.resolve() if given.library else LIBRARY
    counts = given.rounds, given.rounds * 3 // 20, given.rounds // 100
    found = examples()
    with concurrent.futures.ThreadPoolExecutor(max_workers=os.cpu_count()) as pool:
        failed = 0 if given.library else failures(pool, [("library", succeed, "tools/build", "host")])
        if not failed:
            builds = [(f"build {p}, {kind}", build, p, kind, library) for p in PROGRAMS for kind in KINDS]
            failed = failures(pool, [*builds, ("build reads", build_reads), ("C++", build_cpp, library)])
        if failed:
            found, counts = [], (0, 0, 0)
        else:
            jobs = [*fuzz_jobs(counts, given.seed), *long_jobs(), *usage_jobs(), *example_jobs(found), *read_jobs(found)]
            failed = failures(pool, jobs)
            if not found:
                print("host: no example has an expected output")
                failed += 1
    print(f"host: {len(found)} examples, fuzz {counts[0]} plain, {counts[1]} sanitized, {counts[2]} under valgrind, "
          f"{failed} failed")
    return 1 if failed else 0


if __name__ == "__main__":
    sys.exit(main())
