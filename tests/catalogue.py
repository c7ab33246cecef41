#!/usr/bin/env python3
"""The examples and the list program: each examples file is what its texts and the account in lines.py give, and the program writes what that account says.
A rule of the examples, packed by rule_reader.py, has the lines of the query text that says the same.

catalogue.py                  compares the examples, and the program on them and on named edges
catalogue.py --random N       also every beginning of the first example and N random inputs, valid and damaged
catalogue.py --program PATH   a program other than target/bin/list
catalogue.py --write          writes the packed inputs and expected outputs of examples/ anew

Exit status 1 where anything differs.
"""
import math
import os
import pathlib
import random
import re
import struct
import subprocess
import sys

HERE = pathlib.Path(__file__).resolve().parent.parent
EXAMPLES = HERE / "examples"
sys.path.insert(0, str(EXAMPLES))

import account
import answers
import cases
import lines
import menu
import menu_pack
import options
import report
import rule_reader
import streams
import verdicts

FAILED = []


def fail(name, text):
    FAILED.append(name)
    print(f"catalogue: {name}: {text}")


def compare(name, text, expected, came, of_expected="expected", of_came="came"):
    """Fails with a diff where the two are not the same. What menu.py refuses to pack is its words in place of bytes."""
    if isinstance(expected, bytes) and isinstance(came, str):
        fail(name, f"{text}: {of_came} says {came!r}")
    elif came != expected:
        fail(name, f"{text}\n{report.diff(expected, came, of_expected, of_came)}")


# ---- the files of examples/

def examples():
    """Name, store text, query text, packed input and expected output of each example, as paths."""
    first, store = EXAMPLES / "first", EXAMPLES / "catalogue" / "store.txt"
    yield "first", first / "store.txt", first / "query.txt", first / "input.bin", first / "expected.txt"
    for query in sorted((EXAMPLES / "catalogue").glob("[0-9][0-9]-*.txt")):
        yield query.stem, store, query, query.with_suffix(".bin"), query.with_suffix(".expected")


def rules():
    """Name, store text, query text, rule and expected output of each line of the examples that is there as a rule, as paths."""
    store = EXAMPLES / "catalogue" / "store.txt"
    for rule in [*sorted((EXAMPLES / "catalogue").glob("*.rule")), *sorted((EXAMPLES / "rules").glob("*.rule"))]:
        yield f"{rule.parent.name}/{rule.name}", store, rule.with_suffix(".txt"), rule, rule.with_suffix(".expected")


def write_examples():
    (EXAMPLES / "catalogue" / "store.txt").write_text(made_store())
    for _, store, query, binary, expected in examples():
        binary.write_bytes(menu.pack(store.read_text(), query.read_text(), most_columns=16))
        expected.write_bytes(lines.lines(binary.read_bytes()))
    for _, store, query, _, expected in rules():
        expected.write_bytes(lines.lines(menu.pack(store.read_text(), query.read_text())))


def made_store():
    return subprocess.run([sys.executable, EXAMPLES / "catalogue" / "make_store.py"], stdout=subprocess.PIPE, text=True, check=True).stdout


def attempt(pack, *texts):
    """What menu.py packs, or its words where it refuses. Columns past the fourth are left to the engine: an example is of its refusing them."""
    try:
        return pack(*texts, most_columns=16)
    except menu.Refused as refused:
        return str(refused)


def check_example(name, store, query, binary, expected):
    data = binary.read_bytes()
    packs = attempt(menu.pack, store.read_text(), query.read_text())
    compare(name, f"menu.py packs {store.name} and {query.name} otherwise", data, packs, binary.name, "menu.py pack")
    compare(name, "what menu.py shows of it is packed otherwise", data, attempt(menu.pack_one, menu.show(data)[0]), binary.name, "menu.py show, and pack")
    compare(name, "lines.py gives other lines", expected.read_bytes(), lines.lines(data), expected.name, "lines.py")


def without_place(output):
    """An output as it is, but a refusal without its place: a rule's nodes have other numbers than those of a query text."""
    return re.sub(rb"(refused [0-9]+) [0-9]+", rb"\1", output)


def check_rule(program, name, store, query, rule, expected):
    """A rule and the query text beside it: both have the lines expected, and the program writes those of the rule."""
    missing = [path.name for path in (query, expected) if not path.is_file()]
    if missing:
        return fail(name, f"{', '.join(missing)} not there")
    text, wanted = rule.read_bytes(), expected.read_bytes()
    packed_rule, place = rule_reader.read_rule(text.removesuffix(b"\n"))
    if place is not None or not text.endswith(b"\n"):
        return fail(name, f"refused 20 {place}" if place is not None else "no line feed at the end")
    by_text = menu.pack(store.read_text(), query.read_text())
    data = menu_pack.Store(store.name, store.read_text()).packed() + packed_rule
    compare(name, "lines.py gives other lines for the query text", wanted, lines.lines(by_text), expected.name, "lines.py")
    compare(name, "lines.py gives other lines", without_place(wanted), without_place(lines.lines(data)), expected.name, "lines.py")
    if program:
        check_program(program, name, data, lines.lines(data))


# Document 01's packed query over its store S, and its output.
FIRST_QUERY = bytes.fromhex("10 80 20 80 10 00 22 40 00 00 60 80 00 00 80 04 00 00")
FIRST_OUTPUT = b"safe\ncolumns 0 1\nrow 9 3\nrows 1\n"


def check_first(data, expected):
    wanted = packed([2, 1] + [0] * 14, [(0, 7, 3, 0, 0), (0, 9, 3, 0, 0), (1, 7, 0, 0, 0)], FIRST_QUERY)
    compare("first", "input.bin is not document 01's", wanted, data, "document 01", "input.bin")
    compare("first", "expected.txt is not document 01's", FIRST_OUTPUT, expected, "document 01", "expected.txt")


def check_store():
    compare("catalogue", "make_store.py writes another store.txt", (EXAMPLES / "catalogue" / "store.txt").read_text(), made_store(), "store.txt", "make_store.py")


# ---- the named edges: document 01's worked cases, written as menu lines over S, and its limits

STORE = "relation 0 joint 2\nrelation 1 weld 1\njoint 7 3\njoint 9 3\nweld 7\n"
WORKED = [
    ("joint(x, y) and not weld(x)", "safe", "0 1", [(9, 3)]),
    ("not weld(x)", "unsafe", "0", None),
    ("weld(x) and x = y", "safe", "0 1", [(7, 7)]),
    ("x = y and weld(x)", "safe", "0 1", [(7, 7)]),
    ("not (not weld(x) or not x = y)", "unsafe", "0 1", [(7, 7)]),
    ("weld(x) and y = y", "unsafe", "0 1", None),
    ("false and weld(x)", "safe", "0", []),
    ("exists y weld(x)", "safe", "0", [(7,)]),
    ("exists x not weld(x)", "unsafe", "", [()]),
    ("x = 7", "safe", "0", [(7,)]),
    ("exists y (joint(x, y) or weld(x))", "unsafe", "0", [(7,), (9,)]),
]
WORKED_OVER_NONE = [("weld(x) and y = y", "unsafe", "0 1", []), ("x = 7", "safe", "0", [(7,)])]


def output(safe, columns, rows):
    head = f"{safe}\ncolumns {columns}".rstrip(" ") + "\n"
    return head + ("endless\n" if rows is None else "".join(" ".join(["row", *map(str, row)]) + "\n" for row in rows) + f"rows {len(rows)}\n")


def packed(widths, records, query):
    return bytes(widths) + struct.pack(">H", len(records)) + b"".join(map(cases.pack_record, records)) + query


def worked_cases():
    for store, worked, where in [(STORE, WORKED, ""), ("relation 0 joint 2\nrelation 1 weld 1", WORKED_OVER_NONE, " over no records")]:
        for text, safe, columns, rows in worked:
            names = columns.replace("0", "x").replace("1", "y")
            yield text + where, menu.pack(store, f"columns {names}\n{text}"), output(safe, columns, rows)


def limit_cases():
    """Name, input, and the output where a few words of document 01 or a reading of it say it."""
    s, three, first = cases.WIDTHS_S, cases.THREE, FIRST_QUERY
    words, r1 = cases.words_bytes, cases.R1
    no = lambda number, place=0: f"refused {number} {place}\n"
    yield "an empty input", b"", no(2)
    yield "17 bytes", bytes(17), no(2)
    yield "18 bytes: no query", bytes(18), no(3)
    yield "2 before 1: ends early", packed([9] * 16, three, first)[:-40], no(2)
    yield "2 before 1: 8,193 bytes", packed([9] * 16, three, first).ljust(8193, b"\0"), no(2)
    yield "a record count past the end", packed(s, three, first)[:16] + b"\xff\xff" + packed(s, three, first)[18:], no(2)
    yield "1 before 3", packed([2, 1] + [0] * 13 + [5], three, b""), no(1)
    yield "3: one byte", packed(s, three, first[:1]), no(3)
    yield "3: version 2", packed(s, three, b"\x20" + first[1:]), no(3)
    yield "4: no nodes", packed(s, three, words([])), no(4)
    yield "5: a byte short", packed(s, three, first[:-1]), no(5)
    yield "5: a byte long", packed(s, three, first + b"\0"), no(5)
    yield "6: kind 7", packed(s, three, cases.nodes_with(n1=0xE0000000)), no(6, 1)
    yield "6: a low bit of an and", packed(s, three, cases.nodes_with(n3=0x80040001)), no(6, 3)
    yield "6: an unused term", packed(s, three, cases.nodes_with(n1=r1 | 1 << 12)), no(6, 1)
    yield "7: two trees", packed(s, three, words([r1, r1])), no(7, 0)
    yield "7: a child twice", packed(s, three, cases.nodes_with(n3=cases.both(2, 2))), no(7, 0)
    yield "8: constant 0 of none", packed(s, three, cases.nodes_with(n1=r1 | 16 << 17)), no(8, 1)
    yield "9: a relation absent, before 13", packed([2] + [0] * 15, three, first), no(9, 1)
    yield "9: another term count", packed([2, 2] + [0] * 14, [], first), no(9, 1)
    yield "64 nodes", packed(s, three, words(cases.chain(64))), output("unsafe", "0", None)
    yield "65 nodes", packed(s, three, words(cases.chain(65), header=1 << 12 | 65 << 5)), no(4)
    sixteen = cases.joined_by(cases.either, [cases.equality(3, 16 + i) for i in range(16)])
    yield "16 constants", packed(s, [], words(sixteen, range(16, 0, -1))), output("safe", "3", [(i,) for i in range(1, 17)])
    yield "17 constants", packed(s, [], words(sixteen, range(17))), no(4)
    wide = [(3, 1, 2, 3, 4)]
    yield "4 free variables", packed([0, 0, 0, 4] + [0] * 12, wide, words([cases.record(3, 3, 15, 7, 11)])), output("safe", "3 7 11 15", [(1, 3, 4, 2)])
    five = cases.joined([cases.record(3, 3, 15, 7, 11), cases.equality(0, 3)])
    yield "5 free variables", packed([0, 0, 0, 4] + [0] * 12, wide, words(five)), no(10)
    one, all_of_0 = [1] + [0] * 15, words([cases.record(0, 0)])
    many = [(0, v, 0, 0, 0) for v in range(300)]
    numbers = lambda n: output("safe", "0", [(v,) for v in range(n)])
    yield "256 records, backward", packed(one, many[255::-1], all_of_0), numbers(256)
    yield "256 records, then repeats", packed(one, many[:256] + many[:100], all_of_0), numbers(256)
    yield "257 records", packed(one, many[:257], all_of_0), no(15)
    yield "15 before 13: the first in the list", packed(one, many[:257] + [(1, 0, 0, 0, 0)], all_of_0), no(15)
    yield "13 before 15: the first in the list", packed(one, many[:256] + [(1, 0, 0, 0, 0), many[256]], all_of_0), no(13)
    yield "13: relation 16", packed(one, [(16, 0, 0, 0, 0)], all_of_0), no(13)
    yield "13: a value past the width", packed(one, [(0, 0, 1, 0, 0)], all_of_0), no(13)
    yield "10 before 13", packed(one, [(1, 0, 0, 0, 0)], words(cases.joined([cases.equality(0, 1), cases.equality(2, 3), cases.equality(4, 4)]))), no(10)
    longest = packed(one, many[:240] * 2, words([cases.record(0, 0), cases.no(0), cases.no(1)]))
    yield "8,192 bytes", longest, numbers(240)
    yield "8,193 bytes", longest + b"\0", no(2)
    ends = [(0, v, 0, 0, 0) for v in (4294967295, 0, 4294967294)]
    yield "the least and the greatest values", packed(one, ends, all_of_0), output("safe", "0", [(0,), (4294967294,), (4294967295,)])
    yield "true over no relations", packed([0] * 16, [], words([cases.TRUE])), output("safe", "", [()])
    yield "false over no relations", packed([0] * 16, [], words([cases.FALSE])), output("safe", "", [])
    # 512 rows and 513; 4,096 numbers or just under, and just over, in two, three and four columns
    for sizes, more in [([16, 32], 0), ([16, 32], 1), ([32, 64], 0), ([32, 64], 1), ([13, 105, 1], 0), ([8, 9, 19], 0), ([8, 4, 4, 8], 0), ([5, 5, 41, 1], 0)]:
        nodes = cases.joined([cases.record(i, i) for i in range(len(sizes))])
        records = cases.products(sizes)
        if more:  # a row beside those of the product
            nodes += [cases.record(4, 0, 1), cases.either(2, 3)]
            records.append((4, 7777, 7777, 0, 0))
        rows = math.prod(sizes) + more
        data = packed([1, 1, 1, 1, 2] + [0] * 11, records, words(nodes))
        yield f"{rows} rows of {len(sizes)} columns", data, no(18) if rows * len(sizes) > 4096 else None
    endless = words([cases.record(0, 0), cases.record(1, 1), cases.either(0, 1)])
    yield "endless before 18", packed([1, 1] + [0] * 14, cases.products([100, 100]), endless), output("unsafe", "0 1", None)


# ---- random inputs, valid and damaged

def cut(query):
    """The constants and nodes of a query of right length."""
    header, *numbers = struct.unpack(f">H{len(query) // 4}I", query)
    return numbers[:header & 31], numbers[header & 31:]


def placed(query, relations):
    """A query with its relations 0 to 3 given other numbers."""
    constants, nodes = cut(query)
    return cases.words_bytes([w & ~(15 << 25) | relations[w >> 25 & 15] << 25 if w >> 29 == 1 else w for w in nodes], constants)


def valid_input(rng):
    values = rng.choice([[0, 1], [7, 9], [0, 7, 4294967295], [1, 7, 8, 9], [256, 65536, 16777216]])
    relations = rng.sample(range(16), 4)
    widths = [0] * 16
    for width, relation in enumerate(relations, 1):
        widths[relation] = width
    kinds = [rng.randrange(4) for _ in range(rng.choice([0, 2, 5, 10, 20, 40]))]
    records = [(relations[k], *(rng.choice(values) if i <= k else 0 for i in range(4))) for k in kinds]
    return packed(widths, records, placed(cases.random_query(rng, values), relations))


def product_input(rng):
    """A product of relations of width 1, of about 4,096 numbers, its columns in any order."""
    sizes = rng.choice([[32, 64], [45, 46], [64, 33], [11, 11, 11], [8, 9, 19], [6, 6, 6, 5], [4, 8, 4, 8]])
    nodes = cases.joined([cases.record(i, x) for i, x in enumerate(rng.sample(range(16), len(sizes)))])
    records = cases.products(sizes)
    return packed([1] * len(sizes) + [0] * (16 - len(sizes)), rng.sample(records, len(records)), cases.words_bytes(nodes))


def crowded_input(rng):
    """About 256 different records, repeats among them, and now and then one of an absent relation."""
    records = [(0, v, v % 3, 0, 0) for v in range(rng.randrange(250, 263))]
    records += rng.choices(records, k=rng.randrange(100)) + [(rng.randrange(1, 20), 0, 0, 0, 0)] * (rng.random() < 0.3)
    return packed([2] + [0] * 15, rng.sample(records, len(records)), cases.words_bytes([cases.record(0, 1, 0)]))


def varied(rng, data):
    """An input with another variable or constant in a leaf or an exists of its query, or an and for an or."""
    widths, records, query = lines.parts(data)
    constants, nodes = cut(query)
    i, term = rng.randrange(len(nodes)), rng.choice([*range(6), *range(16, 16 + len(constants))])
    kind, terms = nodes[i] >> 29, nodes[i] >> 22 & 7
    if kind == 1:
        shift = rng.choice([17, 12, 7, 2][:terms])
        nodes[i] = nodes[i] & ~(31 << shift) | term << shift
    elif kind == 2:
        nodes[i] = nodes[i] & ~(31 << 20) | term << 20
    elif kind in (4, 5):
        nodes[i] ^= 1 << 29
    elif kind == 6:
        nodes[i] = nodes[i] & ~(15 << 25) | term % 16 << 25
    return packed(widths, rng.sample(records, len(records)), cases.words_bytes(nodes, constants))


def misnumbered(rng, query):
    """A query of right length with a child or term changed, or with other counts at its head."""
    constants, nodes = cut(query)
    i, header = rng.randrange(len(nodes)), None
    kind = nodes[i] >> 29
    if rng.random() < 0.2:
        header = 1 << 12 | rng.choice([0, 64, 65, 127, len(nodes), len(nodes) + 1]) << 5 | rng.choice([0, 16, 17, 31, len(constants)])
    elif kind in (3, 4, 5, 6):
        shift = rng.choice({3: [23], 6: [19]}.get(kind, [23, 17]))
        nodes[i] = nodes[i] & ~(63 << shift) | rng.choice([i, i + 1, max(i - 1, 0), 63, rng.randrange(len(nodes))]) << shift
    elif kind in (1, 2):
        nodes[i] |= rng.choice([16, 18, 19, 31]) << (rng.choice([17, 12, 7, 2]) if kind == 1 else 20)
    return cases.words_bytes(nodes, constants, header)


def damaged(rng, data):
    """An input that is not empty, changed at its widths, its query or anywhere."""
    count = int.from_bytes(data[16:18], "big")
    start = min(len(data) - 1, 18 + 17 * count)
    data, at = bytearray(data), rng.choice([rng.randrange(len(data)), rng.randrange(min(18, len(data))), rng.randrange(start, len(data))])
    kind = rng.choice(["bits", "bits", "bits", "insert", "delete", "truncate", "append", "byte", "count", "repeat", "over"])
    if kind == "bits":
        for _ in range(rng.choice([1, 1, 2, 3])):
            data[at] ^= 1 << rng.randrange(8)
            at = rng.choice([at, rng.randrange(len(data)), rng.randrange(start, len(data))])
    elif kind == "insert":
        data[at:at] = rng.randbytes(rng.choice([1, 2, 4, 17]))
    elif kind == "delete":
        del data[at:at + rng.choice([1, 2, 4, 17])]
    elif kind == "truncate":
        del data[at:]
    elif kind == "append":
        data += rng.randbytes(rng.randrange(1, 20))
    elif kind == "byte":
        data[at] = rng.randrange(256)
    elif kind == "count":
        data[16:18] = struct.pack(">H", rng.choice([0, 1, count - 1, count + 1, rng.randrange(65536)]) % 65536)
    elif kind == "repeat":  # all records several times
        times = rng.choice([2, 3, 9])
        data[18:start] = data[18:start] * times
        data[16:18] = struct.pack(">H", count * times % 65536)
    else:
        data = data.ljust(rng.choice([8192, 8193, 9000, 20000, 70000]), b"\0")
    return bytes(data)


def random_input(rng, stock):
    """One of many sorts; stock: larger inputs, that some are made from."""
    sort = rng.random()
    data = product_input(rng) if sort < 0.03 else crowded_input(rng) if sort < 0.06 else valid_input(rng)
    if sort > 0.8:
        data = rng.choice(stock)
        for _ in range(rng.choice([1, 2, 3])):
            data = varied(rng, data)
    elif sort > 0.7:
        widths, records, query = lines.parts(data)
        return packed(widths, records, misnumbered(rng, query))
    for _ in range(rng.choice([0, 0, 0, 1, 1, 2])):
        data = damaged(rng, data) if data else data
    return data if rng.random() < 0.98 else rng.randbytes(rng.randrange(300))


def resolved(f, constants):
    """A formula of verdicts.py with values in place of constants."""
    value = lambda t: ("value", constants[t - 16]) if t >= 16 else t
    if f[0] == "record":
        return "record", f[1] >> 25 & 15, tuple(map(value, f[2]))
    if f[0] == "equality":
        return "equality", f[2], value(f[3])
    return tuple(resolved(g, constants) if isinstance(g, tuple) else g for g in f)


def meaning(data):
    widths, records, query = lines.parts(data)
    reading = account.read(list(query), widths)
    return "\n".join(map(str, [widths, *records, resolved(verdicts.formula(reading[3], len(reading[3]) - 1), reading[2])])) + "\n"


def check_show(name, data, wanted):
    """Show finds a fault where the engine refuses, 18 apart; what it shows of others is packed with the same meaning."""
    text, sound = menu.show(data)
    if sound != (not wanted.startswith(b"refused") or wanted.startswith(b"refused 18")):
        fail(name, f"menu.py finds {'no' if sound else 'a'} fault, and the first line of the output is {wanted.splitlines()[0].decode()!r}; it shows\n{text}")
    elif sound:
        again = attempt(menu.pack_one, text)
        if isinstance(again, str):
            return fail(name, f"menu.py doesn't pack what it shows: {again}; it shows\n{text}")
        compare(name, "packed again, what menu.py shows has another meaning", meaning(data), meaning(again), "the input", "packed again")
        compare(name, "shown and packed twice, it differs", again, attempt(menu.pack_one, menu.show(again)[0]), "packed again", "packed twice")


def check_answers(name, data):
    """The rows of lines.py beside those of answers.py, where its truth tables are small; whether they are."""
    widths, records, query = lines.parts(data)
    _, columns, constants, nodes = account.read(list(query), widths)
    held = account.fill(widths, records)[1].held()
    f = verdicts.formula(nodes, len(nodes) - 1)
    names = answers.variables(f)
    if (len(answers.known(f, constants, held)) + len(names)) ** len(names) > 200000:
        return False
    rows, others = lines.rows_of(columns, constants, nodes, held), answers.answer(columns, constants, nodes, held)
    told = ["endless\n" if found is None else "".join(lines.line("row", *row) for row in found) for found in (rows, others)]
    compare(name, "two accounts have other rows", *told, "lines.py", "answers.py")
    return True


# ---- the program

def check_program(program, name, data, wanted):
    """The program's output, byte for byte; it never fails, and a refusal is one line."""
    what = f"\n  the input is {data.hex()}" if len(data) <= 400 else ""
    try:
        done = subprocess.run([program], input=data, capture_output=True, timeout=60)
    except subprocess.TimeoutExpired:
        return fail(name, f"no answer in 60 seconds{what}")
    if done.returncode or done.stderr:
        fail(name, f"exit status {done.returncode}, standard error {done.stderr[:200]!r}{what}")
    elif b"refused" in done.stdout and not re.fullmatch(rb"refused [0-9]+ [0-9]+\n", done.stdout):
        fail(name, f"a refusal that is not one line: {done.stdout[:200]!r}{what}")
    else:
        compare(name, f"the program writes other lines{what}", wanted, done.stdout, "lines.py", "the program")


def over_streams(*words, **more):
    """What the program writes on both outputs: its exit status is always 0."""
    return streams.run(*words, **more)[1:]


def check_written(name, reply, wanted):
    out, err = reply
    if err:
        fail(name, f"standard error has {err[:200]!r}")
    compare(name, "the program writes other lines", wanted, out, "expected", "the program")


def check_streams(program, data, wanted):
    """Inputs that come in parts, between interrupted reads or without end are read as any other; where a read or the writing fails, nothing is printed but a
    line on standard error."""
    told = 0
    for name, reply in (("an input in parts", over_streams(program, [data[i:i + 13] for i in range(0, len(data), 13)])),
                        ("an input byte by byte", over_streams(program, [bytes([b]) for b in data]))):
        told += 1
        check_written(name, reply, wanted)
    streams.failing_reads()
    for letters, fails in (("iiriri", False), ("i" * 300, False), ("rre", True), ("e", True), ("riie", True)):
        told += 1
        out, err = over_streams(program, [data], env=streams.with_reads(READS=letters))
        if not fails:
            check_written(f"reads {letters[:20]}", (out, err), wanted)
        elif out or not re.fullmatch(rb"standard input: [^\n]+\n", err):
            fail(f"reads {letters[:20]}", f"the program writes {out!r}, and on standard error {err!r}")
    with open("/dev/zero", "rb") as zeros, open("/dev/full", "wb") as full:
        told += 1
        check_written("an input without end", over_streams(program, stdin=zeros), b"refused 2 0\n")
        directory = os.open("/", os.O_RDONLY)
        for name, stream, (out, err) in (("no standard input", b"standard input", over_streams(program, closed=0)),
                                         ("a directory for standard input", b"standard input", over_streams(program, stdin=directory)),
                                         ("no standard output", b"standard output", over_streams(program, [data], closed=1)),
                                         ("a full device for standard output", b"standard output", over_streams(program, [data], stdout=full))):
            told += 1
            if out or not re.fullmatch(stream + rb": [^\n]+\n", err):
                fail(name, f"the program writes {out!r}, and on standard error {err!r}")
        os.close(directory)
    return told


def check_input(program, name, data, expect=None):
    """An input through lines.py, menu.py and the program: what the output is, or None where lines.py's tables are too large for it."""
    try:
        wanted = lines.lines(data)
    except lines.TooLarge:
        return None
    if expect is not None:
        compare(name, "lines.py gives other lines", expect.encode(), wanted, "expected", "lines.py")
    check_show(name, data, wanted)
    if program:
        check_program(program, name, data, wanted)
    return "refused" if wanted.startswith(b"refused") else "endless" if wanted.endswith(b"endless\n") else "listed"


def check_examples(program):
    """The packed inputs of the examples."""
    stock = []
    for name, *paths in examples():
        missing = [path.name for path in paths if not path.is_file()]
        if missing:
            fail(name, f"{', '.join(missing)} not there")
            continue
        check_example(name, *paths)
        data, expected = (path.read_bytes() for path in paths[2:])
        if name == "first":
            check_first(data, expected)
        check_input(program, name, data)
        stock.append(data)
    return stock


def check_random(program, number, stock):
    """What came of random inputs, by sort."""
    sorts = {"refused": 0, "endless": 0, "listed": 0, "beside answers.py": 0, None: 0}
    for i in range(number):
        name, data = f"random {i}", random_input(random.Random(i), stock)
        sort = check_input(program, name, data)
        sorts[sort] += 1
        if sort in ("endless", "listed"):
            sorts["beside answers.py"] += check_answers(name, data)
    return sorts


def main():
    parser = options.Options(__doc__)
    parser.add_argument("--random", type=options.number, default=0, metavar="N")
    parser.add_argument("--program", type=pathlib.Path, default=HERE / "target" / "bin" / "list", metavar="PATH")
    parser.add_argument("--write", action="store_true")
    given = parser.parse_args()
    if given.write:
        write_examples()
    program = given.program.resolve() if given.program.is_file() else None
    if not program:
        fail("the program", f"{given.program} is not there")
    check_store()
    stock = check_examples(program)
    as_rules = list(rules())
    for line in as_rules:
        check_rule(program, *line)
    edges = [*worked_cases(), *limit_cases()]
    for name, data, wanted in edges:
        check_input(program, name, data, wanted)
    streams = check_streams(program, stock[0], FIRST_OUTPUT) if program and stock else 0
    ran = f"{len(stock)} examples, {len(as_rules)} rules, {len(edges)} edges, {streams} ways to be read and written"
    if given.random:
        for length in range(len(stock[0])):  # 18 bytes and three records end at 69; then come the query's header and its rest
            cause = 2 if length < 69 else 3 if length < 71 else 5
            check_input(program, f"the first {length} bytes of the first example", stock[0][:length], f"refused {cause} 0\n")
        sorts = check_random(program, given.random, stock)
        ran += f", {len(stock[0])} beginnings, {given.random} random inputs ({sorts['refused']} refused, {sorts['endless']} endless, {sorts['listed']} listed"
        ran += f"; {sorts['beside answers.py']} beside answers.py, {sorts[None]} passed over)"
    print(f"catalogue: {ran}, {len(FAILED)} failed")
    return 1 if FAILED else 0


if __name__ == "__main__":
    sys.exit(main())
