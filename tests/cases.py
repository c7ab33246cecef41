"""The cases that crates/trials is tried on: named ones, random ones, every small formula, each node by itself, equalities on either side of
an and, and stores, answers and lists at their limits.

Each has the reply that the accounts give: account.py, verdicts.py, answers.py and ledger.py, which share nothing with the engine. Where a case or its name says
what document 01 or 02 wants, the account's reply is held against that as the case is made.
"""
import math
import random
import re
import struct
import typing

import account
import answers
import ledger
import report
import verdicts
from account import ZERO, Store, fits

# ---- queries as bytes; a formula is a list of nodes

WIDTHS_S = [2, 1] + [0] * 14  # store S
THREE = [(0, 7, 3, 0, 0), (0, 9, 3, 0, 0), (1, 7, 0, 0, 0)]  # its records
R0, R1 = 0x20801000, 0x22400000  # 0(x,y) and 1(x)
FALSE, TRUE = 0, 1 << 28
WORKED = bytes.fromhex("108020801000224000006080000080040000")
NODES = [0x20801000, 0x22400000, 0x60800000, 0x80040000]


def record(relation, *terms):
    return 1 << 29 | relation << 25 | len(terms) << 22 | sum(t << 17 - 5 * at for at, t in enumerate(terms))


def equality(x, y):
    return 2 << 29 | x << 25 | y << 20


def no(child):
    return 3 << 29 | child << 23


def both(left, right):
    return 4 << 29 | left << 23 | right << 17


def either(left, right):
    return 5 << 29 | left << 23 | right << 17


def some(variable, child):
    return 6 << 29 | variable << 25 | child << 19


def joined_by(join, leaves):
    """The leaves joined from the left."""
    nodes, top = [leaves[0]], 0
    for leaf in leaves[1:]:
        nodes += [leaf, join(top, len(nodes))]
        top = len(nodes) - 1
    return nodes


def joined(leaves):
    """The leaves joined by and, from the left."""
    return joined_by(both, leaves)


def chain(n):
    """1(x) under n - 1 nots."""
    return [0x22400000] + [3 << 29 | i << 23 for i in range(n - 1)]


def words_bytes(nodes, constants=(), header=None):
    header = 1 << 12 | len(nodes) << 5 | len(constants) if header is None else header
    return struct.pack(">H", header) + struct.pack(f">{len(constants) + len(nodes)}I", *constants, *nodes)


def nodes_with(**changes):
    nodes = list(NODES)
    for place, w in changes.items():
        nodes[int(place[1:])] = w
    return words_bytes(nodes)


# ---- a case, and what it says itself

KINDS = {"q": "query read", "v": "verdict", "s": "store judged", "p": "put", "r": "removal", "f": "filling", "l": "filling from a lent list", "a": "answer",
         "o": "run of a standing list"}


class Case(typing.NamedTuple):
    """A call for crates/trials, which has a letter for its kind, and the reply that the account gives; of a run, the calls in words."""
    kind: str
    name: str
    body: bytes
    reply: str
    calls: tuple = ()

    def given(self):
        return self.kind.encode() + struct.pack(">BH", len(self.name), len(self.body)) + self.name.encode() + self.body

    def line(self):
        return f"{self.name}:{self.reply}"

    def title(self):
        return f"{self.name} ({KINDS[self.kind]})"


class Disagree(Exception):
    """The account gives another reply than the case wants."""


CASES = []


def made(make, *words):
    """The cases that one of the functions below makes."""
    CASES.clear()
    make(*words)
    return list(CASES)


def agree(name, wanted, told):
    if told != wanted:
        raise Disagree(f"{name}: the account's reply is not what the case or its name says\n{report.pointed(str(wanted), str(told))}")


def agree_name(name, reply):
    """A name may say a cause, also with its node, or several: then the reply has that one first, or these and no others."""
    refused = re.compile(r" refused (\d+) (\d+)")
    one = re.match(r"(?:[a-z ]+: )?(\d+)(?: at node (\d+))?(?=:|,| before | at | of | last$|$)", name)
    if re.fullmatch(r"\d+(?:, \d+)+", name):
        agree(name, name, ", ".join(sorted({number for number, _ in refused.findall(reply)}, key=int)))
    elif one:
        first = refused.search(reply)
        told = first.groups()[:2 if one[2] else 1] if first else ["none"]
        agree(name, " ".join(["refused", *filter(None, one.groups())]), " ".join(["refused", *told]))


def case(kind, name, body, reply, calls=()):
    agree_name(name, reply)
    CASES.append(Case(kind, name, bytes(body), reply, calls))


def query_case(name, data, widths=WIDTHS_S, expect=None):
    """expect: the first parts of what is read."""
    reading = account.read(list(data), widths)
    if expect is not None:
        agree(name, expect, reading[:len(expect)])
    case("q", name, bytes(widths) + bytes(data), account.query_text(reading))


def verdict_case(name, data, widths=WIDTHS_S, expect=None):
    """expect: the end of the line that document 01 or the reading of it says."""
    text = account.verdict_text(account.read(list(data), widths))
    if expect is not None:
        agree(name, expect, text[-len(expect):])
    case("v", name, bytes(widths) + bytes(data), text)


def pack_record(r):
    return struct.pack(">BIIII", *r)


def pack_store(s, given=None):
    given = s.places if given is None else given
    return bytes(s.widths) + struct.pack(">HH", s.count, len(given)) + b"".join(map(pack_record, given))


def store_case(kind, name, s, given, r=ZERO, expect=None):
    number, after = {"s": lambda: (s.judge(), None), "p": lambda: account.put(s, r), "r": lambda: account.remove(s, r)}[kind]()
    if expect is not None:
        agree(name, expect, number)
    text = account.outcome_text(number) if kind == "s" else account.changed_text(number, after)
    case(kind, name, pack_record(r) + pack_store(s, given), text)


def fill_case(name, widths, records, expect=None, kind="f"):
    number, after = account.fill(widths, records)
    if expect is not None:
        agree(name, expect, number)
    case(kind, name, bytes(widths) + b"".join(map(pack_record, records)), account.changed_text(number, after))


def answer_case(name, s, given, data, room, safe_wanted=False, expect=None):
    """room: the length of the buffer, or a function that gives it for the length of the rows. expect: the line up to the rest of the buffer."""
    found = account.found(s, data, safe_wanted)
    room = room(sum(map(len, found[1] or []))) if callable(room) else room
    text, rest = account.answer_text(found, room)
    if expect is not None:
        agree(name, expect, text)
    case("a", name, struct.pack(">BH", safe_wanted, room) + pack_store(s, given) + bytes(data), text + rest)


def pack_list(held, given):
    (k, variables), counts = held["columns"], held["counts"]
    head = struct.pack(">H4BHHB3Q", k, *variables, held["rows"], given, held["endless"], *counts)
    return head + b"".join(struct.pack(">4I", *p) for p in held["places"][:given])


def call_words(kind, r, first, second):
    """A call in words, for a report."""
    relation, *values = r
    return f"{'put' if kind == 'p' else 'removal'} of {relation}({', '.join(map(str, values))}), buffers of {first} and {second} numbers"


def run_case(name, s, given, data, calls, handed=None, rows_given=None, expect=None):
    """expect: the answers of the calls, in order: numbers of causes, or pairs of rows joined and left."""
    text = account.run_text(s, data, calls, handed)
    if expect is not None:
        told = [part.split()[:3] for part in text.split(account.NEXT_CALL)[1:]]
        agree(name, expect, [int(words[1]) if words[0] == "refused" else (int(words[1]), int(words[2])) for words in told])
    body = struct.pack(">BH", handed is not None, len(data)) + pack_store(s, given) + bytes(data)
    if handed is not None:
        body += pack_list(handed, handed["rows"] if rows_given is None else rows_given)
    body += b"".join(c[0].encode() + pack_record(c[1]) + struct.pack(">HH", *c[2:]) for c in calls)
    case("o", name, body, text, tuple(call_words(*c) for c in calls))


def opened(name, records, nodes, calls, expect=None, constants=(), widths=WIDTHS_S):
    run_case(name, Store(widths, records), records, words_bytes(nodes, constants), calls, expect=expect)


def handed_in(name, records, data, held, calls, expect, rows_given=None, widths=WIDTHS_S):
    run_case(name, Store(widths, records), records, data, calls, held, rows_given, expect)


# ---- queries

def named_query_cases():
    q, no = query_case, "refused"
    q("worked query", WORKED, expect=("accepted", [0, 1], [], NODES))
    q("1: a width of 5", WORKED, [5, 1] + [0] * 14, (no, 1, 0))
    q("1: the last width 255, before 3", b"", [2, 1] + [0] * 13 + [255], (no, 1, 0))
    q("3: no bytes", b"", expect=(no, 3, 0))
    q("3: one byte", WORKED[:1], expect=(no, 3, 0))
    q("3: version 0", b"\x00" + WORKED[1:], expect=(no, 3, 0))
    q("3: version 2", b"\x20" + WORKED[1:], expect=(no, 3, 0))
    q("3: version 15, before 4", b"\xf0\x00", expect=(no, 3, 0))
    q("4: no nodes", words_bytes([]), expect=(no, 4, 0))
    q("4: 65 nodes", words_bytes(chain(65), header=1 << 12 | 65 << 5), expect=(no, 4, 0))
    q("4: 127 nodes, before 5", struct.pack(">H", 1 << 12 | 127 << 5), expect=(no, 4, 0))
    q("4: 17 constants", words_bytes([equality(0, 16)], range(17)), expect=(no, 4, 0))
    q("64 nodes", words_bytes(chain(64)), expect=("accepted", [0], []))
    q("16 constants", words_bytes([equality(0, 31)], range(16)), expect=("accepted", [0], list(range(16))))
    q("equal constants, not all used", words_bytes([equality(0, 16)], [7, 7, 9]), expect=("accepted", [0], [7, 7, 9]))
    q("5: a byte short", WORKED[:-1], expect=(no, 5, 0))
    q("5: a byte long", WORKED + b"\x00", expect=(no, 5, 0))
    q("5: header alone", WORKED[:2], expect=(no, 5, 0))
    q("5 before 6", nodes_with(n1=0xE0000000) + b"\x00", expect=(no, 5, 0))
    q("6: kind 7", nodes_with(n1=0xE0000000), expect=(no, 6, 1))
    q("6: a low bit of a record", nodes_with(n0=0x20801001), expect=(no, 6, 0))
    q("6: an unused term of a record", nodes_with(n1=0x22400000 | 1 << 12), expect=(no, 6, 1))
    q("6: a low bit of a not", nodes_with(n2=0x60800001), expect=(no, 6, 2))
    q("6: a low bit of an and", nodes_with(n3=0x80040000 | 1 << 16), expect=(no, 6, 3))
    q("6: a low bit of a truth", words_bytes([1 << 27]), expect=(no, 6, 0))
    q("6: a low bit of an equality", words_bytes([equality(0, 1) | 1 << 19]), expect=(no, 6, 0))
    q("6: a low bit of an exists", words_bytes([0x22400000, 6 << 29 | 1 << 18]), expect=(no, 6, 1))
    q("6: a low bit of an or", nodes_with(n3=5 << 29 | 2 << 17 | 1 << 16), expect=(no, 6, 3))
    q("6: the lowest of two", nodes_with(n1=0xE0000000, n3=0xE0000000), expect=(no, 6, 1))
    q("6: term count 0, a term set", nodes_with(n1=0x22000000 | 1 << 17), expect=(no, 6, 1))
    q("6 at node 3 before 7 at node 0", words_bytes([3 << 29, 0x22400000, 0x60800000, 0xE0000000]), expect=(no, 6, 3))
    q("7: its own child", nodes_with(n2=3 << 29 | 2 << 23), expect=(no, 7, 1))
    q("7: a child above", nodes_with(n2=3 << 29 | 3 << 23), expect=(no, 7, 1))
    q("7: a child past the last", nodes_with(n3=4 << 29 | 0 << 23 | 63 << 17), expect=(no, 7, 2))
    q("7: a child twice", nodes_with(n3=4 << 29 | 2 << 23 | 2 << 17), expect=(no, 7, 0))
    q("7: the root not above its child", words_bytes([3 << 29]), expect=(no, 7, 0))
    q("7: two trees", words_bytes([0x22400000, 0x22400000]), expect=(no, 7, 0))
    q("7: a field upward counts", words_bytes([3 << 29 | 1 << 23, 0x22400000, 3 << 29 | 0 << 23]), expect=(no, 7, 0))
    q("8: constant 0 of none", nodes_with(n1=0x22400000 | 16 << 17), expect=(no, 8, 1))
    q("8: constant 15 of 15", words_bytes([equality(0, 31)], range(15)), expect=(no, 8, 0))
    q("8: in the last term", nodes_with(n0=0x20801000 | 1 << 16), expect=(no, 8, 0))
    q("7 at node 2 before 8 at node 0", words_bytes([0x20801000 | 1 << 16, 0x22400000, 0x60800000, 4 << 29 | 0 << 23 | 3 << 17]), expect=(no, 7, 2))
    q("8 at node 1 before 9 at node 0", words_bytes([0x2E801000, 0x22400000 | 16 << 17, 0x60800000, 0x80040000]), expect=(no, 8, 1))
    q("8: the fourth of term count 7", words_bytes([1 << 29 | 7 << 22 | 16 << 2]), expect=(no, 8, 0))
    q("9: a relation absent", nodes_with(n1=0x2E400000), expect=(no, 9, 1))
    q("9: one term of two", nodes_with(n0=0x20400000), expect=(no, 9, 0))
    q("9: term count 0", nodes_with(n1=0x22000000), expect=(no, 9, 1))
    q("9: term count 7", words_bytes([1 << 29 | 7 << 22]), expect=(no, 9, 0))
    q("9: the lowest of two", nodes_with(n0=0x20400000, n1=0x2E400000), expect=(no, 9, 0))
    wide = [4] * 16
    q("4 free variables", words_bytes([1 << 29 | 4 << 22 | 3 << 17 | 7 << 12 | 11 << 7 | 15 << 2]), wide, ("accepted", [3, 7, 11, 15]))
    q("9 before 10", words_bytes(joined([record(9, 0), equality(1, 2), equality(3, 4)])), expect=(no, 9, 0))
    q("10: 5 free variables", words_bytes(joined([equality(0, 1), equality(2, 3), equality(4, 4)])), expect=(no, 10, 0))
    q("10: 16 free variables", words_bytes(joined([equality(2 * i, 2 * i + 1) for i in range(8)])), expect=(no, 10, 0))
    bound = joined([equality(0, 1), equality(2, 3), equality(4, 4)])
    q("5 variables, one bound", words_bytes(bound + [6 << 29 | 4 << 25 | (len(bound) - 1) << 19]), expect=("accepted", [0, 1, 2, 3]))
    q("true", words_bytes([1 << 28]), expect=("accepted", []))


def random_query_cases(rng, number):
    for i in range(number):
        n = rng.randint(1, 7)
        k = rng.choice([0, 0, 1, 2])
        nodes, loose = [], []
        for j in range(n):
            kind = rng.choice([0, 1, 1, 2, 2, 3, 4, 5, 6, 6])
            if kind >= 3 and not loose or kind in (4, 5) and len(loose) < 2:
                kind = 1
            variable, term = rng.randint(0, 5), lambda: rng.choice([0, 1, 2, 3, 15, 16, 17])
            if kind == 0:
                nodes.append(rng.randint(0, 1) << 28)
            elif kind == 1:
                r = rng.randint(0, 1)
                ts = [term() for _ in range(2 - r)]
                nodes.append(1 << 29 | r << 25 | len(ts) << 22 | sum(t << 17 - 5 * at for at, t in enumerate(ts)))
            elif kind == 2:
                nodes.append(equality(variable, term()))
            elif kind == 3:
                nodes.append(3 << 29 | loose.pop() << 23)
            elif kind == 6:
                nodes.append(6 << 29 | variable << 25 | loose.pop() << 19)
            else:
                right, left = loose.pop(), loose.pop()
                nodes.append(kind << 29 | left << 23 | right << 17)
            loose.append(j)
        data = bytearray(words_bytes(nodes, [rng.randint(0, 9) for _ in range(k)]))
        for _ in range(rng.choice([0, 0, 1, 1, 2])):
            data[rng.randrange(len(data))] ^= 1 << rng.randrange(8)
        query_case(f"random query {i}", data)


# ---- verdicts

def reports(generators, ungenerated, unranged, safe):
    """The end of a verdict's line, from lists of node and variable numbers."""
    numbers = [verdicts.bits(g, 64) for g in generators] + [0] * (4 - len(generators))
    return account.reports_text(numbers, verdicts.bits(ungenerated, 16), verdicts.bits(unranged, 64), safe)


def named_verdict_cases():
    def v(name, nodes, generators, ungenerated, unranged, form=None, constants=(), widths=WIDTHS_S):
        safe = not ungenerated and not unranged
        end = reports(generators, ungenerated, unranged, safe)
        if form is not None:
            end = " nodes" + "".join(f" {w:08x}" for w in form) + end
        verdict_case(name, words_bytes(nodes, constants), widths, end)

    # the worked cases
    v("0(x,y) and not 1(x)", NODES, [[0], [0]], [], [], NODES)
    v("not 1(x)", [R1, no(0)], [[]], [0], [])
    v("1(x) and x = y", [R1, equality(0, 1), both(0, 1)], [[0], [0]], [], [])
    v("x = y and 1(x)", [equality(0, 1), R1, both(0, 1)], [[1], [1]], [], [])
    v("not (not 1(x) or not x = y)", [R1, no(0), equality(0, 1), no(2), either(1, 3), no(4)], [[0], []], [1], [])
    v("1(x) and y = y", [R1, equality(1, 1), both(0, 1)], [[0], []], [1], [], [R1])
    v("false and 1(x)", [FALSE, R1, both(0, 1)], [[]], [], [], [FALSE])
    v("exists y 1(x)", [R1, some(1, 0)], [[0]], [], [], [R1])
    v("exists x not 1(x)", [R1, no(0), some(0, 1)], [], [], [2])
    v("x = 7", [equality(0, 16)], [[0]], [], [], None, [7])
    v("exists y (0(x,y) or 1(x))", [R0, R1, either(0, 1), some(1, 2)], [[0, 1]], [], [3])
    v("not 1(x) and exists x 1(x)", [R1, no(0), R1, some(0, 2), both(1, 3)], [[]], [0], [])
    # the order, and what it takes of two
    v("1(x) and 1(x): the left one", [R1, R1, both(0, 1)], [[0]], [], [])
    v("not 1(x) and 1(x): the right one", [R1, no(0), R1, both(1, 2)], [[2]], [], [])
    v("not (not 1(x) or not 1(x)): the left one", [R1, no(0), R1, no(2), either(1, 3), no(4)], [[0]], [], [])
    v("1(x) or 1(x): both", [R1, R1, either(0, 1)], [[0, 1]], [], [])
    v("not (not 1(x) and not 1(x)): both", [R1, no(0), R1, no(2), both(1, 3), no(4)], [[0, 2]], [], [])
    v("not not 1(x)", [R1, no(0), no(1)], [[0]], [], [])
    v("1(x) and not not x = y", [R1, equality(0, 1), no(1), no(2), both(0, 3)], [[0], []], [1], [])
    v("1(y) and x = y", [record(1, 1), equality(0, 1), both(0, 1)], [[0], [0]], [], [])
    v("(1(x) and x = y) and y = z", [R1, equality(0, 1), both(0, 1), equality(1, 2), both(2, 3)], [[0], [0], [0]], [], [])
    v("(1(x) and y = z) and x = y", [R1, equality(1, 2), both(0, 1), equality(0, 1), both(2, 3)], [[0], [0], []], [2], [])
    v("1(x) and (x = y and true)", [R1, equality(0, 1), TRUE, both(1, 2), both(0, 3)], [[0], [0]], [], [], [R1, equality(0, 1), both(0, 1)])
    v("not x = 7", [equality(0, 16), no(0)], [[]], [0], [], None, [7])
    v("not true", [TRUE, no(0)], [], [], [], [FALSE])
    v("true or 1(x): x is not generated", [TRUE, R1, either(0, 1)], [[]], [0], [], [TRUE])
    v("0(x,y) or false", [R0, FALSE, either(0, 1)], [[0], [0]], [], [], [R0])
    v("exists x (1(x) and x = x)", [R1, equality(0, 0), both(0, 1), some(0, 2)], [], [], [], [R1, some(0, 0)])
    v("exists x x = x", [equality(0, 0), some(0, 0)], [], [], [], [TRUE])
    v("1(x) and not exists x not 1(x)", [R1, R1, no(1), some(0, 2), no(3), both(0, 4)], [[0]], [], [3])
    v("exists y of exists y 0(x,y)", [R0, some(1, 0), some(1, 1)], [[0]], [], [], [R0, some(1, 0)])
    # nodes in another order than the form's
    v("the right subtree first", [R1, R0, no(0), both(1, 2)], [[0], [0]], [], [], NODES)
    v("subtrees interleaved", [R1, R0, R1, no(2), either(0, 1), both(4, 3)], [[0, 1], []], [1], [], [R1, R0, either(0, 1), R1, no(3), both(2, 4)])
    # the ends of the numbers
    v("63 nots: variable 0, the highest bit", chain(64), [[]], [0], [])
    v("62 nots: node 0, the highest bit", chain(63), [[0]], [], [])
    leaves = [record(0, 0, 1)] * 32
    v("32 records joined by or: every leaf of 63 nodes", joined_by(either, leaves), [[0, 1] + list(range(3, 63, 2))] * 2, [], [])
    last = joined_by(either, [R1] * 31) + [no(60), R1, both(61, 62)]
    v("64 nodes: node 62 generates", last, [[62]], [], [])
    v("64 nodes: an exists at node 63", chain(63) + [some(0, 62)], [], [], [])
    v("64 nodes: node 63 reported", [R0, some(1, 0)] + [no(i) for i in range(1, 62)] + [some(0, 62)], [], [], [63])
    v("31 equalities in a chain", joined_by(both, [record(1, 2)] + [equality(0, 1)] * 31), [[], [], [0]], [0, 1], [])
    v("variables 12 to 15", [record(3, 12, 13, 14, 15)], [[0]] * 4, [], [], None, (), [0, 0, 0, 4] + [0] * 12)
    v("variable 15 ungenerated", [record(0, 15, 0), no(0)], [[], []], [0, 15], [])
    # refusals
    verdict_case("verdict: 1", WORKED, [5, 1] + [0] * 14, " refused 1 0")
    verdict_case("verdict: 3", b"", expect=" refused 3 0")
    verdict_case("verdict: 4", words_bytes([]), expect=" refused 4 0")
    verdict_case("verdict: 5", WORKED + b"\x00", expect=" refused 5 0")
    verdict_case("verdict: 6", nodes_with(n1=0xE0000000), expect=" refused 6 1")
    verdict_case("verdict: 7", nodes_with(n3=both(2, 2)), expect=" refused 7 0")
    verdict_case("verdict: 8", nodes_with(n1=R1 | 16 << 17), expect=" refused 8 1")
    verdict_case("verdict: 9", nodes_with(n1=0x2E400000), expect=" refused 9 1")
    verdict_case("verdict: 10", words_bytes(joined([equality(0, 1), equality(2, 3), equality(4, 4)])), expect=" refused 10 0")


def random_tree(rng, room, variables):
    """A formula as nested tuples of a kind, its other fields, and its children, of at most room nodes."""
    kind = rng.choice([0, 1, 1, 2] if room < 2 else [1, 2, 3, 6] if room < 3 else [0, 1, 1, 2, 2, 3, 3, 4, 4, 4, 5, 5, 6, 6])
    variable = rng.choice(variables)
    term = lambda: rng.choice(variables + variables + [16, 17])
    if kind == 0:
        return (rng.randint(0, 1) << 28,)
    if kind == 1:
        relation = rng.randrange(4)
        return (record(relation, *(term() for _ in range(relation + 1))),)
    if kind == 2:
        return (equality(variable, term()),)
    if kind in (3, 6):
        return kind << 29 | (variable << 25 if kind == 6 else 0), random_tree(rng, room - 1, variables)
    left = random_tree(rng, rng.randint(1, room - 2), variables)
    return kind << 29, left, random_tree(rng, room - 1 - tree_size(left), variables)


def tree_size(t):
    return 1 + sum(tree_size(c) for c in t[1:])


def random_order(rng, t):
    """The nodes of a tree, numbered in any order in which children come before their parent."""
    waiting, nodes, parents = [], [], {}

    def leaves(t, up):
        here = [t[0], [None] * len(t[1:]), up]
        for place, c in enumerate(t[1:]):
            leaves(c, (here, place))
        if len(t) == 1:
            waiting.append(here)

    leaves(t, None)
    while waiting:
        w, children, up = waiting.pop(rng.randrange(len(waiting)))
        shifts = [19] if w >> 29 == 6 else [23, 17]
        nodes.append(w | sum(c << shift for c, shift in zip(children, shifts)))
        if up:
            up[0][1][up[1]] = len(nodes) - 1
            if None not in up[0][1]:
                waiting.append(up[0])
    return nodes


def random_verdict_cases(rng, number):
    for i in range(number):
        room = rng.choice([3, 6, 10, 20, 64])
        t = random_tree(rng, room, rng.choice([[0, 1], [0, 1, 2], [3, 7, 11, 15], [0, 1, 2, 3, 4]]))
        verdict_case(f"v{i}", words_bytes(random_order(rng, t), [7, 9]), [1, 2, 3, 4] + [0] * 12)


# ---- answers

def named_answer_cases():
    def a(name, nodes, expect, safe, constants=(), records=THREE, widths=WIDTHS_S):
        """The rows, or None for endless: safe-range answers wanted and not; a buffer with room for one number more, for none more, and with one number less."""
        s, data = Store(widths, records), words_bytes(nodes, constants)
        size = 0 if expect is None else sum(map(len, expect))
        text = " endless" if expect is None else account.rows_text(expect)
        answer_case(name, s, records, data, size + 1, False, text)
        held = records if safe else []  # 11 rests on the query alone
        answer_case(name + ", safe wanted", Store(widths, held), held, data, size, True, text if safe else " refused 11 0")
        if size:
            answer_case(name + ", no room", s, records, data, size - 1, safe, " refused 18 0")

    # the worked cases
    a("0(x,y) and not 1(x)", NODES, [[9, 3]], True)
    a("not 1(x)", [R1, no(0)], None, False)
    a("1(x) and x = y", [R1, equality(0, 1), both(0, 1)], [[7, 7]], True)
    a("x = y and 1(x)", [equality(0, 1), R1, both(0, 1)], [[7, 7]], True)
    a("not (not 1(x) or not x = y)", [R1, no(0), equality(0, 1), no(2), either(1, 3), no(4)], [[7, 7]], False)
    a("1(x) and y = y", [R1, equality(1, 1), both(0, 1)], None, False)
    a("1(x) and y = y over no records", [R1, equality(1, 1), both(0, 1)], [], False, (), [])
    a("false and 1(x)", [FALSE, R1, both(0, 1)], [], True)
    a("exists y 1(x)", [R1, some(1, 0)], [[7]], True)
    a("exists x not 1(x)", [R1, no(0), some(0, 1)], [[]], False)
    a("x = 7", [equality(0, 16)], [[7]], True, [7])
    a("x = 7 over no records", [equality(0, 16)], [[7]], True, [7], [])
    a("exists y (0(x,y) or 1(x))", [R0, R1, either(0, 1), some(1, 2)], [[7], [9]], False)
    # document 01's traps, and what else quantifiers may get wrong
    a("1(x) and exists x not 1(x)", [R1, R1, no(1), some(0, 2), both(0, 3)], [[7]], False)
    a("exists x 1(x) and not 1(x)", [R1, some(0, 0), R1, no(2), both(1, 3)], None, False)
    a("1(x) and not not x = y", [R1, equality(0, 1), no(1), no(2), both(0, 3)], [[7, 7]], False)
    a("exists x exists y not x = y", [equality(0, 1), no(0), some(1, 1), some(0, 2)], [[]], False)
    different = [equality(0, 1), no(0), equality(0, 2), no(2), both(1, 3), equality(1, 2), no(5), both(4, 6)]
    a("x, y and z different, over no records", different, None, False, (), [])
    a("exists x, y, z different, over no records", different + [some(2, 7), some(1, 8), some(0, 9)], [[]], False, (), [])
    outside = [equality(0, 1), equality(0, 16), either(0, 1), equality(1, 16), either(2, 3), no(4)]
    a("x and y different and not 0, over no records", outside, None, False, [0], [])
    a("exists x, y different and not 0, over no records", outside + [some(1, 5), some(0, 6)], [[]], False, [0], [])
    a("exists y not (x = y or 0(x,y)) and 1(x)", [equality(0, 1), R0, either(0, 1), no(2), some(1, 3), R1, both(4, 5)], [[7]], False)
    a("not exists y not 0(y,x)", [record(0, 1, 0), no(0), some(1, 1), no(2)], [], False)
    a("true", [TRUE], [[]], True)
    a("false", [FALSE], [], True)
    a("x = y", [equality(0, 1)], None, False)
    a("exists y x = y", [equality(0, 1), some(1, 0)], None, False)
    ends = [(1, v, 0, 0, 0) for v in (0, 4294967294, 4294967295)]
    a("the least and the greatest values", [record(1, 15)], [r[1:2] for r in ends], True, (), ends)
    a("another than these", [R1, no(0), some(0, 1)], [[]], False, (), ends)
    a("constants in a record", [record(0, 17, 16)], [[]], True, [3, 9])
    a("a variable twice in a record", [record(0, 4, 4)], [[5]], True, (), [(0, 4, 5, 0, 0), (0, 5, 5, 0, 0)])
    # the limits
    a("64 nodes", chain(64), None, False, (), THREE[2:])
    a("63 nodes", chain(63), [[7]], True, (), THREE[2:])
    a("16 constants", joined_by(either, [equality(3, 16 + i) for i in range(16)]), [[i] for i in range(1, 17)], True, range(16, 0, -1), [])
    a("4 free variables", [record(3, 3, 15, 7, 11)], [[1, 3, 4, 2]], True, (), [(3, 1, 2, 3, 4)], [0, 0, 0, 4] + [0] * 12)
    a("0(x) and 2(y,z,w)", [record(0, 0), record(2, 1, 2, 3), both(0, 1)], [[9, 5, 6, 7]], True, (), [(0, 9, 0, 0, 0), (2, 5, 6, 7, 0)], [1, 0, 3] + [0] * 13)

    def r(name, expect, data, s=None, given=THREE, safe=False, room=9):
        answer_case(name, Store(WIDTHS_S, given) if s is None else s, given, data, room, safe, f" refused {expect}")

    r("answer: 1, before 2 and 3", "1 0", b"", Store([2, 5] + [0] * 14, THREE, 2))
    r("answer: 2, before 3", "2 0", b"", Store(WIDTHS_S, THREE, 2))
    r("answer: 2, 257 records", "2 0", WORKED, Store(WIDTHS_S, THREE, 257))
    r("answer: 3", "3 0", b"\x10", given=[])
    r("answer: 4, 65 nodes", "4 0", words_bytes(chain(65), header=1 << 12 | 65 << 5), given=[])
    r("answer: 4, 17 constants", "4 0", words_bytes([equality(0, 16)], range(17)), given=[])
    r("answer: 5", "5 0", WORKED[:-1], given=[])
    r("answer: 6", "6 1", nodes_with(n1=0xE0000000), given=[])
    r("answer: 7", "7 0", nodes_with(n3=both(2, 2)), given=[])
    r("answer: 8", "8 1", nodes_with(n1=R1 | 16 << 17), given=[])
    r("answer: 9", "9 1", nodes_with(n1=0x2E400000), given=[])
    r("answer: 10, 5 free variables, before 11", "10 0", words_bytes(joined([equality(0, 1), equality(2, 3), equality(4, 4)])), safe=True, given=[])
    r("answer: 11 before 18", "11 0", words_bytes([R1, no(0), equality(0, 1), no(2), either(1, 3), no(4)]), safe=True, room=0)
    answer_case("endless before 18", Store(WIDTHS_S, THREE), THREE, words_bytes([R1, no(0)]), 0, False, " endless")


def products(sizes):
    """Records of as many relations of width 1 as there are sizes, and so many of each."""
    return [(i, 10 * v + i, 0, 0, 0) for i, n in enumerate(sizes) for v in range(n)]


LENT = 8192  # the most numbers that the program lends


def large_answer_cases():
    """Many records, and many rows: some 2,048 numbers, and as many as the program can lend."""
    full = [(0, i // 16, i % 16, 0, 0) for i in range(256)]
    for room in (511, 512, 513):
        answer_case(f"256 records, {room}", Store(WIDTHS_S, full), full, words_bytes([R0]), room)
    answer_case("257 records", Store(WIDTHS_S, full, 257), full, words_bytes([R0]), 512)
    ring = [(0, 16777216 * i, 16777216 * (i * 7 % 256), 0, 0) for i in range(256)]
    both_ways = words_bytes([R0, record(0, 1, 0), no(1), both(0, 2)])
    within = words_bytes([R0, record(0, 0, 1), both(0, 1), some(1, 2), no(3), R0, both(5, 4)])
    path = words_bytes([R0, record(0, 1, 2), both(0, 1), some(1, 2)])
    for name, records in (("grid", full), ("ring", ring)):
        answer_case(f"256 records, {name}, one way only", Store(WIDTHS_S, records), records, both_ways, 512)
        answer_case(f"256 records, {name}, none", Store(WIDTHS_S, records), records, within, 512)
    answer_case("256 records joined", Store(WIDTHS_S, full), full, path, 600)
    wide = [(3, i // 64, i // 16 % 4, i // 4 % 4, i % 4) for i in range(256)]
    answer_case("256 records of width 4", Store([0, 0, 0, 4] + [0] * 12, wide), wide, words_bytes([record(3, 0, 1, 2, 3)]), 1024)
    for sizes in ([32, 32], [31, 33], [25, 41], [22, 31, 1], [4, 9, 19], [8, 4, 4, 4], [19, 27, 1, 1], [8, 8, 8, 4], [10, 10, 10, 10]):
        records = products(sizes)
        widths = [1] * len(sizes) + [0] * (16 - len(sizes))
        query = words_bytes(joined([record(i, i) for i in range(len(sizes))]))
        size = len(sizes) * math.prod(sizes)
        for room in sorted({size - 1, size, size + 1, 2047, 2048, LENT}):
            if room <= LENT:
                answer_case(f"{sizes} in {room}", Store(widths, records), records, query, room)


def room_for(rng):
    """A buffer about as long as the rows."""
    return lambda size: max(0, size + rng.choice([0, 0, 0, 0, -1, -1, 1, 2, 10]))


def random_query(rng, values):
    """The bytes of a query. Most formulas are endless or have no rows: some are bounded by a record for each variable, before or after, or by quantifiers."""
    names = rng.choice([[0], [0, 1], [0, 1], [0, 1, 2], [0, 1, 2], [3, 7, 11, 15], [0, 1, 2, 3, 4]])
    t = random_tree(rng, rng.choice([3, 6, 10, 16, 24]), names)
    bounds = rng.choice(["none", "records", "records", "quantifiers"])
    for x in names if bounds != "none" else []:
        over = (record(0, x),) if rng.random() < 0.7 else (record(1, *rng.sample([x, names[0]], 2)),)
        if bounds == "records":
            t = (4 << 29, *rng.sample([over, t], 2))
        elif rng.random() < 0.8:
            t = (6 << 29 | x << 25, t)
    return words_bytes(random_order(rng, t), [rng.choice(values + [5]), 9])


def random_answer_cases(rng, number):
    for i in range(number):
        values = rng.choice([[0, 1], [7, 9], [0, 7, 4294967295], [1, 7, 8, 9]])
        widths = [1, 2, 3, 4] + [0] * 12
        relations = [rng.randrange(4) for _ in range(rng.choice([0, 2, 5, 10, 20]))]
        records = sorted({(r, *(rng.choice(values) if k <= r else 0 for k in range(4))) for r in relations})
        data = random_query(rng, values)
        if rng.random() < 0.5:
            several = lambda query: len(account.found(Store(widths, records), query, False)[1] or []) > 1
            data = next(filter(several, (random_query(rng, values) for _ in range(10))), data)
        count, data = len(records), bytearray(data)
        if rng.random() < 0.04:
            data[rng.randrange(len(data))] ^= 1 << rng.randrange(8)
        if rng.random() < 0.02:
            count = rng.randrange(300)
        if rng.random() < 0.01:
            widths[rng.randrange(16)] = rng.choice([0, 1, 5])
        answer_case(f"a{i}", Store(widths, records, count), records, data, room_for(rng), rng.random() < 0.2)


def literal(rng, names):
    """A leaf or a not of one: mostly an equality of two variables."""
    term = lambda: rng.choice(names + names + names + [16])
    leaf = (equality(*rng.sample(names, 2)),) if rng.random() < 0.6 else (record(1, term(), term()),) if rng.random() < 0.6 else (record(0, term()),)
    return leaf if rng.random() < 0.4 else (3 << 29, leaf)


def random_prenex_cases(rng, number):
    """Quantifiers, some of them under nots, over literals joined by and and or: how many different values there are decides many of these."""
    for i in range(number):
        values = rng.choice([[], [0], [7], [0, 7], [0, 1, 4294967295]])
        records = sorted({(r, rng.choice(values), rng.choice(values) if r else 0, 0, 0) for r in (0, 0, 1, 1, 1) if values and rng.random() < 0.7})
        names = rng.sample(range(16), rng.choice([2, 3, 3, 4, 4, 5]))
        t = literal(rng, names)
        for _ in range(rng.choice([1, 2, 3, 5, 8, 10])):
            t = (rng.choice([4, 4, 4, 5]) << 29, *rng.sample([t, literal(rng, names)], 2))
        for x in rng.sample(names, len(names) - rng.choice([0, 0, 1, 2, 3, 4]) % len(names)):
            t = (6 << 29 | x << 25, t)
            t = rng.choice([t, t, (3 << 29, t), (3 << 29, (3 << 29, t)), (rng.choice([4, 5]) << 29, literal(rng, names), t)])
        s, data = Store([1, 2] + [0] * 14, records), words_bytes(random_order(rng, t), rng.choice([[0], [7], [5, 0]]))
        answer_case(f"p{i}", s, records, data, room_for(rng))


def random_join(rng, names, deep):
    """Records, equalities and quantified joins of them, joined: few variables, so that a quantifier often takes the number of a variable that has a value."""
    def part():
        if deep and rng.random() < 0.5:
            t = (6 << 29 | rng.choice(names) << 25, random_join(rng, names, deep - 1))
            return (3 << 29, t) if rng.random() < 0.2 else t
        term = lambda: rng.choice(names * 4 + [16])
        t = rng.choice([(record(0, term()),)] + [(record(1, term(), term()),)] * 4 + [(equality(rng.choice(names), term()),)])
        return (3 << 29, t) if rng.random() < 0.15 else t

    t = part()
    for _ in range(rng.choice([1, 1, 2, 3])):
        t = (rng.choice([4, 4, 4, 4, 5]) << 29, *rng.sample([t, part()], 2))
    return t


def random_join_cases(rng, number):
    for i in range(number):
        values = rng.choice([[0, 1, 2], [3, 7, 9], [0, 7, 8, 4294967295]])
        share = rng.choice([0.2, 0.4, 0.6])
        records = [(0, v, 0, 0, 0) for v in values if rng.random() < 0.7]
        records += [(1, v, w, 0, 0) for v in values for w in values if rng.random() < share]
        names = rng.sample(range(16), rng.choice([2, 2, 3]))
        while tree_size(t := random_join(rng, names, rng.choice([1, 2, 3]))) > 64:
            pass
        s, data = Store([1, 2] + [0] * 14, records), words_bytes(random_order(rng, t), [rng.choice(values)])
        answer_case(f"j{i}", s, records, data, room_for(rng), rng.random() < 0.1)


# ---- answers to shapes that the steps of the search over goals are for; formulas as trees, as random_tree makes them

WIDE = [1, 2, 3, 4] + [0] * 12  # relation r has width r + 1


def leaf(relation, *terms):
    return (record(relation, *terms),)


def same(x, y):
    return (equality(x, y),)


def denied(t):
    return (3 << 29, t)


def ands(*parts):
    """The parts joined by and, to the right."""
    return parts[0] if len(parts) == 1 else (4 << 29, parts[0], ands(*parts[1:]))


def ors(*parts):
    return parts[0] if len(parts) == 1 else (5 << 29, parts[0], ors(*parts[1:]))


def under(variables, t):
    """A formula under an exists of each variable, the first outermost."""
    for x in reversed(variables):
        t = (6 << 29 | x << 25, t)
    return t


def in_order(t, first=0):
    """The nodes of a tree, numbered from first on: those of each child from the left, then the node."""
    nodes, children = [], []
    for c in t[1:]:
        nodes += in_order(c, first + len(nodes))
        children.append(first + len(nodes) - 1)
    shifts = [19] if t[0] >> 29 == 6 else [23, 17]
    return nodes + [t[0] | sum(c << shift for c, shift in zip(children, shifts))]


def named_goal_cases():
    x, y, z, w = range(4)

    def g(name, t, expect, *records, constants=()):
        """The rows, or None for endless, over these records: a relation and its values each."""
        held = sorted((*r, *[0] * (5 - len(r))) for r in records)
        text = " endless" if expect is None else account.rows_text(expect)
        answer_case(name, Store(WIDE, held), held, words_bytes(in_order(t), constants), lambda size: size + 1, False, text)

    path = (1, 1, 2), (1, 2, 3), (1, 3, 3)
    # a variable that an exists binds and another conjunct has free, or binds too
    g("1(x,y) and exists y 1(y,x)", ands(leaf(1, x, y), under([y], leaf(1, y, x))), [[2, 3], [3, 3]], *path)
    g("exists x of exists y 1(x,y) and exists y 1(y,x)", under([x], ands(under([y], leaf(1, x, y)), under([y], leaf(1, y, x)))), [[]], *path[:2])
    inner = under([x], leaf(1, y, x))
    g("exists x (1(x,y) and 0(x) and exists x 1(y,x))", under([x], ands(leaf(1, x, y), leaf(0, x), inner)), [[2]], (0, 1), *path)
    one = ands(same(x, 16), under([x], leaf(1, x, y)))
    g("x = 1 and exists x 1(x,y)", one, [[1, 2], [1, 3]], *path, constants=[1])
    g("exists x (x = 1 and exists x 1(x,y))", under([x], one), [[2], [3]], *path, constants=[1])
    two = ands(ors(same(x, 16), same(x, 17)), under([y], ands(leaf(1, x, y), leaf(0, y))))
    g("x = 3 or x = 5, beside exists x x = 9", ands(two, under([x], same(x, 18))), [[5]], (0, 1), (1, 3, 2), (1, 5, 1), constants=[3, 5, 9])
    # a variable twice in a record, and others of its terms known or not
    g("exists x 2(x,y,x)", under([x], leaf(2, x, y, x)), [[5]], (2, 1, 5, 1), (2, 1, 7, 2), (2, 7, 7, 1))
    g("exists y (0(x) and 3(x,y,y,x))", under([y], ands(leaf(0, x), leaf(3, x, y, y, x))), [[1]], (0, 1), (0, 2), (3, 1, 4, 4, 1), (3, 2, 4, 5, 2), (3, 2, 6, 6, 3))
    # ors under exists
    two_ors = under([y, z], ands(ors(leaf(1, x, y), leaf(1, y, z)), ors(leaf(1, z, x), leaf(0, y))))
    g("two ors under exists", two_ors, [[1], [2], [3]], (0, 5), (1, 1, 2), (1, 2, 1), (1, 3, 5))
    g("exists y ((0(x) or 1(x,y)) and not 0(y))", under([y], ands(ors(leaf(0, x), leaf(1, x, y)), denied(leaf(0, y)))), [[1], [4]], (0, 1), (1, 2, 1), (1, 4, 5))
    g("exists y (exists z 2(x,y,z) or 1(x,y))", under([y], ors(under([z], leaf(2, x, y, z)), leaf(1, x, y))), [[1], [4]], (1, 4, 5), (2, 1, 5, 6))
    neither = denied(ands(denied(leaf(0, y)), denied(same(y, x))))
    g("ands denied under exists", ands(leaf(0, x), under([y], ands(denied(ands(leaf(0, y), leaf(1, x, y))), neither))), [[2]], (0, 1), (0, 2), (1, 1, 1), (1, 1, 2))
    # denied exists with several unknowns
    every = denied(under([w], ands(leaf(0, w), denied(leaf(3, x, y, z, w)))))
    g("3(x,y,z,w) for all w of 0", every, [[5, 6, 7]], (0, 1), (0, 2), (3, 5, 6, 7, 1), (3, 5, 6, 7, 2), (3, 5, 6, 8, 1))
    g("3(x,y,z,w) for all w of none", every, None, (3, 5, 6, 7, 1))
    g("x = z or 1(x,y), for all z", denied(under([z], denied(ors(same(x, z), leaf(1, x, y))))), [[1, 2], [3, 3]], (1, 1, 2), (1, 3, 3))
    no_path = denied(under([y, z], ands(leaf(1, x, y), leaf(1, y, z))))
    g("0(x) and no 1(x,y) and 1(y,z)", ands(leaf(0, x), no_path), [[2], [3]], (0, 1), (0, 2), (0, 3), (1, 1, 2), (1, 2, 3))
    # hidden variables, most of which nobody else mentions
    g("both hide y and z", ands(under([y, z], leaf(2, x, y, z)), under([z, y], leaf(2, y, x, z))), [[1], [2]], (2, 1, 2, 8), (2, 2, 5, 9), (2, 3, 1, 9))
    g("exists y (0(y) and 1(y,x))", under([y], ands(leaf(0, y), leaf(1, y, x))), [[5], [9]], (0, 1), (0, 2), (1, 1, 9), (1, 2, 5), (1, 4, 3))
    twenty = [(1, v, v + 1) for v in range(0, 42, 2)]
    g("a path among 22 records", under([x, y, z], ands(leaf(1, y, x), leaf(1, x, z))), [[]], *twenty, (1, 41, 50))
    # chains of equalities
    g("x = y = z = w, hidden, and 0(w)", ands(under([y, z], ands(same(x, y), same(z, y), same(z, w))), leaf(0, w)), [[3, 3], [8, 8]], (0, 3), (0, 8))
    g("0(x) and z = y = w, y hidden", ands(leaf(0, x), under([y], ands(same(z, y), same(w, y)))), None, (0, 3))
    # tokens
    g("1(y,y) for all y = x", denied(under([y], ands(same(x, y), denied(leaf(1, y, y))))), [[3]], *path)
    g("y = 5 for all y = x", denied(under([y], ands(same(x, y), denied(same(y, 16))))), [[5]], (0, 3), constants=[5])
    apart = under([y, z], ands(denied(same(y, z)), denied(leaf(0, y)), denied(leaf(1, z, z)), denied(same(z, x))))
    g("y and z that no record names", ands(leaf(0, x), apart), [[3]], (0, 3))
    g("x and z that no record names", apart, None, (0, 3))


def about(rng, names, x):
    """A record or an equality in which x stands."""
    other = lambda: rng.choice(names * 4 + [16, 17])
    if rng.random() < 0.2:
        return same(*rng.sample([x, rng.choice(names)], 2)) if rng.random() < 0.6 else same(x, rng.choice([16, 17]))
    relation = rng.choice([0, 1, 1, 1, 2, 3])
    return leaf(relation, *rng.sample([x] + [other() for _ in range(relation)], relation + 1))


def perhaps_denied(rng, t, share=0.2):
    return denied(t) if rng.random() < share else t


def bracketed(rng, join, parts):
    """The parts joined by two, in any order and with any brackets."""
    parts = rng.sample(parts, len(parts))
    while len(parts) > 1:
        at = rng.randrange(len(parts) - 1)
        parts[at:at + 2] = [join(*parts[at:at + 2])]
    return parts[0]


def some_names(rng, names, least=1):
    return rng.sample(names, rng.randint(min(least, len(names)), len(names)))


def clash(rng, names):
    """An exists whose variable another conjunct has free or binds too."""
    x = rng.choice(names)
    parts = [under([x], bracketed(rng, ands, [about(rng, names, rng.choice([x, x, *names])) for _ in range(rng.choice([1, 2]))]))]
    for _ in range(rng.choice([1, 1, 2])):
        parts.append(perhaps_denied(rng, under(rng.choice([[], [x], [rng.choice(names)]]), about(rng, names, x))))
    return bracketed(rng, ands, parts)


def twice(rng, names):
    """A variable twice in a record: known, or another term of it, or nothing."""
    x, relation = rng.choice(names), rng.choice([1, 2, 2, 3, 3])
    t = leaf(relation, *rng.sample([x, x] + [rng.choice(names * 2 + [16]) for _ in range(relation - 1)], relation + 1))
    others = rng.choice([[], [same(x, 16)], [leaf(0, x)], [about(rng, names, rng.choice(names))], [same(x, rng.choice(names))]])
    return under(rng.choice([[], [x], some_names(rng, names)]), bracketed(rng, ands, [perhaps_denied(rng, t, 0.15), *others]))


def ors_under_exists(rng, names):
    sides = lambda x: bracketed(rng, ors, [perhaps_denied(rng, about(rng, names, rng.choice([x, *names])), 0.1) for _ in range(rng.choice([2, 2, 3]))])
    bound = some_names(rng, names)
    parts = [sides(x) for x in bound[:2]] + [perhaps_denied(rng, about(rng, names, bound[0])) for _ in range(rng.choice([0, 1, 1, 2]))]
    return under(bound, bracketed(rng, ands, parts))


def for_all(rng, names):
    """A denied exists: of what isn't so, or of records joined."""
    bound = some_names(rng, names)[:2]
    guards = [leaf(0, x) for x in bound if rng.random() < 0.6]
    terms = rng.sample(names, len(names)) + [rng.choice(names) for _ in range(3)]
    relation = rng.choice([1, 2, 2, 3])
    body = rng.choice([leaf(relation, *terms[:relation + 1]), ors(about(rng, names, bound[0]), about(rng, names, rng.choice(names)))])
    joined_records = bracketed(rng, ands, [about(rng, names, x) for x in bound] + [body])
    return denied(under(bound, joined_records if rng.random() < 0.3 else bracketed(rng, ands, guards + [denied(body)])))


def for_alls(rng, names):
    """For-alls beside each other and one within another: of equalities with what is bound, of records, of both; the same variable bound in several."""
    def one(depth):
        z = rng.choice(names)
        sides = [same(*rng.sample([x, z], 2)) for x in rng.sample(names, rng.choice([0, 1, 1, 2]))]
        sides += [perhaps_denied(rng, about(rng, names, rng.choice([z, z, *names])), 0.3) for _ in range(rng.choice([1, 1, 2]))]
        if depth and rng.random() < 0.4:
            sides.append(perhaps_denied(rng, one(depth - 1), 0.3))
        return denied(under([z], denied(bracketed(rng, rng.choice([ors, ors, ands]), sides))))

    return bracketed(rng, ands, [one(1) for _ in range(rng.choice([1, 2, 2]))] + [about(rng, names, rng.choice(names)) for _ in range(rng.choice([0, 0, 1]))])


def hides(rng, names):
    """Records most of whose variables are bound, and stand nowhere else in what is bound."""
    def part():
        relation = rng.choice([1, 1, 2, 3])
        terms = (rng.sample(names, len(names)) + rng.choices(names + [16], k=3))[:relation + 1]
        bound = [x for x in sorted(set(terms) & set(names)) if rng.random() < 0.7]
        return perhaps_denied(rng, under(rng.sample(bound, len(bound)), leaf(relation, *rng.sample(terms, relation + 1))), 0.15)

    return bracketed(rng, ands, [part() for _ in range(rng.choice([1, 2, 2, 3]))])


def equals(rng, names):
    """A chain of equalities: nothing, a constant, a record or an or at one of its variables."""
    along = some_names(rng, names, 2)
    parts = [perhaps_denied(rng, same(*rng.sample(pair, 2)), 0.1) for pair in zip(along, along[1:] or along)]
    x = rng.choice(along)
    parts += rng.choice([[], [same(x, 16)], [leaf(0, x)], [about(rng, names, x)], [ors(same(x, 16), about(rng, names, x))], [same(x, 16), same(along[0], 17)]])
    return under(some_names(rng, names)[1:], bracketed(rng, ands, parts))


def unbounded(rng, names):
    """Mostly what is not so, of variables that no record gives: a number that nothing names decides many of these."""
    parts = [perhaps_denied(rng, about(rng, names, rng.choice(names)), 0.7) for _ in range(rng.choice([1, 2, 3, 4]))]
    return perhaps_denied(rng, under(some_names(rng, names)[1:], bracketed(rng, rng.choice([ands, ands, ors]), parts)), 0.3)


SHAPES = [clash, twice, ors_under_exists, for_all, for_alls, hides, equals, unbounded]


def goal_query(rng, shape, names):
    """The bytes of a query of a shape, also beside one of another; under exists, or with a record for each variable."""
    t = shape(rng, names)
    if rng.random() < 0.5:
        t = bracketed(rng, rng.choice([ands, ands, ands, ors]), [t, rng.choice(SHAPES)(rng, names)])
    t = perhaps_denied(rng, t, 0.1)
    if rng.random() < 0.4 or len(names) > 4:
        t = under(some_names(rng, names), t)
    if rng.random() < 0.5:
        t = bracketed(rng, ands, [t] + [leaf(0, x) if rng.random() < 0.6 else leaf(1, *rng.sample([x, names[0]], 2)) for x in names[:4]])
    return random_order(rng, t)


def random_goal_cases(rng, number):
    for i in range(number):
        values = rng.choice([[0, 1], [7, 9], [0, 7, 4294967295], [1, 7, 8]])
        share = rng.choice([0.2, 0.5, 0.8, 0.95])
        records = [(0, v, 0, 0, 0) for v in values if rng.random() < 0.7]
        records += [(1, v, w, 0, 0) for v in values for w in values if rng.random() < share]
        records += [(r, *rng.choices(values, k=r + 1), *[0] * (3 - r)) for r in rng.choices([2, 3], k=rng.choice([0, 4, 8, 16]))]
        if rng.random() < 0.1:  # more records than the search goes through before it tries numbers
            values = [1, 3, 4, 7, 9]
            records += [(1, v, w, 0, 0) for v in values for w in values if rng.random() < 0.95]
        s = Store(WIDE, sorted(set(records)))
        names = rng.sample(range(16), rng.choice([2, 3, 3, 4] if len(values) < 5 else [2, 3]))
        make = lambda: words_bytes(goal_query(rng, SHAPES[i % len(SHAPES)], names), [rng.choice(values + [5]), rng.choice(values + [5])])
        data = make()
        if rng.random() < 0.6:
            data = next(filter(lambda query: account.found(s, query, False)[1], (make() for _ in range(4))), data)
        answer_case(f"g{i}", s, s.held(), data, room_for(rng), rng.random() < 0.1)


# ---- rows that come in any order, by several ways, and from goals that share no variable

def row_shapes():
    """Those that are stored, and those that only --random runs: a name, the formula, its rows or None for endless, the records, and the constants."""
    x, y, z, w = range(4)
    stored, beyond = [], []

    def r(name, t, expect, *records, constants=(), among=stored):
        among.append((name, t, expect, sorted((*held, *[0] * (5 - len(held))) for held in records), constants))

    def more(*words, **named):
        r(*words, **named, among=beyond)

    # a row by two ways
    r("1(x,y) or 1(y,x): rows by both sides", ors(leaf(1, x, y), leaf(1, y, x)), [[0, 4], [1, 2], [2, 1], [4, 0]], (1, 1, 2), (1, 2, 1), (1, 4, 0))
    r("exists z 2(z,x,y): 5 6 by two records, 3 4 between", under([z], leaf(2, z, x, y)), [[3, 4], [5, 6]], (2, 1, 5, 6), (2, 2, 3, 4), (2, 3, 5, 6))
    diamond = (1, 1, 2), (1, 1, 3), (1, 2, 9), (1, 3, 9)
    r("exists z (1(x,z) and 1(z,y)): 1 9 by two z", under([z], ands(leaf(1, x, z), leaf(1, z, y))), [[1, 9]], *diamond)
    more("an or of a record and of hidden ones: 1 9 by three ways", ors(under([z], ands(leaf(1, x, z), leaf(1, z, y))), leaf(1, x, y)),
         [[1, 2], [1, 3], [1, 9], [2, 9], [3, 9]], *diamond, (1, 1, 9))
    # a column that an exists binds again
    two, apart = ((0, 5), (0, 7)), ((1, 1, 2), (1, 3, 2), (1, 5, 4))
    again = under([x], leaf(1, x, y))
    r("0(x) and exists x 1(x,y): another x", ands(leaf(0, x), again), [[5, 2], [5, 4], [7, 2], [7, 4]], *two, *apart)
    r("exists x 1(x,y) and 0(x): another x before", ands(again, leaf(0, x)), [[5, 2], [5, 4], [7, 2], [7, 4]], *two, *apart)
    r("0(x) and 0(y) and not exists x 1(x,y): another x denied", ands(leaf(0, x), leaf(0, y), denied(again)), [[2, 5], [5, 5]], (0, 2), (0, 5), (1, 1, 2))
    r("not exists y 1(x,y) and 0(x) and 0(y): another y denied before", ands(denied(under([y], leaf(1, x, y))), leaf(0, x), leaf(0, y)),
      [[3, 1], [3, 3]], (0, 1), (0, 3), (1, 1, 7))
    more("1(x,y) and exists x (0(x) and exists y 1(y,x)): both other", ands(leaf(1, x, y), under([x], ands(leaf(0, x), under([y], leaf(1, y, x))))),
         [[1, 2], [3, 4]], (0, 4), (1, 1, 2), (1, 3, 4))
    # goals that fall into groups
    one, ones = (0, 1), ((0, 1), (0, 2))
    r("0(x) and 0(y) and 1(z,z): the last is dead", ands(leaf(0, x), leaf(0, y), leaf(1, z, z)), [], one, (1, 1, 2))
    r("1(x,x) and 0(y) and 0(z): the first is dead", ands(leaf(1, x, x), leaf(0, y), leaf(0, z)), [], one, (1, 1, 2))
    r("0(x) and exists y 1(y,y): no column, met", ands(leaf(0, x), under([y], leaf(1, y, y))), [[1]], one, (1, 3, 3))
    r("0(x) and exists y 1(y,y): no column, not met", ands(leaf(0, x), under([y], leaf(1, y, y))), [], one, (1, 3, 4))
    more("exists y 1(y,y) and 0(x): no column, not met, first", ands(under([y], leaf(1, y, y)), leaf(0, x)), [], *ones, (1, 3, 4))
    more("0(x) and not exists y 1(y,y): no column, denied, met", ands(leaf(0, x), denied(under([y], leaf(1, y, y)))), [[1], [2]], *ones, (1, 3, 4))
    r("1(y,w) and 1(x,z): columns of two groups in turn", ands(leaf(1, y, w), leaf(1, x, z)), [[1, 1, 2, 2], [1, 3, 2, 0], [3, 1, 0, 2], [3, 3, 0, 0]], (1, 1, 2), (1, 3, 0))
    r("not 0(x) and 1(y,y): endless beside a dead one", ands(denied(leaf(0, x)), leaf(1, y, y)), [], one, (1, 3, 4))
    r("not 0(x) and 1(y,y): endless beside one that is met", ands(denied(leaf(0, x)), leaf(1, y, y)), None, one, (1, 3, 3))
    more("0(x) and not 0(y) and not 0(z): two are endless", ands(leaf(0, x), denied(leaf(0, y)), denied(leaf(0, z))), None, *ones)
    # so many ways to a row that rows are listed column by column
    linked = tuple((1, a, b) for a in range(8) for b in range(8))
    hidden = [z, w, 4]
    more("a path of 4 among 8, all linked: 512 ways to each row", under(hidden, ands(leaf(1, x, z), leaf(1, z, w), leaf(1, w, 4), leaf(1, 4, y))),
         [[a, b] for a in range(8) for b in range(8)], *linked)
    more("a path of 4 among 8, the end denied: 512 ways to no row", ands(under(hidden, ands(leaf(1, x, z), leaf(1, z, w), leaf(1, w, 4), leaf(1, 4, y))), denied(leaf(1, x, y))),
         [], *linked)
    # rows in another order than the records
    r("1(y,x): the columns swapped", leaf(1, y, x), [[5, 2], [7, 3], [9, 1]], (1, 1, 9), (1, 2, 5), (1, 3, 7))
    r("3(w,z,y,x): the columns backward", leaf(3, w, z, y, x), [[4, 8, 2, 1], [5, 1, 1, 0], [5, 1, 2, 1]], (3, 0, 1, 1, 5), (3, 1, 2, 1, 5), (3, 1, 2, 8, 4))
    r("0(x) or exists y 1(x,y): the greater first", ors(leaf(0, x), under([y], leaf(1, x, y))), [[3], [8], [9]], (0, 8), (0, 9), (1, 3, 1), (1, 9, 1))
    falling = ors(ands(same(x, 16), leaf(0, y)), ands(same(x, 17), leaf(0, y)), ands(same(x, 18), leaf(0, y)))
    r("x = 9, 3 or 5, and 0(y): not ascending", falling, [[3, 1], [3, 2], [5, 1], [5, 2], [9, 1], [9, 2]], *ones, constants=[9, 3, 5])
    # unsafe, and finite: numbers are tried for columns
    r("unsafe: not not x = 7 and not not y = x", ands(denied(denied(same(x, 16))), denied(denied(same(y, x)))), [[7, 7]], constants=[7])
    r("unsafe: (x = y and y = z) and 0(z)", ands(ands(same(x, y), same(y, z)), leaf(0, z)), [[1, 1, 1], [2, 2, 2]], *ones)
    only = denied(under([z], ands(leaf(0, z), denied(same(z, x)))))
    r("unsafe: x = y, and no other than x in 0", ands(same(x, y), only), [[3, 3]], (0, 3))
    all_of = denied(under([z], ands(leaf(0, z), denied(same(z, x)), denied(same(z, y)))))
    r("unsafe: x and y are all of 0", all_of, [[3, 8], [8, 3]], (0, 3), (0, 8))
    more("unsafe: x and y are all of 0, and it has one", all_of, None, (0, 3))
    return stored, beyond


def shape_case(name, shape, room):
    _, t, expect, records, constants = shape
    size = sum(map(len, expect or []))
    text = " endless" if expect is None else account.rows_text(expect) if size <= room(size) else " refused 18 0"
    answer_case(name, Store(WIDE, records), records, words_bytes(in_order(t), constants), room(size), False, text)


def product_of_1024():
    """1,024 rows of four columns, which are 4,096 numbers; the same and a row more; and the records of both."""
    x, y, z, w = range(4)
    product = ands(leaf(0, x), leaf(0, y), leaf(0, z), leaf(1, w, w))
    return product, ors(product, leaf(3, x, y, z, w)), [(0, v, 0, 0, 0) for v in range(8)] + [(1, 0, 0, 0, 0), (1, 9, 9, 0, 0), (3, 9, 9, 9, 9)]


def named_row_cases():
    """Each in a room of just as many numbers as its rows have; and the longest answer that is kept aside, and one of a row more."""
    for shape in row_shapes()[0]:
        shape_case(shape[0], shape, lambda size: size)
    product, more, records = product_of_1024()
    for name, t, held, room in (("1024 rows of 4 columns: all are kept aside", product, records[:-1], KEPT), ("1025 rows of 4 columns: not all are", more, records, KEPT + 4)):
        answer_case(name, Store(WIDE, held), held, words_bytes(in_order(t)), room)


def row_room_cases():
    """The stored ones in a room of one number fewer and in the longest, and the others in all three; the unsafe ones where safe-range answers are wanted; and
    lists whose rows come by two ways, and leave with the last."""
    stored, beyond = row_shapes()
    for shape in beyond:
        shape_case(shape[0], shape, lambda size: size)
    for shape in stored + beyond:
        if shape[2]:
            shape_case(f"{shape[0]}, no room", shape, lambda size: size - 1)
        shape_case(f"{shape[0]}, much room", shape, lambda size: LENT)
    for name, t, _, records, constants in stored + beyond:
        if name.startswith("unsafe: "):
            answer_case(f"{name}, safe wanted", Store(WIDE, records), records, words_bytes(in_order(t), constants), LENT, True, " refused 11 0")
    out, put = (lambda r: ("r", r, 9, 9)), (lambda r: ("p", r, 9, 9))
    first, second = (1, 1, 2, 0, 0), (1, 2, 1, 0, 0)
    sides = in_order(ors(leaf(1, 0, 1), leaf(1, 1, 0)))
    opened("a list of rows by both sides of an or", [first, second], sides, [out(first), out(second), put(second), put(first)],
           [(0, 0), (0, 2), (2, 0), (0, 0)], widths=WIDE)
    diamond = [(1, 1, 2, 0, 0), (1, 1, 3, 0, 0), (1, 2, 9, 0, 0), (1, 3, 9, 0, 0)]
    through = in_order(under([2], ands(leaf(1, 0, 2), leaf(1, 2, 1))))
    opened("a list of a row by two hidden values", diamond, through, [out(diamond[0]), out(diamond[3]), put(diamond[0]), put(diamond[3])],
           [(0, 0), (0, 1), (1, 0), (0, 0)], widths=WIDE)
    groups = in_order(ands(leaf(0, 0), under([2], leaf(1, 2, 2)), leaf(0, 1)))
    met = [(0, 1, 0, 0, 0), (0, 2, 0, 0, 0), (1, 3, 3, 0, 0)]
    opened("a list beside a group without a column", met, groups, [put((1, 4, 4, 0, 0)), out(met[2]), out((1, 4, 4, 0, 0)), put(met[2]), out(met[0])],
           [(0, 0), (0, 0), (0, 4), (4, 0), (0, 3)], widths=WIDE)


KEPT = 4096  # the most numbers of rows that are kept aside
NARROW = [1, 1, 1, 1, 1, 2, 3, 4] + [0] * 8  # five relations of one column, and one of each other width


def in_rooms(name, records, t, rows, columns, constants=()):
    """An answer of so many rows in rooms of a number fewer than they have, of as many, of far fewer and more, and of as many as are kept aside."""
    s, data = Store(NARROW, sorted(records)), words_bytes(in_order(t), constants)
    found, size = account.found(s, data, False), rows * columns
    agree(name, (rows, columns), (len(found[1]), len(found[1][0])))
    for room in sorted({100, size - 1, size, KEPT, LENT}):
        text, rest = account.answer_text(found, room)
        case("a", f"{name}, in {room}", struct.pack(">BH", False, room) + pack_store(s, s.held()) + data, text + rest)


def kept_aside_cases():
    """Answers of just below, at and just above 4,096 numbers, which are kept aside in ascending order and without repeats, and of far more."""
    x, y, z, w = range(4)
    table = lambda sizes: ands(*(leaf(i, i) for i in range(len(sizes))))
    # one column can't have so many: 256 records have 1,024 values; here they have half of those, which the account can list
    pairs = [(5, 2 * i, 2 * i + 1, 0, 0) for i in range(256)]
    values = ors(under([y], leaf(5, y, x)), under([y], leaf(5, x, y)))
    in_rooms("1 column: 512 values", pairs, values, 512, 1)
    in_rooms("1 column: 512 values and 16 numbers, the greatest first", pairs, ors(*(same(x, 31 - i) for i in range(16)), values), 528, 1, range(600, 616))
    # products of tables
    below, at = ([23, 89], [45, 45], [4, 11, 31], [3, 11, 31, 1]), ([64, 32], [7, 13, 15], [8, 8, 4, 4])
    above = ([41, 50], [6, 12, 19], [5, 5, 41, 1], [64, 64], [8, 8, 8, 4])
    for where, all_sizes in (("below", below), ("at", at), ("above", above)):
        for sizes in all_sizes:
            in_rooms(f"{where} what is kept aside: {sizes}", products(sizes), table(sizes), math.prod(sizes), len(sizes))
    # one row beside the product's: the least, the greatest, or one of its own
    for sizes in at:
        k, rows = len(sizes), math.prod(sizes)
        for which, values, more in (("the least more", [0] * k, 1), ("the greatest more", [4294967295] * k, 1), ("one again", range(10, 10 + k), 0)):
            records = products(sizes) + [(3 + k, *values, *[0] * (4 - k))]
            in_rooms(f"at what is kept aside, and {which}: {sizes}", records, ors(table(sizes), leaf(3 + k, *range(k))), rows + more, k)
    # twice as many found as there are rows
    again = ors(ands(leaf(0, x), leaf(1, y)), ands(leaf(1, y), leaf(0, x)))
    in_rooms("at what is kept aside, by both sides of an or", products([64, 32]), again, 2048, 2)
    hidden = under([z], ands(leaf(0, x), leaf(1, y), leaf(2, z)))
    in_rooms("at what is kept aside, by three hidden values", products([64, 32, 3]), hidden, 2048, 2)
    through = under([z], ands(leaf(5, x, z), leaf(5, y, z)))
    in_rooms("below what is kept aside, by four hidden values", [(5, i, j, 0, 0) for i in range(45) for j in range(4)], through, 2025, 2)
    # rows that come in another order than their own
    in_rooms("above what is kept aside, the last column's table first", products([41, 50]), ands(leaf(0, y), leaf(1, x)), 2050, 2)
    greater_first = ors(ands(leaf(1, x), leaf(1, y)), ands(leaf(0, x), leaf(0, y)))
    halves = [(0, v, 0, 0, 0) for v in range(32)] + [(1, v, 0, 0, 0) for v in range(100, 132)]
    in_rooms("at what is kept aside, the greater half first", halves, greater_first, 2048, 2)
    more = halves + [(1, 132, 0, 0, 0)]
    in_rooms("above what is kept aside, the greater half first", more, greater_first, 2113, 2)


def row_record(rng, relations, group, others):
    """A record with the variables of the group at any places, and others, these again or a number at the rest; and those others."""
    relation = rng.choice([r for r in relations if r + 1 >= len(group)])
    filled = [rng.choice(others * 3 + group + [16]) for _ in range(relation + 1 - len(group))]
    return leaf(relation, *rng.sample(group + filled, relation + 1)), [x for x in others if x in filled]


def row_group(rng, relations, group, others):
    """Goals that give the variables of a group: a record, an or of several, or a join through a hidden variable. What is bound may have a column's name."""
    def one():
        t, bound = row_record(rng, relations, group, others)
        return under(rng.sample(bound, len(bound)), t)

    sort = rng.random()
    if sort < 0.08:  # nothing bounds these: they are numbers, or anything
        return bracketed(rng, ands, [same(x, rng.choice([16, 16, group[0]])) for x in group]) if rng.random() < 0.6 else denied(one())
    if sort < 0.5:
        return one()
    if sort < 0.72:
        return bracketed(rng, ors, [one() for _ in range(rng.choice([2, 2, 3]))])
    h = rng.choice(others)
    parts = [under([x for x in bound if x != h], t) for t, bound in (row_record(rng, relations, group, others) for _ in range(2))]
    return under([h], bracketed(rng, ands, parts + [perhaps_denied(rng, leaf(relations[0], *[h] * (relations[0] + 1)), 0.3)]))


def row_side(rng, relations, columns, names):
    """Groups that give all columns between them, and beside them what gives none: an exists that is met or not, a denial, an equality of two columns."""
    left, parts, widest = rng.sample(columns, len(columns)), [], max(relations) + 1
    while left:
        size = rng.randint(1, min(len(left), widest))
        group, left = left[:size], left[size:]
        parts.append(row_group(rng, relations, group, [x for x in names if x not in group]))
    if rng.random() < 0.4:
        h, relation = rng.choice(names), rng.choice(relations)
        parts.append(perhaps_denied(rng, under([h], leaf(relation, *(rng.choice([h, h, 16]) for _ in range(relation + 1)))), 0.3))
    if rng.random() < 0.3:
        h = rng.choice(names)
        parts.append(denied(under([h], row_record(rng, relations, [rng.choice(columns)], [h])[0])))
    if rng.random() < 0.2:
        parts.append(perhaps_denied(rng, same(*rng.sample(columns, 2)), 0.6))
    return bracketed(rng, ands, parts)


def row_query(rng, relations, columns, hidden):
    """The tree of a query: a product of groups, or two of them joined by or."""
    sides = [row_side(rng, relations, columns, columns + hidden) for _ in range(rng.choice([1, 1, 1, 2]))]
    return bracketed(rng, ors, sides)


def random_row_cases(rng, number):
    """Rows that come in any order and by several ways: 2 to 4 columns, over 2 to 4 small relations."""
    for i in range(number):
        values = rng.choice([[0, 1], [7, 9], [0, 7, 4294967295], [1, 2, 3]])
        relations = sorted(rng.sample(range(4), rng.choice([2, 3, 3, 4])))
        share = rng.choice([1, 2, 4, 6])
        records = {(r, *rng.choices(values, k=r + 1), *[0] * (3 - r)) for r in relations for _ in range(share + rng.choice([0, 1, 2]))}
        s, k = Store(WIDE, sorted(records)), rng.choice([2, 2, 3, 3, 4])
        names = rng.sample(range(16), k + rng.choice([1, 1, 2]))
        make = lambda: next(t for t in iter(lambda: row_query(rng, relations, names[:k], names[k:]), None) if tree_size(t) <= 64)
        packed = lambda: words_bytes(random_order(rng, make()), [rng.choice(values + [5])])
        data = packed()
        if rng.random() < 0.8:
            data = next(filter(lambda query: len(account.found(s, query, False)[1] or []) > 1, (packed() for _ in range(4))), data)
        answer_case(f"r{i}", s, s.held(), data, room_for(rng), rng.random() < 0.1)


# ---- runs of a standing list

def named_run_cases():
    seven, eight, nine = (1, 7, 0, 0, 0), (1, 8, 0, 0, 0), (1, 9, 0, 0, 0)
    put, out = (lambda r, a=9, b=9: ("p", r, a, b)), (lambda r, a=9, b=9: ("r", r, a, b))
    # rows joined and left, and every cause of a change
    opened("a list of the worked query", THREE, NODES, [put(nine), out(nine), put((0, 8, 1, 0, 0)), out((0, 8, 1, 0, 0)), out(seven)],
           [(0, 1), (1, 0), (1, 0), (0, 1), (1, 0)])
    declined = [put((2, 0, 0, 0, 0)), out((16, 0, 0, 0, 0)), put(seven), out(eight), put((0, 8, 1, 0, 0), 1), put((0, 8, 1, 0, 0), 2, 0), put(nine, 0, 1), put(nine, 0, 2)]
    opened("13, 14, 16, 18, 19", THREE, NODES, declined, [13, 13, 14, 16, 18, (1, 0), 19, (0, 1)])
    # endless and back
    unbound = [R1, equality(1, 1), both(0, 1)]
    opened("endless and back", [], unbound, [put(seven, 0, 0), put(eight, 0, 0), out(seven, 0, 0), out(eight, 0, 0)], [(0, 0)] * 4)
    turning = [R1, some(0, 0), record(0, 0, 1), no(1), both(2, 3), R1, either(4, 5)]  # 0(x,y) and no 1, or 1(x): with a 1 it is endless
    opened("rows leave to endless, and come back", THREE[:2], turning, [put(seven, 0, 3), put(seven, 0, 4), out(seven, 3, 0), out(seven, 4, 0)],
           [19, (0, 2), 18, (2, 0)])
    opened("no columns", [], [R1, some(0, 0)], [put(seven, 0, 0), put(eight, 0, 0), out(seven, 0, 0), out(eight, 0, 0)], [(1, 0), (0, 0), (0, 0), (0, 1)])
    opened("opening: 4", THREE, [], [put(nine)], [])
    # a list that is handed in
    one = ledger.list_of([0, 1], [(9, 3)], False, 1, 0, 0)
    near = dict(one, counts=(0, 2 ** 64 - 1, 2 ** 64 - 2))
    handed_in("17: a count past 64 bits", THREE, WORKED, near, [put((0, 8, 1, 0, 0), 0, 0), put(nine), out(nine), put(nine)], [17, (0, 1), 17, 14])
    far = dict(one, counts=(2 ** 64 - 1, 0, 2 ** 64 - 2))
    handed_in("the greatest count at opening", THREE, WORKED, far, [put((0, 8, 1, 0, 0)), put(nine), out((0, 8, 1, 0, 0))], [(1, 0), (0, 1), 17])
    wrong = ledger.list_of([0, 1], [(0, 0), (5, 5), (9, 3)], False, 3, 0, 0)
    handed_in("rows that are not the query's", THREE, WORKED, wrong, [out(eight), put((0, 8, 1, 0, 0), 2, 4), out((0, 8, 1, 0, 0))], [16, (1, 2), (0, 1)])
    handed_in("18 before 19", THREE, WORKED, wrong, [put((0, 8, 1, 0, 0), 1, 3)], [18])
    handed_in("19: a row joined stays unwritten", THREE, WORKED, wrong, [put((0, 8, 1, 0, 0), 2, 3)], [19])
    endless = dict(one, endless=True, rows=0, places=[(0, 0, 0, 0)] * 512, counts=(0, 5, 5))
    handed_in("an endless list of a finite query", THREE, WORKED, endless, [put((0, 8, 1, 0, 0))], [(2, 0)])
    for name, held in {
        "other columns": ledger.list_of([0, 2], [(9, 3)], False, 1, 0, 0),
        "a column less": ledger.list_of([0], [(9,)], False, 1, 0, 0),
        "5 columns": dict(one, columns=(5, (0, 1, 2, 3))),
        "a value past the columns": dict(one, places=[(9, 3, 0, 1)] + one["places"][1:]),
        "a place past the rows": dict(one, places=one["places"][:1] + [(0, 0, 0, 4)] + one["places"][2:]),
        "its first value": dict(one, places=one["places"][:2] + [(4, 0, 0, 0)] + one["places"][3:]),
        "a variable past the columns": dict(one, columns=(2, (0, 1, 0, 7))),
        "rows not ascending": ledger.list_of([0, 1], [(9, 3), (9, 2)], False, 2, 0, 0),
        "a row twice": ledger.list_of([0, 1], [(9, 3), (9, 3)], False, 2, 0, 0),
        "counts that don't add up": dict(one, counts=(1, 1, 0)),
        "counts that add up modulo 2^64": dict(one, counts=(2 ** 64 - 1, 2, 0)),
        "endless with rows": dict(one, endless=True),
        "513 rows": dict(one, rows=513, counts=(513, 0, 0)),
    }.items():
        handed_in(f"12: {name}", THREE, WORKED, held, [put((2, 0, 0, 0, 0)), out(seven)], [12, 12], 3)
    one_column, second_set = words_bytes([R0, some(1, 0)]), ledger.list_of([0], [(7,), (9,)], False, 2, 0, 0)
    second_set["places"][0] = (7, 1, 0, 0)
    handed_in("12: a second value of one column", THREE, one_column, second_set, [put(nine)], [12])
    handed_in("12: no columns, and not column 0", THREE, one_column, ledger.NO_LIST, [put(nine)], [12])
    handed_in("1 before 12", THREE, b"", dict(one, rows=600), [put(seven)], [1], 1, [9] * 16)
    handed_in("7 before 12", THREE, nodes_with(n3=both(2, 2)), dict(one, rows=600), [put(seven)], [7], 1)


def large_run_cases():
    """512 rows and 513: of a product of 16 and 32 values, with single rows beside."""
    widths = [1, 1, 2] + [0] * 13
    sides = [(0, v, 0, 0, 0) for v in range(16)] + [(1, v, 0, 0, 0) for v in range(31)]
    product = words_bytes([record(0, 0), record(1, 1), both(0, 1), record(2, 0, 1), either(2, 3)])
    calls = [("p", (1, 31, 0, 0, 0), 31, 0), ("p", (1, 31, 0, 0, 0), 32, 0), ("p", (2, 50, 50, 0, 0), 0, 0), ("p", (2, 3, 3, 0, 0), 0, 0)]
    calls += [("r", (1, 0, 0, 0, 0), 0, 31), ("r", (1, 0, 0, 0, 0), 0, 32), ("p", (2, 50, 50, 0, 0), 2, 0), ("p", (1, 0, 0, 0, 0), 0, 0)]
    run_case("512 rows, and no more", Store(widths, sides), sides, product, calls, expect=[18, (16, 0), 17, (0, 0), 19, (0, 16), (1, 0), 17])
    full = sides + [(1, 31, 0, 0, 0)]
    run_case("opened with 512 rows", Store(widths, full), full, product, [("p", (2, 50, 50, 0, 0), 0, 0)], expect=[17])
    over = sorted(full + [(2, 50, 50, 0, 0)])
    run_case("opening: 17 at 513 rows", Store(widths, over), over, product, [("r", (2, 50, 50, 0, 0), 0, 0)], expect=[])
    last = ledger.list_of([0, 1], [(9, 3)], False, 1, 0, 0)
    last["places"][511] = (1, 0, 0, 0)
    handed_in("12: the last place", THREE, WORKED, last, [("r", (1, 7, 0, 0, 0), 9, 9)], [12], 512)
    cube = [(0, v, 0, 0, 0) for v in range(5)]
    four = words_bytes(joined([record(0, x) for x in range(4)]))
    grows = [("r", cube[4], 9, 2048), ("p", cube[4], 4095, 0), ("r", cube[3], 0, 699), ("r", cube[3], 0, 2048), ("p", cube[3], 699, 9), ("p", cube[3], 2048, 9)]
    run_case("opening: 17 at 625 rows of 4 columns", Store([1] + [0] * 15, cube), cube, four, grows, expect=[])
    run_case("256 rows of 4 columns, and back", Store([1] + [0] * 15, cube[:4]), cube[:4], four, grows[1:], expect=[17, 19, (0, 175), 18, (175, 0)])
    singles = [(0, v, 0, 0, 0) for v in range(256)]
    every = words_bytes([record(0, 0)])
    calls = [("p", (0, 256, 0, 0, 0), 9, 9), ("r", singles[200], 9, 1), ("p", (0, 256, 0, 0, 0), 1, 0), ("p", singles[200], 9, 9)]
    run_case("256 records, all rows", Store([1] + [0] * 15, singles), singles, every, calls, expect=[15, (0, 1), (1, 0), 15])


def random_list(rng, columns, values):
    """A list in the layout, of whatever rows; now and then one that is not."""
    rows = sorted({tuple(rng.choice(values) for _ in columns) for _ in range(rng.choice([0, 1, 3, 10]))})
    left = rng.choice([0, 5, 2 ** 64 - 1 - rng.randrange(8), rng.randrange(2 ** 64)])
    opening = rng.choice([0, left, rng.randrange(left + len(rows) + 1)])
    counts = opening, left + len(rows) - opening, left
    if max(counts) >= 2 ** 64:
        counts = len(rows), 0, 0
    held = ledger.list_of(columns, rows, not rows and rng.random() < 0.3, *counts)
    if rng.random() < 0.05:
        held["counts"] = counts[0], counts[1] ^ 1, counts[2]
    if rng.random() < 0.05:
        held["places"][rng.randrange(512)] = (0, 0, 0, 1)
    return held


def turning_query(rng, values):
    """Rows over the values of relation 0; and endless while some record 1(v,v), or 2(v,c,v), is held."""
    t = random_tree(rng, rng.choice([1, 3, 6]), [0, 1])
    for x in (0, 1):
        t = (4 << 29, (record(0, x),), t)
    some_loop = (6 << 29 | 2 << 25, (rng.choice([record(1, 2, 2), record(2, 2, 16, 2)]),))
    return words_bytes(random_order(rng, (5 << 29, t, (4 << 29, some_loop, (3 << 29, (record(0, rng.choice([0, 1])),))))), [rng.choice(values), 9])


def random_run(rng, i, long):
    values = rng.choice([[0, 1], [7, 9], [0, 7, 4294967295], [1, 7, 8, 9]])
    widths = [1, 2, 3, 4] + [0] * 12
    record_of = lambda r: (r, *(rng.choice(values) if k <= r else 0 for k in range(4)))
    records = sorted({record_of(rng.randrange(4)) for _ in range(rng.choice([0, 2, 5, 10]))})
    relations_of = lambda reading: [w >> 25 & 15 for w in reading[3] if w >> 29 == 1] if reading[0] == "accepted" else []

    def moves(query):
        """How many of six changes of one record change the rows."""
        reading = account.read(list(query), widths)
        changed = [sorted({*records} ^ {record_of(r)}) for r in rng.choices(relations_of(reading), k=6)] if relations_of(reading) else []
        return sum(ledger.found(reading[1:], now) != ledger.found(reading[1:], records) for now in changed)

    sort = rng.random()
    data = turning_query(rng, values) if sort < 0.25 else random_query(rng, values) if sort < 0.4 else max((random_query(rng, values) for _ in range(8)), key=moves)
    reading = account.read(list(data), widths)
    named = relations_of(reading)
    calls, held = [], set(records)  # about those held: a call may be refused
    for _ in range(long):
        r = record_of(rng.choice(named)) if named and rng.random() < 0.8 else record_of(rng.randrange(4))
        if rng.random() < 0.03:
            r = rng.choice([(7, 0, 0, 0, 0), (200, 0, 0, 0, 0), (0, 1, 1, 0, 0)])
        kind = rng.choice("pr") if rng.random() < 0.1 else "r" if r in held else "p"
        room = lambda: rng.choice([0, 1, 2, 3, 4, 8, 20, 100, 400])
        calls.append((kind, r, room(), room()))
        held ^= {r}
    handed = random_list(rng, reading[1], values) if reading[0] == "accepted" and rng.random() < 0.3 else None
    # where the list is handed in, every place is: one past the rows may be set
    run_case(f"o{i}", Store(widths, records), records, data, calls, handed, 512)


def random_run_cases(rng, number):
    for i in range(number):
        random_run(rng, i, rng.choice([20, 100, 400]))


# ---- stores

def store_cases():
    s = Store(WIDTHS_S, THREE)
    few = lambda: Store(WIDTHS_S, s.held())
    three = s.held()
    store_case("s", "store S", s, three, expect=0)
    store_case("s", "no records", Store(WIDTHS_S, []), [], expect=0)
    store_case("s", "1: a width of 5", Store([2, 5] + [0] * 14, three), three, expect=1)
    store_case("s", "1 before 2", Store([2, 1, 9] + [0] * 13, three, 300), three, expect=1)
    store_case("s", "2: count 257", Store(WIDTHS_S, three, 257), three, expect=2)
    store_case("s", "2: count 65535", Store(WIDTHS_S, three, 65535), three, expect=2)
    bad = [(0, 7, 3, 0, 0), (2, 9, 0, 0, 0)]
    store_case("s", "2: a relation absent", Store(WIDTHS_S, bad), bad, expect=2)
    bad = [(0, 7, 3, 0, 0), (16, 9, 0, 0, 0)]
    store_case("s", "2: relation 16", Store(WIDTHS_S, bad), bad, expect=2)
    bad = [(0, 7, 3, 0, 0), (1, 7, 1, 0, 0)]
    store_case("s", "2: a value past the width", Store(WIDTHS_S, bad), bad, expect=2)
    bad = [(0, 7, 3, 0, 1)]
    store_case("s", "2: the fourth value past the width", Store(WIDTHS_S, bad), bad, expect=2)
    bad = [three[1], three[0], three[2]]
    store_case("s", "2: not ascending", Store(WIDTHS_S, bad), bad, expect=2)
    bad = [three[0], three[0]]
    store_case("s", "2: a record twice", Store(WIDTHS_S, bad), bad, expect=2)
    store_case("s", "2: a place past the count", Store(WIDTHS_S, three, 2), three, expect=2)
    store_case("s", "2: a blank record counted", Store(WIDTHS_S, three, 4), three, expect=2)
    tail = three + [ZERO] * 252 + [(0, 0, 0, 0, 1)]
    store_case("s", "2: the last place", Store(WIDTHS_S, tail, 3), tail, expect=2)

    store_case("p", "put first", few(), three, (0, 7, 2, 0, 0), expect=0)
    store_case("p", "put between", few(), three, (0, 8, 4294967295, 0, 0), expect=0)
    store_case("p", "put last", few(), three, (1, 8, 0, 0, 0), expect=0)
    store_case("p", "put into none", Store(WIDTHS_S, []), [], (1, 0, 0, 0, 0), expect=0)
    store_case("p", "put: 1", Store([5] * 16, three), three, (1, 8, 0, 0, 0), expect=1)
    store_case("p", "put: 2", Store(WIDTHS_S, three, 2), three, (1, 8, 0, 0, 0), expect=2)
    store_case("p", "put: 13, relation absent", few(), three, (2, 8, 0, 0, 0), expect=13)
    store_case("p", "put: 13, relation 16", few(), three, (16, 0, 0, 0, 0), expect=13)
    store_case("p", "put: 13, relation 255", few(), three, (255, 0, 0, 0, 0), expect=13)
    store_case("p", "put: 13, a value past the width", few(), three, (1, 8, 0, 0, 1), expect=13)
    store_case("p", "put: 13, the second value", few(), three, (1, 8, 1, 0, 0), expect=13)
    store_case("p", "put: 14", few(), three, (0, 9, 3, 0, 0), expect=14)
    for i, r in enumerate(three):
        store_case("r", f"removal {i}", few(), three, r, expect=0)
    store_case("r", "removal: 1", Store([5] * 16, three), three, three[0], expect=1)
    store_case("r", "removal: 2", Store(WIDTHS_S, three, 2), three, three[0], expect=2)
    store_case("r", "removal: 13", few(), three, (3, 0, 0, 0, 0), expect=13)
    store_case("r", "removal: 16", few(), three, (0, 7, 4, 0, 0), expect=16)
    store_case("r", "removal: 16 of none", Store(WIDTHS_S, []), [], (1, 7, 0, 0, 0), expect=16)

    full = Store(WIDTHS_S, [(0, i, i % 5, 0, 0) for i in range(256)])
    store_case("p", "put: 15 at 256 records", full, full.places, (1, 1, 0, 0, 0), expect=15)
    answer_case("answer over 256 records", full, full.places, words_bytes([equality(0, 16), R0, both(0, 1)], [200]), 2, True, " rows 1 200 0")
    most = Store(WIDTHS_S, [(0, i, 1, 0, 0) for i in range(1, 256)])
    store_case("p", "put of the 256th, first", most, most.held(), (0, 0, 1, 0, 0), expect=0)


def fill_cases():
    a, b, c = (0, 7, 3, 0, 0), (0, 9, 3, 0, 0), (1, 7, 0, 0, 0)
    fill_case("fill in order", WIDTHS_S, [a, b, c], 0)
    fill_case("fill in another order", WIDTHS_S, [c, a, b], 0)
    fill_case("fill with repeats", WIDTHS_S, [b, a, b, a, a], 0)
    fill_case("fill from none", WIDTHS_S, [], 0)
    fill_case("fill: 1, before 13", [9] * 16, [(16, 0, 0, 0, 0)], 1)
    fill_case("fill: 13", WIDTHS_S, [a, (5, 0, 0, 0, 0), b], 13)
    fill_case("fill: 13 last", WIDTHS_S, [a, b, (1, 7, 7, 0, 0)], 13)
    eight = [c, b, a, b, (0, 8, 0, 0, 0), c, (1, 4294967295, 0, 0, 0), (0, 7, 2, 0, 0)]
    fill_case("lent list", WIDTHS_S, eight, 0, "l")
    fill_case("lent list of one record eight times", WIDTHS_S, [b] * 8, 0, "l")
    fill_case("lent list: 1", [9] * 16, eight, 1, "l")
    fill_case("lent list: 13", WIDTHS_S, eight[:7] + [(16, 0, 0, 0, 0)], 13, "l")
    many = [(0, i, 0, 0, 0) for i in range(257)]
    fill_case("fill of 256 backward, and a repeat", WIDTHS_S, many[255::-1] + many[:1], 0)
    fill_case("fill: 15 at 257, before 13", WIDTHS_S, many + [(9, 0, 0, 0, 0)], 15)


def large_store_cases():
    """What is left of 256 and 257 records."""
    full = Store(WIDTHS_S, [(0, i, i % 5, 0, 0) for i in range(256)])
    store_case("s", "256 records", full, full.places, expect=0)
    store_case("p", "put: 14 at 256 records", full, full.places, (0, 255, 0, 0, 0), expect=14)
    store_case("r", "removal at 256 records", full, full.places, (0, 100, 0, 0, 0), expect=0)
    many = [(0, i, 0, 0, 0) for i in range(257)]
    fill_case("fill: 13 at 257, before 15", WIDTHS_S, many[:256] + [(9, 0, 0, 0, 0)] + many[256:], 13)


def random_store_cases(rng, number):
    for i in range(number):
        widths = [rng.randint(0, 4) for _ in range(16)]
        if rng.random() < 0.1:
            widths[rng.randrange(16)] = rng.choice([5, 255])

        def record():
            relation = rng.randrange(18)
            width = widths[relation] if relation < 16 else 0
            return (relation, *(rng.choice([0, 1, 2, 4294967295]) if k < width or rng.random() < 0.03 else 0 for k in range(4)))

        records = [record() for _ in range(rng.randrange(12))]
        if rng.random() < 0.85:
            records = sorted({r for r in records if fits(widths, r)})
        count = len(records) if rng.random() < 0.9 else rng.randrange(300)
        changed = rng.choice(records) if records and rng.random() < 0.5 else record()
        store_case(rng.choice("sppprrr"), f"random store {i}", Store(widths, records, count), records, changed)
        again = [rng.choice(records) for _ in range(20)] if records else []
        fill_case(f"random filling {i}", widths, [record() for _ in range(rng.choice([1, 3, 10]))] if rng.random() < 0.5 else again)


# ---- every small formula

def small_trees(size, leaves):
    """Every formula of so many nodes over the leaves, not, and, or, and exists of x and of y."""
    trees = {1: [(w,) for w in leaves]}
    for n in range(2, size + 1):
        trees[n] = [(w, t) for w in (3 << 29, 6 << 29, 6 << 29 | 1 << 25) for t in trees[n - 1]]
        trees[n] += [(w, left, right) for w in (4 << 29, 5 << 29) for k in range(1, n - 1) for left in trees[k] for right in trees[n - 1 - k]]
    return trees[size]


def small_verdict_cases(size):
    first = random.Random(0)
    leaves = [TRUE, FALSE, R1, record(1, 1), equality(0, 1), equality(0, 16), equality(0, 0)]
    for i, t in enumerate(small_trees(size, leaves)):
        verdict_case(f"n{size}.{i}", words_bytes(random_order(first, t), [7]))


SMALL_STORES = [
    [],
    [(1, 7, 0, 0, 0)],
    [(1, 0, 0, 0, 0), (1, 7, 0, 0, 0), (1, 4294967295, 0, 0, 0)],
    THREE,
    [(0, 7, 7, 0, 0), (1, 0, 0, 0, 0)],
    [(0, 0, 1, 0, 0), (0, 1, 0, 0, 0), (1, 1, 0, 0, 0), (1, 7, 0, 0, 0)],
]


def small_answer_cases(size):
    first = random.Random(1)
    leaves = [FALSE, R1, record(1, 1), R0, equality(0, 1), equality(0, 16)]
    for i, t in enumerate(small_trees(size, leaves)):
        data = words_bytes(random_order(first, t), [7])
        _, *query = account.read(list(data), WIDTHS_S)
        for k, records in enumerate(SMALL_STORES):
            answer_case(f"s{size}.{i}.{k}", Store(WIDTHS_S, records), records, data, room_for(first))
            if size <= 4:
                agree(f"s{size}.{i}.{k}, with more fresh values", answers.answer(*query, records), answers.answer(*query, records, more=2))


# ---- each node by itself

def ungenerating(n):
    """n nodes, from 2 on, in which x is free and not generated: 1(x), or exists y 0(x,y), under an odd number of nots."""
    return chain(n) if n % 2 == 0 else [R0, some(1, 0)] + [no(i) for i in range(1, n - 1)]


def node_cases():
    """For each node that can be one, a verdict in which it is the only generator, of x (0 to 62), and one in which it is the only exists reported (1 to 63)."""
    generated = {0: [R1], 1: [record(1, 1), R1, both(0, 1), some(1, 2)]}
    generated |= {n: ungenerating(n) + [R1, both(n - 1, n)] for n in range(2, 63)}
    for n, nodes in generated.items():
        verdict_case(f"node {n} generates", words_bytes(nodes), expect=reports([[n]], [], [], True))
    reported = {1: ([equality(0, 1), some(1, 0)], [[]], [0])}
    reported |= {n: (ungenerating(n) + [some(0, n - 1)], [], []) for n in range(2, 64)}
    for n, (nodes, generators, ungenerated) in reported.items():
        verdict_case(f"node {n} reported", words_bytes(nodes), expect=reports(generators, ungenerated, [n], False))


# ---- document 02's equality on either side

def nested(leaves):
    """The leaves joined by and, to the right."""
    nodes, top = list(leaves), len(leaves) - 1
    for i in range(len(leaves) - 2, -1, -1):
        nodes.append(both(i, top))
        top = len(nodes) - 1
    return nodes


def alternating(n):
    """1(x) and n equalities of x and y joined by and, each at the other side than the one before, in packing's order."""
    on_left = [equality(i % 2, 1 - i % 2) for i in range(n) if i % 2]
    nodes, top = on_left + [R1], len(on_left)
    for i in range(n):
        if i % 2:
            nodes.append(both(len(on_left) - 1 - i // 2, top))
        else:
            nodes += [equality(0, 1), both(top, len(nodes))]
        top = len(nodes) - 1
    return nodes


def equality_cases():
    """Verdicts that Point 3 changes, and those that it leaves: each with the generators, and the variables that aren't generated."""
    def e(name, nodes, generators, ungenerated=(), form=None, constants=(), widths=WIDTHS_S):
        end = reports(generators, ungenerated, [], not ungenerated)
        if form is not None:
            end = " nodes" + "".join(f" {w:08x}" for w in form) + end
        verdict_case(name, words_bytes(nodes, constants), widths, end)

    xy, yz, Y, Z = equality(0, 1), equality(1, 2), record(1, 1), record(1, 2)
    e("y = x and 1(x)", [equality(1, 0), R1, both(0, 1)], [[1], [1]])
    e("x = y and 1(y)", [xy, Y, both(0, 1)], [[1], [1]])
    e("x = y and (1(x) or 1(x)): both", [xy, R1, R1, either(1, 2), both(0, 3)], [[1, 2], [1, 2]])
    e("(true and x = y) and 1(x)", [TRUE, xy, both(0, 1), R1, both(2, 3)], [[1], [1]], form=[xy, R1, both(0, 1)])
    # the order
    e("x = y and (1(x) and 2(y)): the right child first", [xy, R1, record(2, 1), both(1, 2), both(0, 3)], [[1], [2]], widths=[2, 1, 1] + [0] * 13)
    e("(x = y and 1(x)) and 1(y): y from node 1", [xy, R1, both(0, 1), Y, both(2, 3)], [[1], [1]])
    e("x = y and (1(x) and 1(y)): each from its own record", [xy, R1, Y, both(1, 2), both(0, 3)], [[1], [2]])
    e("x = y and (1(x) and x = y): both from node 1", [xy, R1, xy, both(1, 2), both(0, 3)], [[1], [1]])
    # denied, and under two nots
    e("not (not x = y or not 1(x))", [xy, no(0), R1, no(2), either(1, 3), no(4)], [[2], []], [1])
    e("not (x = y or not 1(x))", [xy, R1, no(1), either(0, 2), no(3)], [[1], []], [1])
    e("not not x = y and 1(x)", [xy, no(0), no(1), R1, both(2, 3)], [[3], []], [1])
    e("not (not (x = y and 1(x)))", [xy, R1, both(0, 1), no(2), no(3)], [[1], [1]])
    # what is no equality of two variables
    e("x = x and 1(y)", [equality(0, 0), Y, both(0, 1)], [[], [0]], [0], form=[Y])
    e("(x = 9 and 1(x)) and not 0(x,y)", [equality(0, 17), R1, both(0, 1), R0, no(3), both(2, 4)], [[0], []], [1], constants=[7, 9])
    e("x = 9 and 1(y)", [equality(0, 17), Y, both(0, 1)], [[0], [1]], constants=[7, 9])
    # bound variables
    e("x = y and exists x 1(x)", [xy, R1, some(0, 1), both(0, 2)], [[], []], [0, 1])
    e("x = y and exists y 0(x,y)", [xy, R0, some(1, 1), both(0, 2)], [[1], [1]])
    e("exists y (x = y and 1(y))", [xy, Y, both(0, 1), some(1, 2)], [[1]])
    e("exists x (x = y and 1(x))", [xy, R1, both(0, 1), some(0, 2)], [[1]])
    # chains
    e("x = y and y = z", [xy, yz, both(0, 1)], [[], [], []], [0, 1, 2])
    e("(x = y and y = z) and 1(z)", [xy, yz, both(0, 1), Z, both(2, 3)], [[], [], [3]], [0, 1])
    e("x = y and (y = z and 1(z))", [xy, yz, Z, both(1, 2), both(0, 3)], [[2], [2], [2]])
    e("1(x) and (x = y and 1(z))", [R1, xy, Z, both(1, 2), both(0, 3)], [[0], [], [2]], [1])
    e("y = z and (x = y and 1(z))", [yz, xy, Z, both(1, 2), both(0, 3)], [[], [2], [2]], [0])
    e("31 equalities to the right", nested([xy] * 31 + [R1]), [[31], [31]])
    e("31 equalities to the left", joined([R1] + [xy] * 31), [[0], [0]])
    e("31 equalities, on either side in turn", alternating(31), [[15], [15]])
    e("31 equalities to the right, of neither the record's variable", nested([xy] * 31 + [Z]), [[], [], [31]], [0, 1])
    e("31 equalities to the right, and no record", nested([xy] * 31 + [yz]), [[], [], []], [0, 1, 2])


# ---- those that are stored

ROOM = 65000  # bytes of cases that the program is given at once; of the stored ones some more


def stored_cases():
    named_query_cases()
    named_verdict_cases()
    named_answer_cases()
    named_goal_cases()
    named_row_cases()
    named_run_cases()
    store_cases()
    fill_cases()
    random_verdict_cases(random.Random(20261115), 10)
