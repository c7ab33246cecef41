#!/usr/bin/env python3
"""Rule text through the C entry and the rule program, against the second reader in rule_reader.py.

rules.py                  fixed, random and damaged texts through the engine of target/staticlib/libhost.a, the fixed ones also through target/bin/rule
rules.py --library PATH   another static library
rules.py --program PATH   a program other than target/bin/rule
rules.py --random N       N random rules (300), every eighth of them with each byte damaged; and N small ones over small stores, for their rows
rules.py --seed N         others than those of seed 1

Exit status 1 where anything differs; the text is printed. Of the fixed texts the places, and some packed queries, are written out here. Random rules are also
packed as query texts by menu.py, which is a packer of its own, and their rows are worked out from the rule alone.
"""
import ctypes
import faulthandler
import functools
import mmap
import pathlib
import random
import re
import struct
import subprocess
import sys

HERE = pathlib.Path(__file__).resolve().parent.parent
sys.path.insert(0, str(HERE / "examples"))

import menu
import menu_engine
import options
import rule_reader
import streams

QUERY, REFUSAL = 322, 0x80000000 + 256 * 20
GUARD = 16  # bytes on each side of what is lent
SPACE = 1 << 20  # bytes: more than the longest text
SHOWN = 20  # failures are shown so often, and then counted
FAILED = []
TALLY = dict.fromkeys(["texts", "packed", "outside the grammar", "past a limit"], 0)


def fail(name, text):
    FAILED.append(name)
    if len(FAILED) <= SHOWN:
        print(f"rules: {name}: {text}", flush=True)


def shown(text):
    """A text in a line: whole, or its ends."""
    return repr(text) if len(text) <= 400 else f"{text[:200]!r} .. {text[-100:]!r}, of {len(text)} bytes"


def pair_text(pair):
    query, place = pair
    return f"refused 20 {place}" if query is None else f"packed as {query.hex()}"


# ---- the engine: a function from a text to its packed query and None, or to None and a place

class Entry:
    """palmrummy_rule, with what its header says of lent memory checked at each call: the text ends where readable memory ends; a query is followed by zeros
    and leaves the place alone, a refusal leaves the query alone; nothing else is written."""

    def __init__(self, archive):
        library = ctypes.CDLL(str(menu_engine.shared_object(archive)))
        self.call = library.palmrummy_rule
        self.call.argtypes, self.call.restype = [ctypes.c_void_p, ctypes.c_size_t, ctypes.c_void_p, ctypes.c_void_p], ctypes.c_uint32
        self.memory = mmap.mmap(-1, SPACE + mmap.PAGESIZE)
        self.ceiling = ctypes.addressof(ctypes.c_char.from_buffer(self.memory)) + SPACE
        if ctypes.CDLL(None).mprotect(ctypes.c_void_p(self.ceiling), ctypes.c_size_t(mmap.PAGESIZE), 0):
            raise OSError("memory can't be made unreadable")
        self.query, self.place = ctypes.create_string_buffer(GUARD + QUERY + GUARD), ctypes.create_string_buffer(8 + 8 + 8)
        self.calls = 0

    def __call__(self, text):
        self.calls += 1
        fill = bytes([0x5A if self.calls % 2 else 0xA5])
        self.query.raw, self.place.raw = fill * (GUARD + QUERY + GUARD), fill * 24
        ctypes.memmove(self.ceiling - len(text), text, len(text))
        reply = self.call(self.ceiling - len(text), len(text), ctypes.addressof(self.query) + GUARD, ctypes.addressof(self.place) + 8)
        query, place = self.query.raw, self.place.raw
        if ctypes.string_at(self.ceiling - len(text), len(text)) != text:
            return f"reply {reply}, and the text is altered"
        if query[:GUARD] + query[-GUARD:] + place[:8] + place[-8:] != fill * (2 * GUARD + 16):
            return f"reply {reply}, and bytes beside those lent are altered"
        if reply == REFUSAL:
            return (None, struct.unpack("=Q", place[8:16])[0]) if query == fill * len(query) else "a refusal that alters the query"
        if not 6 <= reply <= QUERY:
            return f"reply {reply}"
        if query[GUARD + reply:-GUARD] != bytes(QUERY - reply):
            return f"reply {reply}, and not zeros past the query: {query[GUARD:-GUARD].hex()}"
        return (query[GUARD:GUARD + reply], None) if place == fill * 24 else f"reply {reply}, and the place is altered"


def program_engine(program, text):
    """The rule program as such a function: its exit status is 0 in both cases, as that of the list program."""
    try:
        done = subprocess.run([program], input=text, capture_output=True, timeout=60)
    except subprocess.TimeoutExpired:
        return "no answer in 60 seconds"
    if done.returncode or done.stderr:
        return f"exit status {done.returncode}, standard error {done.stderr[:200]!r}"
    refusal = re.fullmatch(rb"refused 20 (0|[1-9][0-9]*)\n", done.stdout)
    return (None, int(refusal[1])) if refusal else (done.stdout, None)


def check(engine, name, text, wanted=None):
    """A text through the reader and the engine; wanted: a place, or the bytes of a query."""
    expected = rule_reader.read_rule(text)
    if wanted is not None and wanted not in expected:
        fail(name, f"rule_reader.py says {pair_text(expected)}, and not {wanted.hex() if isinstance(wanted, bytes) else wanted}\n  {shown(text)}")
    TALLY["texts"] += 1
    kind = "packed" if expected[1] is None else "outside the grammar" if rule_reader.fault(text) is not None else "past a limit"
    TALLY[kind] += 1
    came = engine(text)
    if came != expected:
        told = came if isinstance(came, str) else pair_text(came)
        fail(name, f"{told}\n  expected: {pair_text(expected)}\n  the text: {shown(text)}")


# ---- fixed texts

PACKED = [
    # text, its packed query
    ("q(X0,X1):-r0(X0,X1),not r1(X0).", "1080 20801000 22400000 60800000 80040000"),  # document 01's
    ("q(X0,X2):-r3(X0,17),not r1(X2).", "1081 00000011 26810000 22440000 60800000 80040000"),
    ("q:-r0(X5,X1).", "1060 208a1000 ca000000 c2080000"),  # exists 1 around exists 5
    ("q(X0):-X0 = 17.", "1021 00000011 41000000"),
    ("q(X0):-X0 = X0.", "1020 40000000"),
    ("q(X1):-X0 = X1.", "1040 40100000 c0000000"),
    ("q:-r0(7,9,7),r1(9).", "1062 00000007 00000009 20e11800 22620000 80020000"),  # each constant once
    ("q:-r0(0).", "1021 00000000 20600000"),
    ("q(X15):-not r15(X15).", "1040 3e5e0000 60000000"),
    ("q:-r1(1),r2(2),r3(3).", "10a3 00000001 00000002 00000003 22600000 24620000 80020000 26640000 81060000"),  # from the left
    ("q:-X0 = 4294967295.", "1041 ffffffff 41000000 c0000000"),
]

OUTSIDE = [
    # text, the first offset at which no rule can continue, or its length; the signs are latin-1
    ("", 0), ("q", 1), ("p", 0), ("Q", 0), (" q", 0), ("\n", 0), ("%", 0), ("?-r1(1).", 0), ("r1(1).", 0), ("q ", 1), ("q.", 1), ("q:-r1(1)", 8), ("q(", 2),
    ("q()", 2), ("q(0", 2), ("q( X0", 2), ("q(x0", 2), ("q(X", 3), ("q(X)", 3), ("q(X0", 4), ("q(X0 ", 4), ("q(X0,", 5), ("q(X0,)", 5), ("q(X0, X1)", 5),
    ("q(X0,17):-", 5), ("q(X0))", 5), ("q(X0) :-", 5), ("q(X0).", 5), ("q(X0:-", 4), ("q(_):-", 2), ("q(X_):-", 3), ("q((X0):-", 2), ("q(-1", 2), ("q:", 2),
    ("q:-", 3), ("q :-", 1), ("q::-", 2), ("q:=", 2), ("q:--", 3), ("q-:", 1), ("q:- r1(1).", 3), ("q:-.", 3), ("q:-,", 3), ("q:-\nr1(1).", 3), ("q:-q.", 3),
    # numbers
    ("q(X01):-r1(X1).", 4), ("q(X00):-r1(X0).", 4), ("q:-r03(1).", 5), ("q:-r00(1).", 5), ("q:-r3(007).", 7), ("q:-r3(00).", 7), ("q:-r3(X007).", 8),
    ("q:-X0 = 00.", 9), ("q:-X0 = 01.", 9), ("q:-X00 = 1.", 5), ("q:-r1(-1).", 6), ("q:-r1(+1).", 6), ("q:-r1(1.5).", 7), ("q:-r1(0x1).", 7),
    ("q:-r1(1e3).", 7), ("q:-r1(1_000).", 7), ("q:-r1(1'000).", 7), ("q:-r1(X-1).", 7), ("q:-r1(X).", 7), ("q:-r1(1X).", 7),
    # relations
    ("q:-r(1).", 4), ("q:-r1.", 5), ("q:-r1", 5), ("q:-r", 4), ("q:-R1(1).", 3), ("q:-s1(1).", 3), ("q:-r1 (1).", 5), ("q:-r1[1].", 5), ("q:-r1().", 6),
    ("q:-r1( 1).", 6), ("q:-r1(,1).", 6), ("q:-r1(1,).", 8), ("q:-r1(1,,2).", 8), ("q:-r1(1 ,2).", 7), ("q:-r1(1, 2).", 8), ("q:-r1(1 ).", 7),
    ("q:-r1(1;2).", 7), ("q:-r1(1)).", 8), ("q:-r1((1)).", 6), ("q:-r1(r2(1)).", 6), ("q:-r1(x).", 6), ("q:-r1(_).", 6), ("q:-r1('a').", 6), ("q:-r1(1", 7),
    ("q:-r1(X", 7), ("q:-rX1(1).", 4),
    # not
    ("q:-n", 4), ("q:-no.", 5), ("q:-not", 6), ("q:-not ", 7), ("q:-notr1(1).", 6), ("q:-not\tr1(1).", 6), ("q:-not  r1(1).", 7), ("q:-not X0 = 1.", 7),
    ("q:-not not r1(1).", 7), ("q:-not(r1(1)).", 6), ("q:-Not r1(1).", 3), ("q:-!r1(1).", 3), ("q:-\\+r1(1).", 3), ("q:-not .", 7), ("q:-not not", 7),
    ("q:-nor1(1).", 5),
    # equalities
    ("q:-1 = X0.", 3), ("q:-1 = 1.", 3), ("q:-X0=1.", 5), ("q:-X0 =1.", 7), ("q:-X0= 1.", 5), ("q:-X0  = 1.", 6), ("q:-X0 =  1.", 8), ("q:-X0 = .", 8),
    ("q:-X0 == 1.", 7), ("q:-X0 = r1(1).", 8), ("q:-X0.", 5), ("q:-X0 ", 6), ("q:-X0 =", 7), ("q:-X0 = ", 8), ("q:-X0 = 1", 9), ("q:-X0 = 1 .", 9),
    ("q:-X0 = X1 = X2.", 10), ("q:-X0 = X.", 9), ("q:-X0 != 1.", 6), ("q:-X0 < 1.", 6), ("q:-X = 1.", 4), ("q:-X0 = not r1(1).", 8), ("q:-X0 is 1.", 6),
    ("q:-X0(1).", 5),
    # goals and the end
    ("q:-r1(1),.", 9), ("q:-r1(1),", 9), ("q:-r1(1),,r1(1).", 9), ("q:-r1(1), r1(1).", 9), ("q:-r1(1) ,r1(1).", 8), ("q:-r1(1);r1(1).", 8),
    ("q:-r1(1)r1(1).", 8), ("q:-r1(1) .", 8), ("q:-r1(1)\n.", 8), ("q:-r1(1),1.", 9), ("q:-r1(1)&r2(1).", 8), ("q:-true.", 3), ("q:-X0 = 1,.", 10),
    ("q:-(r1(1)).", 3), ("q:-r1(1).\n", 9), ("q:-r1(1).\r\n", 9), ("q:-r1(1). ", 9), ("q:-r1(1)..", 9), ("q:-r1(1).q:-r1(1).", 9), ("q:-r1(1).%", 9),
    ("q:-r1(1).\0", 9), ("q(X0):-r0(X0).\n", 14),
    # bytes that are no letters
    ("\0", 0), ("\0q:-r1(1).", 0), ("q\0:-r1(1).", 1), ("q:-r1(\0).", 6), ("q:-r1(1\0).", 7), ("q:-r1(1)\0.", 8), ("q:-X0\0= 1.", 5), ("q:-r1(1),\0", 9),
    ("\xff", 0), ("\xf1:-r1(1).", 0), ("\xef\xbb\xbfq:-r1(1).", 0), ("q\xba-r1(1).", 1), ("q(\xd80):-r1(X0).", 2), ("q(X\xb0):-r1(X0).", 3),
    ("q:-r1(\xb1).", 6), ("q:-r1(1\xb2).", 7), ("q:-r1(1)\xae", 8), ("q:-r1(1\xa9.", 7), ("q:-X0\xa0= 1.", 5), ("q:-not\xa0r1(1).", 6), ("q:-r1(1).\xae", 9),
    ("q:-r1\xa81).", 5), ("q:-\xf21(1).", 3), ("q:-r1(1)\xac", 8),
    # beside digits: / is 47, : is 58
    ("q:-r1(/).", 6), ("q:-r1(:).", 6), ("q:-r/(1).", 4), ("q:-r:(1).", 4), ("q:-r1(1:).", 7), ("q:-r1(1/).", 7), ("q(X:):-", 3), ("q(X1:-r1(X1).", 4),
    ("q:-X:", 4),
]

# One text for each sort of place: any byte is tried after it.
BEFORE = ["", "q", "q(", "q(X", "q(X0", "q(X1", "q(X1,", "q(X1)", "q:", "q:-", "q:-n", "q:-no", "q:-not", "q:-not ", "q:-not r", "q:-not r0", "q:-not r1",
          "q:-not r1(", "q:-not r1(1)", "q:-r", "q:-r0", "q:-r1", "q:-r1(", "q:-r1(0", "q:-r1(1", "q:-r1(1,", "q:-r1(X", "q:-r1(X0", "q:-r1(X1", "q:-r1(1)",
          "q:-r1(1),", "q:-X", "q:-X0", "q:-X1", "q:-X1 ", "q:-X1 =", "q:-X1 = ", "q:-X1 = 0", "q:-X1 = 1", "q:-X1 = X", "q:-X1 = X0", "q:-X1 = X1",
          "q:-r1(1)."]


def of_values(numbers, denied=False):
    """Goals of relation 0 with these values, four each."""
    numbers = list(map(str, numbers))
    return ["not " * denied + f"r0({','.join(numbers[i:i + 4])})" for i in range(0, len(numbers), 4)]


def rule_text(head, goals):
    return f"q{'(' + ','.join(head) + ')' if head else ''}:-{','.join(goals)}."


def within():
    """Name and text of rules at a limit."""
    yield "64 nodes: 32 goals and an exists", rule_text([], ["r0(X3)"] * 32)
    yield "63 nodes: 32 goals", rule_text(["X3"], ["r0(X3)"] * 32)
    yield "64 nodes: 32 goals, one denied", rule_text(["X3"], ["not r0(X3)", *["r0(X3)"] * 31])
    yield "64 nodes: 32 goals, the last denied", rule_text(["X3"], [*["r0(X3)"] * 31, "not r0(X3)"])
    yield "64 nodes: 22 goals, 21 denied", rule_text(["X3"], [*["not r0(X3)"] * 21, "r0(X3)"])
    yield "64 nodes: 32 equalities and an exists", rule_text([], ["X3 = X3"] * 32)
    yield "64 nodes: 24 goals, one denied, and 16 exists", rule_text([], [*(f"r0(X{i})" for i in range(16)), *["r0(1)"] * 7, "not r0(1)"])
    yield "64 nodes and 16 constants, 322 bytes", rule_text([], [*of_values(range(100, 116)), *["r1(X7,115)"] * 28])
    yield "16 constants", rule_text([], of_values(range(16)))
    yield "16 constants, repeated", rule_text([], of_values([*range(16), *range(16), 0, 15, 0, 15]))
    yield "16 constants of equalities", rule_text(["X2"], [f"X2 = {i}" for i in range(16)])
    yield "16 constants of 10 digits that begin alike", rule_text([], of_values(4294967280 + i for i in range(16)))
    yield "4 terms in the head", rule_text(["X0", "X5", "X9", "X15"], ["r0(X15,X9,X5,X0)"])
    yield "4 terms in a goal", rule_text([], ["r0(X0,1,X0,1)"])
    yield "X15", rule_text(["X15"], ["r0(X15)"])
    yield "X15 at the left", rule_text([], ["X15 = X15"])
    yield "r15", rule_text(["X0"], ["r15(X0)", "not r15(X0)"])
    yield "4294967295", rule_text(["X0"], ["r0(X0,4294967295)", "X0 = 4294967295"])
    yield "all 16 variables, bound", rule_text([], [f"X{15 - i} = X{i}" for i in range(8)])
    yield "a head variable that is denied only", rule_text(["X0"], ["not r0(X0)"])
    yield "a head variable at the right of an equality only", rule_text(["X1"], ["X0 = X1"])
    yield "a head of 2 and 10: by number, not by text", rule_text(["X2", "X10"], ["r0(X10,X2)"])
    yield "the same goal twice", rule_text(["X0"], ["r0(X0)", "r0(X0)"])
    yield "a goal and its denial", rule_text(["X0"], ["r0(X0)", "not r0(X0)"])
    yield "a relation with two numbers of terms: 9 is judged later", rule_text(["X0"], ["r0(X0)", "r0(X0,X0)"])


def past():
    """Name and text of rules past a limit."""
    yield "65 nodes: 32 goals and two exists", rule_text([], ["r0(X3)"] * 31 + ["r0(X4)"])
    yield "65 nodes: 33 goals", rule_text(["X3"], ["r0(X3)"] * 33)
    yield "65 nodes: 32 goals, two denied", rule_text(["X3"], ["not r0(X3)", *["r0(X3)"] * 30, "not r0(X3)"])
    yield "65 nodes: 32 goals, one denied, an exists", rule_text([], ["not r0(X3)", *["r0(X3)"] * 31])
    yield "65 nodes: 22 goals, all denied", rule_text(["X3"], ["not r0(X3)"] * 22)
    yield "65 nodes: 25 goals and 16 exists", rule_text([], [*(f"r0(X{i})" for i in range(16)), *["r0(1)"] * 9])
    yield "over 300 nodes: a count of a byte", rule_text(["X3"], ["r0(X3)"] * 161)
    yield "257 nodes", rule_text(["X3"], ["r0(X3)"] * 129)
    yield "17 constants", rule_text([], of_values(range(17)))
    yield "17 constants, the last in a denied goal", rule_text([], of_values(range(16)) + of_values([16], True))
    yield "17 constants of equalities", rule_text(["X2"], [f"X2 = {i}" for i in range(17)])
    yield "272 constants", rule_text([], of_values(range(272)))
    yield "5 terms in the head", rule_text(["X0", "X1", "X2", "X3", "X4"], ["r0(X0,X1,X2,X3)", "r0(X4)"])
    yield "260 terms in the head", rule_text([f"X{i}" for i in range(260)], ["r0(X0)"])
    yield "5 terms in a goal", rule_text([], ["r0(1,1,1,1,1)"])
    yield "5 terms in a denied goal", rule_text([], ["r0(1)", "not r0(X0,X0,X0,X0,X0)"])
    yield "8 terms in a goal: a count of three bits", rule_text([], ["r0(1,1,1,1,1,1,1,1)"])
    yield "260 terms in a goal", rule_text([], [f"r0({','.join(['1'] * 260)})"])
    for number in (16, 17, 20, 32, 99, 100, 115, 256, 65536, 4294967296, 4294967297, 18446744073709551616, 18446744073709551631):
        yield f"X{number} in the head and a goal", rule_text([f"X{number}"], [f"r0(X{number})"])
        yield f"X{number} in a goal", rule_text([], [f"r0(1,X{number})"])
        yield f"X{number} in a denied goal", rule_text(["X0"], ["r0(X0)", f"not r0(X{number})"])
        yield f"X{number} at the left", rule_text([], [f"X{number} = 1"])
        yield f"X{number} at the right", rule_text([], [f"X0 = X{number}"])
        yield f"r{number}", rule_text(["X0"], [f"r{number}(X0)"])
        yield f"not r{number}", rule_text(["X0"], ["r0(X0)", f"not r{number}(X0)"])
    for number in (4294967296, 4294967297, 4294967300, 4294967305, 5000000000, 9999999999, 10000000000, 42949672950, 18446744073709551615, 18446744073709551616,
                   18446744073709551623, 340282366920938463463374607431768211457):
        yield f"the value {number}", rule_text([], [f"r0({number})"])
        yield f"the value {number}, denied", rule_text([], [f"not r0(1,{number},2)"])
        yield f"the value {number} of an equality", rule_text(["X0"], [f"X0 = {number}"])
    yield "a head variable twice", rule_text(["X0", "X0"], ["r0(X0)"])
    yield "a head variable twice, apart", rule_text(["X0", "X1", "X0"], ["r0(X0,X1)"])
    yield "a head that descends", rule_text(["X1", "X0"], ["r0(X0,X1)"])
    yield "a head that descends at its end", rule_text(["X0", "X2", "X1"], ["r0(X0,X1,X2)"])
    yield "a head that ascends as text only", rule_text(["X10", "X2"], ["r0(X10,X2)"])
    yield "a head variable in no goal", rule_text(["X0"], ["r0(1)"])
    yield "a head variable in no goal, among others", rule_text(["X0", "X1", "X2"], ["r0(X0,X2)"])
    yield "a head variable of which a value has the number", rule_text(["X3"], ["r3(3)"])
    yield "a head variable of which a relation has the number", rule_text(["X0", "X7"], ["r7(X0)", "not r7(X0)"])
    for what in ("X{}", "r{}", "{}"):
        for digits in ("9" * 5000, "1" + "0" * 4999, "4294967295" * 500):
            number = what.format(digits)
            goal = f"{number}(1)" if what[0] == "r" else f"r0({number})"
            yield f"5,000 digits: {what.format(digits[:12])}..", rule_text([], [goal])
    yield "5,000 digits in the head", rule_text(["X" + "7" * 5000], ["r0(X7)"])
    yield "5,000 digits of an equality", rule_text([], [f"X{'8' * 5000} = {'9' * 5000}"])
    yield "20,000 digits that differ at the end", rule_text(["X1" + "0" * 20000, "X1" + "0" * 19999 + "1"], ["r0(X0)"])


def long_texts():
    """Name, text and place: offsets past 255 and 65,535."""
    body = "q(X0):-" + "r3(X0,17)," * 7000
    for length in (255, 256, 257, 65535, 65536, 65537, 70000):
        yield f"{length} bytes that end early", body[:length], length
        for sign in ("!", " ", "\0", "\xff"):
            yield f"{sign!r} at {length}", body[:length] + sign + body[length:], length
            yield f"{sign!r} at the end, {length}", body[:length] + sign, length
    whole = body[:-1] + "."
    yield "a rule of 70,006 bytes, past the nodes", whole, len(whole)
    yield "a line feed after it", whole + "\n", len(whole)
    yield "the same, and it leaves the grammar at 66,007", whole[:66007] + "?" + whole[66008:], 66007
    head = "q(" + ",".join(["X1"] * 22000) + ")"
    yield "a head of 66,001 bytes that is none", head + ":-r1(X1).", len(head) + 9
    yield "a head of 66,001 bytes, then a space", head + " :-r1(X1).", len(head)
    for digits in (65529, 65530, 65531, 70000):
        yield f"a value of {digits} digits", "q:-r1(" + "1" * digits + ").", digits + 8
        yield f"a value of {digits} digits, then a letter", "q:-r1(" + "1" * digits + "x).", digits + 6
        yield f"a value of {digits} digits that doesn't end", "q:-r1(" + "1" * digits, digits + 6
        yield f"a leading zero and {digits} digits", "q:-r1(0" + "1" * digits + ").", 7
    exact = "q:-r1(" + "1" * 69992 + ")."
    yield "70,000 bytes past a limit", exact, 70000


def fixed_texts():
    """Name, text as bytes, and what is wanted: a place, the bytes of a query, or None."""
    as_bytes = lambda text: text.encode("latin-1")
    for text, query in PACKED:
        yield f"packed {text!r}", as_bytes(text), bytes.fromhex(query)
    for text, place in OUTSIDE:
        yield f"outside {text!r}", as_bytes(text), place
    for name, text in within():
        if rule_reader.read_rule(as_bytes(text))[1] is not None:
            fail(name, f"rule_reader.py refuses it\n  {shown(as_bytes(text))}")
        yield name, as_bytes(text), None
    for name, text in past():
        yield name, as_bytes(text), len(text)
    for name, text, place in long_texts():
        yield name, as_bytes(text), place


def left_later(text):
    """A rule past a limit that then leaves the grammar, and where."""
    yield "without its full stop", text[:-1], len(text) - 1
    yield "another sign for it", text[:-1] + b"!", len(text) - 1
    yield "a goal that is none", text[:-1] + b",X0 =1.", len(text) + 4
    yield "a line feed after it", text + b"\n", len(text)


def check_fixed(engine):
    """The fixed texts, and each beginning of the shorter ones; they are handed back."""
    found, begun = list(fixed_texts()), set()
    for name, text in past():
        for what, broken, place in left_later(text.encode()):
            check(engine, f"{name}, {what}", broken, place)
    for name, text, wanted in found:
        check(engine, name, text, wanted)
        if len(text) < 400:
            for length in range(len(text)):
                if text[:length] not in begun:
                    begun.add(text[:length])
                    check(engine, f"the first {length} bytes of: {name}", text[:length])
    for byte in range(256):  # each byte at each sort of place
        for before in BEFORE:
            check(engine, f"byte {byte} after {before!r}", before.encode() + bytes([byte]))
    return found


# ---- random rules, and damaged ones

TELLING = b"q(X0),:-.= rnot19\n\x00\x7f\xae\xff"
VALUES = [[0, 1, 2], [7, 9, 17], [0, 4294967295, 4294967294], list(range(40)), [10 ** i for i in range(10)], [4294967295, 4294967296]]


def random_term(rng, names, values):
    return f"X{rng.choice(names)}" if rng.random() < 0.65 else str(rng.choice(values))


def random_goal(rng, names, values, relations):
    sort = rng.random()
    if sort < 0.15:
        return f"X{rng.choice(names)} = X{rng.choice(names)}"
    if sort < 0.3:
        return f"X{rng.choice(names)} = {rng.choice(values)}"
    terms = [random_term(rng, names, values) for _ in range(rng.choice([1, 1, 2, 2, 3, 4, 4]) if rng.random() < 0.99 else 5)]
    return "not " * (rng.random() < 0.35) + f"r{rng.choice(relations)}({','.join(terms)})"


def random_rule(rng):
    """A text of the grammar, mostly within the limits."""
    names = rng.choice([[0], [0, 1], [0, 1, 2], [1, 5], [3, 10, 2, 15], list(range(16)), list(range(16)) if rng.random() < 0.8 else [0, 16]])
    values, relations = rng.choice(VALUES), rng.choice([[0], [0, 1, 3], list(range(16)), list(range(16)) if rng.random() < 0.8 else [15, 16]])
    goals = [random_goal(rng, names, values, relations) for _ in range(rng.choice([1, 1, 2, 2, 3, 3, 4, 5, 8, 20, 26, 31, 32]))]
    used = sorted({int(x) for goal in goals for x in re.findall("X([0-9]+)", goal)})
    head = sorted(rng.sample(used, min(len(used), rng.choice([0, 1, 1, 2, 3, 4, 4]))))
    sort = rng.random()
    if sort < 0.03 and head:
        head.insert(rng.randrange(len(head)), rng.choice(head))
    elif sort < 0.06:
        rng.shuffle(head)
    elif sort < 0.09:
        head = sorted({*head, rng.randrange(17)})
    elif sort < 0.1:
        head = used
    return rule_text([f"X{x}" for x in head], goals).encode()


def damages(text):
    """Every text that comes of one byte: replaced by a telling one, left out, or put in."""
    for at in range(len(text) + 1):
        for byte in TELLING:
            yield text[:at] + bytes([byte]) + text[at:]
            yield text[:at] + bytes([byte]) + text[at + 1:]
        yield text[:at] + text[at + 1:]


def damaged(rng, text, other):
    """Some bytes altered anywhere, a part moved or repeated, or a part of another rule put in."""
    at, end = sorted(rng.randrange(len(text) + 1) for _ in range(2))
    sort = rng.choice(["bytes", "any byte", "cut", "repeat", "move", "other", "digits", "bit"])
    if sort in ("bytes", "any byte"):
        for _ in range(rng.choice([1, 2, 3])):
            at = rng.randrange(len(text) + 1)
            text = text[:at] + (rng.randbytes(1) if sort == "any byte" else bytes([rng.choice(TELLING)])) + text[at + rng.randrange(2):]
        return text
    if sort == "bit":
        at = rng.randrange(len(text))
        return text[:at] + bytes([text[at] ^ 1 << rng.randrange(8)]) + text[at + 1:]
    if sort == "digits":
        numbers = [m.span() for m in re.finditer(rb"[0-9]+", text)]
        at, end = rng.choice(numbers)
        return text[:at] + str(rng.choice([0, 1, 9, 10, 15, 16, 255, 256, 2 ** 32 - 1, 2 ** 32, 2 ** 64])).encode() + text[end:]
    cut = {"cut": b"", "repeat": text[at:end] * 2, "move": text[at:end][::-1], "other": other[at:end]}
    return text[:at] + cut[sort] + text[end:]


def query_text(rule):
    """A rule as the text of a query that menu.py packs, with variables and relations by number."""
    term = lambda t: f"v{t.digits}" if t.variable else t.digits
    goals = [" = ".join(map(term, goal.terms)) if goal.relation is None else "not " * goal.denied + f"r{goal.relation}({', '.join(map(term, goal.terms))})"
             for goal in rule.goals]
    return "".join(f"exists v{x} " for x in rule_reader.bound(rule)) + f"({' and '.join(goals)})"


def check_menu(name, text):
    """The second reader's packing beside menu.py's."""
    query = menu.pack("", query_text(rule_reader.rule_of(text)))[18:]
    if query != rule_reader.read_rule(text)[0]:
        fail(name, f"menu.py packs it as {query.hex()}, and rule_reader.py as {rule_reader.read_rule(text)[0].hex()}\n  the text: {shown(text)}")


def check_random(engine, number, seed):
    """How many random rules were also packed by menu.py."""
    packed, other = 0, b"q:-r1(1)."
    for i in range(number):
        rng, name = random.Random(f"{seed} {i}"), f"random {i} of seed {seed}"
        text = random_rule(rng)
        check(engine, name, text)
        if rule_reader.read_rule(text)[1] is None:
            packed += 1
            check_menu(name, text)
        for length in range(len(text) if len(text) < 120 else 0):
            check(engine, f"{name}, its first {length} bytes", text[:length])
        for _ in range(40):
            check(engine, f"{name}, damaged", damaged(rng, text, other))
        if i % 8 == 0 and len(text) < 150:
            for broken in damages(text):
                check(engine, f"{name}, a byte damaged", broken)
        for _ in range(10):
            check(engine, f"{name}, bytes", rng.randbytes(rng.randrange(12)) if rng.random() < 0.5 else bytes(rng.choices(TELLING, k=rng.randrange(30))))
        other = text
    return packed


# ---- rows: of the packed query by the engine's answers, of the rule by its goals alone

def small_rule(rng):
    """A rule of few variables, relations and values, each relation of one width; the widths, and facts."""
    names, values = rng.choice([[0], [0, 1], [2, 0, 1], [1, 4, 7, 15]]), rng.choice([[0, 1], [7, 9, 17], [0, 4294967295]])
    widths, goals = {0: 1, 1: 2, 2: 3, 9: 2, 15: 4}, []
    for _ in range(rng.choice([1, 1, 2, 2, 3, 4])):
        relation = rng.choice([*widths, 0, 1, 1])
        sort = rng.random()
        if sort < 0.2:
            goals.append(f"X{rng.choice(names)} = {random_term(rng, names, values)}")
        else:
            terms = ",".join(random_term(rng, names, values) for _ in range(widths[relation]))
            goals.append("not " * (sort < 0.5) + f"r{relation}({terms})")
    used = sorted({int(x) for goal in goals for x in re.findall("X([0-9]+)", goal)})
    head = sorted(rng.sample(used, rng.randint(0, len(used))))
    numbers = [*values, rng.choice([*values, 3, 4294967294])]
    facts = {(relation, *rng.choices(numbers, k=widths[relation])) for relation in rng.choices(list(widths), k=rng.choice([0, 5, 15, 30, 60]))}
    return rule_text([f"X{x}" for x in head], goals).encode(), widths, facts


def check_rows(engine, answers, number, seed):
    """How many rules had their rows compared, and how many of those are endless."""
    counts = {"with rows": 0, "without": 0, "endless": 0}
    for i in range(number):
        rng, name = random.Random(f"rows {seed} {i}"), f"rows {i} of seed {seed}"
        text, widths, facts = small_rule(rng)
        rule, came = rule_reader.rule_of(text), engine(text)
        if isinstance(came, str) or came[0] is None:
            fail(name, f"{came if isinstance(came, str) else pair_text(came)}\n  the text: {shown(text)}")
            continue
        records = rng.sample(sorted(facts), len(facts))
        data = bytes(widths.get(relation, 0) for relation in range(16)) + struct.pack(">H", len(records))
        data += b"".join(struct.pack(">B4I", *fact, *[0] * (5 - len(fact))) for fact in records) + came[0]
        verdict, head = answers.verdict(data), [int(term.digits) for term in rule.head]
        answer = answers.answer(data, len(head))
        if isinstance(verdict, menu_engine.Refusal) or isinstance(answer, menu_engine.Refusal):
            fail(name, f"the packed query is refused: {verdict}, {answer}\n  the text: {shown(text)}")
            continue
        wanted, rows = rule_reader.rows(rule, facts), None if answer.endless else answer.rows
        counts["endless" if wanted is None else "with rows" if wanted else "without"] += 1
        if (verdict.columns, rows) != (head, wanted):
            fail(name, f"columns {verdict.columns}, rows {rows}\n  expected: {head}, {wanted}\n  the text: {shown(text)}\n  the facts: {sorted(facts)}")
    return counts


# ---- the program

LONGEST_READ = 1048576  # bytes of a text that the program reads whole


def check_program(program, found):
    """The fixed texts and some random ones through the program; how many they were."""
    engine = functools.partial(program_engine, program)
    random_texts = [(f"random {i}", random_rule(random.Random(f"program {i}"))) for i in range(30)]
    tried = [(name, text) for name, text, _ in found if len(text) <= LONGEST_READ] + random_texts
    for name, text in tried:
        came, expected = engine(text), rule_reader.read_rule(text)
        if came != expected:
            told = came if isinstance(came, str) else pair_text(came)
            fail(f"the program, {name}", f"{told}\n  expected: {pair_text(expected)}\n  the text: {shown(text)}")
    return len(tried)


def check_streams(program):
    """A text in parts or between interrupted reads is read as any other; where a read or the writing fails, or the text is too
    long, nothing is printed but a line on standard error.
    How many ways were tried."""
    text = b"q(X0,X2):-r3(X0,17),not r1(X2)."
    query, refusal = rule_reader.read_rule(text)[0], b"refused 20 30\n"
    single = lambda data: [bytes([b]) for b in data]
    longest = b"q:-r0(" + b"1" * (LONGEST_READ - 8) + b")."  # a value of a million digits
    streams.failing_reads()
    with open("/dev/full", "wb") as full:
        tried = [
            # name, the reply, what is printed; or the stream that fails
            ("byte by byte", streams.run(program, single(text), pause=0.003), query),
            ("a refusal, byte by byte", streams.run(program, single(text[:-1]), pause=0.003), refusal),
            ("interrupted reads", streams.run(program, [text], env=streams.with_reads(READS="iiriri")), query),
            ("many interrupted reads", streams.run(program, [text], env=streams.with_reads(READS="i" * 300)), query),
            ("a read that fails", streams.run(program, [text], env=streams.with_reads(READS="e")), "standard input"),
            ("a later read that fails", streams.run(program, [text], env=streams.with_reads(READS="rre")), "standard input"),
            ("no standard input", streams.run(program, closed=0), "standard input"),
            ("no standard output", streams.run(program, [text], closed=1), "standard output"),
            ("the longest text", streams.run(program, [longest]), b"refused 20 %d\n" % len(longest)),
            ("a byte more", streams.run(program, [longest + b"."]), "standard input"),
            ("the longest text outside the grammar", streams.run(program, [longest[:-1] + b"1"]), b"refused 20 %d\n" % (len(longest) - 1)),
            ("a full device", streams.run(program, [text], stdout=full), "standard output"),
        ]
    for name, (status, out, err), wanted in tried:
        right = (out, err) == (wanted, b"") if isinstance(wanted, bytes) else not out and re.fullmatch(wanted.encode() + rb": [^\n]+\n", err)
        if status or not right:
            fail(f"the program, {name}", f"exit status {status}, standard output {out!r}, standard error {err!r}")
    return len(tried)


def main():
    words = options.Options(__doc__)
    words.add_argument("--library", type=pathlib.Path, default=menu_engine.ARCHIVE, metavar="PATH")
    words.add_argument("--program", type=pathlib.Path, default=HERE / "target" / "bin" / "rule", metavar="PATH")
    words.add_argument("--random", type=options.number, default=300, metavar="N")
    words.add_argument("--seed", type=options.number, default=1, metavar="N")
    given = words.parse_args()
    faulthandler.enable()  # a read past a text ends this program
    try:
        answers = menu_engine.Engine(given.library)
        engine = Entry(given.library.resolve())
    except menu_engine.NoEngine as reason:
        print(f"rules: {reason}\nrules: 0 texts, 1 failed")
        return 1
    found = check_fixed(engine)
    by_menu = check_random(engine, given.random, given.seed)
    rows = check_rows(engine, answers, given.random, given.seed)
    by_program = ways = 0
    if given.program.is_file():
        by_program, ways = check_program(given.program.resolve(), found), check_streams(given.program.resolve())
    else:
        fail("the program", f"{given.program} is not there")
    if len(FAILED) > SHOWN:
        print(f"rules: {len(FAILED) - SHOWN} more")
    sorts = ", ".join(f"{TALLY[kind]} {kind}" for kind in TALLY if kind != "texts")
    print(f"rules: {TALLY['texts']} texts ({sorts}), {by_menu} beside menu.py, {by_program} and {ways} streams through the program, "
          f"rows of {sum(rows.values())} rules ({', '.join(f'{number} {kind}' for kind, number in rows.items())}), {len(FAILED)} failed")
    return 1 if FAILED else 0


if __name__ == "__main__":
    sys.exit(main())
