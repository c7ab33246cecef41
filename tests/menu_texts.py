#!/usr/bin/env python3
"""examples/menu.py: what it packs and refuses to pack, its lists and explanations, its files and exit statuses, and what README.md says of them.

menu_texts.py                  everything; run and explain call the engine of target/staticlib/libhost.a
menu_texts.py --library PATH   another static library
menu_texts.py --random N       N random queries (300), and those with few variables also damaged
menu_texts.py --seed N         others than those of seed 1
menu_texts.py --write          writes menu_texts.expected anew: run and explain on the examples and on document 01's worked cases

Exit status 1 where anything differs. Reasons are held against verdicts.py, columns that can be anything against answers.py, lists against lines.py; whether a
rule is past a limit against rule_reader.py, over the texts of rules.py.
"""
import contextlib
import functools
import io
import os
import pathlib
import random
import re
import shutil
import signal
import struct
import subprocess
import sys
import tempfile
import time

HERE = pathlib.Path(__file__).resolve().parent.parent
EXAMPLES, STORED = HERE / "examples", HERE / "tests" / "menu_texts.expected"
sys.path.insert(0, str(EXAMPLES))

import answers
import lines
import menu
import menu_engine
import menu_explain
import menu_nodes
import menu_rule
import options
import report
import rule_reader
import rules
import verdicts

FAILED = []
SHOWN = 20  # failures are shown so often, and then counted
PATIENCE = 60  # seconds for a query
lines.MOST = 20_000  # larger tables are passed over here


def fail(name, text):
    FAILED.append(name)
    if len(FAILED) <= SHOWN:
        print(f"menu_texts: {name}: {text}", flush=True)


def compare(name, expected, came):
    """Fails with a diff of texts of several lines, and of others with a mark at the first difference."""
    if expected != came:
        show = report.diff if isinstance(came, str) and "\n" in came else report.pointed
        fail(name, f"\n{show(str(expected), str(came))}")


def too_long(*_):
    raise TimeoutError(f"not done in {PATIENCE} seconds")


def command(*words, data=b""):
    """The exit status of a command of menu.py, and what it writes on both outputs."""
    out, err = io.TextIOWrapper(io.BytesIO(), "utf-8"), io.StringIO()
    given, sys.stdin = sys.stdin, io.TextIOWrapper(io.BytesIO(data), "utf-8")
    try:
        with contextlib.redirect_stdout(out), contextlib.redirect_stderr(err):
            status = menu.main([str(word) for word in words])
    except SystemExit as end:
        status = end.code or 0
    except Exception as error:
        status = f"{type(error).__name__}: {error}"
    finally:
        sys.stdin = given
    out.flush()
    return status, out.buffer.getvalue(), err.getvalue()


# ---- texts that are packed, and texts that are refused

STORE = "relation 0 joint 2\nrelation 1 weld 1\njoint 7 3\njoint 9 3\nweld 7\n"
FORMS = [
    # query text, another with the same packed query
    ("joint(x, y) or weld(x) and not x = y", "joint(v0, v1) or (weld(v0) and (not (v0 = v1)))"),
    ("weld(a) and weld(b) and weld(c)", "(r1(v0) and r1(v1)) and r1(v2)"),
    ("exists z joint(x, z) and weld(z)", "(exists v0 joint(v1, v0)) and weld(v0)"),
    ("exists z not exists y joint(z, y)", "exists v0 (not (exists v1 (joint(v0, v1))))"),
    ("columns y x\njoint(x, y)", "r0(v1, v0)"),
    ("columns x # and a bound one\nexists y joint(x, y) and not exists x weld(x)", "exists v1 joint(v0, v1) and not exists v0 weld(v0)"),
    ("joint(x, v0) and joint(v2, y)", "joint(v1, v0) and joint(v2, v3)"),
    ("x = 9 or\n\nx = 7 or x = 9", "v0 = 9 or (v0 = 7) or v0 = 0009"),
    ("((true)) and\tnot(false)", "true and not false"),
    ("exists _a joint(_a, a_) and weld(__)", "exists v0 joint(v0, v1) and weld(v2)"),
    ("weld(weld) and joint = 3", "weld(v0) and v1 = 3"),
]
FORMULA = "a formula should stand: not, exists, (, true, false, a relation or a variable"
TERM = "a term should stand: a variable or a number"
VARIABLE = "a variable should stand: a name, or v0 to v15"
NAME = "letters, digits and _, no digit first, and none of and, columns, exists, false, not, or, query, relation and true"
UNDERSCORE = ("read '_' where a variable should stand: one name is one variable throughout, so that every _ would be one value; "
              "give each place a name of its own and bind it, as in exists a exists b bend(j, a, b)")
MOST_4 = "a list has at most 4 columns; bind those that it needn't show by exists"
REFUSED_QUERIES = [
    # query text, line, column, what is said
    ("", 1, 1, f"read the end of the query where {FORMULA}"),
    ("# nothing\n\n  \n", 1, 1, f"read the end of the query where {FORMULA}"),
    ("columns x # alone\n", 1, 10, f"read the end of the query where {FORMULA}"),
    ("weld(x) weld(y)", 1, 9, "read 'weld' where 'and', 'or' or the end of the query should stand"),
    ("weld(x) )", 1, 9, "read ')' where 'and', 'or' or the end of the query should stand"),
    ("# a comment\nweld(x) and\n\t or", 3, 3, f"read 'or' where {FORMULA}"),
    ("weld(x) and # the rest is missing", 1, 12, f"read the end of the query where {FORMULA}"),
    ("not", 1, 4, f"read the end of the query where {FORMULA}"),
    ("weld(x) or ()", 1, 13, f"read ')' where {FORMULA}"),
    ("weld(x)\ncolumns x", 2, 1, "read 'columns' where 'and', 'or' or the end of the query should stand"),
    ("(weld(x)\nor weld(y)", 2, 11, "read the end of the query where 'and', 'or' or ')' should stand"),
    ("(weld(x) weld(y))", 1, 10, "read 'weld' where 'and', 'or' or ')' should stand"),
    ("weld(x", 1, 7, "read the end of the query where ')' should stand: weld has 1 value"),
    ("weld(x y)", 1, 8, "read 'y' where ')' should stand: weld has 1 value"),
    ("weld(x, y)", 1, 7, "read ',' where ')' should stand: weld has 1 value"),
    ("true and\n  joint(x)", 2, 10, "read ')' where ',' should stand: joint has 2 values"),
    ("joint(x y)", 1, 9, "read 'y' where ',' should stand: joint has 2 values"),
    ("r1(a b)", 1, 6, "read 'b' where ',' or ')' should stand: a record has 1 to 4 values"),
    ("r1(a, b, c, d, e)", 1, 14, "read ',' where ')' should stand: a record has 1 to 4 values"),
    ("weld()", 1, 6, f"read ')' where {TERM}"),
    ("true or r3( )", 1, 13, f"read ')' where {TERM}"),
    ("joint(x,)", 1, 9, f"read ')' where {TERM}"),
    ("joint(,x)", 1, 7, f"read ',' where {TERM}"),
    ("weld(", 1, 6, f"read the end of the query where {TERM}"),
    ("weld(not)", 1, 6, f"read 'not' where {TERM}"),
    ("weld(\u00e4)", 1, 6, f"read '\u00e4' where {TERM}"),
    ("seam(x)", 1, 1, "read 'seam' where a relation should stand: the store text has joint and weld"),
    ("weld(x) or wield(x)", 1, 12, "read 'wield' where a relation should stand: the store text has joint and weld; is weld meant?"),
    ("r16(x)", 1, 1, "read 'r16' where a relation should stand: the store text has joint and weld"),
    ("7 = x", 1, 1, f"read '7' where {FORMULA}; an equality has its variable first"),
    ("x = and", 1, 5, f"read 'and' where {TERM}"),
    ("x - y", 1, 3, "read '-' where '=' or '(' should stand after x"),
    ("weld and weld(x)", 1, 6, "read 'and' where '=' or '(' should stand after weld"),
    ("x", 1, 2, "read the end of the query where '=' or '(' should stand after x"),
    ("exists 7 weld(x)", 1, 8, f"read '7' where {VARIABLE}"),
    ("exists", 1, 7, f"read the end of the query where {VARIABLE}"),
    ("weld(v16)", 1, 6, f"read 'v16' where {VARIABLE}"),
    ("exists v01 true", 1, 8, f"read 'v01' where {VARIABLE}"),
    ("x = 4294967296", 1, 5, "read '4294967296' where a number should stand: 0 to 4294967295"),
    ("x = " + "9" * 5000, 1, 5, f"read '{'9' * 20}'.. where a number should stand: 0 to 4294967295"),
    # _ is no variable
    ("exists _ weld(_)", 1, 8, UNDERSCORE),
    ("exists a joint(a,\n _)", 2, 2, UNDERSCORE),
    ("joint(_, _)", 1, 7, UNDERSCORE),
    ("_ = 3", 1, 1, UNDERSCORE),
    ("weld(x) and x = _", 1, 17, UNDERSCORE),
    ("columns x _\njoint(x, _)", 1, 11, UNDERSCORE),
    # columns
    ("columns x y\nweld(x)", 1, 11, "y is a column, and not free in the formula"),
    ("columns x y\nexists y joint(x, y)", 1, 11, "y is a column, and not free in the formula"),
    ("\ncolumns x\njoint(x, y)", 3, 10, "y is free in the formula, and not a column: the columns line has x"),
    ("columns\nexists x weld(x) and\nweld(x)", 3, 6, "x is free in the formula, and not a column: the columns line has none"),
    ("columns x x\nweld(x)", 1, 11, "x is a column twice"),
    ("columns v0\nweld(v0)", 1, 9, "read 'v0' where a column's name should stand: this column is variable 0, and v and digits can't name it"),
    ("columns x, y\njoint(x, y)", 1, 10, f"read ',' where a column's name should stand: {NAME}"),
    ("columns x\nweld(x) and v0 = 3", 1, 9, "x is variable 0, and the formula has v0"),
    ("columns a b c d e\njoint(a, b)", 1, 17, f"read 'e' where the line should end: {MOST_4}"),
    ("joint(a, b) and joint(c, d)\nand (weld(d) or weld(e) and weld(e))", 2, 22, f"e is free in the formula beside a, b, c and d: {MOST_4}"),
    ("exists e weld(e) and weld(e) and joint(d, c) and joint(b, a)", 1, 59, f"a is free in the formula beside e, d, c and b: {MOST_4}"),
    ("joint(a, b) and joint(c, d) and joint(e, e)", 1, 39, f"e is free in the formula beside a, b, c and d: {MOST_4}"),
    ("joint(a, b) and joint(c, d) and e = e", 1, 33, f"e is free in the formula beside a, b, c and d: {MOST_4}"),
    # limits
    ("\n".join(f"weld(x{i}) and" for i in range(17)) + " true", 17, 6, "more than 16 variables, with x16"),
    ("\n".join(f"x = {i} or" for i in range(17)) + " true", 17, 5, "more than 16 different numbers, with 16"),
    ("not\n" * 63 + "not weld(x)", 1, 1, "more than 64 nodes, with 'not'"),
    ("weld(x) or " * 32 + "weld(x)", 1, 350, "more than 64 nodes, with 'or'"),
    ("(" * 300 + "true" + ")" * 300, 1, 151, "more than 150 parentheses, nots and exists around each other"),
]
RELATION = "read {} where a relation or the word relation should stand: the text has {} above"
REFUSED_STORES = [
    ("relation", 1, 9, "read the end of the line where a relation's number should stand: 0 to 15"),
    ("relation 0", 1, 11, f"read the end of the line where a relation's name should stand: {NAME}"),
    ("relation 0 joint # 2", 1, 17, "read the end of the line where a width should stand: 1 to 4"),
    ("relation 0 joint 2 2", 1, 20, "read '2' where the line should end: a relation has a number, a name and a width"),
    ("relation 16 joint 2", 1, 10, "read '16' where a relation's number should stand: 0 to 15"),
    ("relation x a 1", 1, 10, "read 'x' where a relation's number should stand: 0 to 15"),
    ("relation 0 joint 5", 1, 18, "read '5' where a width should stand: 1 to 4"),
    ("relation 0 joint 0", 1, 18, "read '0' where a width should stand: 1 to 4"),
    ("relation 0 and 1", 1, 12, f"read 'and' where a relation's name should stand: {NAME}"),
    ("relation 0 r1 1", 1, 12, "read 'r1' where a relation's name should stand: r and digits can only be the relation's own number, r0"),
    ("relation 0 r00 1", 1, 12, "read 'r00' where a relation's name should stand: r and digits can only be the relation's own number, r0"),
    ("relation 0 a 1\nrelation 0 b 1", 2, 10, "relation 0 is given twice"),
    ("relation 0 a 1\n relation 1 a 1", 2, 13, "read 'a' where a new name should stand: a is relation 0"),
    ("# none yet\n\tjoint 7 3", 2, 2, RELATION.format("'joint'", "no relation")),
    ("relaton 0 joint 2", 1, 1, RELATION.format("'relaton'", "no relation") + "; is relation meant?"),
    ("relation 0 joint 2\njiont 7 3", 2, 1, RELATION.format("'jiont'", "joint") + "; is joint meant?"),
    ("99 7 3", 1, 1, RELATION.format("'99'", "no relation")),
    ("relation 0 joint 2\nrelation 3 dig 1\n1 7", 3, 1, RELATION.format("'1'", "joint and dig")),
    ("relation 0 joint 2\n0 7", 2, 4, "read the end of the line where a value should stand: a record of relation 0 has 2 values"),
    ("relation 0 joint 2\njoint 7 3 5", 2, 11, "read '5' where the line should end: a record of joint has 2 values"),
    ("relation 0 joint 2\njoint 7  -3", 2, 10, "read '-3' where a value should stand: 0 to 4294967295"),
    ("relation 0 joint 2\njoint 7 4294967296", 2, 9, "read '4294967296' where a value should stand: 0 to 4294967295"),
    ("relation 0 a 1\n" + "\n".join(f"a {i}" for i in range(257)), 258, 1, "more than 256 different records"),
    ("relation 0 a 1\n" + "a 1\n" * 500, 482, 1, "more than 480 records, with which an input is over 8192 bytes: give each record once"),
]
REFUSED_TEXTS = [
    ("", 1, 1, "read the end of the text where a line `query` should stand: it parts the store from the query"),
    ("relation 0 a 1\nquery a\na(x)", 3, 5, "read the end of the text where a line `query` should stand: it parts the store from the query"),
    ("relation 0 a 1\n query # here\n\na(x, y)", 4, 4, "read ',' where ')' should stand: a has 1 value"),
    ("b 1\nquery\na(x)", 1, 1, RELATION.format("'b'", "no relation")),
    ("query\nquery", 2, 1, f"read 'query' where {FORMULA}"),
    ("relation 0 a 1\n" + "a 1\n" * 480 + "query\na(x) and not a(y)", 481, 1,
     "more than 479 records, with which an input is over 8192 bytes: give each record once"),
]


def told(pack, *texts, **options):
    """What menu.py packs, or its words where it refuses."""
    try:
        return pack(*texts, **options)
    except menu.Refused as refused:
        return str(refused)


def check_texts():
    """How many texts were tried."""
    for one, other in FORMS:
        compare(f"{one!r} packed as {other!r}", told(menu.pack, STORE, other), told(menu.pack, STORE, one))
    for text, line, column, said in REFUSED_QUERIES:
        compare(f"the query {text[:60]!r}", f"the query, line {line}, column {column}: {said}", told(menu.pack, STORE, text))
    for text, line, column, said in REFUSED_STORES:
        compare(f"the store {text[:60]!r}", f"the store, line {line}, column {column}: {said}", told(menu.pack, text, "true"))
    for text, line, column, said in REFUSED_TEXTS:
        compare(f"the text {text[:60]!r}", f"the text, line {line}, column {column}: {said}", told(menu.pack_one, text))
    return len(FORMS) + len(REFUSED_QUERIES) + len(REFUSED_STORES) + len(REFUSED_TEXTS)


# ---- rules

RULES = [
    # rule, a query text with the same packed query
    ("q(X0,X1):-r0(X0,X1),not r1(X0).", "joint(v0, v1) and not weld(v0)"),
    ("q(X2):-r0(X2,X5),r1(X5),X3 = 7.", "exists v3 exists v5 (joint(v2, v5) and weld(v5) and v3 = 7)"),
    ("q:-r0(9,X0),r0(7,X0),X0 = X0.", "exists v0 (joint(9, v0) and joint(7, v0) and v0 = v0)"),
    ("q(X0):-X0 = 4294967295.", "v0 = 4294967295"),
]
GOAL = "a goal should stand: a relation such as r3(X0,17), the same after not, or an equality such as X0 = 17"
RULE_TERM = "a term should stand: a variable such as X0, or a number"
RULE_END = "the rule should end: only one line feed may follow its full stop"
SPACES = "; the only spaces are the one after not and the two around ="
LIMIT = "the rule is past a limit: "
REFUSED_RULES = [
    # rule, column, what is said
    (b"", 1, "read the end of the rule where 'q' should stand"),
    (b"\n", 1, "read the end of the rule where 'q' should stand"),
    (b"# all\nq(X0):-r1(X0).", 1, "read '#' where 'q' should stand; a rule has no comments"),
    (b"\xef\xbb\xbfq(X0):-r1(X0).", 1, "read '\\ufeff' where 'q' should stand"),
    (b"q", 2, "read the end of the rule where '(' or ':' should stand"),
    (b"q():-r1(X0).", 3, "read ')' where a variable should stand, such as X0"),
    (b"q(X):-r1(X0).", 4, "read ')' where a digit should stand"),
    (b"q(X00):-r1(X0).", 5, "read '0' where ')' or ',' should stand; numbers have no leading zeros"),
    (b"q(X0) :-r1(X0).", 6, f"read ' ' where ':' should stand{SPACES}"),
    (b"q(X0):-", 8, f"read the end of the rule where {GOAL}"),
    (b"q(X0):- r1(X0).", 8, f"read ' ' where {GOAL}{SPACES}"),
    (b"q(X0):-weld(X0).", 8, f"read 'w' where {GOAL}"),
    (b"q(X0):-not X0 = 1.", 12, "read 'X' where 'r' should stand"),
    (b"q(X0):-X0=1.", 10, "read '=' where ' ' should stand"),
    (b"q(X0):-r1().", 11, f"read ')' where {RULE_TERM}"),
    (b"q(X0):-r1(\xff).", 11, f"read byte ff where {RULE_TERM}"),
    (b"q(X0):-r1(\xc3\xa4).", 11, f"read '\u00e4' where {RULE_TERM}"),
    (b"q(X0):-r1(\0).", 11, f"read '\\x00' where {RULE_TERM}"),
    (b"q(X0):-r1(X0,17", 16, "read the end of the rule where a digit, ')' or ',' should stand"),
    (b"q(X0):-r1(X0)", 14, "read the end of the rule where ',' or '.' should stand"),
    (b"q(X0):-r1(X0)\n.", 14, "read '\\n' where ',' or '.' should stand"),
    (b"q(X0):-r1(X0).\n\n", 15, f"read '\\n' where {RULE_END}"),
    (b"q(X0):-r1(X0).\r\n", 15, f"read '\\r' where {RULE_END}"),
    (b"q(X0):-r1(X0). \n", 15, f"read ' ' where {RULE_END}{SPACES}"),
    (b"q(X0):-r1(X0).q:-r1(1).\n", 15, f"read 'q' where {RULE_END}"),
    (b"q(X16):-r1(X16).", 17, f"{LIMIT}X16 is over X15"),
    (b"q(X0):-r16(X0).\n", 16, f"{LIMIT}r16 is over r15"),
    (b"q(X0):-X0 = 4294967296.", 24, f"{LIMIT}4294967296 is over 4294967295"),
    (b"q:-r1(" + b"9" * 5000 + b").", 5009, f"{LIMIT}{'9' * 20} is over 4294967295"),
    (b"q(X0,X1,X2,X3,X4):-r1(X0,X1,X2),r1(X3,X4).", 43, f"{LIMIT}the head has 5 variables, and a list has at most 4 columns"),
    (b"q(X0,X3):-r1(X0).", 18, f"{LIMIT}X3 stands in the head and in no goal"),
    (b"q(X0,X0):-r1(X0).", 18, f"{LIMIT}X0 stands in the head twice"),
    (b"q(X10,X2):-r1(X10,X2).", 23, f"{LIMIT}X2 stands in the head after X10, and a head ascends"),
    (b"q:-not r1(1,1,1,1,1).", 22, f"{LIMIT}not r1 has 5 terms, and a record has at most 4 values"),
    (b"q:-" + b",".join(b"r1(%d)" % i for i in range(17)) + b".", 113, f"{LIMIT}it has 17 different numbers, and 16 are the most"),
    (b"q:-" + b"not r1(X0)," * 21 + b"r1(X0).", 242, f"{LIMIT}it packs into 65 nodes, and 64 are the most"),
]


def check_rules(engine, library):
    """Rules, packed as query texts are or refused in words; how many were tried."""
    for rule, query in RULES:
        for end in "", "\n":
            came = told(lambda *texts: menu_rule.read_rule(*texts).data, engine.rule, STORE, (rule + end).encode())
            compare(f"the rule {rule!r}", told(menu.pack, STORE, query), came)
    for rule, column, said in REFUSED_RULES:
        place = f" (refused 20 {column - 1})"
        compare(f"the rule {rule[:60]!r}", f"the rule, line 1, column {column}: {said}{place}", told(menu_rule.read_rule, engine.rule, STORE, rule))
    texts = [text.encode() for _, text in [*rules.within(), *rules.past()]] + [rules.random_rule(random.Random(i)) for i in range(200)]
    for text in texts:  # the words name a limit where there is one
        compare(f"whether {text[:60]!r} is past a limit", rule_reader.read_rule(text)[0] is None, any(menu_rule.limits(text)))
    return len(RULES) * 2 + len(REFUSED_RULES) + len(texts) + check_rule_files(library)


RULE_LIST, QUERY_LIST = b"safe\nX2\n 7\n1 row\n", b"safe\nx (v0)\n     7\n1 row\n"
Q_STORE = STORE.replace("weld", "q")


def check_rule_files(library):
    """Where a rule is taken for one; how many ways were tried."""
    with tempfile.TemporaryDirectory() as name:
        folder = pathlib.Path(name)
        for file, text in (("s.txt", STORE), ("q.txt", Q_STORE), ("a.rule", "q(X2):-r1(X2).\n"), ("a.txt", "q(X2):-r1(X2).\n"), ("b.rule", "weld(x)\n")):
            (folder / file).write_text(text)
        store, with_q, a, b, other = (folder / file for file in ("s.txt", "q.txt", "a.rule", "b.rule", "a.txt"))
        tried = [
            # words, standard input, the list or what is said
            ([store, a], "", RULE_LIST),
            ([store, "-"], "q(X2):-r1(X2).\n", RULE_LIST),
            ([store, "-"], "q(X2):-r1(X2).", RULE_LIST),
            (["-", a], STORE, RULE_LIST),
            (["-"], f"{STORE}query\nq(X2):-r1(X2).\n", RULE_LIST),
            (["-"], f"{STORE} query # a rule\nq:-r1(7).", b"safe\nno columns\n1 row: yes\n"),
            (["-"], f"{Q_STORE}query\nq(X2):-r1(X2).\n", RULE_LIST),
            (["-"], f"{Q_STORE}query\nq(x) # not :-\n", QUERY_LIST),
            ([with_q, "-"], "q(x)\n", QUERY_LIST),
            ([store, other], "", f"{other}, line 1, column 1: read 'q' where a relation should stand: the store text has joint and weld"),
            ([store, b], "", f"{b}, line 1, column 1: read 'w' where 'q' should stand (refused 20 0)"),
            ([a], "", f"{a} is a rule without a store: name the store text before it"),
            (["-"], f"{STORE}query\nq(X2):-r1(X2)\n", "-, line 7, column 14: read the end of the rule where ',' or '.' should stand (refused 20 13)"),
            (["-"], f"{STORE}query\nq(X2)\n", "-, line 7, column 6: read the end of the rule where ':' should stand (refused 20 5)"),
            (["-"], f"{STORE}query\n\nq(X2):-r1(X2).\n", "-, line 8, column 1: read 'q' where a relation should stand: the store text has joint and weld"),
            (["-", a], "relation 16 a 1", "-, line 1, column 10: read '16' where a relation's number should stand: 0 to 15"),
        ]
        for words, text, wanted in tried:
            came = command("run", *words, "--library", library, data=text.encode())
            compare(f"run {words} {text!r}", (0, wanted, "") if isinstance(wanted, bytes) else (2, b"", f"menu.py: {wanted}\n"), came)
        data = menu.pack(STORE, "weld(v2)")
        compare("pack of a rule", (0, data, ""), command("pack", store, a, "--library", library))
        came = command("pack", store, a, "-o", folder / "a.bin", "--library", library)
        compare("pack -o of a rule", (0, b"", "", data), (*came, (folder / "a.bin").read_bytes()))
        compare("pack of a rule without an engine", (2, b"", f"menu.py: {NO_LIBRARY}\n"), command("pack", store, a, "--library", NOWHERE))
        compare("pack of a query text without an engine", (0, PACKED, ""), command("pack", "-", "--library", NOWHERE, data=GOOD))
        crowd = "relation 0 a 1\n" + "a 1\n" * 481
        said = "-, line 482, column 1: more than 480 records, with which an input is over 8192 bytes: give each record once"
        compare("pack of a rule over too many records", (2, b"", f"menu.py: {said}\n"), command("pack", "-", a, "--library", library, data=crowd.encode()))
    return len(tried) + 5


# ---- files and exit statuses

# A child process whose files may have 20 bytes.
LIMITED = """import resource, sys
resource.setrlimit(resource.RLIMIT_FSIZE, (20, 20))
sys.path.insert(0, sys.argv[1])
import menu
sys.exit(menu.main(sys.argv[2:]))
"""
GOOD, OTHER, BAD = (f"{STORE}query\n{line}\n".encode() for line in ("weld(x)", "weld(x) or true", "weld(_)"))
PACKED, OTHER_PACKED = menu.pack(STORE, "weld(x)"), menu.pack(STORE, "weld(x) or true")


def check_output_file():
    """pack -o writes a whole file or none, and leaves nothing else; how many ways were tried."""
    tried = [
        ("a text that is refused", BAD, "new.bin", 2, {}),
        ("a folder that is not there", GOOD, "none/new.bin", 2, {}),
        ("a folder for a file", GOOD, "place", 2, {}),
        ("a new file", GOOD, "new.bin", 0, {"new.bin": PACKED}),
        ("a file that stays", BAD, "new.bin", 2, {"new.bin": PACKED}),
        ("a file that is replaced", OTHER, "new.bin", 0, {"new.bin": OTHER_PACKED}),
        ("a file for a folder", GOOD, "new.bin/other", 2, {"new.bin": OTHER_PACKED}),
        ("a link", GOOD, "link", 0, {"new.bin": PACKED}),
    ]
    with tempfile.TemporaryDirectory() as name:
        folder = pathlib.Path(name)
        files = lambda: {path.name: path.read_bytes() for path in folder.iterdir() if path.is_file() and not path.is_symlink()}
        (folder / "place").mkdir()
        (folder / "link").symlink_to("new.bin")
        os.mkfifo(folder / "pipe")
        for title, text, output, status, then in tried:
            came = command("pack", "-", "-o", folder / output, data=text)
            compare(f"pack -o, {title}", (status, b"", status // 2, then), (*came[:2], came[2].count("\n"), files()))
        words = [sys.executable, "-c", LIMITED, EXAMPLES, "pack", "-", "-o", folder / "short.bin"]
        done = subprocess.run(words, input=GOOD, capture_output=True, env={"PYTHONDONTWRITEBYTECODE": "1"})
        compare("pack -o, a write that fails", (2, f"menu.py: {folder}/short.bin: File too large\n"), (done.returncode, done.stderr.decode()))
        said = f"menu.py: {folder}/pipe is not a file that can be replaced: without -o the bytes go to standard output\n"
        compare("pack -o, a pipe", (2, b"", said), command("pack", "-", "-o", folder / "pipe", data=GOOD))
        compare("pack -o, what is left", ["link", "new.bin", "pipe", "place"], sorted(path.name for path in folder.iterdir()))
    compare("pack without -o", (0, PACKED, ""), command("pack", "-", data=GOOD))
    compare("pack -o -", (0, PACKED, ""), command("pack", "-", "-o", "-", data=GOOD))
    return len(tried) + 4


NOWHERE, FIRST = EXAMPLES / "no-such-file", EXAMPLES / "first" / "input.bin"
NO_LIBRARY = f"{NOWHERE} is not there: run `tools/build host` at the top of the checkout, which makes target/staticlib/libhost.a"
WRONG_WORDS = [
    # words, the command that tells, a part of what it says
    ([], "", "COMMAND"),
    (["list"], "", "'list'"),
    (["--quick"], "", "COMMAND"),
    (["pack"], " pack", "FILE"),
    (["pack", "a", "b", "c"], " pack", "c is a third file"),
    (["pack", "a", "-o"], " pack", "-o"),
    (["pack", "a", "--out", "b"], "", "--out b"),
    (["run", "a", "-o", "b"], "", "-o b"),
    (["run", "a", "b", "c", "d"], " run", "c is a third file"),
    (["explain", "--quick", "a"], "", "--quick"),
    (["explain"], " explain", "FILE"),
    (["show", "a", "b"], "", "b"),
    (["show"], " show", "INPUT.bin"),
]
WRONG_FILES = [
    # words, standard input, what is said
    (["pack", NOWHERE, "-"], b"", f"{NOWHERE}: No such file or directory"),
    (["show", EXAMPLES], b"", f"{EXAMPLES}: Is a directory"),
    (["pack", "-", "-"], b"", "standard input is one text, and can't be both"),
    (["pack", "-"], b"\xff\xfe", "- is not a text in UTF-8"),
    (["pack", "-"], b"relation 0 a 1\nquery\n7 = x\n", f"-, line 3, column 1: read '7' where {FORMULA}; an equality has its variable first"),
    (["run", "-"], b"relation 0 a 1\nquery\na()\n", f"-, line 3, column 3: read ')' where {TERM}"),
    (["explain", "-"], b"relation 0 a 1\nquery\na(_)\n", f"-, line 3, column 3: {UNDERSCORE}"),
    (["run", FIRST, "--library", NOWHERE], b"", NO_LIBRARY),
    (["explain", "--library", NOWHERE, FIRST], b"", NO_LIBRARY),
]
RIGHT_WORDS = [
    # words, exit status, how the output starts
    (["--help"], 0, b"usage: menu.py pack | run | explain | show\n"),
    (["pack", "-h"], 0, b"usage: menu.py pack STORE.txt QUERY.txt -o INPUT.bin\n"),
    (["explain", "--help"], 0, b"usage: menu.py explain STORE.txt QUERY.txt\n"),
    (["show", FIRST], 0, b"# packed input of 87 bytes\n"),
    (["show", "-"], 1, b"# packed input of 0 bytes\n"),
    (["run", FIRST], 0, b"safe\n"),
    (["run", "-"], 1, b"refused 2: "),
    (["explain", "-"], 1, b"refused 2: "),
]


def check_words(library):
    """Command lines, files that are none, and outputs that fail; how many were tried."""
    for words, name, said in WRONG_WORDS:
        status, out, err = command(*words)
        right = re.fullmatch(f"menu.py{name}: .*{re.escape(said)}.*; menu.py{name} --help says how it is called\n", err)
        compare(f"menu.py {' '.join(words)}", (2, b"", True, err), (status, out, bool(right), err))
    for words, data, said in WRONG_FILES:
        compare(f"menu.py {' '.join(map(str, words))}", (2, b"", f"menu.py: {said}\n"), command(*words, data=data))
    for words, status, start in RIGHT_WORDS:
        came = command(*words, *(["--library", library] if words[0] in ("run", "explain") and "--help" not in words else []))
        compare(f"menu.py {' '.join(map(str, words))}", (status, start, ""), (came[0], came[1][:len(start)], came[2]))
    status, out, err = command("run", FIRST, "--library", EXAMPLES / "menu.py")
    compare("a library that is none", (2, b"", 1, True), (status, out, err.count("\n"), err.startswith("menu.py: gcc makes no shared object of ")))
    for output, said in (("> /dev/full", "standard output: No space left on device"), (">&-", "standard output is closed")):
        line = f"exec {output}; exec '{sys.executable}' '{EXAMPLES}/menu.py' run --library '{library}' '{FIRST}'"
        done = subprocess.run(["sh", "-c", line], stderr=subprocess.PIPE, text=True)
        compare(f"run {output}", (2, f"menu.py: {said}\n"), (done.returncode, done.stderr))
    return len(WRONG_WORDS) + len(WRONG_FILES) + len(RIGHT_WORDS) + 3


def check_library(library):
    """The shared object is made once, and again where the archive is newer."""
    with tempfile.TemporaryDirectory() as folder:
        archive = pathlib.Path(shutil.copy(library, folder))
        made = menu_engine.shared_object(archive)
        times = [made.stat().st_mtime_ns, menu_engine.shared_object(archive).stat().st_mtime_ns]
        now = time.time()
        os.utime(made, (now - 20, now - 20))
        os.utime(archive, (now - 10, now - 10))
        times.append(menu_engine.shared_object(archive).stat().st_mtime_ns)
        made.unlink()
        compare("the shared object, whether it is made anew", [False, True], [times[0] != times[1], times[2] > (now - 15) * 10**9])


# ---- run and explain on the examples and the worked cases, against the stored texts

WORKED = [
    "joint(x, y) and not weld(x)", "not weld(x)", "weld(x) and x = y", "x = y and weld(x)", "not (not weld(x) or not x = y)", "weld(x) and y = y",
    "false and weld(x)", "exists y weld(x)", "exists x not weld(x)", "x = 7", "exists y (joint(x, y) or weld(x))",
    # the traps, and what reasons are made of
    "not weld(x) and exists x weld(x)", "weld(x) and not not x = y", "y = z and x = y", "weld(z) and x = y and (y = z or x = z)",
    # document 02's equality on either side
    "x = y and weld(x) and weld(y)", "x = y and (weld(x) and weld(y))", "not not x = y and weld(x)", "x = y and y = z and weld(z)", "x = y and (y = z and weld(z))",
    "x = y and exists x weld(x)",
    "not (weld(x) and joint(x, y))", "not exists y not (joint(x, y) and y = 3)", "exists y (x = y and (weld(y) or not weld(x)))", "true or weld(x)",
    "exists x weld(x) and x = x", "exists a exists b exists c (joint(a, b) and joint(c, x) and not (joint(x, y) or joint(z, u) and a = y))",
    "joint(x, y) and r9(x)", "r1(x, y)",
]
WORKED_OVER_NONE = ["weld(x) and y = y", "x = 7"]
MANY = "relation 0 a 1\n" + "".join(f"a {i}\n" for i in range(46))  # with two columns 4,232 numbers


def stored_cases():
    """Title and words of each command whose output is stored, and what it reads."""
    for name in ("run", "explain"):
        yield f"{name} first", [name, EXAMPLES / "first" / "store.txt", EXAMPLES / "first" / "query.txt"], ""
        for query in sorted((EXAMPLES / "catalogue").glob("[0-9][0-9]-*.txt")):
            files = [query.with_suffix(".bin")] if query.stem == "11-five-columns" else [EXAMPLES / "catalogue" / "store.txt", query]
            yield f"{name} {query.stem}", [name, *files], ""
        for rule in [*sorted((EXAMPLES / "catalogue").glob("*.rule")), *sorted((EXAMPLES / "rules").glob("*.rule"))]:
            yield f"{name} {rule.parent.name}/{rule.name}", [name, EXAMPLES / "catalogue" / "store.txt", rule], ""
        for query in WORKED:
            yield f"{name} over S: {query}", [name, "-"], f"{STORE}query\n{query}\n"
        for query in WORKED_OVER_NONE:
            yield f"{name} over no records: {query}", [name, "-"], f"relation 0 joint 2\nrelation 1 weld 1\nquery\n{query}\n"
        yield f"{name} over 46 records: a(x) and a(y)", [name, "-"], f"{MANY}query\na(x) and a(y)\n"


def outputs(library):
    """The stored texts as they come now."""
    for title, words, text in stored_cases():
        status, out, err = command(*words, "--library", library, data=text.encode())
        if err:
            fail(title, f"on standard error: {err}")
        yield title, f"{out.decode()}exit status {status}\n"


def check_stored(library):
    came, expected = dict(outputs(library)), {}
    for part in STORED.read_text().split("== ")[1:]:
        title, text = part.split("\n", 1)
        expected[title] = text
    compare("the titles of menu_texts.expected", "\n".join(expected) + "\n", "\n".join(came) + "\n")
    for title in came:
        compare(title, expected.get(title, ""), came[title])
    return len(came)


def check_packed_alike(library):
    """A packed input is listed and explained as the text that show prints of it."""
    for path in sorted(EXAMPLES.rglob("*.bin")):
        text = command("show", path)[1]
        for name in ("run", "explain"):
            packed, shown = command(name, path, "--library", library), command(name, "-", "--library", library, data=text)
            if path.stem != "11-five-columns":
                compare(f"{name} {path.name} and its text", shown[1].decode(), packed[1].decode())
                compare(f"{name} {path.name} and its text", shown[::2], packed[::2])


# ---- README.md

def check_readme(library):
    text = (HERE / "README.md").read_text()
    rows = [tuple(map(str.strip, line.strip("|").split("|"))) for line in text.split("\n") if re.match(r"\| [0-9]+ \|", line)]
    table = [(str(number), *words) for number, words in menu_engine.CAUSES.items()]
    compare("README.md's table of refusals", "\n".join(map(" | ".join, table)) + "\n", "\n".join(map(" | ".join, rows)) + "\n")
    header = re.findall(r"^//   ([0-9]+) +(?:0|a node|a byte) ", (HERE / "include" / "palmrummy.h").read_text(), re.MULTILINE)
    compare("the numbers of include/palmrummy.h's table", [number for number, *_ in table], header)
    shown = re.findall(r"^    (examples/menu\.py (?:run|explain) .*)\n\n.*\n\n((?:    .*\n)+)", text, re.MULTILINE)
    if not shown:
        fail("README.md", "no output of run or explain is shown")
    for line, output in shown:
        words = [str(HERE / word) if "/" in word else word for word in line.split("#")[0].split()[1:]]
        compare(f"README.md's output of {line}", re.sub("^    ", "", output, flags=re.MULTILINE), command(*words, "--library", library)[1].decode())


# ---- random queries; formulas are those of verdicts.py

WIDTHS = bytes([1, 2, 3, 4] + [0] * 12)
VALUES = (0, 7, 9, 4294967295)


def record(relation, *terms):
    return "record", 1 << 29 | relation << 25 | len(terms) << 22 | sum(t << 17 - 5 * at for at, t in enumerate(terms)), terms


def equality(x, t):
    return "equality", 2 << 29 | x << 25 | t << 20, x, t


def random_leaf(rng, variables, terms):
    relation, x = rng.choice([0, 0, 1, 1, 2, 3]), rng.choice(variables)
    sort = rng.choice(["record", "record", "record", "term", "variable", "truth"])
    if sort == "record":
        return record(relation, *rng.choices(terms, k=relation + 1))
    return ("truth", rng.random() < 0.5) if sort == "truth" else equality(x, rng.choice(terms if sort == "term" else variables))


def random_formula(rng, room, variables, terms):
    """Of at most room nodes."""
    sort = rng.choice(["leaf", "not", "exists", "exists", "and", "and", "and", "or", "or"][:9 if room > 2 else 3 if room == 2 else 1])
    if sort == "leaf":
        return random_leaf(rng, variables, terms)
    if sort == "not":
        return "not", random_formula(rng, room - 1, variables, terms)
    if sort == "exists":
        return "exists", rng.choice(variables), random_formula(rng, room - 1, variables, terms)
    left = random_formula(rng, rng.randint(1, room - 2), variables, terms)
    return sort, left, random_formula(rng, room - 1 - verdicts.size(left), variables, terms)


SORTS = {
    # variables, and the most nodes before some of them are bound
    "small": ([[0], [0, 1], [0, 1, 2]], [3, 6, 12]),
    "deep": ([list(range(8)), [1, 3, 5, 7, 9, 15], list(range(16))], [20, 40, 48]),
    "full": ([[0, 1, 2], [2, 5, 8, 11]], [64]),  # of 60 to 64 nodes
}


def random_query(rng):
    """A formula with at most 4 free variables and 64 nodes, its constants, and records."""
    sort = rng.choice(["small", "small", "small", "deep", "deep", "full"])
    names, most = map(rng.choice, SORTS[sort])
    constants = rng.sample(range(5, 40), rng.choice([0, 1, 2, 2, 3, 15, 16]))
    terms = names * 3 + [16 + i for i in range(len(constants))]
    f = random_formula(rng, most, names, terms)
    while sort == "full" and verdicts.size(f) < 60:
        f = rng.choice(["and", "or"]), *rng.sample([f, random_formula(rng, 63 - verdicts.size(f), names, terms)], 2)
    free = sorted(verdicts.free(f))
    for x in rng.sample(free, max(0, len(free) - (4 if sort == "full" else rng.choice([1, 2, 3, 4, 4])))):
        f = "exists", x, f
    values = [*VALUES, *constants[:2]]
    records = [(k, *(rng.choice(values) if i <= k else 0 for i in range(4))) for k in rng.choices(range(4), k=rng.choice([0, 2, 5, 9]))]
    return f, constants, records


def packed(f, constants, records):
    nodes = verdicts.words(f)
    numbers = struct.pack(f">H{len(constants) + len(nodes)}I", 1 << 12 | len(nodes) << 5 | len(constants), *constants, *nodes)
    return WIDTHS + struct.pack(">H", len(records)) + b"".join(struct.pack(">B4I", *r) for r in records) + numbers


# ---- what is said of a random query, against the accounts

def parts(i, f):
    """The numbers of a node's children, in packing's order."""
    if f[0] in ("and", "or"):
        return [i - 1 - verdicts.size(f[2]), i - 1]
    return [i - 1] if f[0] in ("not", "exists") else []


def generated(f, x, denied):
    return (verdicts.denied if denied else verdicts.plain)(f, 0, x) is not None


def equates(f, x):
    """The other variable, where f equates x with one."""
    return next((y for y in f[2:4] if y != x), None) if f[0] == "equality" and x in f[2:4] and f[3] < 16 else None


def asked_next(forms, i, x, denied):
    """The order: what it asks of other nodes to judge node i for x."""
    f, below = forms[i], parts(i, forms[i])
    if x not in verdicts.free(f) or denied and f[0] == "exists":
        return []
    asked = [(c, x, denied != (f[0] == "not")) for c in below]
    if f[0] == "and" and not denied:
        asked += [(other, equates(side, x), False) for side, other in ((f[2], below[0]), (f[1], below[1])) if equates(side, x) is not None]
    return asked


def words_of(forms, i, x, denied):
    """What a reason has to say, beside the rule."""
    f, below = forms[i], parts(i, forms[i])
    if x not in verdicts.free(f):
        return [f"has v{x} only under an exists v{x} of its own, which is another variable" if x in answers.variables(f) else f"doesn't name v{x}"]
    if f[0] in ("record", "equality") or denied and f[0] == "exists":
        return [f"a denied {f[0]} generates nothing" if denied else "an equality of two variables generates neither"]
    lacks = [c for c in below if not generated(forms[c], x, denied != (f[0] == "not"))]
    words = [f"node {lacks[0]} doesn't generate v{x}" if len(below) == 1 else f"neither side generates v{x}" if len(lacks) == 2
             else f"the {'left' if lacks[0] == below[0] else 'right'} side, node {lacks[0]}, doesn't generate v{x}"]
    if f[0] == "and" and not denied:
        sides = [(equates(f[2], x), "right", "left"), (equates(f[1], x), "left", "right")]
        told = [f"the {one} side equates v{x} with v{y}, which the {other} side doesn't generate" for y, one, other in sides if y is not None]
        words += told or [f"neither side is an equality with v{x}"]
    return words


def check_step(name, forms, step, explained):
    """A step of a reason, and those below it."""
    i, x, denied = step[:3]
    truly = generated(forms[i], x, denied)
    if step.generated != truly:
        return fail(name, f"node {i} is said {'to generate' if step.generated else 'not to generate'} v{x}{' denied' * denied}")
    below, words = [] if truly else asked_next(forms, i, x, denied), [f"generates v{x}"] if truly else words_of(forms, i, x, denied)
    if below and (i, x, denied) in explained:
        below, words = [], [f"doesn't generate v{x}, as above"]
    explained.add((i, x, denied))
    if any(text not in step.reason for text in words):
        fail(name, f"node {i}, v{x}{', denied' * denied}: {step.reason!r} lacks {words}")
    if [other[:3] for other in step.below] != below:
        fail(name, f"node {i}, v{x}{', denied' * denied}: rests on {[other[:3] for other in step.below]}, and not on {below}")
    for other in step.below:
        check_step(name, forms, other, explained)


def check_mends(name, mends, moved=None):
    """The mends that are told are those that there are."""
    moves = [int(i) for text in mends for i in re.findall(r"move exists v\d+ into node (\d+),", text)]
    compare(f"{name}: where an exists can move", [] if moved is None else [moved], moves)


def joined_generates(f, x):
    """A record or an equality joined to a formula by and generates its variable."""
    return all(generated(verdicts.propagated(("and", f, more)), x, False) for more in (record(0, x), equality(x, 16)))


def check_reasons(name, told, f):
    """How many columns and exists were explained."""
    form = verdicts.propagated(f)
    forms = dict(verdicts.subformulas(form))
    root = len(forms) - 1
    for x, (step, mends) in told.columns.items():
        if (step is None) != (x not in verdicts.free(form)) or step and step[:4] != (root, x, False, False):
            fail(name, f"the reason for v{x} starts with {step}")
        elif step:
            check_step(name, forms, step, set())
        check_mends(name, mends)
        if not joined_generates(f, x):
            fail(name, f"v{x} isn't generated by what is joined to the line")
    for i, (step, mends) in told.exists.items():
        child, x = forms[i][2], forms[i][1]
        if step[:4] != (i - 1, x, False, False):
            fail(name, f"the reason for node {i} starts with {step}")
        check_step(name, forms, step, set())
        named = [c for c, g in zip(parts(i - 1, child), child[1:]) if x in verdicts.free(g)] if child[0] == "or" else []
        check_mends(name, mends, named[0] if len(named) == 1 else None)
        if not joined_generates(child, x):
            fail(name, f"v{x} isn't generated by what is joined below node {i}")
    return len(told.columns) + len(told.exists)


def term_text(t, constants):
    return f"v{t}" if t < 16 else str(constants[t - 16])


def tree_text(f, constants, i, depth=0):
    """The lines of a tree, from its formula."""
    if f[0] == "truth":
        text = "truth true" if f[1] else "truth false"
    elif f[0] == "record":
        text = f"record r{f[1] >> 25 & 15}({', '.join(term_text(t, constants) for t in f[2])})"
    elif f[0] == "equality":
        text = f"equality v{f[2]} = {term_text(f[3], constants)}"
    else:
        text = f"exists v{f[1]}" if f[0] == "exists" else f[0]
    below = [g for g in f[1:] if isinstance(g, tuple)] if f[0] in ("not", "and", "or", "exists") else []
    return [f"{i:4}  {'  ' * depth}{text}"] + [line for c, g in zip(parts(i, f), below) for line in tree_text(g, constants, c, depth + 1)]


def check_told(name, told, f, constants, columns, verdict):
    """The lines of an explanation: verdict, columns, trees and generators."""
    _, generators, ungenerated, unranged, safe = verdict
    text, form = list(told.verdict_lines()), verdicts.propagated(f)
    members = lambda number, width: [i for i in range(width) if number >> width - 1 - i & 1]
    exists = {int(i): int(x) for x, i in re.findall(r"the v(\d+) of node (\d+), exists v\1,", text[0])}
    lacking = re.findall(r"v(\d+)", re.sub(r"(, | and )?the v.*", "", text[0]))
    compare(f"{name}: the first line", (safe, members(ungenerated, 16), members(unranged, 64)), (text[0] == "safe", list(map(int, lacking)), list(exists)))
    trees = tree_text(f, constants, verdicts.size(f) - 1)
    if form != f:
        trees += ["tree of the form, which is judged (the nodes named below):", *tree_text(form, constants, verdicts.size(form) - 1)]
    head = [f"columns: {', '.join(f'v{x}' for x in columns) or 'none'}", "tree:" if form == f else "tree as read (a refusal names its nodes):", *trees]
    head += ["generators:"] * bool(columns)
    compare(f"{name}: columns and trees", "\n".join(head) + "\n", "\n".join(text[1:1 + len(head)]) + "\n")
    for x, number, line in zip(columns, generators, text[1 + len(head):]):
        leaves = [int(i) for i in re.findall(r"node (\d+), ", line)]
        compare(f"{name}: the generators of v{x}", (members(number, 64), x in members(ungenerated, 16)), (leaves, line == f"  v{x}: none"))


def fresh_columns(f, constants, columns, records):
    """For each column, whether a row with an unknown value in it satisfies the formula; None where the truth table is too large."""
    names, values = sorted(answers.variables(f)), answers.known(f, constants, records)
    fresh = min(len(columns) + answers.nested(f), len(names))
    if (len(values) + fresh) ** len(names) > 250000:
        return None
    t = answers.Table(values + [None] * fresh, names)
    table = answers.truth(f, t, constants, records)
    return {x: any(table & t.having(x, len(values) + i) for i in range(fresh)) for x in columns}


def check_answer(name, told, f, constants, columns, records):
    """Rows, or the columns that can be anything; whether the account could be asked."""
    fresh = fresh_columns(f, constants, columns, records)
    if fresh is None:
        return 0
    rows = answers.answer(columns, constants, verdicts.words(f), records)
    if isinstance(told.answer, menu_engine.Refusal):
        compare(f"{name}: the refusal", (18, True), (told.answer.number, len(rows) * len(columns) > 4096))
        return 1
    compare(f"{name}: the rows", ([] if rows is None else [tuple(row) for row in rows], rows is None), (told.answer.rows, told.answer.endless))
    if rows is None:
        crowded = verdicts.size(verdicts.propagated(f)) + len(columns) > 65 and len(constants) == 16
        compare(f"{name}: what can be anything", {x: told.anything[x] if crowded and told.anything[x] is None else fresh[x] for x in columns}, told.anything)
        text = list(told.lines())
        said = {int(x): end for x, end in re.findall(r"^  v(\d+) can be any number(.*)$", "\n".join(text), re.MULTILINE)}
        lost = set(columns) - verdicts.free(verdicts.propagated(f))
        compare(f"{name}: what can be anything, in words", {x: "" if x in lost else " but finitely many" for x in columns if told.anything[x]}, said)
    return 1


HERE_OF = {
    # what is said to stand at the place of a refusal
    2: "over 8192 bytes|the input ends at byte .*, in (the widths|the record count|record .*)", 1: "relation .* has width .*, over 4",
    3: "version .*, and not 1: .*|the input ends at byte .*, in the query's header", 4: ".* nodes, and not 1 to 64|.* constants, over 16",
    5: ".* after the query, which ends at byte .*|the input ends at byte .*, in (constant|node) .*", 6: "node {} has (kind 7|bits set that no field .*)",
    7: "node {} (has a child .*, which is not below it|is a child .* times?)", 8: "node {} names constant .*, of .*",
    9: "node {} (names relation .*, which is absent|has .* terms?, and relation .* has width .*)", 10: ".* columns, over 4: .*",
    13: "record .*: relation .*, values .*: .*", 15: ".* different records, over 256",
}


def check_refusal(name, came, number, place):
    """A refusal in words: the cause and its place, what stands there but for 18, and the mend."""
    cause, mend = menu_engine.CAUSES[number]
    head = f"refused {number} at node {place}, .*" if 6 <= number <= 9 else f"refused {number}"
    wanted = [f"{head}: {re.escape(cause)}", *([f"  here: ({HERE_OF[number].format(place)})"] if number in HERE_OF else []), f"  mend: {re.escape(mend)}"]
    if len(came) != len(wanted) or not all(map(re.fullmatch, wanted, came)):
        fail(name, f"refused {number} {place} is told as {came}")


def check_list(name, engine, data):
    """A list with names beside lines.py: whether it is one; None where the tables of lines.py are too large."""
    try:
        wanted = lines.lines(data).decode().split("\n")[:-1]
    except lines.TooLarge:
        return None
    came, listed = menu_explain.list_lines(engine, data, menu_nodes.Names())
    compare(f"{name}: whether it is listed", wanted[0].split()[0] != "refused", listed)
    if not listed:
        check_refusal(name, came, *map(int, wanted[0].split()[1:]))
        return False
    columns, rows, endless = wanted[1].split()[1:], [line.split()[1:] for line in wanted[2:-1]], wanted[-1] == "endless"
    head = " ".join(f"v{x}" for x in columns) or "no columns"
    count = "endless:" if endless else f"{len(rows)} row{'s' * (len(rows) != 1)}" + ("" if columns else ": yes" if rows else ": no")
    words = [" ".join(line.split()) for line in came[1:-1]]
    last = came[-1].split(" ")[0] if endless else came[-1]
    compare(f"{name}: the list", [wanted[0], head, *(" ".join(row) for row in rows if columns), count], [came[0], *words, last])
    compare(f"{name}: the lengths of the rows", 1, len({len(line) for line in came[1:-1]}))
    return True


def damaged(rng, data):
    data, at = bytearray(data), rng.choice([rng.randrange(len(data)), rng.randrange(18), rng.randrange(max(0, len(data) - 30), len(data))])
    sort = rng.choice(["bit", "bit", "bit", "byte", "cut", "longer", "insert", "count"])
    if sort == "bit":
        data[at] ^= 1 << rng.randrange(8)
    elif sort == "byte":
        data[at] = rng.randrange(256)
    elif sort == "cut":
        del data[at:]
    elif sort == "longer":
        data = data.ljust(rng.choice([len(data) + 1, len(data) + 4, 8193]), b"\0")
    elif sort == "insert":
        data[at:at] = rng.randbytes(rng.choice([1, 4, 17]))
    else:
        data[16:18] = struct.pack(">H", rng.choice([0, 1, 2, 300, 65535]))
    return bytes(data)


def is_deep(f):
    """Whether the engine may take long for its rows, and the accounts too."""
    return len(answers.variables(f)) > 4


def check_query(name, engine, f, constants, records, ran):
    """The explanation of a query; its rows and list too where it isn't deep."""
    data, columns = packed(f, constants, records), sorted(verdicts.free(f))
    told = menu_explain.Explanation(engine, data, menu_nodes.Names())
    if not told.judged:
        return fail(name, f"refused: {told.verdict}")
    check_told(name, told, f, constants, columns, verdicts.verdict(columns, verdicts.words(f)))
    ran["queries"] += 1
    ran["reasons"] += check_reasons(name, told, f)
    if not is_deep(f):
        ran["beside answers.py"] += check_answer(name, told, f, constants, columns, records)
        check_list(name, engine, data)


def guarded(name, check, *words):
    """What a check hands back; one that ends in an error or takes too long has failed."""
    signal.alarm(PATIENCE)
    try:
        return check(name, *words)
    except Exception as error:
        fail(name, f"{type(error).__name__}: {error}")
    finally:
        signal.alarm(0)


def joined(kind, leaves):
    return functools.reduce(lambda left, right: (kind, left, right), leaves)


def named_queries():
    """Queries at the limits: a name, a formula, its constants."""
    chain = [equality(0, 1)] * 31
    yield "31 equalities in a chain", joined("and", [record(0, 2), *chain]), []
    yield "31 equalities of five variables, one bound", ("exists", 4, joined("and", [record(0, 3), *(equality(i % 4, i % 4 + 1) for i in range(30))])), []
    twelve = joined("or", [record(3, 4 * i, 4 * i + 1, 4 * i + 2, 4 * i + 3) for i in range(4)])
    bound = functools.reduce(lambda f, x: ("exists", x, f), range(4, 16), twelve)
    yield "16 variables, 12 bound", bound, []
    nots = functools.reduce(lambda f, _: ("not", f), range(45), twelve)
    yield "64 nodes, 16 variables", functools.reduce(lambda f, x: ("exists", x, f), range(4, 16), nots), []
    for number in (15, 16):
        leaves = [equality(0, 16 + i) for i in range(number)] + [equality(1, 2), record(1, 2, 3)] * 7 + [record(0, 3)] * 3
        yield f"64 nodes, {number} constants", ("not", joined("or", leaves[:32])), list(range(number))
        yield f"63 nodes, {number} constants", joined("or", leaves[:32]), list(range(number))
    # Of too many nodes to bind the other columns: a column from records, one equal to a constant, one that is bound elsewhere.
    many = lambda number: joined("or", [equality(2, 3)] * number)
    yield "a column of records, 63 nodes", ("and", record(0, 0), many(31)), []
    yield "a column equal to 0, 63 nodes", ("and", ("and", equality(0, 1), equality(1, 16)), many(30)), [0]
    yield "a column bound elsewhere, 63 nodes", ("and", ("and", ("not", record(0, 0)), ("exists", 0, record(0, 0))), many(29)), []


def check_queries(engine, number, seed):
    """What was tried of named and random queries, and of damaged inputs."""
    ran = {"queries": 0, "reasons": 0, "beside answers.py": 0, "damaged and refused": 0}
    for name, f, constants in named_queries():
        guarded(name, check_query, engine, f, constants, [(0, 0, 0, 0, 0), (0, 7, 0, 0, 0), (1, 7, 3, 0, 0)], ran)
        guarded(f"{name}, no records", check_query, engine, f, constants, [], ran)
    crowd = ("not", ("not", ("not", joined("and", [record(1, 0, 1), record(0, 2)]))))
    guarded("8,187 bytes of repeated records", check_query, engine, crowd, [], [(0, 7, 0, 0, 0)] * 479, ran)
    for i in range(number):
        rng, name = random.Random(f"{seed} {i}"), f"random {i} of seed {seed}"
        query = random_query(rng)
        guarded(name, check_query, engine, *query, ran)
        data = packed(*query)
        for _ in range(rng.choice([1, 1, 2])):
            data = damaged(rng, data) if len(data) > 18 else data
        if not is_deep(query[0]):
            name += f", damaged: {data.hex() if len(data) < 400 else ''}"
            ran["damaged and refused"] += guarded(name, check_list, engine, data) is False
    return ran


def main():
    words = options.Options(__doc__)
    words.add_argument("--library", type=pathlib.Path, default=menu_engine.ARCHIVE, metavar="PATH")
    words.add_argument("--random", type=options.number, default=300, metavar="N")
    words.add_argument("--seed", type=options.number, default=1, metavar="N")
    words.add_argument("--write", action="store_true")
    given = words.parse_args()
    signal.signal(signal.SIGALRM, too_long)
    try:
        engine = menu_engine.Engine(given.library)
    except menu_engine.NoEngine as reason:
        print(f"menu_texts: {reason}\nmenu_texts: 0 texts, 1 failed")
        return 1
    if given.write:
        STORED.write_text("".join(f"== {title}\n{text}" for title, text in outputs(given.library)))
    texts, words = check_texts() + check_rules(engine, given.library), check_output_file() + check_words(given.library)
    check_library(given.library)
    stored = check_stored(given.library)
    check_packed_alike(given.library)
    check_readme(given.library)
    ran = check_queries(engine, given.random, given.seed)
    if len(FAILED) > SHOWN:
        print(f"menu_texts: {len(FAILED) - SHOWN} more")
    tried = {"texts": texts, "command lines": words, "stored outputs": stored, **ran}
    print(f"menu_texts: {', '.join(f'{number} {what}' for what, number in tried.items())}, {len(FAILED)} failed")
    return 1 if FAILED else 0


if __name__ == "__main__":
    sys.exit(main())
