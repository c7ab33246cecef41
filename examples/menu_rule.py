"""Rule text in place of a query text: the engine packs it, or says at which byte it can't be packed. The words are made here, and what could stand at that
byte is asked of the engine as well. menu.py --help has the form of a rule."""
import re

from menu_engine import Refusal
from menu_nodes import MOST_COLUMNS, MOST_CONSTANTS, MOST_NODES, VARIABLES, Names, counted, listed
from menu_pack import GREATEST, MOST_TERMS, Packed, Store, Text, Word

ENDING = ".rule"
SIGNS = [chr(byte) for byte in range(32, 127)]
DIGITS = set("0123456789")
GOAL = "a goal should stand: a relation such as r3(X0,17), the same after not, or an equality such as X0 = 17"
TERM = "a term should stand: a variable such as X0, or a number"
VARIABLE = "a variable should stand, such as X0"
END = "the rule should end: only one line feed may follow its full stop"
WANTED = {frozenset("Xnr"): GOAL, frozenset("X") | DIGITS: TERM, frozenset("X"): VARIABLE, frozenset(): END}  # by what could stand
SPACES = "; the only spaces are the one after not and the two around ="
ZEROS = "; numbers have no leading zeros"
COMMENTS = "; a rule has no comments"


def is_rule(text, store_text):
    """Whether a text that no file name tells of is a rule: it starts as one. Over a store with a relation q, one without the sign :- is a query text."""
    if text.startswith("q:-"):
        return True
    has_q = re.search(r"^\s*relation\s+\S+\s+q\s", store_text, re.MULTILINE)
    return text.startswith("q(") and (not has_q or any(":-" in line.split("#")[0] for line in text.split("\n")))


# ---- what the engine refuses, in words

def could_follow(take, text):
    """The signs that could stand after a text with which a rule starts: the engine doesn't refuse them at their own place."""
    replies = {sign: take(text + sign.encode()) for sign in SIGNS}
    return {sign for sign, reply in replies.items() if not isinstance(reply, Refusal) or reply.place > len(text)}


def wanted(signs):
    """What should stand, where one of these signs could."""
    if frozenset(signs) in WANTED:
        return WANTED[frozenset(signs)]
    digits = ["a digit"] if DIGITS <= signs else []
    return f"{listed(digits + [repr(sign) for sign in sorted(signs - DIGITS)], 'or')} should stand"


def sign_at(text, place):
    """The sign that stands at a place: of a text that is no UTF-8 a byte."""
    for length in range(1, 5):
        try:
            return text[place:place + length].decode()
        except UnicodeDecodeError:
            pass
    return f"byte {text[place]:02x}"


def hint(text, place):
    """What a writer of rules may have meant."""
    sign = text[place:place + 1]
    if sign in (b" ", b"\t"):
        return SPACES
    if sign.isdigit() and text[:place].endswith(b"0"):
        return ZEROS
    return COMMENTS if sign in (b"%", b"#") else ""


def over(digits, most):
    """Whether a number is over another; it may have more digits than Python reads."""
    return len(digits) > len(str(most)) or int(digits) > most


def head_limits(head, variables):
    """Limits that a head is past; its variables and those of the goals are digits."""
    order = [(len(x), x) for x in head]
    if len(head) > MOST_COLUMNS:
        yield f"the head has {counted(len(head), 'variable')}, and a list has at most {MOST_COLUMNS} columns"
    yield from (f"X{x[:20]} stands in the head and in no goal" for x in head if x not in variables)
    yield from (f"X{x[:20]} stands in the head twice" for i, x in enumerate(head) if x in head[:i])
    yield from (f"X{b[1][:20]} stands in the head after X{a[1][:20]}, and a head ascends" for a, b in zip(order, order[1:]) if b < a)


def limits(text):
    """What a rule of the grammar is past: the engine says only that there is something."""
    head, body = text.decode().split(":-")
    goals = re.findall(r"(?:not )?r[0-9]+\([^)]*\)|X[0-9]+ = X?[0-9]+", body)
    columns, variables = re.findall("X([0-9]+)", head), re.findall("X([0-9]+)", body)
    relations, values = re.findall("r([0-9]+)", body), re.findall("(?<![Xr0-9])[0-9]+", body)
    yield from (f"X{x[:20]} is over X{VARIABLES - 1}" for x in columns + variables if over(x, VARIABLES - 1))
    yield from (f"r{r[:20]} is over r15" for r in relations if over(r, 15))
    yield from (f"{v[:20]} is over {GREATEST}" for v in values if over(v, GREATEST))
    yield from head_limits(columns, set(variables))
    for goal in goals:
        if goal.count(",") >= MOST_TERMS:
            yield f"{goal.split('(')[0]} has {counted(goal.count(',') + 1, 'term')}, and a record has at most {MOST_TERMS} values"
    if len(set(values)) > MOST_CONSTANTS:
        yield f"it has {len(set(values))} different numbers, and {MOST_CONSTANTS} are the most"
    nodes = 2 * len(goals) - 1 + sum(goal.startswith("not ") for goal in goals) + len(set(variables) - set(columns))
    if nodes > MOST_NODES:
        yield f"it packs into {nodes} nodes, and {MOST_NODES} are the most"


def refuse(where, take, text, line, place):
    """Refuses a rule text at a place, as the engine did."""
    signs, word = could_follow(take, text[:place]), Word("", line, place + 1)
    told = f" (refused 20 {place})"
    if place < len(text):
        sign = sign_at(text, place)
        where.refuse(word, f"read {sign if sign.startswith('byte ') else repr(sign)} where {wanted(signs)}{hint(text, place)}{told}")
    if signs:
        where.refuse(word, f"read the end of the rule where {wanted(signs)}{told}")
    where.refuse(word, f"the rule is past a limit: {next(limits(text), 'menu.py finds none')}{told}")


# ---- packing

def read_rule(take, store_text, rule, line=1, names=("the store", "the rule")):
    """The packed input of a store text and a rule text, which starts at a line of its file; take packs a rule text or refuses it. One line feed at the end is
    left out, since editors add it."""
    store, text = Store(names[0], store_text), rule.removesuffix(b"\n")
    query = take(text)
    if isinstance(query, Refusal):
        refuse(Text(names[1]), take, text, line, query.place)
    store.check_length(query)
    called = Names({number: name for name, number in store.names.items()}, {x: f"X{x}" for x in range(VARIABLES)})
    return Packed(store.packed() + query, called)
