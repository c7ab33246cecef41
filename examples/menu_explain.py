"""A packed input explained, and its list with names. The engine judges and finds rows; what it says is put into words here."""
import functools
import itertools
import struct
import typing

import menu_nodes
from menu_engine import CAUSES, ROOM, Refusal
from menu_nodes import AND, EQUALITY, EXISTS, MOST_COLUMNS, MOST_CONSTANTS, MOST_NODES, NOT, OR, RECORD, TRUTH, VARIABLES
from menu_nodes import children, counted, fields, formula_text, free_variables, listed, moved, node, node_text, subtree, terms_of, tree_lines
from menu_show import Showing

LONG = 60  # characters of a formula in a sentence


# ---- the order of generation, document 01's with document 02's Point 3, in words: all that changes with it stands here and in Reasons.reason

class Rule(typing.NamedTuple):
    """What a node generates: what its children do, judged as denied or plainly."""
    words: str
    denied: bool


RULES = {
    (NOT, False): Rule("a not generates what its denied child does", True),
    (AND, False): Rule("an and generates what a side does", False),
    (OR, False): Rule("an or generates what both sides do", False),
    (EXISTS, False): Rule("an exists generates what its child does", False),
    (NOT, True): Rule("a denied not generates what its child does", False),
    (AND, True): Rule("a denied and generates what both denied sides do", True),
    (OR, True): Rule("a denied or generates what a denied side does", True),
}
NOTHING = {
    (EQUALITY, False): "an equality of two variables generates neither",
    (RECORD, True): "a denied record generates nothing",
    (EQUALITY, True): "a denied equality generates nothing",
    (EXISTS, True): "a denied exists generates nothing",
}
EQUATES = "; the {2} side equates {0} with {1}, which the {3} side doesn't generate"
NO_EQUALITY = "; neither side is an equality with {0}, so nothing is carried over"
LOST = "constant propagation dropped {0}: it is not free in the form, so no node can generate it"
MEND_COLUMN = "join the whole line by and with a record that names {0}, or with {0} = a number"
MEND_EXISTS = "join what stands under exists {0} by and with a record that names {0}, or with {0} = a number"
MEND_OR = "or move exists {1} into node {0}, which keeps the rows: the other side of the or doesn't name {1}"


class Step(typing.NamedTuple):
    """What the engine says of a node of the form and a variable, and why; the steps below are what the reason rests on."""
    node: int
    variable: int
    denied: bool
    generated: bool
    reason: str
    below: tuple = ()


class Reasons:
    """Why nodes of a form don't generate variables: the engine judges each node as a query of its own."""

    def __init__(self, engine, widths, constants, nodes, names):
        self.engine, self.widths, self.constants, self.nodes, self.names = engine, bytes(widths), constants, nodes, names
        self.verdicts, self.told = {}, set()

    def judged(self, i, x, denied):
        """The verdict on a node, under a not where it is denied. Free variables past a query's columns, none of them x, are bound: an exists generates what its
        child does. All this fits into a query, since the form has that not and so many exists above the node."""
        if (i, x, denied) not in self.verdicts:
            below = sorted(subtree(self.nodes, i))
            nodes = [moved(self.nodes[k], -below[0]) for k in below]
            free = sorted(free_variables(self.nodes, i), key=lambda y: (y != x, y))
            for top in [(NOT,)] * denied + [(EXISTS, y) for y in free[MOST_COLUMNS:]]:
                nodes.append(node(*top, len(nodes) - 1))
            self.verdicts[i, x, denied] = self.engine.verdict(self.widths + bytes(2) + menu_nodes.packed(self.constants, nodes))
        return self.verdicts[i, x, denied]

    def generates(self, i, x, denied):
        verdict = self.judged(i, x, denied)
        return x in verdict.columns and x not in verdict.ungenerated

    def step(self, i, x, denied=False):
        asked, name = (i, x, denied), self.names.variable(x)
        if self.generates(*asked):
            return Step(*asked, True, f"generates {name}")
        if asked in self.told:
            return Step(*asked, False, f"doesn't generate {name}, as above")
        reason, next_asked = self.reason(*asked)
        if next_asked:
            self.told.add(asked)
        return Step(*asked, False, reason, tuple(self.step(*other) for other in next_asked))

    def reason(self, i, x, denied):
        """Why a node doesn't generate x, and what else is asked then."""
        name, kind, below = self.names.variable(x), fields(self.nodes[i])[0], children(self.nodes[i])
        if x not in self.judged(i, x, denied).columns:
            bound = any(x in terms_of(self.nodes[k]) for k in subtree(self.nodes, i))
            return f"has {name} only under an exists {name} of its own, which is another variable" if bound else f"doesn't name {name}", []
        if (kind, denied) in NOTHING:
            return NOTHING[kind, denied], []
        rule = RULES[kind, denied]
        asked = [(c, x, rule.denied) for c in below]
        reason = f"{rule.words}, and {self.lacking(asked, name)}"
        if (kind, denied) != (AND, False):
            return reason, asked
        left, right = below
        sides = [(self.equated(side, x), other, words) for side, other, words in ((right, left, ("right", "left")), (left, right, ("left", "right")))]
        sides = [side for side in sides if side[0] is not None]
        if not sides:
            return reason + NO_EQUALITY.format(name), asked
        carried = "".join(EQUATES.format(name, self.names.variable(y), *words) for y, _, words in sides)
        return reason + carried, [*asked, *((other, y, False) for y, other, _ in sides)]

    def side_to_move_to(self, i, x):
        """The side of an or that names x, where the other doesn't."""
        if fields(self.nodes[i])[0] != OR:
            return None
        named = [c for c in children(self.nodes[i]) if x in self.judged(c, x, False).columns]
        return named[0] if len(named) == 1 else None

    def lacking(self, asked, name):
        """Which of the children doesn't generate the variable."""
        lacks = [c for c, x, denied in asked if not self.generates(c, x, denied)]
        if len(asked) == 1:
            return f"node {lacks[0]} doesn't generate {name}"
        if len(lacks) == 2:
            return f"neither side generates {name}"
        return f"the {'left' if lacks[0] == asked[0][0] else 'right'} side, node {lacks[0]}, doesn't generate {name}"

    def equated(self, i, x):
        """The other variable, where a node equates x with one."""
        kind, parts, _ = fields(self.nodes[i])
        return next((y for y in parts if y != x and y < VARIABLES), None) if kind == EQUALITY and x in parts else None


# ---- the columns of an endless query

class Endless:
    """Which columns of an endless query can be anything. A number that is in no record and no constant can be exchanged for any other such number: where a
    column can be one of them, it can be each of them."""

    def __init__(self, engine, store, verdict):
        self.engine, self.constants, self.nodes = engine, verdict.constants, verdict.nodes
        self.free = free_variables(self.nodes, len(self.nodes) - 1)
        records = dict.fromkeys(store[at:at + 17] for at in range(18, len(store), 17))  # each once, so that a longer query has room
        self.store = store[:16] + struct.pack(">H", len(records)) + b"".join(records)

    def can_be_anything(self, x):
        """Whether column x can be; None where no query that asks this has room. A column that the form has lost can be."""
        if x not in self.free:
            return True
        nodes = list(self.nodes)
        for y in sorted(self.free - {x}):
            nodes.append(node(EXISTS, y, len(nodes) - 1))
        if len(nodes) <= MOST_NODES:
            return self.has_rows(self.constants, nodes, endless=True)
        place = self.spare_place()
        if place is None:
            return None
        constants = [*self.constants[:place], self.unknown_number(), *self.constants[place + 1:]]
        return self.has_rows(constants, self.substituted(x, 16 + place))

    def has_rows(self, constants, nodes, endless=False):
        """Whether a query has rows, or infinitely many. The engine lists none: it is lent no room, and declines 18 where there are rows of columns."""
        reply = self.engine.answer(self.store + menu_nodes.packed(constants, nodes), 0, 0)
        if isinstance(reply, Refusal):
            assert reply.number == 18, reply
            return not endless
        return reply.endless or not endless and bool(reply.rows)

    def spare_place(self):
        """A place among the constants that the form doesn't use."""
        used = {t - 16 for word in self.nodes for t in terms_of(word)}
        return next((place for place in range(MOST_CONSTANTS) if place not in used), None)

    def unknown_number(self):
        values = struct.unpack(">" + "x4I" * ((len(self.store) - 18) // 17), self.store[18:])
        return next(v for v in itertools.count() if v not in {*self.constants, *values})

    def substituted(self, x, constant):
        """The form with a constant's term for x where x is free; x = another constant is false then."""
        nodes, waiting = list(self.nodes), [len(self.nodes) - 1]
        while waiting:
            i = waiting.pop()
            kind, parts, _ = fields(nodes[i])
            if kind == RECORD:
                nodes[i] = node(kind, *parts[:2], *(constant if t == x else t for t in terms_of(nodes[i])))
            elif kind == EQUALITY and x in parts:
                other = next(t for t in parts if t != x)
                nodes[i] = node(EQUALITY, other, constant) if other < VARIABLES else node(TRUTH, 0)
            elif kind != EXISTS or parts[0] != x:
                waiting += children(nodes[i])
        return nodes


# ---- words

def column_text(x, names):
    """A column's name, with its number where the name doesn't have it."""
    name = names.variable(x)
    return name if name in (f"v{x}", f"X{x}") else f"{name} (v{x})"


def refusal_lines(refusal, data, names):
    """A refusal in words: what the engine names, what stands there, and what mends it."""
    cause, mend = CAUSES[refusal.number]
    showing, at = Showing(data, names), ""
    if 6 <= refusal.number <= 9:
        at = f" at node {refusal.place}, {node_text(showing.nodes[refusal.place], showing.constants, names)}"
    yield f"refused {refusal.number}{at}: {cause}"
    here = [text for *place, text in showing.faults if place == list(refusal)]
    yield from [f"  here: {text}" for text in here[:1]]
    yield f"  mend: {mend}"


class Explanation:
    """What the engine says of an input: its verdict with reasons, and its answer, which is asked for last as it can take long."""

    def __init__(self, engine, data, names):
        self.engine, self.data, self.names, self.columns, self.exists = engine, data, names, {}, {}
        self.verdict = engine.verdict(data)
        self.judged = not isinstance(self.verdict, Refusal)
        if self.judged:
            self.store = data[:18 + 17 * int.from_bytes(data[16:18], "big")]
            self.read = menu_nodes.unpacked(data[len(self.store):])
            self.explain_verdict(engine, self.verdict)

    @functools.cached_property
    def answer(self):
        return self.engine.answer(self.data, len(self.verdict.columns))

    @functools.cached_property
    def anything(self):
        """For each column of an endless query, whether it can be anything."""
        endless = Endless(self.engine, self.store, self.verdict)
        return {x: endless.can_be_anything(x) for x in self.verdict.columns}

    def explain_verdict(self, engine, verdict):
        """For each column and each exists whose variable isn't generated: the step that says why, None where the form has lost the column; and mends."""
        root = len(verdict.nodes) - 1
        self.lost = [x for x in verdict.ungenerated if x not in free_variables(verdict.nodes, root)]
        for x in verdict.ungenerated:
            reasons = Reasons(engine, self.data[:16], verdict.constants, verdict.nodes, self.names)
            step = None if x in self.lost else reasons.step(root, x)
            self.columns[x] = step, [MEND_COLUMN.format(self.names.variable(x))]
        for i in verdict.unranged:
            x, child = fields(verdict.nodes[i])[1]
            reasons = Reasons(engine, self.data[:16], verdict.constants, verdict.nodes, self.names)
            step, side = reasons.step(child, x), reasons.side_to_move_to(child, x)
            moves = [] if side is None else [MEND_OR.format(side, self.names.variable(x))]
            self.exists[i] = step, [MEND_EXISTS.format(self.names.variable(x)), *moves]

    def text(self, i):
        """A node of the form in a sentence."""
        text = formula_text(self.verdict.nodes, self.verdict.constants, self.names, i)
        return text if len(text) <= LONG else text[:LONG - 2] + ".."

    def bound(self, i):
        return self.names.variable(fields(self.verdict.nodes[i])[1][0])

    def lines(self):
        if self.judged:
            yield from self.verdict_lines()
            yield from self.answer_lines()
        else:
            yield from refusal_lines(self.verdict, self.data, self.names)

    def verdict_lines(self):
        yield self.headline()
        yield f"columns: {', '.join(column_text(x, self.names) for x in self.verdict.columns) or 'none'}"
        yield from self.trees()
        yield from self.generators()
        yield from self.reasons()

    def headline(self):
        columns = [self.names.variable(x) for x in self.verdict.ungenerated]
        exists = [f"the {self.bound(i)} of node {i}, exists {self.bound(i)}," for i in self.verdict.unranged]
        lacking = ([f"column{'s' * (len(columns) > 1)} {listed(columns)}"] if columns else []) + exists
        verb = "is" if len(columns) + len(exists) == 1 else "are"
        return "safe" if self.verdict.safe else f"unsafe: {listed(lacking)} {verb} not generated"

    def trees(self):
        constants, nodes = self.read
        same = nodes == self.verdict.nodes
        yield "tree:" if same else "tree as read (a refusal names its nodes):"
        yield from tree_lines(nodes, constants, self.names, len(nodes) - 1)
        if not same:
            yield "tree of the form, which is judged (the nodes named below):"
            yield from tree_lines(self.verdict.nodes, self.verdict.constants, self.names, len(self.verdict.nodes) - 1)

    def generators(self):
        if self.verdict.columns:
            yield "generators:"
        for x, leaves in zip(self.verdict.columns, self.verdict.generators):
            found = "; ".join(f"node {i}, {self.text(i)}" for i in leaves)
            none = "none" if x in self.verdict.ungenerated else "no node: the form is false, which generates every variable"
            yield f"  {self.names.variable(x)}: {found or none}"

    def reasons(self):
        for x, (step, mends) in self.columns.items():
            yield f"why {self.names.variable(x)} is not generated:"
            yield from self.step_lines(step) if step else [f"  {LOST.format(self.names.variable(x))}"]
            yield "  mend: " + "\n    ".join(mends)
        for i, (step, mends) in self.exists.items():
            yield f"why {self.bound(i)} is not generated under node {i}, {self.text(i)}:"
            yield from self.step_lines(step)
            yield "  mend: " + "\n    ".join(mends)

    def step_lines(self, step, depth=1, other=""):
        yield f"{'  ' * depth}node {step.node}{', denied' * step.denied}, {self.text(step.node)}{other}: {step.reason}"
        for below in step.below:
            yield from self.step_lines(below, depth + 1, f", for {self.names.variable(below.variable)}" if below.variable != step.variable else "")

    def answer_lines(self):
        if isinstance(self.answer, Refusal):
            yield from refusal_lines(self.answer, self.data, self.names)
        elif not self.answer.endless:
            yield f"rows over this store: {len(self.answer.rows)}"
        else:
            yield "endless: infinitely many rows satisfy the line over this store"
            for x, anything in self.anything.items():
                name = self.names.variable(x)
                if anything:
                    yield f"  {name} can be any number{'' if x in self.lost else ' but finitely many'}"
                elif anything is None:
                    yield f"  whether {name} can be any number was not asked: that takes over {MOST_NODES} nodes or over {MOST_CONSTANTS} constants"


def list_lines(engine, data, names):
    """The list with names, and whether it is one: a refusal isn't."""
    verdict = engine.verdict(data)
    answer = verdict if isinstance(verdict, Refusal) else engine.answer(data, len(verdict.columns), ROOM)
    if isinstance(answer, Refusal):
        return list(refusal_lines(answer, data, names)), False
    head = [column_text(x, names) for x in verdict.columns]
    lines = ["safe" if verdict.safe else "unsafe"]
    if answer.endless:
        return [*lines, "  ".join(head), "endless: infinitely many rows satisfy the line; menu.py explain says which column can be anything"], True
    widths = [max(len(str(cell)) for cell in cells) for cells in zip(head, *answer.rows)]
    lines += ["  ".join(f"{cell:>{width}}" for cell, width in zip(row, widths)) for row in [head, *answer.rows]] if head else ["no columns"]
    return [*lines, counted(len(answer.rows), "row") + ("" if head else ": yes" if answer.rows else ": no")], True
