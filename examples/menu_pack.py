"""Texts to bytes: a store text and a query text become a packed input. menu.py --help has their form."""
import difflib
import re
import struct
import typing

import menu_nodes
from menu_nodes import AND, EQUALITY, EXISTS, MOST_COLUMNS, MOST_CONSTANTS, MOST_NODES, NOT, OR, RECORD, TRUTH, VARIABLES, Names, counted, listed

GREATEST = 4294967295
LONGEST = 8192  # bytes of an input
MOST_RECORDS, MOST_TERMS = 256, 4
DEEPEST = 150  # units around each other
KEYWORDS = ("and", "columns", "exists", "false", "not", "or", "query", "relation", "true")
FORMULA = "a formula should stand: not, exists, (, true, false, a relation or a variable"
TERM = "a term should stand: a variable or a number"
VARIABLE = "a variable should stand: a name, or v0 to v15"
NAME = f"letters, digits and _, no digit first, and none of {listed(KEYWORDS)}"
UNDERSCORE = ("a variable should stand: one name is one variable throughout, so that every _ would be one value; "
              "give each place a name of its own and bind it, as in exists a exists b bend(j, a, b)")
TOO_MANY = "a list has at most {} columns; bind those that it needn't show by exists"


class Refused(Exception):
    """A text that can't be packed: where and why, in one sentence."""


class Word(typing.NamedTuple):
    """A word and where it stands; the end of a line or text is the empty word."""
    text: str
    line: int
    column: int

    def after(self):
        return Word("", self.line, self.column + len(self.text))

    def shown(self, end):
        return repr(self.text[:20]) + ".." * (len(self.text) > 20) if self.text else f"the end of the {end}"


class Packed(typing.NamedTuple):
    data: bytes
    names: Names


def lines_of(text, pattern, first=1):
    """The words of each line that has some, without comments."""
    lines = enumerate(text.split("\n"), first)
    found = ([Word(m[0], number, m.start() + 1) for m in re.finditer(pattern, line.split("#")[0], re.ASCII)] for number, line in lines)
    return [words for words in found if words]


def is_name(text):
    return bool(re.fullmatch(r"[A-Za-z_]\w*", text, re.ASCII)) and text not in KEYWORDS


def numbered(letter, text):
    """The number of a name such as r3 or v15; None where it isn't one."""
    match = re.fullmatch(letter + "(0|[1-9][0-9]?)", text)
    return int(match[1]) if match and int(match[1]) < 16 else None


def near(text, names):
    """Names that may have been meant, as the end of a sentence."""
    close = difflib.get_close_matches(text, names)
    return f"; is {listed(close, 'or')} meant?" if close else ""


class Text:
    """A text with a name, and how a word of it is refused."""
    whole = "text"

    def __init__(self, name):
        self.name = name

    def refuse(self, word, reason):
        raise Refused(f"{self.name}, line {word.line}, column {word.column}: {reason}")

    def refuse_for(self, word, wanted, end=None):
        """Wanted: what should stand instead, with that verb; after a colon what that is."""
        self.refuse(word, f"read {word.shown(end or self.whole)} where {wanted}")

    def number(self, word, wanted, least, most, end=None):
        digits = word.text.lstrip("0") or "0"
        if not re.fullmatch("[0-9]+", word.text) or len(digits) > 10 or not least <= int(digits) <= most:
            self.refuse_for(word, f"{wanted} should stand: {least} to {most}", end)
        return int(digits)


class Store(Text):
    """Widths, names and records, from text."""

    def __init__(self, name, text):
        super().__init__(name)
        self.widths, self.names, self.records, self.places, self.different = [0] * 16, {}, [], [], set()
        for words in lines_of(text, r"\S+"):
            if words[0].text == "relation":
                self.add_relation(*(words[1:] + [words[-1].after()] * 4)[:4])
            else:
                self.add_record(words)

    def add_relation(self, first, name, last, end):
        number = self.number(first, "a relation's number", 0, 15, "line")
        if self.widths[number]:
            self.refuse(first, f"relation {number} is given twice")
        if not is_name(name.text):
            self.refuse_for(name, f"a relation's name should stand: {NAME}", "line")
        if re.fullmatch("r[0-9]+", name.text) and name.text != f"r{number}":
            self.refuse_for(name, f"a relation's name should stand: r and digits can only be the relation's own number, r{number}")
        if name.text in self.names:
            self.refuse_for(name, f"a new name should stand: {name.text} is relation {self.names[name.text]}")
        width = self.number(last, "a width", 1, 4, "line")
        if end.text:
            self.refuse_for(end, "the line should end: a relation has a number, a name and a width")
        self.widths[number], self.names[name.text] = width, number

    def relation(self, word):
        number = self.names.get(word.text)
        if number is None:
            number = int(word.text) if re.fullmatch("0*[0-9]{1,2}", word.text) else numbered("r", word.text)
        if number is None or number > 15 or not self.widths[number]:
            above = listed(self.names) or "no relation"
            self.refuse_for(word, f"a relation or the word relation should stand: the text has {above} above" + near(word.text, [*self.names, "relation"]))
        return number

    def add_record(self, words):
        relation = self.relation(words[0])
        width, name = self.widths[relation], ("relation " if words[0].text.isdigit() else "") + words[0].text
        values = [self.number(word, "a value", 0, GREATEST) for word in words[1:width + 1]]
        if len(values) < width:
            self.refuse_for(words[-1].after(), f"a value should stand: a record of {name} has {counted(width, 'value')}", "line")
        if len(words) > width + 1:
            self.refuse_for(words[width + 1], f"the line should end: a record of {name} has {counted(width, 'value')}")
        self.records.append((relation, *values, *[0] * (4 - width)))
        self.places.append(words[0])
        self.different.add(self.records[-1])
        if len(self.different) > MOST_RECORDS:
            self.refuse(words[0], f"more than {MOST_RECORDS} different records")

    def packed(self):
        return bytes(self.widths) + struct.pack(">H", len(self.records)) + b"".join(struct.pack(">B4I", *r) for r in self.records)

    def check_length(self, query):
        """An input is over the longest only where records are given more than once."""
        room = (LONGEST - 18 - len(query)) // 17
        if len(self.records) > room:
            self.refuse(self.places[room], f"more than {room} records, with which an input is over {LONGEST} bytes: give each record once")


class Query(Text):
    """Constants and nodes, from text. A formula is the number of its node, and its free variables with the word at which each is free first."""
    whole = "query"

    def __init__(self, name, text, line, store, most_columns):
        super().__init__(name)
        self.store, self.nodes, self.constants, self.deep, self.at = store, [], [], 0, 0
        lines = lines_of(text, r"[A-Za-z_]\w*|[0-9]+|\S", line)
        end = lines[-1][-1].after() if lines else Word("", line, 1)
        columns = lines.pop(0)[1:] if lines and lines[0][0].text == "columns" else None
        self.words = [*(word for words in lines for word in words), end]
        self.variables = {word.text: numbered("v", word.text) for word in self.words if numbered("v", word.text) is not None}
        for number, column in enumerate(columns or ()):
            self.add_column(number, column, most_columns)
        _, free = self.formula()
        if self.word().text:
            self.refuse_for(self.word(), "'and', 'or' or the end of the query should stand")
        if columns is not None:
            self.compare(columns, free)
        self.check_free(free, most_columns)

    def add_column(self, number, word, most):
        name = word.text
        if number == most:
            self.refuse_for(word, f"the line should end: {TOO_MANY.format(most)}")
        if name == "_":
            self.refuse_for(word, UNDERSCORE)
        if not is_name(name):
            self.refuse_for(word, f"a column's name should stand: {NAME}")
        if re.fullmatch("v[0-9]+", name):
            self.refuse_for(word, f"a column's name should stand: this column is variable {number}, and v and digits can't name it")
        if name in self.variables:
            self.refuse(word, f"{name} is a column twice")
        if number in self.variables.values():
            self.refuse(word, f"{name} is variable {number}, and the formula has v{number}")
        self.variables[name] = number

    def compare(self, columns, free):
        for word in columns:
            if self.variables[word.text] not in free:
                self.refuse(word, f"{word.text} is a column, and not free in the formula")
        names = [word.text for word in columns]
        for word in sorted(free.values(), key=lambda word: word[1:]):
            if word.text not in names:
                self.refuse(word, f"{word.text} is free in the formula, and not a column: the columns line has {listed(names) or 'none'}")

    def check_free(self, free, most):
        words = sorted(free.values(), key=lambda word: word[1:])
        if len(words) > most:
            held = listed(word.text for word in words[:most])
            self.refuse(words[most], f"{words[most].text} is free in the formula beside {held}: {TOO_MANY.format(most)}")

    def packed(self):
        return menu_nodes.packed(self.constants, self.nodes)

    def word(self):
        return self.words[self.at]

    def take(self):
        """The word at hand; the next one is then at hand."""
        word = self.word()
        self.at += bool(word.text)
        return word

    def variable(self, word, wanted=VARIABLE):
        name = word.text
        if name == "_":
            self.refuse_for(word, UNDERSCORE)
        if not is_name(name):
            self.refuse_for(word, wanted)
        if re.fullmatch("v[0-9]+", name) and numbered("v", name) is None:
            self.refuse_for(word, VARIABLE)
        if name not in self.variables:
            left = [i for i in range(VARIABLES) if i not in self.variables.values()]
            if not left:
                self.refuse(word, f"more than {VARIABLES} variables, with {name}")
            self.variables[name] = left[0]
        return self.variables[name]

    def term(self):
        word = self.take()
        if not word.text[:1].isdigit():
            return self.variable(word, TERM), word
        number = self.number(word, "a number", 0, GREATEST)
        if number not in self.constants:
            if len(self.constants) == MOST_CONSTANTS:
                self.refuse(word, f"more than {MOST_CONSTANTS} different numbers, with {number}")
            self.constants.append(number)
        return 16 + self.constants.index(number), word

    def node(self, word, kind, *numbers):
        if len(self.nodes) == MOST_NODES:
            self.refuse(word, f"more than {MOST_NODES} nodes, with {word.text!r}")
        self.nodes.append(menu_nodes.node(kind, *numbers))
        return len(self.nodes) - 1

    def formula(self, joint="or", kind=OR):
        """Parts joined by a word: those of or are joined by and, those of and are units."""
        part = self.unit if kind == AND else lambda: self.formula("and", AND)
        left, free = part()
        while self.word().text == joint:
            word = self.take()
            right, also = part()
            left, free = self.node(word, kind, left, right), {**also, **free}
        return left, free

    def unit(self):
        self.deep += 1
        if self.deep > DEEPEST:
            self.refuse(self.word(), f"more than {DEEPEST} parentheses, nots and exists around each other")
        found = self.unit_at(self.take())
        self.deep -= 1
        return found

    def unit_at(self, word):
        if word.text == "(":
            found = self.formula()
            if self.word().text != ")":
                self.refuse_for(self.word(), "'and', 'or' or ')' should stand")
            self.take()
            return found
        if word.text in ("true", "false"):
            return self.node(word, TRUTH, int(word.text == "true")), {}
        if word.text == "not":
            child, free = self.unit()
            return self.node(word, NOT, child), free
        if word.text == "exists":
            x = self.variable(self.take())
            child, free = self.unit()
            return self.node(word, EXISTS, x, child), {y: at for y, at in free.items() if y != x}
        if word.text[:1].isdigit():
            self.refuse_for(word, FORMULA + "; an equality has its variable first")
        if not is_name(word.text):
            self.refuse_for(word, FORMULA)
        return self.record(word) if self.word().text == "(" else self.equality(word)

    def equality(self, word):
        x = self.variable(word)
        if self.word().text != "=":
            self.refuse_for(self.word(), f"'=' or '(' should stand after {word.text}")
        self.take()
        t, at = self.term()
        return self.node(word, EQUALITY, x, t), {y: w for y, w in ((t, at), (x, word)) if y < VARIABLES}

    def relation(self, word):
        """The number of a relation, and its width where the text is to have it checked."""
        if numbered("r", word.text) is not None:
            return numbered("r", word.text), None
        names = self.store.names
        if word.text not in names:
            self.refuse_for(word, f"a relation should stand: the store text has {listed(names) or 'none'}{near(word.text, names)}")
        return names[word.text], self.store.widths[names[word.text]]

    def record(self, word):
        relation, width = self.relation(word)
        has = f"{word.text} has {counted(width, 'value')}" if width else "a record has 1 to 4 values"
        terms, free = [], {}
        while self.take().text != ")":  # its first word is the opening bracket
            t, at = self.term()
            terms.append(t)
            if t < VARIABLES:
                free.setdefault(t, at)
            follows = [","] * (len(terms) < (width or 4)) + [")"] * (width in (None, len(terms)))
            if self.word().text not in follows:
                self.refuse_for(self.word(), f"{listed(map(repr, follows), 'or')} should stand: {has}")
        return self.node(word, RECORD, relation, len(terms), *terms), free


def read(store_text, query_text, query_line=1, names=("the store", "the query"), most_columns=MOST_COLUMNS):
    """The packed input of two texts, and their names; the second starts at a line of its file. Names are for what is refused. Tests ask for more columns."""
    store = Store(names[0], store_text)
    query = Query(names[1], query_text, query_line, store, most_columns)
    store.check_length(query.packed())
    called = Names({number: name for name, number in store.names.items()}, {number: name for name, number in query.variables.items()})
    return Packed(store.packed() + query.packed(), called)


def parted(text, name="the text"):
    """The store text and the query text of a text that has both, with a line `query` between them; and the line at which the second starts."""
    lines = text.split("\n")
    marks = [i for i, line in enumerate(lines) if line.split("#")[0].strip() == "query"]
    if not marks:
        Text(name).refuse_for(Word("", len(lines), len(lines[-1]) + 1), "a line `query` should stand: it parts the store from the query")
    return "\n".join(lines[:marks[0]]), "\n".join(lines[marks[0] + 1:]), marks[0] + 2


def read_one(text, name="the text", most_columns=MOST_COLUMNS):
    """The same of a text that has store and query."""
    return read(*parted(text, name), (name, name), most_columns)


def pack(*texts, **options):
    return read(*texts, **options).data


def pack_one(*texts, **options):
    return read_one(*texts, **options).data
