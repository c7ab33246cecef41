"""The packed query (document 01): the fields of its nodes, its bytes, and its text with names."""
import struct
import typing

MOST_NODES, MOST_CONSTANTS, MOST_COLUMNS, VARIABLES = 64, 16, 4, 16
TRUTH, RECORD, EQUALITY, NOT, AND, OR, EXISTS = range(7)
KINDS = ("truth", "record", "equality", "not", "and", "or", "exists")
SIZES = {TRUTH: (1,), RECORD: (4, 3, 5, 5, 5, 5), EQUALITY: (4, 5), NOT: (6,), AND: (6, 6), OR: (6, 6), EXISTS: (4, 6)}  # bits of the fields of each kind


# ---- nodes and bytes

def node(kind, *numbers):
    """A node of fields; those left out are zero."""
    bits = "".join(f"{field:0{size}b}" for field, size in zip((kind, *numbers), (3, *SIZES[kind])))
    return int(bits.ljust(32, "0"), 2)


def fields(node):
    """The kind of a node, its fields, and the bits after them."""
    bits, at, out = f"{node:032b}", 3, []
    for size in SIZES.get(node >> 29, ()):
        out.append(int(bits[at:at + size], 2))
        at += size
    return node >> 29, out, int(bits[at:], 2)


def children(node):
    kind, parts, _ = fields(node)
    if kind in (NOT, AND, OR):
        return parts
    return parts[1:] if kind == EXISTS else []


def moved(word, by):
    """A node whose children have numbers that differ by so much."""
    kind, parts, _ = fields(word)
    if kind in (NOT, AND, OR):
        return node(kind, *(c + by for c in parts))
    return node(kind, parts[0], parts[1] + by) if kind == EXISTS else word


def terms_of(node):
    """The terms in use; of an equality also its variable."""
    kind, parts, _ = fields(node)
    if kind == RECORD:
        return parts[2:2 + parts[1]]
    return parts if kind == EQUALITY else []


def subtree(nodes, i):
    """The numbers of a node and of all below it."""
    return [i, *(k for c in children(nodes[i]) for k in subtree(nodes, c))]


def free_variables(nodes, i):
    kind, parts, _ = fields(nodes[i])
    free = {t for t in terms_of(nodes[i]) if t < VARIABLES}.union(*(free_variables(nodes, c) for c in children(nodes[i])))
    return free - {parts[0]} if kind == EXISTS else free


def packed(constants, nodes):
    """The bytes of a query."""
    numbers = [*constants, *nodes]
    return struct.pack(f">H{len(numbers)}I", 1 << 12 | len(nodes) << 5 | len(constants), *numbers)


def unpacked(query):
    """The constants and nodes of the bytes that a query starts with."""
    header = int.from_bytes(query[:2], "big")
    n, k = header >> 5 & 127, header & 31
    numbers = struct.unpack_from(f">{k + n}I", query, 2)
    return list(numbers[:k]), list(numbers[k:])


# ---- text

class Names(typing.NamedTuple):
    """What relations and variables are called, by number; the others are r0 .. r15 and v0 .. v15."""
    relations: dict = {}
    variables: dict = {}

    def relation(self, number):
        return self.relations.get(number, f"r{number}")

    def variable(self, number):
        return self.variables.get(number, f"v{number}")


def listed(words, last="and"):
    """a, b and c"""
    words = list(words)
    return f" {last} ".join([", ".join(words[:-1])] * (len(words) > 1) + words[-1:])


def counted(number, thing):
    return f"{number} {thing}{'s' * (number != 1)}"


def term_text(t, constants, names):
    if t < VARIABLES:
        return names.variable(t)
    return str(constants[t - 16]) if t - 16 < len(constants) else f"constant {t - 16}"


def leaf_text(node, constants, names):
    kind, parts, _ = fields(node)
    terms = [term_text(t, constants, names) for t in terms_of(node)]
    if kind == TRUTH:
        return "true" if parts[0] else "false"
    return f"{names.relation(parts[0])}({', '.join(terms)})" if kind == RECORD else f"{terms[0]} = {terms[1]}"


def formula_text(nodes, constants, names, i, around=0):
    """The text of a node; around: 0 nothing or an or before it, 1 an and, 2 what takes a unit."""
    kind, parts, _ = fields(nodes[i])
    if kind in (NOT, EXISTS):
        return ("not " if kind == NOT else f"exists {names.variable(parts[0])} ") + formula_text(nodes, constants, names, parts[-1], 2)
    if kind not in (AND, OR):
        return leaf_text(nodes[i], constants, names)
    own = 1 if kind == AND else 0
    left, right = formula_text(nodes, constants, names, parts[0], own), formula_text(nodes, constants, names, parts[1], own + 1)
    text = f"{left} {KINDS[kind]} {right}"
    return f"({text})" if own < around else text


def node_text(node, constants, names):
    """A node by itself, its children as numbers."""
    kind, parts, rest = fields(node)
    if kind == 7 or rest or kind == RECORD and (parts[1] > 4 or any(parts[2 + parts[1]:])):
        return f"{node:08x}"
    if kind in (NOT, AND, OR, EXISTS):
        word = {NOT: "not node", AND: "and of nodes", OR: "or of nodes"}.get(kind) or f"exists {names.variable(parts[0])}, node"
        return f"{word} {' '.join(map(str, children(node)))}"
    return leaf_text(node, constants, names)


def tree_lines(nodes, constants, names, i, depth=0):
    """A node and those below it, a line each: number, kind, text."""
    kind, parts, _ = fields(nodes[i])
    text = f"exists {names.variable(parts[0])}" if kind == EXISTS else KINDS[kind]
    if kind in (TRUTH, RECORD, EQUALITY):
        text += " " + leaf_text(nodes[i], constants, names)
    yield f"{i:4}  {'  ' * depth}{text}"
    for c in children(nodes[i]):
        yield from tree_lines(nodes, constants, names, c, depth + 1)
