"""The verdict on a query, from 000 (2.3, 2.6, 2.9) and document 01's "From formula to verdict", on formulas as trees: an account that shares nothing with the engine.

A formula is a tuple: ("truth", b), ("record", word, terms), ("equality", word, x, term), ("not", f), ("and", f, g), ("or", f, g), ("exists", x, f). A term
below 16 is a variable, one from 16 on a constant's place.
"""
import functools

# ---- formulas


def formula(nodes, i):
    """The formula of node i of an accepted query."""
    w = nodes[i]
    kind = w >> 29
    if kind == 0:
        return "truth", bool(w >> 28 & 1)
    if kind == 1:
        return "record", w, tuple(w >> shift & 31 for shift in (17, 12, 7, 2))[: w >> 22 & 7]
    if kind == 2:
        return "equality", w, w >> 25 & 15, w >> 20 & 31
    if kind == 3:
        return "not", formula(nodes, w >> 23 & 63)
    if kind == 6:
        return "exists", w >> 25 & 15, formula(nodes, w >> 19 & 63)
    return ("and" if kind == 4 else "or"), formula(nodes, w >> 23 & 63), formula(nodes, w >> 17 & 63)


@functools.cache
def free(f):
    if f[0] == "record":
        return frozenset(t for t in f[2] if t < 16)
    if f[0] == "equality":
        return frozenset(t for t in f[2:4] if t < 16)
    if f[0] == "exists":
        return free(f[2]) - {f[1]}
    return frozenset().union(*(free(g) for g in f[1:])) if f[0] != "truth" else frozenset()


@functools.cache
def size(f):
    return 1 + sum(size(g) for g in f[1:] if isinstance(g, tuple) and g and isinstance(g[0], str))


# ---- constant propagation (000, 2.3)

def propagated(f):
    kind = f[0]
    if kind == "equality" and f[2] == f[3]:
        return "truth", True
    if kind == "not":
        g = propagated(f[1])
        return ("truth", not g[1]) if g[0] == "truth" else ("not", g)
    if kind in ("and", "or"):
        g, h = propagated(f[1]), propagated(f[2])
        drops = ("truth", kind == "and")
        for one, other in ((g, h), (h, g)):
            if one == drops:
                return other
            if one[0] == "truth":
                return one
        return kind, g, h
    if kind == "exists":
        g = propagated(f[2])
        return ("exists", f[1], g) if f[1] in free(g) else g
    return f


def words(f, start=0):
    """The nodes of a formula, numbered from start: left subtree, right subtree, parent."""
    kind = f[0]
    if kind == "truth":
        return [int(f[1]) << 28]
    if kind in ("record", "equality"):
        return [f[1]]
    if kind == "not":
        below = words(f[1], start)
        return below + [3 << 29 | start + len(below) - 1 << 23]
    if kind == "exists":
        below = words(f[2], start)
        return below + [6 << 29 | f[1] << 25 | start + len(below) - 1 << 19]
    left = words(f[1], start)
    right = words(f[2], start + len(left))
    top = start + len(left) + len(right) - 1
    return left + right + [(4 if kind == "and" else 5) << 29 | start + len(left) - 1 << 23 | top << 17]


# ---- generation: document 01's order with document 02's Point 3. None where x isn't generated, else the set of leaf nodes

@functools.cache
def plain(f, n, x):
    kind = f[0]
    if kind == "truth":
        return None if f[1] else frozenset()
    if kind == "record":
        return frozenset([n]) if x in f[2] else None
    if kind == "equality":
        return frozenset([n]) if f[3] >= 16 and f[2] == x else None
    if kind == "not":
        return denied(f[1], n, x)
    if kind == "exists":
        return None if x == f[1] else plain(f[2], n, x)
    left, right = plain(f[1], n, x), plain(f[2], n + size(f[1]), x)
    if kind == "or":
        return None if left is None or right is None else left | right
    if left is not None:
        return left
    if right is not None:
        return right
    by_right = None if other(f[2], x) is None else plain(f[1], n, other(f[2], x))
    if by_right is not None or other(f[1], x) is None:
        return by_right
    return plain(f[2], n + size(f[1]), other(f[1], x))


def other(f, x):
    """The variable that f equates x with, where it equates it with another one."""
    if f[0] != "equality" or f[3] >= 16 or f[2] == f[3] or x not in f[2:4]:
        return None
    return f[3] if x == f[2] else f[2]


@functools.cache
def denied(f, n, x):
    kind = f[0]
    if kind == "not":
        return plain(f[1], n, x)
    if kind not in ("and", "or"):
        return None
    left, right = denied(f[1], n, x), denied(f[2], n + size(f[1]), x)
    if kind == "or":
        return right if left is None else left
    return None if left is None or right is None else left | right


# ---- generation: 000's rules, and with document 02's Point 3, as a search for a derivation of "x is generated in f by some set"

@functools.cache
def generated(f, x, widened=True):
    kind = f[0]
    if kind == "truth":
        return not f[1]
    if kind == "record":
        return x in free(f)
    if kind == "equality":
        return f[3] >= 16 and x in free(f)
    if kind == "or":
        return generated(f[1], x, widened) and generated(f[2], x, widened)
    if kind == "exists":
        return x != f[1] and generated(f[2], x, widened)
    if kind == "and":
        if generated(f[1], x, widened) or generated(f[2], x, widened):
            return True
        sides = [(f[2], f[1])] + [(f[1], f[2])] * widened
        return any(g[0] == "equality" and g[3] < 16 and any(a == x and generated(h, b, widened) for a, b in ((g[2], g[3]), (g[3], g[2]))) for g, h in sides)
    g = f[1]
    if g[0] == "not":
        return generated(g[1], x, widened)
    if g[0] == "or":
        return generated(("and", ("not", g[1]), ("not", g[2])), x, widened)
    if g[0] == "and":
        return generated(("or", ("not", g[1]), ("not", g[2])), x, widened)
    return False


# ---- the verdict

def subformulas(f, n=0):
    """Each node's number and formula."""
    out, at = [], n
    for g in f[1:]:
        if isinstance(g, tuple) and g and isinstance(g[0], str):
            out += subformulas(g, at)
            at += size(g)
    return out + [(at, f)]


def bits(members, width):
    return sum(1 << width - 1 - m for m in members)


def verdict(columns, nodes):
    """The form's nodes, the generators of each column, both reports, and whether it is safe-range, of an accepted query."""
    form = propagated(formula(nodes, len(nodes) - 1))
    assert propagated(form) == form
    leaves = {x: plain(form, 0, x) for x in columns}
    for x in range(16):
        assert generated(form, x) == (plain(form, 0, x) is not None), (form, x)
        assert generated(form, x) or not generated(form, x, False), (form, x)
    ungenerated = [x for x in columns if leaves[x] is None]
    unranged = [n for n, f in subformulas(form) if f[0] == "exists" and plain(f[2], 0, f[1]) is None]
    generators = [bits(leaves[x] or (), 64) for x in columns]
    return words(form), generators + [0] * (4 - len(columns)), bits(ungenerated, 16), bits(unranged, 64), not ungenerated and not unranged
