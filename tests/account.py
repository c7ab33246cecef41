"""Document 01's reader and tables, and the text of the reply that crates/trials writes for each call: an account that shares nothing with the engine.

The verdict is in verdicts.py, answers in answers.py, the ledger of a run in ledger.py; none of them shares anything with the engine either.
"""
import struct

import answers
import ledger
import verdicts

# ---- queries, from document 01, "The packed query"


def word_fields(w):
    """The kind of a node, and its fields by name."""
    bits = f"{w:032b}"
    layout = {
        0: [("truth", 1)],
        1: [("relation", 4), ("count", 3), ("t0", 5), ("t1", 5), ("t2", 5), ("t3", 5)],
        2: [("variable", 4), ("term", 5)],
        3: [("child", 6)],
        4: [("left", 6), ("right", 6)],
        5: [("left", 6), ("right", 6)],
        6: [("variable", 4), ("child", 6)],
    }
    kind, at, out = int(bits[:3], 2), 3, {}
    for name, size in layout.get(kind, []):
        out[name] = int(bits[at:at + size], 2)
        at += size
    out["rest"] = int(bits[at:] or "0", 2)
    return kind, out


def children(w):
    kind, f = word_fields(w)
    return [f[name] for name in ("child", "left", "right") if name in f]


def used_terms(w):
    kind, f = word_fields(w)
    if kind == 1:
        return [f["t0"], f["t1"], f["t2"], f["t3"]][: f["count"]]
    return [f["term"]] if kind == 2 else []


def free(nodes, i):
    kind, f = word_fields(nodes[i])
    named = {t for t in used_terms(nodes[i]) if t < 16}
    if kind == 2:
        named.add(f["variable"])
    for c in children(nodes[i]):
        named |= free(nodes, c)
    if kind == 6:
        named.discard(f["variable"])
    return named


def malformed(w):
    kind, f = word_fields(w)
    if kind == 7 or f["rest"]:
        return True
    return kind == 1 and any([f["t0"], f["t1"], f["t2"], f["t3"]][f["count"]:])


def read(data, widths):
    """('refused', number, place), or ('accepted', columns, constants, nodes)."""
    if any(w > 4 for w in widths):
        return "refused", 1, 0
    if len(data) < 2 or data[0] >> 4 != 1:
        return "refused", 3, 0
    header = data[0] << 8 | data[1]
    n, k = header >> 5 & 127, header & 31
    if n == 0 or n > 64 or k > 16:
        return "refused", 4, 0
    if len(data) != 2 + 4 * k + 4 * n:
        return "refused", 5, 0
    words = list(struct.unpack(f">{k + n}I", bytes(data[2:])))
    constants, nodes = words[:k], words[k:]
    fields = [c for w in nodes for c in children(w)]
    faults = [
        (6, lambda i, w: malformed(w)),
        (7, lambda i, w: any(c >= i for c in children(w)) or (i != n - 1 and fields.count(i) != 1)),
        (8, lambda i, w: any(t >= 16 and t - 16 >= k for t in used_terms(w))),
        (9, lambda i, w: w >> 29 == 1 and (widths[w >> 25 & 15] == 0 or w >> 22 & 7 != widths[w >> 25 & 15])),
    ]
    for number, fault in faults:
        for i, w in enumerate(nodes):
            if fault(i, w):
                return "refused", number, i
    columns = sorted(free(nodes, n - 1))
    if len(columns) > 4:
        return "refused", 10, 0
    return "accepted", columns, constants, nodes


# ---- tables, from document 01, "Tables and records"; a record is (relation, four values)

ZERO = (0, 0, 0, 0, 0)


def fits(widths, r):
    return r[0] < 16 and widths[r[0]] > 0 and not any(r[1 + widths[r[0]]:])


class Store:
    def __init__(self, widths, records, count=None):
        self.widths = list(widths)
        self.places = list(records) + [ZERO] * (256 - len(records))
        self.count = len(records) if count is None else count

    def held(self):
        return self.places[: self.count]

    def judge(self):
        if any(w > 4 for w in self.widths):
            return 1
        held = self.held()
        right = (
            self.count <= 256
            and all(fits(self.widths, r) for r in held)
            and all(a < b for a, b in zip(held, held[1:]))
            and all(r == ZERO for r in self.places[self.count:])
        )
        return 0 if right else 2


def put(s, r):
    number = s.judge()
    if not number and not fits(s.widths, r):
        number = 13
    if not number and r in s.held():
        number = 14
    if not number and s.count >= 256:
        number = 15
    return (number, s) if number else (0, Store(s.widths, sorted(s.held() + [r])))


def remove(s, r):
    number = s.judge()
    if not number and not fits(s.widths, r):
        number = 13
    if not number and r not in s.held():
        number = 16
    return (number, s) if number else (0, Store(s.widths, [p for p in s.held() if p != r]))


def fill(widths, records):
    none = Store([0] * 16, [])
    if any(w > 4 for w in widths):
        return 1, none
    held = set()
    for r in records:
        if not fits(widths, r):
            return 13, none
        if r not in held and len(held) >= 256:
            return 15, none
        held.add(r)
    return 0, Store(widths, sorted(held))


# ---- the texts: of a query read, of the verdict on it, of stores

def outcome_text(number, place=0):
    return f" refused {number} {place}" if number else " done"


def query_text(reading):
    if reading[0] == "refused":
        return outcome_text(reading[1], reading[2])
    _, columns, constants, nodes = reading
    text = " accepted columns" + "".join(f" {c}" for c in columns) + " constants" + "".join(f" {c}" for c in constants)
    return text + " nodes" + "".join(f" {w:08x}" for w in nodes)


def reports_text(generators, ungenerated, unranged, safe):
    text = " generators" + "".join(f" {g:016x}" for g in generators)
    return text + f" ungenerated {ungenerated:016x} unranged {unranged:016x}" + (" safe" if safe else " unsafe")


def verdict_text(reading):
    if reading[0] == "refused":
        return query_text(reading)
    _, columns, constants, nodes = reading
    form, *reports = verdicts.verdict(columns, nodes)
    return query_text(("accepted", columns, constants, form)) + reports_text(*reports)


def sum_of(numbers):
    """A sum that tells lists of numbers apart."""
    h = 7
    for v in numbers:
        h = h % 1000003 * 31 + v
    return h


def store_text(s):
    numbers = (v for i, place in enumerate(s.places) for v in ([s.widths[i]] if i < 16 else []) + list(place))
    text = f" count {s.count} sum {sum_of(numbers)}"
    if s.count <= 4:
        text += "".join(" | " + " ".join(map(str, p)) for p in s.held())
    return text


def changed_text(number, s):
    return outcome_text(number) + store_text(s)


# ---- of answers; the program lends buffers that hold 1, 8, 15, ..

def lent(first, room):
    """The numbers of a buffer from a place on, as lent."""
    return [7 * i + 1 for i in range(first, room)]


def found(s, data, safe_wanted):
    """What an answer says before it looks at the buffer: how it declines or that the query is endless, or the rows."""
    number, reading = s.judge(), read(list(data), s.widths)
    if number:
        return outcome_text(number), None
    if reading[0] == "refused":
        return query_text(reading), None
    _, columns, constants, nodes = reading
    if safe_wanted and not verdicts.verdict(columns, nodes)[-1]:
        return outcome_text(11), None
    rows = answers.answer(columns, constants, nodes, s.held())
    return (" endless", None) if rows is None else ("", rows)


def rows_text(rows):
    return f" rows {len(rows)}" + "".join(f" {v}" for row in rows for v in row)


def answer_text(found, room):
    """The answer into a buffer of so many numbers; and a sum over those of them past the rows."""
    text, rows = found
    size = sum(map(len, rows or []))
    if size > room:
        text, size = outcome_text(18), 0
    elif rows is not None:
        text = rows_text(rows)
    return text, f" rest {sum_of(lent(size, room))}"


# ---- of runs of a standing list; a call is ("p" or "r", a record, the lengths of the two buffers)

NEXT_CALL = " ;"  # what comes of a call stands behind this


def list_text(held):
    k, variables = held["columns"]
    text = f" columns {k}" + "".join(f" {x}" for x in variables) + (" endless" if held["endless"] else "")
    places = sum_of(v for p in held["places"] for v in p)
    return text + f" rows {held['rows']} {places} counts" + "".join(f" {n}" for n in held["counts"])


def buffer_text(rows, room):
    """A sum over a buffer of so many numbers, with the rows at its front."""
    numbers = [v for row in rows for v in row]
    assert len(numbers) <= room
    return f" {sum_of(numbers + lent(len(numbers), room))}"


def refusal_before(s, data):
    """The first of the causes 1 to 10, with its place; and the query as read."""
    reading = read(list(data), s.widths)
    number = s.judge()
    return ((number, 0) if number else reading[1:] if reading[0] == "refused" else (0, 0)), reading[1:]


def run_text(s, data, calls, handed):
    """The list at the beginning of a run, and for each call the answer, the store, the list and the buffers after it."""
    refused, query = refusal_before(s, data)
    kept = None
    if handed is None:
        if not refused[0]:
            kept = ledger.Ledger(query, s.widths, s.held())
            refused = (17, 0) if len(kept.rows) > 512 else refused
        if refused[0]:
            return outcome_text(*refused) + list_text(ledger.NO_LIST)
    elif not refused[0]:
        kept = ledger.Ledger.of(query, s.widths, s.held(), handed)
        refused = (0, 0) if ledger.suits(handed, query[0]) else (12, 0)
    held = kept.list() if handed is None else handed
    text = list_text(held)
    for kind, r, first, second in calls:
        number, joined, left = (refused[0], [], []) if refused[0] else kept.enter(kind, r, first, second, fits)
        if not number:
            s, held = Store(s.widths, kept.records), kept.list()
        text += f"{NEXT_CALL}{outcome_text(number, refused[1])} {len(joined)} {len(left)}" + store_text(s) + list_text(held)
        text += " buffers" + buffer_text(joined, first) + buffer_text(left, second)
    return text
