"""Document 01's ledger of a run, and the standing list it is compared with: an account that shares nothing with the engine. Rows come from answers.py.

A list is a dictionary: its columns' number and four variables, the number of its rows, 512 places of four values each, the endless mark, and the counts of
rows at opening, joined and left. A ledger keeps widths, records, rows (as a list of tuples; none where it is endless), the mark and the counts.
"""
import answers

PLACES, MOST = 512, 2 ** 64 - 1
NO_ROW = (0, 0, 0, 0)


def padded(row):
    return (*row, *[0] * (4 - len(row)))


def list_of(columns, rows, endless, opening, joined, left):
    return {
        "columns": (len(columns), padded(columns)),
        "rows": len(rows),
        "places": [padded(r) for r in rows] + [NO_ROW] * (PLACES - len(rows)),
        "endless": endless,
        "counts": (opening, joined, left),
    }


NO_LIST = list_of([], [], False, 0, 0, 0)


def rows_in(held):
    return [p[: held["columns"][0]] for p in held["places"][: held["rows"]]]


def suits(held, columns):
    """In the layout, with these columns: else 12."""
    (k, variables), n, places = held["columns"], held["rows"], held["places"]
    opening, joined, left = held["counts"]
    rows = rows_in(held)
    return (
        k <= 4
        and list(variables[:k]) == list(columns)
        and not any(variables[k:])
        and n <= PLACES
        and all(a < b for a, b in zip(rows, rows[1:]))
        and not any(any(p[k:]) for p in places)
        and not any(any(p) for p in places[n:])
        and not (held["endless"] and n)
        and opening + joined == left + n
    )


def found(query, records):
    """Whether the query is endless over the records, and the rows that are kept."""
    rows = answers.answer(*query, records)
    return (True, []) if rows is None else (False, [tuple(r) for r in rows])


class Ledger:
    def __init__(self, query, widths, records):
        self.query, self.widths, self.records = query, list(widths), sorted(records)
        self.endless, self.rows = found(query, self.records)
        self.opening, self.joined, self.left = len(self.rows), 0, 0

    @staticmethod
    def of(query, widths, records, held):
        """One that stands where a list does, of whatever rows."""
        ledger = Ledger.__new__(Ledger)
        ledger.query, ledger.widths, ledger.records = query, list(widths), sorted(records)
        ledger.endless, ledger.rows = held["endless"], rows_in(held)
        ledger.opening, ledger.joined, ledger.left = held["counts"]
        return ledger

    def list(self):
        return list_of(self.query[0], self.rows, self.endless, self.opening, self.joined, self.left)

    def record_cause(self, kind, record, fits):
        if not fits(self.widths, record):
            return 13
        if kind == "p":
            return 14 if record in self.records else 15 if len(self.records) >= 256 else 0
        return 0 if record in self.records else 16

    def enter(self, kind, record, first, second, fits):
        """The cause met, or 0, and the rows that joined and left, which are none where a cause is met."""
        number = self.record_cause(kind, record, fits)
        if number:
            return number, [], []
        records = sorted(self.records + [record]) if kind == "p" else [r for r in self.records if r != record]
        endless, rows = found(self.query, records)
        held, now = set(self.rows), set(rows)
        joined = [r for r in rows if r not in held]
        left = [r for r in self.rows if r not in now]
        counts = self.opening, self.joined + len(joined), self.left + len(left)
        width = len(self.query[0])
        if len(rows) > PLACES or max(counts) > MOST:
            return 17, [], []
        if len(joined) * width > first:
            return 18, [], []
        if len(left) * width > second:
            return 19, [], []
        self.records, self.rows, self.endless = records, rows, endless
        self.opening, self.joined, self.left = counts
        return 0, joined, left
