"""Bytes to text: what a packed input says, and the faults that the engine would refuse it for."""
import struct
import textwrap

from menu_nodes import MOST_COLUMNS, MOST_CONSTANTS, MOST_NODES, RECORD, Names
from menu_nodes import children, counted, fields, formula_text, free_variables, listed, node_text, terms_of
from menu_pack import LONGEST, MOST_RECORDS


def node_faults(widths, constants, nodes):
    """What is wrong with the nodes of a query: the number of the cause, the node, and a text."""
    parents = [c for node in nodes for c in children(node)]
    for i, node in enumerate(nodes):
        kind, parts, rest = fields(node)
        if kind == 7:
            yield 6, i, f"node {i} has kind 7"
        elif rest or kind == RECORD and any(parts[2 + parts[1]:]):
            yield 6, i, f"node {i} has bits set that no field of it uses"
        for c in children(node):
            if c >= i:
                yield 7, i, f"node {i} has a child {c}, which is not below it"
        if i < len(nodes) - 1 and parents.count(i) != 1:
            yield 7, i, f"node {i} is a child {counted(parents.count(i), 'time')}"
        for t in terms_of(node):
            if t - 16 >= len(constants):
                yield 8, i, f"node {i} names constant {t - 16}, of {len(constants)}"
        width = widths[parts[0]] if kind == RECORD else None
        if width == 0:
            yield 9, i, f"node {i} names relation {parts[0]}, which is absent"
        elif width is not None and width != parts[1]:
            yield 9, i, f"node {i} has {counted(parts[1], 'term')}, and relation {parts[0]} has width {width}"


class Showing:
    """The text of an input, as lines; faults have the number of the engine's cause, the place and a text, and there are none in an input that it accepts."""

    def __init__(self, data, names=Names()):
        self.data, self.names, self.lines, self.faults = data, names, [f"# packed input of {len(data)} bytes"], []
        self.widths, self.constants, self.nodes = data[:16], [], []
        if len(data) > LONGEST:
            self.fault(2, 0, f"over {LONGEST} bytes")
        self.store()

    def fault(self, number, place, text):
        self.faults.append((number, place, text))
        self.lines.append("# fault: " + text)

    def ends(self, number, where):
        self.fault(number, 0, f"the input ends at byte {len(self.data)}, in {where}")

    def store(self):
        self.lines.append(" ".join(["# widths", *map(str, self.widths)]))
        for number, width in enumerate(self.widths):
            if width > 4:
                self.fault(1, 0, f"relation {number} has width {width}, over 4")
            elif width:
                self.lines.append(f"relation {number} {self.names.relation(number)} {width}")
        if len(self.data) < 18:
            return self.ends(2, "the widths" if len(self.data) < 16 else "the record count")
        count = int.from_bytes(self.data[16:18], "big")
        self.lines.append(f"# records {count}")
        different = set()
        for i in range(count):
            record = self.data[18 + 17 * i:35 + 17 * i]
            if len(record) < 17:
                return self.ends(2, f"record {i} of {count}, counted from 0")
            if self.record(i, *struct.unpack(">B4I", record)):
                different.add(record)
        if len(different) > MOST_RECORDS:
            self.fault(15, 0, f"{len(different)} different records, over {MOST_RECORDS}")
        self.lines.append("query")
        self.query(18 + 17 * count)

    def record(self, i, relation, *values):
        """Whether the record can be held."""
        width = self.widths[relation] if relation < 16 else 0
        if 1 <= width <= 4 and not any(values[width:]):
            self.lines.append(" ".join([self.names.relation(relation), *map(str, values[:width])]))
            return True
        reason = "values past its width" if 1 <= width <= 4 else "no such relation"
        self.fault(13, 0, f"record {i}: relation {relation}, values {' '.join(map(str, values))}: {reason}")
        return False

    def query(self, start):
        query = self.data[start:]
        if len(query) < 2:
            return self.ends(3, "the query's header")
        header = int.from_bytes(query[:2], "big")
        version, n, k = header >> 12, header >> 5 & 127, header & 31
        self.lines.append(f"# version {version}, {n} nodes, {k} constants")
        if version != 1:
            return self.fault(3, 0, f"version {version}, and not 1: nothing more is read")
        if not 1 <= n <= MOST_NODES or k > MOST_CONSTANTS:
            return self.fault(4, 0, f"{n} nodes, and not 1 to {MOST_NODES}" if not 1 <= n <= MOST_NODES else f"{k} constants, over {MOST_CONSTANTS}")
        words = [w for w, in struct.iter_unpack(">I", query[2:2 + (len(query) - 2) // 4 * 4])]
        self.constants, self.nodes = words[:k], words[k:k + n]
        self.lines.append("# constants" + "".join(f" {c}" for c in self.constants))
        surplus = len(query) - 2 - 4 * (k + n)
        if surplus < 0:
            self.ends(5, f"constant {len(self.constants)} of {k}" if len(self.constants) < k else f"node {len(self.nodes)} of {n}, counted from 0")
        elif surplus:
            self.fault(5, 0, f"{counted(surplus, 'byte')} after the query, which ends at byte {len(self.data) - surplus}")
        self.formula(whole=not surplus)

    def formula(self, whole):
        """The formula, where the nodes are all there and make a tree; else the nodes by themselves."""
        faults = list(node_faults(self.widths, self.constants, self.nodes)) if whole else []
        for fault in faults:
            self.fault(*fault)
        if not whole or any(number < 9 or fields(self.nodes[i])[1][1] > 4 for number, i, _ in faults):
            self.lines += [f"# node {i}: {node_text(node, self.constants, self.names)}" for i, node in enumerate(self.nodes)]
            return
        root = len(self.nodes) - 1
        free = [self.names.variable(x) for x in sorted(free_variables(self.nodes, root))]
        self.lines.append(" ".join(["# columns", *free]))
        if len(free) > MOST_COLUMNS:
            self.fault(10, 0, f"{len(free)} columns, over {MOST_COLUMNS}: {listed(free)}")
        self.lines += textwrap.wrap(formula_text(self.nodes, self.constants, self.names, root), 120, break_on_hyphens=False)


def show(data):
    """An input as text that pack_one takes, and whether it is without fault; where it is not, faults are comments."""
    showing = Showing(data)
    return "\n".join(showing.lines) + "\n", not showing.faults
