"""Runs a job as docs/JOBS.md and docs/REQUESTS.md tell it, without workers, lanes and schedules.

A border is the last row that a request leaves to the old functions. Each later row meets its new
functions. The rows between two borders are taken node by node, each node's tuples in the order of
the rows. That is as if one row after another went through the whole graph, since only the counts of
counts and dedupes are kept from one tuple to the next.

Jobs and requests are the tables of their TOML documents. `tools/exact_jobs` compares streams with
this model.
"""
import collections
import csv
import io
import operator

LEAST, MOST = -(2**63), 2**63 - 1
TESTS = {
    "=": operator.eq, "!=": operator.ne, "<": operator.lt, "<=": operator.le, ">": operator.gt,
    ">=": operator.ge,
}
OPS = {
    "add": operator.add, "sub": operator.sub, "mul": operator.mul, "min": min, "max": max,
}

# The row that a tuple descends from, its birth as numbers, and its fields by their columns.
Tuple = collections.namedtuple("Tuple", "row birth fields")


def cut(number):
    return max(LEAST, min(MOST, number))


# ---- functions


def number_of(operand, fields):
    """A whole number, or that of a column."""
    return fields[operand] if isinstance(operand, str) else operand


def after_steps(steps, fields):
    fields = dict(fields)
    for column, op, a, b in steps:
        fields[column] = cut(OPS[op](number_of(a, fields), number_of(b, fields)))
    return fields


def made_of(function, it, ports, counts, tables):
    """What a node makes of a tuple: pairs of a port and a tuple. Some kinds change the counts."""

    def having(column, value, *born):
        return it._replace(fields={**it.fields, column: value}, birth=it.birth + born)

    kind, fields = function["kind"], it.fields
    if kind == "source":
        return [(0, it)]
    if kind == "filter":
        conditions = function["when"]
        passes = all(TESTS[test](fields[column], value) for column, test, value in conditions)
        return [(0 if passes else 1, it)]
    if kind == "map":
        return [(0, it._replace(fields=after_steps(function["steps"], fields)))]
    if kind == "enrich":
        table = tables[function["table"]]
        value = table.get(fields[function["key"]], function["other"])
        return [(0, having(function["into"], value))]
    if kind == "count":
        key = fields[function["key"]]
        counts[key] = cut(counts.get(key, 0) + number_of(function["add"], fields))
        return [(0, having(function["into"], counts[key]))]
    if kind == "dedupe":
        key = fields[function["key"]]
        counts[key] = cut(counts.get(key, 0) + 1)
        return [(0, it)] if counts[key] <= 1 else []
    if kind == "clamp":
        number, low, high = fields[function["on"]], function["low"], function["high"]
        return [(0, having(function["on"], max(low, min(high, number))))]
    if kind == "split":
        pieces = fields[function["on"]].split(function["by"])[: function["most"]]
        return [(0, having(function["on"], piece, at)) for at, piece in enumerate(pieces)]
    if kind == "replicate":
        return [(port, it._replace(birth=it.birth + (port,))) for port in ports]
    return []


def carried(counts, carry):
    """What a carry makes of counts."""
    if carry == "keep":
        return counts
    if carry == "reset":
        return {}
    if carry[0] == "scale":
        return {key: cut(count * carry[1] // carry[2]) for key, count in counts.items()}
    return {key: count for key, count in counts.items() if count >= carry[1]}


# ---- jobs and requests


class Column:
    """A column of a job, and how its values are spelled in payments and alerts."""

    def __init__(self, text):
        self.name, self.kind, *own = text.split(":")
        self.is_own = bool(own)

    def read(self, text):
        if self.kind != "cents":
            return text if self.kind == "text" else int(text)
        units, _, cents = text.lstrip("-").partition(".")
        amount = int(units) * 100 + int(cents.ljust(2, "0"))
        return -amount if text.startswith("-") else amount

    def first(self):
        """What an own column has in a row that is fed."""
        return "" if self.kind == "text" else 0

    def told(self, value):
        if self.kind != "cents":
            return str(value)
        return f"{'-' * (value < 0)}{abs(value) // 100}.{abs(value) % 100:02}"


class Judge:
    """Judges requests in their order, as far as random jobs have faults: Q4, Q9 and, in a stream,
    Q10."""

    def __init__(self, job, is_stream=True):
        self.is_stream = is_stream
        self.nodes = {node["name"]: node for node in job["node"]}
        self.versions = dict.fromkeys(self.nodes, 0)
        self.last = 0

    def fault(self, after, changes):
        """Why a request is refused, or None if it is accepted. Later ones are judged after it."""
        for place, change in enumerate(changes, 1):
            version = self.versions[change["node"]]
            if change["from"] != version:
                return f"Q4 change {place} current {version}"
        if after < self.last:
            return f"Q9 last {self.last}"
        for place, change in enumerate(changes, 1):
            if change["kind"] == "split" and not self.may_split(self.nodes[change["node"]]):
                return f"Q10 change {place}"
        for change in changes:
            self.versions[change["node"]] += 1
        self.last = after
        return None

    def may_split(self, node):
        """Whether a request may make a node a split: a stream settles those at its start."""
        return not self.is_stream or node["kind"] == "split" or node.get("roof", 1) > 1


class Model:
    """A job while rows are run."""

    def __init__(self, job, places):
        """`places` has the place of a tuple among those that a count or a dedupe met, by the node,
        the row and the birth. Tuples that it leaves out are met in the order of the rows."""
        self.job = job
        self.places = places
        self.columns = [Column(text) for text in job["columns"]]
        self.functions = {node["name"]: node for node in job["node"]}
        self.targets = {name: {} for name in self.functions}
        for edge in job["edge"]:
            self.targets[edge["from"]][edge.get("port", 0)] = edge["to"]
        self.counts = {name: {} for name in self.functions}
        # What came to the sinks, and each meeting of a node with a tuple.
        self.alerts = collections.Counter()
        self.met = collections.Counter()

    def rows_of(self, payments):
        """The rows of a payments file: the source and the fields of each."""
        records = [record for record in csv.reader(io.StringIO(payments)) if record][1:]
        return [self.row_of(record) for record in records]

    def row_of(self, record):
        source, *given = record
        left = iter(given)
        read = {it.name: it.first() if it.is_own else it.read(next(left)) for it in self.columns}
        return source, read

    def in_order(self):
        """The nodes, in an order in which each edge leads forward."""
        order = []
        while len(order) < len(self.functions):
            waits = {edge["to"] for edge in self.job["edge"] if edge["from"] not in order}
            order += [name for name in self.functions if name not in waits and name not in order]
        return order

    def run(self, rows, borders):
        """Runs rows. `borders` has the border and the changes of each request, in order."""
        fed = 0
        for border, changes in borders:
            self.run_rows(fed, rows[fed:border])
            fed = border
            self.change(changes)
        self.run_rows(fed, rows[fed:])

    def change(self, changes):
        for change in changes:
            node = change["node"]
            self.functions[node] = change
            self.counts[node] = carried(self.counts[node], change.get("carry", "keep"))

    def run_rows(self, fed, rows):
        """Runs the rows that come after the first `fed` ones, up to the next border."""
        inboxes = {name: [] for name in self.functions}
        for number, (source, fields) in enumerate(rows, fed + 1):
            inboxes[source].append(Tuple(number, (), fields))
        for name in self.in_order():
            self.run_node(name, inboxes)

    def run_node(self, name, inboxes):
        function, targets = self.functions[name], self.targets[name]
        for it in sorted(inboxes[name], key=lambda it: self.place(name, it)):
            if function["kind"] != "source":
                self.met[meeting(name, it)] += 1
            if function["kind"] == "sink":
                self.alerts[self.alert(name, function["columns"], it)] += 1
            tables = self.job.get("tables", {})
            for port, made in made_of(function, it, targets, self.counts[name], tables):
                if port in targets:
                    inboxes[targets[port]].append(made)

    def place(self, name, it):
        return self.places.get(meeting(name, it), 0), it.row

    def alert(self, name, shown, it):
        """The fields of an alert's record."""
        told = [c.told(it.fields[c.name]) if c.name in shown else "" for c in self.columns]
        return (name, str(it.row), *told)

    def counted(self):
        """The counts as an audit tells them: the node, the key and the count of each."""
        kept = [(node, key, n) for node, counts in self.counts.items() for key, n in counts.items()]
        return collections.Counter((node, key, str(n)) for node, key, n in kept)


def meeting(name, it):
    """A meeting of a node with a tuple, as an audit tells it: the node, the row and the birth."""
    return name, str(it.row), ".".join(map(str, it.birth))
