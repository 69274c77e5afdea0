"""Reads job files and request files as far as tools need them, with the lines of their parts."""
import toml_lines

# The keys of a function, by its kind.
KEYS = {
    "source": (),
    "filter": ("when",),
    "map": ("steps",),
    "enrich": ("key", "into", "table", "other"),
    "count": ("key", "add", "into"),
    "dedupe": ("key",),
    "clamp": ("on", "low", "high"),
    "split": ("on", "by", "most"),
    "replicate": (),
    "sink": ("columns",),
}
# The kinds that no request changes, those that requests change into each other, and those that keep
# a count for each text of their key.
FIXED = ("source", "replicate", "sink")
FREE = ("filter", "map", "enrich", "clamp", "split")
COUNTING = ("count", "dedupe")
FORMS = {str: "a text", int: "a whole number", list: "an array", dict: "a table"}


class FileFault(Exception):
    """Why a file isn't of the form that is expected, with the place."""


class Part:
    """A table of a file: its values, its line, and how faults name it."""

    def __init__(self, file, table, path):
        self.file = file
        self.table = table
        self.path = path
        self.line = file.document.line(*path)

    def line_of(self, key):
        return self.file.document.line(*self.path, key)

    def fail(self, what, key=None):
        line = self.line_of(key) if key else self.line
        raise FileFault(f"{self.file.path}: line {line}: {what}")

    def get(self, key, form, default=None):
        """The value at a key, which has this form. Without a default it has to be there."""
        if key not in self.table:
            return self.fail(f"`{key}` is missing") if default is None else default
        value = self.table[key]
        if not isinstance(value, form) or isinstance(value, bool):
            self.fail(f"`{key}` has to be {FORMS[form]}", key)
        return value

    def parts(self, key, default=None):
        """The tables of the array at a key."""
        items = self.get(key, list, default)
        for place, item in enumerate(items):
            if not isinstance(item, dict):
                self.fail(f"`{key}` has to be an array of tables", key)
            yield Part(self.file, item, self.path + (key, place))


class TomlFile:
    """A file, and its document."""

    def __init__(self, path):
        self.path = path
        try:
            self.document = toml_lines.read(path)
        except toml_lines.TomlFault as fault:
            raise FileFault(f"{path}: {fault}") from None

    def part(self, keys):
        """The table of the document, which has no other keys than these."""
        part = Part(self, self.document.table, ())
        for key in part.table:
            if key not in keys:
                part.fail(f"`{key}` isn't a key of such a file; those are {', '.join(keys)}", key)
        return part


class Function:
    """What a node does: its kind, and the values of the kind's keys."""

    def __init__(self, part):
        self.part = part
        self.kind = part.get("kind", str)
        if self.kind not in KEYS:
            part.fail(f"`{self.kind}` is no kind", "kind")
        for key in KEYS[self.kind]:
            if key not in part.table:
                part.fail(f"`{key}` is missing")
        self.values = {key: part.table[key] for key in KEYS[self.kind]}

    def is_like(self, other):
        return (self.kind, self.values) == (other.kind, other.values)

    def most(self):
        """The most tuples that it makes of one, at a node that one edge leaves."""
        return self.values["most"] if self.kind == "split" else 1


class Node:
    """A node of a job."""

    def __init__(self, part):
        self.part = part
        self.name = part.get("name", str)
        self.function = Function(part)
        self.workers = part.get("workers", int, 1)
        self.roof = part.get("roof", int, self.function.most())
        self.line = part.line


class Edge:
    """An edge of a job."""

    def __init__(self, part):
        self.source = part.get("from", str)
        self.target = part.get("to", str)
        self.port = part.get("port", int, 0)
        self.line = part.line

    def ends(self):
        return self.source, self.port, self.target


class Job:
    """A job: its nodes and edges in the order of the file."""

    def __init__(self, path):
        self.file = TomlFile(path)
        top = self.file.part(("columns", "tables", "node", "edge"))
        self.columns = top.get("columns", list)
        self.tables = top.get("tables", dict, {})
        self.nodes = [Node(part) for part in top.parts("node")]
        self.edges = [Edge(part) for part in top.parts("edge", [])]
        self.named = {node.name: node for node in self.nodes}
        for edge in self.edges:
            for end in (edge.source, edge.target):
                if end not in self.named:
                    raise FileFault(f"{path}: line {edge.line}: no node has the name `{end}`")

    def line(self, *path):
        return self.file.document.line(*path)

    def in_order(self):
        """The names of the nodes, in an order in which each edge leads forward."""
        waits = {node.name: set() for node in self.nodes}
        for edge in self.edges:
            waits[edge.target].add(edge.source)
        order = []
        while waits:
            ready = [name for name, above in waits.items() if above <= set(order)]
            if not ready:
                raise FileFault(f"{self.file.path}: the edges form a cycle")
            order.append(ready[0])
            del waits[ready[0]]
        return order


class Change:
    """A change of a request: a node's new function."""

    def __init__(self, part):
        self.node = part.get("node", str)
        self.function = Function(part)
        self.line = part.line


class Request:
    """A request of a file: its place there from 1, and its changes."""

    def __init__(self, part, place):
        self.place = place
        self.after = part.get("after", int)
        self.changes = [Change(change) for change in part.parts("change", [])]
        self.line = part.line

    def asked(self):
        return [change.node for change in self.changes]


def read_requests(path):
    """The requests of a file, in its order."""
    top = TomlFile(path).part(("request",))
    return [Request(part, place) for place, part in enumerate(top.parts("request", []), 1)]


class Current:
    """A node as the earlier requests leave it: its function and its version."""

    def __init__(self, node, requests):
        self.node = node
        self.function = node.function
        self.version = 0
        for request in requests:
            for change in request.changes:
                if change.node == node.name:
                    self.function = change.function
                    self.version += 1


# ---- words


def detail(table):
    """What a node does, in a few words."""
    kind = table["kind"]
    if kind == "filter":
        return " and ".join(f"{c} {t} {v}" for c, t, v in table["when"]) or "all pass"
    if kind == "map":
        return ", ".join(step(*words) for words in table["steps"]) or "no steps"
    if kind == "enrich":
        return f"{table['into']} = {table['table']}[{table['key']}]"
    if kind == "count":
        return f"{table['into']} += {table['add']} by {table['key']}"
    if kind == "dedupe":
        return f"the first of each {table['key']}"
    if kind == "clamp":
        return f"{table['on']} between {table['low']} and {table['high']}"
    if kind == "split":
        return f"{table['on']} at {table['by']!r} into {table['most']} at most"
    return ""


def step(column, op, a, b):
    """A step of a map."""
    sign = {"add": "+", "sub": "-", "mul": "*"}.get(op)
    return f"{column} = {a} {sign} {b}" if sign else f"{column} = {op}({a}, {b})"
