"""Makes jobs, requests and payments from a seed. `tools/test_tools` tries the tools on them."""
import random

from job_files import COUNTING, FREE

COLUMNS = ["account:text", "tags:text", "amount:cents", "risk:number:own", "seen:number:own"]
TABLES = {"low": {"ann": 1, "bob": 2}, "high": {"ann": 3, "cid": 5}}
ACCOUNTS = ("ann", "bob", "cid", "dee")
KINDS = ("filter", "filter", "map", "enrich", "count", "dedupe", "clamp", "split", "replicate")
# Columns of numbers, and what the numbers of a clamp are multiplied by there.
AMOUNTS = {"amount": 10000, "risk": 1, "seen": 1}


def toml(value):
    if isinstance(value, list):
        return f"[{', '.join(map(toml, value))}]"
    return f'"{value}"' if isinstance(value, str) else str(value)


def pairs(table):
    return "".join(f"{key} = {toml(value)}\n" for key, value in table.items())


class RandomJob:
    """A job, its requests and its payments."""

    def __init__(self, seed):
        self.rng = random.Random(seed)
        self.nodes, self.edges = {}, []
        self.make_graph()
        self.requests = []
        self.versions = dict.fromkeys(self.nodes, 0)
        # The functions after all requests that are accepted.
        self.last = {name: self.function_of(node) for name, node in self.nodes.items()}
        self.rows = self.rng.randint(20, 120)
        self.make_requests()

    # ---- the job

    def make_graph(self):
        """Nodes one after another, each fed by open ports of earlier ones; sinks take the rest."""
        ports = []
        for name in ("card", "wire"):
            self.nodes[name] = {"kind": "source"}
            ports.append((name, 0))
        for number in range(self.rng.randint(4, 8)):
            name = f"n{number}"
            ports = self.lead(ports, name, self.rng.randint(1, 2)) + self.make_node(name)
        number = 0
        while ports:
            name = f"out{number}"
            self.nodes[name] = {"kind": "sink", "columns": ["account", "risk", "seen"]}
            ports = self.lead(ports, name, len(ports))
            number += 1

    def lead(self, ports, target, most):
        """Leads some ports of different nodes to a node, and returns the others."""
        self.rng.shuffle(ports)
        left, taken = [], []
        for name, port in ports:
            if len(taken) < most and name not in taken:
                taken.append(name)
                self.edges.append((name, port, target))
            else:
                left.append((name, port))
        return left

    def make_node(self, name):
        kind = self.rng.choice(KINDS)
        node = {"kind": kind, **self.function(kind)}
        outs = {"filter": self.rng.randint(1, 2), "replicate": 2}.get(kind, 1)
        node["workers"] = self.rng.randint(1, 3)
        if kind in FREE and outs == 1:
            node["roof"] = max(node.get("most", 1), self.rng.randint(1, 2))
        self.nodes[name] = node
        return [(name, port) for port in range(outs)]

    def function(self, kind):
        rng = self.rng
        if kind == "filter":
            amount = ["amount", rng.choice([">=", "<"]), rng.randint(1, 9) * 100]
            other = rng.choice([["account", "!=", rng.choice(ACCOUNTS)], ["risk", "<", 3]])
            return {"when": rng.choice([[amount], [other], [amount, other], []])}
        if kind == "map":
            step = ["risk", rng.choice(["add", "sub", "max"]), "risk", rng.randint(0, 3)]
            return {"steps": [step, ["amount", "min", "amount", 800]][: rng.randint(0, 2)]}
        if kind == "enrich":
            table, other = rng.choice(list(TABLES)), rng.randint(0, 2)
            return {"key": "account", "into": "risk", "table": table, "other": other}
        if kind == "count":
            key = rng.choice(["account", "tags"])
            return {"key": key, "add": rng.randint(1, 2), "into": "seen"}
        if kind == "dedupe":
            return {"key": rng.choice(["account", "tags"])}
        if kind == "clamp":
            on, low = rng.choice(list(AMOUNTS)), rng.randint(-1, 2)
            high = low + rng.randint(0, 3)
            return {"on": on, "low": low * AMOUNTS[on], "high": high * AMOUNTS[on]}
        if kind == "split":
            return {"on": "tags", "by": " ", "most": rng.randint(1, 2)}
        return {}

    def function_of(self, node):
        return {key: value for key, value in node.items() if key not in ("workers", "roof")}

    # ---- the requests

    def make_requests(self):
        after = 0
        changing = [name for name, node in self.nodes.items() if node["kind"] in FREE + COUNTING]
        for _ in range(self.rng.randint(2, 4) if changing else 0):
            after = self.rng.randint(after, self.rows)
            names = self.rng.sample(changing, self.rng.randint(1, min(3, len(changing))))
            stale = self.rng.random() < 0.15
            changes = [self.change(name, stale) for name in names]
            self.requests.append((after, changes))
            if not stale:
                for change in changes:
                    name = change["node"]
                    self.versions[name] += 1
                    words = ("node", "from", "carry")
                    self.last[name] = {k: v for k, v in change.items() if k not in words}

    def change(self, name, stale):
        node, kind = self.nodes[name], self.last[name]["kind"]
        outs = sum(edge[0] == name for edge in self.edges)
        if kind in FREE and outs == 1:
            kind = self.rng.choice(FREE)
        function = self.function(kind)
        if kind in COUNTING:
            function["key"] = node["key"]
        if kind == "split":
            function["most"] = min(function["most"], node["roof"])
        version = self.versions[name] + stale
        return {"node": name, "from": version, "kind": kind, **function}

    # ---- the texts

    def job_text(self, functions=None):
        """The job, with these functions in place of its own, in an order of its own."""
        text = f"columns = {toml(COLUMNS)}\n"
        for name, table in TABLES.items():
            text += f"\n[tables.{name}]\n{pairs(table)}"
        names = list(self.nodes)
        random.Random(len(names)).shuffle(names)
        for name in names:
            node = self.nodes[name]
            kept = {key: node[key] for key in ("workers", "roof") if key in node}
            function = (functions or self.nodes)[name]
            text += f"\n[[node]]\n{pairs({'name': name, **function, **kept})}"
        for source, port, target in self.edges:
            text += f"\n[[edge]]\n{pairs({'from': source, 'port': port, 'to': target})}"
        return text

    def request_text(self):
        text = ""
        for after, changes in self.requests:
            text += f"[[request]]\nafter = {after}\n"
            text += "".join(f"[[request.change]]\n{pairs(change)}" for change in changes)
        return text

    def payments_text(self):
        rng, text = random.Random(self.rows), "source,account,tags,amount\n"
        for _ in range(self.rows):
            tags = " ".join(rng.sample(["x", "y", "z"], rng.randint(0, 3)))
            source, account = rng.choice(["card", "wire"]), rng.choice(ACCOUNTS)
            text += f"{source},{account},{tags},{rng.randint(0, 1000)}.{rng.randint(0, 99):02}\n"
        return text
