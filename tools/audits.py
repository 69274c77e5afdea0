"""Reads audits: what the feeder did, and at each meeting which requests the worker had turned."""
import array
import bisect
import csv

HEADER = ["entry", "node", "worker", "lane", "number", "extra"]
OF_FEEDER = ("refused", "fed", "issued", "stopped")
OF_WORKER = ("met", "marked", "turned", "ended", "state")
# A side of a row: bits, so that a row with both sides is seen.
OLD, NEW = 1, 2


class AuditFault(Exception):
    """Why a file is no audit, or isn't the audit of a run over the other files."""


class Record:
    """A record of an audit, and its line."""

    __slots__ = ("line", "entry", "node", "worker", "lane", "number", "extra")

    def __init__(self, line, fields):
        self.line = line
        self.entry, self.node, worker, lane, number, self.extra = fields
        self.worker, self.lane, self.number = (
            int(field) if field else None for field in (worker, lane, number)
        )

    def is_whole(self):
        """Whether it has the fields that its entry asks for, as far as tools use them."""
        placed = self.node and self.worker is not None
        if self.entry in ("refused", "fed", "issued"):
            return self.number is not None
        if self.entry in ("met", "marked"):
            return placed and self.number is not None and self.lane is not None
        if self.entry in ("turned", "state"):
            return placed and self.number is not None
        return placed if self.entry == "ended" else self.entry == "stopped"

    def place(self):
        return self.node, self.worker


def requests_of(path):
    """What an audit has of requests: the places of those that were refused, and the number of the
    last that was issued, 0 if there is none. The audit of a stream may have many parts."""
    refused, last = set(), 0
    with open(path, newline="", encoding="utf-8", errors="surrogateescape") as file:
        reader = csv.reader(line.replace("\0", "\N{REPLACEMENT CHARACTER}") for line in file)
        if next(reader, None) != HEADER:
            raise AuditFault(f"{path}: line 1: the header of an audit is `{','.join(HEADER)}`")
        for fields in reader:
            if not fields or fields[0] not in ("issued", "refused"):
                continue
            record = record_of(reader.line_num, fields)
            if not record:
                raise AuditFault(f"{path}: line {reader.line_num}: this is no record of an audit")
            if record.entry == "issued":
                last = record.number
            else:
                refused.add(record.number)
    return refused, last


def records(path):
    """The records of an audit, in order, without the header."""
    with open(path, newline="", encoding="utf-8", errors="surrogateescape") as file:
        reader = csv.reader(line.replace("\0", "\N{REPLACEMENT CHARACTER}") for line in file)
        if next(reader, None) != HEADER:
            raise AuditFault(f"{path}: line 1: the header of an audit is `{','.join(HEADER)}`")
        workers = False
        for fields in reader:
            line = reader.line_num
            record = record_of(line, fields)
            if not record or (workers and record.entry in OF_FEEDER):
                what = "this is no record of an audit, or stands out of order"
                raise AuditFault(f"{path}: line {line}: {what}")
            workers = record.entry in OF_WORKER
            yield record


def record_of(line, fields):
    """The record with these fields, or None if there is no such one."""
    try:
        record = Record(line, fields)
    except ValueError:
        return None
    return record if record.is_whole() else None


class Feed:
    """What the feeder did."""

    def __init__(self, path):
        self.path = path
        self.refused = {}
        self.rows = array.array("q")
        # How many rows were fed before each request was issued.
        self.issued = {}

    def add(self, record):
        """Takes a record of the feeder; returns whether it is one."""
        if record.entry == "refused":
            self.refused[record.number] = record.extra
        elif record.entry == "fed":
            if self.rows and record.number <= self.rows[-1]:
                where = f"{self.path}: line {record.line}"
                raise AuditFault(f"{where}: row {record.number} is fed out of order")
            self.rows.append(record.number)
        elif record.entry == "issued":
            self.issued[record.number] = len(self.rows)
        return record.entry in OF_FEEDER

    def place(self, row):
        """The place of a row among those that were fed, from 0, or None."""
        at = bisect.bisect_left(self.rows, row)
        return at if at < len(self.rows) and self.rows[at] == row else None

    def first(self):
        return self.rows[0] if self.rows else 1

    def last(self):
        return self.rows[-1] if self.rows else 0

    def row_before(self, request):
        """The row after which a request was issued: the one before the first if none was fed."""
        count = self.issued[request]
        return self.rows[count - 1] if count else self.first() - 1

    def issued_before(self, row):
        """The requests that were issued before a row was fed, in order."""
        return [request for request in self.issued if self.row_before(request) < row]


class Reading:
    """An audit that is read once, with the requests of its run.

    Requests are numbered from 1, without the refused ones. The first `done` of them were in force
    at the start: those before the savepoint, if the audit is that of `resume`.
    """

    def __init__(self, path, requests):
        self.path = path
        self.requests = requests
        self.feed = Feed(path)
        self.accepted = []
        self.done = 0
        self.turned = {}

    def meetings(self):
        """Each record `met`, and the requests that its worker has turned by then."""
        settled = False
        for record in records(self.path):
            if self.feed.add(record):
                continue
            if not settled:
                self.settle()
                settled = True
            place = record.place()
            if place not in self.turned:
                self.turned[place] = set(range(1, self.done + 1))
            if record.entry == "turned":
                self.check_number(record.number, record.line)
                self.turned[place].add(record.number)
            elif record.entry == "met":
                yield record, self.turned[place]
        if not settled:
            self.settle()
        self.check_nodes()

    def settle(self):
        """Finds the accepted requests, and which were in force at the start."""
        for place in self.feed.refused:
            if not 1 <= place <= len(self.requests):
                self.fail(f"request {place} was refused, and the request file has no such one")
        self.accepted = [
            request for request in self.requests if request.place not in self.feed.refused
        ]
        for number in self.feed.issued:
            self.check_number(number)
        if self.feed.issued:
            self.done = min(self.feed.issued) - 1
        else:
            # A request that is due is issued, so it took effect before the savepoint.
            self.done = sum(request.after <= self.feed.last() for request in self.accepted)

    def check_number(self, number, line=None):
        if not 1 <= number <= len(self.accepted):
            where = f"line {line}: " if line else ""
            count = len(self.accepted)
            self.fail(f"{where}request {number} took effect, and {count} of the file are accepted")

    def check_nodes(self):
        nodes = {node for node, _ in self.turned}
        for number, request in enumerate(self.accepted, 1):
            for node in request.asked():
                if node not in nodes:
                    self.fail(f"no worker is of node `{node}`, which request {number} changes")

    def fail(self, what):
        raise AuditFault(f"{self.path}: {what}; it isn't the audit of a run with these files")

    def numbered(self):
        return enumerate(self.accepted, 1)


def asking(accepted):
    """The numbers of the requests that change each node."""
    found = {}
    for number, request in enumerate(accepted, 1):
        for node in request.asked():
            found.setdefault(node, []).append(number)
    return found
