"""A follower: goes from version to version behind the coordinator, and answers reads at its own (RocksDB: secondary instances)."""
from .entries import value_of, visible
from .messages import Ask, Base, Current, Fetch, FetchedTable, Gone
from .versions import Edit, Version, applied

WAITING, MOVED, DROPPED, CURRENT, IGNORED = "waiting", "version", "dropped", "current", "ignored"


class Follower:
    """Has the table of each file of its version, by the file's whole record. While it waits it also has a later version, its target, and
    the tables for it that have come."""

    def __init__(self):
        self.version, self.tables = Version(), {}
        self.target, self.received = None, {}

    def ask(self):
        return Ask(self.version.number)

    def missing(self):
        """The target's files whose tables it neither had nor received, ascending."""
        return [it for it in self.target.files if it not in self.tables and it not in self.received]

    def awaited(self, number):
        """The missing file of a number, or None."""
        missing = self.missing() if self.target is not None else []
        return next((it for it in missing if it.number == number), None)

    def on_message(self, body):
        """Takes a message and answers what came of it, with how many tables are missing or the new version's number, and what it sends
        to the coordinator."""
        if isinstance(body, Edit) and body.number == self.version.number + 1:
            return self.turn_to(applied(self.version, body))
        if isinstance(body, Base) and body.version.number > self.version.number:
            return self.turn_to(body.version)
        if isinstance(body, FetchedTable) and self.awaited(body.number) is not None:
            return self.keep(self.awaited(body.number), body.table)
        if isinstance(body, Gone) and self.awaited(body.number) is not None:
            self.target, self.received = None, {}
            return DROPPED, None, []
        return CURRENT if isinstance(body, Current) else IGNORED, None, []

    def turn_to(self, target):
        """Takes a later version as its target, in place of any other, and asks for each table that is missing."""
        self.target = target
        self.received = {it: table for it, table in self.received.items() if it in target.files}
        return self.go_on([Fetch(it.number) for it in self.missing()])

    def keep(self, file, table):
        """Keeps a missing table that is as its record says."""
        if (table.smallest, table.largest, table.bytes, len(table.entries)) != file[2:]:
            return IGNORED, None, []
        self.received[file] = table
        return self.go_on([])

    def go_on(self, bodies):
        """Moves to its target when no table is missing."""
        if self.missing():
            return WAITING, len(self.missing()), bodies
        has = {**self.tables, **self.received}
        self.version, self.tables = self.target, {it: has[it] for it in self.target.files}
        self.target, self.received = None, {}
        return MOVED, self.version.number, bodies

    def looked_up(self, key):
        """The value of a key in all its tables, up to the sequence that is flushed."""
        entries = [entry for table in self.tables.values() for entry in table.entries]
        return value_of(visible(entries, key, self.version.flushed))
