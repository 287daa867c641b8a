"""Tables: entries in order, with the length that the table format gives them."""
from .entries import in_order, weight_of
from .limits import SHORT_KEY

# Magic, version, block target, count of entries and of blocks; and of an index entry all but its key.
HEADER, INDEX = 4 + 1 + 4 + 4 + 4, 4 + 2 + 8


def format_of(keys):
    """The version of the format of a table, or of a message, that has these keys: the least one in which all of them are allowed."""
    return 2 if any(len(it) > SHORT_KEY for it in keys) else 1


class Table:
    """A table of one block, whose target no table reaches."""

    def __init__(self, entries):
        assert entries, "a table has an entry"
        self.entries = in_order(entries)
        assert len({it[:2] for it in entries}) == len(entries), "two entries have one key and sequence"
        self.smallest, self.largest = self.entries[0].key, self.entries[-1].key
        self.bytes = HEADER + INDEX + len(self.largest) + sum(map(weight_of, self.entries))
        self.format = format_of(it.key for it in self.entries)
