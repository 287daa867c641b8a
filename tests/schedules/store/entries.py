"""Entries, their order, and which of them a read sees (LevelDB: internal keys, snapshots)."""
from typing import NamedTuple

DELETE, PUT = 0, 1


class Entry(NamedTuple):
    key: bytes
    seq: int
    kind: int
    value: bytes


def weight_of(entry):
    """The bytes of an entry, or of an operation, in a block: 14 beside its key and value."""
    return 14 + len(entry.key) + len(entry.value)


def in_order(entries):
    """By user key ascending, then sequence descending, then a put before a deletion."""
    return sorted(entries, key=lambda it: (it.key, -it.seq, -it.kind))


def visible(entries, key, at):
    """The entry of a key with the greatest sequence up to `at`, or None."""
    seen = [it for it in entries if it.key == key and it.seq <= at]
    return max(seen, key=lambda it: it.seq, default=None)


def value_of(entry):
    """What a read answers that sees this entry, or none: None for a deletion."""
    return entry.value if entry is not None and entry.kind == PUT else None
