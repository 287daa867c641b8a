"""Writes and the list of the accepted ones, by which every answer of a read is defined."""
from typing import NamedTuple

from .entries import PUT, Entry, weight_of
from .limits import BATCH_OPERATIONS, BATCH_WEIGHT, KEY, VALUE, refuse_if


class Operation(NamedTuple):
    """A put, or a deletion, whose value is empty."""

    kind: int
    key: bytes
    value: bytes


def batch_of(operations):
    """Takes operations into a batch one by one, and is refused for the first one that does not go into it."""
    batch, weight = [], 0
    for it in operations:
        weight += weight_of(it)
        refuse_if(it.key == b"", "EmptyKey")
        refuse_if(len(it.key) > KEY, "KeyTooLong")
        refuse_if(len(it.value) > VALUE, "ValueTooLong")
        refuse_if(len(batch) == BATCH_OPERATIONS or weight > BATCH_WEIGHT, "BatchFull")
        batch.append(it)
    return batch


def answer(writes, at, key):
    """The value that the last of the first `at` writes gives a key, or None."""
    of_key = [it for it in writes[:at] if it.key == key]
    return of_key[-1].value if of_key and of_key[-1].kind == PUT else None


def answers(writes, at, low, high, limit):
    """The first `limit` keys from `low` up to but not including `high` that have an answer, each with it."""
    keys = sorted({it.key for it in writes if low <= it.key < high})
    found = [(key, answer(writes, at, key)) for key in keys]
    return [pair for pair in found if pair[1] is not None][:limit]


def entries_of(writes, first, last):
    """The entries of the writes from sequence `first` to `last`: a write's sequence is its place, from 1."""
    return [Entry(it.key, seq, it.kind, it.value) for seq, it in enumerate(writes[first - 1 : last], first)]
