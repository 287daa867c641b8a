"""The log: a record of each write and each freeze that may not be flushed yet, and what a restart finds in it."""
from typing import NamedTuple

from .entries import weight_of
from .limits import MEMTABLE_WEIGHT, SEQUENCE, Refused, refuse_if
from .writes import batch_of


class Written(NamedTuple):
    """A batch with the sequence of its first operation."""

    first: int
    operations: tuple

    @property
    def last(self):
        return self.first + len(self.operations) - 1


class Frozen(NamedTuple):
    """A freeze of all writes up to a sequence."""

    last: int


class Found(NamedTuple):
    """The operations of a log with sequences above the flushed one, and up to which of these they are frozen, if they are."""

    operations: list
    frozen: int


def count_up_to(log, sequence):
    """How many records of a log are of writes and freezes up to a sequence."""
    return sum(it.last <= sequence for it in log)


def found_in(log, flushed):
    """What a log holds above the flushed sequence. It is refused if it is none that a store could have left."""
    refuse_if(not all(map(is_record, log)), "BadLog")
    writes = [it for it in log if isinstance(it, Written)]
    freezes = [it.last for it in log if isinstance(it, Frozen) and it.last > flushed]
    refuse_if(log and (isinstance(log[0], Frozen) or log[0].first > flushed + 1), "BadLog")
    refuse_if(any(map(is_out_of_place, log, log[1:])), "BadLog")
    refuse_if(any(it.first <= flushed < it.last for it in writes), "BadLog")
    refuse_if(len(freezes) > 1 or (log and writes[-1].last < flushed), "BadLog")
    operations = [it for write in writes if write.first > flushed for it in write.operations]
    frozen = freezes[0] if freezes else None
    count = 0 if frozen is None else frozen - flushed
    refuse_if(any(sum(map(weight_of, it)) > MEMTABLE_WEIGHT for it in (operations[:count], operations[count:])), "BadLog")
    return Found(operations, frozen)


def is_record(it):
    """Whether a record is within the limits of sequences and of a batch."""
    if isinstance(it, Frozen):
        return 1 <= it.last <= SEQUENCE
    try:
        return bool(batch_of(it.operations)) and 1 <= it.first and it.last <= SEQUENCE
    except Refused:
        return False


def is_out_of_place(before, it):
    """Of a record behind another one: a write begins right behind the last write, and a freeze is at its end. Either record before has that end."""
    return it.last != before.last if isinstance(it, Frozen) else it.first != before.last + 1
