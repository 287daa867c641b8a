"""Limits of the store, and the names of what is refused."""
from typing import NamedTuple

# The longest key of a table or a message of version 1, and the longest of all.
SHORT_KEY, KEY, VALUE = 1_024, 4_096, 65_536
BATCH_OPERATIONS, BATCH_WEIGHT = 1_000, 4_000_000
MEMTABLE_WEIGHT = 8_000_000
SEQUENCE = 2**56 - 1
SNAPSHOTS, CLAIMS = 64, 4
JOB_INPUTS, JOB_BYTES, JOB_DEEPER = 1_024, 268_435_456, 65_536
OUTPUT_WEIGHT = 2_000_000
LAST_LEVEL = 6
NODES = 4
DELIVERIES = 1_000


class Limits(NamedTuple):
    """From how many files on level 0 is due, and past how many bytes level 1 is."""

    l0: int = 4
    base: int = 10_485_760


class Refused(Exception):
    """A call that changed nothing, by the name of its refusal."""

    def __init__(self, name):
        super().__init__(name)
        self.name = name


def refuse_if(condition, name):
    if condition:
        raise Refused(name)
