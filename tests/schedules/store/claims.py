"""Claims: the right to install a job's result. Two live jobs that share a level have no key in common."""
from typing import NamedTuple

from .limits import CLAIMS, refuse_if
from .versions import meet


class Name(NamedTuple):
    """The name of a job or of a snapshot: the epoch that made it, and its number there, from 1."""

    epoch: int
    number: int


class Want(NamedTuple):
    """Files of a level and of the next one that are to be merged, ascending, and their key range."""

    level: int
    files: tuple
    hull: tuple


def conflict(one, other):
    """A job of a level uses that level and the next one."""
    share_level = abs(one.level - other.level) <= 1
    return share_level and meet(one.hull, other.hull)


class ClaimBook:
    def __init__(self, epoch):
        self.epoch, self.made, self.live = epoch, 0, {}

    def is_blocked(self, want):
        return any(conflict(want, it) for it in self.live.values())

    def refuse_if_full(self):
        refuse_if(len(self.live) == CLAIMS, "BookFull")

    def claim(self, want):
        assert not self.is_blocked(want), "Overlaps"
        self.refuse_if_full()
        self.made += 1
        name = Name(self.epoch, self.made)
        self.live[name] = want
        return name

    def settle(self, name):
        """Ends a claim, and answers whether its job was live; else it is stale, and the book stays."""
        return self.live.pop(name, None) is not None
