"""Files, edits, and versions, each of which is all edits up to it (LevelDB: version edits, manifest)."""
from typing import NamedTuple

from .limits import LAST_LEVEL

FLUSH, INSTALL, EPOCH = "Flush", "Install", "Epoch"


class FileMeta(NamedTuple):
    number: int
    level: int
    smallest: bytes
    largest: bytes
    bytes: int
    entries: int


def file_meta(number, level, table):
    return FileMeta(number, level, table.smallest, table.largest, table.bytes, len(table.entries))


class Edit(NamedTuple):
    number: int
    kind: str
    flushed: int
    epoch: int
    next_file: int
    removed: tuple = ()
    added: tuple = ()


class Version(NamedTuple):
    number: int = 0
    flushed: int = 0
    epoch: int = 0
    next_file: int = 1
    files: tuple = ()

    def level(self, level):
        """The files of a level, by number."""
        return [it for it in self.files if it.level == level]

    def file(self, number):
        return next(it for it in self.files if it.number == number)


def meet(one, other):
    """Whether two key ranges, each with both of its ends, have a key in common."""
    return one[0] <= other[1] and other[0] <= one[1]


def range_of(file):
    return file.smallest, file.largest


def applied(version, edit):
    """The next version. An edit of this store always applies, so what would refuse it is a fault of the model."""
    added = [it.number for it in edit.added]
    numbers = {it.number for it in version.files}
    assert edit.number == version.number + 1, "WrongNumber"
    assert numbers.issuperset(edit.removed), "NoSuchFile"
    assert all(it >= version.next_file for it in added), "FileExists"
    files = tuple(sorted([it for it in version.files if it.number not in edit.removed] + list(edit.added)))
    for level in range(1, LAST_LEVEL + 1):
        ranges = sorted(range_of(it) for it in files if it.level == level)
        assert all(one[1] < other[0] for one, other in zip(ranges, ranges[1:])), "Overlap"
    assert edit.flushed > version.flushed if edit.kind == FLUSH else edit.flushed == version.flushed, "FlushedBack"
    assert edit.next_file >= version.next_file and all(it < edit.next_file for it in added), "BadCounter"
    assert edit.epoch == version.epoch + (edit.kind == EPOCH), "BadCounter"
    return Version(edit.number, edit.flushed, edit.epoch, edit.next_file, files)
