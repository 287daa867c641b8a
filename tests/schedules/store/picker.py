"""Which files are merged next (LevelDB: level-0 files and the levels' sizes; RocksDB: score of a level)."""
from .claims import Want
from .limits import JOB_BYTES, JOB_DEEPER, JOB_INPUTS, LAST_LEVEL, refuse_if
from .versions import meet, range_of


def due_levels(version, limits):
    """Level 0 by its count of files, levels 1 to 5 by their bytes, the last one never; ascending."""
    due = [0] if len(version.level(0)) >= limits.l0 else []
    for level in range(1, LAST_LEVEL):
        if sum(it.bytes for it in version.level(level)) > limits.base * 10 ** (level - 1):
            due.append(level)
    return due


def hull_of(files):
    return min(it.smallest for it in files), max(it.largest for it in files)


def closure(version, level, first, older_only=False):
    """The least set with `first` and, of each file that meets its hull, those of the next level, and of level 0 all, or with
    `older_only` those that are older than some level-0 file of the set."""
    found = {first}
    while True:
        hull = hull_of(found)
        more = {it for it in version.level(level + 1) if meet(range_of(it), hull)}
        if level == 0:
            newest = max(it.number for it in found if it.level == 0)
            more |= {it for it in version.level(0) if meet(range_of(it), hull) and (not older_only or it.number < newest)}
        if more <= found:
            return found
        found |= more


def deeper_ranges(version, level, hull):
    """The key ranges of the files below a job's output level that meet its hull, by level and number."""
    files = [it for deep in range(level + 2, LAST_LEVEL + 1) for it in version.level(deep)]
    return [range_of(it) for it in files if meet(range_of(it), hull)]


def candidates(version, limits):
    """What may be merged, in the order in which it is tried: level, files, hull."""
    for level in due_levels(version, limits):
        for first in version.level(level):
            for older_only in (False, True) if level == 0 else (False,):
                files = closure(version, level, first, older_only)
                yield level, files, hull_of(files)


def is_too_large(version, level, files, hull):
    deeper = deeper_ranges(version, level, hull)
    return len(files) > JOB_INPUTS or sum(it.bytes for it in files) > JOB_BYTES or len(deeper) > JOB_DEEPER


def pick(version, book, limits):
    """The first candidate that no live job blocks and that is not too large, or None; TooWide if one failed by its size alone."""
    only_too_large = False
    for level, files, hull in candidates(version, limits):
        want = Want(level, tuple(sorted(it.number for it in files)), hull)
        if book.is_blocked(want):
            continue
        if not is_too_large(version, level, files, hull):
            return want
        only_too_large = True
    refuse_if(only_too_large, "TooWide")
    return None
