"""What a merge keeps of its inputs, and how it is cut into tables (LevelDB: compaction, snapshots, base level for key)."""
from itertools import groupby

from .entries import DELETE, in_order, visible, weight_of
from .limits import OUTPUT_WEIGHT
from .tables import Table


def kept(entries, points, deeper):
    """The entries that are the newest of their key at some point or at the end, in order, without each deletion up to the least
    point whose key is in no deeper range."""
    seen = set()
    for key, of_key in groupby(in_order(entries), key=lambda it: it.key):
        of_key = list(of_key)
        seen |= {visible(of_key, key, at) for at in [*points, of_key[0].seq]}
    seen.discard(None)

    def may_go(it):
        hides_nothing_deeper = not any(low <= it.key <= high for low, high in deeper)
        return it.kind == DELETE and all(it.seq <= at for at in points) and hides_nothing_deeper

    return in_order(it for it in seen if not may_go(it))


def outputs(entries):
    """Entries as tables: before a new user key, one that weighs enough is closed."""
    tables, weight = [], 0
    for _, of_key in groupby(entries, key=lambda it: it.key):
        of_key = list(of_key)
        if not tables or weight >= OUTPUT_WEIGHT:
            tables.append([])
            weight = 0
        tables[-1] += of_key
        weight += sum(map(weight_of, of_key))
    return [Table(it) for it in tables]


def merge(tables, points, deeper):
    return outputs(kept([entry for it in tables for entry in it.entries], points, deeper))
