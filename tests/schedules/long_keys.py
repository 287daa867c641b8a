"""The two versions of tables and messages in the second store, tried without a program. Of version 2 is a table that has a key of more than 1,024 bytes, and a
message that has one in its own fields; all others are of version 1. And random schedules have to meet both."""
import generate
from store.claims import Name
from store.entries import DELETE, PUT, Entry
from store.merging import merge
from store.messages import COORDINATOR, Ask, Base, Current, Fetch, FetchedTable, Gone, Job, Message, Node, Result
from store.tables import Table
from store.versions import FLUSH, INSTALL, Edit, Version, file_meta

KEYS = {"short": b"a", "longest of version 1": b"k" * 1_024, "shortest of version 2": b"k" * 1_025, "longest": b"k" * 4_096}
SHORT, LONG = KEYS["short"], KEYS["shortest of version 2"]


def table(*keys):
    return Table([Entry(key, seq, PUT, b"1") for seq, key in enumerate(keys, 1)])


# What a table is of, and its version and length: the first is the worked one of docs/FORMATS.md.
TABLES = [
    ("a short key", table(SHORT), (1, 48)),
    ("the longest key of version 1", table(KEYS["longest of version 1"]), (1, 2_094)),
    ("the shortest key of version 2", table(LONG), (2, 2_096)),
    ("the longest key", table(KEYS["longest"]), (2, 8_238)),
    ("a long key between short ones", table(b"a", LONG, b"z"), (2, 31 + 1 + 15 + 1 + 15 + 1_025 + 15 + 1)),
    ("the deletion of a long key", Table([Entry(LONG, 1, DELETE, b"")]), (2, 2_095)),
]

# Files by which of their keys is long.
ENDS = {"none": [SHORT], "the least": [b"a" * 1_025, b"z"], "the greatest": [SHORT, LONG], "between": [b"a", LONG, b"z"]}
FILES = {name: file_meta(1, 0, table(*keys)) for name, keys in ENDS.items()}


def job(file=FILES["none"], deeper=()):
    return Job(Name(1, 1), 0, (), (file,), deeper)


def edit(kind, file):
    return Edit(2, kind, 1, 1, 2, (), (file,))


# What a message is, and its version.
BODIES = [
    ("a job", job(), 1),
    ("a job of a file with a long key between its ends", job(FILES["between"]), 1),
    ("a job of a file with a long least key", job(FILES["the least"]), 2),
    ("a job of a file with a long greatest key", job(FILES["the greatest"]), 2),
    ("a job with a deeper range from a long key on", job(deeper=((SHORT, SHORT), (LONG, b"z"))), 2),
    ("a job with a deeper range up to a long key", job(deeper=((SHORT, LONG), (SHORT, SHORT))), 2),
    ("the edit of a flush", edit(FLUSH, FILES["between"]), 1),
    ("the edit of a flush with a long key", edit(FLUSH, FILES["the greatest"]), 2),
    ("the edit of an install with a long key", edit(INSTALL, FILES["the least"]), 2),
    ("a base", Base(Version(2, 1, 1, 2, (FILES["none"],))), 1),
    ("a base of no file", Base(Version()), 1),
    ("a base of a file with a long key", Base(Version(2, 1, 1, 3, (FILES["none"], FILES["the greatest"]))), 2),
    ("a table that has a long key", FetchedTable(1, table(LONG)), 1),
    ("a result whose table has a long key", Result(Name(1, 1), (table(LONG),)), 1),
    *((f"a message {type(it).__name__}", it, 1) for it in (Fetch(1), Gone(1), Ask(0), Current(1), Result(Name(1, 1), ()))),
]


def is_of(found, wanted):
    return None if found == wanted else f"it is {found}, not {wanted}"


def try_merges():
    """A merge's tables are of the versions that the keys need which they hold. Says what is wrong, or None."""
    ends, put, deletion = table(b"a", b"z"), Entry(LONG, 3, PUT, b"1"), Entry(LONG, 4, DELETE, b"")
    both = Table([put, deletion])
    merged = {
        "left out": (merge([ends, both], [], []), [1]),
        "kept for a point": (merge([ends, both], [3], []), [2]),
        "deleted over a deeper file": (merge([ends, both], [], [(LONG, LONG)]), [2]),
        "put": (merge([ends, Table([put])], [], []), [2]),
    }
    wrong = [name for name, (tables, wanted) in merged.items() if [it.format for it in tables] != wanted]
    return f"of other versions if a long key is {' or '.join(wrong)}" if wrong else None


# What random schedules have to meet.
KINDS = [
    "Job to an idle worker, of version 2",
    "Edit to a follower that does not wait, the next, of version 2",
    "Base to a follower that does not wait, far ahead, of version 2",
    "Deliver: merged, FetchedTable to a collecting worker, with a table of version 2",
    "Deliver: installed 1 files, Result, with a table of version 2",
    "Deliver: version, FetchedTable to a follower that waits, with a table of version 2",
]


def try_schedules(given):
    """Says which kinds of deliveries are in none of the random schedules, or None."""
    missing = set(KINDS)
    for it in generate.schedules(given.seed, given.count, given.length, given.commands):
        missing -= {kind for kind in missing if any(kind in met for met in it.kinds)}
        if not missing:
            return None
    return f"no schedule has {', '.join(sorted(missing))}"


def tried(given):
    """Tries all, and gives of each what it is, and what is wrong with it, or None."""
    for name, it, wanted in TABLES:
        yield f"the version of a table of {name}", is_of((it.format, it.bytes), wanted)
    for name, body, wanted in BODIES:
        yield f"the version of {name}", is_of(Message(COORDINATOR, Node("w", 1), body).format, wanted)
    yield "the versions of what merges make", try_merges()
    yield "random schedules have tables and messages of version 2", try_schedules(given)
