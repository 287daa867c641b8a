"""What compactions make of small stores, file by file, and what a session finds that another one left: a dump and a check stand behind each.

A table has 31 bytes beside its greatest key and its entries, an entry 14 beside its key and value: 48 bytes are a put of one letter to another.
"""
import pathlib
import sys

sys.path.append(str(pathlib.Path(__file__).resolve().parent.parent / "pipe"))
from folders import write_log
from frames import frame_of, freeze_of, record_of
from merges import number, put, table_of, text
from written import EPOCH

# How many inputs a job may have, and the block target of tables.
MOST_INPUTS, TARGET = 1_024, 4_096

# Of each store what it is, its options, the lines of its session and what they are answered, its dump, and a check's report.
STORES = (
    (
        "a deletion goes with what it hides",
        "--l0 2",
        "put a 1/flush/del a/flush/compact/get a",
        "seq 1/flushed 1/seq 2/flushed 2/compacted/none",
        "",
        "version 4 flushed 2: 0 files, no damage",
    ),
    (
        "a snapshot reads on after a compaction",
        "--l0 2",
        "put a 1/flush/snap/del a/flush/compact/get a @1.1/get a",
        "seq 1/flushed 1/snapshot 1.1 at 1/seq 2/flushed 2/compacted/value 1/none",
        "L1 file 3: a @2 del/L1 file 3: a @1 put 1",
        "L1 1 files 63 bytes 2 entries/version 4 flushed 2: 1 files, no damage",
    ),
    (
        # The put passes level 1, and the deletion, of a byte less, stays there.
        "a deletion stays over a deeper file",
        "--l0 1 --base 47",
        "put a 1/flush/compact/del a/flush/compact/get a",
        "seq 1/flushed 1/compacted/seq 2/flushed 2/compacted/none",
        "L1 file 5: a @2 del/L2 file 3: a @1 put 1",
        "L1 1 files 47 bytes 1 entries/L2 1 files 48 bytes 1 entries/version 6 flushed 2: 2 files, no damage",
    ),
    (
        # Both go down to level 3, in three compactions each.
        "a level after another is compacted, until a deletion meets its put",
        "--l0 1 --base 1",
        "put a 1/flush/compact/del a/flush/compact/get a",
        "seq 1/flushed 1/compacted/seq 2/flushed 2/compacted/none",
        "",
        "version 9 flushed 2: 0 files, no damage",
    ),
    (
        # Three files of level 1 exceed it. Made in the order c, b, a, they go down from the least key on; the file of b, which comes after
        # that of a, goes down before a later one of a, which has the least key, and before that of c, which has the least number.
        "a level goes on after the file that went down last",
        "--l0 1 --base 100",
        "put c 1/flush/compact/put b 2/flush/compact/put a 3/flush/compact/put a 4/flush/compact",
        "seq 1/flushed 1/compacted/seq 2/flushed 2/compacted/seq 3/flushed 3/compacted/seq 4/flushed 4/compacted",
        "L1 file 2: c @1 put 1/L1 file 9: a @4 put 4/L2 file 7: a @3 put 3/L2 file 10: b @2 put 2",
        "L1 2 files 96 bytes 2 entries/L2 2 files 96 bytes 2 entries/version 11 flushed 4: 4 files, no damage",
    ),
    ("a new store has nothing to compact", "--l0 1 --base 1", "compact", "compacted", "", "version 1 flushed 0: 0 files, no damage"),
)


def lines_of(text):
    return "".join(f"{it}\n" for it in text.split("/") if it).encode()


def try_stores(cli, room):
    for at, (what, options, lines, answers, entries, report) in enumerate(STORES):
        folder = ["--dir", f"store-{at}"]
        cli.says(what, ["store", *folder, *options.split()], given=lines_of(lines), out=lines_of(answers), room=room)
        cli.says(f"the files, if {what}", ["dump", *folder], out=lines_of(entries), room=room)
        cli.says(f"a check, if {what}", ["check", *folder], out=lines_of(report), room=room)


def try_sessions(cli, room):
    """What was not flushed is there in the next session."""
    at = ["store", "--dir", "session"]
    cli.says("a session of two puts", at, given=b"put a 1\nflush\nput b 2\n", out=b"seq 1\nflushed 1\nseq 2\n", room=room)
    stats = b"stats last 2 flushed 1 L0 1 files 48 bytes 1 entries flushes 48 bytes compactions 0 bytes amplification 1.00\n"
    cli.says("what is in no table is there again", at, given=b"get a\nget b\nstats\n", out=b"value 1\nvalue 2\n" + stats, room=room)


def try_stats(cli, room):
    """The amplification is what was written to tables for each byte of a flush, to two places."""
    stats = b"stats last 2 flushed 2 L0 1 files 48 bytes 1 entries L1 1 files 48 bytes 1 entries flushes 96 bytes compactions 48 bytes amplification 1.50\n"
    answers = b"seq 1\nflushed 1\nseq 2\nflushed 2\ncompacted\n" + stats
    cli.says("stats after a compaction", ["store", "--dir", "stats", "--l0", "2"], given=b"put a 1\nflush\nput b 2\nflush\ncompact\nstats\n", out=answers, room=room)


def try_many(cli, room):
    """Refuses a session, and a command, that stops before nothing is due: each of 40 files goes down to level 2 or 3, by itself."""
    lines = "".join(f"put k{at:02} 1\nflush\n" for at in range(40)).encode()
    at = ["store", "--dir", "many", "--l0", "1", "--base", "1"]
    cli.says("a session of 40 flushes", at, given=lines, out=b"".join(b"seq %d\nflushed %d\n" % (it, it) for it in range(1, 41)), room=room)
    status, out, err = cli.ask(*at, given=b"compact\nstats\n", room=room)
    cli.tell("over a hundred compactions in one call", "" if (status, err) == (0, b"") and out.startswith(b"compacted\n") and b" due" not in out else f"status {status}, {out}, {err}")
    made = int(cli.ask("check", "--dir", "many", room=room)[1].split(b"version ")[1].split()[0])
    cli.tell("and there are over a hundred", "" if made > 42 + 100 else f"it is at version {made}")


def try_frozen(cli, room):
    """A log that says what was frozen, as a coordinator leaves it that froze and wrote on."""
    at = ["--dir", "frozen"]
    cli.says("a new store", ["store", *at], room=room)
    write_log(room / "frozen", [record_of(1, (b"a", b"1")), freeze_of(1), record_of(2, (b"b", b"2"))])
    answers = b"value 1\nvalue 2\nflushed 2\nvalue 1\nvalue 2\n"
    cli.says("a flush of what was frozen and of what came after it", ["store", *at], given=b"get a\nget b\nflush\nget a\nget b\n", out=answers, room=room)
    cli.says("has a table of each", ["dump", *at], out=b"L0 file 1: a @1 put 1\nL0 file 2: b @2 put 2\n", room=room)
    cli.says("and leaves no record", ["dump", "--log", *at], room=room)
    cli.says("as a check says", ["check", *at], out=b"L0 2 files 96 bytes 2 entries\nversion 4 flushed 2: 2 files, no damage\n", room=room)


def record(at, level, entries):
    return number(at, 8) + number(level, 1) + text(entries[0].key) + text(entries[-1].key) + number(len(table_of(entries, TARGET)), 4) + number(len(entries), 4)


def edit(version, kind, flushed, next_file, removed, added):
    """An edit of a flush, 1, or of an install, 2, in the epoch of the first opening."""
    numbers = b"".join(number(it, 8) for it in removed)
    head = number(version, 8) + number(kind, 1) + number(flushed, 8) + number(1, 8) + number(next_file, 8)
    return frame_of(head + number(len(removed), 4) + numbers + number(len(added), 4) + b"".join(added))


def fill_wide(folder):
    """A folder of four files of level 0, so that it is due, each over as many of level 1 as a job may have inputs: with one more they are too many."""
    deep = {at + 1: [put(b"k%04d" % at, at, b"")] for at in range(1, MOST_INPUTS + 1)}
    flushed, next_file = MOST_INPUTS, MOST_INPUTS + 2
    edits = frame_of(bytes.fromhex(EPOCH)) + edit(2, 1, flushed, 2, [], [record(1, 0, [put(b"k", 1, b"")])])
    edits += edit(3, 2, flushed, next_file, [1], [record(at, 1, entries) for at, entries in deep.items()])
    wide = {}
    for version in range(4, 8):
        wide[next_file] = [put(b"a", flushed + 1, b""), put(b"z", flushed + 2, b"")]
        flushed, next_file = flushed + 2, next_file + 1
        edits += edit(version, 1, flushed, next_file, [], [record(next_file - 1, 0, wide[next_file - 1])])
    folder.mkdir()
    (folder / "edits").write_bytes(edits)
    for at, entries in (deep | wide).items():
        (folder / f"{at:020}.table").write_bytes(frame_of(table_of(entries, TARGET)))


def try_too_large(cli, room):
    """Refuses a compaction that is said to be made though it exceeds the job limits, and a dispatch that says nothing of it, or ends ill."""
    fill_wide(room / "wide")
    at, told = ["--dir", "wide"], b"compacted but for what exceeds the job limits\n"
    cli.says("a compaction that is too large", ["compact", *at], out=told, room=room)
    cli.says("and in a session", ["store", *at], given=b"compact\nget k0001\n", out=told + b'value ""\n', room=room)
    cli.says("and in a dispatch", ["dispatch", *at], err=b"0 jobs, 0 files -> 0, 0.0 MB\nwhat is due exceeds the job limits\n", room=room)
    status, out, err = cli.ask("check", *at, room=room)
    cli.tell("which leaves the files as they are", "" if (status, err) == (0, b"") and out.endswith(b": 1028 files, no damage\n") else f"status {status}, {out}, {err}")


def tried(cli, room):
    for part in (try_stores, try_sessions, try_stats, try_many, try_frozen, try_too_large):
        part(cli, room)
