"""The bytes that a store writes into its folder, and keys that begin alike in memory and in tables.

The edits, tables and log records are spelled here by hand, as docs/FORMATS.md has them: those of its worked examples, and the edits of a compaction.
"""
import pathlib
import sys

sys.path.append(str(pathlib.Path(__file__).resolve().parent.parent / "crash"))
from frames import frame_of

# The first edit of every store, and the flush of `put a 1` behind it.
EPOCH = "0000000000000001 03 0000000000000000 0000000000000001 0000000000000001 00000000 00000000"
FLUSH = """0000000000000002 01 0000000000000001 0000000000000001 0000000000000002 00000000 00000001
    0000000000000001 00 0001 61 0001 61 00000030 00000001"""
# The first flush of two keys, the flush of `put a 3` behind it, and the compaction of both files, which become one of level 1.
OF_TWO_KEYS = """0000000000000002 01 0000000000000002 0000000000000001 0000000000000002 00000000 00000001
    0000000000000001 00 0001 61 0001 62 00000040 00000002"""
NEXT = """0000000000000003 01 0000000000000003 0000000000000001 0000000000000003 00000000 00000001
    0000000000000002 00 0001 61 0001 61 00000030 00000001"""
MERGED = """0000000000000004 02 0000000000000003 0000000000000001 0000000000000004
    00000002 0000000000000001 0000000000000002
    00000001 0000000000000003 01 0001 61 0001 62 00000040 00000002"""
# A second opening behind the flush of `put a 1`, and the flush of `put b 2` behind that.
REOPENED = "0000000000000003 03 0000000000000001 0000000000000002 0000000000000002 00000000 00000000"
AFTER = """0000000000000004 01 0000000000000002 0000000000000002 0000000000000003 00000000 00000001
    0000000000000002 00 0001 62 0001 62 00000030 00000001"""
# The flush of a deletion of a, and a compaction that leaves nothing of both files.
DELETION = """0000000000000003 01 0000000000000002 0000000000000001 0000000000000003 00000000 00000001
    0000000000000002 00 0001 61 0001 61 0000002f 00000001"""
EMPTIED = """0000000000000004 02 0000000000000002 0000000000000001 0000000000000003
    00000002 0000000000000001 0000000000000002 00000000"""
# The first flush of a deletion over a put of one key: in a table of 63 bytes, and in one of 78.
BOTH = """0000000000000002 01 0000000000000002 0000000000000001 0000000000000002 00000000 00000001
    0000000000000001 00 0001 61 0001 61 000000{} 00000002"""

# Tables: of `put a 1`, of `put b 2` at sequence 2, of the newest versions of both keys, of `put a 1` below `del a`, and of these two in a block each.
OF_A = """4c534d54 01 00001000 00000001 00000001 00000010 0001 61 0000000000000101
    0001 61 0000000000000101 00000001 31"""
OF_B = """4c534d54 01 00001000 00000001 00000001 00000010 0001 62 0000000000000201
    0001 62 0000000000000201 00000001 32"""
OF_BOTH = """4c534d54 01 00001000 00000002 00000001 00000020 0001 62 0000000000000201
    0001 61 0000000000000301 00000001 33  0001 62 0000000000000201 00000001 32"""
TWO = """4c534d54 01 00001000 00000002 00000001 0000001f 0001 61 0000000000000101
    0001 61 0000000000000200 00000000  0001 61 0000000000000101 00000001 31"""
TWO_BLOCKS = """4c534d54 01 00000001 00000002 00000002 0000000f 0001 61 0000000000000200 00000010 0001 61 0000000000000101
    0001 61 0000000000000200 00000000  0001 61 0000000000000101 00000001 31"""

# The records of `put a 1` at sequence 1, and of a batch of `del b` and `put a ""` from 2 on.
PUT = "01 0000000000000001 00000001 01 0001 61 00000001 31"
BATCH = "01 0000000000000002 00000002 00 0001 62 01 0001 61 00000000"


def framed(*texts):
    return b"".join(frame_of(bytes.fromhex(it)) for it in texts)


class Folders:
    """Sessions, and what they leave in their folders."""

    def __init__(self, cli, room):
        self.cli, self.room = cli, room

    def answers(self, what, folder, lines, out, *options):
        given = "".join(f"{it}\n" for it in lines).encode()
        self.cli.says(what, ["store", "--dir", folder, *options], out="".join(f"{it}\n" for it in out).encode(), given=given, room=self.room)

    def has(self, what, folder, edits=(), tables=None, log=()):
        """A case: the folder has these edits, tables by their numbers, and log records, each in its frame, and no more."""
        wanted = {"edits": framed(*edits), "log": framed(*log), "lock": b""}
        wanted |= {f"{number:020}.table": framed(text) for number, text in (tables or {}).items()}
        found = {it.name: it.read_bytes() for it in (self.room / folder).iterdir()}
        differ = sorted(it for it in {*found, *wanted} if found.get(it) != wanted.get(it))
        self.cli.tell(what, "" if found == wanted else f"the files {differ} are {[found.get(it, b'').hex() for it in differ]}")


def try_bytes(folders):
    folders.answers("a put and its flush", "one", ["put a 1", "flush"], ["seq 1", "flushed 1"])
    folders.has("the edits and the table of a flush", "one", [EPOCH, FLUSH], {1: OF_A})
    folders.answers("a second session", "one", ["put b 2", "flush"], ["seq 2", "flushed 2"])
    folders.has("the edit of an opening", "one", [EPOCH, FLUSH, REOPENED, AFTER], {1: OF_A, 2: OF_B})
    lines = ["batch put a 1 put b 2", "flush", "put a 3", "flush", "compact"]
    folders.answers("a compaction", "merged", lines, ["seq 1-2", "flushed 2", "seq 3", "flushed 3", "compacted"], "--l0", "2")
    folders.has("its edit and its table", "merged", [EPOCH, OF_TWO_KEYS, NEXT, MERGED], {3: OF_BOTH})
    lines = ["put a 1", "flush", "del a", "flush", "compact"]
    folders.answers("a compaction of a deletion", "emptied", lines, ["seq 1", "flushed 1", "seq 2", "flushed 2", "compacted"], "--l0", "2")
    folders.has("the edit of a compaction that leaves nothing", "emptied", [EPOCH, FLUSH, DELETION, EMPTIED])
    for block, size, table in (("4096", "3f", TWO), ("1", "4e", TWO_BLOCKS)):
        folder, lines = f"block-{block}", ["batch put a 1 del a", "flush"]
        folders.answers("two entries of a key", folder, lines, ["seq 1-2", "flushed 2"], "--block", block)
        folders.has(f"their table with blocks of {block} bytes", folder, [EPOCH, BOTH.format(size)], {1: table})
    folders.answers("writes that are not flushed", "log", ["put a 1", 'batch del b put a ""'], ["seq 1", "seq 2-3"])
    folders.has("their log records", "log", [EPOCH], log=[PUT, BATCH])


# Keys that begin alike, one of them twice, in the order in which they are put: each with its sequence as its value.
ALIKE = ["account-2", "account", "account-1", "account%00", "account-2", "account-10", "b", "zebra", "b"]
IN_ORDER = ["account=2", "account%00=4", "account-1=3", "account-10=6", "account-2=5", "b=9", "zebra=8"]
# The ends of ranges over them, and where in this order those begin and end.
RANGES = [
    ('""', "~", 0, 7),
    ("account", "account%00", 0, 1),
    ("account-1", "account-2", 2, 4),
    ("account-1", "~", 2, 7),
    ("account-10", "account-3", 3, 5),
    ("account-11", "~", 4, 7),
    ("account-3", "~", 5, 7),
    ("b", "~", 5, 7),
    ("b", "b", 5, 5),
    ("b1", "~", 6, 7),
    ("c", "a", 6, 6),
    ("zebras", "~", 7, 7),
]


def range_of(pairs):
    return " ".join([f"range {len(pairs)}", *pairs])


def try_alike(folders):
    """Keys that begin alike, and of one of them an earlier version, in a memtable, in one that is not flushed behind a flushed one, and in tables of one
    block and of many."""
    puts = [(f"put {key} {seq}", f"seq {seq}") for seq, key in enumerate(ALIKE, 1)]
    looks = [(f"scan {lo} {hi} 99", range_of(IN_ORDER[begin:end])) for lo, hi, begin, end in RANGES]
    looks += [("get account-2", "value 5"), ("get account-2 @1.1", "value 1"), ("get account-11", "none")]
    snap, flush, compact = ("snap", "snapshot 1.1 at 4"), ("flush", f"flushed {len(ALIKE)}"), ("compact", "compacted")
    for what, steps, options in (
        ("in a memtable", [*puts[:4], snap, *puts[4:]], []),
        ("in a table and a memtable", [*puts[:4], snap, ("flush", "flushed 4"), *puts[4:]], []),
        ("in a table of one block", [*puts[:4], snap, *puts[4:], flush], []),
        ("in a table of many blocks", [*puts[:4], snap, *puts[4:], flush], ["--block", "1"]),
        ("in a table of level 1", [*puts[:4], snap, ("flush", "flushed 4"), *puts[4:], flush, compact], ["--l0", "2", "--block", "1"]),
    ):
        lines, out = zip(*steps, *looks)
        folders.answers(f"keys that begin alike {what}", what.replace(" ", "_"), lines, out, *options)


def try_levels(folders):
    """Files of three levels, whose ranges meet: from before all keys, at the edges of files, between two entries or files, and after all."""
    held = {}
    for keys, options in (("ah", "13"), ("pz", "13"), ("ce", "7000"), ("gk", "7000"), ("mo", "7000"), ("by", ""), ("bm", "")):
        seq = 2 * len(held) + 1
        held[keys] = [seq, seq + 1]
        lines, out = [f"batch put {keys[0]} {seq} put {keys[1]} {seq + 1}", "flush"], [f"seq {seq}-{seq + 1}", f"flushed {seq + 1}"]
        if options:
            lines, out, options = [*lines, "compact"], [*out, "compacted"], ["--l0", "1", "--base", options]
        folders.answers(f"a file of {keys[0]} and {keys[1]}", "three_levels", lines, out, *options)
    # A table has 32 bytes beside its two entries, and an entry 15 beside the digits of its value.
    shown = "L0 2 files 132 bytes 4 entries\nL1 3 files 193 bytes 6 entries\nL2 2 files 128 bytes 4 entries\n"
    status, out, _ = folders.cli.ask("check", "--dir", "three_levels", room=folders.room)
    folders.cli.case("files of three levels", (0, shown), (status, "".join(it + "\n" for it in out.decode().split("\n") if it.startswith("L"))))
    newest = {key: seq for keys, seqs in held.items() for key, seq in zip(keys, seqs)}
    froms = ['""', *"abcdefhikmnpz", "b1", "z1"]
    looks = [(f"scan {lo} ~ 99", range_of([f"{key}={newest[key]}" for key in sorted(newest) if lo == '""' or key >= lo])) for lo in froms]
    folders.answers("ranges over three levels", "three_levels", *zip(*looks))


def try_prefixes(folders):
    """A memtable behind one of a thousand entries expects keys to begin as those do, and finds any others too."""
    keys = ["user:profile", "z", "user:1", "user", "uses", "user:", "a"]
    steps = [
        ("batch" + "".join(f" put user:a {it}" for it in range(1000)), "seq 1-1000"),
        ("put user:b 1", "seq 1001"),
        ("flush", "flushed 1001"),
        *((f"put {key} {at}", f"seq {1001 + at}") for at, key in enumerate(keys, 1)),
        *((f"get {key}", f"value {at}") for at, key in enumerate(keys, 1)),
        ("get user:2", "none"),
        ("get b", "none"),
        ("get user:a", "value 999"),
        ("scan user user:p 99", range_of(["user=4", "user:=6", "user:1=3", "user:a=999", "user:b=1"])),
        ('scan "" ~ 99', range_of(["a=7", "user=4", "user:=6", "user:1=3", "user:a=999", "user:b=1", "user:profile=1", "uses=5", "z=2"])),
    ]
    folders.answers("keys behind a thousand that begin alike", "prefixes", *zip(*steps))


def tried(cli, room):
    folders = Folders(cli, room)
    for part in (try_bytes, try_alike, try_levels, try_prefixes):
        part(folders)
