"""A folder from before keys had more than 1,024 bytes: the folder before_long_keys has what a program from then leaves of a put of a key of that length, a
flush, a put of another one, and the end of the input.

Its files are as docs/FORMATS.md has them: two edits, a table of version 1 and a log record, a frame each. A store opens them with all that they hold, and has
a table of version 2 beside the old one once a longer key is flushed. That a program from then refuses a folder with a longer key is not tried here.
"""
import pathlib
import subprocess

from before_log import OPENING, copied, has_frames, tried_of
from frames import record_of
from stores import PATIENCE, Model, Session, Wrong, command, end_of, opened

FOLDER = pathlib.Path(__file__).resolve().parent / "before_long_keys"
TABLES = ["00000000000000000001.table", "00000000000000000002.table"]
# The longest keys of then, and one that is longer.
FLUSHED, LOGGED, LONG = "k" * 1_024, "l" * 1_024, "m" * 1_025
KEY = f"0400 {FLUSHED.encode().hex()}"
FLUSH = (
    "0000000000000002 01 0000000000000001 0000000000000001 0000000000000002 00000000 00000001"
    f" 0000000000000001 00 {KEY} {KEY} 0000082e 00000001"
)
TABLE = f"4c534d54 01 00001000 00000001 00000001 0000040f {KEY} 0000000000000101 {KEY} 0000000000000101 00000001 31"
RECORD = record_of(2, (LOGGED.encode(), b"2")).hex()
FILES = {"edits": [OPENING, FLUSH], TABLES[0]: [TABLE], "log": [RECORD], "lock": []}
# What a check prints: the frame of the record has 16 bytes beside it.
CHECKED = f"L0 1 files 2094 bytes 1 entries\nlog 1 records, 1 operations above 1, {16 + len(RECORD) // 2} bytes\nversion 2 flushed 1: 1 files, no damage\n"


def as_documented(_room):
    """The files hold what the documents say, and no other is there."""
    has_frames(FOLDER, FILES)


def is_checked(room):
    """A check finds no damage."""
    folder = copied(FOLDER, room, "before_long_keys.checked")
    done = subprocess.run(command(folder, "check"), capture_output=True, text=True, timeout=PATIENCE)
    if (done.returncode, done.stdout) != (0, CHECKED):
        raise Wrong(f"a check says {done.stdout!r} {done.stderr!r}, status {done.returncode}")


def is_opened(room):
    """It opens with all that it holds, and a longer key is flushed into a table of version 2, and merged with the old one."""
    folder = copied(FOLDER, room, "before_long_keys.opened")
    session = Session(folder)
    answers = [session.ask(line) for line in (f"get {FLUSHED}", f"get {LOGGED}", "show c", f"put {LONG} 3", "flush")]
    if answers != ["value 1", "value 2", "show 3 flushed 1 L0 1", "seq 3", "flushed 3"]:
        raise Wrong(f"it answers {answers}")
    has = [(folder / it).read_bytes() for it in TABLES]
    if has[0] != (FOLDER / TABLES[0]).read_bytes() or has[1][16:21] != b"LSMT\2":
        raise Wrong("the old table is changed, or the new one is not of version 2")
    if session.ask("compact") != "compacted":
        raise Wrong("a table of each version is not merged")
    end_of(session)
    opened(folder, Model({FLUSHED: "1", LOGGED: "2", LONG: "3"}))


def tried(_pool, room, _shim):
    """Tries all of this, and gives of each whether it was right, what it is, and why not."""
    return tried_of(
        room,
        [
            ("a folder from before keys had more than 1,024 bytes, as documented", as_documented),
            ("a check of a folder from before keys had more than 1,024 bytes", is_checked),
            ("a folder from before keys had more than 1,024 bytes, opened, written to and merged", is_opened),
        ],
    )
