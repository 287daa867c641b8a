"""A folder from before there was a log: the folder before_log has what a program from then leaves of `put a 1` and the end of the input.

Its files are as docs/FORMATS.md has them: two edits and a table, a frame each. A store opens them with all that they hold, counts on from there, and has
a log from then on. That a program from then refuses a folder with a log, as a file that does not belong to a store, is not tried here.
"""
import pathlib
import shutil
import subprocess

from frames import begins, frame_of
from stores import PATIENCE, SCAN, Model, Session, Wrong, command, end_of, opened, pairs_in

FOLDER = pathlib.Path(__file__).resolve().parent / "before_log"
TABLE = "00000000000000000001.table"
# The worked edits and the table of docs/FORMATS.md.
OPENING = "0000000000000001 03 0000000000000000 0000000000000001 0000000000000001 00000000 00000000"
FLUSH = (
    "0000000000000002 01 0000000000000001 0000000000000001 0000000000000002 00000000 00000001"
    " 0000000000000001 00 0001 61 0001 61 00000030 00000001"
)
ENTRY = "4c534d54 01 00001000 00000001 00000001 00000010 0001 61 0000000000000101 0001 61 0000000000000101 00000001 31"
FILES = {"edits": [OPENING, FLUSH], TABLE: [ENTRY], "lock": []}


def copied(kept, room, name):
    folder = room / name
    shutil.copytree(kept, folder)
    return folder


def has_frames(kept, files):
    """The files of a folder are frames of these bytes, and no other is there."""
    wanted = {name: b"".join(frame_of(bytes.fromhex(it)) for it in frames) for name, frames in files.items()}
    if {it.name: it.read_bytes() for it in kept.iterdir()} != wanted:
        raise Wrong("the files are others than the documents say")


def as_documented(_room):
    """The files hold what the documents say, and no other is there."""
    has_frames(FOLDER, FILES)


def is_checked(room):
    """A check finds no damage, and makes no log."""
    folder = copied(FOLDER, room, "before_log.checked")
    done = subprocess.run(command(folder, "check"), capture_output=True, text=True, timeout=PATIENCE)
    if (done.returncode, done.stdout) != (0, "L0 1 files 48 bytes 1 entries\nversion 2 flushed 1: 1 files, no damage\n") or (folder / "log").exists():
        raise Wrong(f"a check says {done.stdout!r} {done.stderr!r}, status {done.returncode}")


def is_opened(room):
    """It opens at version 3 with what it holds, and has a log."""
    folder = copied(FOLDER, room, "before_log.opened")
    session = Session(folder)
    answers = [session.ask(line) for line in ("get a", "show c", "snap", "put b 2", "get b")]
    if answers != ["value 1", "show 3 flushed 1 L0 1", "snapshot 2.1 at 1", "seq 2", "value 2"]:
        raise Wrong(f"it answers {answers}")
    session.kill()
    edits, old = (folder / "edits").read_bytes(), (FOLDER / "edits").read_bytes()
    if edits[: len(old)] != old or len(begins(edits)) != 3 or len(begins((folder / "log").read_bytes())) != 1:
        raise Wrong("its edits are changed, or its log has not the one write")
    session = Session(folder)
    if pairs_in(session.ask(SCAN)) != {"a": "1", "b": "2"}:
        raise Wrong("what was written after it was opened is not found")
    end_of(session)
    opened(folder, Model({"a": "1", "b": "2"}))


def tried(_pool, room, _shim):
    """Tries all of this, and gives of each whether it was right, what it is, and why not."""
    return tried_of(
        room,
        [
            ("a folder from before there was a log, as documented", as_documented),
            ("a check of a folder from before there was a log", is_checked),
            ("a folder from before there was a log, opened and written to", is_opened),
        ],
    )


def tried_of(room, cases):
    results = []
    for what, it in cases:
        try:
            it(room)
            results.append((True, what, ""))
        except Exception as error:
            results.append((False, what, str(error)))
    return results
