#!/usr/bin/env python3
"""What a dispatch sends, byte for byte beside docs/FORMATS.md: a job, tables, that a file is gone, an edit, a full version and that there is none later;
and which jobs, if a level is compacted all round by two workers.

Usage: tests/pipe/dispatches.py PROGRAM [PIPE]

PROGRAM fills a folder by 'store', and PIPE, or else PROGRAM, is called with 'dispatch' over it: it is handed the letters of worker 1 and of two followers.
No two numbers of the version are the same, so that each stands where it belongs. Over another folder it is handed the results of two workers. Prints what
is wrong, or 'ok' and how many frames were sent.
"""
import os
import pathlib
import shutil
import subprocess
import sys
import tempfile

sys.dont_write_bytecode = True
from merges import COORDINATOR, FETCH, JOB, RESULT, TABLE, Entry, message, number, put, table_of, text
from workers import ASK, BASE, CURRENT, EDIT, GONE, frames_in

TOP = pathlib.Path(__file__).resolve().parents[2]
WORKER, SECOND, FOURTH, TARGET = b"\1\1", b"\2\2", b"\2\4", 4096
# One file in the deepest of the levels that it goes through; then, in two epochs, three files of level 0.
SESSIONS = (
    (["--l0", "1", "--base", "1"], "put a 0\nflush\ncompact\nbatch put a 1 put b 2\nflush\ndel a\nflush\n"),
    ([], "batch put b 4 put c 5 put d 6 del d put d 7\nflush\n"),
)
# The edits: of the first opening, of a flush and of three installs; of two flushes; of an opening and of a flush; and of the dispatch's own opening.
VERSION, FLUSHED, EPOCH, NEXT_FILE = 10, 9, 3, 8
DEEPEST = (4, 3, [put(b"a", 1, b"0")])
INPUTS = (
    (5, 0, [put(b"a", 2, b"1"), put(b"b", 3, b"2")]),
    (6, 0, [Entry(b"a", 4, 0, b"")]),
    (7, 0, [put(b"b", 5, b"4"), put(b"c", 6, b"5"), put(b"d", 9, b"7"), Entry(b"d", 8, 0, b""), put(b"d", 7, b"6")]),
)
# The newest of each key. A deeper file may have the deleted one.
KEPT = [Entry(b"a", 4, 0, b""), put(b"b", 5, b"4"), put(b"c", 6, b"5"), put(b"d", 9, b"7")]
DUMP = b"L1 file 8: a @4 del\nL1 file 8: b @5 put 4\nL1 file 8: c @6 put 5\nL1 file 8: d @9 put 7\nL3 file 4: a @1 put 0\n"

# Files of level 1 with the keys c and b, and one of level 0 with a. Of each job its worker and the number, the level and the entry of its file: once
# the least key comes to level 1, it is passed over until those after the file that was handed out last have gone down.
ROUND = "put c 1\nflush\ncompact\nput b 2\nflush\ncompact\nput a 3\nflush\n"
JOBS = (
    (b"\1\1", 5, 0, put(b"a", 3, b"3")),
    (b"\1\2", 4, 1, put(b"b", 2, b"2")),
    (b"\1\1", 2, 1, put(b"c", 1, b"1")),
    (b"\1\2", 6, 1, put(b"a", 3, b"3")),
)
ROUND_DUMP = b"L2 file 7: b @2 put 2\nL2 file 8: c @1 put 1\nL2 file 9: a @3 put 3\n"


def record(at, level, entries):
    keys = text(entries[0].key) + text(entries[-1].key)
    return number(at, 8) + number(level, 1) + keys + number(len(table_of(entries, TARGET)), 4) + number(len(entries), 4)


def counted(records, width):
    return number(len(records), width) + b"".join(records)


def sized(data):
    return number(len(data), 4) + data


def to(receiver, kind, body):
    return message(kind, COORDINATOR, receiver, body)


def asks(sender, kind, value):
    return message(kind, sender, COORDINATOR, number(value, 8))


def job(worker, name, level, inputs, deeper):
    head = number(name[0], 8) + number(name[1], 8) + number(level, 1) + number(TARGET, 4) + counted([], 1)
    return to(worker, JOB, head + counted([record(*it) for it in inputs], 2) + counted([text(key) + text(key) for key in deeper], 4))


def result(worker, name, entries):
    """That of a job which makes one table."""
    return message(RESULT, worker, COORDINATOR, number(name[0], 8) + number(name[1], 8) + number(1, 4) + sized(table_of(entries, TARGET)))


def table(receiver, at):
    (entries,) = (entries for file, _, entries in INPUTS if file == at)
    return to(receiver, TABLE, number(at, 8) + sized(table_of(entries, TARGET)))


def edit():
    """That of the dispatch's own opening."""
    return to(SECOND, EDIT, number(VERSION, 8) + b"\3" + number(FLUSHED, 8) + number(EPOCH, 8) + number(NEXT_FILE, 8) + counted([], 4) + counted([], 4))


def base():
    files = counted([record(*it) for it in (DEEPEST, *INPUTS)], 4)
    return to(FOURTH, BASE, number(VERSION, 8) + number(FLUSHED, 8) + number(EPOCH, 8) + number(NEXT_FILE, 8) + files)


def current():
    return to(SECOND, CURRENT, number(VERSION, 8))


def turns():
    """Each letter with what is sent once it has come. The job is sent before all."""
    return (
        (b"", job(WORKER, (EPOCH, 1), 0, INPUTS, [b"a"])),
        (asks(WORKER, FETCH, 5), table(WORKER, 5)),
        (asks(WORKER, FETCH, 6), table(WORKER, 6)),
        # The file was there, and is one of a version before the opening; there is none of that number yet.
        (asks(WORKER, FETCH, 3), to(WORKER, GONE, number(3, 8))),
        (asks(SECOND, FETCH, 8), to(SECOND, GONE, number(8, 8))),
        (asks(FOURTH, FETCH, 7), table(FOURTH, 7)),
        (asks(WORKER, FETCH, 7), table(WORKER, 7)),
        (asks(FOURTH, ASK, 0), base()),
        (asks(FOURTH, ASK, VERSION - 2), base()),
        (asks(SECOND, ASK, VERSION - 1), edit()),
        (asks(SECOND, ASK, VERSION), current()),
        (result(WORKER, (EPOCH, 1), KEPT), b""),
    )


def round_turns():
    """The same of the jobs that go round: the first two are sent before all, each other one once the result two before it has come."""
    jobs = [job(worker, (2, at), level, [(file, level, [entry])], []) for at, (worker, file, level, entry) in enumerate(JOBS, 1)]
    results = [result(worker, (2, at), [entry]) for at, (worker, _, _, entry) in enumerate(JOBS, 1)]
    return tuple(zip([b"", b"", *results], [*jobs, b"", b""]))


def difference(data, wanted):
    """What is wrong with the frames that a dispatch sent, or None."""
    frames, rest = frames_in(data)
    wanted = [frame for _, frame in wanted if frame]
    for at, (one, other) in enumerate(zip(frames, wanted), 1):
        if one != other:
            return f"frame {at} is {one.hex()}, not {other.hex()}"
    return f"{len(frames)} frames and {len(rest)} bytes, not {len(wanted)} frames" if len(frames) != len(wanted) or rest else None


def run(program, folder, *words, given=b""):
    return subprocess.run([program, words[0], "--dir", folder, *words[1:]], input=given, capture_output=True, timeout=60, check=True)


def fill(program, folder):
    for options, lines in SESSIONS:
        run(program, folder, "store", *options, given=lines.encode())


def tried(program, pipe, folder):
    """What is wrong with a dispatch over the folder, or None."""
    return dispatched(program, pipe, folder, ["1", "--l0", "3"], turns(), b"1 jobs, 3 files -> 1, 0.0 MB\n", DUMP)


def tried_round(program, pipe, folder):
    """The same of jobs that go round a level."""
    run(program, folder, "store", "--l0", "1", given=ROUND.encode())
    return dispatched(program, pipe, folder, ["2", "--l0", "1", "--base", "40"], round_turns(), b"4 jobs, 4 files -> 4, 0.0 MB\n", ROUND_DUMP)


def dispatched(program, pipe, folder, options, turns, said, dump):
    """What is wrong with a dispatch that is handed the letters of these turns, or None."""
    ended = run(pipe, folder, "dispatch", "--workers", *options, given=b"".join(letter for letter, _ in turns))
    if ended.stderr != said:
        return f"standard error is {ended.stderr!r}"
    found = run(program, folder, "dump").stdout
    return difference(ended.stdout, turns) or (f"it has {found!r}" if found != dump else None)


def unsynced(pipe, folder, room):
    """What is wrong with a dispatch over copies of a folder of which one sync after another fails, or None: each such dispatch says what the system says."""
    shim = f"{room}/streams.so"
    compiler = subprocess.run([TOP / "tests/compiler"], capture_output=True, text=True, check=True).stdout.strip()
    subprocess.run([compiler, "-shared", "-fPIC", "-o", shim, TOP / "tests/streams/streams.c"], check=True)
    begun = set()
    for at in range(1, 100):
        copy = shutil.copytree(folder, f"{room}/unsynced-{at}")
        words = [pipe, "dispatch", "--dir", copy, "--workers", "1", "--l0", "3"]
        variables = {**os.environ, "LD_PRELOAD": shim, "STREAM_SYNC": str(at)}
        ended = subprocess.run(words, input=b"".join(letter for letter, _ in turns()), env=variables, capture_output=True, timeout=60)
        if ended.returncode == 0:
            return None if {b"0 jobs", b"1 jobs"} <= begun else f"syncs fail behind {begun} alone"
        if ended.returncode != 1 or b"Input/output error" not in ended.stderr:
            return f"sync {at} fails: status {ended.returncode}, {ended.stderr!r}"
        begun.add(ended.stderr[:6])
    return "syncs have no end"


def main():
    with tempfile.TemporaryDirectory() as room:
        try:
            folder = f"{room}/store"
            fill(sys.argv[1], folder)
            wrong = unsynced(sys.argv[-1], folder, room) or tried(sys.argv[1], sys.argv[-1], folder) or tried_round(sys.argv[1], sys.argv[-1], f"{room}/round")
        except subprocess.CalledProcessError as it:
            wrong = f"{it}: {it.stderr!r}"
    print(wrong or f"ok, {sum(bool(frame) for _, frame in turns() + round_turns())} frames")
    return 1 if wrong else 0


if __name__ == "__main__":
    sys.exit(main())
