"""Logs of a store's folder: those that a killed process leaves, damage to one, and some that no store leaves.

A process that is killed leaves a record for each write since the last flush, which the next opening finds. What lsm_file_vault promises: a changed byte
of a record is a refusal that names the file and where the record begins, with nothing changed. What a stop may leave at the very end of the log is set
aside, a last record that is damaged too, and standard error says so: the store is that without it, a check says so before, with status 1, and its bytes
are in a file of their own. Records that are whole and not in their place are refused too, and a check says why. An opening cuts off those that are flushed.
A dump of a log can be replayed.
"""
import shutil
import subprocess

import damage
from damage import LENGTHS, WITHOUT_LAST, bytes_of, copied, copy_of, end_of_frames, refused, small_folder, turn
from frames import begins, frame_of, freeze_of, record_of
from stores import PATIENCE, SCAN, Model, Session, Wrong, command, end_of, opened, pairs_in, run

# The small folder is flushed up to sequence 6, and two writes more are not.
FLUSHED = 6
LINES = [*damage.LINES, "put e 6", "batch put f 7 del b"]
RECORDS = [record_of(7, (b"e", b"6")), record_of(8, (b"f", b"7"), (b"b",))]
# The two writes before these, which are flushed.
BEFORE = [record_of(5, (b"d", b"4")), record_of(6, (b"a", b"5"))]
LATE = "it does not begin with the writes after what is flushed"
# Whole records that make no good log, and what a check says of them.
BAD = {
    "a gap": ([RECORDS[0], record_of(9, (b"f", b"7"))], "a write ends at 7, and the next one begins at 9"),
    "a record twice": ([RECORDS[0], RECORDS[0]], "a write ends at 7, and the next one begins at 7"),
    "a first write that is too late": ([RECORDS[1]], LATE),
    "a write of which a part is flushed": ([record_of(6, (b"a", b"5"), (b"e", b"6"))], "the write at 6 is flushed in part"),
    "a freeze first": ([freeze_of(6), *RECORDS], LATE),
    "a freeze that is not at the end": ([*RECORDS, freeze_of(8)], "a write ends at 9, and the freeze behind it is at 8"),
    "two freezes": ([RECORDS[0], freeze_of(7), RECORDS[1], freeze_of(9)], "two freezes are above what is flushed"),
    "an end before what is flushed": (BEFORE[:1], "it ends at 5, before what is flushed does"),
    "no record": ([*RECORDS, b""], "the bytes of a record are none: Truncated"),
    "a record of another code": ([*RECORDS, b"\3"], "the bytes of a record are none: BadField"),
    "a record of a key that is too long": ([*RECORDS, record_of(10, (b"k" * 4_097, b"8"))], "the bytes of a record are none: BadField"),
    "a record with a byte more": ([*RECORDS, record_of(10, (b"g", b"8")) + b"\0"], "the bytes of a record are none: TrailingBytes"),
    "a record without its last byte": ([*RECORDS, record_of(10, (b"g", b"8"))[:-1]], "the bytes of a record are none: Truncated"),
}
NOT_IN_PLACE = "the store is not opened: a record of the log is not valid or not in its place"


def log_of(records):
    return b"".join(map(frame_of, records))


LOG = log_of(RECORDS)


def killed_folder(folder):
    """The folder of a process that was killed once it had answered all lines. Returns what it holds without the last write, and with it."""
    session, model = Session(folder), Model()
    if not run(session, LINES, model):
        raise Wrong("a folder is not filled")
    session.kill()
    return model.states[-2:]


def with_log(good, room, data):
    """A copy of a folder with a log of these bytes."""
    folder = copied(good, room)
    (folder / "log").write_bytes(data)
    return folder


def check_says(folder, status, said):
    done = subprocess.run(command(folder, "check"), capture_output=True, text=True, timeout=PATIENCE)
    if done.returncode != status or said not in done.stdout:
        raise Wrong(f"a check says {done.stdout!r} {done.stderr!r}, status {done.returncode}, and not {said!r}")


def dump_of(folder, status=0):
    """The lines of a dump of the log."""
    done = subprocess.run([*command(folder, "dump"), "--log"], capture_output=True, text=True, timeout=PATIENCE)
    if done.returncode != status:
        raise Wrong(f"a dump of the log says {done.stdout!r} {done.stderr!r}, status {done.returncode}")
    return done.stdout.splitlines()


def found(folder):
    """What the program shows of a folder, and says on standard error, before it is killed."""
    session = Session(folder)
    shown = session.ask(SCAN)
    if shown is None:
        raise Wrong("the folder is not opened: {1} (status {0})".format(*session.end()))
    return pairs_in(shown), session.kill()


def is_opened(before, after, log, lost=()):
    """Of the files of a folder before and after an opening: the edits go on by that of the opening, the log is this, and these files are new."""
    edits, more = before["edits"], after["edits"]
    if more[: len(edits)] != edits or len(begins(more[len(edits) :])) != 1:
        raise Wrong("the edits before are changed, or more than an opening's is behind them")
    wanted = {**before, **dict(lost), "edits": more, "log": log}
    if after != wanted:
        differ = sorted(name for name in {*after, *wanted} if after.get(name) != wanted.get(name))
        raise Wrong(f"the files {differ} are not as they were, or not as an opening leaves them")


def set_aside(folder, pairs, taken=0):
    """The program opens the folder without what is behind the last record of its log, and says that it set it aside. The plain name is taken, and so many
    more. The log then ends where its frames do."""
    before = bytes_of(folder)
    offset = end_of_frames(before["log"])
    torn, name = before["log"][offset:], copy_of(f"lost-log-{offset}", "", taken)
    check_says(folder, 1, f"the last log record is torn or damaged: {len(torn)} bytes; an opening sets them aside\n")
    held, said = found(folder)
    if (held, said) != (pairs, f"{len(torn)} torn or damaged bytes behind the last log record are set aside in {name}"):
        raise Wrong(f"it holds {held} and says {said!r}, without {name}")
    is_opened(before, bytes_of(folder), before["log"][:offset], {name: torn})
    check_says(folder, 0, "no damage")


def try_flip(good, room, at, without_last):
    """A bit of a byte of the log is turned; which one, goes round with the byte."""
    try:
        folder, records = copied(good, room), begins(LOG)
        turn(folder / "log", at, at % 8)
        if at >= records[-1] + LENGTHS:
            set_aside(folder, without_last)
        else:
            refused(folder, f"the file {folder / 'log'} is damaged: the log record at offset {max(it for it in records if it <= at)} is not whole")
        shutil.rmtree(folder.parent)
        return ""
    except Exception as error:
        return f"byte {at} of the log: {error}"


def flips(pool, room, good, without_last):
    count = len(LOG)
    wrong = [it for it in pool.map(try_flip, [good] * count, [room] * count, range(count), [without_last] * count, chunksize=4) if it]
    return not wrong, f"a bit turned in each of {count} bytes of a log", f"{len(wrong)} wrong; first {wrong[:3]}"


def as_written(good, _room, _without_last, held):
    """The log is a record for each write since the last flush, as documented, and a check counts them."""
    data = (good / "log").read_bytes()
    if data != LOG:
        raise Wrong(f"the log is {data.hex()}, not {LOG.hex()}")
    check_says(good, 0, f"log {len(RECORDS)} records, 3 operations above {FLUSHED}, {len(LOG)} bytes\n")


def is_found(good, room, _without_last, held):
    """A killed process loses nothing that it answered, also if the next one is killed too. The end of an input leaves all records, and a flush none."""
    folder = copied(good, room)
    for _ in range(3):
        if found(folder) != (held, "") or (folder / "log").read_bytes() != LOG:
            raise Wrong("what a killed process left is not found, or not kept")
    for line, log in (("get e", LOG), ("flush", b"")):
        session = Session(folder)
        session.ask(line)
        end_of(session)
        if (folder / "log").read_bytes() != log:
            raise Wrong(f"after {line} and the end of the input the log is not {log.hex()}")
    opened(folder, Model(held))


def cuts(good, room, without_last, held):
    """The log ends inside a record, or there and in zeros to where it ended, or in zeros."""
    last = begins(LOG)[-1]
    ends = [(LOG[:at], without_last) for at in range(last + 1, len(LOG))]
    ends += [(LOG[:at] + bytes(len(LOG) - at), without_last) for at in range(last, len(LOG))]
    # Neither record was synced, and the file had its length before its bytes.
    flushed, _ = found(with_log(good, room, b""))
    ends += [(LOG[:at] + bytes(len(LOG) - at), flushed) for at in range(1, last, 3)]
    for data, pairs in ends + [(LOG + bytes(count), held) for count in (1, 15, 17, 4096)]:
        folder = with_log(good, room, data)
        set_aside(folder, pairs)
        opened(folder, Model(pairs))


def names_taken(good, room, without_last, _held):
    """What was set aside before is not written over."""
    record = log_of(RECORDS[:1])
    for taken in range(1, 4):
        folder = with_log(good, room, record + b"torn")
        for copy in range(taken):
            (folder / copy_of(f"lost-log-{len(record)}", "", copy)).write_text("mine")
        set_aside(folder, without_last, taken)
        opened(folder, Model(without_last))


def flushed_records(good, room, _without_last, held):
    """Records that are flushed may stand before the others, with a freeze, since a cut may be refused. They change nothing, and an opening cuts them off."""
    for before in (BEFORE, BEFORE[1:], [*BEFORE, freeze_of(FLUSHED)], [BEFORE[0], freeze_of(5), BEFORE[1], freeze_of(FLUSHED)]):
        for records in (RECORDS, RECORDS[:1], []):
            pairs = found(with_log(good, room, log_of(records)))[0]
            data = log_of([*before, *records])
            folder, above = with_log(good, room, data), [0, 1, 3][len(records)]
            files = bytes_of(folder)
            check_says(folder, 0, f"log {len(before) + len(records)} records, {above} operations above {FLUSHED}, {len(data)} bytes\n")
            if found(folder) != (pairs, ""):
                raise Wrong(f"records that are flushed change what is held: {found(folder)}")
            is_opened(files, bytes_of(folder), log_of(records))
            opened(folder, Model(pairs))


def freezes(good, room, _without_last, held):
    """A log that says that a memtable was frozen. A session flushes that one, and then the other."""
    for records in ([RECORDS[0], freeze_of(7), RECORDS[1]], [*RECORDS, freeze_of(9)]):
        folder = with_log(good, room, log_of(records))
        if found(folder) != (held, "") or (folder / "log").read_bytes() != log_of(records):
            raise Wrong("a log with a freeze is not found, or not kept")
        session = Session(folder)
        answers = [session.ask(line) for line in ("put g 8", "flush", SCAN)]
        end_of(session)
        if answers[:2] != ["seq 10", "flushed 10"] or pairs_in(answers[2]) != {**held, "g": "8"} or (folder / "log").read_bytes():
            raise Wrong(f"over a log with a freeze it answers {answers}")
        opened(folder, Model({**held, "g": "8"}))


def dumped(good, room, _without_last, held):
    """A dump of the log has a line a record, in the words of scripts: over the folder without its log they make what it held."""
    lines = dump_of(with_log(good, room, log_of([RECORDS[0], freeze_of(7), RECORDS[1]])))
    if lines != ["write 7-7 put e 6", "freeze 7", "write 8-9 put f 7 del b"]:
        raise Wrong(f"a dump of the log is {lines}")
    folder = with_log(good, room, b"")
    session = Session(folder)
    answers = [session.ask("batch " + line.split(" ", 2)[2]) for line in lines if line.startswith("write ")]
    end_of(session)
    if answers != ["seq 7", "seq 8-9"]:
        raise Wrong(f"the lines of a dump are answered {answers}")
    opened(folder, Model(held))


def bad_logs(good, room, _without_last, _held):
    """Whole records that no store leaves so. A check says why, and a dump leaves out what is no record."""
    for what, (records, why) in BAD.items():
        folder = with_log(good, room, log_of(records))
        try:
            check_says(folder, 1, f"the log is bad: {why}; an opening is refused\n")
            lines, count = dump_of(folder, 1), len(records) - why.startswith("the bytes of a record")
            if len(lines) != count:
                raise Wrong(f"a dump of the log is {lines}")
            refused(folder, NOT_IN_PLACE, f"the log is bad: {why}; an opening is refused")
        except Wrong as error:
            raise Wrong(f"{what}: {error}") from None


def edit_below(good, room, _without_last, _held):
    """The last edit is torn, and the log goes on from what it flushed: nothing is set aside, since an opening would lose what lies between."""
    folder = copied(good, room)
    edits = (good / "edits").read_bytes()
    (folder / "edits").write_bytes(edits[:-1])
    torn = len(edits) - 1 - begins(edits)[-1]
    check_says(folder, 1, f"the log is bad: {LATE}; an opening is refused\nthe last edit is torn or damaged: {torn} bytes; an opening is refused\n")
    refused(folder, NOT_IN_PLACE)


def edits_too(good, room, _without_last, _held):
    """The last edit is torn, and the log has torn bytes alone: both are set aside, and said."""
    edits = (good / "edits").read_bytes()
    folder, offset = with_log(good, room, b"torn"), begins(edits)[-1]
    (folder / "edits").write_bytes(edits[:-1])
    held, said = found(folder)
    if held != WITHOUT_LAST or any(f"set aside in {name}" not in said for name in ("lost-log-0", f"lost-edits-{offset}")):
        raise Wrong(f"it holds {held} and says {said!r}")
    after = bytes_of(folder)
    if (after["log"], after["lost-log-0"], after[f"lost-edits-{offset}"]) != (b"", b"torn", edits[offset:-1]):
        raise Wrong("what was behind the edits or the log is not set aside")
    opened(folder, Model(held))


def no_log(good, room, _without_last, held):
    """A folder of a store that kept no log has an empty one after an opening."""
    flushed = room / "flushed"
    pairs = small_folder(flushed)
    (flushed / "log").unlink()
    if found(flushed) != (pairs, "") or (flushed / "log").read_bytes():
        raise Wrong("a folder without a log is not opened, or its log is not empty then")
    opened(flushed, Model(pairs))


def no_edits(good, room, _without_last, _held):
    """A log that has records is refused without edits, and an empty one is that of a new store."""
    folder = copied(good, room)
    for file in [folder / "edits", *folder.glob("*.table")]:
        file.unlink()
    refused(folder, f"the file {folder / 'edits'} is missing, and the folder has tables or a log")
    (folder / "log").write_bytes(b"")
    opened(folder, Model())


def tried(pool, room, _shim):
    """Tries all of this, and gives of each whether it was right, what it is, and why not."""
    good = room / "with_records"
    without_last, held = killed_folder(good)
    results = [flips(pool, room, good, without_last)]
    for what, it in [
        ("the log of a process that was killed, as documented", as_written),
        ("what a process that was killed has answered", is_found),
        ("a log that ends in the middle or in zeros", cuts),
        ("names of what is set aside of a log that are taken", names_taken),
        ("a log with records that are flushed", flushed_records),
        ("a log with a freeze", freezes),
        ("a dump of a log, and its lines once more", dumped),
        ("logs of whole records that are bad", bad_logs),
        ("a log over a last edit that is torn", edit_below),
        ("a log and a last edit that are both torn", edits_too),
        ("a folder without a log", no_log),
        ("a log without edits", no_edits),
    ]:
        try:
            it(good, room, without_last, held)
            results.append((True, what, ""))
        except Exception as error:
            results.append((False, what, str(error)))
    return results
