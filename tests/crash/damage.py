"""The files of a store's folder, damage to them, and folders that are none: what is refused, by which words, with nothing changed.

What lsm_file_vault promises: a changed byte of a table, and one of an edit, is a refusal that names the file. What a stop may leave at
the very end of the edits is set aside, and standard error says so: a last edit whose checksum is wrong counts as that, since a stop may
leave its bytes half written. Then the store is that without the last edit, and nothing is lost: its bytes, and the table that no other
edit names, are in files of their own, of which none is written over. A store that lacks a table without its last edit, as after a
compaction, is refused, with each file as it was.
"""
import os
import pathlib
import shutil
import subprocess
import tempfile

from frames import begins, check_worked
from stores import PATIENCE, SCAN, Model, Session, Wrong, command, end_of, opened, pairs_in, run

LINES = ["put a 1", "put b 2", "flush", "batch put c 3 del a", "flush", "compact", "put d 4", "put a 5", "flush"]
# What the store holds without the last edit, which is that of the last flush.
WITHOUT_LAST = {"b": "2", "c": "3"}
# The last edit of these is that of a compaction.
COMPACTED = ["put a 1", "flush", "put b 2", "flush", "compact"]
# A length and its complement: if they are changed, nothing tells where a frame ends.
LENGTHS = 8
# What is torn of two files, by which calls an opening is stopped, and more calls than it makes.
TORN = {"edits": b"torn edit", "log": b"torn record"}
WAYS = ("kept", "lost", "names", "contents", "mixed")
MOST = 90


def bytes_of(folder):
    """All files of a folder with their bytes; a lock has none that matter."""
    return {it.name: it.read_bytes() for it in sorted(folder.iterdir()) if it.name != "lock" and it.is_file()} if folder.is_dir() else folder.read_bytes()


def small_folder(folder, lines=LINES):
    session = Session(folder)
    if not run(session, lines, model := Model()):
        raise Wrong("a small folder is not filled")
    end_of(session)
    return model.states[-1]


def copied(good, room):
    folder = pathlib.Path(tempfile.mkdtemp(dir=room)) / "store"
    shutil.copytree(good, folder)
    return folder


def refused(folder, *parts):
    """The program does not open the folder: status 1, one to three lines that have these parts, and nothing changed."""
    before = bytes_of(folder)
    session = Session(folder)
    answer = session.ask(SCAN)
    status, said = session.end()
    if answer is not None or status != 1:
        raise Wrong(f"it is opened: {answer} (status {status}, {said})")
    lacks = [it for it in parts if str(it) not in said]
    if lacks or len(said.splitlines()) not in (1, 2, 3):
        raise Wrong(f"it says {said!r}, without {lacks}")
    if bytes_of(folder) != before:
        raise Wrong(f"the folder was changed, and refused: {said}")


def set_aside(folder, pairs, tables=(), taken=0):
    """The program opens the folder without what is behind its last edit, which begins where the frames end, and says that it set it aside: the bytes, and
    these tables. Of each the plain name is taken, and so many more. Nothing else changes but `new`, which goes, and the edits, which go on."""
    before = bytes_of(folder)
    offset = end_of_frames(before["edits"])
    wanted = {name: data for name, data in before.items() if name not in ("edits", "new")}
    lost = {copy_of(f"lost-edits-{offset}", "", taken): before["edits"][offset:]}
    lost |= {copy_of(f"lost-{table}", ".table", taken): wanted.pop(f"{table:020}.table") for table in tables}
    session = Session(folder)
    held = pairs_in(session.ask(SCAN))
    status, said = session.end()
    if status != 0 or held != pairs or any(name not in said for name in lost):
        raise Wrong(f"it holds {held}, status {status}, and says {said!r}, without one of {[*lost]}")
    after = bytes_of(folder)
    edits = after.pop("edits")
    if edits[:offset] != before["edits"][:offset] or len(begins(edits[offset:])) != 1:
        raise Wrong("the edits before are changed, or more than an opening's is behind them")
    if after != wanted | lost:
        differ = sorted(name for name in {*after, *wanted, *lost} if after.get(name) != (wanted | lost).get(name))
        raise Wrong(f"the files {differ} are not as they were, or as they were set aside")


def copy_of(front, end, taken):
    return f"{front}-{taken + 1}{end}" if taken else front + end


def end_of_frames(data):
    """Where the frames end that a file begins with."""
    for at in range(len(data), -1, -1):
        try:
            begins(data[:at])
            return at
        except Wrong:
            continue


def try_flip(good, room, name, at, edits):
    """A bit of a byte of a file is turned; which one, goes round with the byte. The edits begin where `edits` says."""
    try:
        folder = copied(good, room)
        turn(folder / name, at, at % 8)
        if name == "edits" and at >= edits[-1] + LENGTHS:
            set_aside(folder, WITHOUT_LAST, [newest_table(good)])
        elif name == "edits":
            refused(folder, f"the file {folder / name} is damaged: the edit at offset {max(it for it in edits if it <= at)} is not whole")
        else:
            refused(folder, f"the file {folder / name} is damaged: it does not hold the table {int(name.removesuffix('.table'))}")
        shutil.rmtree(folder.parent)
        return ""
    except Exception as error:
        return f"{name}, byte {at}: {error}"


def turn(file, at, bit):
    data = bytearray(file.read_bytes())
    data[at] ^= 1 << bit
    file.write_bytes(data)


def newest_table(folder):
    return int(max(folder.glob("*.table")).stem)


def try_last(good, room, at, bit, is_flush):
    """A bit of the last edit is turned: that of a flush, or that of a compaction, whose inputs are gone."""
    try:
        folder, edits = copied(good, room), begins((good / "edits").read_bytes())
        turn(folder / "edits", at, bit)
        if at < edits[-1] + LENGTHS:
            refused(folder, f"the file {folder / 'edits'} is damaged: the edit at offset {edits[-1]} is not whole")
        elif is_flush:
            set_aside(folder, WITHOUT_LAST, [newest_table(good)])
        else:
            refused(folder, "a file's table is missing or not as recorded")
        shutil.rmtree(folder.parent)
        return ""
    except Exception as error:
        return f"byte {at}, bit {bit} of the edits: {error}"


def last_flips(pool, room, good, is_flush):
    data = (good / "edits").read_bytes()
    places, bits = zip(*((at, bit) for at in range(begins(data)[-1], len(data)) for bit in range(8)))
    count = len(places)
    wrong = [it for it in pool.map(try_last, [good] * count, [room] * count, places, bits, [is_flush] * count, chunksize=16) if it]
    what = "flush" if is_flush else "compaction"
    return not wrong, f"each of {count} bits of the last edit turned, of a {what}", f"{len(wrong)} wrong; first {wrong[:3]}"


def flips(pool, room, good):
    edits = begins((good / "edits").read_bytes())
    bytes_at = [(it.name, at) for it in good.iterdir() if it.name != "lock" for at in range(it.stat().st_size)]
    names, places = zip(*bytes_at)
    count = len(names)
    wrong = [it for it in pool.map(try_flip, [good] * count, [room] * count, names, places, [edits] * count, chunksize=16) if it]
    return not wrong, f"a bit turned in each of {count} bytes", f"{len(wrong)} wrong; first {wrong[:3]}"


def layout(_room, good, _held):
    """Each table is the one frame of its file, the edits are frames without a gap, and there is a log, which is empty since all is flushed."""
    check_worked()
    if (good / "log").read_bytes():
        raise Wrong("the log is not empty")
    tables = [it for it in good.iterdir() if it.name not in ("edits", "log", "lock")]
    if not tables or any(len(it.stem) != 20 or begins(it.read_bytes()) != [0] for it in tables):
        raise Wrong("a table is not one frame in a file of 20 digits")
    if len(begins((good / "edits").read_bytes())) < 4:
        raise Wrong("there are fewer edits than an opening and three flushes append")


def cuts(room, good, held):
    """The file of the edits ends inside its last edit, or there and in zeros to where it ended, or in zeros."""
    edits, table = (good / "edits").read_bytes(), newest_table(good)
    last = begins(edits)[-1]
    ends = [(edits[:at], WITHOUT_LAST, [table]) for at in range(last + 1, len(edits))]
    ends += [(edits[:at] + bytes(len(edits) - at), WITHOUT_LAST, [table]) for at in range(last, len(edits)) if any(edits[at:])]
    for data, pairs, tables in ends + [(edits + bytes(count), held, []) for count in (1, 15, 17, 4096)]:
        folder = copied(good, room)
        (folder / "edits").write_bytes(data)
        set_aside(folder, pairs, tables)
        opened(folder, Model(pairs))


def never_lost(room, good, shim):
    """What is torn of the edits and of the log outlives each stop of the opening that sets it aside: where it stood, or in a file of its own."""
    sizes = {name: (good / name).stat().st_size for name in TORN}
    for at in range(1, MOST):
        for way in WAYS:
            folder = copied(good, room)
            for name, data in TORN.items():
                (folder / name).write_bytes((folder / name).read_bytes() + data)
            session = Session(folder, shim, CRASH_AT=at, CRASH_WAY=way, CRASH_SEED=at)
            session.ask(SCAN)
            status, _ = session.end()
            for name, data in TORN.items():
                stands = (folder / name).read_bytes()[sizes[name] :].startswith(data)
                if not stands and data not in [it.read_bytes() for it in folder.glob(f"lost-{name}-*")]:
                    raise Wrong(f"stopped at call {at}, {way}: what was torn of the file {name} is lost")
            shutil.rmtree(folder.parent)
        if status == 0:
            return
    raise Wrong(f"an opening has more than {MOST} calls")


def names_taken(room, good, _held):
    """What was set aside before is not written over, whatever it is."""
    edits, table = (good / "edits").read_bytes(), newest_table(good)
    for taken in range(1, 4):
        folder = copied(good, room)
        turn(folder / "edits", len(edits) - 1, 0)
        for copy in range(taken):
            (folder / copy_of(f"lost-edits-{begins(edits)[-1]}", "", copy)).write_text("mine")
            (folder / copy_of(f"lost-{table}", ".table", copy)).write_text("mine too")
        set_aside(folder, WITHOUT_LAST, [table], taken)
        opened(folder, Model(WITHOUT_LAST))


def half_renamed(room, good, held):
    """`new` is another name of a table's file, or of the log, before an opening, and before a flush of a store that is open."""
    for file in [*sorted(good.glob("*.table")), good / "log"]:
        folder = copied(good, room)
        os.link(folder / file.name, folder / "new")
        opened(folder, Model(held))
        folder = copied(good, room)
        session = Session(folder)
        session.ask(SCAN)
        os.link(folder / file.name, folder / "new")
        run(session, ["put y 1", "flush"], model := Model(held))
        end_of(session)
        opened(folder, Model(model.states[-1]))


def missing_table(room, good, _held):
    folder = room / "missing"
    shutil.copytree(good, folder)
    table = max(folder.glob("*.table"))
    table.unlink()
    refused(folder, "missing", f"file {int(table.stem)}:")


def missing_edits(room, good, _held):
    folder = room / "no_edits"
    shutil.copytree(good, folder)
    (folder / "edits").unlink()
    refused(folder, f"the file {folder / 'edits'} is missing, and the folder has tables or a log")


def foreign_file(room, good, _held):
    wrong = ("+0000000000000000007.table", "99999999999999999999.table", "0000000000000000000a.table", "00000000000000000001.tables")
    for name in ("notes.txt", "1.table", "EDITS", "LOG", "log.1", *wrong):
        folder = room / f"foreign.{name}"
        shutil.copytree(good, folder)
        (folder / name).write_text("mine")
        refused(folder, f"the file {folder / name} does not belong to a store")


def files_beside(room, good, held):
    """What file systems and desktops make is passed over where a store is, and else foreign. What was set aside never is foreign."""
    folder = copied(good, room)
    (folder / "lost+found").mkdir()
    for name in (".hidden", "..data", "lost-", "lost-2.table", "lost-things"):
        (folder / name).write_text("mine")
    opened(folder, Model(held))
    kept = bytes_of(folder)
    if not (folder / "lost+found").is_dir() or any(kept.get(name) != b"mine" for name in (".hidden", "..data", "lost-", "lost-2.table", "lost-things")):
        raise Wrong("files beside those of a store are changed")
    for name in ("lost+found", ".hidden"):
        folder = room / f"beside.{name}"
        folder.mkdir()
        (folder / name).mkdir()
        refused(folder, f"the file {folder / name} does not belong to a store")


def half_a_table(room, good, held):
    """What a stop leaves of a table before it has its name is removed by an opening, if it is not refused."""
    folder = room / "half"
    shutil.copytree(good, folder)
    (folder / "new").write_text("half a tab")
    newest = folder / f"{newest_table(good):020}.table"
    data = newest.read_bytes()
    newest.unlink()
    refused(folder, "missing")
    newest.write_bytes(data)
    session = Session(folder)
    session.ask(SCAN)
    if (folder / "new").exists():
        raise Wrong("half a table stays")
    end_of(session)
    opened(folder, Model(held))


def no_folder(room, _good, _held):
    file = room / "file"
    file.write_text("mine")
    refused(file, f"the path {file} is not a folder")
    not_checked(file, f"the path {file} is not a folder")


def not_checked(folder, said):
    """A check is refused too."""
    done = subprocess.run(command(folder, "check"), capture_output=True, text=True, timeout=PATIENCE)
    if (done.returncode, done.stdout, done.stderr) != (1, "", f"{said}\n"):
        raise Wrong(f"a check says {done.stdout!r} {done.stderr!r}, status {done.returncode}")


def in_use(room, good, _held):
    folder = room / "used"
    shutil.copytree(good, folder)
    session = Session(folder)
    session.ask(SCAN)
    refused(folder, f"the folder {folder} is in use by another process")
    not_checked(folder, f"the folder {folder} is in use by another process")
    end_of(session)


def no_folder_above(room, _good, _held):
    session = Session(room / "above" / "store")
    answer, (status, said) = session.ask(SCAN), session.end()
    if answer is not None or status != 1 or f"{room / 'above' / 'store'} could not be created" not in said:
        raise Wrong(f"{answer}, status {status}: {said}")


def tried(pool, room, shim):
    """Tries all damage, and gives of each whether it was right, what it is, and why not."""
    good = room / "small"
    held = small_folder(good)
    small_folder(room / "compacted", COMPACTED)
    results = [flips(pool, room, good), last_flips(pool, room, good, True), last_flips(pool, room, room / "compacted", False)]
    for what, it in [
        ("files as documented", layout),
        ("edits that end in the middle or in zeros", cuts),
        ("names of what is set aside that are taken", names_taken),
        ("stops of an opening that sets aside what is torn", lambda room, good, _held: never_lost(room, good, shim)),
        ("a new table that is another name of a table or of the log", half_renamed),
        ("a missing table", missing_table),
        ("tables without edits", missing_edits),
        ("a foreign file", foreign_file),
        ("files that are no vault's beside it", files_beside),
        ("half a table", half_a_table),
        ("a file in place of a folder", no_folder),
        ("a folder in use", in_use),
        ("no folder above", no_folder_above),
    ]:
        try:
            it(room, good, held)
            results.append((True, what, ""))
        except Exception as error:
            results.append((False, what, str(error)))
    return results
