"""What 'check', 'dump' and 'dump --log' print of a small folder: of one that is whole, and of one of which files are missing, changed or torn.

The folder has two tables: the first of a put and a deletion, the second of a put. The records of its log are written as docs/FORMATS.md has them.
"""
import pathlib
import shutil
import sys

sys.path.append(str(pathlib.Path(__file__).resolve().parent.parent / "crash"))
from frames import begins, frame_of, freeze_of, record_of

LINES = b'put a 1\ndel b%20c\nflush\nput a ""\nflush\n'
FILES = "L0 2 files 114 bytes 3 entries\n"
WHOLE = f"{FILES}version 3 flushed 3: 2 files, no damage\n"
FIRST, SECOND = "L0 file 1: a @1 put 1\nL0 file 1: b%20c @2 del\n", 'L0 file 2: a @3 put ""\n'
# The records of two writes above what is flushed and of a freeze at their end, and a byte that is no record. What a bad log is, tests/crash tries.
WRITE_4, WRITE_5, FREEZE_6, NO_RECORD = record_of(4, (b"c", b"3")), record_of(5, (b"a",), (b"d", b" ")), freeze_of(6), b"\3"
LOG_LINES = "write 4-4 put c 3\nwrite 5-6 del a put d %20\n"
TORN_LOG = "the last log record is torn or damaged: 1 bytes; an opening sets them aside\n"
HEAVY_LOG = "the log is bad: a memtable of it is too heavy; an opening is refused\n"
BAD_LOG = "the log is bad: the bytes of a record are none: BadField; an opening is refused\n"


class Folders:
    """Copies of one folder, and what is said of each."""

    def __init__(self, cli, room):
        self.cli, self.room, self.count = cli, room, 0
        cli.says("a small folder", ["store", "--dir", "good"], out=b"seq 1\nseq 2\nflushed 2\nseq 3\nflushed 3\n", given=LINES, room=room)

    def copy(self):
        self.count += 1
        return pathlib.Path(shutil.copytree(self.room / "good", self.room / f"copy-{self.count}"))

    def says(self, what, folder, report="", entries=None, faults="", command=("dump",)):
        """A case of a check's report, and one of a dump with what it reports on standard error."""
        is_whole = report.endswith("no damage\n")
        if report:
            self.cli.says(f"check of {what}", ["check", "--dir", folder.name], status=0 if is_whole else 1, out=report.encode(), room=self.room)
        if entries is not None:
            words = [*command, "--dir", folder.name]
            self.cli.says(f"{' '.join(command)} of {what}", words, status=1 if faults else 0, out=entries.encode(), err=faults.encode(), room=self.room)


def table(folder, number):
    return folder / f"{number:020}.table"


def write_log(folder, records, behind=b""):
    (folder / "log").write_bytes(b"".join(map(frame_of, records)) + behind)


def changed(data, at):
    return data[:at] + bytes([(data[at] + 1) % 256]) + data[at + 1 :]


def try_tables(folders):
    folders.says("a whole folder", folders.copy(), WHOLE, FIRST + SECOND)
    folder = folders.copy()
    shutil.copy(table(folder, 2), table(folder, 1))
    other = "file 1: its record says 67 bytes, and its table has 47\n"
    folders.says("a table of another file", folder, f"{FILES}{other}version 3 flushed 3: 2 files, 1 damaged\n", SECOND, other)
    folder = folders.copy()
    table(folder, 9).write_bytes(b"x")
    beside = "table 9: its bytes are not those that were written, and no file needs it\n"
    folders.says("a damaged table that no file needs", folder, f"{FILES}{beside}version 3 flushed 3: 2 files, 1 damaged\n", FIRST + SECOND, beside)
    folder, wrong = folders.copy(), []
    file = table(folder, 2)
    good, lost = file.read_bytes(), "file 2: its bytes are not those that were written\n"
    for at in range(len(good)):
        file.write_bytes(changed(good, at))
        status, out, _ = folders.cli.ask("check", "--dir", folder.name, room=folders.room)
        wrong += [at] if status != 1 or lost.encode() not in out else []
    folders.cli.tell("each byte of a table that is changed is found", f"of {len(good)} bytes these are not: {wrong}" if wrong or not good else "")


def try_edits(folders):
    folder = folders.copy()
    with (folder / "edits").open("ab") as it:
        it.write(b"ab")
    faults = "the last edit is torn or damaged: 2 bytes; an opening sets aside no table\n"
    folders.says("torn edits", folder, f"{FILES}{faults}version 3 flushed 3: 2 files, 0 damaged, the last edit not whole\n", FIRST + SECOND, faults)
    (folders.room / "new").mkdir()
    folders.says("a folder without edits", folders.room / "new", "version 0 flushed 0: 0 files, no damage\n", "")
    folder = folders.copy()
    table(folder, 1).rename(table(folder, 7))
    with (folder / "edits").open("ab") as it:
        it.write(b"\0")
    faults = "file 1: its table is missing\nthe last edit is torn or damaged: 1 bytes; an opening is refused\n"
    report = f"{FILES}{faults}table 7: no file needs it\nversion 3 flushed 3: 2 files, 1 damaged, the last edit not whole\n"
    folders.says("a missing table and torn edits", folder, report, SECOND, faults)
    folder = folders.copy()
    edits = (folder / "edits").read_bytes()
    (folder / "edits").write_bytes(changed(edits, len(edits) - 1))
    torn = f"the last edit is torn or damaged: {len(edits) - begins(edits)[-1]} bytes; an opening sets aside table"
    report = f"L0 1 files 67 bytes 2 entries\n{torn} 2\ntable 2: no file needs it\nversion 2 flushed 2: 1 files, 0 damaged, the last edit not whole\n"
    folders.says("a damaged last edit", folder, report, FIRST, f"{torn} 2\n")
    shutil.copy(table(folder, 2), table(folder, 3))
    folders.says("a damaged last edit with two tables", folder, entries=FIRST, faults=f"{torn}s 2, 3\n")


def try_logs(folders):
    folder = folders.copy()
    write_log(folder, [WRITE_4, WRITE_5, FREEZE_6])
    counted = f"{FILES}log 3 records, 3 operations above 3, {(folder / 'log').stat().st_size} bytes\n"
    folders.says("a log", folder, f"{counted}version 3 flushed 3: 2 files, no damage\n", f"{LOG_LINES}freeze 6\n", command=("dump", "--log"))
    write_log(folder, [WRITE_4, WRITE_5, FREEZE_6], b"\0")
    report = f"{counted}{TORN_LOG}version 3 flushed 3: 2 files, 0 damaged, the last log record not whole\n"
    folders.says("a torn log", folder, report, FIRST + SECOND, TORN_LOG)
    write_log(folder, [WRITE_4, NO_RECORD, WRITE_5])
    counted = f"{FILES}log 3 records, 1 operations above 3, {(folder / 'log').stat().st_size} bytes\n"
    report = f"{counted}{BAD_LOG}version 3 flushed 3: 2 files, 0 damaged, the log bad\n"
    folders.says("a log with what is no record", folder, report, LOG_LINES, BAD_LOG, command=("dump", "--log"))
    # Two batches of 61 long values and one value more weigh over 8,000,000 bytes; an empty one does not.
    folder, large = folders.copy(), (b"k", b"v" * 65_536)
    for last, fault, sum_up in ((large, HEAVY_LOG, "0 damaged, the log bad"), ((b"k", b""), "", "no damage")):
        write_log(folder, [record_of(4, *[large] * 61), record_of(65, *[large] * 61), record_of(126, last)])
        size = (folder / "log").stat().st_size
        report = f"{FILES}log 3 records, 123 operations above 3, {size} bytes\n{fault}version 3 flushed 3: 2 files, {sum_up}\n"
        folders.says(f"a log of {size} bytes", folder, report, FIRST + SECOND, fault)


def try_levels(folders):
    """Refuses a dump that prints the files of one level alone, each at level 0, or in the order of their numbers, and one, or a check, without the last level."""
    folder = folders.room / "levels"
    for lines, limits in ((b"put a 1\nput z 1\n", ["--base", "10"]), (b"put b 2\ndel y\n", []), (b"put a 3\n", None)):
        given = lines + (b"flush\n" if limits is None else b"flush\ncompact\n")
        status, out, err = folders.cli.ask("store", "--dir", folder.name, "--l0", "1", *(limits or []), given=given, room=folders.room)
        folders.cli.tell(f"a session of {given}", "" if (status, err) == (0, b"") else f"status {status}, {out}, {err}")
    entries = "L0 file 6: a @5 put 3\nL1 file 5: b @3 put 2\nL1 file 5: y @4 del\nL2 file 3: a @1 put 1\nL2 file 3: z @2 put 1\n"
    folders.says("three levels", folder, "", entries)
    folder = folders.room / "deepest"
    value = "v" * 20_000
    lines = f"put a {value}\nflush\ncompact\n".encode()
    folders.cli.says("a session whose file goes down to the deepest level", ["store", "--dir", folder.name, "--l0", "1", "--base", "1"], out=b"seq 1\nflushed 1\ncompacted\n", given=lines, room=folders.room)
    folders.says("the deepest level", folder, "L6 1 files 20047 bytes 1 entries\nversion 8 flushed 1: 1 files, no damage\n", f"L6 file 7: a @1 put {value}\n")


def try_lost(folders):
    """Refuses a check that lists what was set aside as the folder happens to have it."""
    folder = folders.copy()
    names = [f"lost-{it}" for it in (7, 2, 9, 4, 1, 8, 3, 6, 5, "log-12", "edits-70")]
    for it in names:
        (folder / it).touch()
    listed = "".join(f"{it}: set aside, nobody reads it\n" for it in sorted(names))
    folders.says("a folder with files that were set aside", folder, WHOLE.replace("version", f"{listed}version"), FIRST + SECOND)


def tried(cli, room):
    folders = Folders(cli, room)
    for part in (try_tables, try_edits, try_logs, try_levels, try_lost):
        part(folders)
