"""Folders that no store leaves, or that a stop leaves: what an opening answers of them, and that one that is refused changes no file.

Their edits, tables and log records are those of written.py, in whole frames.
"""
import shutil

from written import EPOCH, FLUSH, NEXT, OF_A, OF_B, PUT, REOPENED, Folders, framed

NOT_OPENED = "the store is not opened: "
BAD_MANIFEST = "an edit of the manifest is not valid"
MISSING_TABLE = "a file's table is missing or not as recorded"
# Edits that are no manifest: one that applies to no version before it, one twice, one that is cut short and one that another has to come before.
BAD_EDITS = {
    "the first edit missing": [FLUSH, FLUSH],
    "the first edit twice": [EPOCH, EPOCH],
    "an edit without its last byte": [EPOCH, FLUSH[:-2]],
    "an edit missing": [EPOCH, NEXT],
}
# What stands in place of a table of 48 bytes, and what is reported.
BAD_TABLES = {
    "a table without its last byte": (OF_A[:-2], "its bytes are not a table: Truncated"),
    "a table with a byte more": (f"{OF_A} 00", "its bytes are not a table: TrailingBytes"),
    "what is no table": (b"no table".hex(), "its bytes are not a table: BadMagic"),
    "another file's table": (OF_B, "its table does not have the least and the greatest key that its record says"),
    "no table": (None, "its table is missing"),
}


def fill(folder, edits, tables, log=()):
    folder.mkdir()
    (folder / "lock").touch()
    (folder / "edits").write_bytes(framed(*edits))
    (folder / "log").write_bytes(framed(*log))
    for number, text in tables.items():
        (folder / f"{number:020}.table").write_bytes(framed(text))


def bytes_of(folder):
    return {it.name: it.read_bytes() for it in folder.iterdir()}


def refuses(cli, room, what, reason, edits, tables, faults=""):
    """Cases: the reason and the faults of an opening that is refused, and that it has changed no file."""
    folder = room / what.replace(" ", "_").replace("'", "")
    fill(folder, edits, tables, [PUT])
    before = bytes_of(folder)
    cli.says(f"an opening over {what}", ["store", "--dir", folder.name], status=1, err=f"{NOT_OPENED}{reason}\n{faults}".encode(), given=b"get a\n", room=room)
    cli.tell("and no file is changed", "" if bytes_of(folder) == before else "some are")


def try_bad(cli, room):
    for what, edits in BAD_EDITS.items():
        refuses(cli, room, what, BAD_MANIFEST, edits, {1: OF_A})
        for words in (["check"], ["dump"], ["dump", "--log"]):
            at = what.replace(" ", "_")
            cli.says(f"{' '.join(words)} of {what}", [*words, "--dir", at], status=1, err=f"{BAD_MANIFEST}\n".encode(), room=room)
    for what, (text, fault) in BAD_TABLES.items():
        refuses(cli, room, what, MISSING_TABLE, [EPOCH, FLUSH], {1: text} if text else {}, f"file 1: {fault}\n")
    refuses(cli, room, "a record of another count", MISSING_TABLE, [EPOCH, f"{FLUSH[:-1]}2"], {1: OF_A}, "file 1: its record says 2 entries, and its table has 1\n")


def try_left(cli, room):
    """An opening removes a table that no file has, and cuts off the records that are flushed."""
    second = "01 0000000000000002 00000001 01 0001 62 00000001 32"
    fill(room / "left", [EPOCH, FLUSH], {1: OF_A, 2: b"left over".hex()}, [PUT, second])
    folders = Folders(cli, room)
    folders.answers("an opening over a table that no file has", "left", ["get a", "get b"], ["value 1", "value 2"])
    folders.has("it is removed, and a record that is flushed", "left", [EPOCH, FLUSH, REOPENED], {1: OF_A}, [second])


# What is wrong with a folder, one thing after another, and the reason that is given as long as the ones before it are mended: how a file of it is spoilt
# or removed, and what is said of that file.
DAMAGED = b"\1" * 40
REASONS = (
    ("edits", None, "is missing, and the folder has tables or a log"),
    ("edits", DAMAGED, "is damaged: the edit at offset 0 is not whole"),
    ("log", DAMAGED, "is damaged: the log record at offset 0 is not whole"),
    (f"{1:020}.table", DAMAGED, "is damaged: it does not hold the table 1"),
)


def try_order(cli, room):
    """Of several reasons against an opening the first one in their order is given, also by what only reads, which goes on beside a damaged table."""
    fill(room / "whole", [EPOCH, FLUSH], {1: OF_A})
    whole = bytes_of(room / "whole")
    for at, (name, data, why) in enumerate(REASONS):
        folder = room / f"reasons-{at}"
        folder.mkdir()
        for file, found in (whole | {it: spoilt for it, spoilt, _ in REASONS[at:][::-1]}).items():
            if found is not None:
                (folder / file).write_bytes(found)
        said = f"the file {folder.name}/{name} {why}\n".encode()
        cli.says(f"an opening whose first reason is that {name} {why}", ["get", "a", "--dir", folder.name], status=1, err=said, room=room)
        if not name.endswith(".table"):
            cli.says("and a check of it", ["check", "--dir", folder.name], status=1, err=said, room=room)


def try_folders_in_place(cli, room):
    """A folder in place of a file can't be read, or not be opened as a lock: it is said which file it is, and which call has failed."""
    fill(room / "files", [EPOCH, FLUSH], {1: OF_A}, [PUT])
    for name, call in (("edits", "read"), ("log", "read"), (f"{1:020}.table", "read"), ("lock", "opened")):
        folder = room / f"folder-{name}"
        shutil.copytree(room / "files", folder)
        (folder / name).unlink()
        (folder / name).mkdir()
        said = f"{folder.name}/{name} could not be {call}: Is a directory (os error 21)\n".encode()
        for words in (["get", "a"], ["check"])[: 1 if name == "lock" else 2]:
            cli.says(f"{words[0]} with a folder in place of {name}", [*words, "--dir", folder.name], status=1, err=said, room=room)


def try_torn(cli, room):
    """Refuses a store that is torn for as long as it is open: a table that it has replaced is then set aside, and not removed."""
    fill(room / "torn", [EPOCH, FLUSH], {1: OF_A}, [PUT])
    with (room / "torn/edits").open("ab") as edits:
        place = edits.tell()
        edits.write(b"ab")
    said = f"2 torn or damaged bytes behind the last edit are set aside in lost-edits-{place}\n".encode()
    lines = b"put a 2\nflush\ncompact\n"
    cli.says("a session over torn edits that compacts", ["store", "--dir", "torn", "--l0", "2"], out=b"seq 2\nflushed 2\ncompacted\n", err=said, given=lines, room=room)
    cli.case("what it sets aside, and its tables", [f"{3:020}.table", f"lost-edits-{place}"], sorted(it.name for it in (room / "torn").iterdir() if it.name not in ("edits", "log", "lock")))


def tried(cli, room):
    for part in (try_bad, try_left, try_order, try_folders_in_place, try_torn):
        part(cli, room)
