"""Log records, as 'dump --log' prints them and reports what is none: worked ones, each fault, each beginning, and each change of each byte beside a second
reader, that of tests/bytes."""
import pathlib
import sys

TESTS = pathlib.Path(__file__).resolve().parent.parent
sys.path += [str(TESTS / "crash"), str(TESTS / "bytes")]
import formats
from frames import frame_of, freeze_of, record_of

# `put a 1` at sequence 1; a deletion of b and a put of nothing at a, whose sequences are the last two; freezes at the first sequence and at the last one.
PUT = bytes.fromhex("01 0000000000000001 00000001 01 0001 61 00000001 31")
LAST = bytes.fromhex("01 00fffffffffffffe 00000002 00 0001 62 01 0001 61 00000000")
FIRST_FREEZE, LAST_FREEZE = bytes.fromhex("02 0000000000000001"), bytes.fromhex("02 00ffffffffffffff")
WORKED = {
    PUT: "write 1-1 put a 1",
    LAST: 'write 72057594037927934-72057594037927935 del b put a ""',
    FIRST_FREEZE: "freeze 1",
    LAST_FREEZE: "freeze 72057594037927935",
}
# Each broken rule: a record, and the place and the new value of each byte that changes.
BROKEN = [
    ("no code", PUT, {0: 0}),
    ("a third code", PUT, {0: 3}),
    ("a first sequence of 0", PUT, {8: 0}),
    ("a first sequence of 2^56", PUT, {1: 1, 8: 0}),
    ("a last sequence of 2^56", LAST, {8: 0xFF}),
    ("no operation", PUT, {12: 0}),
    ("1,001 operations", PUT, {11: 3, 12: 0xE9}),
    ("a third kind", PUT, {13: 2}),
    ("an empty key", PUT, {15: 0}),
    ("a key of 4,097 bytes", PUT, {14: 16}),
    ("a value of 65,537 bytes", PUT, {18: 1}),
    ("a freeze at 0", FIRST_FREEZE, {8: 0}),
    ("a freeze at 2^56", FIRST_FREEZE, {1: 1, 8: 0}),
]
# Batches of 62 puts, of which the last one's value may be cut: how many operations they are to have, how long that value is to be, how many bytes of it
# are there, and what they are. The other 61 have values of 65,536 bytes. A put of the key a weighs 15 bytes beside its value, so 1,374 bytes in the last
# one make 4,000,000. Of 63 operations the last one's length is not there, so that they are not weighed.
HEAVY = [
    (62, 1_374, 1_374, "ok"),
    (62, 1_374, 0, "Truncated"),
    (62, 1_375, 0, "BadField"),
    (63, 65_536, 65_536, "Truncated"),
]


def changed(data, changes):
    data = bytearray(data)
    for at, byte in changes.items():
        data[at] = byte
    return bytes(data)


def heavy(count, length, given):
    full, last = op(b"v" * 65_536), b"\1\0\1a" + length.to_bytes(4, "big") + b"v" * given
    return b"\1" + (1).to_bytes(8, "big") + count.to_bytes(4, "big") + full * 61 + last


def op(value):
    return b"\1\0\1a" + len(value).to_bytes(4, "big") + value


class Logs:
    """Logs of a folder whose store is new, and what a dump says of them."""

    def __init__(self, cli, room):
        self.cli, self.room = cli, room
        cli.says("a folder for logs", ["store", "--dir", "logs"], room=room)

    def dump(self, records):
        """Of a dump of a log of these records its lines, and the fault of the first that is none, if one is."""
        (self.room / "logs/log").write_bytes(b"".join(map(frame_of, records)))
        _, out, err = self.cli.ask("dump", "--log", "--dir", "logs", room=self.room)
        told = err.decode().partition("the bytes of a record are none: ")[2]
        return out.decode().splitlines(), told.partition(";")[0]

    def says(self, what, record, wanted):
        """A case: what one record is, by a dump and by formats.py; of one that is good 'ok', with its line."""
        lines, fault = self.dump([record])
        told = fault or ("ok" if lines == [self.line(record)] else f"printed as {str(lines)[:300]}")
        by_page = told_of(record)
        self.cli.tell(what, "" if told == by_page == wanted else f"it is {told}, formats.py reads {by_page}, and not {wanted}")

    def line(self, record):
        """The line of a good record."""
        code, first, *ops = formats.log_record(record)
        if code == 2:
            return f"freeze {first}"
        words = ["put " + " ".join(map(self.cli.word, it)) if len(it) > 1 else f"del {self.cli.word(it[0])}" for it in ops]
        return " ".join([f"write {first}-{first + len(ops) - 1}", *words])


def told_of(record):
    """What formats.py reads: 'ok', or the fault."""
    try:
        formats.log_record(record)
    except formats.Fault as fault:
        return str(fault)
    return "ok"


def try_worked(logs):
    lines, fault = logs.dump(WORKED)
    logs.cli.case("the lines of worked records", (list(WORKED.values()), ""), (lines, fault))
    for record in WORKED:
        logs.says(f"the record {record.hex()}", record, "ok")
        logs.says("and with a byte behind it", record + b"\0", "TrailingBytes")
        wrong = [length for length in range(len(record)) if logs.dump([record[:length]]) != ([], "Truncated")]
        logs.cli.tell("and each beginning is truncated", f"of these lengths it is not: {wrong}" if wrong else "")


def try_rules(logs):
    for what, record, changes in BROKEN:
        logs.says(f"a record with {what}", changed(record, changes), "BadField")
    for length, wanted in ((1_024, "ok"), (1_025, "ok"), (4_096, "ok"), (4_097, "BadField")):
        for what, parts in (("a deletion", [b"k" * length]), ("a put", [b"k" * length, b""])):
            logs.says(f"{what} of a key of {length} bytes", record_of(1, parts), wanted)
    for count, length, given, wanted in HEAVY:
        logs.says(f"{count} operations, the last value {given} of {length} bytes", heavy(count, length, given), wanted)
    logs.says("1,000 operations", record_of(1, *[(b"k",)] * 1_000), "ok")
    logs.says("a freeze between", freeze_of(7), "ok")


def try_changes(logs):
    """Each of the 255 changes of each byte of the worked records: no record, or another one, and a dump prints these alone."""
    records = [changed(it, {at: byte}) for it in WORKED for at in range(len(it)) for byte in range(256) if byte != it[at]]
    lines, _ = logs.dump(records)
    logs.cli.case("the lines of changed records", [logs.line(it) for it in records if told_of(it) == "ok"], lines)
    logs.cli.tell("and each is another record's", "two are one's" if len({*lines, *WORKED.values()}) < len(lines) + len(WORKED) else "")
    # Of `put a 1`: all changes of the key, of the value and of six bytes of the sequence, and those of its last byte that make it no 0.
    good = sum(told_of(it) == "ok" for it in records[: 255 * len(PUT)])
    logs.cli.case("how many changes of a put are records", 255 * 8 + 254, good)


def tried(cli, room):
    logs = Logs(cli, room)
    for part in (try_worked, try_rules, try_changes):
        part(logs)
