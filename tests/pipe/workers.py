#!/usr/bin/env python3
"""What a worker makes of tables in any order, of jobs that come again, early and late, of files that are gone, and of what it does not wait for.

Usage: tests/pipe/workers.py PROGRAM ..

PROGRAM .. is called with 'worker --index 3' for each case and handed messages. What one of them changes is seen by what is sent then: the same job
makes a worker ask again for each table that it lacks. One that gives its job up ends, with a text and status 1. Prints what is wrong, or 'ok' and how
many messages there were.
"""
import subprocess
import sys

sys.dont_write_bytecode = True
from merges import COORDINATOR, FETCH, JOB, RESULT, TABLE, Entry, message, number, put, table_of, text

GONE, ASK, EDIT, BASE, CURRENT = 4, 6, 7, 8, 9
WORKER, TARGET = b"\1\3", 4096


def deletion(key, seq):
    return Entry(key, seq, 0, b"")


# The entries of each file. The first deletes what the second puts.
FILES = {1: [deletion(b"a", 2)], 2: [put(b"a", 1, b"1")], 3: [put(b"b", 3, b"3")]}
PLAIN, BAD_TABLE = {at: table_of(entries, TARGET) for at, entries in FILES.items()}, b"LSMT"


def given(kind, body):
    return message(kind, COORDINATOR, WORKER, body)


def record(at, entries, /, **other):
    """The record of a file of level 0, of which some fields may be others than those of its table."""
    fields = {"smallest": entries[0].key, "largest": entries[-1].key, "bytes": len(table_of(entries, TARGET)), "entries": len(entries), **other}
    return number(at, 8) + b"\0" + text(fields["smallest"]) + text(fields["largest"]) + number(fields["bytes"], 4) + number(fields["entries"], 4)


def job_of(epoch, at, records):
    """The message of a job of level 0 without points and deeper ranges."""
    head = number(epoch, 8) + number(at, 8) + b"\0" + number(TARGET, 4) + b"\0"
    return given(JOB, head + number(len(records), 2) + b"".join(records) + number(0, 4))


def job(epoch, at, *inputs):
    return job_of(epoch, at, [record(it, FILES[it]) for it in inputs])


def table(at, data=None):
    data = data or PLAIN[at]
    return given(TABLE, number(at, 8) + number(len(data), 4) + data)


def gone(at):
    return given(GONE, number(at, 8))


def fetched(*files):
    return [message(FETCH, WORKER, COORDINATOR, number(it, 8)) for it in files]


def result(epoch, at, *outputs):
    tables = b"".join(number(len(it), 4) + it for it in (table_of(entries, TARGET) for entries in outputs))
    return [message(RESULT, WORKER, COORDINATOR, number(epoch, 8) + number(at, 8) + number(len(outputs), 4) + tables)]


NOTHING = []
# The worker ends, and has sent nothing.
GIVES_UP, WHY = (), b"the worker gave its job up\n"
# What ends a worker behind its messages, and its text: what came of these is sent in any case.
FAULTS = (b"\0\0", b"the input ends inside a frame\n"), (b"\0\0\0\4LSMM", b"a frame has no message\n")


def tables_in_any_order():
    yield job(1, 1, 1, 2), fetched(1, 2)
    yield table(2), NOTHING
    yield job(1, 1, 1, 2), fetched(1)
    yield table(2), NOTHING
    yield table(1), result(1, 1)
    # It is idle: what comes again is nothing, and the same job begins anew.
    yield table(1), NOTHING
    yield job(1, 1, 2, 3), fetched(2, 3)
    yield table(2), NOTHING
    yield table(3), result(1, 1, FILES[2] + FILES[3])


def files_that_are_gone():
    yield gone(1), NOTHING
    yield job(1, 1, 1, 2), fetched(1, 2)
    yield table(2), NOTHING
    # One that has come, and one that is no input.
    yield gone(2), NOTHING
    yield gone(3), NOTHING
    yield job(1, 1, 1, 2), fetched(1)
    yield gone(1), GIVES_UP


def earlier_and_later_jobs():
    yield job(2, 2, 1, 2), fetched(1, 2)
    yield table(1), NOTHING
    yield job(2, 1, 1, 2), NOTHING
    yield job(1, 3, 1, 2), NOTHING
    yield job(2, 2, 1, 2), fetched(2)
    # A later job of the epoch, and one of a later epoch with a smaller number: nothing has come of either.
    yield job(2, 3, 1, 2), fetched(1, 2)
    yield table(1), NOTHING
    yield job(3, 1, 2, 3), fetched(2, 3)
    yield table(1), NOTHING
    yield table(3), NOTHING
    yield table(2), result(3, 1, FILES[2] + FILES[3])


def what_is_not_awaited():
    yield table(1), NOTHING
    yield job(1, 1, 1, 2), fetched(1, 2)
    yield table(3), NOTHING
    yield table(1, PLAIN[3]), NOTHING
    yield table(1, BAD_TABLE), NOTHING
    yield table(1, PLAIN[1] + b"\0"), NOTHING
    yield given(FETCH, number(1, 8)), NOTHING
    yield given(RESULT, number(1, 8) + number(1, 8) + number(0, 4)), NOTHING
    yield given(ASK, number(0, 8)), NOTHING
    yield given(EDIT, number(1, 8) + b"\3" + number(0, 8) + number(1, 8) + number(1, 8) + number(0, 4) + number(0, 4)), NOTHING
    yield given(BASE, number(1, 8) + number(0, 8) + number(1, 8) + number(1, 8) + number(0, 4)), NOTHING
    yield given(CURRENT, number(1, 8)), NOTHING
    yield job(1, 1, 1, 2), fetched(1, 2)
    yield table(1), NOTHING
    yield job(1, 1, 1, 2), fetched(2)


def records_of_other_tables():
    """A table that is not as its record says, in one of its four fields, is not that of the file."""
    entries = [put(b"b", 2, b"2"), put(b"c", 3, b"3")]
    data = table_of(entries, TARGET)
    others = ({"smallest": b"a"}, {"largest": b"d"}, {"bytes": len(data) + 1}, {"bytes": len(data) - 1}, {"entries": 1}, {"entries": 3})
    for at, other in enumerate(others, 1):
        wrong = job_of(1, at, [record(1, entries, **other)])
        yield wrong, fetched(1)
        yield table(1, data), NOTHING
        yield wrong, fetched(1)
    yield job_of(1, len(others) + 1, [record(1, entries)]), fetched(1)
    yield table(1, data), result(1, len(others) + 1, entries)


def inputs_with(second, ending):
    """A job of a put of `a` at sequence 1, and of a second entry."""
    first = put(b"a", 1, b"1")
    yield job_of(1, 1, [record(1, [first]), record(2, [second])]), fetched(1, 2)
    yield table(1, table_of([first], TARGET)), NOTHING
    yield table(2, table_of([second], TARGET)), ending


def inputs_that_share_an_entry():
    """Cases: of two inputs that share a key and a sequence no result comes. A key or a sequence alone they may share."""
    first, newer, beside = put(b"a", 1, b"1"), put(b"a", 2, b"1"), put(b"b", 1, b"1")
    for second in (first, put(b"a", 1, b"2"), deletion(b"a", 1)):
        yield inputs_with(second, GIVES_UP)
    yield inputs_with(newer, result(1, 1, [newer]))
    yield inputs_with(beside, result(1, 1, [first, beside]))


def frames_in(data):
    """The frames of a stream, and what is left behind the last whole one."""
    frames = []
    while len(data) >= 4 and len(data) >= 4 + int.from_bytes(data[:4], "big"):
        length = 4 + int.from_bytes(data[:4], "big")
        frames.append(data[:length])
        data = data[length:]
    return frames, data


def difference(turns, data):
    """What is wrong with all that a worker sent, or None."""
    frames, rest = frames_in(data)
    for at, (_, wanted) in enumerate(turns, 1):
        if frames[: len(wanted)] != list(wanted):
            return f"message {at}: it sends {[it.hex() for it in frames[:len(wanted) + 1]]}, not {[it.hex() for it in wanted]}"
        frames = frames[len(wanted) :]
    return f"it sends {len(frames)} messages and {len(rest)} bytes more" if frames or rest else None


def tried(program, turns, behind=b"", why=b""):
    """What is wrong with a case, or None. With what is behind its messages the worker ends for this reason."""
    given = b"".join(it for it, _ in turns) + behind
    ended = subprocess.run([*program, "worker", "--index", "3"], input=given, capture_output=True, timeout=60, check=False)
    wanted = (1, WHY) if turns[-1][1] is GIVES_UP else (1, why) if why else (0, b"")
    if (ended.returncode, ended.stderr) != wanted:
        return f"status {ended.returncode}: {ended.stderr!r}"
    return difference(turns, ended.stdout)


CASES = (tables_in_any_order, files_that_are_gone, earlier_and_later_jobs, what_is_not_awaited, records_of_other_tables)


def cases():
    """The turns of each case, with its name."""
    yield from ((it.__name__, list(it())) for it in CASES)
    yield from ((f"{inputs_that_share_an_entry.__name__}, {at}", list(it)) for at, it in enumerate(inputs_that_share_an_entry(), 1))


def main():
    count, wrong = 0, []
    for name, turns in cases():
        count += len(turns)
        for behind, why in ((b"", b""), *FAULTS):
            if it := tried(sys.argv[1:], turns, behind, why):
                wrong.append(f"{name}, with {behind.hex() or 'nothing'} behind it: {it}")
    print("\n".join(wrong) or f"ok, {count} messages")
    return 1 if wrong else 0


if __name__ == "__main__":
    sys.exit(main())
