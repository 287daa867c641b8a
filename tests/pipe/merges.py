#!/usr/bin/env python3
"""Merges by a worker over its streams, byte for byte beside a merge by definition: whole lists, one step after the other.

Usage: tests/pipe/merges.py PROGRAM ..

PROGRAM .. is called with 'worker --index 1'. It is handed the jobs in turn, each with the tables of its inputs, and has to fetch these and
to answer each job with the one right result. The bytes are as docs/FORMATS.md has them: tables and messages of version 2 if a key needs it.
First come worked cases, whose tables are written down here; then 600 jobs by chance, 200 lists of entries at three block targets each, some
with keys of up to 4,096 bytes, and three lists whose merge has several outputs, at three targets too. Prints what is wrong, or 'ok' and how
many jobs there were.
"""
import random
import subprocess
import sys
from typing import NamedTuple

DELETE, PUT = 0, 1
OVERHEAD, OUTPUT_TARGET = 14, 2_000_000
# The longest key of version 1, and the longest of all.
SHORT_KEY, LONG_KEY = 1_024, 4_096
JOB, FETCH, TABLE, RESULT = 1, 2, 3, 5
COORDINATOR, WORKER = b"\0\0", b"\1\1"
TARGETS = (1, 40, 4096)


class Entry(NamedTuple):
    key: bytes
    seq: int
    kind: int
    value: bytes


class Case(NamedTuple):
    """Entries of each input in order, points, and ranges of deeper keys."""

    lists: list
    points: list
    deeper: list


def number(value, width):
    return value.to_bytes(width, "big")


def text(key):
    return number(len(key), 2) + key


def version_of(keys):
    """The version of a table or a message with these keys."""
    return 2 if any(len(key) > SHORT_KEY for key in keys) else 1


def place(entry):
    return entry.key, -entry.seq


def trailer(entry):
    return number(entry.seq * 256 + entry.kind, 8)


def spelled(entry):
    return text(entry.key) + trailer(entry) + number(len(entry.value), 4) + entry.value


def table_of(entries, target):
    """The bytes of a table: each block is closed once it has as many bytes as the target."""
    blocks, index, block = [], [], b""
    for at, entry in enumerate(entries):
        block += spelled(entry)
        if len(block) >= target or at + 1 == len(entries):
            blocks.append(block)
            index.append(number(len(block), 4) + text(entry.key) + trailer(entry))
            block = b""
    head = b"LSMT" + number(version_of(it.key for it in entries), 1)
    return b"".join([head, number(target, 4), number(len(entries), 4), number(len(blocks), 4), *index, *blocks])


def message(kind, sender, receiver, body, keys=()):
    """A message with these keys in its own fields: those inside of tables do not count."""
    whole = b"LSMM" + number(version_of(keys), 1) + number(kind, 1) + sender + receiver + body
    return number(len(whole), 4) + whole


def job_message(number_of_job, case, target, tables):
    """The message of a job of level 0, whose files are numbered from 1."""
    head = number(1, 8) + number(number_of_job, 8) + b"\0" + number(target, 4)
    points = number(len(case.points), 1) + b"".join(number(it, 8) for it in case.points)
    files = number(len(tables), 2)
    for at, (entries, table) in enumerate(zip(case.lists, tables), 1):
        files += number(at, 8) + b"\0" + text(entries[0].key) + text(entries[-1].key) + number(len(table), 4) + number(len(entries), 4)
    deeper = number(len(case.deeper), 4) + b"".join(text(lo) + text(hi) for lo, hi in case.deeper)
    keys = [each[at].key for each in case.lists for at in (0, -1)] + [key for ends in case.deeper for key in ends]
    return message(JOB, COORDINATOR, WORKER, head + points + files + deeper, keys)


def table_message(at, table):
    return message(TABLE, COORDINATOR, WORKER, number(at, 8) + number(len(table), 4) + table)


def wanted_frames(number_of_job, count, outputs):
    """What a worker sends of a job: a fetch for each input, and the result."""
    fetches = [message(FETCH, WORKER, COORDINATOR, number(at, 8)) for at in range(1, count + 1)]
    body = number(1, 8) + number(number_of_job, 8) + number(len(outputs), 4) + b"".join(number(len(it), 4) + it for it in outputs)
    return b"".join(fetches) + message(RESULT, WORKER, COORDINATOR, body)


def is_shown(entries, point, entry):
    """Whether a read of the entry's key at the point, or the latest if there is none, finds this entry."""
    sees = lambda it: point is None or it.seq <= point
    return sees(entry) and not any(sees(it) and it.seq > entry.seq for it in entries if it.key == entry.key)


def may_go(case, entry):
    """Whether the entry is a deletion that may be dropped."""
    is_deeper = any(lo <= entry.key <= hi for lo, hi in case.deeper)
    return entry.kind == DELETE and all(entry.seq <= it for it in case.points) and not is_deeper


def kept_of(case):
    entries = sorted((it for each in case.lists for it in each), key=place)
    return [it for it in entries if any(is_shown(entries, point, it) for point in (None, *case.points)) and not may_go(case, it)]


def cut(entries):
    """The entries of each output: it is closed before the next key, once it weighs enough."""
    outputs, weight = [], 0
    for entry in entries:
        if not outputs or (weight >= OUTPUT_TARGET and outputs[-1][-1].key != entry.key):
            outputs.append([])
            weight = 0
        outputs[-1].append(entry)
        weight += OVERHEAD + len(entry.key) + len(entry.value)
    return outputs


def versions(case):
    """The versions of a merge's inputs, and that of a table of all that it keeps."""
    return tuple(sorted({version_of(it.key for it in each) for each in case.lists})), version_of(it.key for it in kept_of(case))


def put(key, seq, value):
    return Entry(key, seq, PUT, value)


def worked():
    """Cases with the entries of each of their outputs."""
    first, gone = put(b"a", 1, b"1"), Entry(b"a", 2, DELETE, b"")
    for points, deeper, outputs in [([], [], []), ([2], [], []), ([1], [], [[gone, first]]), ([], [(b"a", b"a")], [[gone]])]:
        yield Case([[first], [gone]], points, deeper), outputs
    fifth, sixth, third = put(b"a", 5, b"5"), put(b"b", 6, b"6"), put(b"a", 3, b"3")
    for points, seen in [([2, 4], [fifth, third, first, sixth]), ([3], [fifth, third, sixth]), ([5], [fifth, sixth]), ([], [fifth, sixth])]:
        yield Case([[fifth, sixth], [third, first]], points, []), [seen]
    # 31 entries weigh 4 less than an output's target, so the next key's entries, of which all are needed, stand there too.
    heavy = lambda key, seq: put(key, seq, b"v" * 64_501)
    entries = [heavy(bytes([key]), 1) for key in range(ord("A"), ord("`"))] + [heavy(b"a", seq) for seq in (3, 2, 1)] + [heavy(b"b", 1)]
    yield Case([entries], [1, 2], []), [entries[:34], entries[34:]]
    # A long key that is deleted and left out leaves a table of version 1, of one of each version; but a point keeps it, and then its deletion alone.
    long = b"b" * (SHORT_KEY + 1)
    ends, older, newer = [put(b"a", 1, b"1"), put(b"c", 2, b"2")], put(long, 3, b"3"), Entry(long, 4, DELETE, b"")
    for points, deeper, seen in [([], [], ends), ([3], [], [ends[0], newer, older, ends[1]]), ([], [(long, long)], [ends[0], newer, ends[1]])]:
        yield Case([ends, [newer, older]], points, deeper), [seen]
    # The same of a long key behind a short one.
    short, put_long, gone_long = put(b"a", 3, b"3"), put(long, 1, b"1"), Entry(long, 2, DELETE, b"")
    for points, seen in [([], [short]), ([1], [short, gone_long, put_long])]:
        yield Case([[short], [gone_long, put_long]], points, []), [seen]
    # The output behind that of a long key is of version 1 again: 30 entries beside it weigh an output's target.
    beside = [put(b"A" * (SHORT_KEY + 1), 1, b"v" * 64_501)] + [heavy(bytes([key]), 1) for key in range(ord("B"), ord("b"))]
    yield Case([beside], [], []), [beside[:31], beside[31:]]
    # The longest keys, and one of which the other is a beginning.
    last, longest = put(b"z" * SHORT_KEY, 5, b"5"), put(b"z" * LONG_KEY, 6, b"6")
    yield Case([[last], [longest]], [], []), [[last, longest]]


def some_key(chance, one_in):
    """One to four of three letters: keys repeat, and begin others. One in so many, or none for 0, goes on to a length at which versions begin or end."""
    key = bytes(chance.choice((0, ord("a"), 255)) for _ in range(chance.randint(1, 4)))
    return key if not one_in or chance.randrange(one_in) else key.ljust(chance.choice((SHORT_KEY, SHORT_KEY + 1, LONG_KEY)), b"a")


def some_case(chance, inputs, more, least, one_in):
    """Entries at sequences from 1 on, each in one of the inputs, of which none is empty. One key in so many is long, or as long as one of version 1."""
    lists = [[] for _ in range(inputs)]
    for seq in range(1, inputs + more + 1):
        value = bytes([chance.randrange(255)]) * (least + chance.randrange(41))
        key = some_key(chance, one_in)
        entry = put(key, seq, value) if chance.randrange(3) else Entry(key, seq, DELETE, b"")
        lists[seq - 1 if seq <= inputs else chance.randrange(inputs)].append(entry)
    points = sorted(chance.sample(range(inputs + more + 1), chance.randrange(min(5, inputs + more + 1))))
    deeper = [tuple(sorted((some_key(chance, one_in), some_key(chance, one_in)))) for _ in range(chance.randrange(4))]
    return Case([sorted(each, key=place) for each in lists], points, deeper)


def jobs():
    """Each case with a block target and the entries of its outputs."""
    for case, outputs in worked():
        yield case, 4096, outputs
    chance = random.Random(1996)
    cases = [some_case(chance, chance.randint(1, 20), chance.randrange(60), 0, chance.choice((0, 40, 8))) for _ in range(200)]
    heavy = [some_case(chance, inputs, 180, 60_000, 0) for inputs in (1, 7, 20)]
    for case in cases + heavy:
        outputs = cut(kept_of(case))
        yield from ((case, target, outputs) for target in TARGETS)
    if not all(len(cut(kept_of(it))) > 1 for it in heavy):
        raise ValueError("a heavy case has one output")
    if not {((1,), 1), ((1, 2), 1), ((1, 2), 2), ((2,), 2)} <= {versions(it) for it in cases}:
        raise ValueError("some versions of inputs and of their output are in no case")


def tried(program):
    """How many jobs were right, and what is wrong with the first that was not."""
    for count, (case, target, outputs) in enumerate(jobs(), 1):
        if outputs != cut(kept_of(case)):
            return count, "the merge by definition is not the worked one"
        tables = [table_of(each, target) for each in case.lists]
        given = job_message(count, case, target, tables) + b"".join(table_message(at, it) for at, it in enumerate(tables, 1))
        program.stdin.write(given)
        program.stdin.flush()
        wanted = wanted_frames(count, len(tables), [table_of(each, target) for each in outputs])
        found = program.stdout.read(len(wanted))
        if found != wanted:
            return count, f"points {case.points}, deeper {case.deeper}, target {target}, lists {case.lists}"[:2000]
    return count, ""


def main():
    with subprocess.Popen([*sys.argv[1:], "worker", "--index", "1"], stdin=subprocess.PIPE, stdout=subprocess.PIPE) as program:
        count, wrong = tried(program)
        if wrong:
            program.kill()
        else:
            program.stdin.close()
            wrong = f"it ends with status {program.returncode}, or says more" if program.stdout.read() or program.wait() else ""
    print(f"job {count}: {wrong}" if wrong else f"ok, {count} jobs")
    return 1 if wrong else 0


if __name__ == "__main__":
    sys.exit(main())
