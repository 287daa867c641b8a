"""Worked scripts with the lines that they print: those of the folder rows, and of its folder followers those of followers and trims,
and some that are too long for a file, at the limits of a job and of a merge's outputs."""
import glob
import os
import re
from typing import NamedTuple

FOLDER = os.path.join(os.path.dirname(os.path.abspath(__file__)), "rows")
FOLLOWERS = os.path.join(FOLDER, "followers")


class Row(NamedTuple):
    """A script with its options, and all that it has to print; `fault` stands on standard error, with status 2."""

    name: str
    options: list
    script: bytes
    lines: str
    fault: str = ""


def stored(folder=FOLDER):
    """Each file with its lines beside it. A first line that is a comment of options names the options."""
    for path in sorted(glob.glob(os.path.join(folder, "*.lsm"))):
        with open(path, "rb") as script, open(path[:-3] + "lines", encoding="ascii") as lines:
            text = script.read()
            options = re.match(rb"# (--.*)", text)
            yield Row(os.path.basename(path), options[1].decode().split() if options else [], text, lines.read())


def faults(folder=FOLDER):
    """Each line of a table: the faulty line's number, the fault, and a script, with escapes."""
    with open(os.path.join(folder, "faults.txt"), encoding="ascii") as file:
        for number, fault, script in (it.rstrip("\n").split("\t") for it in file):
            text = script.encode().decode("unicode_escape").encode("latin-1")
            yield Row(f"the fault of {script}", [], text, "", f"line {number}: {fault}\n")


def row(name, options, pairs):
    """A row of pairs of commands and their lines."""
    commands, lines = zip(*pairs)
    return Row(name, options.split(), "".join(f"{it}\n" for it in commands).encode(), "".join(f"{it}\n" for it in lines))


def flushed(number, key="a"):
    """The first puts of a store, each with its flush, where nothing is installed: the one of this number."""
    return [(f"put {key} 1", f"seq {number}"), ("flush", f"version {number + 1} flushed {number} file {number}")]


def moved_down(number):
    """One key flushed and merged alone into level 1: the last file of it is of twice the number."""
    job, key, version, file = 4 * number - 3, f"k{number:04d}", 2 * number, 2 * number - 1
    return [
        (f"put {key} 1", f"seq {number}"),
        ("flush", f"version {version} flushed {number} file {file}"),
        ("pick 1", f"job 1.{number} level 0 inputs {file} message {job}"),
        (f"deliver {job}", f"collecting 1 message {job + 1}"),
        (f"deliver {job + 1}", f"served message {job + 2}"),
        (f"deliver {job + 2}", f"merged message {job + 3}"),
        (f"deliver {job + 3}", f"installed version {version + 1} files {file + 1}"),
    ]


# The job of 1,024 files is taken, and one file is sent.
FETCHES = [("deliver 1", "collecting 1024 messages 2-1025"), ("deliver 2", "served message 1026")]


def over_all(count):
    """So many files of level 1, and a file of level 0 that meets all of them."""
    pairs = [pair for number in range(1, count + 1) for pair in moved_down(number)]
    pairs.append((f"batch put k0001 2 put k{count:04d} 2", f"seq {count + 1}-{count + 2}"))
    pairs.append(("flush", f"version {2 * count + 2} flushed {count + 2} file {2 * count + 1}"))
    return pairs


def cut_at(weight):
    """A merge of one file: keys of that weight, and one key more. An entry weighs 14 beside its key and value."""
    largest, key = 65_536, 14 + 2
    lengths = [largest] * (weight // (key + largest))
    lengths.append(weight - len(lengths) * (key + largest) - key)
    puts = [f"put {at:02d} {'v' * length}" for at, length in enumerate([*lengths, 1])]
    files = "2,3" if weight >= 2_000_000 else "2"
    return [
        (f"batch {' '.join(puts)}", f"seq 1-{len(puts)}"),
        ("flush", f"version 2 flushed {len(puts)} file 1"),
        ("pick 1", "job 1.1 level 0 inputs 1 message 1"),
        ("deliver 1", "collecting 1 message 2"),
        ("deliver 2", "served message 3"),
        ("deliver 3", "merged message 4"),
        ("deliver 4", f"installed version 3 files {files}"),
    ]


def of_weight(weight, key="k"):
    """A batch of puts of one key with that weight."""
    largest, other = 65_536, 14 + len(key)
    lengths = [largest] * (weight // (other + largest))
    lengths.append(weight - len(lengths) * (other + largest) - other)
    return "batch " + " ".join(f"put {key} {'v' * it}" for it in lengths), len(lengths)


def full_table():
    """A merge of the table of a full memtable: a message of 8 MB to the worker, and one from it."""
    puts = [f"put {at:03d} {'v' * 65_536}" for at in range(122)]
    return [
        (f"batch {' '.join(puts[:61])}", "seq 1-61"),
        (f"batch {' '.join(puts[61:])}", "seq 62-122"),
        ("flush", "version 2 flushed 122 file 1"),
        ("pick 1", "job 1.1 level 0 inputs 1 message 1"),
        ("deliver 1", "collecting 1 message 2"),
        ("deliver 2", "served message 3"),
        ("deliver 3", "merged message 4"),
        ("deliver 4", "installed version 3 files 2,3,4,5"),
    ]


def full_memtables():
    """Two full batches, which fill a memtable."""
    batch, count = of_weight(4_000_000)
    too_large, _ = of_weight(4_000_001)
    return [
        (too_large, "refused BatchFull"),
        (batch, f"seq 1-{count}"),
        (batch, f"seq {count + 1}-{2 * count}"),
        ("del k", "refused MemtableFull"),
        ("freeze", f"frozen {2 * count}"),
        ("del k", f"seq {2 * count + 1}"),
    ]


def restart(batch, count):
    """A restart keeps a full memtable, and ends the snapshots."""
    snapshots = [("snap", f"snapshot 1.{number} at 0") for number in range(1, 65)]
    return [
        *snapshots,
        ("snap", "refused TooManySnapshots"),
        ("release 1.1", "released 1.1"),
        ("snap", "snapshot 1.65 at 0"),
        (batch, f"seq 1-{count}"),
        (batch, f"seq {count + 1}-{2 * count}"),
        ("del k", "refused MemtableFull"),
        ("restart c", f"epoch 2 version 2 last {2 * count}"),
        ("del k", "refused MemtableFull"),
        ("snap", f"snapshot 2.1 at {2 * count}"),
        ("freeze", f"frozen {2 * count}"),
        (batch, f"seq {2 * count + 1}-{3 * count}"),
        (batch, f"seq {3 * count + 1}-{4 * count}"),
        ("restart c", f"epoch 3 version 3 last {4 * count}"),
        ("del k", "refused MemtableFull"),
        ("flush", f"version 4 flushed {2 * count} file 1"),
        ("del k", "refused MemtableFull"),
        ("flush", f"version 5 flushed {4 * count} file 2"),
        ("del k", f"seq {4 * count + 1}"),
    ]


def moved_twice(pick):
    """A file of 66 bytes, 31 beside its largest key and its entries of 16 and 17, merged into level 1; and then a pick."""
    return [
        ("batch put a 1 put aa 1", "seq 1-2"),
        ("flush", "version 2 flushed 2 file 1"),
        ("pick 1", "job 1.1 level 0 inputs 1 message 1"),
        ("deliver 1", "collecting 1 message 2"),
        ("deliver 2", "served message 3"),
        ("deliver 3", "merged message 4"),
        ("deliver 4", "installed version 3 files 2"),
        ("pick 1", pick),
    ]


def longest_keys():
    """Keys of 4,096 bytes and of one more."""
    key, other = "k" * 4_096, "k" * 4_097
    return [
        (f"put {key} 1", "seq 1"),
        (f"put {other} 1", "refused KeyTooLong"),
        (f"batch put a 1 del {other}", "refused KeyTooLong"),
        (f"put {other} {'v' * 65_537}", "refused KeyTooLong"),
        (f"put {key} {'v' * 65_537}", "refused ValueTooLong"),
        (f"get {key}", "value 1"),
        (f"get {other}", "none"),
        ("restart c", "epoch 2 version 2 last 1"),
        (f"get {key}", "value 1"),
        ("flush", "version 3 flushed 1 file 1"),
        ("restart c", "epoch 3 version 4 last 1"),
        (f"scan {'k' * 4_095} {other} 5", f"range 1 {key}=1"),
        (f"del {key}", "seq 2"),
        (f"get {key}", "none"),
    ]


def left_out():
    """A long key that is deleted is left out of a merge with a file that has none, and a follower goes by a job's edit from the one to the other."""
    key = "k" * 1_025
    return [
        ("batch put a 1 put z 1", "seq 1-2"),
        ("flush", "version 2 flushed 2 file 1"),
        (f"batch put {key} 1 del {key}", "seq 3-4"),
        ("flush", "version 3 flushed 4 file 2"),
        ("ask 1", "message 1"),
        ("deliver 1", "served message 2"),
        ("deliver 2", "version 1"),
        ("ask 1", "message 3"),
        ("deliver 3", "served message 4"),
        ("deliver 4", "waiting 1 message 5"),
        ("deliver 5", "served message 6"),
        ("deliver 6", "version 2"),
        ("ask 1", "message 7"),
        ("deliver 7", "served message 8"),
        ("deliver 8", "waiting 1 message 9"),
        ("deliver 9", "served message 10"),
        ("deliver 10", "version 3"),
        (f"read 1 {key}", "at 3 none"),
        ("pick 1", "job 1.1 level 0 inputs 1,2 message 11"),
        ("deliver 11", "collecting 2 messages 12-13"),
        ("deliver 12-13", "served message 14\nserved message 15"),
        ("deliver 14-15", "collecting 1\nmerged message 16"),
        ("deliver 16", "installed version 4 files 3"),
        (f"scan a {'z' * 1_025} 5", "range 2 a=1 z=1"),
        ("show c", "show 4 flushed 4 L1 3"),
    ]


def long_moved_down(pick):
    """A file of 2,096 bytes, which is one put of a key of 1,025, merged into level 1; and then a pick."""
    return [
        (f"put {'k' * 1_025} 1", "seq 1"),
        ("flush", "version 2 flushed 1 file 1"),
        ("pick 1", "job 1.1 level 0 inputs 1 message 1"),
        ("deliver 1", "collecting 1 message 2"),
        ("deliver 2", "served message 3"),
        ("deliver 3", "merged message 4"),
        ("deliver 4", "installed version 3 files 2"),
        (f"get {'k' * 1_025}", "value 1"),
        ("pick 1", pick),
    ]


def made():
    backlog = [pair for number in range(1, 1_026) for pair in flushed(number)]
    inputs = ",".join(map(str, range(1, 1_025)))
    yield row("1,024 files of one key", "--l0 1", backlog[:-2] + [("pick 1", f"job 1.1 level 0 inputs {inputs} message 1"), *FETCHES])
    yield row("1,025 files of one key", "--l0 1", backlog + [("pick 1", "job 1.1 level 0 inputs 1 message 1")])
    inputs = ",".join(map(str, [*range(2, 2_047, 2), 2_047]))
    yield row("a file over 1,023 deeper ones", "--l0 1", over_all(1_023) + [("pick 1", f"job 1.1024 level 0 inputs {inputs} message 4093")])
    yield row("a file over 1,024 deeper ones", "--l0 1", over_all(1_024) + [("pick 1", "refused TooWide")])
    yield row("a level of as many bytes as its base", "--l0 1 --base 66", moved_twice("idle"))
    yield row("a level of a byte more than its base", "--l0 1 --base 65", moved_twice("job 1.2 level 1 inputs 2 message 5"))
    yield row("a level of as many bytes as its base, of a long key", "--l0 1 --base 2096", long_moved_down("idle"))
    yield row("a level of a byte more than its base, of a long key", "--l0 1 --base 2095", long_moved_down("job 1.2 level 1 inputs 2 message 5"))
    yield row("keys of 4,096 and of 4,097 bytes", "", longest_keys())
    yield row("a long key that is left out of a merge", "--l0 2", left_out())
    yield row("full batches and memtables", "", full_memtables())
    yield row("a restart with a full memtable and all snapshots", "", restart(*of_weight(4_000_000)))
    yield row("the table of a full memtable", "--l0 1", full_table())
    yield row("an output that is closed", "--l0 1", cut_at(2_000_000))
    yield row("an output that is not closed", "--l0 1", cut_at(1_999_999))


def rows():
    for folder in FOLDER, FOLLOWERS:
        yield from stored(folder)
        yield from faults(folder)
    yield from made()
    yield row("a follower reads a key that is too long", "", [(f"read 1 {'k' * 4_097}", "at 0 none")])
