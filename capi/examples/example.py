"""The same as example.c, from Python: example.py ./libluddimpa.so FOLDER, over a folder that 'luddimpa store' made as it says there.

The library is one file:

    cc -shared -o libluddimpa.so -Wl,--whole-archive crates/luddimpa/out/libluddimpa.a -Wl,--no-whole-archive $KIT/c/liblibc_c.a

KIT is the toolchain's folder, as in capi/README.md.
"""
import ctypes
import pathlib
import sys
from ctypes import c_char_p, c_size_t, c_uint32, c_uint64

OK, DELETED, ABSENT = 0, 1, 2
LATEST = 2**56 - 1
FRAME = 16


class Found(ctypes.Structure):
    _fields_ = [("status", c_uint32), ("length", c_size_t)]


class CheckedTable(ctypes.Structure):
    _fields_ = [("status", c_uint32), ("fault", c_uint32), ("entries", c_size_t)]


class CheckedEdits(ctypes.Structure):
    _fields_ = [
        ("status", c_uint32),
        ("fault", c_uint32),
        ("number", c_uint64),
        ("flushed", c_uint64),
        ("epoch", c_uint64),
        ("next_file", c_uint64),
        ("files", c_size_t),
    ]


class MergedJob(ctypes.Structure):
    _fields_ = [("status", c_uint32), ("fault", c_uint32), ("table", c_size_t), ("length", c_size_t)]


class Luddimpa:
    """The library's calls, over bytes. A status that is no answer is a ValueError."""

    def __init__(self, path):
        self.library = ctypes.CDLL(path)
        run = [c_char_p, c_size_t]
        for name, answer, words in (
            ("table_get", Found, [*run, *run, c_uint64, *run]),
            ("table_check", CheckedTable, run),
            ("edits_check", CheckedEdits, run),
            ("merge", MergedJob, [*run, *run, *run]),
        ):
            call = getattr(self.library, f"luddimpa_{name}")
            call.restype, call.argtypes = answer, words

    def get(self, table, key, at=LATEST):
        out = ctypes.create_string_buffer(65_536)
        found = self.library.luddimpa_table_get(table, len(table), key, len(key), at, out, len(out))
        if found.status in (DELETED, ABSENT):
            return None
        if found.status != OK:
            raise ValueError(f"status {found.status}")
        return out.raw[: found.length]

    def entries(self, table):
        checked = self.library.luddimpa_table_check(table, len(table))
        if checked.status != OK:
            raise ValueError(f"status {checked.status}, fault {checked.fault}")
        return checked.entries

    def version(self, edits):
        checked = self.library.luddimpa_edits_check(edits, len(edits))
        if checked.status != OK:
            raise ValueError(f"edit {checked.number}: status {checked.status}, fault {checked.fault}")
        return checked

    def merge(self, job, tables):
        length = 0
        while True:
            out = ctypes.create_string_buffer(length)
            merged = self.library.luddimpa_merge(job, len(job), tables, len(tables), out, length)
            if merged.status != OK:
                raise ValueError(f"status {merged.status}, fault {merged.fault}, table {merged.table}")
            if merged.length <= length:
                return out.raw[: merged.length]
            length = merged.length


def number(value, width):
    return value.to_bytes(width, "big")


def frames(path):
    """What each frame of a file holds."""
    file, at, held = path.read_bytes(), 0, []
    while at < len(file):
        end = at + FRAME + int.from_bytes(file[at : at + 4], "big")
        held.append(file[at + FRAME : end])
        at = end
    return held


def listed(elements):
    """Byte strings, each behind its length."""
    return b"".join(number(len(it), 4) + it for it in elements)


def main(library, folder):
    luddimpa, folder = Luddimpa(library), pathlib.Path(folder)
    show = lambda where, table, key: print(f"{key} in {where}: {(luddimpa.get(table, key.encode()) or b'absent').decode()}")
    version = luddimpa.version(listed(frames(folder / "edits")))
    print(f"version {version.number}: {version.files} files, flushed {version.flushed}")
    tables = [frames(folder / f"{file:020}.table")[0] for file in (1, 2)]
    show("table 1", tables[0], "a")
    # Of each input its number, its level, its smallest and its largest key, its bytes and its entries.
    inputs = [number(at, 8) + b"\0" + b"\0\1a\0\1b" + number(len(it), 4) + number(luddimpa.entries(it), 4) for at, it in enumerate(tables, 1)]
    # A job from the coordinator to worker 1: its epoch and number, from level 0 on, the block target, no snapshots, its inputs, no keys in
    # deeper levels.
    job = b"LSMM\1\1\0\0\1\1" + number(1, 8) + number(1, 8) + b"\0" + number(4096, 4) + b"\0" + number(2, 2) + b"".join(inputs) + number(0, 4)
    result = luddimpa.merge(job, listed(tables))
    # The result: ten bytes as above, the job's name, the count of tables, and each behind its length.
    assert result[26:30] == number(1, 4) and result[30:34] == number(len(result) - 34, 4)
    show("the merged table", result[34:], "a")
    show("the merged table", result[34:], "b")


if __name__ == "__main__":
    main(*sys.argv[1:])
