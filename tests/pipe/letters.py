#!/usr/bin/env python3
"""Letters that a dispatch gets from no worker, from another one than has the job, or of another job: what changes nothing, and what ends it.

Usage: tests/pipe/letters.py FOLDER PROGRAM ..

FOLDER has a store of which one compaction is due. PROGRAM .. is called with 'dispatch', over copies of FOLDER, with 'worker', whose result is
the one that is sent, changed or not, and with 'check' and 'dump'. Prints what is wrong, or 'ok' and how many cases there were.
"""
import contextlib
import pathlib
import shutil
import subprocess
import sys
import tempfile

TOP = pathlib.Path(__file__).resolve().parents[2]
FOLDER, PROGRAM = pathlib.Path(sys.argv[1]), sys.argv[2:]
PATIENCE = 120
FETCH, RESULT = 2, 5
NO_WORKER = "no worker is left, and a compaction is due\n"
NO_LETTER = "a frame has no message\n"
NOTHING = "0 jobs, 0 files -> 0, 0.0 MB\n"
# Where a message has its kind, the role and the number of its sender, and a result the epoch and the number of its job.
KIND, ROLE, SENDER, EPOCH, JOB = 5, 6, 7, slice(10, 18), slice(18, 26)


def write_frame(stream, payload):
    stream.write(len(payload).to_bytes(4, "big") + payload)
    stream.flush()


def read_frame(stream):
    length = int.from_bytes(stream.read(4), "big")
    return stream.read(length)


def with_bytes(payload, at, value):
    """The payload with these bytes from here on."""
    start = at.start if isinstance(at, slice) else at
    return payload[:start] + value + payload[start + len(value) :]


def next_number(payload, at):
    """The payload with the next number in these bytes."""
    return with_bytes(payload, at, (int.from_bytes(payload[at], "big") + 1).to_bytes(8, "big"))


class Worker:
    """A worker, to which a job can be given."""

    def __init__(self, index):
        self.process = subprocess.Popen([*PROGRAM, "worker", "--index", str(index)], stdin=subprocess.PIPE, stdout=subprocess.PIPE)

    def result_of(self, job, dispatch):
        """The result of a job: what the worker asks for is fetched from the dispatch."""
        write_frame(self.process.stdin, job)
        while (payload := read_frame(self.process.stdout))[KIND] == FETCH:
            dispatch.tell(payload)
            write_frame(self.process.stdin, dispatch.hears())
        assert payload[KIND] == RESULT, payload[:20]
        return payload

    def end(self):
        self.process.stdin.close()
        self.process.wait(PATIENCE)
        self.process.stdout.close()


class Dispatch:
    """A dispatch over a copy of the folder."""

    def __init__(self, folder, workers):
        self.folder = folder
        words = [*PROGRAM, "dispatch", "--dir", str(folder), "--workers", str(workers)]
        self.process = subprocess.Popen(words, stdin=subprocess.PIPE, stdout=subprocess.PIPE, stderr=subprocess.PIPE)

    def tell(self, payload):
        write_frame(self.process.stdin, payload)

    def hears(self):
        return read_frame(self.process.stdout)

    def job_for(self, index):
        """The job that is sent next, to this worker."""
        job = self.hears()
        assert job[8:10] == bytes([1, index]), f"a job for {job[8:10]}, and not for worker {index}"
        return job

    def made_by(self, index, job):
        """The result of a job that a worker of this index makes."""
        worker = Worker(index)
        try:
            return worker.result_of(job, self)
        finally:
            worker.end()

    def ends(self, status, said):
        """It writes no more, ends with this status and reports this."""
        with contextlib.suppress(BrokenPipeError):
            self.process.stdin.close()
        out, err = self.process.stdout.read(), self.process.stderr.read().decode()
        found = self.process.wait(PATIENCE), out[:40], err
        assert found == (status, b"", said), f"{found}, and not {(status, said)}"


def held(folder):
    """What a folder holds, as a dump and a check print it: but for its version, which each opening raises."""
    dump, check = (subprocess.run([*PROGRAM, command, "--dir", folder], capture_output=True, timeout=PATIENCE).stdout for command in ("dump", "check"))
    assert check.endswith(b", no damage\n"), check
    return dump, check.splitlines()[:-1]


def other_worker(dispatch):
    """Refuses a dispatch that installs a result whoever sends it, or by which the sender's own job is given back."""
    result = dispatch.made_by(1, dispatch.job_for(1))
    for changed in (with_bytes(result, SENDER, b"\2"), with_bytes(result, SENDER, b"\4"), with_bytes(result, ROLE, b"\0\0"), with_bytes(result, ROLE, b"\2\1")):
        dispatch.tell(changed)
    dispatch.tell(b"\2")
    dispatch.tell(b"\1")
    dispatch.ends(1, NOTHING + NO_WORKER)


def other_job(dispatch):
    """Refuses a dispatch that installs a result of a job of which it knows nothing, or ends at it."""
    result = dispatch.made_by(1, dispatch.job_for(1))
    for changed in (next_number(result, JOB), next_number(result, EPOCH)):
        dispatch.tell(changed)
    dispatch.tell(b"\2")
    dispatch.tell(b"\1")
    dispatch.ends(1, NOTHING + NO_WORKER)


def late_result(dispatch):
    """Refuses a dispatch that installs what comes from a worker that is gone, and one that gives that worker a job again."""
    result = dispatch.made_by(1, dispatch.job_for(1))
    dispatch.tell(b"\1")
    dispatch.job_for(2)
    dispatch.tell(result)
    dispatch.tell(b"\2")
    dispatch.ends(1, NOTHING + NO_WORKER)


def no_letters(dispatch, payload):
    """Refuses a dispatch that takes news of a worker that is none for those of another one, or passes over what is no letter."""
    dispatch.job_for(1)
    dispatch.tell(payload)
    dispatch.ends(1, NOTHING + NO_LETTER)


def newcomer(dispatch):
    """Refuses a dispatch to which a worker can't come late, and one that takes news of a worker that was never there for those of the one there."""
    job = dispatch.job_for(1)
    dispatch.tell(b"\3")
    dispatch.tell(b"\2\1")
    dispatch.tell(with_bytes(dispatch.made_by(1, job), ROLE, b"\1\3"))
    dispatch.tell(b"\1")
    dispatch.tell(dispatch.made_by(2, dispatch.job_for(2)))


def ends_early(dispatch):
    """Refuses a dispatch that ends well though its input ends while a worker has a job."""
    dispatch.job_for(1)
    dispatch.ends(1, NOTHING + "the input ends while a worker has a job\n")


def tried(what, room, workers, case, *more, stays=True):
    """What is wrong with a case, or nothing."""
    folder = pathlib.Path(shutil.copytree(FOLDER, room / f"{len(list(room.iterdir()))}"))
    before, dispatch = held(folder), Dispatch(folder, workers)
    try:
        case(dispatch, *more)
        if not stays:
            found = dispatch.process.communicate(timeout=PATIENCE)[1].decode()
            assert dispatch.process.returncode == 0 and found.startswith("1 jobs, 5 files -> "), f"status {dispatch.process.returncode}, {found}"
        assert (held(folder) == before) == stays, "the folder is not as it was" if stays else "the folder is as it was"
    except (AssertionError, OSError, IndexError, subprocess.TimeoutExpired) as error:
        return f"{what}: {type(error).__name__} {error}\n"
    finally:
        dispatch.process.kill()
    return ""


def main():
    with tempfile.TemporaryDirectory() as place:
        room = pathlib.Path(place)
        wrong = [
            tried("a result of another worker", room, 2, other_worker),
            tried("a result of another job", room, 2, other_job),
            tried("a result of a worker that is gone", room, 2, late_result),
            tried("a worker that comes late", room, 1, newcomer, stays=False),
            tried("an input that ends early", room, 2, ends_early),
        ]
        wrong += [tried(f"the frame {it}", room, 2, no_letters, it) for it in (b"\0", b"\5", b"\xff", b"\0\1", b"\5\1", b"\1\0", b"\1\2", b"\1\1\1", b"")]
    print("".join(wrong) or f"ok {len(wrong)} cases")
    return 1 if any(wrong) else 0


if __name__ == "__main__":
    sys.exit(main())
