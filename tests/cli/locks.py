"""A folder is in use by one process, and is read by as many as like: each command beside another process that has the folder open, or that reads it."""
import contextlib
import fcntl
import os
import subprocess
import time

# Each command that opens a folder, and those that only read it.
OPENS = (
    ["get", "a"], ["put", "a", "2"], ["del", "a"], ["scan", "a", "b"], ["stats"], ["compact"], ["export"], ["import"],
    ["store"], ["serve"], ["dispatch"],
)  # fmt: skip
READS = (["check"], ["dump"], ["dump", "--log"])


class Folder:
    """A folder of one pair, and what each command says of it."""

    def __init__(self, cli, room):
        self.cli, self.room = cli, room
        cli.says("a folder of one pair", ["put", "a", "1", "--dir", "used"], out=b"seq 1\n", room=room)

    def is_refused(self, words, why):
        """A case: a command is refused by the name of the folder, and prints nothing else."""
        self.cli.says(f"{' '.join(words)} of {why}", [*words, "--dir", "used"], status=1, err=b"the folder used is in use by another process\n", given=b"put a 3\n", room=self.room)

    def is_read(self, words, why):
        """A case: a command that reads the folder ends well."""
        status, out, err = self.cli.ask(*words, "--dir", "used", room=self.room)
        self.cli.tell(f"{' '.join(words)} of {why}", "" if (status, err) == (0, b"") else f"status {status}, {out}, {err}")

    @contextlib.contextmanager
    def locked(self, kind):
        """Locks the folder as another process does that reads it, or that has it open."""
        with (self.room / "used/lock").open("r+b") as lock:
            fcntl.flock(lock, kind)
            yield

    def is_locked(self):
        with (self.room / "used/lock").open("r+b") as lock:
            try:
                fcntl.flock(lock, fcntl.LOCK_EX | fcntl.LOCK_NB)
            except BlockingIOError:
                return True
        return False


def try_second_process(folder):
    """Refuses a program that opens a folder that a session has open, one that reads it then, and one that waits for the session's end."""
    words = ["luddimpa", "store", "--dir", "used"]
    with subprocess.Popen(words, executable=folder.cli.PROGRAM, stdin=subprocess.PIPE, stdout=subprocess.PIPE, cwd=folder.room) as session:
        session.stdin.write(b"get a\n")
        session.stdin.flush()
        folder.cli.case("a session in a folder", b"value 1\n", session.stdout.readline())
        for it in (*OPENS, *READS):
            folder.is_refused(it, "a folder that a session has open")
    folder.cli.says("and once it has ended the folder is as it was", ["export", "--dir", "used"], out=b"put a 1\n", room=folder.room)


def try_readers(folder):
    """Refuses a reader that takes the folder for itself, as what opens it does, and a command that opens a folder that is read."""
    with folder.locked(fcntl.LOCK_SH):
        for it in READS:
            folder.is_read(it, "a folder that another process reads")
        for it in OPENS:
            folder.is_refused(it, "a folder that another process reads")
    with folder.locked(fcntl.LOCK_EX):
        for it in READS:
            folder.is_refused(it, "a folder that another process has open")
    for it in READS:
        folder.is_read(it, "a folder that nobody has open")


def opened_to_write(pipe, patience):
    """The end of a pipe that is written to, once somebody has opened the other one."""
    end = time.monotonic() + patience
    while True:
        try:
            return os.open(pipe, os.O_WRONLY | os.O_NONBLOCK)
        except OSError:
            if time.monotonic() > end:
                raise
            time.sleep(0.01)


def try_reading(folder):
    """Refuses a reader that lets the folder go before it has read it: the file of a table is a pipe, at which it waits."""
    pipe = folder.room / "used/00000000000000000009.table"
    os.mkfifo(pipe)
    for it in READS:
        with subprocess.Popen(["luddimpa", *it, "--dir", "used"], executable=folder.cli.PROGRAM, stdout=subprocess.DEVNULL, stderr=subprocess.DEVNULL, cwd=folder.room) as reader:
            end = opened_to_write(pipe, folder.cli.PATIENCE)
            folder.cli.tell(f"{' '.join(it)} has the folder until it has read it", "" if folder.is_locked() else "nobody has it")
            os.close(end)
            folder.cli.case(f"and then {' '.join(it)} finds a damaged table", 1, reader.wait(folder.cli.PATIENCE))
    pipe.unlink()


def tried(cli, room):
    folder = Folder(cli, room)
    for part in (try_second_process, try_readers, try_reading):
        part(folder)
