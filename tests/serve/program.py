"""The program that is tried, over its standard streams."""
import contextlib
import os
import pathlib
import shlex

from client import Served

TOP = pathlib.Path(__file__).resolve().parents[2]
PROGRAM = shlex.split(os.environ.get("PROGRAM", str(TOP / "crates/lsm_sim/out/lsm_sim")))
# What a hostile stream may make the program take, in KiB of addresses.
MEMORY = 400_000


@contextlib.contextmanager
def serving(*arguments, memory=None):
    """The program over its streams. It has to end well once its input does."""
    served = Served([*PROGRAM, "serve", *arguments], memory)
    try:
        yield served
        status, out, err = served.end()
        assert (status, out) == (0, b""), f"status {status}, {out[:200]!r}, {err[:200]}"
    finally:
        served.process.kill()


def fails(sent, reason):
    """A stream that ends with an error reply, or with none if no reason is given, and with status 1 and a line that says why."""
    served = Served([*PROGRAM, "serve"], MEMORY)
    with contextlib.suppress(BrokenPipeError):
        served.send(sent)
    ended, out, err = served.end()
    wanted = b"-ERR Protocol error: " + reason + b"\r\n" if reason else b""
    said = f"protocol error: {reason.decode()}\n" if reason else "the input ends within a request\n"
    assert (ended, out, err) == (1, wanted, said), f"status {ended}, {out[:200]!r}, {err[:200]}"
