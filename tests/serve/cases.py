"""Cases, each tried where it is written, and how many of them passed."""
import socket
import time

from client import Refusal

results = []


def case(what):
    """A case is a function. It is tried where it stands, and tells whether it failed."""

    def tried(function):
        why = None
        try:
            function()
        except Exception as error:  # whatever it is, the case has failed, and the next is tried
            why = f"{type(error).__name__}: {str(error)[:300]}"
        results.append(why is None)
        print(f"ok {what}" if why is None else f"FAILED {what}: {why}", flush=True)

    return tried


def same(found, wanted):
    if isinstance(found, Refusal):
        found = f"-{found}"
    assert found == wanted, f"{found!r}, not {wanted!r}"


def free_port():
    with socket.socket() as free:
        free.bind(("127.0.0.1", 0))
        return free.getsockname()[1]


def waits_until(is_so, seconds=60, pause=0.01):
    """Waits until it is so, with a pause of so many seconds between two looks; returns whether it ever was."""
    end = time.monotonic() + seconds
    while not is_so():
        if time.monotonic() > end:
            return False
        time.sleep(pause)
    return True


def summary():
    print(f"{results.count(True)} passed, {results.count(False)} failed")
    return 0 if all(results) else 1
