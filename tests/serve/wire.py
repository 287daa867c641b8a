"""Cases of bytes that are no request, and of requests that come in parts or are as long as they may be."""
import contextlib
import fcntl
import os
import subprocess
import sys
import tempfile
import termios

from cases import case, same, waits_until
from client import Served, packed
from program import MEMORY, PROGRAM, fails, serving


@case("streams that are none")
def hostile():
    fails(b"*1\r\n$1099511627776\r\n", b"invalid bulk length")
    fails(b"*1099511627776\r\n", b"invalid multibulk length")
    fails(b"*99999999999999999999999999\r\n", b"invalid length")
    fails(b"*-1\r\n", b"invalid length")
    fails(b"*x\r\n", b"invalid length")
    fails(b"*+1\r\n$4\r\nPING\r\n", b"invalid length")
    fails(b"*1\r\n$04\r\nPING\r\n", b"invalid length")
    fails(b"*\r\n", b"invalid length")
    fails(b"*1\r\n:4\r\nPING\r\n", b"expected '$'")
    fails(b"*1\r\n$4\r\nPINGxx", b"expected a line end behind the bulk string")
    for half in (b"\rx", b"x\n"):
        fails(b"*1\r\n$4\r\nPING" + half, b"expected a line end behind the bulk string")
        fails(b"*1" + half + b"$4\r\nPING\r\n", b"invalid length")
    fails(b"*" + b"1" * 1000, b"invalid length")
    fails(b"x" * 10_000_000, b"too big inline request")
    fails(b"*40\r\n" + b"$131072\r\n%s\r\n" % (b"x" * 131_072) * 40, b"too big request")


@case("an input that ends within a request")
def truncated():
    for sent in (b"*1\r\n$4\r\nPI", b"*2\r\n", b"PING", b"*"):
        fails(sent, None)


@case("an input that can't be read, and an output without room")
def failing():
    """Refuses a server that says of one stream what is wrong with the other one."""
    for given, out, why in (("/", os.devnull, "the input could not be read\n"), ("/dev/zero", "/dev/full", "the output could not be written\n")):
        read, written = os.open(given, os.O_RDONLY), os.open(out, os.O_WRONLY)
        served = subprocess.run([*PROGRAM, "serve"], stdin=read, stdout=written, stderr=subprocess.PIPE, text=True, timeout=180)
        same((served.returncode, served.stderr), (1, why))
        os.close(read), os.close(written)


@case("what stands before a fault is answered and kept")
def before_a_fault():
    with tempfile.TemporaryDirectory() as folder:
        served = Served([*PROGRAM, "serve", "--dir", folder])
        with contextlib.suppress(BrokenPipeError):
            served.send(packed("SET", "a", "1") + b"*x\r\n" + packed("SET", "a", "2"))
        status, out, _ = served.end()
        assert status > 0 and out == b"+OK\r\n-ERR Protocol error: invalid length\r\n", out
        with serving("--dir", folder) as it:
            same(it.ask("GET", "a"), b"1")


@case("words as long as they may be, and longer ones")
def long_words():
    """Refuses a limit of words that is a byte off, and one by which only bytes that came are measured, and not those that were announced."""
    with serving(memory=MEMORY) as it:
        same(it.ask("ECHO", "w" * 131_072), b"w" * 131_072)
        same(it.ask("SET", "a", "w" * 131_072), "-ERR the value is longer than 65,536 bytes")
        same(it.ask("GET", "w" * 131_072), None)
    for length in (131_073, 1_000_000, 1_000_001, 2**63, 2**64 - 1):
        fails(b"*3\r\n$3\r\nSET\r\n$1\r\na\r\n$%d\r\n" % length, b"invalid bulk length")
    fails(packed("SET", "a", "w" * 1_000_001), b"invalid bulk length")


@case("inline requests as long as they may be, and longer ones")
def long_lines():
    """Refuses a limit of inline requests that is a byte off, and a server that takes what is behind a longer one for the next request."""
    line = b"ECHO " + b"w" * 65_531
    with serving() as it:
        it.send(line[:-1] + b"\r\n" + line + b"\nPING\r\n")
        same([it.reply() for _ in range(3)], [b"w" * 65_530, b"w" * 65_531, "PONG"])
    for more in (b"w", b"\r\n", b"w\nPING\r\n"):
        fails(line + more, b"too big inline request")


@case("inline requests of as many words as a line may have")
def many_words():
    """Refuses an inline request that has the limit of words of an array: only its line has a limit."""
    with serving() as it:
        it.send(b"SET a 1\r\nEXISTS" + b" a" * 32_764 + b"\r\n")
        same([it.reply(), it.reply()], ["OK", 32_764])


def unread(pipe):
    """How many bytes of a pipe were not read yet."""
    return int.from_bytes(fcntl.ioctl(pipe, termios.FIONREAD, bytes(4)), sys.byteorder)


@case("requests of 2,000 bytes that come one at a time, each once the one before was read")
def dripping():
    """Refuses a reader that gives up a request after a thousand reads, and one that waits for more bytes than the request has."""
    value = b"v" * 2000
    with serving() as it:
        for sent, wanted in ((packed("SET", "a", value), "OK"), (b"SET b " + value + b"\r\n", "OK"), (packed("MGET", "a", "b"), [value] * 2)):
            for at in range(len(sent)):
                it.send(sent[at : at + 1])
                assert waits_until(lambda: not unread(it.writer), pause=0), f"byte {at} is not read"
            same(it.reply(), wanted)
