"""A client of RESP2 that shares no line with the server: over the standard streams of a program, or over a socket."""
import contextlib
import socket
import subprocess

# How long an answer may take, in seconds.
PATIENCE = 180


class Refusal(Exception):
    """An error reply."""


def packed(*words):
    words = [word if isinstance(word, bytes) else str(word).encode() for word in words]
    return b"*%d\r\n" % len(words) + b"".join(b"$%d\r\n%s\r\n" % (len(word), word) for word in words)


def reply_of(stream):
    """The next reply, or EOFError at the end. A simple string is text, a bulk string bytes, an error a Refusal that is returned."""
    line = stream.readline()
    if not line.endswith(b"\r\n"):
        raise EOFError(line)
    kind, rest = line[:1], line[1:-2]
    if kind == b"+":
        return rest.decode()
    if kind == b"-":
        return Refusal(rest.decode())
    if kind == b":":
        return int(rest)
    if kind == b"$":
        if rest == b"-1":
            return None
        body = stream.read(int(rest) + 2)
        assert len(body) == int(rest) + 2 and body.endswith(b"\r\n"), body[:80]
        return body[:-2]
    assert kind == b"*", line
    return [reply_of(stream) for _ in range(int(rest))]


class Client:
    """Sends requests, and reads replies."""

    def __init__(self, reader, writer):
        self.reader, self.writer = reader, writer

    def send(self, data):
        self.writer.write(data)
        self.writer.flush()

    def reply(self):
        return reply_of(self.reader)

    def ask(self, *words):
        self.send(packed(*words))
        return self.reply()


class Served(Client):
    """A program that serves its standard streams."""

    def __init__(self, command, memory=None):
        # At most so many KiB of memory, if that is said.
        words = ["bash", "-c", f'ulimit -v {memory}; exec "$@"', "bash", *command] if memory else list(command)
        self.process = subprocess.Popen(words, stdin=subprocess.PIPE, stdout=subprocess.PIPE, stderr=subprocess.PIPE)
        super().__init__(self.process.stdout, self.process.stdin)

    def end(self):
        """Closes the input. Returns the status, and what was written since the last reply, and on standard error."""
        try:
            out, err = self.process.communicate(timeout=PATIENCE)
        except subprocess.TimeoutExpired:
            self.process.kill()
            raise
        return self.process.returncode, out, err.decode()


class Connected(Client):
    """A connection to a port of this machine, or to a socket in the file system."""

    def __init__(self, place, patience=PATIENCE):
        if isinstance(place, int):
            self.socket = socket.create_connection(("127.0.0.1", place), patience)
        else:
            self.socket = socket.socket(socket.AF_UNIX)
            self.socket.settimeout(patience)
            self.socket.connect(place)
        super().__init__(self.socket.makefile("rb"), self.socket.makefile("wb"))

    def close(self):
        """Closes it, as the end of a client's process does."""
        for it in (self.reader, self.writer, self.socket):
            with contextlib.suppress(OSError):
                it.close()
