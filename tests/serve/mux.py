#!/usr/bin/env python3
"""tools/redis-mux over a stand-in program, which writes down what it gets: so no store has to be built.

MUX=.. takes another multiplexer. By itself its last line is 'N passed, M failed'; 'tests/serve/run' tries these cases too.
"""
import contextlib
import os
import pathlib
import random
import select
import signal
import socket
import stat
import struct
import subprocess
import sys
import tempfile
import threading
import time

sys.dont_write_bytecode = True
sys.path.insert(0, str(pathlib.Path(__file__).resolve().parent))
from cases import case, free_port, same, summary, waits_until
from client import Connected, packed

HERE = pathlib.Path(__file__).resolve().parent
MUX = os.environ.get("MUX", str(HERE.parents[1] / "tools/redis-mux"))
REFUSED = "-ERR transactions are not supported"
# A reply to anything that was passed on comes within so many seconds, also on a busy machine.
SOON = 60


class Muxed:
    """A multiplexer over a stand-in, in a folder: the port, its process, and what the stand-in got so far."""

    def __init__(self, room, *options, is_gated=False, limits="", program=(sys.executable, str(HERE / "stand_in.py"))):
        self.room, self.log, self.err, self.gate = room, f"{room}/log", f"{room}/err", f"{room}/gate"
        self.port = free_port()
        program = [*program, self.log, *([self.gate] if is_gated else [])]
        with open(self.err, "w") as err:
            self.process = subprocess.Popen(["bash", "-c", f'{limits} exec "$@"', "bash", MUX, *options, str(self.port), *program], stderr=err)
        assert waits_until(lambda: self.answers() and self.got()), self.said()

    def answers(self):
        with contextlib.suppress(OSError):
            Connected(self.port).close()
            return True
        return self.process.poll() is not None

    def client(self):
        return Connected(self.port, SOON)

    def got(self):
        """The lines of what the stand-in got, but for that of its process."""
        with contextlib.suppress(FileNotFoundError):
            return pathlib.Path(self.log).read_text().splitlines()
        return []

    def count(self, line):
        return self.got().count(line)

    def opens(self):
        pathlib.Path(self.gate).touch()

    def said(self):
        return pathlib.Path(self.err).read_text()

    def ends(self, sent=signal.SIGTERM):
        self.process.send_signal(sent)
        same(self.process.wait(SOON), 0)
        same(self.got()[-1], "end")
        assert "Traceback" not in self.said(), self.said()


@contextlib.contextmanager
def muxed(*options, **how):
    """A multiplexer that has to end well at SIGTERM, unless it has ended."""
    with tempfile.TemporaryDirectory() as room:
        it = Muxed(room, *options, **how)
        try:
            yield it
            if it.process.poll() is None:
                it.opens()
                it.ends()
        finally:
            it.process.kill()
            it.process.wait()


@case("a request that begins with POST or Host: ends its client, and nothing of it runs")
def web_page():
    with muxed() as it:
        good = it.client()
        inline, packed_too = b"POST / HTTP/1.1\r\nHost: x\r\n\r\nSET evil 1\r\n", packed("post", "/") + packed("SET", "evil", "1")
        for word, sent in (("POST", inline), ("hOsT:", b"hOsT: x\r\nSET evil 1\r\n"), ("post", packed_too)):
            bad = it.client()
            bad.send(packed("PING") + sent)
            same(bad.reply(), "PONG")
            same(bad.reader.read(), b"")
            same(it.said().count(word), 1)
            same(good.ask("PING"), "PONG")
        same(len(it.said().splitlines()), 1 + 3)
        same(good.ask("POSTS"), "-ERR unknown command")
        same([line for line in it.got() if line[:4] in ("SET ", "POST", "HOST")], ["POSTS 1"])


@case("a refused MULTI, and what follows up to EXEC or DISCARD: nothing of it runs")
def transactions():
    with muxed() as it:
        one, other = it.client(), it.client()
        one.send(packed("PING") + packed("multi") + packed("SET", "a", "1") + packed("MULTI") + packed("GET", "a") + b"exec\r\n" + packed("GET", "b"))
        same([str(one.reply()) for _ in range(7)], ["PONG", *[REFUSED[1:]] * 5, "None"])
        same(one.ask("MULTI"), REFUSED)
        same(one.ask("SET", "a", "1"), REFUSED)
        same(other.ask("GET", "a"), None)
        same(one.ask("DISCARD"), REFUSED)
        same(one.ask("EXEC"), "-ERR unknown command")
        one.send(packed("MULTI") + packed("SET", "a", "1") + packed("QUIT"))
        same([str(one.reply()) for _ in range(3)], [REFUSED[1:], REFUSED[1:], "OK"])
        same(it.got()[1:], ["PING 1", "GET 2", "GET 2", "EXEC 1"])


@case("a SIGTERM or SIGINT to the program too ends it by its input's end")
def whole_unit():
    for number in (signal.SIGTERM, signal.SIGINT):
        with muxed() as it:
            same(it.client().ask("SET", "a", "1"), "OK")
            os.kill(int(it.got()[0].split()[1]), number)
            time.sleep(0.2)
            same(it.client().ask("SET", "a", "1"), "OK")
            it.ends(number)
            same(it.got()[1:], ["SET 3", "SET 3", "end"])


@case("what a killed client asked is dropped, but for 64 requests, and others have their turn")
def killed():
    with muxed(is_gated=True) as it:
        greedy, other = it.client(), it.client()
        greedy.send(packed("MGET", *(f"key:{n:04}" for n in range(100))) * 450)
        assert waits_until(lambda: it.count("MGET 101") >= 64), it.got()
        other.send(packed("PING"))
        assert waits_until(lambda: it.count("PING 1")), it.got()
        same(it.got()[65], "PING 1")
        greedy.close()
        it.opens()
        same(other.reply(), "PONG")
        same(other.ask("PING"), "PONG")
        it.ends()
        same((it.count("MGET 101"), it.count("PING 1")), (64, 2))


@case("256 KB of a client are with the program, and a longer request by itself")
def bytes_at_once():
    with muxed(is_gated=True) as it:
        client = it.client()
        client.send(packed("SET", "a", b"v" * 65_000) * 20 + packed("MSET", *[b"v" * 100_000] * 20) + packed("PING"))
        assert waits_until(lambda: it.count("SET 3") >= 4), it.got()
        time.sleep(0.3)
        same(it.got()[1:], ["SET 3"] * 4)
        it.opens()
        same([str(client.reply()) for _ in range(22)], ["OK"] * 20 + ["ERR unknown command", "PONG"])
        same(it.got()[1:], ["SET 3"] * 20 + ["MSET 21", "PING 1"])


@case("clients have their turns")
def in_turn():
    with muxed(is_gated=True) as it:
        clients = [it.client() for _ in range(3)]
        for n, client in enumerate(clients):
            client.send(packed("GET", *["a"] * n) * 1000)
        assert waits_until(lambda: len(it.got()) > 3 * 64), it.got()
        time.sleep(0.3)
        same([it.count(f"GET {n + 1}") for n in range(3)], [64] * 3)
        it.opens()
        for client in clients:
            same([client.reply() for _ in range(1000)], [None] * 1000)
        it.ends()
        last = it.got()[-1500:-1]
        assert all(abs(last.count(f"GET {n + 1}") - 500) < 100 for n in range(3)), [last.count(f"GET {n + 1}") for n in range(3)]


@case("what was not passed on at a stop is dropped")
def stopped():
    with muxed(is_gated=True) as it:
        client = it.client()
        client.send(packed("SET", "a", "1") * 300)
        assert waits_until(lambda: it.count("SET 3") >= 64), it.got()
        it.process.send_signal(signal.SIGTERM)
        time.sleep(0.3)
        it.opens()
        same(it.process.wait(SOON), 0)
        same(it.got()[1:], ["SET 3"] * 64 + ["end"])
        same(client.reader.read(), b"+OK\r\n" * 64)


@case("replies that were not read at a stop are sent")
def read_late():
    with muxed() as it:
        client = it.client()
        client.send(packed("MGET", *range(400)))
        assert waits_until(lambda: it.count("MGET 401")), it.got()
        it.process.send_signal(signal.SIGTERM)
        assert waits_until(lambda: it.got()[-1] == "end"), it.got()
        same([len(value) for value in client.reply()], [65_000] * 400)
        same(client.reader.read(), b"")
        same(it.process.wait(SOON), 0)


@case("a request with a wrong length ends its client, and words of any bytes are passed on")
def lengths():
    right = packed("SET", "key", "value")
    with muxed() as it:
        good = it.client()
        for length, wrong in ((b"$3\r\nk", b"$2\r\nk"), (b"$3\r\nk", b"$4\r\nk"), (b"$5", b"$4"), (b"$5", b"$05")):
            bad = it.client()
            bad.send(right.replace(length, wrong))
            assert str(bad.reply()).startswith("ERR Protocol error: "), wrong
            same(bad.reader.read(), b"")
        same(good.ask("SET", b"k\r\n$1\r\n", b"\r\n*1\r\n" * 1000), "OK")
        for part in (right[:20], right[20:-1], right[-1:] + right[:-1]):
            good.send(part)
            time.sleep(0.1)
        good.send(right[-1:])
        same([good.reply(), good.reply()], ["OK", "OK"])
        same(it.got()[1:], ["SET 3"] * 3)


@case("a client that ends its side gets all replies")
def half_closed():
    with muxed() as it:
        client = it.client()
        client.send(b"\r\n" * 3000 + packed("GET", "a") * 300 + packed("MULTI"))
        client.socket.shutdown(socket.SHUT_WR)
        same(client.reader.read(), b"$-1\r\n" * 300 + f"{REFUSED}\r\n".encode())


@case("a million empty lines, and others have their turn")
def empty_lines():
    with muxed() as it:
        flood, good = Connected(it.port), it.client()
        sender = threading.Thread(target=lambda: flood.send(b"\n" * 1_000_000 + b"PING\r\n"))
        sender.start()
        for _ in range(10):
            same(good.ask("PING"), "PONG")
        same(select.select([flood.socket], [], [], 0)[0], [])
        same(flood.reply(), "PONG")
        sender.join()


# Requests with the stand-in's replies to them, or the multiplexer's.
ASKED = [
    (packed("PING"), b"+PONG\r\n"),
    (packed("GET", "a"), b"$-1\r\n"),
    (packed("SET", "a", b"\r\n" * 300), b"+OK\r\n"),
    (b"set a 1\r\n", b"+OK\r\n"),
    (b"get a\n", b"$-1\r\n"),
    (b" \t\r\n*0\r\n", b""),
    (packed("NONE", *"abc"), b"-ERR unknown command\r\n"),
    (packed("MULTI") + packed("SET", "a", "1") + b"exec\r\n", f"{REFUSED}\r\n".encode() * 3),
]


class Wanderer:
    """A client that sends requests at random, in parts, and knows the replies that it has to get."""

    def __init__(self, it, draw):
        self.client, self.draw, asked = it.client(), draw, [draw.choice(ASKED) for _ in range(draw.randrange(1, 150))]
        self.left, self.wanted = b"".join(sent for sent, _ in asked), b"".join(reply for _, reply in asked)

    def goes_on(self):
        """Sends a part, or is gone. Returns whether there is more to send."""
        if self.draw.random() < 0.01:
            how = struct.pack("ii", 1, 0)  # nothing waits to be sent behind its end
            self.client.socket.setsockopt(socket.SOL_SOCKET, socket.SO_LINGER, how)
            self.client.close()
            return False
        size = self.draw.choice((1, 10, 100, 1000))
        self.client.send(self.left[:size])
        self.left = self.left[size:]
        return bool(self.left)

    def ends(self):
        if not self.left:
            self.client.socket.shutdown(socket.SHUT_WR)
            same(self.client.reader.read(), self.wanted)
            self.client.close()


@case("clients that come and go at random: each one that stays gets its own replies, and no other")
def at_random():
    with muxed() as it:
        draw = random.Random(1)
        for _ in range(10):
            there = [Wanderer(it, draw) for _ in range(20)]
            left = list(there)
            while left:
                one = draw.choice(left)
                if not one.goes_on():
                    left.remove(one)
            for one in there:
                one.ends()
        same(len(it.said().splitlines()), 1)


@case("more clients than descriptors: the limit is raised, and clients past it are refused")
def descriptors():
    with muxed(limits="ulimit -Sn 40; ulimit -Hn 64;") as it:
        clients = [it.client() for _ in range(32)]
        same([client.ask("PING") for client in clients], ["PONG"] * 32)
        for _ in range(100):
            late = it.client()
            same(late.reply(), "-ERR max number of clients reached")
            same(late.reader.read(), b"")
            late.close()
        same([client.ask("PING") for client in clients], ["PONG"] * 32)
        clients[0].close()
        same(clients[1].ask("PING"), "PONG")
        same(it.client().ask("PING"), "PONG")
        same(it.said(), f"redis-mux: listening on 127.0.0.1:{it.port}\n")


@case("a socket in the file system is its owner's alone")
def in_file_system():
    with tempfile.TemporaryDirectory() as room:
        path = f"{room}/socket"
        with socket.socket(socket.AF_UNIX) as left:
            left.bind(path)
        with muxed("--unix", path) as it:
            same(it.said(), f"redis-mux: listening on 127.0.0.1:{it.port} and {path}\n")
            same(stat.filemode(os.stat(path).st_mode), "srwx------")
            same([Connected(path, SOON).ask("PING"), it.client().ask("PING")], ["PONG", "PONG"])
            ended = subprocess.run([MUX, "--unix", path, "0", "true"], capture_output=True, text=True, timeout=SOON)
            same((ended.returncode, ended.stderr), (1, f"redis-mux: {path}: Address already in use\n"))
            same(Connected(path, SOON).ask("PING"), "PONG")
        assert not os.path.exists(path)
        words = [MUX, "--unix", path, "0", sys.executable, str(HERE / "stand_in.py"), f"{room}/log"]
        alone = subprocess.Popen(words, stderr=subprocess.PIPE, text=True)
        try:
            same(alone.stderr.readline(), f"redis-mux: listening on {path}\n")
            same(Connected(path, SOON).ask("PING"), "PONG")
            alone.send_signal(signal.SIGTERM)
            same((alone.communicate(timeout=SOON)[1], alone.returncode), ("", 0))
        finally:
            alone.kill()


# Answers each read of its input with one write, a while later, and notes how many requests it had.
IN_TURNS = """
import os, sys, time
with open(sys.argv[1], "w", buffering=1) as log:
    print("pid", os.getpid(), file=log)
    while asked := os.read(0, 65536):
        time.sleep(0.02)
        os.write(1, b"+PONG\\r\\n" * asked.count(b"PING"))
        print(asked.count(b"PING"), file=log)
    print("end", file=log)
"""


@case("what waits of all clients is passed on together")
def together():
    with muxed(program=[sys.executable, "-c", IN_TURNS]) as it:
        clients = [it.client() for _ in range(50)]
        for _ in range(20):
            for client in clients:
                client.send(packed("PING"))
            same([client.reply() for client in clients], ["PONG"] * 50)
        it.ends()
        turns = [int(line) for line in it.got()[1:-1]]
        same(sum(turns), 1000)
        assert len(turns) < 200, turns


@case("what can't be started is a line, and status 1")
def not_started():
    def ends(lines, *words):
        ended = subprocess.run([MUX, *words], capture_output=True, text=True, timeout=SOON)
        same((ended.returncode, *sorted(ended.stderr.splitlines(True))), (1, *lines))

    with socket.create_server(("127.0.0.1", 0)) as busy:
        port = busy.getsockname()[1]
        ends([f"redis-mux: port {port}: Address already in use\n"], str(port), "true")
    port = str(free_port())
    ends(["redis-mux: /nosuch/program: No such file or directory\n"], port, "/nosuch/program", "serve")
    ends(["redis-mux: /: Permission denied\n"], port, "/")
    listens = f"redis-mux: listening on 127.0.0.1:{port}\n"
    ends([listens, "the folder is in use\n"], port, "sh", "-c", "echo the folder is in use >&2; exit 1")
    with tempfile.TemporaryDirectory() as room:
        ends([f"redis-mux: {room}: Address already in use\n"], "--unix", room, port, "true")
    same(subprocess.run([MUX, "0", "true"], capture_output=True, timeout=SOON).returncode, 2)
    same(subprocess.run([MUX, "--help"], capture_output=True, timeout=SOON).returncode, 0)


if __name__ == "__main__":
    sys.exit(summary())
