#!/usr/bin/env python3
"""A program that answers RESP2 on its standard streams as a store would, and writes what it got into a file, for tests of tools/redis-mux.

    stand_in.py LOG [GATE]

A line of LOG is the first word of a request, in upper case, and the number of its words; the first line is 'pid N', and 'end' is written at the end of
the input. It reads on whether or not it has answered. With GATE it answers nothing before a file of that name is there.
"""
import os
import queue
import sys
import threading
import time

VALUE = b"$65000\r\n%s\r\n" % (b"v" * 65_000)


def requests(stream):
    """The words of each request, which is an array of bulk strings."""
    while line := stream.readline():
        words = []
        for _ in range(int(line[1:])):
            words.append(stream.read(int(stream.readline()[1:])))
            stream.read(2)
        yield words


def reply_to(words):
    name = words[0].upper()
    if name == b"MGET":
        return b"*%d\r\n" % (len(words) - 1) + VALUE * (len(words) - 1)
    return {b"PING": b"+PONG\r\n", b"GET": b"$-1\r\n", b"SET": b"+OK\r\n", b"SAVE": b"+OK\r\n"}.get(name, b"-ERR unknown command\r\n")


def answers(asked, gate):
    while gate and not os.path.exists(gate) and os.path.exists(os.path.dirname(gate)):
        time.sleep(0.01)
    while (words := asked.get()) is not None:
        sys.stdout.buffer.write(reply_to(words))
        if asked.empty():
            sys.stdout.buffer.flush()
    sys.stdout.buffer.flush()


def main(path, gate=None):
    asked = queue.Queue()
    answering = threading.Thread(target=answers, args=(asked, gate))
    answering.start()
    with open(path, "w", buffering=1) as log:
        print("pid", os.getpid(), file=log)
        for words in requests(sys.stdin.buffer):
            print(words[0].upper().decode(errors="replace"), len(words), file=log)
            asked.put(words)
        asked.put(None)
        answering.join()
        print("end", file=log)


main(*sys.argv[1:])
