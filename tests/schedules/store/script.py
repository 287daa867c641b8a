"""Scripts: lines of words, each line an event, or for a range of deliveries several."""
import re

from . import events
from .claims import Name
from .entries import DELETE, PUT
from .limits import DELIVERIES, NODES
from .writes import Operation


class Fault(Exception):
    """What is wrong with a line."""


class ScriptFault(Exception):
    """The first faulty line of a script, counted from 1, and what is wrong with it."""

    def __init__(self, line, reason):
        super().__init__(f"line {line}: {reason}")


def fault_if(condition, reason):
    if condition:
        raise Fault(reason)


def events_of(script):
    """All events of a script, which is bytes."""
    found = []
    for line, text in enumerate(script.split(b"\n"), 1):
        try:
            found += events_of_line(text)
        except Fault as it:
            raise ScriptFault(line, it) from None
    return found


def events_of_line(text):
    words = [it for it in re.split(rb"[ \t\r]+", text) if it]
    if not words or words[0].startswith(b"#"):
        return []
    fault_if(words[0] not in COMMANDS, "unknown command")
    counts, read = COMMANDS[words[0]]
    fault_if(counts is not None and len(words) - 1 not in counts, "wrong number of words")
    return read(words[1:])


# Words.


def token(word):
    """The bytes of a key or value word."""
    if word == b'""':
        return b""
    fault_if(not re.fullmatch(rb"(%[0-9a-fA-F]{2}|[!-$&-~])+", word), "bad token")
    return re.sub(rb"%(..)", lambda it: bytes.fromhex(it[1].decode()), word)


def number(word, reason="bad number"):
    fault_if(not re.fullmatch(rb"[0-9]{1,20}", word) or int(word) >= 2**64, reason)
    return int(word)


def index(word, reason="bad number"):
    """The number of a dispatcher, worker or follower."""
    found = number(word, reason)
    fault_if(not 1 <= found <= NODES, reason)
    return found


def name(word):
    parts = word.split(b".")
    fault_if(len(parts) != 2, "bad name")
    return Name(*(number(it, "bad name") for it in parts))


def snapshot(words):
    """A snapshot's name after `@`, or None if there is no word."""
    if not words:
        return None
    fault_if(not words[0].startswith(b"@"), "bad name")
    return name(words[0][1:])


def node(word):
    """A node's letter, with the number of one that is not the coordinator."""
    if word == b"c":
        return "c", None
    fault_if(word[:1] not in (b"w", b"f"), "bad name")
    return word[:1].decode(), index(word[1:], "bad name")


# Commands.


def operation(words, at):
    """The operation that begins at a word, and where the next one begins."""
    fault_if(words[at] not in (b"put", b"del"), "bad name")
    fault_if(at + 1 == len(words), "wrong number of words")
    key = token(words[at + 1])
    if words[at] == b"del":
        return Operation(DELETE, key, b""), at + 2
    fault_if(at + 2 == len(words), "wrong number of words")
    return Operation(PUT, key, token(words[at + 2])), at + 3


def batch(words):
    operations, at = [], 0
    while at < len(words):
        it, at = operation(words, at)
        operations.append(it)
    return [events.Write(tuple(operations))]


def put(words):
    return batch([b"put", *words])


def delete(words):
    return batch([b"del", *words])


def get(words):
    return [events.Get(token(words[0]), snapshot(words[1:]))]


def scan(words):
    return [events.Scan(token(words[0]), token(words[1]), number(words[2]), snapshot(words[3:]))]


def deliver(words):
    """One delivery, or those of a range of numbers in turn."""
    parts = words[0].split(b"-")
    fault_if(len(parts) > 2, "bad number")
    numbers = [number(it) for it in parts]
    first, last = numbers[0], numbers[-1]
    fault_if(not 0 <= last - first < DELIVERIES, "bad number")
    return [events.Deliver(it) for it in range(first, last + 1)]


def restart(words):
    role, which = node(words[0])
    if role == "c":
        return [events.RestartCoordinator()]
    return [events.RestartWorker(which) if role == "w" else events.RestartFollower(which)]


def show(words):
    role, which = node(words[0])
    fault_if(role == "w", "bad name")
    return [events.Show() if role == "c" else events.ShowFollower(which)]


# Of each command how many words may follow it (any number if None), and what reads them.
COMMANDS = {
    b"put": ({2}, put),
    b"del": ({1}, delete),
    b"batch": (None, batch),
    b"freeze": ({0}, lambda _: [events.Freeze()]),
    b"flush": ({0}, lambda _: [events.Flush()]),
    b"snap": ({0}, lambda _: [events.Snap()]),
    b"release": ({1}, lambda words: [events.Release(name(words[0]))]),
    b"get": ({1, 2}, get),
    b"scan": ({3, 4}, scan),
    b"pick": ({1}, lambda words: [events.Pick(index(words[0]))]),
    b"giveup": ({1}, lambda words: [events.GiveUp(index(words[0]))]),
    b"deliver": ({1}, deliver),
    b"restart": ({1}, restart),
    b"show": ({1}, show),
    b"ask": ({1}, lambda words: [events.Ask(index(words[0]))]),
    b"read": ({2}, lambda words: [events.Read(index(words[0]), token(words[1]))]),
    b"trim": ({1}, lambda words: [events.Trim(number(words[0]))]),
}
