#!/usr/bin/env python3
"""Makes random schedules: scripts of writes, reads, picks and deliveries, each with the lines that the model prints for it.

Usage: tests/schedules/generate.py [--seed S] [--count N] [--length EVENTS] [--commands all|schedules|writes] [--stats | --cases FOLDER]

Prints the scripts, each after a comment with its name and options; or with --stats how often each kind of reply occurs; or with
--cases writes NAME, NAME.args and NAME.stdout into a folder, as 'rt try --cases FOLDER -- run' takes them. The same seed, length and
commands make the same schedules."""
import argparse
import os
import random
import sys
from collections import Counter

sys.dont_write_bytecode = True
from kinds import kind_of, what_it_meets
from store import events
from store.limits import Limits
from store.lines import dotted, line
from store.messages import Ask, Base, Job
from store.picker import pick
from store.script import events_of_line
from store.versions import Edit
from store.world import World

# With few files and bytes to a level, merges go deep within a short schedule.
LIMITS = [(1, 1), (1, 1), (1, 48), (1, 100), (1, 10_485_760), (2, 1), (2, 60), (2, 10_485_760), (3, 200), (4, 10_485_760)]
KEYS = ["a", "b", "c", "d", "m", "n", "z", "aa", "a%00", "%00", "%FF", "x%25", "~"]
# The longest key of version 1 of tables and messages, the shortest that needs version 2, and the longest of all.
LONG_KEYS = ["a" * 1_024, "a" * 1_025, "m" * 4_096]
# How often each command is tried, of those that a script has in common with a store without jobs, of those that it has in common with a
# store without followers, and of all.
WRITES = {"put": 12, "del": 6, "batch": 3, "freeze": 2, "flush": 11, "snap": 2, "release": 2, "get": 6, "scan": 3, "show": 2}
SCHEDULES = {**WRITES, "pick": 10, "giveup": 3, "deliver": 44, "restart_worker": 1, "restart_coordinator": 0.7}
ALL = {**SCHEDULES, "ask": 9, "read": 8, "show_follower": 3, "restart_follower": 1, "trim": 2, "deliver": 60}
COMMANDS = {"all": ALL, "schedules": SCHEDULES, "writes": WRITES}
# How a delivery chooses its message, and how likely it loses one of the undelivered ones, in a bad and in a good network.
BAD = {"oldest": 10, "several": 6, "newest": 2, "any": 3, "again": 4, "unsent": 0.4}, 0.03
GOOD = {"oldest": 10, "several": 20, "newest": 0.5, "any": 0.5, "again": 0.5, "unsent": 0.1}, 0
# Of so many schedules one has values so large that batches and memtables are full and outputs are cut.
ONE_IN_LARGE = 60
# Of so many one is four times as long, so that files go through several levels.
ONE_IN_LONG = 4
# Of so many one has long keys beside others.
ONE_IN_LONG_KEYS = 4
# Words that mostly make a faulty line of a sound one.
JUNK = ["x", "0", "1", "4", "5", "04", "-1", "1-", "-", "1-3", "3-1", "1-1001", "18446744073709551615", "18446744073709551616", "0" * 21]
JUNK += ["1.1", "1.", "1.x", "@1.1", "@", "%", "%zz", "%41", '""', '"', "\x0b", "\x7f", "\xff"]
JUNK += ["c", "w1", "w5", "f1", "f0", "put", "del", "get", "#"]


class Schedule:
    """One script, made while the model runs it: a delivery needs the numbers of the messages that are there."""

    def __init__(self, seed, index, length, commands):
        self.name = f"{seed}.{index}"
        self.random = random.Random(f"{self.name} {length} {commands}")
        self.limits = Limits(*self.random.choice(LIMITS))
        self.is_large = self.random.randrange(ONE_IN_LARGE) == 0
        self.keys = [f"k{it:02d}" for it in range(40)] if self.is_large else self.random.sample(KEYS, self.random.randint(1, 6))
        if not self.is_large and self.random.randrange(ONE_IN_LONG_KEYS) == 0:
            self.keys += self.random.sample(LONG_KEYS, self.random.randint(1, 2))
        self.near = self.random.choice(self.keys)
        self.weights = {it: weight * self.random.choice((0.5, 1, 1, 2)) for it, weight in COMMANDS[commands].items()}
        self.weights.update({"put": 1, "del": 1, "batch": 6, "get": 2, "scan": 1} if self.is_large else {})
        self.world, self.script, self.lines, self.kinds = World(self.limits), [], [], Counter()
        self.undelivered, self.snapshots = [], []
        self.deliveries, self.loss = self.random.choice((BAD, GOOD))
        # Most of what followers do is done by these: the fewer they are, the further they come.
        self.followers = self.random.choice(([1], [1, 2], [1, 2, 3, 4]))
        self.eager = self.random.choice((0.5, 3))
        is_long = not self.is_large and self.random.randrange(ONE_IN_LONG) == 0
        while len(self.lines) < (4 * length if is_long else length):
            self.run(getattr(self, self.chosen(self.weights_now()))())

    @property
    def options(self):
        return ["--l0", str(self.limits.l0), "--base", str(self.limits.base)]

    @property
    def text(self):
        return "".join(it + "\n" for it in self.script).encode()

    @property
    def wanted(self):
        return "".join(it + "\n" for it in self.lines)

    def spoilt(self):
        """The script with a word of some line replaced, left out or added."""
        lines = self.script.copy()
        at = self.random.randrange(len(lines))
        words = lines[at].split()
        where = self.random.randrange(len(words)) if self.random.random() < 0.3 else len(words) - 1
        old, new = self.random.choice(((1, 1), (1, 1), (1, 1), (1, 0), (0, 1)))
        words[where : where + old] = self.random.sample(JUNK, new)
        lines[at] = " ".join(words)
        return "\n".join(lines).encode("latin-1")

    def run(self, text):
        self.script.append(text)
        for event in events_of_line(text.encode()):
            sent = len(self.world.messages)
            met = what_it_meets(self.world, event)
            reply = self.world.step(event)
            self.lines.append(line(reply))
            self.kinds[kind_of(event, met, reply)] += 1
            self.snapshots += [dotted(reply.name)] if isinstance(reply, events.Snapped) else []
            self.undelivered += range(sent + 1, len(self.world.messages) + 1)
            if isinstance(event, events.Deliver) and event.message in self.undelivered:
                self.undelivered.remove(event.message)

    # Choices.

    def weights_now(self):
        """The weights of commands, less for one that would do nothing now, and more for a pick that would give a job, for a trim while a
        follower waits for tables, and for a restart while something is frozen."""
        store, is_held = self.world.coordinator, any(self.world.held.values())
        followers = self.world.followers.values()
        has_moved, is_waiting = any(it.version.flushed for it in followers), any(it.target for it in followers)
        factors = {
            "flush": 1 if store.last > store.version.flushed else 0.1,
            "freeze": 1 if store.active() else 0.3,
            "release": 1 if store.snapshots else 0.3,
            "pick": self.eager if pick(store.version, store.book, store.limits) else 0.2,
            "giveup": 1 if is_held else 0.2,
            "deliver": 1 if self.undelivered else 0.1,
            "restart_coordinator": 4 if store.frozen is not None else 1 if is_held or store.active() else 0.2,
            "read": 1 if has_moved else 0.2,
            "restart_follower": 1 if has_moved else 0.2,
            "trim": 0.3 if store.version.number == store.floor else 3 if is_waiting else 1,
        }
        return {it: weight * factors.get(it, 1) for it, weight in self.weights.items()}

    def chosen(self, weights):
        return self.random.choices(list(weights), list(weights.values()))[0]

    def often(self, likely, others):
        """Mostly one of the likely ones, if there is any."""
        return self.random.choice(likely if likely and self.random.random() < 0.75 else others)

    def key(self):
        """A key: mostly near the last ones, so that several jobs with no key in common can run."""
        if self.random.random() < 0.005:
            return self.random.choice(['""', "k" * 4_096, "k" * 4_097])
        return self.near if self.random.random() < 0.6 and not self.is_large else self.random.choice(self.keys)

    def value(self):
        if self.is_large:
            return "v" * self.random.choice((1, 65_536, 65_536, 65_536))
        if self.random.random() < 0.002:
            return "v" * 65_537
        return self.random.choice(['""', "%0a", "=", "x" * self.random.randint(1, 60)] + 12 * [str(self.world.coordinator.last + 1)])

    def at(self):
        """Where a read is asked: mostly at present."""
        return f" @{self.snapshot()}" if self.random.random() < (0.6 if self.world.coordinator.snapshots else 0.1) else ""

    def snapshot(self):
        """The name of a live one, or of any that was made, or of none."""
        store = self.world.coordinator
        epoch, made = store.version.epoch, store.snapshots_made
        return self.often([dotted(it) for it in store.snapshots], [*self.snapshots, f"{epoch}.{made + 1}", f"{epoch + 1}.1", "0.0"])

    def dispatcher(self, is_busy):
        likely = [it for it, held in self.world.held.items() if (held is not None) == is_busy]
        return self.often(likely, list(self.world.held))

    # Commands.

    def put(self):
        return f"put {self.key()} {self.value()}"

    def delete(self):
        return f"del {self.key()}"

    def batch(self):
        operations = self.random.choice((20, 30, 40)) if self.is_large else self.random.choice((0, 1, 2, 2, 3, 5))
        return " ".join(["batch"] + [self.random.choice((self.put, self.put, self.delete))() for _ in range(operations)])

    def freeze(self):
        return "freeze"

    def flush(self):
        self.near = self.random.choice(self.keys)
        return "flush"

    def snap(self):
        return "snap"

    def release(self):
        return f"release {self.snapshot()}"

    def get(self):
        return f"get {self.key()}{self.at()}"

    def scan(self):
        low, high = self.often(['""'], self.keys), self.often(["~~"], [*self.keys, '""'])
        return f"scan {low} {high} {self.random.choice((0, 1, 2) if self.is_large else (0, 1, 2, 10, 2**64 - 1))}{self.at()}"

    def show(self):
        return "show c"

    def pick(self):
        return f"pick {self.dispatcher(is_busy=False)}"

    def giveup(self):
        return f"giveup {self.dispatcher(is_busy=True)}"

    def restart_worker(self):
        return f"restart w{self.random.randint(1, 4)}"

    def restart_coordinator(self):
        return "restart c"

    def follower(self):
        return self.often(self.followers, list(self.world.followers))

    def ask(self):
        return f"ask {self.follower()}"

    def read(self):
        return f"read {self.follower()} {self.key()}"

    def show_follower(self):
        return f"show f{self.follower()}"

    def restart_follower(self):
        return f"restart f{self.follower()}"

    def trim(self):
        """At the current version, near it, above it, or anywhere below."""
        current = self.world.coordinator.version.number
        return f"trim {self.random.choice((current, max(current - self.random.randint(1, 3), 0), self.random.randint(0, current), current + 1))}"

    def deliver(self):
        """In order, out of order, again, before it was sent; and what is lost is mostly never delivered."""
        sent, waiting = len(self.world.messages), self.undelivered
        if waiting and self.random.random() < self.loss:
            waiting.pop(self.random.randrange(len(waiting)))
        how = self.chosen(self.deliveries)
        if how == "unsent" or not sent:
            return f"deliver {self.random.choice((0, sent + 1, sent + 2, 2**64 - 1))}"
        if how == "again" or not waiting:
            first = [number for number, it in enumerate(self.world.messages, 1) if isinstance(it.body, (Job, Ask, Edit, Base))]
            return f"deliver {self.random.choice((self.random.choice(first), self.random.randint(1, sent)))}"
        if how == "several":
            return f"deliver {waiting[0]}-{min(waiting[0] + self.random.randint(0, 6), sent + 1)}"
        return f"deliver {dict(oldest=waiting[0], newest=waiting[-1], any=self.random.choice(waiting))[how]}"


setattr(Schedule, "del", Schedule.delete)


def schedules(seed, count, length, commands):
    return (Schedule(seed, index, length, commands) for index in range(1, count + 1))


def add_arguments(arguments, count=1):
    arguments.add_argument("--seed", type=int, default=1)
    arguments.add_argument("--count", type=int, default=count)
    arguments.add_argument("--length", type=int, default=60, help="events of a schedule; some have four times as many")
    arguments.add_argument("--commands", choices=sorted(COMMANDS), default="all")


def write_case(folder, it):
    arguments = "".join(f"{word}\n" for word in it.options)
    for end, text in (("", it.text), (".args", arguments.encode()), (".stdout", it.wanted.encode())):
        with open(os.path.join(folder, f"schedule-{it.name}{end}"), "wb") as file:
            file.write(text)


def main():
    arguments = argparse.ArgumentParser(description=__doc__.splitlines()[0])
    add_arguments(arguments)
    arguments.add_argument("--stats", action="store_true")
    arguments.add_argument("--cases", metavar="FOLDER")
    given = arguments.parse_args()
    kinds = Counter()
    for it in schedules(given.seed, given.count, given.length, given.commands):
        kinds += it.kinds
        if given.cases:
            write_case(given.cases, it)
        elif not given.stats:
            print(f"# {' '.join(it.options)}\n# schedule {it.name}\n{it.text.decode()}", end="")
    if given.stats:
        for kind, count in sorted(kinds.items()):
            print(f"{count:8} {kind}")


if __name__ == "__main__":
    main()
