#!/usr/bin/env python3
"""Runs scripts with allocations of the program failing, beside the model.

Usage: tests/schedules/memory.py PROGRAM LIBRARY [--random N [SEED]] [--stats]

LIBRARY is built of tests/fail.c, and preloaded. Each reply is the model's; but an event in which an allocation failed may be refused for want of memory,
and leaves then what the model says of that, or lose the messages that it sends; or the program stops with what it printed so far. At the end of each
script all claims are given back, each as the model has it: the live ones are those of this epoch that a dispatcher holds.

Worked scripts are run with each allocation failing in turn, as they are and with a restart of the coordinator in their middle and at their end. An event
that was refused is then done twice in a run of its own: it is refused as before, and then as the model has it.
With --random it is so many random schedules, in each of which an allocation fails in one event, two or three. Half of these events are done twice.
Prints what is wrong, if anything is, and with --stats what was seen."""
import argparse
import bisect
import itertools
import os
import random
import subprocess
import sys
import tempfile
from collections import Counter
from typing import NamedTuple

sys.dont_write_bytecode = True
import generate
import rows
from store import events
from store.limits import Limits
from store.lines import line
from store.refusals import worlds_after
from store.script import events_of_line
from store.world import World

SCRIPTS = {"a_snapshot_after_a_pick.lsm", "two_jobs_run_at_once.lsm", "a_follower_takes_a_full_version.lsm", "a_file_is_gone_after_a_trim.lsm"}
RESTART = b"restart c"
# All claims are given back, and the store is asked once more.
END = [*(f"giveup {it}".encode() for it in (1, 2, 3, 4)), b"show c", b"get a"]
REFUSED, DOWN = "refused OutOfMemory", "refused Down"
# Events of a random schedule, of which some have four times as many.
LENGTH = 40


def events_in(script):
    """The lines of a script, each of one event."""
    for text in script.split(b"\n"):
        for event in events_of_line(text):
            yield b"deliver %d" % event.message if isinstance(event, events.Deliver) else text


def event_of(text):
    (event,) = events_of_line(text)
    return event


def limits_of(options):
    return Limits(**dict(zip((it.lstrip("-") for it in options[::2]), map(int, options[1::2]))))


class Found(NamedTuple):
    """What a run printed, how it ended, and how many allocations it asked for."""

    lines: list
    error: str
    status: int
    asked: int


class Program:
    def __init__(self, path, library, folder):
        self.path, self.library = path, library
        self.script, self.told = (os.path.join(folder, it) for it in ("script", "allocations"))
        self.readings = {}

    def run(self, options, script, fails=(), last=b"#"):
        """Runs a script with allocations of these numbers failing. It comes from a file, since the pieces in which a pipe gives a large one, and so the
        allocations for them, are not the same each time."""
        environment = {**os.environ, "FAIL_AT": ",".join(map(str, fails)), "ALLOCATIONS": self.told, "LD_PRELOAD": self.library}
        with open(self.script, "wb") as text:
            text.write(b"\n".join([*script, last, b""]))
        with open(self.script, "rb") as text:
            ended = subprocess.run([self.path, "run", *options], stdin=text, capture_output=True, env=environment, timeout=180, check=False)
        with open(self.told, encoding="ascii") as asked:
            return Found(ended.stdout.decode().splitlines(), ended.stderr.decode(), ended.returncode, int(asked.read()))

    def reading(self, options, script):
        """How many allocations the program asks for before its first event, and a few that are the same for each script: it asks for no others if the
        last line is faulty."""
        read = (*options, *script)
        if read not in self.readings:
            self.readings[read] = self.run(options, script, last=b"x").asked
        return self.readings[read]

    def happen(self, options, script, fails=()):
        """Runs a script with allocations of these numbers failing, as counted after its reading."""
        reading = self.reading(options, script)
        found = self.run(options, script, [reading + it for it in fails])
        return found._replace(asked=found.asked - reading)


def fault_of(found, options, script, places, seen):
    """The first line that the model does not have, or None. Only the events at these places may lack memory."""
    worlds = [World(limits_of(options))]
    for place, (text, told) in enumerate(zip(script, found.lines)):
        event, is_lost = event_of(text), told.endswith(" lost")
        if (told == REFUSED or is_lost) and place not in places:
            return f"line {place + 1} is {told!r}, and no allocation failed in it"
        if told == REFUSED:
            worlds = [it for world in worlds for it in worlds_after(world, event)]
        else:
            replies = [line(it.step(event, loses=is_lost)) for it in worlds]
            worlds = [it for it, reply in zip(worlds, replies) if reply == told]
            if not worlds:
                return f"line {place + 1} is {told!r}, not {replies[0]!r}"
        if told in (REFUSED, DOWN) or is_lost:
            seen[f"{type(event).__name__} {'lost' if is_lost else told}"] += 1
    is_whole = found.status == 0 and len(found.lines) == len(script) and not found.error
    is_stopped = found.status == 1 and len(found.lines) <= len(script) and found.error == "out of memory\n"
    seen["runs that stopped"] += is_stopped
    return None if is_whole or is_stopped else f"status {found.status} after {len(found.lines)} lines: {found.error!r}"


# Worked scripts.


def try_twice(program, options, script, fails, place, seen):
    """What is wrong with a script whose event of this place, which was refused, is done twice, or None."""
    twice = [*script[: place + 1], *script[place:]]
    found = program.happen(options, twice, fails)
    if found.lines[place : place + 1] != [REFUSED]:
        return "not refused if it is done twice"
    return fault_of(found, options, twice, [place], seen)


def try_script(program, options, script, seen):
    """What is wrong with a script, or None."""
    # After how many allocations the next event begins.
    ends = [program.happen(options, script[: place + 1]).asked for place in range(len(script))]
    for at in range(1 - program.reading(options, script), ends[-1] + 1):
        place = bisect.bisect_left(ends, at)
        found = program.happen(options, script, [at])
        told = fault_of(found, options, script, [place], seen)
        if told is None and REFUSED in found.lines:
            told = try_twice(program, options, script, [at], place, seen)
        if told is not None:
            return f"allocation {at} after the reading: {told}"
    return None if ends[-1] > 100 else f"only {ends[-1]} allocations"


def try_rows(program, seen):
    """What is wrong with the worked scripts, as they are and with restarts."""
    tried = [it for folder in (rows.FOLDER, rows.FOLLOWERS) for it in rows.stored(folder) if it.name in SCRIPTS]
    assert len(tried) == len(SCRIPTS)
    for row in tried:
        script = list(events_in(row.script))
        middle = len(script) // 2
        for where, before, after in ("", script, []), ("in its middle", script[:middle], [RESTART, *script[middle:]]), ("at its end", script, [RESTART]):
            of_this = Counter()
            told = try_script(program, row.options, [*before, *after, *END], of_this)
            if told is None and where and not any(it.endswith(DOWN) for it in of_this):
                told = "the coordinator is never down"
            if told is not None:
                yield f"{row.name}{', a restart ' if where else ''}{where}: {told}"
            seen += of_this


# Random schedules.


def chosen_places(choices, script):
    """The places of one event, two or three: each any one, or any one of some kind."""
    kinds = {}
    for place, text in enumerate(script):
        kinds.setdefault(type(event_of(text)), []).append(place)
    for _ in range(choices.randint(1, 3)):
        yield choices.choice(choices.choice([list(range(len(script))), choices.choice(list(kinds.values()))]))


def chosen_allocation(program, choices, options, script, place, fails):
    """The number of an allocation that the event of a place asks for, and whose failure does not end the program; in a list, which may be empty."""
    before, after = (program.happen(options, script[:it], fails).asked for it in (place, place + 1))
    numbers = list(range(before + 1, after + 1))
    choices.shuffle(numbers)
    lasting = (it for it in numbers if program.happen(options, script[: place + 1], [*fails, it]).status == 0)
    return list(itertools.islice(lasting, 1))


def try_schedule(program, schedule, choices, seen):
    """What is wrong with a random schedule, or None."""
    options, script = schedule.options, list(events_in(schedule.text))
    chosen = set(chosen_places(choices, script))
    twice = {it for it in chosen if choices.random() < 0.5}
    script = [it for place, text in enumerate(script) for it in ([text] * 2 if place in twice else [text])] + END
    fails, places = [], []
    for place in (it + sum(other < it for other in twice) for it in sorted(chosen)):
        for number in chosen_allocation(program, choices, options, script, place, fails):
            fails, places = [*fails, number], [*places, place]
    told = fault_of(program.happen(options, script, fails), options, script, places, seen)
    seen["failed allocations"] += len(fails)
    return told and f"allocations {fails} after the reading: {told}"


def try_random(program, count, seed, seen):
    """What is wrong with the first random schedule with which anything is."""
    for schedule in generate.schedules(seed, count, LENGTH, "all"):
        seen["schedules"] += 1
        told = try_schedule(program, schedule, random.Random(f"{schedule.name} memory"), seen)
        if told is not None:
            yield f"schedule {schedule.name}, {' '.join(schedule.options)}: {told}\n{schedule.text.decode('latin-1')}"
            return


def main():
    arguments = argparse.ArgumentParser(description=__doc__.splitlines()[0])
    arguments.add_argument("program", metavar="PROGRAM")
    arguments.add_argument("library", metavar="LIBRARY")
    arguments.add_argument("--random", metavar=("N", "SEED"), nargs="+", type=int)
    arguments.add_argument("--stats", action="store_true")
    given = arguments.parse_args()
    seen = Counter()
    with tempfile.TemporaryDirectory() as folder:
        program = Program(os.path.abspath(given.program), os.path.abspath(given.library), folder)
        count, seed = [*(given.random or [0]), 1][:2]
        wrong = list(try_random(program, count, seed, seen) if given.random else try_rows(program, seen))
    print(*wrong, sep="\n", end="\n" if wrong else "")
    if given.stats:
        print(*(f"{number:8} {what}" for what, number in sorted(seen.items()) if number), sep="\n")
    return 1 if wrong else 0


if __name__ == "__main__":
    sys.exit(main())
