"""What stands behind the log of the second store, tried without a program: what it makes of a log, and what it answers over a vault of which one call is
refused, each call in turn. And vaults that are wrong by intent: random schedules have to tell each from the right one."""
from contextlib import suppress
from itertools import count

import generate
from store.entries import DELETE, PUT
from store.limits import Limits, Refused
from store.lines import line
from store.log import Frozen, Written, found_in
from store.script import events_of
from store.vault import Vault
from store.world import World
from store.writes import Operation

ONE, TWO = (Operation(PUT, key, b"1") for key in (b"a", b"b"))
# Twice this weighs almost as much as a memtable may.
HALF = (Operation(PUT, b"k", b"v" * 65_000),) * 61
LAST = 2**56 - 1
# What a log is called, its records and the flushed sequence; and how many operations it holds above that and what of them is frozen, or that it is bad.
BAD = "refused BadLog"
LOGS = [
    ("nothing", [], 7, (0, None)),
    ("a write", [Written(1, (ONE, TWO))], 0, (2, None)),
    ("a write that is flushed", [Written(1, (ONE, TWO))], 2, (0, None)),
    ("a write and a freeze", [Written(1, (ONE,)), Frozen(1)], 0, (1, 1)),
    ("a freeze between writes", [Written(3, (ONE,)), Frozen(3), Written(4, (ONE, TWO))], 2, (3, 3)),
    ("a freeze that is flushed, and one that is not", [Written(3, (ONE,)), Frozen(3), Written(4, (ONE,)), Frozen(4)], 3, (1, 4)),
    ("two memtables", [Written(1, HALF), Written(62, HALF), Frozen(122), Written(123, HALF), Written(184, HALF)], 0, (244, 122)),
    ("a write of the last sequence", [Written(LAST, (ONE,))], LAST - 1, (1, None)),
    ("a freeze first", [Frozen(1), Written(2, (ONE,))], 1, BAD),
    ("a freeze alone", [Frozen(1)], 0, BAD),
    ("a write that begins too late", [Written(3, (ONE,))], 1, BAD),
    ("a second write behind a gap", [Written(1, (ONE,)), Written(3, (ONE,))], 0, BAD),
    ("a second write behind a freeze and a gap", [Written(1, (ONE,)), Frozen(1), Written(3, (ONE,))], 0, BAD),
    ("a write twice", [Written(1, (ONE,)), Written(1, (ONE,))], 0, BAD),
    ("a write of which a part is flushed", [Written(1, (ONE, TWO))], 1, BAD),
    ("a freeze in the middle of a write", [Written(1, (ONE, TWO)), Frozen(1)], 0, BAD),
    ("two freezes that are not flushed", [Written(1, (ONE,)), Frozen(1), Written(2, (ONE,)), Frozen(2)], 0, BAD),
    ("one freeze twice", [Written(1, (ONE,)), Frozen(1), Frozen(1)], 0, BAD),
    ("an end before the flushed sequence", [Written(1, (ONE,))], 2, BAD),
    ("more than a memtable", [Written(1, HALF), Written(62, HALF), Written(123, HALF)], 0, BAD),
    ("more than a frozen memtable", [Written(1, HALF), Written(62, HALF), Written(123, HALF), Frozen(183)], 0, BAD),
    ("a write of no operation", [Written(1, ())], 0, BAD),
    ("a write of sequence 0", [Written(0, (ONE,))], 0, BAD),
    ("a write past the last sequence", [Written(LAST, (ONE, TWO))], LAST - 1, BAD),
    ("a freeze at sequence 0", [Written(1, (ONE,)), Frozen(0)], 0, BAD),
    ("too many operations", [Written(1, (ONE,) * 1_001)], 0, BAD),
    ("the longest key", [Written(1, (Operation(PUT, b"k" * 4_096, b"1"),))], 0, (1, None)),
    ("a key that is too long", [Written(1, (Operation(PUT, b"k" * 4_097, b"1"),))], 0, BAD),
    ("operations that are too heavy", [Written(1, HALF + (Operation(DELETE, b"k" * 1_024, b""),) * 40)], 0, BAD),
]


def try_log(records, flushed, wanted):
    """What is wrong with what a log of these records is taken for, or None."""
    try:
        found = found_in(records, flushed)
        told = len(found.operations), found.frozen
    except Refused as it:
        told = f"refused {it.name}"
    return None if told == wanted else f"it is {told}, not {wanted}"


# Vaults of which a call is refused.


DEVICE = "refused Device"
# A script by its events, and the lines that the last of them are answered with.
REFUSED = [
    (
        "merged, trimmed and restarted twice",
        "put a 1, flush, del a, flush, pick 1, deliver 1-6, trim 4, get a, restart c, restart c, show c, get a",
        ["show 6 flushed 2", "none"],
    ),
    (
        "a freeze over a restart",
        "put a 1, freeze, put b 2, restart c, flush, flush, get a, get b",
        ["version 4 flushed 2 file 2", "value 1", "value 2"],
    ),
    (
        "a flush between restarts",
        "put a 1, put b 2, flush, del a, restart c, put c 4, restart c, scan a z 9",
        ["epoch 3 version 4 last 4", "range 2 b=2 c=4"],
    ),
]


def events_in(script):
    return events_of(script.replace(", ", "\n").encode())


def opened(vault):
    """A world over a vault, which is opened once more if that is refused."""
    try:
        return World(Limits(l0=2), vault)
    except Refused:
        return World(Limits(l0=2), vault)


def told(world, event):
    """The lines of an event, which is done once more if the vault refuses it."""
    lines = [line(world.step(event))]
    return lines + [line(world.step(event))] if lines == [DEVICE] else lines


def try_refused(script, wanted):
    """Plays a script with each call of the vault refused in turn, until none is. Says after how many that is, and what is wrong, or None."""
    for calls in count():
        vault = Vault(calls)
        world = opened(vault)
        lines = [told(world, event)[-1] for event in events_in(script)]
        if lines[-len(wanted) :] != wanted:
            return calls, f"with call {calls + 1} refused it ends with {lines[-len(wanted):]}"
        if not vault.failures:
            return calls, None


def try_write():
    """A write that is answered is there after a restart, and one that is refused is not. Says what is wrong, or None."""
    write, restart, get = events_in("put a 1, restart c, get a")
    for calls in count():
        vault = Vault(calls)
        world = opened(vault)
        written = line(world.step(write))
        told(world, restart)
        found = line(world.step(get))
        if found != {"seq 1": "value 1", DEVICE: "none"}[written]:
            return f"with call {calls + 1} refused a write is answered {written!r}, and a get after a restart {found!r}"
        if not vault.failures:
            return None


# Vaults that are wrong.


class ForgetsFreezes(Vault):
    """loses the freezes of its log"""

    is_right = False

    def append_log(self, logged):
        self.call()
        self.log += [logged] if isinstance(logged, Written) else []


class CutsOneLess(Vault):
    """cuts a record less of its log"""

    is_right = False

    def cut_log(self, count):
        super().cut_log(max(count - 1, 0))


class CutsOneMore(Vault):
    """cuts a record more of its log"""

    is_right = False

    def cut_log(self, count):
        super().cut_log(count + 1)


class ForgetsTheLog(Vault):
    """loses its log at a stop"""

    is_right = False

    def read(self, what):
        found = super().read(what)
        return [] if what is self.log else found


WRONG = [ForgetsFreezes, CutsOneLess, CutsOneMore, ForgetsTheLog]


def differs(schedule, vault):
    """Whether an event of a schedule is answered otherwise over this vault. A store that can't go on has not answered."""
    world = World(schedule.limits, vault)
    with suppress(AssertionError):
        return any(line(world.step(event)) != wanted for event, wanted in zip(events_of(schedule.text), schedule.lines))
    return False


def first_to_differ(wrong, given):
    """The first of the random schedules that tells a wrong vault from a right one, or None."""
    schedules = generate.schedules(given.seed, given.count, given.length, given.commands)
    return next((it for it in schedules if differs(it, wrong())), None)


def tried(given):
    """Tries all, and gives of each what it is, and what is wrong with it, or None."""
    for name, records, flushed, wanted in LOGS:
        yield f"a log of {name}", try_log(records, flushed, wanted)
    for name, script, wanted in REFUSED:
        calls, wrong = try_refused(script, wanted)
        yield f"each of {calls} calls of a vault refused: {name}", wrong
    yield "each call of a vault refused: a write that is answered is there after a restart, and no other", try_write()
    for wrong in WRONG:
        schedule = first_to_differ(wrong, given)
        seen = f"schedule {schedule.name} tells" if schedule else "no schedule tells"
        yield f"a vault that {wrong.__doc__}: {seen}", None if schedule else "it is as a right one"
