"""Stops and failures in the middle of a log's changes, and what is lost of it in each way of sync.

A session answers once it has synced its log, and cuts a part of it only after a freeze. So tests of lsm_file_vault_tests are run, one for each way of sync:
each opens a folder, appends, cuts and syncs as CHANGES has it or SYNCED, prints for each whether it was made, and opens the folder again. It is stopped at
each of its calls that change files, each such call fails in turn, and after a failure it is stopped too, in each way that crash.c knows. What the next
opening finds is what the changes leave that were made, but for those that LOST names; one that was refused, or not answered, may be there or not, also
behind a sync that is made: a refused cut may have cut its records off. A sync of the log that fails and a process that ends at once leave records that are
read and not on the disk: if an opening has found them, they outlive a stop.
"""
import ast
import itertools
import os
import pathlib
import re
import shutil
import subprocess
import tempfile

from losses import KILL, POWER_CUT, takes_last_ones
from stores import PATIENCE, SYNCS, TOP, Wrong

TESTS = TOP / "crates/lsm_file_vault_tests/out/lsm_file_vault_tests_tests"
SYNC = None
# A record that is appended, how many are cut off, or a sync.
CHANGES = [9, "one", "two", "three", 1, "four", 9, "five", "six", 1, "seven"]
SYNCED = [9, "one", "two", SYNC, "three", 1, "four", SYNC, 9, "five", "six", 1, "seven", SYNC, SYNC]
# Of each way of sync: the test, its folder, its changes.
TESTED = {
    "each": ("tests::a_log_is_changed", "lsm_file_vault_changes", CHANGES),
    "asked": ("tests::a_log_is_changed_and_synced_when_asked", "lsm_file_vault_changes_asked", SYNCED),
    "gathered": ("tests::a_log_is_changed_and_gathered", "lsm_file_vault_changes_gathered", SYNCED),
}
# Which stops may take records that were appended since the last sync or cut, the last ones, from some record on. No stop takes another record.
LOST = {sync: takes_last_ones(sync) for sync in SYNCS}
WAYS = ("kept", "lost", "names", "contents", "mixed")
# Those that leave all that was written, as the end of a process does.
KILLS = ("kept", "half")
ANSWER = re.compile(r"(found \[.*\]|done|refused)$")
ALWAYS = 1_000_000


def asked(sync, room, shim=None, **ways):
    """What the test of a way of sync prints in a folder of its own: what it finds, and how each change ended."""
    name, folder, _ = TESTED[sync]
    env = dict(os.environ)
    if ways:
        env |= {"LD_PRELOAD": str(shim), "CRASH_FOLDER": folder} | {k: str(v) for k, v in ways.items()}
    done = subprocess.run([TESTS, name], cwd=room, env=env, stdout=subprocess.PIPE, stderr=subprocess.STDOUT, timeout=PATIENCE)
    lines = (ANSWER.search(it) for it in done.stdout.decode(errors="replace").splitlines())
    return done.returncode, [it[1] for it in lines if it]


def found_in(line):
    """The records that were found, in their order."""
    text = bytes(ast.literal_eval(line.removeprefix("found "))).decode()
    return tuple(text.split(",")[1:])


def after(log, change):
    return log if change is SYNC else log[change:] if isinstance(change, int) else (*log, change)


def may_hold(sync, answers, loses, held=()):
    """The logs that the next opening may find after an opening that found the one that is held, and these answers, the last one perhaps to come. `loses`
    tells whether what was not synced may be lost."""
    # What it may find if nothing is lost, and if something is.
    whole = may = {held}
    for change, answer in itertools.zip_longest(TESTED[sync][2], answers):
        if answer == "done" and change is SYNC:
            # Nothing that was appended is lost, and what was refused may still be there, or be cut off, or not.
            may = whole
        elif answer == "done":
            held = after(held, change)
            whole = {held}
            may = may | whole if loses and isinstance(change, str) else whole
        else:
            more = {after(it, change) for it in whole}
            whole, may = whole | more, may | more
        if answer is None:
            break
    return may


def parted(lines):
    """What was found, and how the changes ended."""
    return [found_in(it) for it in lines if it.startswith("found")], [it for it in lines if not it.startswith("found")]


def found_next(sync, room):
    """What a run finds that is neither stopped nor fails."""
    status, lines = asked(sync, room)
    if status != 0 or lines[1:-1] != ["done"] * len(TESTED[sync][2]):
        raise Wrong(f"the next run has status {status}, and prints {lines}")
    return found_in(lines[0])


def loses(sync, ways):
    """Whether a run may lose what was not synced: by its stop, or by its end, at which its vault is let go as that of a killed process."""
    is_power_cut = "CRASH_AT" in ways and ways["CRASH_WAY"] not in KILLS
    return (POWER_CUT if is_power_cut else KILL) in LOST[sync]


def try_once(base, shim, sync, ways):
    """A run that is stopped or of which calls fail, and a run after it. Returns what was wrong, and whether a record was lost that was appended."""
    room = pathlib.Path(tempfile.mkdtemp(dir=base))
    try:
        status, lines = asked(sync, room, shim, **ways)
        if status == 0 and len(lines) != len(TESTED[sync][2]) + 2:
            raise Wrong(f"it ends well and prints {lines}")
        founds, answers = parted(lines)
        if founds and founds[0]:
            raise Wrong(f"a new folder has the records {founds[0]}")
        if len(founds) < 2:
            founds.append(found_next(sync, room))
        if founds[-1] not in may_hold(sync, answers, loses(sync, ways)):
            raise Wrong(f"after {answers} the records {founds[-1]} are found")
        return "", founds[-1] not in may_hold(sync, answers, False)
    except Exception as error:
        return f"{ways}: {type(error).__name__} {error}", False
    finally:
        shutil.rmtree(room)


def try_spoilt(base, shim, sync, at):
    """The sync of call `at` fails and the process ends. Then a run over what is read is stopped at each of its calls, the disk without what that sync was
    to bring, and one more finds what that one did. Returns what was wrong."""
    room = pathlib.Path(tempfile.mkdtemp(dir=base))
    left, folder = room / "spoilt", TESTED[sync][1]
    try:
        _, lines = asked(sync, room, shim, FAIL_AT=at, FAIL_ERRNO=5, CRASH_AT=at + 1, CRASH_WAY="kept", CRASH_SPOILT=left, CRASH_SPOILT_OF="log")
        # What is read after it, and what is left if the power goes before anybody has read it.
        may, left_over = (may_hold(sync, parted(lines)[1], stop in LOST[sync]) for stop in (KILL, POWER_CUT))
        for stop in range(1, 100) if left.exists() and (room / folder).exists() else ():
            other = room / f"stop.{stop}"
            other.mkdir()
            shutil.copytree(room / folder, other / folder)
            shutil.copy(left, other)
            _, lines = asked(sync, other, shim, CRASH_AT=stop, CRASH_WAY="lost", CRASH_SPOILT=other / left.name, CRASH_SPOILT_OF="log")
            founds, answers = parted(lines)
            if founds and founds[0] not in may:
                raise Wrong(f"the records {founds[0]} are found, and not of {may}")
            if len(founds) == 2:
                break
            found = found_next(sync, other)
            if found not in (may_hold(sync, answers, POWER_CUT in LOST[sync], founds[0]) if founds else left_over):
                raise Wrong(f"stopped at call {stop}, after {lines}, the records {found} are found")
        return ""
    except Exception as error:
        return f"sync at call {at}: {type(error).__name__} {error}"
    finally:
        shutil.rmtree(room)


def all_ways(kinds):
    for at, kind in enumerate(kinds, 1):
        for way in WAYS + (("half", "torn") if kind == "w" else ()):
            yield dict(CRASH_AT=at, CRASH_WAY=way, CRASH_SEED=at)
        fails = dict(FAIL_AT=at, FAIL_ERRNO=5)
        yield from (fails | dict(FAIL_COUNT=count) for count in (1, 2, 3, ALWAYS))
        if kind == "w":
            yield fails | dict(FAIL_HALF=1)
        for count, more in itertools.product((1, 2, 3), range(4)):
            way = WAYS[(at + count + more) % len(WAYS)]
            yield fails | dict(FAIL_COUNT=count, CRASH_AT=at + count + more, CRASH_WAY=way, CRASH_SEED=at)


def tried_one(pool, base, shim, sync):
    """Tries all of a way of sync, and gives whether it was right, what it is, and why not."""
    what, room = f"the changes of a log, {sync}", pathlib.Path(tempfile.mkdtemp(dir=base))
    tells = room / "tells"
    status, lines = asked(sync, room, shim, CRASH_TELL=tells)
    kinds = tells.read_text().replace("x", "")
    if status != 0 or len(lines) != len(TESTED[sync][2]) + 2:
        return False, what, f"status {status}, {lines}"
    tries = list(all_ways(kinds))
    syncs = [at for at, kind in enumerate(kinds, 1) if kind == "s"]
    done = list(pool.map(try_once, [base] * len(tries), [shim] * len(tries), [sync] * len(tries), tries, chunksize=16))
    wrong = [why for why, _ in done if why]
    wrong += [it for it in pool.map(try_spoilt, [base] * len(syncs), [shim] * len(syncs), [sync] * len(syncs), syncs) if it]
    lost = sum(has_lost for _, has_lost in done)
    if bool(lost) != bool(LOST[sync]):
        wrong.append(f"{lost} stops have lost a record that was appended")
    what = f"{what}: {len(tries)} stops and failures at {len(kinds)} calls, of which {lost} have lost what was not synced"
    return not wrong, what, f"{len(wrong)} wrong; first {wrong[:3]}"


def tried(pool, base, shim):
    """Tries all of each way of sync, and gives of each whether it was right, what it is, and why not."""
    if not TESTS.exists():
        return [(False, "the changes of a log", f"{TESTS} is not there: 'rt test' in crates/lsm_file_vault_tests makes it")]
    return [tried_one(pool, base, shim, sync) for sync in SYNCS]
