"""A store's program in a folder, asked line by line, and the model of what the store holds."""
import os
import pathlib
import select
import shlex
import subprocess

TOP = pathlib.Path(__file__).resolve().parents[2]
PROGRAM = shlex.split(os.environ.get("PROGRAM", str(TOP / "crates/lsm_sim/out/lsm_sim")))
# Small, so that compactions come.
LIMITS = ["--l0", "2", "--base", "1000", "--block", "256"]
# How long an answer may take, in seconds.
PATIENCE = 180
# The ways of sync: of each write, or of all lines that have come, whose records are kept in memory until then in the last one.
SYNCS = ("each", "asked", "gathered")
SCAN = 'scan "" ~ 1000'


class Wrong(Exception):
    """What a store does and should not."""


def command(folder, *words):
    return [*PROGRAM, *(words or ("store",)), "--dir", str(folder), *(LIMITS if not words else [])]


class Session:
    """The program over a folder. `ways` are variables of crash.c, of which the shim is preloaded if there is one. The way of sync that is told to none
    is `each`."""

    def __init__(self, folder, shim=None, sync="each", **ways):
        env = dict(os.environ)
        if ways:
            env |= {"LD_PRELOAD": str(shim), "CRASH_FOLDER": str(folder)} | {k: str(v) for k, v in ways.items()}
        pipe = subprocess.PIPE
        told = [] if sync == "each" else ["--sync", sync]
        self.process = subprocess.Popen([*command(folder), *told], stdin=pipe, stdout=pipe, stderr=pipe, env=env)
        self.answers = b""

    def ask(self, line):
        """The answer to a line, or None if the process ends before it."""
        return self.ask_all([line])[0]

    def ask_all(self, lines):
        """The answers to lines that come together, of which those are None that the process ends before."""
        try:
            self.process.stdin.write("".join(f"{line}\n" for line in lines).encode())
            self.process.stdin.flush()
        except BrokenPipeError:
            return [None] * len(lines)
        return [self.answer_to(line) for line in lines]

    def answer_to(self, line):
        """The next answer, or None if the process ends before it."""
        while b"\n" not in self.answers:
            if not select.select([self.process.stdout], [], [], PATIENCE)[0]:
                self.process.kill()
                raise Wrong(f"no answer to {line}")
            more = os.read(self.process.stdout.fileno(), 1 << 20)
            if not more:
                return None
            self.answers += more
        answer, _, self.answers = self.answers.partition(b"\n")
        return answer.decode()

    def kill(self):
        """Kills the process, and returns what standard error has."""
        self.process.kill()
        _, said = self.process.communicate(timeout=PATIENCE)
        return said.decode(errors="replace").strip()

    def end(self):
        """Ends the input, and returns the status and what standard error has."""
        try:
            self.process.stdin.close()
        except BrokenPipeError:
            pass
        self.process.stdin = None
        _, said = self.process.communicate(timeout=PATIENCE)
        return self.process.returncode, said.decode(errors="replace").strip()


def pairs_in(answer):
    """The pairs of the line of a scan."""
    words = (answer or "").split(" ")
    if words[0] != "range" or int(words[1]) != len(words) - 2:
        raise Wrong(f"a scan is answered {answer}")
    return dict(it.split("=", 1) for it in words[2:])


def after(pairs, line):
    """What a store that has these pairs has once a write is made."""
    words, pairs = line.split(" "), dict(pairs)
    if words[0] == "batch":
        words = words[1:]
    while words:
        if words[0] == "put":
            pairs[words[1]], words = words[2], words[3:]
        else:
            pairs.pop(words[1], None)
            words = words[2:]
    return pairs


def is_write(line):
    return line.split(" ")[0] in ("put", "del", "batch")


class Model:
    """What a store held after each write that it accepted, and which of these states outlive its process: those from the last write on that was answered,
    and those that a write leaves that its device refused, if no other was accepted since. Writes that were not answered, since the process ended, may have
    been done: each after all before it or, if its device may have refused some, without those."""

    def __init__(self, pairs=None, may_refuse=False):
        self.states = [pairs or {}]
        self.stored = 0
        self.refused = []
        self.may_refuse = may_refuse

    def note(self, line, answer):
        """Takes what a line was answered."""
        if not self.is_right(line, answer):
            raise Wrong(f"{line} is answered {answer}")
        if is_write(line) and answer.startswith("seq "):
            self.states.append(after(self.states[-1], line))
            self.stored, self.refused = len(self.states) - 1, []
        elif is_write(line):
            self.refused.append(after(self.states[-1], line))

    def note_end(self, lines):
        """The process has ended before it answered these lines, which came together."""
        may = [self.states[-1]]
        for line in filter(is_write, lines):
            done = [after(it, line) for it in may]
            self.refused += done
            may = may + done if self.may_refuse else done

    def is_right(self, line, answer):
        word = line.split(" ")[0]
        starts = {"compact": "compacted", "scan": "range", "put": "seq", "del": "seq", "batch": "seq", "flush": "flushed"}
        return answer.startswith(starts[word]) or (self.may_refuse and answer.startswith("refused "))

    def allows(self, pairs):
        """Whether a store may hold these once it is opened again."""
        return pairs in self.states[self.stored :] or pairs in self.refused

    def wanted(self):
        """The states that it allows, as text."""
        return " or ".join(told(it) for it in self.states[self.stored :] + self.refused)


def run(session, turns, model):
    """Asks all lines, as long as they are answered, and notes the answers. What is a list in place of a line comes together. Returns whether all were."""
    for turn in turns:
        lines = [turn] if isinstance(turn, str) else turn
        answers = session.ask_all(lines)
        answered = [it for it in answers if it is not None]
        for line, answer in zip(lines, answered):
            model.note(line, answer)
        if len(answered) < len(lines):
            model.note_end(lines[len(answered) :])
            return False
    return True


def opened(folder, model, sync="each"):
    """Opens a folder twice: it shows what the model allows, takes writes in between, of which some are not flushed, is killed, and loses nothing of them."""
    session = Session(folder, sync=sync)
    first = session.ask(SCAN)
    if first is None:
        raise Wrong("the folder is not opened: {1} (status {0})".format(*session.end()))
    first = pairs_in(first)
    if not model.allows(first):
        raise Wrong(f"it holds {told(first)} and not {model.wanted()}")
    more = Model(first)
    run(session, ["put zz 1", "flush", ["put zy 1", "put zz 2"], "put zz 3"], more)
    session.kill()
    session = Session(folder, sync=sync)
    second = pairs_in(session.ask(SCAN))
    end_of(session)
    if second != more.states[-1]:
        raise Wrong(f"at its second opening it holds {told(second)}, and not {told(more.states[-1])}")
    checked(folder)
    return first


def end_of(session):
    status, said = session.end()
    if status != 0:
        raise Wrong(f"status {status}: {said}")


def told(pairs):
    return "{" + ", ".join(f"{key}={value[:6]}" for key, value in sorted(pairs.items())) + "}"


def has_check():
    """Whether the program can check a folder."""
    return subprocess.run([*PROGRAM, "check", "--help"], capture_output=True, timeout=PATIENCE).returncode == 0


def checked(folder):
    """Asks the program whether the folder has damage, if it can tell."""
    if os.environ.get("CRASH_CAN_CHECK") == "1":
        done = subprocess.run(command(folder, "check"), capture_output=True, text=True, timeout=PATIENCE)
        if done.returncode != 0 or "no damage" not in done.stdout:
            raise Wrong(f"check says {done.stdout.strip()} {done.stderr.strip()}")
