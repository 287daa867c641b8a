"""Replies as the lines that the program prints."""
from . import events


def text(value):
    """A key or value: each byte as itself, or as `%` and two hexadecimal digits."""
    if not value:
        return '""'
    return "".join(chr(it) if 0x21 <= it <= 0x7E and it not in b'%"=' else f"%{it:02x}" for it in value)


def dotted(name):
    return f"{name.epoch}.{name.number}"


def commas(numbers):
    return ",".join(map(str, numbers))


def messages(sent):
    """What is said of the messages that an event sent."""
    if sent is None:
        return " message lost"
    if not sent:
        return ""
    return f" message {sent[0]}" if len(sent) == 1 else f" messages {sent[0]}-{sent[-1]}"


def shown(it):
    levels = sorted({level for level, _ in it.files})
    of_level = [f" L{level} " + commas(number for at, number in it.files if at == level) for level in levels]
    return f"show {it.number} flushed {it.flushed}" + "".join(of_level)


def got(value):
    return "none" if value is None else f"value {text(value)}"


def changed(change, number, sent):
    return change + (f" {number}" if number is not None else "") + messages(sent)


LINES = {
    events.Wrote: lambda it: f"seq {it.first}" + (f"-{it.last}" if it.last != it.first else ""),
    events.Froze: lambda it: f"frozen {it.last}",
    events.Flushed: lambda it: f"version {it.version} flushed {it.flushed} file {it.file}",
    events.Snapped: lambda it: f"snapshot {dotted(it.name)} at {it.at}",
    events.Released: lambda it: f"released {dotted(it.name)}",
    events.Got: lambda it: got(it.value),
    events.Scanned: lambda it: f"range {len(it.pairs)}" + "".join(f" {text(key)}={text(value)}" for key, value in it.pairs),
    events.Picked: lambda it: f"job {dotted(it.job)} level {it.level} inputs {commas(it.inputs)}{messages(it.sent)}",
    events.Idle: lambda _: "idle",
    events.Returned: lambda it: f"returned {dotted(it.job)}",
    events.Stale: lambda it: f"stale {dotted(it.job)}",
    events.Served: lambda it: "served" + messages(it.sent),
    events.Installed: lambda it: f"installed version {it.version} files {commas(it.files) or 'none'}",
    events.Worked: lambda it: changed(*it),
    events.Followed: lambda it: changed(*it),
    events.Asked: lambda it: messages(it.sent).lstrip(),
    events.ReadAt: lambda it: f"at {it.version} {got(it.value)}",
    events.Trimmed: lambda it: f"floor {it.floor} removed {it.removed}",
    events.Ignored: lambda _: "ignored",
    events.Opened: lambda it: f"epoch {it.epoch} version {it.version} last {it.last}",
    events.Restarted: lambda it: f"restarted {it.node}",
    events.Shown: shown,
    events.Refusal: lambda it: f"refused {it.name}",
}


def line(reply):
    return LINES[type(reply)](reply)
