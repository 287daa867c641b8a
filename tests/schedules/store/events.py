"""Events of a schedule and the replies to them, as values."""
from typing import NamedTuple, Optional

from .claims import Name


class Write(NamedTuple):
    operations: tuple


class Freeze(NamedTuple):
    pass


class Flush(NamedTuple):
    pass


class Snap(NamedTuple):
    pass


class Release(NamedTuple):
    name: Name


class Get(NamedTuple):
    key: bytes
    snapshot: Optional[Name]


class Scan(NamedTuple):
    low: bytes
    high: bytes
    limit: int
    snapshot: Optional[Name]


class Pick(NamedTuple):
    dispatcher: int


class GiveUp(NamedTuple):
    dispatcher: int


class Deliver(NamedTuple):
    message: int


class RestartCoordinator(NamedTuple):
    pass


class RestartWorker(NamedTuple):
    worker: int


class RestartFollower(NamedTuple):
    follower: int


class Show(NamedTuple):
    pass


class ShowFollower(NamedTuple):
    follower: int


class Ask(NamedTuple):
    follower: int


class Read(NamedTuple):
    follower: int
    key: bytes


class Trim(NamedTuple):
    number: int


class Wrote(NamedTuple):
    first: int
    last: int


class Froze(NamedTuple):
    last: int


class Flushed(NamedTuple):
    version: int
    flushed: int
    file: int


class Snapped(NamedTuple):
    name: Name
    at: int


class Released(NamedTuple):
    name: Name


class Got(NamedTuple):
    value: Optional[bytes]


class Scanned(NamedTuple):
    pairs: list


class Picked(NamedTuple):
    job: Name
    level: int
    inputs: list
    sent: range


class Idle(NamedTuple):
    pass


class Returned(NamedTuple):
    job: Name


class Stale(NamedTuple):
    job: Name


class Served(NamedTuple):
    sent: range


class Installed(NamedTuple):
    version: int
    files: list


class Worked(NamedTuple):
    """What came of a message to a worker, how many tables it is missing if it collects, and the messages sent."""

    change: str
    missing: Optional[int]
    sent: range


class Followed(NamedTuple):
    """What came of a message to a follower, how many tables it is missing if it waits or its version if it moved, and the messages sent."""

    change: str
    number: Optional[int]
    sent: range


class Asked(NamedTuple):
    sent: range


class ReadAt(NamedTuple):
    version: int
    value: Optional[bytes]


class Trimmed(NamedTuple):
    floor: int
    removed: int


class Ignored(NamedTuple):
    pass


class Opened(NamedTuple):
    """What a restart of the coordinator begins with: its epoch, its version, and the last sequence that is in a file."""

    epoch: int
    version: int
    last: int


class Restarted(NamedTuple):
    node: str


class Shown(NamedTuple):
    number: int
    flushed: int
    files: list


class Refusal(NamedTuple):
    name: str
