"""Messages between nodes, as values: what the network may deliver, each any number of times, in any order, or never."""
from typing import NamedTuple

from .claims import Name
from .tables import Table, format_of
from .versions import Edit, Version, range_of


class Node(NamedTuple):
    """A letter and a number: `c` with 0 is the coordinator, `w` a worker, `f` a follower."""

    role: str
    index: int


COORDINATOR = Node("c", 0)


class Job(NamedTuple):
    name: Name
    level: int
    points: tuple
    inputs: tuple
    deeper: tuple


class Fetch(NamedTuple):
    number: int


class FetchedTable(NamedTuple):
    number: int
    table: Table


class Gone(NamedTuple):
    number: int


class Result(NamedTuple):
    job: Name
    tables: tuple


class Ask(NamedTuple):
    """A follower's question what comes after its version: the next edit, a full version, or nothing."""

    number: int


class Base(NamedTuple):
    version: Version


class Current(NamedTuple):
    number: int


def own_keys(body):
    """The keys in a message's own fields: those inside of its tables are none of them."""
    if isinstance(body, Job):
        return [key for ends in [*map(range_of, body.inputs), *body.deeper] for key in ends]
    files = body.added if isinstance(body, Edit) else body.version.files if isinstance(body, Base) else ()
    return [key for it in files for key in range_of(it)]


class Message(NamedTuple):
    src: Node
    dst: Node
    body: NamedTuple

    @property
    def format(self):
        return format_of(own_keys(self.body))
