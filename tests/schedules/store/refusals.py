"""What an event may leave that is refused for want of memory: mostly nothing."""
import copy
from contextlib import suppress

from . import events
from .limits import Refused
from .messages import Result


def worlds_after(world, event):
    """The worlds that may stand behind a refused event. The first of them is the one before it."""
    yield world
    for change in CHANGES.get(type(event), lambda *_: ())(world, event):
        changed = copy.deepcopy(world)
        with suppress(Refused):
            change(changed)
            yield changed


def of_flush(world, _):
    """The table is in the vault, and in no version."""
    yield lambda it: it.coordinator.put_flushed()


def of_trim(world, event):
    """The floor has risen, and no table is gone."""
    if not world.is_down:
        yield lambda it: it.coordinator.raise_floor(event.number)


def of_restart(world, _):
    """The coordinator is down."""
    yield lambda it: it.stop_coordinator()


def of_delivery(world, event):
    """Of a result that could be installed the first tables, one or more, are in the vault, and in no version."""
    for message in world.messages[max(event.message - 1, 0) : event.message]:
        body = message.body
        if isinstance(body, Result) and world.held[message.src.index] == body.job and world.coordinator.is_live(body.job):
            for count in range(1, len(body.tables) + 1):
                yield lambda it, tables=body.tables[:count]: it.coordinator.put_outputs(tables)


CHANGES = {events.Flush: of_flush, events.Trim: of_trim, events.RestartCoordinator: of_restart, events.Deliver: of_delivery}
