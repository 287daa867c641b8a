"""The names under which the replies of random scripts are counted."""
from store import events
from store.follower import WAITING
from store.messages import Ask, Base, Fetch, FetchedTable, Job, Result
from store.versions import Edit
from store.worker import COLLECTING


def age(world, name):
    """Of a job or a snapshot, if the coordinator was restarted: whether that ended it."""
    epoch = world.coordinator.version.epoch
    return " of a dead epoch" if 1 <= name.epoch < epoch else " of a later epoch" if 1 < name.epoch == epoch else ""


def named(world, event):
    """The job or snapshot that an event is about which is no delivery, or None."""
    if isinstance(event, (events.Pick, events.GiveUp)):
        return world.held[event.dispatcher]
    return event.name if isinstance(event, events.Release) else getattr(event, "snapshot", None)


def what_it_meets(world, event):
    """Of an event that is about to be: of a delivery what its message is, and what it finds; of another one the age of what it names."""
    if isinstance(event, events.Trim):
        return at_floor(world.coordinator, event.number)
    if isinstance(event, events.RestartCoordinator):
        return not_flushed(world.coordinator)
    if hasattr(event, "follower"):
        return state_of(world, event.follower)
    if not isinstance(event, events.Deliver):
        name = named(world, event)
        return age(world, name).strip() if name else ""
    if not 1 <= event.message <= len(world.messages):
        return ""
    message = world.messages[event.message - 1]
    return AT[message.dst.role](world, message) + of_format(message)


def of_format(message):
    """Of a message with a long key that it is of version 2, or that a table in it is."""
    body = message.body
    tables = body.tables if isinstance(body, Result) else [body.table] if isinstance(body, FetchedTable) else []
    return ", of version 2" if message.format == 2 else ", with a table of version 2" if any(it.format == 2 for it in tables) else ""


def at_coordinator(world, message):
    body = message.body
    if isinstance(body, Fetch):
        return f"Fetch of a file that is {'served' if world.coordinator.is_served(body.number) else 'gone'}"
    if isinstance(body, Ask):
        return "Ask that is answered with " + type(world.coordinator.after(body.number)).__name__
    return "Result" + age(world, body.job)


def at_worker(world, message):
    body = type(message.body).__name__
    job = world.workers[message.dst.index].job
    if job is None:
        return f"{body} to an idle worker"
    if not isinstance(message.body, Job):
        return f"{body} to a collecting worker"
    return f"{body} that is {'the same' if job.name == message.body.name else 'newer' if job.name < message.body.name else 'older'}"


def at_follower(world, message):
    body = message.body
    name = f"{type(body).__name__} to a follower that {'waits' if world.followers[message.dst.index].target else 'does not wait'}"
    if not isinstance(body, (Edit, Base)):
        return name
    number = body.number if isinstance(body, Edit) else body.version.number
    return f"{name}, {distance(world.followers[message.dst.index], number)}"


def distance(follower, number):
    """Of a version that comes to a follower: what it is to the follower's own, and to the one that it waits for."""
    own, target = follower.version.number, follower.target
    of_own = "not after its own" if number <= own else "the next" if number == own + 1 else "far ahead"
    if number <= own or target is None:
        return of_own
    return f"{of_own}, {'below' if number < target.number else 'above' if number > target.number else 'as'} the one that it waits for"


AT = {"c": at_coordinator, "w": at_worker, "f": at_follower}


def at_floor(coordinator, number):
    """Where a number is between the floor and the current version."""
    if number > coordinator.version.number:
        return "above the current version"
    if number <= coordinator.floor:
        return "not above the floor"
    return "at the current version" if number == coordinator.version.number else "between the floor and the current version"


def not_flushed(coordinator):
    """What a restart finds in the log."""
    found = ["a frozen memtable"] * (coordinator.frozen is not None) + ["writes"] * bool(coordinator.active())
    return f"with {' and '.join(found) or 'nothing'} in the log"


def state_of(world, index):
    """Of a follower whether it waits, and how it is to the coordinator's versions."""
    follower, coordinator = world.followers[index], world.coordinator
    own = follower.version.number
    of_own = "new" if own == 0 else "current" if own == coordinator.version.number else "below the floor" if own + 1 < coordinator.floor else "behind"
    return f"{of_own}{' and waiting' if follower.target else ''}"


def kind_of(event, met, reply):
    at, met = " at a snapshot" if getattr(event, "snapshot", None) else "", ", " + met if met else ""
    if isinstance(reply, events.Refusal):
        return f"{type(event).__name__}: refused {reply.name}{met}"
    if isinstance(reply, events.Installed):
        return f"Deliver: installed {several(len(reply.files), 'files')}{met}"
    if isinstance(reply, events.Picked):
        return f"Pick: job of level {reply.level}{' of a later epoch' if reply.job.epoch > 1 else ''}"
    if isinstance(reply, events.Worked):
        return f"Deliver: {reply.change}{' none' if reply.change == COLLECTING and not reply.missing else ''}{met}"
    if isinstance(reply, events.Followed):
        return f"Deliver: {reply.change}{' and asks' if reply.change == WAITING and reply.sent else ''}{met}"
    if isinstance(reply, events.ReadAt):
        return f"Read: {'none' if reply.value is None else 'value'}{met}"
    if isinstance(reply, events.Trimmed):
        return f"Trim: removed {several(reply.removed, 'tables')}{met}"
    if isinstance(reply, events.Got):
        return f"Get{at}: {'none' if reply.value is None else 'value'}{met}"
    if isinstance(reply, events.Scanned):
        return f"Scan{at}: {several(len(reply.pairs), 'pairs')}{met}"
    return f"{type(event).__name__}: {type(reply).__name__}{met}"


def several(count, what):
    return f"2 {what} or more" if count >= 2 else f"{count} {what}"
