"""A world: one coordinator, four dispatchers, workers and followers, and every message that was ever sent.

A step is one event. A message may be delivered at any time after it was sent, any number of times, or never."""
from . import events
from .coordinator import Coordinator
from .follower import Follower
from .limits import NODES, Refused, refuse_if
from .messages import COORDINATOR, Ask, Fetch, Message, Node, Result
from .worker import Worker
from .writes import answer, batch_of


def shown(version):
    """The listing of a version."""
    return events.Shown(version.number, version.flushed, [(it.level, it.number) for it in version.files])


class World:
    def __init__(self, limits, vault=None):
        self.coordinator = Coordinator(limits, vault)
        self.held = {it: None for it in range(1, NODES + 1)}
        self.workers = {it: Worker() for it in range(1, NODES + 1)}
        self.followers = {it: Follower() for it in range(1, NODES + 1)}
        self.messages = []
        self.is_down, self.loses = False, False

    def step(self, event, loses=False):
        """One event, and its reply. An event that loses what it sends stores no message."""
        self.loses = loses
        try:
            refuse_if(self.is_down and isinstance(event, self.OF_COORDINATOR), "Down")
            return self.STEPS[type(event)](self, event)
        except Refused as it:
            return events.Refusal(it.name)

    def send(self, src, dst, bodies):
        """Stores the messages of one event together, and answers their numbers, from 1 on; or None for messages that are lost."""
        if self.loses and bodies:
            return None
        first = len(self.messages) + 1
        self.messages += [Message(src, dst, it) for it in bodies]
        return range(first, first + len(bodies))

    # The coordinator's own events.

    def write(self, event):
        """The fault of a batch is told first, also while the coordinator is down."""
        batch_of(event.operations)
        refuse_if(self.is_down, "Down")
        return events.Wrote(*self.coordinator.write(event.operations))

    def freeze(self, _):
        return events.Froze(self.coordinator.freeze())

    def flush(self, _):
        return events.Flushed(*self.coordinator.flush())

    def snap(self, _):
        return events.Snapped(*self.coordinator.snapshot())

    def release(self, event):
        self.coordinator.release(event.name)
        return events.Released(event.name)

    def get(self, event):
        return events.Got(self.coordinator.get(event.key, event.snapshot))

    def scan(self, event):
        return events.Scanned(self.coordinator.scan(*event))

    def show(self, _):
        return shown(self.coordinator.version)

    def trim(self, event):
        return events.Trimmed(*self.coordinator.trim(event.number))

    # Dispatchers.

    def pick(self, event):
        """A dispatcher without a claim asks for a job, and sends it to its worker."""
        refuse_if(self.held[event.dispatcher] is not None, "Busy")
        job = self.coordinator.pick()
        if job is None:
            return events.Idle()
        self.held[event.dispatcher] = job.name
        sent = self.send(COORDINATOR, Node("w", event.dispatcher), [job])
        return events.Picked(job.name, job.level, [it.number for it in job.inputs], sent)

    def give_up(self, event):
        """A dispatcher gives its claim back. The live claims are those of this epoch that a dispatcher holds."""
        epoch, live = self.coordinator.version.epoch, set(self.coordinator.book.live)
        assert live == {it for it in self.held.values() if it is not None and it.epoch == epoch}, "other claims are live than are held"
        job = self.held[event.dispatcher]
        refuse_if(job is None, "NoClaim")
        self.held[event.dispatcher] = None
        return events.Returned(job) if self.coordinator.give_back(job) else events.Stale(job)

    # Followers.

    def ask(self, event):
        """A follower asks what comes after its version."""
        return events.Asked(self.send(Node("f", event.follower), COORDINATOR, [self.followers[event.follower].ask()]))

    def read(self, event):
        """The value at a follower's version: a look-up in its tables, which must be what the writes give that were flushed then."""
        follower = self.followers[event.follower]
        found = follower.looked_up(event.key)
        assert found == answer(self.coordinator.writes, follower.version.flushed, event.key), "a follower gives another value than the writes"
        return events.ReadAt(follower.version.number, found)

    def show_follower(self, event):
        return shown(self.followers[event.follower].version)

    # Deliveries.

    def deliver(self, event):
        """A message, as it was sent, comes to its node."""
        refuse_if(not 1 <= event.message <= len(self.messages), "NoMessage")
        message = self.messages[event.message - 1]
        if message.dst == COORDINATOR:
            return self.to_coordinator(message)
        return self.to_worker(message) if message.dst.role == "w" else self.to_follower(message)

    def to_coordinator(self, message):
        refuse_if(self.is_down, "Down")
        if isinstance(message.body, (Fetch, Ask)):
            return events.Served(self.send(COORDINATOR, message.src, [self.coordinator.serve(message.body)]))
        if isinstance(message.body, Result) and message.src.role == "w":
            return self.take_result(message.src.index, message.body)
        return events.Ignored()

    def take_result(self, dispatcher, result):
        """The result of a worker goes to its dispatcher, whose claim it spends; but if the vault refuses it, the claim stays held."""
        refuse_if(self.held[dispatcher] != result.job, "NoClaim")
        if not self.coordinator.is_live(result.job):
            self.held[dispatcher] = None
            raise Refused("OldEpoch")
        installed = self.coordinator.install(result.job, result.tables)
        self.held[dispatcher] = None
        return events.Installed(*installed)

    def to_worker(self, message):
        change, missing, bodies = self.workers[message.dst.index].on_message(message.body)
        return events.Worked(change, missing, self.send(message.dst, COORDINATOR, bodies))

    def to_follower(self, message):
        follower = self.followers[message.dst.index]
        change, number, bodies = follower.on_message(message.body)
        assert follower.version == self.coordinator.versions[follower.version.number], "a follower is at a version that never was"
        return events.Followed(change, number, self.send(message.dst, COORDINATOR, bodies))

    # Restarts.

    def restart_coordinator(self, _):
        """Dispatchers keep their claims, which are stale from now on, and workers their jobs. A restart that is refused leaves the coordinator down."""
        self.is_down = True
        opened = self.coordinator.open()
        self.is_down = False
        return events.Opened(*opened)

    def stop_coordinator(self):
        """What is left of a restart that is refused: the coordinator is down until the next one."""
        self.is_down = True
        self.coordinator.stop()

    def restart_worker(self, event):
        self.workers[event.worker] = Worker()
        return events.Restarted(f"w{event.worker}")

    def restart_follower(self, event):
        self.followers[event.follower] = Follower()
        return events.Restarted(f"f{event.follower}")

    # What only the coordinator can do. A batch is looked at before, and so is the number of a message.
    OF_COORDINATOR = (
        events.Freeze,
        events.Flush,
        events.Snap,
        events.Release,
        events.Get,
        events.Scan,
        events.Show,
        events.Trim,
        events.Pick,
        events.GiveUp,
    )
    STEPS = {
        events.Write: write,
        events.Freeze: freeze,
        events.Flush: flush,
        events.Snap: snap,
        events.Release: release,
        events.Get: get,
        events.Scan: scan,
        events.Show: show,
        events.Trim: trim,
        events.Pick: pick,
        events.GiveUp: give_up,
        events.Ask: ask,
        events.Read: read,
        events.ShowFollower: show_follower,
        events.Deliver: deliver,
        events.RestartCoordinator: restart_coordinator,
        events.RestartWorker: restart_worker,
        events.RestartFollower: restart_follower,
    }
