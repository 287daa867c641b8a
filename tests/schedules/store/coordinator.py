"""The coordinator: takes the writes, answers the reads, hands out jobs and installs their results.

Its reads are answered from the list of accepted writes. Each is also looked up as a store does it, in memtables and levels, and
must be the same: so each merge of a schedule is tested against what it means."""
from contextlib import suppress
from itertools import accumulate

from .claims import ClaimBook, Name
from .entries import value_of, visible, weight_of
from .limits import LAST_LEVEL, MEMTABLE_WEIGHT, SEQUENCE, SNAPSHOTS, Refused, refuse_if
from .log import Frozen, Written, count_up_to, found_in
from .messages import Ask, Base, Current, Fetch, FetchedTable, Gone, Job
from .picker import deeper_ranges, pick
from .tables import Table
from .vault import Vault
from .versions import EPOCH, FLUSH, INSTALL, Edit, Version, applied, file_meta
from .writes import answer, answers, batch_of, entries_of


class Coordinator:
    def __init__(self, limits, vault=None):
        self.limits, self.vault = limits, vault or Vault()
        self.writes, self.frozen, self.versions = [], None, [Version()]
        self.open()

    def stop(self):
        """Ends snapshots and claims. What was accepted stays, and what is frozen."""
        self.snapshots, self.snapshots_made = {}, 0
        self.book = ClaimBook(self.version.epoch)

    def open(self):
        """Begins an epoch with what the tables and the log have, and without snapshots, claims and older versions (LevelDB: recovery). The log is cut
        last, and whether that is done is not answered."""
        self.stop()
        self.recover()
        for it in sorted(self.vault.read(set(self.tables)) - {it.number for it in self.version.files}):
            self.vault.remove_table(it)
        self.append(EPOCH, epoch=self.version.epoch + 1)
        self.floor = self.version.number
        self.book = ClaimBook(self.version.epoch)
        self.cut_log()
        return self.version.epoch, self.version.number, self.last

    def recover(self):
        """Reads the vault: its edits make the versions, and its log has the writes that are not flushed, and what of them is frozen."""
        self.versions = [*accumulate(self.vault.read(self.vault.edits), applied, initial=Version())]
        for it in self.version.files:
            self.vault.read(self.tables[it.number])
        flushed = self.version.flushed
        found = found_in(self.vault.read(self.vault.log), flushed)
        is_kept = (found.operations, found.frozen) == (self.writes[flushed:], self.frozen)
        assert is_kept or not self.vault.is_right, "the log holds something else than was accepted"
        self.writes[flushed:], self.frozen = found

    def cut_log(self):
        """Lets the records go that are flushed. A refused cut only leaves the log longer."""
        with suppress(Refused):
            self.vault.cut_log(count_up_to(self.vault.log, self.version.flushed))

    @property
    def tables(self):
        return self.vault.tables

    @property
    def version(self):
        return self.versions[-1]

    @property
    def last(self):
        """The last sequence that was given."""
        return len(self.writes)

    def append(self, kind, **changes):
        """Goes on to the next version, by an edit that changes this and nothing else."""
        now = self.version
        same = {"flushed": now.flushed, "epoch": now.epoch, "next_file": now.next_file}
        edit = Edit(now.number + 1, kind, **{**same, **changes})
        self.vault.append_edit(edit)
        self.versions.append(applied(now, edit))

    # Writes.

    def active(self):
        """The writes of the active memtable, from the first sequence that is neither flushed nor frozen."""
        return self.writes[self.version.flushed if self.frozen is None else self.frozen :]

    def write(self, operations):
        batch = batch_of(operations)
        refuse_if(not batch, "EmptyBatch")
        refuse_if(self.last + len(batch) > SEQUENCE, "SequenceExhausted")
        refuse_if(sum(map(weight_of, self.active() + batch)) > MEMTABLE_WEIGHT, "MemtableFull")
        self.vault.append_log(Written(self.last + 1, tuple(batch)))
        self.writes += batch
        return self.last - len(batch) + 1, self.last

    def freeze(self):
        refuse_if(self.frozen is not None, "FrozenWaiting")
        refuse_if(not self.active(), "NothingToFreeze")
        self.vault.append_log(Frozen(self.last))
        self.frozen = self.last
        return self.frozen

    def flush(self):
        """Writes the frozen memtable, or the active one if none is frozen, as a file of level 0, and cuts the log behind it."""
        flushed, number, table = self.put_flushed()
        self.append(FLUSH, flushed=flushed, next_file=number + 1, added=(file_meta(number, 0, table),))
        self.frozen = None
        self.cut_log()
        return self.version.number, flushed, number

    def put_flushed(self):
        """Keeps the table of a flush, which is of no version yet."""
        flushed = self.last if self.frozen is None else self.frozen
        refuse_if(flushed == self.version.flushed, "NothingToFlush")
        number, table = self.version.next_file, Table(entries_of(self.writes, self.version.flushed + 1, flushed))
        self.vault.put_table(number, table)
        return flushed, number, table

    # Reads.

    def snapshot(self):
        refuse_if(len(self.snapshots) == SNAPSHOTS, "TooManySnapshots")
        self.snapshots_made += 1
        name = Name(self.version.epoch, self.snapshots_made)
        self.snapshots[name] = self.last
        return name, self.last

    def release(self, name):
        refuse_if(name not in self.snapshots, "NoSnapshot")
        del self.snapshots[name]

    def sequence_at(self, snapshot):
        """The sequence up to which a read sees writes: at a live snapshot, or at present if none is named."""
        refuse_if(snapshot is not None and snapshot not in self.snapshots, "NoSnapshot")
        return self.last if snapshot is None else self.snapshots[snapshot]

    def get(self, key, snapshot):
        at = self.sequence_at(snapshot)
        found = answer(self.writes, at, key)
        assert found == self.looked_up(key, at), "a look-up gives another value than the writes"
        return found

    def scan(self, low, high, limit, snapshot):
        at = self.sequence_at(snapshot)
        found = answers(self.writes, at, low, high, limit)
        written = {it.key for it in self.writes if low <= it.key < high}
        assert all(answer(self.writes, at, key) == self.looked_up(key, at) for key in written), "a look-up gives another value than the writes"
        return found

    def looked_up(self, key, at):
        """The value of the first entry that is visible: in the memtables, level 0 by number descending, levels 1 to 6."""
        for entries in self.sources():
            found = visible(entries, key, at)
            if found is not None:
                return value_of(found)
        return None

    def sources(self):
        frozen = self.version.flushed if self.frozen is None else self.frozen
        yield entries_of(self.writes, frozen + 1, self.last)
        yield entries_of(self.writes, self.version.flushed + 1, frozen)
        newest_first = reversed(self.version.level(0))
        for file in [*newest_first, *(it for level in range(1, LAST_LEVEL + 1) for it in self.version.level(level))]:
            yield self.tables[file.number].entries

    # Compactions.

    def pick(self):
        """Claims the next compaction and answers its job, or None."""
        self.book.refuse_if_full()
        want = pick(self.version, self.book, self.limits)
        if want is None:
            return None
        points = tuple(sorted(set(self.snapshots.values())))
        inputs = tuple(self.version.file(it) for it in want.files)
        deeper = tuple(deeper_ranges(self.version, want.level, want.hull))
        return Job(self.book.claim(want), want.level, points, inputs, deeper)

    def is_live(self, job):
        return job in self.book.live

    def give_back(self, job):
        """Ends a claim without a result, and answers whether it was live."""
        return self.book.settle(job)

    def install(self, job, tables):
        """Puts the tables of a live job's result in the place of its inputs, one level deeper, and answers the new file numbers."""
        want = self.book.live[job]
        assert all(want.hull[0] <= it.smallest and it.largest <= want.hull[1] for it in tables), "BadResult"
        numbers = self.put_outputs(tables)
        added = tuple(file_meta(number, want.level + 1, table) for number, table in zip(numbers, tables))
        self.append(INSTALL, next_file=self.version.next_file + len(tables), removed=want.files, added=added)
        self.book.settle(job)
        return self.version.number, numbers

    def put_outputs(self, tables):
        """Keeps tables of a result, which are of no version yet, and answers their numbers."""
        numbers = list(range(self.version.next_file, self.version.next_file + len(tables)))
        for number, table in zip(numbers, tables):
            self.vault.put_table(number, table)
        return numbers

    # What is kept for followers, and what it answers to messages.

    def trim(self, number):
        """Lets the tables go that no version from a number on lists, and answers from which one on they are kept, and how many went."""
        self.raise_floor(number)
        obsolete = sorted(it for it in self.vault.read(set(self.tables)) if not self.is_served(it))
        for it in obsolete:
            self.vault.remove_table(it)
        return self.floor, len(obsolete)

    def raise_floor(self, number):
        refuse_if(number > self.version.number, "BadFloor")
        self.floor = max(self.floor, number)

    def is_served(self, number):
        """Whether a file is in some version from the floor on."""
        return any(it.number == number for version in reversed(self.versions[self.floor :]) for it in version.files)

    def serve(self, body):
        """The answer to a message, or None."""
        if isinstance(body, Fetch):
            return FetchedTable(body.number, self.tables[body.number]) if self.is_served(body.number) else Gone(body.number)
        if isinstance(body, Ask):
            return self.after(body.number)
        return None

    def after(self, number):
        """What a follower at this version is told: that it is current, the next edit if that is from the floor on, or else the full current
        version."""
        if number >= self.version.number:
            return Current(self.version.number)
        return self.vault.edits[number] if number + 1 >= self.floor else Base(self.version)
