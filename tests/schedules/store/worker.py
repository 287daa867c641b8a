"""A worker: collects the tables of one job, merges them, and sends the result (RocksDB: remote compaction)."""
from .merging import merge
from .messages import Fetch, FetchedTable, Gone, Job, Result

COLLECTING, MERGED, DROPPED, IGNORED = "collecting", "merged", "dropped", "ignored"


class Worker:
    """Idle while it has no job."""

    def __init__(self):
        self.job, self.tables = None, {}

    def missing(self):
        """The job's input files whose tables did not come yet, ascending."""
        return [it for it in self.job.inputs if it.number not in self.tables]

    def on_message(self, body):
        """Takes a message and answers what came of it, how many tables are missing, and what it sends to the coordinator."""
        if isinstance(body, Job) and (self.job is None or body.name >= self.job.name):
            return self.take(body)
        if isinstance(body, FetchedTable) and self.job is not None:
            return self.keep(body)
        if isinstance(body, Gone) and self.job is not None and any(it.number == body.number for it in self.missing()):
            self.__init__()
            return DROPPED, None, []
        return IGNORED, None, []

    def take(self, job):
        """Begins a job, or asks again for what the job that it has is missing."""
        if self.job is None or self.job.name != job.name:
            self.job, self.tables = job, {}
        missing = self.missing()
        return COLLECTING, len(missing), [Fetch(it.number) for it in missing]

    def keep(self, body):
        """Keeps the table of a missing input that is as its record says; the last one leads to the result."""
        table = body.table
        told = [(it.smallest, it.largest, it.bytes, it.entries) for it in self.missing() if it.number == body.number]
        if told != [(table.smallest, table.largest, table.bytes, len(table.entries))]:
            return IGNORED, None, []
        self.tables[body.number] = table
        if self.missing():
            return COLLECTING, len(self.missing()), []
        job, tables = self.job, [self.tables[it.number] for it in self.job.inputs]
        self.__init__()
        return MERGED, None, [Result(job.name, tuple(merge(tables, job.points, job.deeper)))]
