"""What outlives a restart: edits, tables by number, and a log. Each call is whole, or refused and not done."""
from .limits import refuse_if


class Vault:
    """With a fuse the call after so many is refused, and no other."""

    # Whether a restart has to find in the log what the store accepted. A vault that is wrong by intent says that it need not.
    is_right = True

    def __init__(self, fuse=None):
        self.edits, self.tables, self.log = [], {}, []
        self.fuse, self.calls, self.failures = fuse, 0, 0

    def call(self):
        self.calls += 1
        is_refused = self.fuse is not None and self.calls == self.fuse + 1
        self.failures += is_refused
        refuse_if(is_refused, "Device")

    def put_table(self, number, table):
        self.call()
        self.tables[number] = table

    def remove_table(self, number):
        self.call()
        del self.tables[number]

    def append_edit(self, edit):
        self.call()
        self.edits.append(edit)

    def append_log(self, logged):
        self.call()
        self.log.append(logged)

    def cut_log(self, count):
        """Takes so many records from the front, or all if there are fewer."""
        self.call()
        del self.log[:count]

    def read(self, what):
        """What a caller has asked for of this."""
        self.call()
        return what
