"""The formats of docs/FORMATS.md, read as that page tells them: a second reader beside the library's, for the tests of bytes.

table, edit, base, log_record and message take bytes and return the value, or raise Fault with the first fault's name. A table is its target and its
entries; an edit, a base and a message are their fields in turn; a log record is its code, its sequence and its operations."""
import contextlib

# The longest key of a table or a message of version 1, and the longest of all.
LEAST_KEY, MOST_SHORT_KEY, MOST_KEY, MOST_VALUE = 1, 1024, 4096, 65_536
MOST_NUMBER, MOST_SEQUENCE, MOST_COUNT = 2**63 - 1, 2**56 - 1, 2**32 - 1
MOST_TABLE, MOST_MESSAGE = 16_777_216, 1_073_741_824
# The most operations of a batch and their weight, and what one weighs beside its key and value.
MOST_OPERATIONS, MOST_WEIGHT, ENTRY_WEIGHT = 1_000, 4_000_000, 14
NODES, LEVELS = 4, 7


class Fault(Exception):
    """The name of the first fault."""


class Fields:
    """Bytes that are read from the front, each field with the fault of its rule. No key may be longer than `most_key`."""

    def __init__(self, data, most_key=MOST_KEY):
        self.data, self.at, self.read = data, 0, []
        self.most_key, self.has_long_key = most_key, False

    def left(self):
        return len(self.data) - self.at

    def piece(self, length):
        if self.left() < length:
            raise Fault("Truncated")
        self.at += length
        return self.data[self.at - length : self.at]

    def number(self, width, least, most, fault):
        value = int.from_bytes(self.piece(width), "big")
        if not least <= value <= most:
            raise Fault(fault)
        self.read.append(value)
        return value

    def text(self, width, least, most, fault):
        """Bytes behind their length."""
        self.read.append(self.piece(self.number(width, least, most, fault)))
        return self.read[-1]

    def key(self, fault):
        length = self.number(2, LEAST_KEY, self.most_key, fault)
        self.has_long_key = self.has_long_key or length > MOST_SHORT_KEY
        self.read.append(self.piece(length))
        return self.read[-1]

    def trailer(self, fault):
        """The sequence, and whether it is a put."""
        value = self.number(8, 256, 2**64 - 1, fault)
        if value % 256 > 1:
            raise Fault(fault)
        return value // 256, value % 256 == 1

    def version(self, magic):
        """The version of the format, behind its magic: in version 1 no key is long."""
        self.number(4, magic, magic, "BadMagic")
        version = self.number(1, 1, 2, "BadVersion")
        self.most_key = MOST_SHORT_KEY if version == 1 else MOST_KEY
        return version

    def end(self):
        if self.left():
            raise Fault("TrailingBytes")
        return self.read


def need(version, has_long_key):
    """A value without a long key is spelled in version 1."""
    if version == 2 and not has_long_key:
        raise Fault("NeedlessVersion")


# ---- tables


def place(entry):
    """Entries follow one another by their keys, and of one key by falling sequences."""
    return entry[0], -entry[1][0]


def entries_of(block, most_key):
    """Of each entry of a block its key, its trailer, its value and where it begins."""
    fields, entries = Fields(block, most_key), []
    while fields.left() or not entries:
        at, key, trailer = fields.at, fields.key("BadLength"), fields.trailer("BadKind")
        entries.append((key, trailer, fields.text(4, 0, MOST_VALUE if trailer[1] else 0, "BadLength"), at))
        if len(entries) > 1 and place(entries[-1]) <= place(entries[-2]):
            raise Fault("OutOfOrder")
    return entries


def index_of(fields):
    """The target, the count of entries, and of each block its length, last key and last trailer."""
    target = fields.number(4, 1, MOST_TABLE, "BadCut")
    count, blocks = (fields.number(4, 1, MOST_COUNT, "BadIndex") for _ in range(2))
    index = [(fields.number(4, 1, MOST_COUNT, "BadIndex"), fields.key("BadIndex"), fields.trailer("BadIndex")) for _ in range(blocks)]
    return target, count, index


def table(data):
    if len(data) > MOST_TABLE:
        raise Fault("TooLarge")
    fields, found = Fields(data), []
    version = fields.version(0x4C534D54)
    target, count, index = index_of(fields)
    lengths = sum(it[0] for it in index)
    if fields.left() != lengths:
        raise Fault("Truncated" if fields.left() < lengths else "TrailingBytes")
    for at, (length, key, trailer) in enumerate(index):
        try:
            entries = entries_of(fields.piece(length), fields.most_key)
        except Fault:
            raise Fault("BadBlock") from None
        last = entries[-1]
        if found and place(entries[0]) <= place(found[-1]):
            raise Fault("BadBlock")
        if last[:2] != (key, trailer):
            raise Fault("BadIndex")
        if last[3] >= target or at < len(index) - 1 and length < target:
            raise Fault("BadCut")
        found += entries
    if len(found) != count:
        raise Fault("BadIndex")
    need(version, any(len(it[0]) > MOST_SHORT_KEY for it in found))
    return target, [it[:3] for it in found]


def found(entries, key, at):
    """What a look-up among the entries of a table finds: of the key's entry of the greatest sequence up to there."""
    for _, (_, is_put), value in (it for it in entries if it[0] == key and it[1][0] <= at):
        return f"value {value.hex()}" if is_put else "deleted"
    return "absent"


# ---- edits and bases


def file_record(fields, least, most, levels, after_keys=lambda level, smallest, largest: None):
    """A file of a number and a level in these ranges: its number, level and keys."""
    number = fields.number(8, least, most, "BadField")
    level = fields.number(1, *levels, "BadField")
    smallest, largest = fields.key("BadField"), fields.key("BadField")
    if largest < smallest:
        raise Fault("BadField")
    after_keys(level, smallest, largest)
    fields.number(4, 1, MOST_TABLE, "BadField")
    fields.number(4, 1, MOST_COUNT, "BadField")
    return number, level, smallest, largest


def edit_fields(fields):
    fields.number(8, 1, MOST_NUMBER, "BadField")
    kind = fields.number(1, 1, 3, "BadField")
    fields.number(8, 0, MOST_SEQUENCE, "BadField")
    for _ in ("epoch", "next file"):
        fields.number(8, 1, MOST_NUMBER, "BadField")
    is_install, last = kind == 2, 0
    for _ in range(fields.number(4, int(is_install), MOST_COUNT if is_install else 0, "BadField")):
        last = fields.number(8, last + 1, MOST_NUMBER, "BadField")
    added = {1: (1, 1), 2: (0, MOST_COUNT), 3: (0, 0)}[kind]
    last, levels = 0, (1, LEVELS - 1) if is_install else (0, 0)
    for _ in range(fields.number(4, *added, "BadField")):
        last, level, _, _ = file_record(fields, last + 1, MOST_NUMBER, levels)
        levels = level, level


def base_fields(fields):
    fields.number(8, 1, MOST_NUMBER, "BadField")
    fields.number(8, 0, MOST_SEQUENCE, "BadField")
    fields.number(8, 1, MOST_NUMBER, "BadField")
    next_file = fields.number(8, 1, MOST_NUMBER, "BadField")
    last, files = 0, []

    def apart(level, smallest, largest):
        if level and any(it[1] == level and it[2] <= largest and smallest <= it[3] for it in files):
            raise Fault("BadField")

    for _ in range(fields.number(4, 0, MOST_COUNT, "BadField")):
        files.append(file_record(fields, last + 1, next_file - 1, (0, LEVELS - 1), apart))
        last = files[-1][0]


def edit(data):
    fields = Fields(data)
    edit_fields(fields)
    return fields.end()


def base(data):
    fields = Fields(data)
    base_fields(fields)
    return fields.end()


def has_long_key(kind, data):
    """Whether an edit or a base has a long key, or its bytes have one before their first fault."""
    fields = Fields(data)
    with contextlib.suppress(Fault):
        {"edit": edit_fields, "base": base_fields}[kind](fields)
    return fields.has_long_key


# ---- log records


def operation(fields, weight_before, is_last):
    """A key and its value, or of a deletion a key alone, and what it and those before it weigh. That is tested at the last length of the last one."""

    def weigh(length):
        weight = weight_before + ENTRY_WEIGHT + length
        if is_last and weight > MOST_WEIGHT:
            raise Fault("BadField")
        return weight

    is_put = fields.number(1, 0, 1, "BadField")
    length = fields.number(2, LEAST_KEY, MOST_KEY, "BadField")
    if not is_put:
        weight = weigh(length)
        return (fields.piece(length),), weight
    key, length = fields.piece(length), fields.number(4, 0, MOST_VALUE, "BadField")
    weight = weigh(len(key) + length)
    return (key, fields.piece(length)), weight


def log_record(data):
    fields, operations, weight = Fields(data), [], 0
    code = fields.number(1, 1, 2, "BadField")
    first = fields.number(8, 1, MOST_SEQUENCE if code == 2 else 2**64 - 1, "BadField")
    count = fields.number(4, 1, MOST_OPERATIONS, "BadField") if code == 1 else 0
    if first + count - 1 > MOST_SEQUENCE:
        raise Fault("BadField")
    for left in reversed(range(count)):
        found, weight = operation(fields, weight, is_last=left == 0)
        operations.append(found)
    fields.end()
    return code, first, *operations


# ---- messages


def node(fields):
    role, number = fields.number(1, 0, 2, "BadField"), fields.number(1, 0, 255, "BadField")
    if not (1 <= number <= NODES if role else number == 0):
        raise Fault("BadField")


def job_name(fields):
    for _ in ("epoch", "number"):
        fields.number(8, 1, MOST_NUMBER, "BadField")


def job(fields):
    job_name(fields)
    level = fields.number(1, 0, LEVELS - 2, "BadField")
    fields.number(4, 1, MOST_TABLE, "BadField")
    last = -1
    for _ in range(fields.number(1, 0, 64, "BadField")):
        last = fields.number(8, last + 1, MOST_SEQUENCE, "BadField")
    last, has_own, count = 0, False, fields.number(2, 1, 1024, "BadField")
    for left in reversed(range(count)):
        # Without a file of the job's level before it, the last one has to be of it.
        levels = level, level if left == 0 and not has_own else level + 1
        last, at, _, _ = file_record(fields, last + 1, MOST_NUMBER, levels)
        has_own = has_own or at == level
    for _ in range(fields.number(4, 0, 65_536, "BadField")):
        if fields.key("BadField") > fields.key("BadField"):
            raise Fault("BadField")


def sized_table(fields):
    fields.text(4, 1, MOST_TABLE, "BadField")


def file_number(fields):
    fields.number(8, 1, MOST_NUMBER, "BadField")


def file_and_table(fields):
    file_number(fields)
    sized_table(fields)


def result(fields):
    job_name(fields)
    for _ in range(fields.number(4, 0, MOST_COUNT, "BadField")):
        sized_table(fields)


def version_number(fields):
    fields.number(8, 0, MOST_NUMBER, "BadField")


BODIES = (job, file_number, file_and_table, file_number, result, version_number, edit_fields, base_fields, version_number)


def message(data):
    if len(data) > MOST_MESSAGE:
        raise Fault("TooLarge")
    fields = Fields(data)
    version = fields.version(0x4C534D4D)
    kind = fields.number(1, 1, len(BODIES), "BadKind")
    for _ in ("sender", "receiver"):
        node(fields)
    BODIES[kind - 1](fields)
    need(version, fields.has_long_key)
    return fields.end()
