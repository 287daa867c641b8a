"""Where the fields of a table, an edit, a base and a message are, by the names of docs/FORMATS.md: so that the lines of the data files name a field and
not a place.

table      magic version target entries.count blocks.count, of each block blocks[0].length blocks[0].last_key blocks[0].last_trailer,
           of each entry entries[0].key entries[0].trailer entries[0].value
edit       number kind flushed epoch next_file removed.count removed[0] .. added.count, and files added[0] ..
base       number flushed epoch next_file files.count, and files files[0] ..
a file     number level smallest largest bytes entries, as added[0].number
message    magic version kind sender.role sender.number receiver.role receiver.number, and of its kind
           job.epoch job.number job.level job.target job.points.count job.points[0] .. job.inputs.count, files job.inputs[0] ..,
               job.deeper.count job.deeper[0].first job.deeper[0].second ..
           fetch.file   table.file table.bytes   gone.file   result.epoch result.number result.tables.count result.tables[0] ..   ask.version
           edit.number and what else an edit has   base.number and what else a base has   current.version

A key, a value and a table have their length before them, as entries[0].key.length."""


class Layout:
    """Bytes that are laid out from the front: where each field begins, and how many bytes it has. A field that they do not hold whole has no place."""

    def __init__(self, data):
        self.data, self.at, self.places = data, 0, {}

    def left(self):
        return len(self.data) - self.at

    def field(self, name, width):
        """The bytes of a field."""
        if width <= self.left():
            self.places[name] = self.at, width
        self.at += width
        return self.data[self.at - width : self.at]

    def number(self, name, width):
        return int.from_bytes(self.field(name, width), "big")

    def text(self, name, width):
        """Bytes behind their length."""
        self.field(name, self.number(f"{name}.length", width))

    def items(self, name, width):
        """The names of the items behind their count, while there are bytes."""
        for at in range(self.number(f"{name}.count", width)):
            if self.left() <= 0:
                return
            yield f"{name}[{at}]"


def table(fields):
    fields.number("magic", 4)
    fields.number("version", 1)
    fields.number("target", 4)
    fields.number("entries.count", 4)
    length = 0
    for block in fields.items("blocks", 4):
        length += fields.number(f"{block}.length", 4)
        fields.text(f"{block}.last_key", 2)
        fields.number(f"{block}.last_trailer", 8)
    entries(fields, fields.at + length)


def entries(fields, end):
    count = 0
    while fields.at < end and fields.left() > 0:
        fields.text(f"entries[{count}].key", 2)
        fields.number(f"entries[{count}].trailer", 8)
        fields.text(f"entries[{count}].value", 4)
        count += 1


def file(fields, name):
    fields.number(f"{name}.number", 8)
    fields.number(f"{name}.level", 1)
    fields.text(f"{name}.smallest", 2)
    fields.text(f"{name}.largest", 2)
    fields.number(f"{name}.bytes", 4)
    fields.number(f"{name}.entries", 4)


def edit(fields, of=""):
    fields.number(f"{of}number", 8)
    fields.number(f"{of}kind", 1)
    for name in ("flushed", "epoch", "next_file"):
        fields.number(f"{of}{name}", 8)
    for name in fields.items(f"{of}removed", 4):
        fields.number(name, 8)
    for name in fields.items(f"{of}added", 4):
        file(fields, name)


def base(fields, of=""):
    for name in ("number", "flushed", "epoch", "next_file"):
        fields.number(f"{of}{name}", 8)
    for name in fields.items(f"{of}files", 4):
        file(fields, name)


def job(fields):
    fields.number("job.epoch", 8)
    fields.number("job.number", 8)
    fields.number("job.level", 1)
    fields.number("job.target", 4)
    for name in fields.items("job.points", 1):
        fields.number(name, 8)
    for name in fields.items("job.inputs", 2):
        file(fields, name)
    for name in fields.items("job.deeper", 4):
        fields.text(f"{name}.first", 2)
        fields.text(f"{name}.second", 2)


def result(fields):
    fields.number("result.epoch", 8)
    fields.number("result.number", 8)
    for name in fields.items("result.tables", 4):
        fields.text(name, 4)


def file_and_table(fields):
    fields.number("table.file", 8)
    fields.text("table.bytes", 4)


# In the order of the numbers of the kinds.
BODIES = {
    "job": job,
    "fetch": lambda fields: fields.number("fetch.file", 8),
    "table": file_and_table,
    "gone": lambda fields: fields.number("gone.file", 8),
    "result": result,
    "ask": lambda fields: fields.number("ask.version", 8),
    "edit": lambda fields: edit(fields, "edit."),
    "base": lambda fields: base(fields, "base."),
    "current": lambda fields: fields.number("current.version", 8),
}


def message(fields):
    fields.number("magic", 4)
    fields.number("version", 1)
    kind = fields.number("kind", 1)
    for node in ("sender", "receiver"):
        fields.number(f"{node}.role", 1)
        fields.number(f"{node}.number", 1)
    if 1 <= kind <= len(BODIES):
        [*BODIES.values()][kind - 1](fields)


FORMATS = {"table": table, "get": table, "edit": edit, "edits": edit, "base": base, "message": message}


def places(kind, data):
    """Of each field of a line's bytes where it begins and how many bytes it has."""
    fields = Layout(data)
    FORMATS[kind](fields)
    return fields.places


def place(kind, data, name):
    """Where a field begins and how many bytes it has; or one byte of it, counted from 0, as 'number.7'; or a byte that is named by its place alone."""
    if name.isdigit():
        return int(name), 1
    field, _, byte = name.rpartition(".") if name.rpartition(".")[2].isdigit() else (name, "", "")
    found = places(kind, data)
    assert field in found, f"these bytes have no field {field}"
    at, width = found[field]
    if not byte:
        return at, width
    assert int(byte) < width, f"{field} has no byte {byte}"
    return at + int(byte), 1


def name_of(kind, data, at):
    """The name of the byte at this place, by the field that has it."""
    for field, (begin, width) in places(kind, data).items():
        if begin <= at < begin + width:
            return field if width == 1 else f"{field}.{at - begin}"
    return str(at)
