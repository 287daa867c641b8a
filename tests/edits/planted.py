"""A planted bug: the file that describes it, and the functions that it changes."""
import re

# A constant with its value, from the head of its line on.
CONSTANT = re.compile(rb"(?m)^ *(?:pub(?:\([a-z]+\))? )?const \w+: [^;]+;")


class Edit:
    """A planted bug: the functions that it changes, and its changes as (file, first byte, end, new text)."""

    def __init__(self, file, crate, source):
        self.file, self.paths, self.spans, self.changes, self.fault, self.is_of_law = file, [], [], [], "", False
        with open(file, encoding="utf-8") as it:
            self.text = it.read()
        lines = self.text.split("\n")
        self.paths = [it[4:].strip() for it in lines if it.startswith("fn: ")]
        self.functions = [(path, it) for path in self.paths for it in source.functions if is_at(crate, path, it)]
        unknown = {*self.paths} - {path for path, _ in self.functions}
        if not self.paths or unknown:
            self.fault = f"no function {', '.join(sorted(unknown))}" if unknown else "it has no line 'fn:'"
            return
        self.is_of_law = not any(it.body for _, it in self.functions)
        where = old = None
        for line in lines:
            if line.startswith("file: "):
                where = line[6:].strip()
            elif line.startswith("old: "):
                old = line[5:].encode()
            elif line.startswith("new:") and not self.fault:
                self.take(where, old, line[4:].removeprefix(" ").encode(), source)
        self.fault = self.fault or ("" if self.changes else "it has no 'old:' and 'new:' pair")

    def take(self, where, old, new, source):
        data, own = source.data.get(where, b""), [(it.file, it.first, it.end) for _, it in self.functions]
        places = [(it.opens, it.end, (where, it.first, it.end)) for _, it in self.functions if it.file == where]
        if self.is_of_law:
            places = [(*it.span(), (where, *it.span())) for it in CONSTANT.finditer(data)]
        found = [(first + it.start(), span) for first, end, span in places if old for it in re.finditer(re.escape(old), data[first:end])]
        if len(found) != 1:
            kind = "the constants of its file" if self.is_of_law else "the bodies of its functions"
            self.fault = f"an old text stands {len(found)} times in {kind}, and not once: {(old or b'').decode()[:80]}"
            return
        at, span = found[0]
        self.changes.append((where, at, at + len(old), new))
        self.spans += [span, *(own if self.is_of_law else [])]


def is_at(crate, path, function):
    """Returns whether the check's path may be that of the function: it names its type or its trait's impl, or else its module."""
    *above, name = path.split("::")
    if above[:1] != [crate.name] or name != function.name or not function.has_body:
        return False
    if function.in_trait:
        return function.block.fits(above[-1])
    # An impl at one instance of a generic type has the arguments in its name, each after a '+'.
    return above[-1].partition("+")[0] == function.owner if function.block else above[-1] == [crate.name, *function.module][-1]
