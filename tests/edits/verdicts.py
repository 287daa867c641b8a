"""What earlier runs of this machine saw refused."""
import functools
import glob
import hashlib
import os

from holes import OWN

PARTS = ("src", "specs", "proofs")


def sum_of(*things):
    return hashlib.sha256(repr(things).encode())


def read(file):
    with open(file, "rb") as it:
        return it.read()


def files_of(folder):
    """Returns the files of a crate's text, each with its path in the crate and its bytes."""
    found = [f"{at}/{name}" for part in PARTS for at, _, names in os.walk(f"{folder}/{part}") for name in names]
    return [(os.path.relpath(it, folder), read(it)) for it in sorted(found)]


@functools.lru_cache(maxsize=None)
def toolchain_sum(kit):
    """Returns a sum of the toolchain: its name, and the bytes of its commands."""
    files = sorted([*glob.glob(f"{kit}/KIT-ID"), *glob.glob(f"{kit}/WHAT*"), *glob.glob(f"{kit}/bin/*")])
    return sum_of([(os.path.relpath(it, kit), hashlib.sha256(read(it)).hexdigest()) for it in files if os.path.isfile(it)]).hexdigest()


class Texts:
    """A crate's text, as what stands on the crate sees it and as its own functions see it. Invariant: the sums are of the text that was read at first."""

    def __init__(self, folder, source):
        self.folder, self.own, self.data = folder, {}, source.data
        files = files_of(folder)
        if any(source.data[where] != data for where, data in files if where in source.data):
            raise OSError(f"{folder} changed while it was read")
        # What a proof elsewhere rests on: signatures, contracts, constants, definitions and lemmas, and no function's body or own proof.
        self.stated = sum_of([(where, blanked(where, data, source)) for where, data in files if os.path.basename(where) not in OWN])
        self.whole = sum_of(files)
        for where, data in files:
            if os.path.basename(where) in OWN:
                self.own.setdefault(os.path.dirname(where), []).append((where, data))

    def is_unchanged(self):
        return sum_of(files_of(self.folder)).digest() == self.whole.digest()

    def proofs_of(self, path):
        """Returns the own proof files of a function and of its closures."""
        parts = path.split("::")[1:]
        heads = ["/".join(["proofs", *parts[:at], "fn", *parts[at:], ""]) for at in range(len(parts))]
        return [files for at, files in sorted(self.own.items()) if at == "/".join(["proofs", *parts]) or f"{at}/".startswith(tuple(heads))]


def blanked(where, data, source):
    """Returns a source file without the bodies of its functions; that of a constant function or of a trait's own may count elsewhere, and stays."""
    spans = [
        (it.opens, it.end)
        for it in source.functions
        if it.file == where and it.body and b"const fn" not in data[it.first : it.opens] and not it.in_cycle and not (it.block and it.block.is_trait)
    ]
    text, at = [], 0
    for opens, end in sorted(spans):
        if opens >= at:
            text, at = [*text, data[at:opens]], end
    return [*text, data[at:]]


class Verdicts:
    """Which bugs of a crate earlier runs saw refused. An entry's name is a sum of all that such a verdict rests on, so none goes stale: this runner,
    the toolchain, the handles, what the crates below and the crate itself state, the bodies and the own proofs of the functions that the bug changes, and the
    bug. A proof stands on its callees' contracts and not on their bodies. The bug of a law changes a constant, which may be used anywhere: of it the whole
    text of the crate counts. A program's check links the bodies below, so of it the whole texts below count."""

    def __init__(self, store, runner, crate, texts, is_anew):
        """The runner is a sum of its own text, and the texts are those of the crate and of the crates below it, by name."""
        self.store, self.crate, self.texts, self.is_anew = store, crate, texts, is_anew
        lines = [(it.name, sorted(it.said.items(), key=repr), [dep.name for dep in it.deps], list(it.of_kit)) for it in (*crate.below(), crate)]
        below = [(it.name, (texts[it.name].whole if crate.is_program else texts[it.name].stated).hexdigest()) for it in crate.below()]
        self.base = sum_of(runner, crate.name, crate.is_program, lines, below)

    def name(self, edit):
        own = self.texts[self.crate.name]
        name = self.base.copy()
        name.update((own.whole if edit.is_of_law else own.stated).digest())
        for path, function in edit.functions:
            name.update(repr((path, own.data[function.file][function.opens : function.end], own.proofs_of(path))).encode())
        name.update(repr((os.path.basename(edit.file), edit.text)).encode())
        return name.hexdigest()

    def find(self, edit):
        """Returns by which clauses the bug was refused, if it was."""
        name = self.name(edit)
        if self.is_anew or not os.path.isfile(f"{self.store}/{name}"):
            return None
        head, *clauses = read(f"{self.store}/{name}").decode(errors="replace").split("\n")
        return clauses if head == f"refused {name}" and clauses else None

    def keep(self, refused):
        """Keeps which bugs were refused, each with the clauses, unless a text is no longer what it was when this run began."""
        if not refused or not all(self.texts[it.name].is_unchanged() for it in (*self.crate.below(), self.crate)):
            return
        os.makedirs(self.store, exist_ok=True)
        for edit, clauses in refused:
            name = self.name(edit)
            with open(f"{self.store}/{name}.{os.getpid()}", "w", encoding="utf-8") as it:
                it.write("\n".join([f"refused {name}", *clauses]))
            os.replace(f"{self.store}/{name}.{os.getpid()}", f"{self.store}/{name}")


def default_store():
    """Returns the folder of this runner's own in which verdicts are kept."""
    return os.path.join(os.environ.get("XDG_CACHE_HOME") or os.path.expanduser("~/.cache"), "luddimpa", "verdicts")
