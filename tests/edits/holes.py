"""Proof files of one hole, for what no edit of a round changes.

A check takes a function with such a proof at its word: what calls it is judged by its contract, and nothing of it is proved."""
import glob
import os

# The proof files that are one function's own.
OWN = ("Answers.antt", "Invariants.antt", "Proof.antt")
HOLE = """use Rattle.{crate}.proofs.{module}.Statement.{{statement}}

pub {name}_spec : {{M : Type 1}} → statement M
{name}_spec = ?
"""


def folders_of(crate, source):
    """Returns the folders below proofs/ of the crate's functions, of most of them: one that is missed is proved, and one that is no function's is passed over."""
    found = set()
    for it in source.functions:
        if not it.has_body or it.in_cycle or (it.block and it.block.is_trait):
            continue
        if it.in_trait:
            owners = [(*it.module, "".join(instance(it.block)))]
        elif it.block:
            owners = [(*module, it.owner) for module, *_ in source.declared.get(it.owner, [])]
        else:
            owners = [it.module]
        found |= {(*owner, it.name) for owner in owners}
    return found | started(crate.folder)


def started(folder):
    """Returns the folders below proofs/ that have a proof file of one function: of a cycle of functions it begins with a plus, and of a closure it stands in fn/."""
    files = [it for name in OWN for it in glob.glob(f"{folder}/proofs/**/{name}", recursive=True)]
    found = {tuple(os.path.relpath(os.path.dirname(it), f"{folder}/proofs").split("/")) for it in files}
    return {it for it in found if "fn" not in it[:-1] and not it[-1].startswith("+")}


def instance(block):
    """Returns the words of a check's name for an impl: its type, its trait, and what the trait is of."""
    trait = [it for it in block.trait if it.isidentifier()]
    words = [it for it in block.ty if it.isidentifier() and it not in ("mut", "const", "dyn")]
    # Of a path the last name counts.
    last = lambda names, marks: [a for a, b in zip(marks, [*marks[1:], ""]) if a in names and b != ":"]
    return [*last(words, block.ty)[:1], *last(trait, block.trait)[:2]]


def make(room, crate, folders, edited):
    """Gives the functions of these folders a proof of one hole in a copy of the crate, all but the edited ones."""
    kept = {tuple(path.split("::")[1:]) for path in edited}
    for parts in folders - kept:
        folder = "/".join([room, "proofs", *parts])
        os.makedirs(folder, exist_ok=True)
        for it in OWN:
            if os.path.exists(f"{folder}/{it}"):
                os.remove(f"{folder}/{it}")
        with open(f"{folder}/Proof.antt", "w", encoding="utf-8") as it:
            it.write(HOLE.format(crate=crate.name, module=".".join(parts), name=parts[-1]))


def begin_answers(room, paths):
    """Gives edited functions without a proof file an empty one: a check then spends no time on a file to offer for what it can't prove."""
    for path in paths:
        folder = "/".join([room, "proofs", *path.split("::")[1:]])
        if not any(os.path.exists(f"{folder}/{it}") for it in ("Answers.antt", "Proof.antt")):
            os.makedirs(folder, exist_ok=True)
            with open(f"{folder}/Answers.antt", "w", encoding="utf-8"):
                pass
