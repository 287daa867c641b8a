"""A crate under its planted bugs, many of them in one text."""
import collections
import os
import subprocess
import tempfile

import holes
from planted import Edit
from said import Said

MOST_EDITS = 20


class Rounds:
    """A crate under its bugs. What one round checked is kept for the next, in a folder of this run.

    Once it has run, `given` has for each file why the bug is not refused, or nothing, and `clauses` by what each was refused."""

    def __init__(self, crate, files, source, words, kept, verdicts, log):
        self.crate, self.source, self.words, self.kept, self.verdicts, self.log = crate, source, words, kept, verdicts, log
        self.rounds = self.seconds = self.bytes = self.earlier = 0
        self.folders = holes.folders_of(crate, source)
        self.edits = [Edit(it, crate, source) for it in files]
        self.given, self.clauses, self.left = {it.file: it.fault for it in self.edits if it.fault}, {}, []
        for edit in (it for it in self.edits if not it.fault):
            clauses = verdicts.find(edit)
            if clauses is None:
                self.left.append(edit)
            else:
                self.given[edit.file], self.clauses[edit.file], self.earlier = "", clauses, self.earlier + 1

    def run(self):
        limit = MOST_EDITS
        while self.left:
            # The functions with the most bugs come first, since no round has two of one function. A constant may change what is said of any
            # function, so laws are tried by themselves, and last, as a round begins with what those before it checked.
            load = collections.Counter(span for edit in self.left for span in {*edit.spans})
            self.left.sort(key=lambda edit: (edit.is_of_law, -max(load[span] for span in edit.spans)))
            now, taken = [], set()
            for edit in self.left:
                if len(now) < limit and edit.is_of_law == self.left[0].is_of_law and not taken & {*edit.spans}:
                    now, taken = [*now, edit], taken | {*edit.spans}
            said = self.check(now)
            judged = self.judge(now, said)
            self.verdicts.keep([(edit, self.clauses[edit.file]) for edit in now if self.given.get(edit.file) == ""])
            self.left = [it for it in self.left if it.file not in self.given]
            limit = MOST_EDITS if judged else max(1, len(now) // 2)
        return self

    def judge(self, now, said):
        """Notes what this round says, and returns whether it said anything."""
        before = len(self.given)
        if not said.has_ended:
            broken = self.broken(now, said)
            for edit in broken or now * (len(now) == 1):
                self.given[edit.file] = f"the edited text does not compile, so no contract was tried: {broken.get(edit) or said.first_error()}"
            return len(self.given) > before
        edited = {line for edit in now for path in edit.paths for line in said.own(path)}
        others = [it for it in said.refused() if it not in edited]
        for edit in now:
            verdict = said.verdict(edit.paths)
            if len(now) > 1 and (others or verdict in ("waits", "unknown")):
                continue
            self.given[edit.file] = {
                "refused": "" if not others else f"another function fails: {others[0]}",
                "proved": "let through: its function is still proved",
                "names": "refused only because a proof file names what the edit took away, which says nothing of a clause",
                "waits": "never judged: its function fails only through what it calls",
                "unknown": f"never judged: {[said.words.get(it) for it in edit.paths]}",
            }[verdict]
            self.clauses[edit.file] = said.clauses(edit.paths)
        return len(self.given) > before

    def broken(self, now, said):
        """Returns the edits in whose functions the front end found an error, each with the error."""
        found = {}
        for where, line, why in said.of_source.findall(said.text):
            for edit in now:
                if any(where == it[0] and first <= int(line) <= last for it in edit.spans for first, last in [self.lines[it]]):
                    found.setdefault(edit, f"{where}:{line}: error{why}"[:300])
        return found

    def edited(self, now):
        """Returns the texts of the files that these edits change, and notes the lines that each edited function then has."""
        texts, self.lines = {}, {}
        for where in {it[0] for edit in now for it in (*edit.changes, *edit.spans)}:
            text, at = b"", 0
            changes = sorted(it for edit in now for it in edit.changes if it[0] == where)
            spans = sorted({it for edit in now for it in edit.spans if it[0] == where})
            for _, first, end, new in changes:
                text, at = text + self.source.data[where][at:first] + new, end
            texts[where] = text + self.source.data[where][at:]
            moved = lambda byte: byte + sum(len(new) - (end - first) for _, first, end, new in changes if end <= byte)
            for span in spans:
                self.lines[span] = [texts[where][: moved(it)].count(b"\n") + 1 for it in span[1:]]
        return texts

    def check(self, now):
        texts, paths = self.edited(now), [path for edit in now for path in edit.paths]
        with tempfile.TemporaryDirectory(prefix="edits-") as room:
            for part in ("src", "specs", "proofs"):
                if os.path.isdir(f"{self.crate.folder}/{part}"):
                    subprocess.run(["cp", "-r", f"{self.crate.folder}/{part}", room], check=True)
            for path, text in texts.items():
                with open(f"{room}/{path}", "wb") as it:
                    it.write(text)
            holes.make(room, self.crate, self.folders, paths)
            holes.begin_answers(room, paths)
            how = {"cwd": room, "stdin": subprocess.DEVNULL, "stdout": subprocess.PIPE, "stderr": subprocess.STDOUT}
            only = [it for path in paths for it in ("--only", path.partition("::")[2])]
            timed = ["--stage-times", f"{self.log}/{self.crate.name}.{self.rounds + 1}.stages"] * bool(self.log)
            ran = subprocess.Popen([*self.words, "--allow-holes", "--short-goals", "--incremental", self.kept, *timed, *only], **how)
            said = ran.stdout.read().decode(errors="replace")
            _, ran.returncode, used = os.wait4(ran.pid, 0)
        self.rounds, self.seconds = self.rounds + 1, self.seconds + used.ru_utime + used.ru_stime
        self.bytes = max(self.bytes, 1024 * used.ru_maxrss)
        if self.log:
            with open(f"{self.log}/{self.crate.name}.{self.rounds}", "w", encoding="utf-8") as it:
                it.write(said)
        return Said(said)
