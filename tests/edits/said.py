"""What a check printed. All that is read of the checker's words is read here."""
import re


class Said:
    """The lines of a check under --allow-holes, by function: how each ended, and what was not proved of it."""

    ended = re.compile(r"(?m)^only=\d+ holes=\d+$")
    function = re.compile(r"fn (\S+): (.*)")
    goal = re.compile(r"note: src/\S+: (?:it is not proved that|`search` found no proof)")
    # The name of a goal in backquotes ends the head of its note; a refused answer or lemma has its own name in front.
    goal_name = re.compile(r"\(`([^`]+)`\)(?=[;:]|$)")
    of_proof = re.compile(r"(?:\./)?proofs/(\S+)/\w+\.antt:\d+:\d+: error: (?:`([^`]+)`: )?(.*)")
    of_source = re.compile(r"(?m)^(?:\./)?(src/\S+\.rt):(\d+):\d+: error(.*)$")
    # A proof file that names what an edit took away is refused for that alone: it says nothing of a clause.
    of_names = re.compile(r"has no field|is not in scope|has no `|was not admitted")

    def __init__(self, text):
        self.text, self.words, self.goals, self.errors = text, {}, {}, {}
        goals = []
        for line in text.split("\n"):
            if self.goal.match(line):
                goals.append((self.goal_name.findall(line) or [""])[-1])
            if found := self.of_proof.match(line):
                self.errors.setdefault(found[1], []).append((found[2] or "", found[3]))
            if found := self.function.match(line):
                self.words[found[1]], self.goals[found[1]], goals = found[2], goals, []
        self.has_ended = bool(self.ended.search(text))

    def of(self, path):
        """Returns how one function ended: proved, refused, names (refused for a name alone), waits or unknown."""
        words = self.words[path]
        # What it calls was taken at its word, by a hole where nothing is edited.
        if words.startswith(("no holes", "depends on a hole in")):
            return "proved"
        if words.startswith("no proof: expected answers"):
            return "refused" if "did not prove" in words else "unknown"
        if words.startswith("not proved"):
            told = self.errors.get(self.folder(path), [])
            if self.goals[path] or any(not self.of_names.search(why) for _, why in told):
                return "refused"
            return "names" if told else "waits" if "; it calls" in words else "unknown"
        return "waits" if re.match(r"no proof: (it calls|it passes|a call of)", words) else "unknown"

    @staticmethod
    def folder(path):
        return "/".join(path.split("::")[1:])

    def own(self, path):
        """Returns the lines of a function: its own and those of its closures."""
        parts = path.split("::")
        heads = ["::".join([*parts[:at], "fn", *parts[at:], ""]) for at in range(1, len(parts))]
        return [it for it in self.words if it == path or it.startswith(tuple(heads))]

    def verdict(self, paths):
        """Returns how the functions of an edit ended: as the first of these words that one of them has."""
        found = {self.of(line) for path in paths for line in self.own(path)}
        return next((it for it in ("refused", "names", "waits", "unknown", "proved") if it in found), "unknown")

    def clauses(self, paths):
        """Returns by what the functions of an edit were refused, in words of the source: clauses, loops, and the kinds of safety."""
        found = set()
        for line in (it for path in paths for it in self.own(path) if self.of(it) == "refused"):
            names = [*self.goals[line], *re.findall(r"`([^`]+)`", self.words[line].partition("did not prove")[2].partition(";")[0])]
            names += [name for name, why in self.errors.get(self.folder(line), []) if not self.of_names.search(why)]
            found |= {clause_of(it) for it in names if it}
        return sorted(found) or ["a proof of its own"]

    def refused(self):
        return [it for it in self.words if self.of(it) in ("refused", "names")]

    def first_error(self):
        errors = [it for it in self.text.split("\n") if re.search(r"error[\[:]|^rattle:", it)]
        return (errors or self.text.rstrip("\n").split("\n"))[0][:300]


def clause_of(goal):
    """Returns what a goal is about, without the branch in which it stands: an ensures, a callee's requires, a loop, an invariant, or else its kind."""
    if found := re.match(r"(?:\w+-)*?(\S+)-clause-(\w+)$", goal):
        return f"{found[2]} of {found[1]}" if goal.startswith("invariant_of") else found[2]
    if goal.partition("-")[0] == "returns":
        return "ensures"
    if found := re.match(r"(.+?)-requires(?:-|$)", goal):
        return f"what {found[1]} requires"
    if found := re.match(r"(.+)-(?:init|preserved|smaller)(?:-|$)", goal):
        return f"the loop {found[1]}"
    return goal.partition("-")[0]
