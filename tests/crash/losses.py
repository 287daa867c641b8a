"""What may be lost, by who syncs the log and by the kind of stop: the table of docs/GUIDE.md, word for word, which tests/documents compares with this one. The
scripts of tests/crash/run hold the program to its first row, and log_changes.py holds a folder that a library opens to the others."""

KILL, POWER_CUT = "A killed process loses", "A power cut loses"
NOTHING = "nothing that was answered"
LAST_ONES = "the last writes since a sync"
# Of who answers: what each kind of stop may take.
TABLE = {
    "`store` and `serve`, in each way of `--sync`": {KILL: NOTHING, POWER_CUT: NOTHING},
    "a library, `LogSync::Each`": {KILL: NOTHING, POWER_CUT: NOTHING},
    "a library, `LogSync::Asked`": {KILL: NOTHING, POWER_CUT: LAST_ONES},
    "a library, `LogSync::Gathered`": {KILL: LAST_ONES, POWER_CUT: LAST_ONES},
}


def takes_last_ones(sync):
    """The stops that may take what was not synced of a folder that a library opens."""
    return [stop for stop, what in TABLE[f"a library, `LogSync::{sync.capitalize()}`"].items() if what == LAST_ONES]


def lines():
    """The lines of the table."""
    head = [f"| What was answered by | {KILL} | {POWER_CUT} |", "|---|---|---|"]
    return head + [f"| {who} | {row[KILL]} | {row[POWER_CUT]} |" for who, row in TABLE.items()]
