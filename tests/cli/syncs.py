"""A sync that fails: what an import and an opening then say, each sync of them in turn, by the shim of tests/streams."""
import os
import pathlib
import shutil
import subprocess

TOP = pathlib.Path(__file__).resolve().parent.parent.parent


def ask_unsynced(cli, at, *words, given=b"", room):
    """The exit status, standard output and standard error of the program if one of its syncs fails, which are counted from 1."""
    shim = room / "streams.so"
    if not shim.exists():
        compiler = subprocess.run([TOP / "tests/compiler"], capture_output=True, text=True).stdout.strip()
        subprocess.run([compiler, "-shared", "-fPIC", "-o", shim, TOP / "tests/streams/streams.c"], check=True)
    variables = {**os.environ, "LD_PRELOAD": str(shim), "STREAM_SYNC": str(at)}
    ran = subprocess.run(["luddimpa", *words], executable=cli.PROGRAM, input=given, env=variables, cwd=room, capture_output=True, timeout=cli.PATIENCE)
    return ran.returncode, ran.stdout, ran.stderr


def try_import(cli, room):
    """Refuses an import that says how many pairs it has put though they were not synced, or ends well then: each of its syncs fails in turn."""
    fates = []
    for at in range(1, 50):
        status, out, err = ask_unsynced(cli, at, "import", "--dir", f"at-{at}", given=b"put a 1\n", room=room)
        if status == 0:
            cli.case("an import whose syncs don't fail", (b"pairs 1\n", b""), (out, err))
            break
        fates.append(err)
        cli.case(f"an import whose sync {at} fails", (1, b"", True), (status, out, b"Input/output error" in err))
    cli.case("one of them is that of its pairs", 1, sum(it.startswith(b"error: not synced: ") for it in fates))


def try_torn(cli, room):
    """Refuses an opening that does not say what it has set aside, if it is refused then: each of its syncs fails in turn, over torn edits."""
    cli.ask("put", "a", "1", "--dir", "torn", room=room)
    edits = (room / "torn/edits").read_bytes()
    (room / "torn/edits").write_bytes(edits + b"ab")
    said = b"2 torn or damaged bytes behind the last edit are set aside in lost-edits-%d\n" % len(edits)
    unsynced = ["torn-1/edits", "torn-2/log", "torn-3"]
    for at in range(1, 50):
        folder = shutil.copytree(room / "torn", room / f"torn-{at}")
        status, _, err = ask_unsynced(cli, at, "get", "a", "--dir", folder.name, room=room)
        is_gone = (folder / "edits").read_bytes()[len(edits) :] != b"ab"
        cli.case(f"an opening over torn edits whose sync {at} fails says what is gone from there", (True, is_gone), (status == 0 or b"Input/output error" in err, said in err))
        if at <= len(unsynced):
            cli.case("and which file could not be synced", f"{unsynced[at - 1]} could not be synced: Input/output error (os error 5)\n".encode(), err)
        if status == 0:
            break


def try_each(cli, room):
    """Refuses a session of '--sync each' that does not sync each record by itself: a put whose sync fails is refused, and the next one is not."""
    outs = []
    for at in range(1, 20):
        ran = ask_unsynced(cli, at, "store", "--dir", f"each-{at}", "--sync", "each", given=b"put a 1\nput b 2\n", room=room)
        outs.append(ran[1])
        if ran[1] == b"seq 1\nseq 2\n":
            break
    cli.case("a put whose sync fails is refused by itself in a session of '--sync each'", True, b"refused Device\nseq 1\n" in outs)


def tried(cli, room):
    for part in (try_import, try_torn, try_each):
        part(cli, room)
