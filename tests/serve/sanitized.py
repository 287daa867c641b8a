"""The cases of mux.py once more, over a build of tools/redis-mux with a compiler's sanitizers: they end it at a byte that is not its own, and at a
number that overflows, and report memory that it lost. CC names the compiler; if it is not set, clang and gcc are tried."""
import os
import pathlib
import subprocess
import sys
import tempfile

from cases import case, same
from program import TOP

HERE = pathlib.Path(__file__).resolve().parent
SANITIZERS = ["-g", "-O1", "-fsanitize=address,undefined", "-fno-sanitize-recover=all"]
# How long all of its cases may take, in seconds. They wait most of the time, and took 28 with a load of 22, 6 of them of a processor.
PATIENCE = 600


def builds(compiler, program, *sources):
    words = [compiler, "-std=c11", *SANITIZERS, "-Wall", "-Wextra", "-Werror", "-o", program, *sources]
    try:
        return subprocess.run(words, capture_output=True, text=True, timeout=PATIENCE)
    except OSError:
        return None


def has_sanitizers(compiler, room):
    empty = pathlib.Path(room, "empty.c")
    empty.write_text("int main(void) { return 0; }\n")
    built = builds(compiler, pathlib.Path(room, "empty"), empty)
    return built is not None and built.returncode == 0


def compiler_in(room):
    named = [os.environ["CC"]] if os.environ.get("CC") else ["clang", "gcc"]
    return next((it for it in named if has_sanitizers(it, room)), None)


with tempfile.TemporaryDirectory() as room:
    if compiler := compiler_in(room):

        @case(f"the cases of mux.py under {compiler}'s sanitizers")
        def sanitized():
            mux = pathlib.Path(room, "redis-mux")
            built = builds(compiler, mux, *sorted((TOP / "tools/redis_mux").glob("*.c")))
            assert built.returncode == 0, built.stderr[:2000]
            tried = subprocess.run([sys.executable, HERE / "mux.py"], env={**os.environ, "MUX": str(mux)}, capture_output=True, text=True, timeout=PATIENCE)
            wrong = [line for line in tried.stdout.splitlines()[:-1] if not line.startswith("ok ")]
            same((tried.returncode, wrong), (0, []))
    else:
        print("skipped the cases of mux.py under sanitizers: no compiler here has them")
