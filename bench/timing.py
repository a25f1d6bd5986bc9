"""What the scripts of bench/ share: the built program, and the shortest of three runs over a script."""
import os
import pathlib
import subprocess
import sys
import time

PROGRAM = pathlib.Path(__file__).resolve().parent.parent / "crates/compat_replay/out/compat_replay"
RUNS = 3


def shortest(word, lines):
    """How many seconds the program takes at least, with this word and a script of these lines on its standard input."""
    if not os.access(PROGRAM, os.X_OK):
        sys.exit("build the program first: cd crates/compat_replay && rt run -- run < stdin")
    script = ("\n".join(lines) + "\n").encode()
    return min(taken(word, script) for _ in range(RUNS))


def taken(word, script):
    start = time.perf_counter()
    subprocess.run([PROGRAM, word], input=script, stdout=subprocess.DEVNULL, check=True)
    return time.perf_counter() - start
