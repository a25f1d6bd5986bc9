"""Prints what the gate takes, crate by crate: `rt ci NAME` for each crate of crates.txt, lowest first, or for those named.

A line has the crate, the seconds that went by, the processors that were busy meanwhile, and the seconds of processor time: of its proof,
of its tests' proofs and runs, and of its must-fail edits, where they aren't kept already on this machine. Each run also runs the tests of
the crates below it again. Run it by hand, on an idle machine; the first one that fails ends it.
"""
import os
import pathlib
import subprocess
import sys
import time

TOP = pathlib.Path(__file__).resolve().parent.parent


def crates():
    """The names in crates.txt, in its order, which is lowest first."""
    lines = (TOP / "crates.txt").read_text().splitlines()
    return [line.split(":")[0].split()[0] for line in lines if line and not line.startswith("#")]


def taken(name):
    """The seconds and the processor seconds of `rt ci NAME`, and whether it passed."""
    start = time.perf_counter()
    child = subprocess.Popen(["rt", "ci", name], cwd=TOP, stdout=subprocess.DEVNULL, stderr=subprocess.DEVNULL)
    _, status, used = os.wait4(child.pid, 0)
    return time.perf_counter() - start, used.ru_utime + used.ru_stime, status == 0


whole = 0.0
for name in sys.argv[1:] or crates():
    seconds, busy, passed = taken(name)
    whole += busy
    print(f"{name:16} {seconds:6.0f} s on {busy / seconds:3.1f} processors, {busy:6.0f} processor seconds", flush=True)
    if not passed:
        sys.exit(f"{name} isn't proved")
print(f"{'all':16} {whole:6.0f} processor seconds")
