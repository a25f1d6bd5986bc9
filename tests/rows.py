"""Runs the program on the scripts of tests/rows: rows.py PROGRAM [NAME ..]

A row is a folder with `args` (the program's words, on one line), `script` (its standard input), `status` (the exit status) and
one of two files: `report` is the whole standard output; `expect` has a line for each line that it must have, in any order, a
line twice where it is needed twice. There `!LINE` is a line that it must not have, and `!^TEXT` a beginning that no line has.
"""
import collections
import pathlib
import subprocess
import sys

ROWS = pathlib.Path(__file__).resolve().parent / "rows"


def wrong_report(got, want):
    got, want = got.split(b"\n"), want.split(b"\n")
    for number in range(max(len(got), len(want))):
        told = got[number] if number < len(got) else b"(none)"
        line = want[number] if number < len(want) else b"(none)"
        if told != line:
            return [f"line {number + 1} is {told[:120]!r}, not {line[:120]!r}"]
    return []


def wrong_lines(got, want):
    lines = got.split(b"\n")
    have, need, wrong = collections.Counter(lines), collections.Counter(), []
    for line in filter(None, want.split(b"\n")):
        if line.startswith(b"!^"):
            wrong += [f"has {told[:120]!r}" for told in lines if told.startswith(line[2:])]
        elif line.startswith(b"!"):
            wrong += [f"has {line[1:]!r}"] if have[line[1:]] else []
        else:
            need[line] += 1
    return wrong + [f"lacks {line[:120]!r}" for line, count in need.items() if have[line] < count]


def faults(row, program):
    words = (row / "args").read_text().split()
    script = (row / "script").read_bytes()
    try:
        done = subprocess.run([program] + words, input=script, capture_output=True, timeout=120)
    except subprocess.TimeoutExpired:
        return ["no end in 120 seconds"]
    status = int((row / "status").read_text())
    wrong = [] if done.returncode == status else [f"status {done.returncode}, not {status}"]
    if (row / "report").exists():
        return wrong + wrong_report(done.stdout, (row / "report").read_bytes())
    return wrong + wrong_lines(done.stdout, (row / "expect").read_bytes())


def main():
    program, names = sys.argv[1], sys.argv[2:]
    passed = failed = 0
    for row in [ROWS / name for name in names] or sorted(ROWS.iterdir()):
        wrong = faults(row, program)
        for fault in wrong[:4]:
            print(f"{row.name}: {fault}")
        passed, failed = passed + (not wrong), failed + bool(wrong)
    print(f"{passed} passed, {failed} failed")
    return 1 if failed or not passed else 0


sys.exit(main())
