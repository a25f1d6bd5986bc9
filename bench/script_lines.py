"""Prints how long scripts of 12,500, 25,000, 50,000 and 100,000 lines take to be read by `check`.

Each takes about twice as long as the one of half its length, where a line's work doesn't grow with the lines before it. Of each four
lines one makes a file in a directory of its own, one puts bytes into it, one is a comment, and one pokes a page. Run it by hand, on an
idle machine.
"""
from timing import shortest


def script(count):
    yield from ("abi ia32 1", "page 1000 rw -")
    for number in range(count // 4):
        directory = f"/d{number // 64:x}"
        if number % 64 == 0:
            yield f"dir {directory} {0x100000 + number:x}"
        path = f"{directory}/f{number:x}"
        yield from (f"file {path} {0x10000000 + number:x} 10", f"data {path} 0 616263", "# a comment", "poke 1000 00010203")


before = None
for count in (12_500, 25_000, 50_000, 100_000):
    seconds = shortest("check", script(count))
    longer = f", {seconds / before:.2f} times as long as half of it" if before else ""
    print(f"{count:7,} lines: {seconds:.3f} s{longer}")
    before = seconds
