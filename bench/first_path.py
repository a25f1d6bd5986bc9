"""Prints how many calls of clock_gettime a second the program serves over 0, 1, 16 and 1,000 mapped pages.

Over no page each call is refused with EFAULT; over the others it stores eight bytes in the last page, the same each time, so that
the report has no line of changes. Run it by hand, on an idle machine: over 16 pages a run should take at most 1.5 times as long as
over none.
"""
from timing import shortest

CALLS = 100_000


def script(pages):
    last = 0x1000 * max(pages, 1)
    mapped = [f"page {0x1000 * (number + 1):x} rw -" for number in range(pages)]
    return ["abi ia32 1", *mapped] + [f"call 109 0 {last:x} 0 0 0 0 0 0 0"] * CALLS


over_none = shortest("run", script(0))
for pages in (0, 1, 16, 1_000):
    seconds = shortest("run", script(pages)) if pages else over_none
    print(f"{pages:5} pages: {CALLS / seconds:10,.0f} calls a second, {seconds / over_none:.2f} times as long as over none")
