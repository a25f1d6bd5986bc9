"""Prints how many calls on a file of 64 KiB the program serves a second: reads, writes, seeks and fstat64, 25,000 of each.

The offsets go through the file by steps of a prime, so that reads and writes begin in each page and cross from one to the next. Run
it by hand, on an idle machine.
"""
from timing import shortest

CALLS = 100_000
SIZE = 0x10000
STEP = 9_973
COUNT = 0x200


def calls():
    place = 0
    for _ in range(CALLS // 4):
        place = (place + STEP) % (SIZE - COUNT)
        yield f"call 13 0 {place:x} 0 0 0 0 0 0 0"
        yield f"call 4 0 2000 {COUNT:x} 0 0 0 0 0 0"
        yield f"call 3 0 3000 {COUNT:x} 0 0 0 0 0 0"
        yield "call c5 0 4000 0 0 0 0 0 0 0"


image = ["abi ia32 1", "page 1000 rw 2f6600", f"page 2000 rw {'41' * COUNT}", "page 3000 rw -", "page 4000 rw -", f"file /f 7 {SIZE:x}"]
seconds = shortest("run", [*image, "call 5 1000 8002 0 0 0 0 0 0 0", *calls()])
print(f"{CALLS / seconds:,.0f} calls a second")
