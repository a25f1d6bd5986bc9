"""Prints how many bytes a second go through a pipe, in pieces of 512 and 4,096 bytes, and through writev, in one piece and in 1,024.

Each figure is the shortest of a few runs, less a run of the same script without the calls. Run it by hand, on an idle machine.
"""
from timing import shortest

ROUNDS = 2_000
PIECE = 0x1000
IMAGE = ["abi ia32 1", "page 1000 rw 2f6600", f"page 2000 rw {'41' * 0x800}", "page 3000 rw -", "page 4000 rw -", "page 5000 rw -", "page 6000 rw -", "file /f 7 0"]
OPEN = ["call 5 1000 8002 0 0 0 0 0 0 0", "call 2a 3000 0 0 0 0 0 0 0 0"]


def pipe(count):
    for _ in range(ROUNDS * PIECE // count):
        yield f"call 4 2 2000 {count:x} 0 0 0 0 0 0"
        yield f"call 3 1 3000 {count:x} 0 0 0 0 0 0"


def entries(number):
    """Lines that store a vector of so many pieces of 4,096 bytes in all."""
    count = PIECE // number
    entry = (0x2000).to_bytes(4, "little") + count.to_bytes(4, "little")
    table = (entry * number).hex()
    for at in range(0, len(table), 0x1000):
        yield f"poke {0x4000 + at // 2:x} {table[at:at + 0x1000]}"


def writev(number):
    for _ in range(ROUNDS):
        yield f"call 92 0 4000 {number:x} 0 0 0 0 0 0"
        yield "call 13 0 0 0 0 0 0 0 0 0"


def told(label, before, calls):
    seconds = shortest("run", [*IMAGE, *OPEN, *before, *calls]) - shortest("run", [*IMAGE, *OPEN, *before])
    print(f"{label:32} {ROUNDS * PIECE / max(seconds, 1e-9):14,.0f} bytes a second")


for count in (0x200, PIECE):
    told(f"a pipe, {count} bytes at a time", [], pipe(count))
for number in (1, 0x400):
    told(f"writev, {number} pieces", list(entries(number)), writev(number))
