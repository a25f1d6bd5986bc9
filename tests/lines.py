"""Has `check` read scripts, each good or with one bad line, and compares what it writes: lines.py PROGRAM

`ok RECORDS` counts the header, in hexadecimal; `bad LINE CAUSE` has the first bad line and its first cause.
"""
import subprocess
import sys

CASES = [
    # The first line that counts is the header. Empty lines and comments are passed over and counted.
    (b"", "bad 1 header"),
    (b"# a\n\n#\n", "bad 4 header"),
    (b"\n# a\nabi arm 1\n\n#\nshow\n", "ok 2"),
    (b"abi ia32 1", "bad 1 unended"),
    (b"abi ia32 01\n", "bad 1 header"),
    (b"#\nabi ia32 1 \n", "bad 2 header"),
    (b"clock 0 0\n", "bad 1 header"),
    (b"abi ia32 1\n\nabi ia32 1\n", "bad 3 word"),
    (b"abi ia32 1\nabi x\n", "bad 2 word"),
    # The first field is a word of the grammar, and the fields have their number.
    (b"abi arm 1\n show\n", "bad 2 word"),
    (b"abi arm 1\n #\n", "bad 2 word"),
    (b"abi arm 1\nDir /d 5\n", "bad 2 word"),
    (b"abi arm 1\nshow\r\n", "bad 2 word"),
    (b"abi arm 1\nshow \n", "bad 2 count"),
    (b"abi arm 1\nclock\n", "bad 2 count"),
    (b"abi arm 1\nclock 0 0 \n", "bad 2 count"),
    (b"abi arm 1\nclock  0\n", "bad 2 field"),
    (b"abi arm 1\nclock 0\t0\n", "bad 2 count"),
    (b"abi arm 1\ncall 0 0 0 0 0 0 0 0 0 0\n", "bad 2 count"),
    (b"abi arm 1\ncall 0 0 0 0 0 0 0 0 0 0 0 0 0 0 0 0 0\n", "ok 2"),
    (b"abi ia32 1\ncall 0 0 0 0 0 0 0 0 0 0\n", "ok 2"),
    (b"abi ia32 1\ncall 0 0 0 0 0 0 0 0 0 z\n", "bad 2 field"),
    (b"abi ia32 1\nusage 0 0 0 0 0 0 0 0 0 0 0 0 0 0 0 0 0\n", "bad 2 count"),
    # A field has its spelling and its range, digits of either case.
    (b"abi arm 1\nwho 3FFFFF ffffffff 0 1\n", "ok 2"),
    (b"abi arm 1\nwho 1 0 0 01\n", "bad 2 field"),
    (b"abi arm 1\nwho 0 0 0 0\n", "bad 2 field"),
    (b"abi arm 1\nwho 400000 0 0 0\n", "bad 2 field"),
    (b"abi arm 1\nclock 3fffffffffffffff 0000000000000001\n", "ok 2"),
    (b"abi arm 1\nclock 4000000000000000 0\n", "bad 2 field"),
    (b"abi arm 1\nadvance 00000000000000001\n", "bad 2 field"),
    (b"abi arm 1\nadvance 0x1\n", "bad 2 field"),
    (b"abi arm 1\nrestorer 0000000100000000\n", "bad 2 field"),
    (b"abi arm 1\npage 1001 r -\n", "bad 2 field"),
    (b"abi arm 1\npage 1000 w -\n", "bad 2 field"),
    (b"abi arm 1\npoke 1000 \n", "bad 2 field"),
    (b"abi arm 1\npoke 1000 123\n", "bad 2 field"),
    # Image lines stand before the first event, and what is named once stands once; a poke lies in mapped pages.
    (b"abi arm 1\nshow\nclock 0 0\n", "bad 3 order"),
    (b"abi arm 1\nclock 0 0\nadvance 0\nclock 0 0\n", "bad 4 order"),
    (b"abi arm 1\nshow\nclock 0 z\n", "bad 3 field"),
    (b"abi arm 1\nshow\nclock 0 0", "bad 3 unended"),
    (b"abi arm 1\nclock 0 0\nclock 0 0\n", "bad 3 image"),
    (b"abi arm 1\nwho 1 0 0 0\nrestorer 0\nwho 1 0 0 0\n", "bad 4 image"),
    (b"abi arm 1\nrestorer 0\n#\nrestorer 0\n", "bad 4 image"),
    (b"abi arm 1\npage 1000 r -\npage 2000 r -\npage 1000 rw -\n", "bad 4 image"),
    (b"abi arm 1\npoke 1000 -\npoke 1000 00\npage 1000 r -\n", "bad 3 image"),
    (b"abi arm 1\npage 2000 r -\npage 1000 r -\npoke 1fff 0000\nshow\npoke 2fff 00\n", "ok 6"),
    (b"abi arm 1\npage 2000 r -\npoke 2fff 0000\n", "bad 3 image"),
    (b"abi arm 1\npage 0 r -\npage fffff000 r -\npoke ffffffff 0000\n", "bad 4 image"),
    (b"abi arm 1\npage 1000 rw -\npoke 1000 00\npage 2000 r -\n", "ok 4"),
    # The fields of dir, file and data.
    (b"abi arm 1\ndir /!~ 7fffffffffffffff\n", "ok 2"),
    (b"abi arm 1\nfile /... 0000000000000001 10000000000\n", "ok 2"),
    (b"abi arm 1\ndir /d 5", "bad 2 unended"),
    (b"abi arm 1\ndir /d\n", "bad 2 count"),
    (b"abi arm 1\nfile /f 5\n", "bad 2 count"),
    (b"abi arm 1\ndata /f 0 00 \n", "bad 2 count"),
    (b"abi arm 1\ndir /d 0\n", "bad 2 field"),
    (b"abi arm 1\ndir /d 8000000000000000\n", "bad 2 field"),
    (b"abi arm 1\ndir /d 00000000000000005\n", "bad 2 field"),
    (b"abi arm 1\nfile /f 5 10000000001\n", "bad 2 field"),
    (b"abi arm 1\ndata /f 0 0\n", "bad 2 field"),
    (b"abi arm 1\ndata /f 0 \n", "bad 2 field"),
    # A path is names of 1 to 255 bytes behind slashes.
    (b"abi arm 1\ndir /d 5\ndir /d/.d 6\n", "ok 3"),
    (b"abi arm 1\ndir / 5\n", "bad 2 field"),
    (b"abi arm 1\ndir  5\n", "bad 2 field"),
    (b"abi arm 1\ndir d 5\n", "bad 2 field"),
    (b"abi arm 1\ndir //d 5\n", "bad 2 field"),
    (b"abi arm 1\ndir /d/ 5\n", "bad 2 field"),
    (b"abi arm 1\ndir /. 5\n", "bad 2 field"),
    (b"abi arm 1\nfile /../f 5 0\n", "bad 2 field"),
    (b"abi arm 1\nfile /\x7f 5 0\n", "bad 2 field"),
    (b"abi arm 1\ndata /\t 0 -\n", "bad 2 field"),
    # The places of dir, file and data: a parent, a new inode, before the first event.
    (b"abi arm 1\nshow\ndir /d 0\n", "bad 3 field"),
    (b"abi arm 1\nshow\ndir /d 2\n", "bad 3 order"),
    (b"abi arm 1\nadvance 0\nfile /f 5 0\n", "bad 3 order"),
    (b"abi arm 1\nshow\ndata /f 0 -\n", "bad 3 order"),
    (b"abi arm 1\ndir /d 2\n", "bad 2 image"),
    (b"abi arm 1\ndir /d 5\nfile /f 5 0\n", "bad 3 image"),
    (b"abi arm 1\nfile /f 5 0\ndir /f 6\n", "bad 3 image"),
    (b"abi arm 1\nfile /d/f 5 0\n", "bad 2 image"),
    (b"abi arm 1\nfile /f 5 0\ndir /f/d 6\n", "bad 3 image"),
    # Data lies within a file that a line above it makes.
    (b"abi arm 1\ndir /d 5\nfile /d/f 6 4\ndata /d/f 3 00\ndata /d/f 4 -\n", "ok 5"),
    (b"abi arm 1\nfile /f 5 4\ndata /f 3 0000\n", "bad 3 image"),
    (b"abi arm 1\nfile /f 5 4\ndata /f 5 -\n", "bad 3 image"),
    (b"abi arm 1\nfile /f 5 4\ndata /f ffffffffffffffff 00\n", "bad 3 image"),
    (b"abi arm 1\nfile /f 5 4\ndata /g 0 -\n", "bad 3 image"),
    (b"abi arm 1\ndir /d 5\ndata /d 0 -\n", "bad 3 image"),
    # A lock lies on a file above it, below 2^63.
    (b"abi ia32 1\nfile /f 7 0\nlock /f w 8000000000000000 0 7fffffff\n", "ok 3"),
    (b"abi ia32 1\nlock /f w 0 0 1\n", "bad 2 image"),
    (b"abi ia32 1\nfile /f 7 0\nlock /f w 1 8000000000000000 1\n", "bad 3 field"),
    (b"abi ia32 1\nfile /f 7 0\nlock /f r 0 0 80000000\n", "bad 3 field"),
    (b"abi ia32 1\nfile /f 7 0\nlock /f r 0 0\n", "bad 3 count"),
    # post and queue are events, of signals 1 to 64.
    (b"abi arm 1\npost 1 0 0\nqueue 40 ffffffff 0 FFFFFFFF\npost 0000000000000040 3e8 0\n", "ok 4"),
    (b"abi arm 1\npost 0 0 0\n", "bad 2 field"),
    (b"abi arm 1\npost 41 0 0\n", "bad 2 field"),
    (b"abi arm 1\nqueue 41 0 0 0\n", "bad 2 field"),
    (b"abi arm 1\npost 00000000000000001 0 0\n", "bad 2 field"),
    (b"abi arm 1\npost 1 100000000 0\n", "bad 2 field"),
    (b"abi arm 1\nqueue 1 0 0 100000000\n", "bad 2 field"),
    (b"abi arm 1\npost 1 0\n", "bad 2 count"),
    (b"abi arm 1\npost 1 0 0 0\n", "bad 2 count"),
    (b"abi arm 1\nqueue 1 0 0\n", "bad 2 count"),
    (b"abi arm 1\npost 1 0 0\nclock 0 0\n", "bad 3 order"),
    (b"abi arm 1\nshow\nqueue 1 0 0 0\nrestorer 0\n", "bad 4 order"),
    # A name has 255 bytes and no more, a line 16,384, a comment too.
    (b"abi arm 1\ndir /" + b"n" * 255 + b" 5\n", "ok 2"),
    (b"abi arm 1\ndir /" + b"n" * 256 + b" 5\n", "bad 2 field"),
    (b"abi arm 1\n" + b"#" * 16384 + b"\n", "ok 1"),
    (b"abi arm 1\n" + b"#" * 16385 + b"\n", "bad 2 long"),
]


def main():
    program, wrong = sys.argv[1], 0
    for script, want in CASES:
        done = subprocess.run([program, "check"], input=script, capture_output=True, timeout=60)
        told = (done.returncode, done.stdout)
        if told != (0 if want.startswith("ok") else 2, want.encode() + b"\n"):
            print(f"{script[:80]!r} is told as {told!r}, not {want}")
            wrong += 1
    print(f"lines.py: {len(CASES) - wrong} scripts right, {wrong} wrong")
    return 1 if wrong else 0


if __name__ == "__main__":
    sys.exit(main())
