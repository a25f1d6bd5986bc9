"""Runs the program on scripts that are made here, and compares what it answers with what the layouts say: generated.py PROGRAM

Three kinds: each stored structure of the calls on files with the first byte that can't be written at each of its offsets, structures that are read
with the first byte that can't be read at each of theirs, and a directory of 1,000 names listed through buffers of every size from 1 to 64
bytes above a record.
"""
import struct
import subprocess
import sys

EFAULT, EINVAL = 0xffff_fff2, 0xffff_ffea
ARM_NUMBER = 7


class Abi:
    def __init__(self, name, numbers, sizes):
        self.name, self.numbers, self.sizes = name, numbers, sizes

    def call(self, name, *words):
        if self.name == "ia32":
            registers = [self.numbers[name], *words] + [0] * (9 - len(words))
        else:
            registers = list(words) + [0] * (17 - len(words))
            registers[ARM_NUMBER] = self.numbers[name]
        return "call " + " ".join(f"{word:x}" for word in registers)


COMMON = {"open": 5, "lseek": 19, "pipe": 42, "ioctl": 54, "fcntl": 55, "setrlimit": 75, "_newselect": 142, "writev": 146, "nanosleep": 162, "poll": 168, "sendfile": 187, "sendfile64": 239, "stat": 106, "fstat": 108, "_llseek": 140, "getdents": 141, "stat64": 195, "fstat64": 197, "fcntl64": 221}
ABIS = [
    Abi("ia32", COMMON | {"getdents64": 220, "fstatat64": 300, "utimensat": 320, "prlimit64": 340}, {"stat": 64, "stat64": 96, "flock": 16, "flock64": 24}),
    Abi("arm", COMMON | {"getdents64": 217, "fstatat64": 327, "utimensat": 348, "prlimit64": 369}, {"stat": 64, "stat64": 104, "flock": 16, "flock64": 32}),
]


def answers(program, script):
    """The result and the changes of memory of each call."""
    done = subprocess.run([program, "run"], input=("\n".join(script) + "\n").encode(), capture_output=True, timeout=120, check=True)
    calls = []
    for line in done.stdout.decode().split("\n"):
        fields = line.split(" ")
        if fields[0] == "call":
            calls.append((int(fields[3], 16), {}))
        elif fields[0] == "mem":
            calls[-1][1].update(enumerate(bytes.fromhex(fields[2]), int(fields[1], 16)))
    return calls


def text(path):
    return path.encode().hex() + "00"


def stored_in_part(program, abi):
    """Structures that end past the last byte that can be written: refused, and nothing is stored."""
    # The path, the path of a directory and an empty one; then a page that can be written, and one that can only be read.
    image = [f"abi {abi.name} 1", f"page 1000 rw {text('/f')}", f"poke 1010 {text('/d')}", "page 2000 rw -", "page 3000 r -"]
    image += ["file /f 7 5", "dir /d 5", "file /d/a 9 0"]
    calls = [abi.call("open", 0x1000, 2), abi.call("open", 0x1010, 0)]
    wanted = [0, 1]

    def add(name, size, *words, place, set_up=()):
        for writable in range(size + 1):
            at = 0x3000 - writable
            calls.extend(line.format(at=f"{at:x}") for line in set_up)
            calls.append(abi.call(name, *words[:place], at, *words[place:]))
            wanted.append(0 if writable == size else EFAULT)

    add("stat", abi.sizes["stat"], 0x1000, place=1)
    add("fstat", abi.sizes["stat"], 0, place=1)
    add("stat64", abi.sizes["stat64"], 0x1000, place=1)
    add("fstat64", abi.sizes["stat64"], 0, place=1)
    add("fstatat64", abi.sizes["stat64"], 1, 0x1012, 0x1000, place=2)
    # A lock without conflict at each place: it is read there, and stored there again.
    add("fcntl", abi.sizes["flock"], 0, 5, place=2, set_up=["poke {at} " + "00" * abi.sizes["flock"]])
    add("fcntl64", abi.sizes["flock64"], 0, 12, place=2, set_up=["poke {at} " + "00" * abi.sizes["flock64"]])
    add("_llseek", 8, 0, 0, 0, 0, place=3)
    add("pipe", 8, place=0)
    # Both ends of that pipe are at 2 and 3. An offset, an entry of poll without descriptor events, and sets without a bit are read and stored again.
    add("ioctl", 4, 2, 0x541b, place=2)
    add("sendfile", 4, 3, 0, 0, place=2, set_up=["poke {at} " + "00" * 4])
    add("sendfile64", 8, 3, 0, 0, place=2, set_up=["poke {at} " + "00" * 8])
    add("poll", 8, 1, 0, place=0, set_up=["poke {at} " + "00" * 8])
    for count, size in ((1, 4), (33, 8)):
        for place in (1, 2, 3):
            add("_newselect", size, count, 0, 0, 0, place=place, set_up=["poke {at} " + "00" * size])
    # Records of a listing: as many as can be stored whole; the first one's fault is the answer.
    for name, lengths in (("getdents", [16, 16, 16]), ("getdents64", [24, 24, 24])):
        for writable in range(sum(lengths) + 1):
            calls += [abi.call("lseek", 1, 0, 0), abi.call(name, 1, 0x3000 - writable, 0x1000)]
            whole = max(sum(lengths[:count]) for count in range(4) if sum(lengths[:count]) <= writable)
            wanted += [0, whole or EFAULT]

    wrong = []
    for number, ((result, memory), want) in enumerate(zip(answers(program, image + calls), wanted, strict=True), 1):
        if result != want or (want == EFAULT and memory):
            wrong.append(f"{abi.name}: call {number} answered {result:x} with {len(memory)} bytes changed, not {want:x}")
    return wrong


def read_in_part(program, abi):
    """Structures of zeros that end past the last byte that can be read: refused."""
    image = [f"abi {abi.name} 1", f"page 1000 rw {text('/f')}", "page 3000 r -", "file /f 7 5"]
    calls, wanted = [abi.call("open", 0x1000, 2)], [0]

    def add(name, size, *words, place):
        for readable in range(size + 1):
            calls.append(abi.call(name, *words[:place], 0x4000 - readable, *words[place:]))
            wanted.append(0 if readable == size else EFAULT)

    add("writev", 8, 0, 1, place=1)
    add("writev", 24, 0, 3, place=1)
    add("_newselect", 8, 1, 0, 0, 0, place=4)
    add("utimensat", 16, 0xffff_ff9c, 0x1000, 0, place=2)
    add("nanosleep", 8, 0, place=0)
    add("setrlimit", 8, 1, place=1)
    add("prlimit64", 16, 0, 1, 0, place=2)
    wrong = []
    for number, ((result, memory), want) in enumerate(zip(answers(program, image + calls), wanted, strict=True), 1):
        if result != want or memory:
            wrong.append(f"{abi.name}: call {number} answered {result:x} with {len(memory)} bytes changed, not {want:x}")
    return wrong


def records_in(name, data):
    """The inode, position, kind and name of each record of these bytes."""
    at = 0
    while at < len(data):
        if name == "getdents":
            inode, position, length = struct.unpack_from("<IIH", data, at)
            kind, rest = data[at + length - 1], data[at + 10 : at + length - 1]
        else:
            inode, position, length, kind = struct.unpack_from("<QqHB", data, at)
            rest = data[at + 19 : at + length]
        name_bytes, _, pad = rest.partition(b"\0")
        assert not any(pad), "a pad byte isn't zero"
        yield inode, position, kind, name_bytes.decode()
        at += length


def listed(program, abi, name, record, names):
    """A directory listed through one buffer size after another, each time from its beginning."""
    image = [f"abi {abi.name} 1", f"page 1000 rw {text('/d')}", "page 2000 rw -", "dir /d 5"]
    image += [f"file /d/{text} {0x2000 + number:x} 0" for number, text in enumerate(names)]
    want = [(5, 1, 4, "."), (2, 2, 4, "..")] + [(0x2000 + number, 3 + number, 8, text) for number, text in enumerate(names)]
    calls = [abi.call("open", 0x1000, 0)]
    sizes = range(record + 1, record + 65)
    turns = {}
    for size in sizes:
        # A record of these names has at most `record` bytes, so each call gives at least size // record of them.
        turns[size] = -(-len(want) // (size // record)) + 1
        calls += [abi.call("lseek", 0, 0, 0)] + [abi.call(name, 0, 0x2000, size)] * turns[size]
    given = iter(answers(program, image + calls))
    next(given)
    memory, wrong = bytearray(0x1000), []
    for size in sizes:
        next(given)
        got = []
        for _ in range(turns[size]):
            result, changed = next(given)
            for at, byte in changed.items():
                memory[at - 0x2000] = byte
            assert result <= size, f"{result:x}"
            got += records_in(name, bytes(memory[:result]))
        if got != want:
            wrong.append(f"{abi.name}: {name} through {size} bytes gave {len(got)} records, not the {len(want)} of the directory")
    return wrong


def main():
    program = sys.argv[1]
    names = [f"name-{number:03}" for number in range(1_000)]
    wrong = []
    for abi in ABIS:
        wrong += stored_in_part(program, abi)
        wrong += read_in_part(program, abi)
        wrong += listed(program, abi, "getdents", 20, names)
        wrong += listed(program, abi, "getdents64", 32, names)
    for fault in wrong[:8]:
        print(fault)
    print("generated scripts: " + (f"{len(wrong)} answers are wrong" if wrong else "every answer is right"))
    return 1 if wrong else 0


sys.exit(main())
