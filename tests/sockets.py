"""Runs the program on scripts of Unix sockets that are made here, and compares each report with that of a second model: sockets.py PROGRAM

The model is that of socket_model.py. The scripts: calls at random, sockets closed in every order, queues filled to their last message and byte, backlogs
filled to their last connection, names told with room of every size, results stored in part, and a lowered limit of descriptors.
"""
import itertools
import random
import struct
import sys

from socket_model import APPEND, CLOEXEC, NONBLOCK, SIGPIPE, Process, address
from signals import SA_NODEFER, SA_SIGINFO

NAMES, ENTRIES, RESULTS, READ_ONLY, NOWHERE, STACK, SOURCE, TARGET, LAST = 0x1000, 0x1800, 0x2000, 0x3000, 0x5000, 0x9000, 0x1_0000, 0x3_0000, 0xffff_f000
PAGES = [(NAMES, "rw"), (RESULTS, "rw"), (READ_ONLY, "r"), (STACK - 0x1000, "rw"), (LAST, "rw")]
SOURCES = [(SOURCE + page * 4096, "r") for page in range(17)]
TARGETS = [(TARGET + page * 4096, "rw") for page in range(17)]
CONTENT = [bytes((place * 7 + page * 13 + place // 251) & 0xff for place in range(4096)) for page in range(17)]
REGISTERS, STACK_POINTER = {"ia32": 10, "arm": 17}, {"ia32": 7, "arm": 13}
SIZES = [0, 1, 1, 2, 3, 7, 16, 100, 100, 1000, 4095, 4096, 4097, 20_000, 65_535, 65_536, 65_537, 0x7fff_ffff, 0xffff_ffff]
NAME_POOL = [
    b"/a", b"b", b"/a\0x", b"\0", b"\0\0", b"\0a\0b", b"\0" * 108, b"/" + b"n" * 107, b"/long" + b"m" * 102, b"\0" + b"z" * 106,
]


def with_pages(abi, content=b""):
    """A process with bytes to write at SOURCE, room to read into at TARGET, and a page that can be read alone behind it."""
    process = Process(abi, [*PAGES, *SOURCES, *TARGETS], content)
    for (page, _), content in zip(SOURCES, CONTENT):
        process.line_poke(page, content)
    return process


def small(abi, content=b"content of a file"):
    return Process(abi, PAGES, content)


def with_signal(process, handler, flags=0):
    process.line_poke(ENTRIES, struct.pack("<IIIQ", handler, flags, 0, 0))
    process.line_call("rt_sigaction", SIGPIPE, ENTRIES, 0, 8)


def with_address(process, name, call, number, family=1, at=NAMES, length=None):
    data = address(name, family)
    process.line_poke(at, data)
    process.line_call(call, number, at, len(data) if length is None else length)


def with_limit(process, soft, hard=4096):
    process.line_poke(ENTRIES, struct.pack("<II", soft, hard))
    process.line_call("setrlimit", 7, ENTRIES)


def with_poll(process, *numbers, asked=5):
    process.line_poke(ENTRIES, b"".join(struct.pack("<iHH", number, asked, 0xffff) for number in numbers))
    process.line_call("poll", ENTRIES, len(numbers), 0)


class Player:
    """Makes calls at random on a process: mostly good ones, on sockets that are open."""

    def __init__(self, abi, seed):
        self.source, self.abi = random.Random(f"{abi} {seed}"), abi
        self.process = with_pages(abi, self.source.randbytes(self.source.choice([3, 100, 5000, 70_000])))
        self.stack = STACK if seed % 8 == 3 else None
        if seed % 8 < 4:
            with_signal(self.process, 0x8000 if self.stack else 1, SA_NODEFER | SA_SIGINFO if self.stack else 0)
        elif seed % 8 < 6:
            self.process.line_poke(ENTRIES, struct.pack("<Q", 1 << (SIGPIPE - 1)))
            self.process.line_call("rt_sigprocmask", 0, ENTRIES, 0, 8)

    def call(self, name, *words):
        """A call with any numbers in the registers that it doesn't look at."""
        first = len(words) + (self.abi == "ia32")
        others = {place: self.source.getrandbits(32) for place in range(first, REGISTERS[self.abi]) if self.abi == "ia32" or place != 7}
        if self.stack:
            others[STACK_POINTER[self.abi]] = self.stack
        self.process.line_call(name, *words, registers=others)

    def number(self, state=None, kind=None):
        """A descriptor: one of a socket of this state and kind, where there is one and luck allows; now and then of anything else."""
        entries = self.process.descriptors.items()
        luck = self.source.random()
        fitting = [number for number, (file, _) in entries if file.is_socket() and state in (None, file.state) and kind in (None, file.kind)]
        if luck < 0.85 and fitting:
            return self.source.choice(fitting)
        sockets = [number for number, (file, _) in entries if file.is_socket()]
        if luck < 0.92 and sockets:
            return self.source.choice(sockets)
        return self.source.choice([*self.process.descriptors, 77, -1, 0x8000_0000])

    def place(self, good):
        return good if self.source.random() < 0.9 else self.source.choice([0, READ_ONLY - 1, READ_ONLY, NOWHERE, LAST + 0xff0, LAST + 0xffe, 0xffff_ffff])

    # Steps

    def make(self):
        kind = self.source.choice([1, 1, 1, 2]) | self.source.choice([0, 0, 0, NONBLOCK, CLOEXEC, NONBLOCK | CLOEXEC])
        self.call("socket", 1, kind, self.source.choice([0, 1]))

    def make_pair(self):
        kind = self.source.choice([1, 1, 2]) | self.source.choice([0, 0, NONBLOCK, CLOEXEC])
        self.call("socketpair", 1, kind, self.source.choice([0, 1]), self.place(RESULTS + 0x100))

    def make_badly(self):
        domain, kind = self.source.choice([1, 1, 0, 3, 10, -1]), self.source.choice([1, 2, 0, 3, 5, 15, 0x11, 0x401, -1])
        self.call("socket", domain, kind, self.source.choice([0, 1, 2, 255, -1]))
        domain = self.source.choice([1, 1, 2, 3])
        self.call("socketpair", domain, kind, self.source.choice([0, 0, 2]), self.source.choice([RESULTS, NOWHERE]))

    def name_and_address(self):
        name = self.source.choice(NAME_POOL[: self.source.choice([3, 6, 10])])
        data, at = address(name, self.source.choice([1] * 15 + [0, 2, 0x101])), NAMES
        length = len(data) if self.source.random() < 0.9 else self.source.choice([0, 1, 2, 3, 4, 110, 111, 128, -1, 0x8000_0000])
        if self.source.random() < 0.08:
            at = self.source.choice([READ_ONLY + 4096 - 3, READ_ONLY + 4096 - len(data), NOWHERE, 0xffff_fffe])
        if self.process.can(at, len(data)):
            self.process.line_poke(at, data)
        return at, length

    def bind(self):
        number = self.number(state=0)
        self.call("bind", number, *self.name_and_address())

    def connect(self):
        number = self.number(state=self.source.choice([0, 0, None]))
        holders = [file.name for file in self.process.opened if file.bound]
        if holders and self.source.random() < 0.7:
            self.process.line_poke(NAMES, address(self.source.choice(holders)))
            name = self.process.load(NAMES + 2, 108)
            length = next(len(holder) for holder in holders if name.startswith(holder))
            self.call("connect", number, NAMES, length + 2)
        else:
            self.call("connect", number, *self.name_and_address())

    def listen(self):
        bound = [number for number, (file, _) in self.process.descriptors.items() if file.bound]
        number = self.source.choice(bound) if bound and self.source.random() < 0.8 else self.number()
        self.call("listen", number, self.source.choice([-1, 0, 1, 1, 3, 128, 129, 0x8000_0000]))

    def serve(self):
        """A listener with a new name."""
        name = self.source.choice([b"\0", b"/"]) + self.source.randbytes(self.source.choice([1, 5, 107])).replace(b"\0", b"q")
        number = (self.process.free_numbers(1) or [0])[0]
        self.call("socket", 1, 1, 0)
        self.process.line_poke(NAMES, address(name))
        self.call("bind", number, NAMES, len(name) + 2)
        self.call("listen", number, self.source.choice([0, 1, 5]))

    def accept(self):
        number, flags = self.number(state=1), self.source.choice([0, 0, 0, NONBLOCK, CLOEXEC, NONBLOCK | CLOEXEC, 1, -1])
        self.process.line_poke(RESULTS + 0x200, struct.pack("<i", self.source.choice([0, 1, 2, 3, 5, 110, 111, 0x7fff_ffff, -1])))
        at, length_at = self.source.choice([0, self.place(RESULTS + 0x240)]), self.place(RESULTS + 0x200)
        if self.abi == "arm" and self.source.random() < 0.5:
            self.call("accept", number, at, length_at)
        else:
            self.call("accept4", number, at, length_at, flags)

    def tell_name(self):
        length_at = self.place(RESULTS + 0x200)
        self.process.line_poke(RESULTS + 0x200, struct.pack("<i", self.source.choice([0, 1, 2, 3, 5, 110, 111, 200, -1])))
        self.call(self.source.choice(["getsockname", "getpeername"]), self.number(), self.place(RESULTS + 0x300), length_at)

    def shut(self):
        self.call("shutdown", self.number(), self.source.choice([0, 1, 2, 0, 1, 2, 3, -1]))

    def close(self):
        self.call("close", self.number())

    def copy(self):
        number = self.number()
        self.call(*self.source.choice([
            ("dup", number), ("dup2", number, self.number()), ("dup2", number, self.source.choice([5, 40, -1, 1024])),
            ("fcntl", number, 0, self.source.choice([0, 10, 1023, 1024])), ("fcntl", number, 1030, 3), ("fcntl", number, 1, 0),
            ("fcntl", number, 2, self.source.choice([0, 1, 6])), ("fcntl", number, 3, 0), ("fcntl", number, 99, 0),
            ("fcntl", number, 4, self.source.choice([0, NONBLOCK, APPEND, 0xffff])),
        ]))

    def write(self):
        at = self.source.choice([SOURCE, SOURCE + 77, SOURCE + 0x10fff - 9, NAMES]) if self.source.random() < 0.85 else self.place(NOWHERE)
        size = self.source.choice(SIZES[: self.source.choice([9, 19])])
        self.call("write", self.number(state=2), at, size)

    def read(self):
        places = [TARGET, TARGET + 0x500] if self.source.random() < 0.85 else [READ_ONLY - 5, READ_ONLY, NOWHERE, LAST + 0xffa]
        at = self.source.choice(places)
        self.call("read", self.number(state=2), at, self.source.choice(SIZES[: self.source.choice([9, 19])]))

    def move_pieces(self):
        count = self.source.randrange(5)
        places = [SOURCE, TARGET, TARGET + 3, TARGET + 0x800, READ_ONLY - 4, RESULTS + 0x800]
        places += [READ_ONLY, NOWHERE, LAST + 0xffc] if self.source.random() < 0.3 else []
        sizes = [0, 1, 2, 5, 50, 4096] + ([0x8000_0000, 0x7fff_ffff] if self.source.random() < 0.2 else [])
        self.process.line_poke(ENTRIES, b"".join(struct.pack("<II", self.source.choice(places), self.source.choice(sizes)) for _ in range(count)))
        strange = [(NOWHERE, count), (TARGET, 1024), (ENTRIES, 1025), (READ_ONLY + 4096 - 8, 2), (NOWHERE, 0)]
        vector = (ENTRIES, count) if self.source.random() < 0.9 else self.source.choice(strange)
        self.call(self.source.choice(["readv", "writev"]), self.number(state=2), *vector)

    def ask(self):
        numbers = [self.number() for _ in range(self.source.randrange(6))]
        at = ENTRIES if self.source.random() < 0.85 else self.source.choice([READ_ONLY - 8, READ_ONLY])
        self.process.line_poke(at, b"".join(struct.pack("<IHH", number & 0xffff_ffff, self.source.choice([0, 1, 4, 5, 0xffff]), 0x5555) for number in numbers))
        self.call("poll", at, len(numbers), self.source.choice([0, -1]))

    def select(self):
        count = self.source.choice([0, 1, 5, 10, 33, 64, 1025, -1])
        sets = []
        for at in (ENTRIES, ENTRIES + 0x80, ENTRIES + 0x100):
            bits = sum(1 << number for number in self.process.descriptors if number < 64 and self.source.random() < 0.6)
            self.process.line_poke(at, (bits | (1 << 50 if self.source.random() < 0.1 else 0)).to_bytes(128, "little"))
            sets.append(self.source.choice([at, at, at, 0]) if self.source.random() < 0.95 else READ_ONLY)
        self.process.line_poke(ENTRIES + 0x180, struct.pack("<ii", self.source.choice([0, 1, -1]), self.source.choice([0, 1_000_000, 5])))
        self.call("_newselect", count, *sets, self.source.choice([0, ENTRIES + 0x180]))

    def look(self):
        number = self.number()
        self.call(*self.source.choice([
            ("ioctl", number, 0x541b, self.place(RESULTS + 0x400)), ("ioctl", number, 0x541b, RESULTS + 0x400), ("ioctl", number, 0x5401, RESULTS),
            ("fstat", number, self.place(RESULTS + 0x500)), ("fstat64", number, self.place(RESULTS + 0x600)), ("lseek", number, 5, 0),
        ]))

    def send_file(self):
        files = [number for number, (file, _) in self.process.descriptors.items() if file.kind == "file"]
        number = self.source.choice(files) if files and self.source.random() < 0.95 else self.number()
        self.process.line_poke(RESULTS + 0x700, struct.pack("<q", self.source.choice([0, 0, 1, 90, 4000, 69_990, 0x7fff_ffff, -1])))
        at = self.source.choice([0, 0, RESULTS + 0x700, RESULTS + 0x700, self.place(RESULTS + 0x700), READ_ONLY + 8])
        self.call(self.source.choice(["sendfile", "sendfile64"]), self.number(state=2), number, at, self.source.choice(SIZES))

    def open_others(self):
        self.call(*self.source.choice([("open", RESULTS + 0xf00, 0, 0), ("pipe", self.place(RESULTS + 0x180))]))

    def change_limit(self):
        soft = self.source.choice([4096, 1024, len(self.process.descriptors), len(self.process.descriptors) + 1, 3])
        with_limit(self.process, soft, self.source.choice([4096, 4096, 5000, 2]))

    def play(self, steps):
        self.process.line_poke(RESULTS + 0xf00, b"/f\0")
        self.call("open", RESULTS + 0xf00, 0, 0)
        choices = {
            self.make: 8, self.make_pair: 5, self.make_badly: 1, self.bind: 8, self.connect: 12, self.listen: 6, self.serve: 3, self.accept: 8,
            self.tell_name: 6, self.shut: 4, self.close: 6, self.copy: 4, self.write: 14, self.read: 12, self.move_pieces: 6, self.ask: 8,
            self.select: 3, self.look: 5, self.send_file: 4, self.open_others: 1, self.change_limit: 1,
        }
        for step in range(steps):
            if self.process.ended:
                break
            self.source.choices(list(choices), choices.values())[0]()
            if step == steps // 2:
                self.process.line_show()
        return self.process


def filled_with_messages(abi, kind, size, count):
    """A queue filled by messages of a size, its readiness at each of the last ones, and read until nothing waits."""
    process = with_pages(abi)
    process.line_call("socketpair", 1, kind, 0, RESULTS)
    for place in range(count):
        process.line_call("write", 0, SOURCE + place, size)
        if place > count - 6:
            with_poll(process, 0, 1)
            process.line_call("ioctl", 1, 0x541b, RESULTS)
    process.line_call("write", 0, SOURCE, 0)
    process.line_show()
    for place in range(count):
        process.line_call("read", 1, TARGET + place, size + (place % 3) - 1)
        with_poll(process, 0)
    process.line_call("read", 1, TARGET, 65_537)
    return process


def filled_with_bytes(abi, kind, first):
    """A queue of 65,536 bytes at its last bytes."""
    process = with_pages(abi)
    with_signal(process, 1)
    process.line_call("socketpair", 1, kind, 0, RESULTS)
    for size in (first, 65_537, 65_536 - first + 1, 65_536 - first, 1, 0):
        process.line_call("write", 0, SOURCE, size)
        with_poll(process, 0, 1)
    process.line_call("read", 1, TARGET, 4095)
    with_poll(process, 0)
    process.line_call("read", 1, TARGET, 1)
    with_poll(process, 0)
    process.line_call("write", 0, SOURCE + 0x10fff - 4, 65_537)
    process.line_call("write", 0, NOWHERE, 1)
    process.line_call("read", 1, TARGET + 0x10fff, 4000)
    process.line_call("read", 1, NOWHERE, 4000)
    return process


def closed_in_order(abi, order):
    """A listener, a caller with a name, its connection, a second caller that waits and a pair, closed one after another with looks between."""
    process = small(abi)
    with_signal(process, 1)
    process.line_call("socket", 1, 1, 0)
    with_address(process, b"/server", "bind", 0)
    process.line_call("listen", 0, 5)
    process.line_call("socket", 1, 1, 0)
    with_address(process, b"/caller", "bind", 1)
    process.line_call("socket", 1, 1, 0)
    with_address(process, b"\0other", "bind", 2)
    for number in (1, 2):
        with_address(process, b"/server", "connect", number)
        process.line_call("write", number, NAMES, 5)
    process.line_call("accept4", 0, 0, 0, 0)
    process.line_call("write", 3, NAMES, 3)
    for closed in order:
        process.line_call("close", closed)
        with_poll(process, 0, 1, 2, 3)
        process.line_call("socket", 1, 1, 0)
        with_address(process, b"/server", "connect", closed)
        with_address(process, b"/server", "bind", closed)
        for number in (1, 2, 3):
            process.line_poke(RESULTS, struct.pack("<i", 50))
            process.line_call("getpeername", number, RESULTS + 4, RESULTS)
            process.line_call("write", number, NAMES, 2)
            process.line_call("read", number, RESULTS + 0x100, 4)
        process.line_call("close", closed)
        process.line_poke(RESULTS, struct.pack("<i", 50))
        process.line_call("accept4", 0, RESULTS + 0x200, RESULTS, 0)
        process.line_show()
        process.line_call("close", closed)
    return process


def datagrams_closed(abi, order):
    """Two datagram sockets with names, of which the first calls the second, and a pair, closed one after another."""
    process = small(abi)
    for number, name in enumerate((b"\0one", b"/two")):
        process.line_call("socket", 1, 2, 0)
        with_address(process, name, "bind", number)
    process.line_call("socketpair", 1, 2, 0, RESULTS)
    for number, name in ((0, b"/two"), (2, b"/two"), (1, b"\0one")):
        with_address(process, name, "connect", number)
    for closed in order:
        for number in range(4):
            process.line_call("write", number, NAMES, number + 1)
        with_poll(process, 0, 1, 2, 3)
        process.line_call("close", closed)
        for number in range(4):
            process.line_call("read", number, RESULTS + 0x100, 2)
        with_poll(process, 0, 1, 2, 3)
        process.line_show()
    return process


def shut_in_order(abi, kind, marks):
    """Marks of shutdown before and after a socket has its peer, and what each end then can."""
    process = small(abi)
    with_signal(process, 1)
    for number in range(2):
        process.line_call("socket", 1, kind, 0)
        process.line_call("shutdown", number, marks[number])
    with_address(process, b"/server", "bind", 0)
    process.line_call("listen", 0, 0)
    with_address(process, b"/server", "connect", 1)
    process.line_call("accept4", 0, 0, 0, NONBLOCK)
    for mark in (None, *marks[2:]):
        if mark is not None:
            process.line_call("shutdown", 2, mark)
        for number in (0, 1, 2):
            process.line_call("write", number, NAMES, 3)
            process.line_call("write", number, NAMES, 0)
            process.line_call("read", number, RESULTS, 2)
            process.line_call("read", number, RESULTS, 0)
            process.line_call("ioctl", number, 0x541b, RESULTS + 8)
        with_poll(process, 0, 1, 2)
    return process


def filled_backlog(abi, backlog):
    """Callers of a listener until none more may wait, and two after one was accepted."""
    process = small(abi)
    process.line_call("socket", 1, 1, 0)
    with_address(process, b"\0\0", "bind", 0)
    process.line_call("listen", 0, backlog)
    allowed = min(backlog, 128) if backlog >= 0 else 128
    for number in range(1, allowed + 3):
        process.line_call("socket", 1, 1, 0)
        with_address(process, b"\0\0", "connect", number)
    process.line_call("accept4", 0, 0, 0, 0)
    for _ in range(2):
        with_address(process, b"\0\0", "connect", allowed + 2)
    return process


def names_of_every_length(abi, name):
    """A name told by all three calls with room of every size, and an unnamed one."""
    process = small(abi)
    process.line_call("socket", 1, 1, 0)
    with_address(process, name, "bind", 0)
    process.line_call("listen", 0, 128)
    for room in range(114):
        process.line_call("socket", 1, 1, 0)
        if room % 8:
            with_address(process, b"c%d" % room, "bind", 1)
        with_address(process, name, "connect", 1)
        for call, number, *rest in (("getsockname", 0), ("getpeername", 1), ("accept4", 0, 0), ("getsockname", 2), ("getpeername", 2)):
            process.line_poke(RESULTS, struct.pack("<i", room) + bytes(120))
            process.line_call(call, number, RESULTS + 4, RESULTS, *rest)
        for number in (1, 2):
            process.line_call("close", number)
    return process


def addresses_of_every_length(abi):
    """bind of each length, at the end of what can be read, by a socket, a file and a number of nothing."""
    process = small(abi)
    process.line_poke(RESULTS, b"/f\0")
    process.line_call("open", RESULTS, 0, 0)
    for length in (*range(114), -1, 0x7fff_ffff, 0x8000_0000):
        process.line_call("socket", 1, 1 + length % 2, 0)
        for family, end in ((1, 1), (2, 0), (1, 0)):
            at = READ_ONLY + 4096 - max(length % 256, 2) + end
            process.line_poke(at, (struct.pack("<H", family) + b"\0" + b"x" * 105)[: READ_ONLY + 4096 - at])
            for number in (0, 1, 9):
                process.line_call("bind", number, at, length)
                process.line_call("connect", number, at, length)
        process.line_call("close", 1)
    return process


def stored_in_part(abi):
    """Results that end past the last byte that can be written: the pair, addresses and their lengths, bytes that wait, and answers of poll."""
    process = small(abi)
    for place in range(9):
        process.line_call("socketpair", 1, 1, 0, READ_ONLY - place)
    process.line_call("socket", 1, 1, 0)
    with_address(process, b"/server", "bind", 2)
    process.line_call("listen", 2, 5)
    for _ in range(2):
        process.line_call("socket", 1, 1, 0)
    with_address(process, b"\0caller", "bind", 3)
    with_address(process, b"/server", "connect", 3)
    with_address(process, b"/server", "connect", 4)
    for place in range(12):
        process.line_poke(RESULTS, struct.pack("<i", place % 6 * 3))
        for call, number in (("getsockname", 2), ("getpeername", 4)):
            process.line_call(call, number, READ_ONLY - place, RESULTS)
        process.line_call("ioctl", 0, 0x541b, READ_ONLY - place)
        process.line_poke(READ_ONLY - place, struct.pack("<iHH", 0, 5, 0xffff))
        process.line_call("poll", READ_ONLY - place, 1, 0)
    for place in (*range(5), 9, 4096):
        process.line_poke(READ_ONLY - place % 4096, struct.pack("<i", 100))
        process.line_call("accept4", 2, RESULTS + 0x100 + place, READ_ONLY - place, 0)
    for place in range(10):
        process.line_poke(RESULTS, struct.pack("<i", 100))
        process.line_call("accept4", 2, READ_ONLY - place, RESULTS, CLOEXEC)
    return process


def without_numbers(abi, free):
    """Every call that makes a descriptor, with a lowered limit that leaves none, one or two numbers."""
    process = small(abi)
    process.line_call("socket", 1, 1, 0)
    with_address(process, b"/server", "bind", 0)
    process.line_call("listen", 0, 5)
    process.line_call("socket", 1, 1, 0)
    process.line_call("socket", 1, 2, 0)
    with_limit(process, 3 + free)
    with_address(process, b"/server", "connect", 1)
    process.line_poke(RESULTS, struct.pack("<i", -1) + b"/f\0")
    for words in ((0, 0, 0, 0), (2, 0, 0, 0), (1, 0, 0, 0x55), (9, 0, 0, 0), (0, RESULTS + 8, RESULTS, 0), (0, RESULTS + 8, NOWHERE, 0)):
        process.line_call("accept4", *words)
    for call, *words in (("socketpair", 9, 9, 9, NOWHERE), ("socket", 9, 9, 9), ("socketpair", 1, 1, 0, RESULTS), ("dup", 1), ("socket", 1, 2, 0)):
        process.line_call(call, *words)
    process.line_call("open", RESULTS + 4, 0, 0)
    with_poll(process, *range(3 + free))
    with_poll(process, *range(4 + free))
    process.line_call("close", 1)
    process.line_call("accept4", 0, 0, 0, CLOEXEC)
    return process


def processes():
    for abi in ("ia32", "arm"):
        for seed in range(160):
            yield Player(abi, seed).play(90)
        for kind in (1, 2):
            for size, count in ((1, 258), (256, 257), (255, 257), (4096, 18), (0, 258)):
                yield filled_with_messages(abi, kind, size, count)
            for first in (1, 4096, 61_440, 61_441, 65_535, 65_536):
                yield filled_with_bytes(abi, kind, first)
            for marks in itertools.product((0, 1, 2, 3), (0, 1, 2, -1), (0, 1), (1, 2)):
                yield shut_in_order(abi, kind, marks)
        for order in itertools.permutations(range(4)):
            yield closed_in_order(abi, order)
            yield datagrams_closed(abi, order)
        for backlog in (-1, 0, 1, 2, 127, 128, 129, 0x7fff_ffff):
            yield filled_backlog(abi, backlog)
        for name in (b"\0", b"/", b"\0" * 108, b"/" + b"y" * 107, b"/some", b"\0a\0b\0"):
            yield names_of_every_length(abi, name)
        yield addresses_of_every_length(abi)
        yield stored_in_part(abi)
        for free in range(3):
            yield without_numbers(abi, free)


def main():
    program, count, wrong = sys.argv[1], 0, []
    for process in processes():
        count += 1
        fault = process.fault(program)
        if fault:
            wrong.append(fault)
    for fault in wrong[:8]:
        print(fault)
    print(f"{count} scripts of sockets: " + (f"{len(wrong)} reports are wrong" if wrong else "every report is the model's"))
    return 1 if wrong else 0


if __name__ == "__main__":
    sys.exit(main())
