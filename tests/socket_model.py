"""A second model of Unix sockets, of pipes and of a file that is read, for the scripts that sockets.py makes

It is written from the tables of UAPI headers and the definitions in docs/DEFINITIONS.md, and shares no line with the program. Memory and signals are
those of the model in signals.py.
"""
import itertools
import re
import struct

import signals
from signals import EAGAIN, EFAULT, EINVAL, EPERM, signed

EBADF, EMFILE, ENOTTY, ESPIPE, EPIPE, EOVERFLOW, ENOTSOCK, EMSGSIZE, EPROTOTYPE = -9, -24, -25, -29, -32, -75, -88, -90, -91
EPROTONOSUPPORT, ESOCKTNOSUPPORT, EOPNOTSUPP, EAFNOSUPPORT, EADDRINUSE, EISCONN, ENOTCONN, ECONNREFUSED = -93, -94, -95, -97, -98, -106, -107, -111
SIGPIPE = 13
NEW, LISTENING, CONNECTED = 0, 1, 2
IN, OUT, ERR, HUP = 1, 4, 8, 16
APPEND, NONBLOCK, CLOEXEC = 0x400, 0x800, 0x80000
MOST_BYTES, MOST_MESSAGES, MOST_MOVED = 65_536, 256, 0x7fff_f000
NUMBERS = {
    "read": (3, 3), "write": (4, 4), "open": (5, 5), "close": (6, 6), "lseek": (19, 19), "dup": (41, 41), "pipe": (42, 42), "ioctl": (54, 54), "fcntl": (55, 55),
    "dup2": (63, 63), "setrlimit": (75, 75), "fstat": (108, 108), "_newselect": (142, 142), "readv": (145, 145), "writev": (146, 146), "poll": (168, 168),
    "rt_sigaction": (174, 174), "rt_sigprocmask": (175, 175), "sendfile": (187, 187), "fstat64": (197, 197),
    "sendfile64": (239, 239), "socket": (359, 281), "socketpair": (360, 288), "bind": (361, 282), "connect": (362, 283), "listen": (363, 284), "accept": (None, 285),
    "accept4": (364, 366), "getsockname": (367, 286), "getpeername": (368, 287), "shutdown": (373, 293),
}


class OpenFile:
    """An open file; what a socket is besides stands in every one."""

    def __init__(self, serial, kind, flags, inode):
        self.serial, self.kind, self.flags, self.inode = serial, kind, flags, inode
        self.position, self.lives = 0, True
        self.state, self.peer, self.shut, self.name, self.bound = NEW, None, 0, b"", False
        self.backlog, self.waiting, self.queue = 0, [], []

    def is_socket(self):
        return self.kind in ("stream", "dgram")

    def queued(self):
        return sum(map(len, self.queue))

    def room(self):
        return MOST_BYTES - self.queued() if len(self.queue) < MOST_MESSAGES else None

    def meets(self, peer):
        self.state, self.peer = CONNECTED, peer

    def living_peer(self):
        return self.peer if self.state == CONNECTED and self.peer.lives else None

    def is_at_end(self):
        """Whether a receive gives 0 where nothing waits."""
        return self.shut & 1 or self.state == CONNECTED and (not self.living_peer() or self.peer.shut & 2)


def address(name, family=1):
    return struct.pack("<H", family) + name


def told_address(name):
    return address(name + (b"\0" if name and name[0] else b""))


def cut(pieces):
    """The pieces of a transfer, of which so many bytes count."""
    left, kept = MOST_MOVED, []
    for at, length in pieces:
        kept.append((at, min(length, left)))
        left -= kept[-1][1]
    return kept


class Process(signals.Process):
    """A process with sockets, pipes and a file to read."""

    FILE_INODE, FILE_PLACE = 7, 3

    def __init__(self, abi, pages, content=b""):
        super().__init__(abi, pages)
        self.numbers = {name: numbers[abi == "arm"] for name, numbers in NUMBERS.items()}
        self.content = content
        self.script.append(f"file /f {self.FILE_INODE:x} {len(content):x}")
        self.script += [f"data /f {at:x} {content[at : at + 4096].hex()}" for at in range(0, len(content), 4096)]
        self.descriptors, self.opened, self.pipes = {}, [], {}
        self.serial, self.next_inode, self.limit = 0, 0x1000, (1024, 4096)

    # Memory

    def reach(self, at, length, write):
        pages, end, last = self.writable if write else self.pages, at, min(at + length, 2**32)
        while end < last and end >> 12 in pages:
            end = min(last, ((end >> 12) + 1) << 12)
        return end - at

    def prefix(self, pieces, write=False):
        """How many bytes of a row of pieces stand before the first one without its right."""
        count = 0
        for at, length in pieces:
            reached = self.reach(at, length, write)
            count += reached
            if reached < length:
                break
        return count

    def gather(self, pieces):
        return b"".join(self.load(at, self.reach(at, length, False)) for at, length in pieces)[: self.prefix(pieces)]

    def scatter(self, pieces, data):
        for at, length in pieces:
            self.put(at, data[:length])
            data = data[length:]

    def put_whole(self, at, data):
        if not self.can(at, len(data), write=True):
            return EFAULT
        self.put(at, data)
        return 0

    # Descriptors and open files

    def named(self, number):
        entry = self.descriptors.get(signed(number))
        return entry[0] if entry else None

    def free_numbers(self, count, least=0):
        """The lowest free numbers, or nothing where there aren't as many."""
        numbers = list(itertools.islice((number for number in range(least, self.limit[0]) if number not in self.descriptors), count))
        return numbers if len(numbers) == count else None

    def make(self, kind, flags, inode=None):
        self.serial += 1
        if inode is None:
            inode, self.next_inode = self.next_inode, self.next_inode + 1
        self.opened.append(OpenFile(self.serial, kind, flags, inode))
        return self.opened[-1]

    def name(self, number, file, mark=0):
        self.descriptors[number] = (file, 1 if mark else 0)
        return number

    def release(self, file):
        """What ends with a name of this open file that is gone."""
        if any(other is file for other, _ in self.descriptors.values()) or any(file in other.waiting for other in self.opened):
            return
        file.lives = False
        self.opened.remove(file)
        for connection in file.waiting:
            self.release(connection)
        if file.inode in self.pipes and not self.pipe_ends(file.inode):
            del self.pipes[file.inode]

    def pipe_ends(self, inode):
        return {other.kind for other in self.opened if other.inode == inode}

    def end(self, ended):
        super().end(ended)
        for number in sorted(self.descriptors):
            self.close(number)

    def close(self, number):
        file = self.named(number)
        if not file:
            return EBADF
        del self.descriptors[signed(number)]
        self.release(file)
        return 0

    def open(self, _path, flags, _mode):
        """Of the one file, to be read alone."""
        numbers = self.free_numbers(1)
        return self.name(numbers[0], self.make("file", flags, self.FILE_INODE)) if numbers else EMFILE

    def dup(self, number, least=0, mark=0):
        file, numbers = self.named(number), self.free_numbers(1, least)
        return EBADF if not file else self.name(numbers[0], file, mark) if numbers else EMFILE

    def dup2(self, number, new):
        file, new = self.named(number), signed(new)
        if not file:
            return EBADF
        if signed(number) == new:
            return new
        if not 0 <= new < self.limit[0]:
            return EBADF
        if new in self.descriptors:
            self.close(new)
        return self.name(new, file)

    def fcntl(self, number, command, argument):
        file = self.named(number)
        if not file:
            return EBADF
        if command in (0, 1030):
            return EINVAL if argument >= self.limit[0] else self.dup(number, argument, command)
        if command == 1:
            return self.descriptors[number][1]
        if command == 3:
            return file.flags
        if command == 2:
            self.name(number, file, argument & 1)
        if command == 4:
            file.flags = file.flags & ~(APPEND | NONBLOCK) | argument & (APPEND | NONBLOCK)
        return 0 if command in (2, 4) else EINVAL

    def pipe(self, at):
        numbers = self.free_numbers(2)
        if not numbers:
            return EMFILE
        if self.put_whole(at, struct.pack("<ii", *numbers)):
            return EFAULT
        ends = [self.make("pr", 0)]
        ends.append(self.make("pw", 1, ends[0].inode))
        self.pipes[ends[0].inode] = bytearray()
        for number, end in zip(numbers, ends):
            self.name(number, end)
        return 0

    def setrlimit(self, resource, at):
        given = self.fetch(at, "<II")
        if given is None:
            return EFAULT
        assert resource == 7
        soft, hard = given
        if soft > hard or hard > self.limit[1]:
            return EINVAL if soft > hard else EPERM
        self.limit = (soft, hard)
        return 0

    def lseek(self, number, offset, whence):
        file = self.named(number)
        if not file:
            return EBADF
        if file.kind != "file":
            return ESPIPE
        assert whence == 0 and offset >> 31 == 0
        file.position = offset
        return offset

    def status(self, number, at, wide):
        file = self.named(number)
        if not file:
            return EBADF
        mode, owner, size, blocks = {"pr": 0x1180, "pw": 0x1180}.get(file.kind, 0xc1ff), 1000, 0, 0
        if file.kind == "file":
            mode, owner, size = 0x81a4, 0, len(self.content)
            blocks = sum(8 for start in range(0, size, 4096) if any(self.content[start : start + 4096]))
        if not wide:
            return self.put_whole(at, struct.pack("<IIHHHHIIII", 1, file.inode, mode, 1, owner, owner, 0, size, 4096, blocks).ljust(64, b"\0"))
        form = "<Q4xIIIIIQ4xQIQ24xQ" if self.abi == "ia32" else "<Q4xIIIIIQ8xQI4xQ24xQ"
        return self.put_whole(at, struct.pack(form, 1, file.inode, mode, 1, owner, owner, 0, size, 4096, blocks, file.inode))

    def fstat(self, number, at):
        return self.status(number, at, False)

    def fstat64(self, number, at):
        return self.status(number, at, True)

    # Sockets

    def kind_refused(self, domain, kind, protocol, pair):
        if kind & ~(15 | NONBLOCK | CLOEXEC):
            return EINVAL
        if domain != 1:
            return EOPNOTSUPP if pair and domain == 2 else EAFNOSUPPORT
        if kind & 15 not in (1, 2):
            return ESOCKTNOSUPPORT
        return 0 if protocol in (0, 1) else EPROTONOSUPPORT

    def made_socket(self, kind):
        return self.make({1: "stream", 2: "dgram"}[kind & 15], 2 | kind & NONBLOCK)

    def socket(self, domain, kind, protocol):
        numbers = self.free_numbers(1)
        if not numbers:
            return EMFILE
        return self.kind_refused(domain, kind, protocol, False) or self.name(numbers[0], self.made_socket(kind), kind & CLOEXEC)

    def socketpair(self, domain, kind, protocol, at):
        numbers = self.free_numbers(2)
        if not numbers:
            return EMFILE
        refused = self.kind_refused(domain, kind, protocol, True) or self.put_whole(at, struct.pack("<ii", *numbers))
        if refused:
            return refused
        ends = [self.made_socket(kind), self.made_socket(kind)]
        for number, end, peer in zip(numbers, ends, reversed(ends)):
            end.meets(peer)
            self.name(number, end, kind & CLOEXEC)
        return 0

    def name_at(self, number, at, length):
        """The socket of a descriptor, and the name at an address; or what refuses them."""
        if not self.named(number):
            return EBADF, None
        if not 3 <= signed(length) <= 110:
            return EINVAL, None
        if not self.can(at, length):
            return EFAULT, None
        data = self.load(at, length)
        if data[:2] != b"\1\0":
            return EINVAL, None
        if not self.named(number).is_socket():
            return ENOTSOCK, None
        return 0, data[2:] if data[2] == 0 else data[2:].split(b"\0")[0]

    def holder(self, name):
        return next((other for other in self.opened if other.bound and other.name == name), None)

    def bind(self, number, at, length):
        refused, name = self.name_at(number, at, length)
        if refused:
            return refused
        socket = self.named(number)
        if socket.bound:
            return EINVAL
        if self.holder(name):
            return EADDRINUSE
        socket.name, socket.bound = name, True
        return 0

    def connect(self, number, at, length):
        refused, name = self.name_at(number, at, length)
        if refused:
            return refused
        socket, holder = self.named(number), self.holder(name)
        if socket.kind == "stream" and socket.state != NEW:
            return EISCONN if socket.state == CONNECTED else EINVAL
        if not holder:
            return ECONNREFUSED
        if holder.kind != socket.kind:
            return EPROTOTYPE
        if socket.kind == "dgram":
            socket.meets(holder)
            return 0
        if holder.state != LISTENING:
            return ECONNREFUSED
        if len(holder.waiting) > holder.backlog:
            return EAGAIN
        connection = self.make("stream", 2)
        connection.name = holder.name
        connection.meets(socket)
        socket.meets(connection)
        holder.waiting.append(connection)
        return 0

    def listen(self, number, backlog):
        socket, backlog = self.named(number), signed(backlog)
        if not socket:
            return EBADF
        if not socket.is_socket():
            return ENOTSOCK
        if socket.kind == "dgram":
            return EOPNOTSUPP
        if not socket.bound or socket.state == CONNECTED:
            return EINVAL
        socket.state, socket.backlog = LISTENING, 128 if backlog < 0 else min(backlog, 128)
        return 0

    def room_at(self, number, at):
        """The room for an address whose length stands in memory; or what refuses it."""
        if not self.named(number):
            return EBADF, 0
        given = self.fetch(at, "<i")
        if given is None:
            return EFAULT, 0
        return (EINVAL, 0) if given[0] < 0 else (0, given[0])

    def tell(self, name, room, at, length_at):
        told = told_address(name)
        return self.put_whole(at, told[:room]) or self.put_whole(length_at, struct.pack("<i", len(told)))

    def accept(self, number, at, length_at):
        return self.accept4(number, at, length_at, 0)

    def accept4(self, number, at, length_at, flags):
        refused, room = self.room_at(number, length_at) if at else (0 if self.named(number) else EBADF, 0)
        if refused:
            return refused
        numbers, socket = self.free_numbers(1), self.named(number)
        if not numbers:
            return EMFILE
        if not socket.is_socket():
            return ENOTSOCK
        if flags & ~(NONBLOCK | CLOEXEC):
            return EINVAL
        if socket.kind == "dgram":
            return EOPNOTSUPP
        if socket.state != LISTENING:
            return EINVAL
        if not socket.waiting:
            return EAGAIN
        connection = socket.waiting[0]
        peer = connection.living_peer()
        if at and self.tell(peer.name if peer else b"", room, at, length_at):
            return EFAULT
        socket.waiting.pop(0)
        connection.flags |= flags & NONBLOCK
        return self.name(numbers[0], connection, flags & CLOEXEC)

    def told_name(self, number, at, length_at, naming):
        refused, room = self.room_at(number, length_at)
        if refused:
            return refused
        if not self.named(number).is_socket():
            return ENOTSOCK
        told = naming(self.named(number))
        return ENOTCONN if told is None else self.tell(told.name, room, at, length_at)

    def getsockname(self, number, at, length_at):
        return self.told_name(number, at, length_at, lambda socket: socket)

    def getpeername(self, number, at, length_at):
        return self.told_name(number, at, length_at, lambda socket: socket.living_peer())

    def shutdown(self, number, how):
        socket = self.named(number)
        if not socket:
            return EBADF
        if not socket.is_socket():
            return ENOTSOCK
        if not 0 <= signed(how) <= 2:
            return EINVAL
        socket.shut |= how + 1
        return 0

    # Transfers

    def can_use(self, number, write):
        file = self.named(number)
        return file if file and (file.is_socket() or write == (file.kind == "pw")) else None

    def read(self, number, at, count):
        return self.read_pieces(number, [(at, count)]) if self.can_use(number, False) else EBADF

    def write(self, number, at, count):
        return self.write_pieces(number, [(at, count)]) if self.can_use(number, True) else EBADF

    def vector(self, at, count):
        """The pieces of a vector, or what refuses it."""
        if count > 1024:
            return EINVAL
        self.peak = max(self.peak, 16 * count)
        if not self.can(at, 8 * count):
            return EFAULT
        pieces = [struct.unpack("<II", self.load(at + 8 * place, 8)) for place in range(count)]
        return EINVAL if any(length >> 31 for _, length in pieces) else pieces

    def move_vector(self, number, at, count, write, moving):
        pieces = self.vector(at, count) if self.can_use(number, write) else EBADF
        return moving(number, pieces) if isinstance(pieces, list) else pieces

    def readv(self, number, at, count):
        return self.move_vector(number, at, count, False, self.read_pieces)

    def writev(self, number, at, count):
        return self.move_vector(number, at, count, True, self.write_pieces)

    def read_pieces(self, number, pieces):
        file, pieces = self.named(number), cut(pieces)
        wanted, room = sum(length for _, length in pieces), self.prefix(pieces, write=True)
        taking = {"file": self.taken_of_file, "pr": self.taken_of_pipe, "stream": self.taken_of_stream, "dgram": self.taken_of_datagrams}[file.kind]
        taken = taking(file, wanted, room)
        if isinstance(taken, int):
            return taken
        self.scatter(pieces, taken)
        return len(taken)

    def write_pieces(self, number, pieces):
        pieces = cut(pieces)
        return self.give(self.named(number), sum(length for _, length in pieces), self.gather(pieces))

    def give(self, file, wanted, data):
        """What a write of so many bytes answers, of which these can be read."""
        giving = {"pw": self.given_to_pipe, "stream": self.given_to_stream, "dgram": self.given_to_datagrams}[file.kind]
        return giving(file, wanted, data)

    def taken_of_file(self, file, wanted, room):
        data = self.content[file.position : file.position + wanted]
        if data and not room:
            return EFAULT
        file.position += len(data[:room])
        return data[:room]

    def taken_of_pipe(self, file, wanted, room):
        waiting = self.pipes[file.inode]
        if wanted and not waiting:
            return EAGAIN if "pw" in self.pipe_ends(file.inode) else b""
        if wanted and not room:
            return EFAULT
        taken = bytes(waiting[: min(wanted, room)])
        del waiting[: len(taken)]
        return taken

    def taken_of_stream(self, socket, wanted, room):
        if socket.state != CONNECTED:
            return EINVAL
        if not socket.queue:
            return b"" if socket.is_at_end() else EAGAIN
        if wanted and not room:
            return EFAULT
        taken, left = b"", min(wanted, room)
        while left and socket.queue:
            part, rest = socket.queue[0][:left], socket.queue[0][left:]
            taken, left = taken + part, left - len(part)
            socket.queue[:1] = [rest] if rest else []
        return taken

    def taken_of_datagrams(self, socket, wanted, room):
        if not socket.queue:
            return b"" if socket.is_at_end() else EAGAIN
        if min(wanted, len(socket.queue[0])) > room:
            return EFAULT
        return socket.queue.pop(0)[:wanted]

    def broken(self):
        self.post((SIGPIPE, 0, 0, 1000, 1000, 0))
        return EPIPE

    def given_to_pipe(self, file, wanted, data):
        if not wanted:
            return 0
        if "pr" not in self.pipe_ends(file.inode):
            return self.broken()
        waiting = self.pipes[file.inode]
        free = MOST_BYTES - len(waiting)
        if not free or wanted <= 4096 and wanted > free:
            return EAGAIN
        if not data:
            return EFAULT
        waiting += data[: min(wanted, free)]
        return len(data[: min(wanted, free)])

    def given_to_stream(self, socket, wanted, data):
        if socket.state != CONNECTED:
            return ENOTCONN
        if socket.shut & 2 or not socket.peer.lives or socket.peer.shut & 1:
            return self.broken()
        if not wanted:
            return 0
        free = socket.peer.room()
        if not free:
            return EAGAIN
        if not data:
            return EFAULT
        socket.peer.queue.append(data[: min(wanted, free)])
        return len(socket.peer.queue[-1])

    def given_to_datagrams(self, socket, wanted, data):
        if socket.state != CONNECTED:
            return ENOTCONN
        if socket.shut & 2:
            return EPIPE
        if not socket.peer.lives:
            return ECONNREFUSED
        if wanted > MOST_BYTES:
            return EMSGSIZE
        room = socket.peer.room()
        if room is None or room < wanted:
            return EAGAIN
        if len(data) < wanted:
            return EFAULT
        socket.peer.queue.append(data[:wanted])
        return wanted

    def sendfile(self, out, number, at, count):
        return self.send_file(out, number, at, count, "<i")

    def sendfile64(self, out, number, at, count):
        return self.send_file(out, number, at, count, "<q")

    def send_file(self, out, number, at, count, form):
        target, source = self.can_use(out, True), self.can_use(number, False)
        if not target or not source:
            return EBADF
        given = self.fetch(at, form) if at else (source.position,)
        if given is None:
            return EFAULT
        start = given[0]
        if start < 0 or source.kind != "file" or target.flags & APPEND:
            return EINVAL
        if at and form == "<i" and start + count > 0x7fff_ffff:
            if start == 0x7fff_ffff:
                return EOVERFLOW
            count = 0x7fff_ffff - start
        data = self.content[start : start + min(count, MOST_MOVED)]
        moved = self.give(target, len(data), data)
        if moved < 0:
            return moved
        if at:
            return self.put_whole(at, struct.pack(form, start + moved)) or moved
        source.position = start + moved
        return moved

    # Readiness

    def ready(self, number):
        file = self.named(number)
        if file.kind == "file":
            return IN | OUT
        if file.kind == "pr":
            return (IN if self.pipes[file.inode] else 0) | (0 if "pw" in self.pipe_ends(file.inode) else HUP)
        if file.kind == "pw":
            return (OUT if len(self.pipes[file.inode]) <= MOST_BYTES - 4096 else 0) | (0 if "pr" in self.pipe_ends(file.inode) else ERR)
        if file.state == LISTENING:
            return IN if file.waiting else 0
        if file.kind == "stream" and file.state == NEW:
            return IN | OUT
        ready = IN if file.queue or file.is_at_end() else 0
        if not file.living_peer() or (file.peer.room() or 0) >= 4096:
            ready |= OUT
        return ready | (0 if file.living_peer() or file.kind == "dgram" else HUP)

    def poll(self, at, count, _timeout):
        if count > self.limit[0]:
            return EINVAL
        if not self.can(at, 8 * count):
            return EFAULT
        entries, answered = [struct.unpack("<IHH", self.load(at + 8 * place, 8)) for place in range(count)], 0
        for place, (number, asked, _) in enumerate(entries):
            answer = 0 if number >> 31 else self.ready(number) & (asked & (IN | OUT) | ERR | HUP) if self.named(number) else 32
            if self.put_whole(at + 8 * place + 6, struct.pack("<H", answer)):
                return EFAULT
            answered += answer != 0
        return answered

    def _newselect(self, count, *places):
        if signed(count) < 0:
            return EINVAL
        count = min(count, 1024)
        size, places, timeout_at = (count + 31) // 32 * 4, places[:3], places[3]
        if any(at and not self.can(at, size) for at in places):
            return EFAULT
        asked = [int.from_bytes(self.load(at, size), "little") & ((1 << count) - 1) if at else 0 for at in places]
        timeout = self.fetch(timeout_at, "<ii") if timeout_at else (0, 0)
        if timeout is None:
            return EFAULT
        quotient = abs(timeout[1]) // 1_000_000 * (-1 if timeout[1] < 0 else 1)
        if timeout[0] + quotient < 0 or timeout[1] - quotient * 1_000_000 < 0:
            return EINVAL
        numbers = [number for number in range(count) if any(bits >> number & 1 for bits in asked)]
        if not all(map(self.named, numbers)):
            return EBADF
        meant = (IN | HUP | ERR, OUT | ERR, 0)
        answers = [sum(1 << number for number in numbers if bits >> number & 1 and self.ready(number) & mean) for bits, mean in zip(asked, meant)]
        for at, answer in zip(places, answers):
            if at and self.put_whole(at, answer.to_bytes(size, "little")):
                return EFAULT
        if timeout_at:
            self.put_whole(timeout_at, struct.pack("<ii", *timeout))
        return sum(answer.bit_count() for answer in answers)

    def ioctl(self, number, command, at):
        file = self.named(number)
        if not file:
            return EBADF
        if command != 0x541b or file.kind == "file":
            return ENOTTY
        waiting = {"stream": file.queued(), "dgram": len(file.queue[0]) if file.queue else 0}.get(file.kind)
        return self.put_whole(at, struct.pack("<i", len(self.pipes[file.inode]) if waiting is None else waiting))

    # The state

    def items(self):
        if self.limit != (1024, 4096):
            yield "limit 7 %x %x" % self.limit
        yield "node 2 d 0 41ed 0 0 0.0 0.0 0.0"
        yield f"name 2 {self.FILE_PLACE} {self.FILE_INODE:x} 66"
        yield f"node {self.FILE_INODE:x} f {len(self.content):x} 81a4 0 0 0.0 0.0 0.0"
        yield from self.bytes_of_content()
        for number, (file, mark) in sorted(self.descriptors.items()):
            yield f"fd {number:x} {file.serial:x} {mark}"
        for file in self.opened:
            yield from self.items_of(file)
        for inode, waiting in sorted(self.pipes.items()):
            yield f"pipe {inode:x} {waiting.hex() or '-'}"

    def bytes_of_content(self):
        for page in range(0, len(self.content), 4096):
            for run in re.finditer(rb"[^\0]+", self.content[page : page + 4096]):
                yield f"bytes {self.FILE_INODE:x} {page + run.start():x} {run[0].hex()}"

    def items_of(self, file):
        head = f"open {file.serial:x} {file.kind} {file.flags:x}"
        if not file.is_socket():
            yield f"{head} {file.position:x} {file.inode:x}"
            return
        peer = file.peer.serial if file.living_peer() else 0
        yield f"{head} {file.inode:x} {file.state} {peer:x} {file.shut} 0"
        if file.bound:
            yield f"bound {file.serial:x} {file.name.hex()}"
        if file.state == LISTENING:
            yield f"backlog {file.serial:x} {file.backlog:x}"
        for connection in file.waiting:
            yield f"wait {file.serial:x} {connection.serial:x}"
        for message in file.queue:
            yield f"msg {file.serial:x} {message.hex() or '-'} 0 3e8 3e8 3e8"
