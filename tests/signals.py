"""Runs the program on scripts of signals that are made here, and compares each report with that of a second model: signals.py PROGRAM

The model is written from the tables of UAPI headers and the definitions in docs/DEFINITIONS.md, and shares no line with the program. The scripts: calls and
posted signals at random, a hundred handlers inside one another and back, frames that begin at each place in a page that isn't there, frames at each
stack pointer around an end of memory and of the alternate stack, and returns from frames of which each word was changed.
"""
import random
import struct
import subprocess
import sys

EPERM, ESRCH, EINTR, EAGAIN, ENOMEM, EFAULT, EINVAL = -1, -3, -4, -11, -12, -14, -22
SA_SIGINFO, SA_RESTORER, SA_ONSTACK, SA_NODEFER, SA_RESETHAND = 4, 0x0400_0000, 0x0800_0000, 0x4000_0000, 0x8000_0000
SIGSEGV, SIGALRM = 11, 14
BLOCKABLE = 0xffff_ffff_fffb_feff
LAST_TIME = 2**62 - 1
NUMBERS = {
    "kill": 37, "sigaction": 67, "setitimer": 104, "getitimer": 105, "sigreturn": 119, "sigprocmask": 126, "nanosleep": 162, "rt_sigreturn": 173,
    "rt_sigaction": 174, "rt_sigprocmask": 175, "rt_sigpending": 176, "rt_sigqueueinfo": 178, "sigaltstack": 186,
}
PLAIN_SIZE, INFORMED_SIZE = {"ia32": 732, "arm": 752}, {"ia32": 268, "arm": 880}
STACK_POINTER = {"ia32": 7, "arm": 13}
REGISTERS = {"ia32": 10, "arm": 17}


def word(number):
    return number & 0xffff_ffff


def signed(number):
    return number - 2**32 if number >> 31 else number


class Process:
    """A process, its script so far and the report of it."""

    def __init__(self, abi, pages, restorer=0x9000):
        self.abi, self.restorer = abi, restorer
        self.script, self.report, self.calls = [f"abi {abi} 1", f"restorer {restorer:x}"], [], 0
        self.pages, self.writable = {}, set()
        for address, rights in pages:
            self.script.append(f"page {address:x} {rights} -")
            self.pages[address >> 12] = bytearray(4096)
            if rights == "rw":
                self.writable.add(address >> 12)
        self.actions = {signal: (0, 0, 0, 0) for signal in range(1, 65)}
        self.mask, self.waiting, self.stack = 0, [], (0, 0)
        self.real = self.monotonic = 0
        self.timer = self.ended = None
        self.numbers, self.peak = NUMBERS, 0

    # Memory

    def can(self, at, size, write=False):
        pages = self.writable if write else self.pages
        return at + size <= 2**32 and all(page in pages for page in range(at >> 12, (at + size + 4095) >> 12) if size)

    def load(self, at, size):
        return bytes(self.pages[place >> 12][place & 4095] for place in range(at, at + size))

    def put(self, at, data):
        while data:
            part, data = data[: 4096 - at % 4096], data[4096 - at % 4096 :]
            self.pages[at >> 12][at & 4095 : (at & 4095) + len(part)] = part
            at += len(part)

    def fetch(self, at, form):
        size = struct.calcsize(form)
        return struct.unpack(form, self.load(at, size)) if self.can(at, size) else None

    def store(self, at, data):
        """The result of a call that stores its answer at a place, which may be absent."""
        if at and not self.can(at, len(data), write=True):
            return EFAULT
        if at:
            self.put(at, data)
        return 0

    # Signals

    def ignores(self, signal):
        handler = self.actions[signal][0]
        return handler == 1 or handler == 0 and (17 <= signal <= 23 or signal == 28)

    def blocks(self, signal):
        return self.mask >> (signal - 1) & 1

    def post(self, info):
        signal = info[0]
        if self.ignores(signal) and not self.blocks(signal):
            return 0
        if signal < 32 and any(other[0] == signal for other in self.waiting):
            return 0
        if signal >= 32 and sum(other[0] >= 32 for other in self.waiting) >= 128:
            return EAGAIN
        self.waiting = sorted(self.waiting + [info], key=lambda other: other[0])
        return 0

    def send(self, signal, info):
        return self.post(info) if signal else 0

    def change_mask(self, how, given, narrow):
        if how not in (0, 1, 2):
            return EINVAL
        high = self.mask >> 32 << 32 if narrow else 0
        self.mask = (self.mask | given, self.mask & ~given, high | given)[how] & BLOCKABLE
        return 0

    def is_on_stack(self, pointer):
        base, size = self.stack
        return base < pointer <= base + size

    def told_stack(self, pointer):
        base, size = self.stack
        return base, 2 if not size else 1 if self.is_on_stack(pointer) else 0, size

    def change_stack(self, pointer, base, flags, size):
        if self.is_on_stack(pointer):
            return EPERM
        if flags not in (0, 1, 2):
            return EINVAL
        if flags != 2 and size < 2048:
            return ENOMEM
        self.stack = (0, 0) if flags == 2 else (base, size)
        return 0

    def pass_time(self, nanoseconds):
        self.real, self.monotonic = min(self.real + nanoseconds, LAST_TIME), min(self.monotonic + nanoseconds, LAST_TIME)
        if self.timer and self.timer[0] <= self.monotonic:
            end, interval = self.timer
            self.timer = (end + (self.monotonic - end) // interval * interval + interval, interval) if interval else None
            self.post((SIGALRM, 0, 0x80, 0, 0, 0))

    def end(self, ended):
        self.ended, self.timer = ended, None

    # Frames

    def frame(self, registers, info, informed, at, returns_to, mask):
        information = struct.pack("<IiiIII", *info[:5], word(info[5])).ljust(128, b"\0")
        stack = struct.pack("<IiI", *self.told_stack(registers[STACK_POINTER[self.abi]]))
        if self.abi == "arm":
            context = struct.pack("<21I", 0, 0, word(mask), *registers, 0) + struct.pack("<Q", mask)
            if informed:
                return information + (struct.pack("<II", 0, 0) + stack + context).ljust(752, b"\0")
            return (struct.pack("<II", 0x5ac3_c35a, 0) + bytes(12) + context).ljust(752, b"\0")
        eax, ebx, ecx, edx, esi, edi, ebp, esp, eip, eflags = registers
        context = struct.pack(
            "<22I", 0, 0, 0x2b, 0x2b, edi, esi, ebp, esp, ebx, edx, ecx, eax, 0, 0, eip, 0x23, eflags, esp, 0x2b, 0, word(mask), 0)
        if informed:
            head = struct.pack("<IIII", returns_to, info[0], at + 16, at + 144) + information + struct.pack("<II", 0, 0)
            return head + stack + context + struct.pack("<Q", mask) + bytes.fromhex("b8ad000000cd8000")
        return (struct.pack("<II", returns_to, info[0]) + context).ljust(720, b"\0") + struct.pack("<I", mask >> 32) + bytes.fromhex("58b877000000cd80")

    def frame_place(self, action, pointer):
        size = (INFORMED_SIZE if action[1] & SA_SIGINFO else PLAIN_SIZE)[self.abi]
        base, length = self.stack
        enters = action[1] & SA_ONSTACK and length
        start = base + length if enters and not self.is_on_stack(pointer) else pointer
        if not size + 16 <= start <= 2**32:
            return None
        at = (start - size + 4) // 16 * 16 - 4 if self.abi == "ia32" else (start - size) // 8 * 8
        if (enters or self.is_on_stack(pointer)) and at <= base:
            return None
        return at if self.can(at, size, write=True) else None

    def handle(self, registers, info):
        signal = info[0]
        action = handler, flags, restorer, blocked = self.actions[signal]
        mask, informed = self.mask, bool(flags & SA_SIGINFO)
        self.mask |= blocked | (0 if flags & SA_NODEFER else 1 << (signal - 1))
        if flags & SA_RESETHAND:
            self.actions[signal] = (0, flags, restorer, blocked)
        at = self.frame_place(action, registers[STACK_POINTER[self.abi]])
        if at is None:
            self.end(("signal", SIGSEGV))
            return registers
        returns_to = restorer if flags & SA_RESTORER else self.restorer
        self.put(at, self.frame(registers, info, informed, at, returns_to, mask))
        entered = list(registers)
        if self.abi == "ia32":
            entered[0], entered[7], entered[8], entered[9] = signal, at, handler, registers[9] & ~0x1_0500
            entered[2], entered[3] = (at + 144, at + 16) if informed else (0, 0)
            return entered
        entered[0], entered[13], entered[14], entered[15] = signal, at, returns_to, handler & ~1
        entered[16] = registers[16] & 0x00ff_01df | (0x20 if handler & 1 else 0)
        if informed:
            entered[1], entered[2] = at, at + 128
        return entered

    def deliver(self, registers):
        passed = 0
        while not self.ended and passed < len(self.waiting):
            info = self.waiting[passed]
            if self.blocks(info[0]):
                passed += 1
                continue
            del self.waiting[passed]
            if self.ignores(info[0]):
                continue
            if self.actions[info[0]][0] == 0:
                self.end(("signal", info[0]))
                return registers
            registers, passed = self.handle(registers, info), 0
        return registers

    def come_back(self, registers, informed):
        pointer = registers[STACK_POINTER[self.abi]]
        size = (INFORMED_SIZE if informed else PLAIN_SIZE)[self.abi]
        at = word(pointer - (4 if informed else 8)) if self.abi == "ia32" else pointer
        if self.abi == "arm" and pointer % 8 or not self.can(at, size):
            self.end(("signal", SIGSEGV))
            return registers
        data = self.load(at, size)
        if self.abi == "ia32":
            words = struct.unpack_from("<22I", data, 164 if informed else 8)
            saved = [words[place] for place in (11, 8, 10, 9, 5, 4, 6, 7, 14, 16)]
            saved[9] = saved[9] & 0x5_0dd5 | registers[9] & ~0x5_0dd5
            mask = struct.unpack_from("<Q", data, 252)[0] if informed else words[20] | struct.unpack_from("<I", data, 720)[0] << 32
            stack = struct.unpack_from("<IiI", data, 152)
        else:
            context = 128 if informed else 0
            saved = list(struct.unpack_from("<17I", data, context + 32))
            saved[16] = saved[16] & 0xfe0f_fc20 | 0x10
            mask, stack = struct.unpack_from("<Q", data, context + 104)[0], struct.unpack_from("<IiI", data, context + 8)
        self.mask = mask & BLOCKABLE
        if informed:
            self.change_stack(saved[STACK_POINTER[self.abi]], *stack)
        return saved

    # Calls: the result of each, or the registers after a return

    def kill(self, pid, signal):
        if not 0 <= signed(signal) <= 64:
            return EINVAL
        return self.send(signal, (signal, 0, 0, 1000, 1000, 0)) if pid in (0, 1000) else ESRCH

    def rt_sigqueueinfo(self, pid, signal, at):
        info = self.fetch(at, "<IiiIII104x")
        if info is None:
            return EFAULT
        if not 0 <= signed(signal) <= 64:
            return EINVAL
        if pid != 1000:
            return EPERM if info[2] >= 0 or info[2] == -6 else ESRCH
        return self.send(signal, (signal, *info[1:]))

    def change_action(self, signal, new, old, spelled):
        if not 1 <= signed(signal) <= 64 or new and signal in (9, 19):
            return EINVAL
        before = self.actions[signal]
        if new:
            self.actions[signal] = (*new[:3], new[3] & BLOCKABLE)
            if self.ignores(signal):
                self.waiting = [info for info in self.waiting if info[0] != signal]
        return self.store(old, spelled(*before))

    def sigaction(self, signal, new, old):
        given = self.fetch(new, "<IIII") if new else ()
        if given is None:
            return EFAULT
        action = (given[0], given[2], given[3], given[1]) if new else ()
        return self.change_action(signal, action, old, lambda handler, flags, restorer, mask: struct.pack("<IIII", handler, word(mask), flags, restorer))

    def rt_sigaction(self, signal, new, old, size):
        if size != 8:
            return EINVAL
        given = self.fetch(new, "<IIIQ") if new else ()
        return EFAULT if given is None else self.change_action(signal, given, old, lambda *action: struct.pack("<IIIQ", *action))

    def sigprocmask(self, how, new, old):
        return self.told_mask(how, new, old, "<I", True)

    def rt_sigprocmask(self, how, new, old, size):
        return self.told_mask(how, new, old, "<Q", False) if size == 8 else EINVAL

    def told_mask(self, how, new, old, form, narrow):
        before, given = self.mask, self.fetch(new, form) if new else ()
        refused = EFAULT if given is None else self.change_mask(how, given[0], narrow) if new else 0
        return refused or self.store(old, struct.pack("<Q", before)[: struct.calcsize(form)])

    def rt_sigpending(self, at, size):
        pending = sum({1 << (info[0] - 1) for info in self.waiting if self.blocks(info[0])})
        data = struct.pack("<Q", pending)[:size]
        if size > 8:
            return EINVAL
        if not self.can(at, size, write=True):
            return EFAULT
        self.put(at, data)
        return 0

    def sigaltstack(self, new, old, pointer):
        told, given = self.told_stack(pointer), self.fetch(new, "<IiI") if new else ()
        refused = EFAULT if given is None else self.change_stack(pointer, *given) if new else 0
        return refused or self.store(old, struct.pack("<IiI", *told))

    def told_timer(self):
        if not self.timer:
            return bytes(16)
        end, interval = self.timer
        rest = max(1000, end - self.monotonic)
        return struct.pack("<IIII", interval // 10**9, interval % 10**9 // 1000, rest // 10**9, rest % 10**9 // 1000)

    def setitimer(self, which, new, old):
        given = self.fetch(new, "<iiii") if new else (0, 0, 0, 0)
        if given is None:
            return EFAULT
        if which or min(given) < 0 or max(given[1], given[3]) > 999_999:
            return EINVAL
        told, (interval, value) = self.told_timer(), (given[part] * 10**9 + given[part + 1] * 1000 for part in (0, 2))
        self.timer = (self.monotonic + value, interval) if value else None
        return self.store(old, told)

    def getitimer(self, which, at):
        if which:
            return EINVAL
        if not self.can(at, 16, write=True):
            return EFAULT
        self.put(at, self.told_timer())
        return 0

    def nanosleep(self, at, rest_at):
        given = self.fetch(at, "<ii")
        if given is None:
            return EFAULT
        if given[0] < 0 or not 0 <= given[1] < 10**9:
            return EINVAL
        wanted = given[0] * 10**9 + given[1]
        cut = None
        if any(not self.blocks(info[0]) and not self.ignores(info[0]) for info in self.waiting):
            cut = 0
        elif self.timer and self.timer[0] <= LAST_TIME and self.timer[0] - self.monotonic < wanted and not self.blocks(SIGALRM) and not self.ignores(SIGALRM):
            cut = self.timer[0] - self.monotonic
        self.pass_time(wanted if cut is None else cut)
        if cut is None:
            return 0
        return self.store(rest_at, struct.pack("<II", (wanted - cut) // 10**9, (wanted - cut) % 10**9)) or EINTR

    # Lines of the script

    def line_post(self, signal, pid, uid):
        self.script.append(f"post {signal:x} {pid:x} {uid:x}")
        if not self.ended:
            self.post((signal, 0, 0, pid, uid, 0))

    def line_queue(self, signal, pid, uid, value):
        self.script.append(f"queue {signal:x} {pid:x} {uid:x} {value:x}")
        if not self.ended:
            self.post((signal, 0, -1, pid, uid, value))

    def line_advance(self, nanoseconds):
        self.script.append(f"advance {nanoseconds:x}")
        self.pass_time(nanoseconds)

    def line_poke(self, at, data):
        self.script.append(f"poke {at:x} {data.hex() or '-'}")
        self.put(at, data)

    def line_call(self, name, *words, registers=()):
        """A call with these words and the other registers given by place; the registers after it."""
        values = [0] * REGISTERS[self.abi]
        first = 1 if self.abi == "ia32" else 0
        values[first : first + len(words)] = map(word, words)
        for place, value in dict(registers).items():
            values[place] = word(value)
        values[0 if self.abi == "ia32" else 7] = self.numbers[name]
        self.script.append("call " + " ".join(f"{value:x}" for value in values))
        self.calls += 1
        if self.ended:
            self.report.append(f"call {self.calls} gone")
            return values
        before = {number: bytes(page) for number, page in self.pages.items()}
        if name in ("sigreturn", "rt_sigreturn"):
            values = self.come_back(values, name == "rt_sigreturn")
        else:
            arguments = [word(argument) for argument in words] + ([values[STACK_POINTER[self.abi]]] if name == "sigaltstack" else [])
            values[0] = word(getattr(self, name)(*arguments))
        values = [word(value) for value in self.deliver(values)]
        self.report.append(f"call {self.calls} {name} " + " ".join(f"{value:08x}" for value in values))
        self.report += self.changes(before)
        if self.ended:
            self.report.append(f"killed {self.ended[1]:x}")
        return values

    def changes(self, before):
        for number in sorted(self.pages):
            old, new = before[number], self.pages[number]
            place = 4096 if old == new else 0
            while place < 4096:
                start = place
                while place < 4096 and old[place] != new[place]:
                    place += 1
                if start < place:
                    yield f"mem {number * 4096 + start:08x} {new[start:place].hex()}"
                place += 1

    def state(self):
        yield from ("state", f"clock {self.real:x} {self.monotonic:x}")
        if self.ended:
            yield f"ended signal {self.ended[1]:x}"
        yield f"peak {self.peak:x}"
        if self.timer:
            yield "timer %x %x" % self.timer
        if self.mask:
            yield f"mask {self.mask:x}"
        if self.stack[1]:
            yield "alt %x %x" % self.stack
        for signal, action in self.actions.items():
            if action[0]:
                yield f"action {signal:x} " + " ".join(f"{part:x}" for part in action)
        for info in self.waiting:
            yield "pending " + " ".join(f"{word(part):x}" for part in info)
        yield from self.items()

    def items(self):
        """The lines of the state behind those of signals."""
        yield "node 2 d 0 41ed 0 0 0.0 0.0 0.0"

    def line_show(self):
        self.script.append("show")
        self.report += self.state()

    def fault(self, program):
        """What the program's report of this script has otherwise, or nothing."""
        want = [*self.report, *self.state(), "end"]
        done = subprocess.run([program, "run"], input=("\n".join(self.script) + "\n").encode(), capture_output=True, timeout=120)
        got = done.stdout.decode().rstrip("\n").split("\n")
        for number in range(max(len(got), len(want))):
            told, line = got[number] if number < len(got) else "(none)", want[number] if number < len(want) else "(none)"
            if told != line:
                return f"{self.abi}: line {number + 1} is {told[:160]!r}, not {line[:160]!r}"
        return None


ACTIONS, OTHERS, LOW, HIGH = 0x1000, 0x2000, 0x5000, 0xffff_f000
PAGES = [(ACTIONS, "rw"), (OTHERS, "rw"), (0x3000, "r"), (LOW, "rw"), (0x6000, "rw"), (0x7000, "rw"), (0x9000, "r"), (HIGH, "rw")]


def with_action(process, signal, handler=0x8000, flags=0, restorer=0x9800, mask=0):
    process.line_poke(ACTIONS, struct.pack("<IIIQ", handler, flags, restorer, mask))
    process.line_call("rt_sigaction", signal, ACTIONS, 0, 8)


def with_stack(process, base, size):
    process.line_poke(OTHERS, struct.pack("<IiI", base, 0, size))
    process.line_call("sigaltstack", OTHERS, 0)


def random_registers(source, abi, pointer):
    values = {place: source.getrandbits(32) for place in range(8, REGISTERS[abi])}
    values[STACK_POINTER[abi]] = pointer
    return values


def at_random(abi, seed):
    """Calls, posted signals and passing time in any order."""
    source = random.Random(seed)
    process = Process(abi, PAGES)
    addresses = [0, ACTIONS, ACTIONS + 0x100, OTHERS, OTHERS + 0xff8, 0x2ff4, 0x3000, 0x8000, 0x8ff8, 0xffff_fff0, 0xffff_ffff]
    signals = [0, 1, 2, 9, 10, 10, 12, 14, 17, 19, 28, 32, 33, 64, 65, 0xffff_ffff]
    pointers = [0x8000, 0x8000, 0x7c04, 0x7400, 0x6801, 0x6000, 0x5fff, 0x5801, 0xffff_fffc, 0x7008]
    flags = [0, SA_SIGINFO, SA_ONSTACK | SA_SIGINFO, SA_ONSTACK, SA_RESTORER | SA_NODEFER, SA_RESETHAND | SA_SIGINFO, 0x1000_0000]
    for signal in (1, 2, 10, 12, 14, 28, 32, 33, 64):
        with_action(process, signal, source.choice([0x8000, 0x8001, 0x8000, 1]), source.choice(flags), mask=source.choice([0, source.getrandbits(64)]))
    last = {}
    for _ in range(60):
        if process.ended:
            break
        step = source.randrange(16)
        where, other = source.choice(addresses), source.choice(addresses)
        registers = random_registers(source, abi, source.choice(pointers))
        signal = source.choice(signals)
        if step == 0:
            handler = source.choice([0, 1, 0x8000, 0x8001, 0x8001])
            mask = source.choice([0, source.getrandbits(64)])
            process.line_poke(ACTIONS, struct.pack("<IIIQ", handler, source.choice(flags), source.getrandbits(32), mask))
            process.line_call("rt_sigaction", signal, source.choice([ACTIONS, where]), other, source.choice([8, 8, 8, 4]), registers=registers)
        elif step == 1:
            process.line_poke(ACTIONS, struct.pack("<IIII", source.choice([1, 0x8001]), source.getrandbits(32), source.choice(flags), 0x9900))
            process.line_call("sigaction", signal, source.choice([ACTIONS, where]), other, registers=registers)
        elif step == 2:
            process.line_poke(OTHERS, struct.pack("<Q", source.choice([0, source.getrandbits(64), 0x2000])))
            process.line_call("rt_sigprocmask", source.choice([0, 1, 2, 3, -1]), source.choice([OTHERS, 0, where]), other, source.choice([8, 8, 4]), registers=registers)
        elif step == 3:
            process.line_poke(OTHERS, struct.pack("<I", source.choice([0, source.getrandbits(32)])))
            process.line_call("sigprocmask", source.choice([0, 1, 2, 3]), source.choice([OTHERS, 0, where]), other, registers=registers)
        elif step == 4:
            process.line_call("rt_sigpending", where, source.choice([0, 1, 4, 8, 9]), registers=registers)
        elif step == 5:
            base = source.choice([0x6000, 0x5000, 0x6ff0, 0xffff_f000])
            process.line_poke(OTHERS, struct.pack("<IiI", base, source.choice([0, 0, 1, 2, 3]), source.choice([2048, 4096, 2047])))
            process.line_call("sigaltstack", source.choice([OTHERS, 0, where]), other, registers=registers)
        elif step == 6:
            value = [source.choice([0, 0, 1, 999_999, 1_000_000, -1]) for _ in range(4)]
            process.line_poke(OTHERS, struct.pack("<iiii", *value))
            process.line_call("setitimer", source.choice([0, 0, 0, 1]), source.choice([OTHERS, OTHERS, 0, where]), other, registers=registers)
        elif step == 7:
            process.line_call("getitimer", source.choice([0, 0, 1]), where, registers=registers)
        elif step == 8:
            process.line_poke(OTHERS, struct.pack("<ii", source.choice([0, 1, 3, -1]), source.choice([0, 5, 999_999_999, 1_000_000_000])))
            process.line_call("nanosleep", source.choice([OTHERS, OTHERS, where]), other, registers=registers)
        elif step == 9:
            process.line_poke(OTHERS, struct.pack("<IiiIII", source.getrandbits(32), -4, source.choice([0, -1, -6]), 5, 6, source.getrandbits(32)))
            process.line_call("rt_sigqueueinfo", source.choice([1000, 1000, 5, 0]), signal, source.choice([OTHERS, OTHERS, where]), registers=registers)
        elif step == 10:
            process.line_post(source.choice(signals[1:14]), source.getrandbits(8), 0)
        elif step == 11:
            process.line_queue(source.choice(signals[1:14]), 1, 2, source.getrandbits(32))
        elif step == 12:
            process.line_advance(source.choice([0, 1, 10**9, 10**15]))
        elif step == 13 and last:
            away = {True: 4, False: 8} if abi == "ia32" else {True: 0, False: 0}
            informed = source.random() < 0.5
            process.line_call("rt_sigreturn" if informed else "sigreturn", registers={STACK_POINTER[abi]: last[STACK_POINTER[abi]] + away[informed]})
        else:
            after = process.line_call("kill", source.choice([0, 1000, 5]), signal, registers=registers)
            last = dict(enumerate(after))
    process.line_show()
    return process


def nested(abi, informed):
    """A hundred handlers inside one another, and back."""
    pages = [(address, "rw") for address in range(0x10_0000, 0x12_0000, 0x1000)]
    process = Process(abi, [(ACTIONS, "rw"), *pages])
    for signal in (10, 33):
        with_action(process, signal, 0x8001, SA_NODEFER | (SA_SIGINFO if informed else 0), mask=1 << 20)
    source, pointer = random.Random(7), STACK_POINTER[abi]
    after = {pointer: 0x12_0000}
    frames = []
    for depth in range(100):
        registers = random_registers(source, abi, after[pointer] - depth % 24)
        after = process.line_call("kill", 0, 10 if depth % 3 else 33, registers=registers)
        frames.append(after[pointer])
    away = 0 if abi == "arm" else 4 if informed else 8
    for at in reversed(frames):
        process.line_call("rt_sigreturn" if informed else "sigreturn", registers={pointer: at + away})
    return process


def around_an_end(abi, informed, flags, pointers, stack=None):
    """A frame from each of these stack pointers, of a process of its own where the last one ended it."""
    process = None
    for pointer in pointers:
        if process is None or process.ended:
            if process:
                yield process
            process = Process(abi, PAGES)
            if stack:
                with_stack(process, *stack)
            with_action(process, 10, 0x8000, flags | SA_NODEFER | (SA_SIGINFO if informed else 0))
        process.line_call("kill", 0, 10, registers={STACK_POINTER[abi]: pointer})
    yield process


def changed_frames(abi, informed, seed):
    """Returns from a frame of which a byte of each word in turn was changed."""
    source, pointer = random.Random(seed), STACK_POINTER[abi]
    process = Process(abi, PAGES)
    with_stack(process, 0x6000, 4096)
    with_action(process, 10, 0x8000, SA_ONSTACK | (SA_SIGINFO if informed else 0))
    away = 0 if abi == "arm" else 4 if informed else 8
    size = (INFORMED_SIZE if informed else PLAIN_SIZE)[abi]
    for word_at in range(0, size, 4):
        after = process.line_call("kill", 0, 10, registers=random_registers(source, abi, 0x8000))
        process.line_poke(after[pointer] + word_at + source.randrange(4), bytes([source.getrandbits(8)]))
        process.line_call("rt_sigreturn" if informed else "sigreturn", registers={pointer: after[pointer] + away, 9 if abi == "ia32" else 16: source.getrandbits(32)})
        process.line_poke(OTHERS, bytes(8))
        process.line_call("rt_sigprocmask", 2, OTHERS, 0, 8)
        with_stack(process, 0x6000, 4096)
    return process


def processes():
    for abi in ("ia32", "arm"):
        for seed in range(60):
            yield at_random(abi, seed)
        for informed in (False, True):
            size = (INFORMED_SIZE if informed else PLAIN_SIZE)[abi]
            yield nested(abi, informed)
            yield changed_frames(abi, informed, 1)
            # a frame that begins in a page that isn't there, by each of its bytes; the bottom of memory, and the end of all addresses
            yield from around_an_end(abi, informed, 0, range(LOW + 16, LOW + size - 20, 8))
            yield from around_an_end(abi, informed, 0, range(LOW + size - 20, LOW + size + 40))
            yield from around_an_end(abi, informed, 0, range(size + 10, size + 20))
            yield from around_an_end(abi, informed, SA_ONSTACK, [0x8000], (HIGH, 4096))
            yield from around_an_end(abi, informed, SA_ONSTACK, [0x8000], (HIGH, 4097))
            # on the alternate stack, around the place below which no frame fits
            yield from around_an_end(abi, informed, SA_ONSTACK, range(0x6000 + size - 20, 0x6000 + size + 40), (0x6000, 4096))
            yield from around_an_end(abi, informed, 0, range(0x6000 + size - 4, 0x6000 + size + 24), (0x6000, 4096))


def main():
    program, count, wrong = sys.argv[1], 0, []
    for process in processes():
        count += 1
        fault = process.fault(program)
        if fault:
            wrong.append(fault)
    for fault in wrong[:8]:
        print(fault)
    print(f"{count} scripts of signals: " + (f"{len(wrong)} reports are wrong" if wrong else "every report is the model's"))
    return 1 if wrong else 0


if __name__ == "__main__":
    sys.exit(main())
