"""Runs a program and stops it at the entries of functions, for bench/counts: by the system call
`ptrace` of Linux, on x86-64. Also reads graphs and partitions from its memory, as the programs keep
them there."""
import ctypes
import os
import signal
import struct
import sys
import tempfile

TRACEME, CONT, STEP, GETREGS, SETREGS = 0, 7, 9, 12, 13
# The registers, as the kernel lists them.
LISTED = """
    r15 r14 r13 r12 rbp rbx r11 r10 r9 r8 rax rcx rdx rsi rdi orig_rax rip cs eflags rsp ss fs_base
    gs_base ds es fs gs
""".split()
RIP, RSP = LISTED.index("rip"), LISTED.index("rsp")
ARGUMENTS = [LISTED.index(name) for name in ("rdi", "rsi", "rdx", "rcx", "r8", "r9")]
STOP = b"\xcc"
KERNEL = ctypes.CDLL(None, use_errno=True).ptrace
KERNEL.restype = ctypes.c_long
KERNEL.argtypes = [ctypes.c_long, ctypes.c_long, ctypes.c_void_p, ctypes.c_void_p]
MOST_VERTICES, MOST_EDGES = 128, 2048


class Unread(Exception):
    """What lies at an address is not what was looked for."""


class Memory:
    """The memory of a process, and the things that Mcg keeps there."""

    def __init__(self, process):
        self.file = os.open(f"/proc/{process}/mem", os.O_RDWR)

    def bytes(self, at, size):
        try:
            found = os.pread(self.file, size, at) if size else b""
        except (OSError, OverflowError):
            raise Unread from None
        if len(found) != size:
            raise Unread
        return found

    def words(self, at, many=1):
        return struct.unpack(f"<{many}Q", self.bytes(at, 8 * many))

    def number(self, at):
        return struct.unpack("<I", self.bytes(at, 4))[0]

    def sets(self, at, many):
        if not 0 < many <= MOST_VERTICES:
            raise Unread
        text = self.bytes(at, 16 * many)
        return [int.from_bytes(text[k : k + 16], "little") for k in range(0, len(text), 16)]

    def rows(self, at, many):
        """The rows of neighbours of a graph: each within the vertices, without the own, and equal
        both ways."""
        rows = self.sets(at, many)
        for v, row in enumerate(rows):
            if row >> many or row >> v & 1 or any((row >> w ^ rows[w] >> v) & 1 for w in range(v)):
                raise Unread
        return tuple(rows)

    def ends(self, at):
        """The order of a graph and the ends of its edges, if the rows that lie beside them fit."""
        order = self.number(at)
        place, edges, _, rows, many, _ = self.words(at + 8, 6)
        if not 0 < order == many <= MOST_VERTICES or edges > MOST_EDGES:
            raise Unread
        found = list(struct.iter_unpack("<2I", self.bytes(place, 8 * edges)))
        if not all(0 < a <= order and 0 < b <= order for a, b in found):
            raise Unread
        if rows_of((order, found)) != self.rows(rows, many):
            raise Unread
        return order, [tuple(sorted(pair)) for pair in found]

    def graph(self, at):
        """The order and the pairs of ends, sorted: the order of the edges is no part of it."""
        order, ends = self.ends(at)
        return order, tuple(sorted(ends))

    def neighbours(self, at):
        """The rows of neighbours of a graph."""
        return rows_of(self.ends(at))

    def covered(self, at):
        """The graph of a `Covered`, which keeps it or borrows it."""
        return self.graph(self.words(at + 8)[0] if self.bytes(at, 1)[0] else at + 8)

    def pairs(self, at):
        """The graph of a `FirstPairs`."""
        return self.covered(*self.words(at))

    def facts(self, at):
        """The graph of a `Facts`."""
        return self.graph(*self.words(at))

    def partition(self, at):
        """The blocks of a partition, which lie apart and have all vertices."""
        order, blocks = self.number(at), self.sets(*self.words(at + 8, 2))
        if 0 in blocks or sum(blocks) != 2**order - 1:
            raise Unread
        return tuple(blocks)


def rows_of(graph):
    """The rows of neighbours of a graph."""
    rows = [0] * graph[0]
    for a, b in graph[1]:
        rows[a - 1] |= 1 << b - 1
        rows[b - 1] |= 1 << a - 1
    return tuple(rows)


def quotient_of(graph, blocks):
    """The graph at a partition."""
    place = [0] * (graph[0] + 1)
    for k, block in enumerate(blocks):
        for v in range(graph[0]):
            if block >> v & 1:
                place[v + 1] = k + 1
    ends = {tuple(sorted((place[a], place[b]))) for a, b in graph[1]}
    return len(blocks), tuple(sorted(pair for pair in ends if pair[0] != pair[1]))


def single_vertices(order):
    """The blocks of the partition of 1 to `order` into single vertices."""
    return tuple(1 << k for k in range(order))


def merged_blocks(blocks, shore):
    """The blocks after those in the shore are merged into one, by their greatest vertices."""
    return tuple(sorted([block for block in blocks if not block & shore] + [shore]))


def functions_of(program):
    """The places of the functions of a program in the format ELF, by their names."""
    with open(program, "rb") as file:
        text = file.read()
    (start,), (size, many) = struct.unpack_from("<Q", text, 40), struct.unpack_from("<HH", text, 58)
    sections = [struct.unpack_from("<IIQQQQIIQQ", text, start + k * size) for k in range(many)]
    found = {}
    for section in sections:
        if section[1] == 2:
            names = sections[section[6]][4]
            for at in range(section[4], section[4] + section[5], section[9]):
                name, info, _, place, value, _ = struct.unpack_from("<IBBHQQ", text, at)
                if info & 15 == 2 and place:
                    end = text.index(b"\0", names + name)
                    found[text[names + name : end].decode()] = value
    return found


class Run:
    """One run of a program. `entered` is called at the entry of each function of `places`, with the
    place, the memory, the stack and the arguments, and `left` when the function has returned."""

    def __init__(self, path, words, given, places, entered, left):
        self.path, self.places = os.path.realpath(path), places
        self.entered, self.left = entered, left
        with tempfile.TemporaryFile() as source, tempfile.TemporaryFile() as target:
            source.write(given)
            source.seek(0)
            process = os.fork()
            if process == 0:
                become(self.path, words, source.fileno(), target.fileno())
            self.follow(process)
            target.seek(0)
            self.output = target.read()

    def follow(self, process):
        _, status = os.waitpid(process, 0)
        if not os.WIFSTOPPED(status):
            sys.exit(f"{self.path} cannot be run and traced")
        with open(f"/proc/{process}/maps") as file:
            own = next(line for line in file if line.rstrip().endswith(self.path))
        self.base, self.memory, self.first = int(own.split("-")[0], 16), Memory(process), {}
        for place in self.places:
            self.stop_at(self.base + place)
        registers = (ctypes.c_ulonglong * len(LISTED))()
        while True:
            KERNEL(CONT, process, None, None)
            _, status = os.waitpid(process, 0)
            if not os.WIFSTOPPED(status):
                break
            KERNEL(GETREGS, process, None, ctypes.addressof(registers))
            registers[RIP] -= 1
            if os.WSTOPSIG(status) != signal.SIGTRAP or registers[RIP] not in self.first:
                os.kill(process, signal.SIGKILL)
                sys.exit(f"signal {os.WSTOPSIG(status)} in {self.path}")
            KERNEL(SETREGS, process, None, ctypes.addressof(registers))
            self.stopped(registers)
            os.pwrite(self.memory.file, self.first[registers[RIP]], registers[RIP])
            KERNEL(STEP, process, None, None)
            os.waitpid(process, 0)
            os.pwrite(self.memory.file, STOP, registers[RIP])
        os.close(self.memory.file)
        self.status = os.waitstatus_to_exitcode(status)

    def stop_at(self, place):
        if place not in self.first:
            self.first[place] = self.memory.bytes(place, 1)
            os.pwrite(self.memory.file, STOP, place)

    def stopped(self, registers):
        place, stack = registers[RIP] - self.base, registers[RSP]
        self.left(stack)
        if place in self.places:
            self.entered(place, self.memory, stack, [registers[k] for k in ARGUMENTS])
            self.stop_at(*self.memory.words(stack))


def why_untraced():
    """Why the system does not let a program be traced in this way, or nothing if it does: tried on
    a copy of this process, by what `Run` does to a program."""
    process = os.fork()
    if process == 0:
        if KERNEL(TRACEME, 0, None, None):
            os._exit(ctypes.get_errno())
        os.kill(os.getpid(), signal.SIGSTOP)
        os._exit(0)
    _, status = os.waitpid(process, 0)
    if not os.WIFSTOPPED(status):
        code = os.waitstatus_to_exitcode(status)
        return f"ptrace: {os.strerror(code)}" if code > 0 else f"ptrace: signal {-code}"
    registers = (ctypes.c_ulonglong * len(LISTED))()
    code_place = ctypes.cast(KERNEL, ctypes.c_void_p).value
    try:
        for request in (GETREGS, SETREGS):
            if KERNEL(request, process, None, ctypes.addressof(registers)):
                return f"ptrace: {os.strerror(ctypes.get_errno())}"
        memory = Memory(process)
        os.pwrite(memory.file, os.pread(memory.file, 1, code_place), code_place)
        os.close(memory.file)
    except OSError as why:
        return f"the memory of a process: {why.strerror}"
    finally:
        os.kill(process, signal.SIGKILL)
        os.waitpid(process, 0)
    return None


def become(path, words, source, target):
    """Becomes the program, traced."""
    try:
        os.dup2(source, 0)
        os.dup2(target, 1)
        KERNEL(TRACEME, 0, None, None)
        os.execv(path, [path, *words])
    finally:
        os._exit(127)
