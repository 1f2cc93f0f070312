"""Shared memory as a script describes it, and the copies that the service makes of it.

What is here follows the tests of a command from its header to its ranges. Whether a command breaks an argument rule, which would end the run
there, is not looked at.
"""
import struct
from dataclasses import dataclass, field
from heapq import heappop, heappush

from .table import BY_NUMBER, LIMITS

SIZE_BITS = 21
SIZE_MASK = 2**SIZE_BITS - 1


def header(number, size):
    return number << SIZE_BITS | size


def packed(words):
    return struct.pack(f"<{len(words)}I", *words)


class Memory:
    """Region 0, the ring, and the regions of a script. An overwrite is made just before the copy of its number."""

    def __init__(self, sizes):
        self.regions = {region: bytearray(size) for region, size in sizes.items()}
        self.copies = 0
        self.pending, self.order = [], 0
        # The line that wrote a byte last, of bytes that were overwritten.
        self.writers = {region: {} for region in sizes}
        self.written = []

    def overwrite(self, copy, line, region, offset, data):
        heappush(self.pending, (copy, line, self.order, region, offset, data))
        self.order += 1

    def copy(self, region, offset, count):
        """The bytes that the next copy takes, and the lines that wrote some of them."""
        while self.pending and self.pending[0][0] <= self.copies:
            _, line, _, target, place, data = heappop(self.pending)
            self.regions[target][place : place + len(data)] = data
            self.writers[target].update(dict.fromkeys(range(place, place + len(data)), line))
            self.written.append((line, self.copies))
        self.copies += 1
        writers = self.writers[region]
        met = {writers[at] for at in range(offset, offset + count) if at in writers} if writers else set()
        return bytes(self.regions[region][offset : offset + count]), met


@dataclass
class Copy:
    """A copy: its number, what it takes, and the lines `at` whose bytes it meets."""

    number: int
    part: str
    met: set


@dataclass
class Fault:
    """The first test that fails: its number in the table of tests, the kind of the stop, and what is wrong."""

    test: int
    kind: str
    why: str


@dataclass
class Fetched:
    """What was read at an entry: the header, the command that has its number, the words, the copies, and the test that failed, if one did."""

    entry: int
    header: int = 0
    command: object = None
    words: list = field(default_factory=list)
    data: bytes = b""
    copies: list = field(default_factory=list)
    fault: Fault | None = None

    @property
    def size(self):
        return self.header & SIZE_MASK


def planned(command, words):
    """What range of shared memory the words name: "data", "reply" or "bytes" with region, offset and count, or None."""
    if command.has_data:
        source, count, region, offset = words[-4:]
        return ("data", region, offset, count) if source == 1 else None
    if command.reply_words is not None:
        return ("reply", *words[-2:], 4 + 4 * command.reply_words)
    if command.places_bytes:
        return ("bytes", *words[-2:], words[-3])
    return None


def range_fault(memory, plan):
    what, region, offset, count = plan
    size = len(memory.regions[region]) if region in memory.regions else None
    if size is None:
        return Fault(6, "OutOfBounds", f"region {region} of its {what} is not there")
    if offset + count > size:
        return Fault(6, "OutOfBounds", f"the {count} bytes of its {what} from byte {offset} on leave region {region} of {size} bytes")
    return None


class Wire:
    """The reader of a ring. It stops for good at the first command that fails a test."""

    def __init__(self, memory, entries):
        self.memory, self.entries = memory, entries
        self.get, self.stop = 0, None

    def run(self, put):
        """Reads the commands up to a put, one after the other."""
        while self.stop is None and self.get != put:
            fetched = self.fetch(put)
            self.stop = fetched.fault
            yield fetched
            if self.stop is None:
                behind = self.get + fetched.size
                self.get = 0 if behind == self.entries else behind

    def fetch(self, put):
        fetched = Fetched(self.get)
        if put >= self.entries:
            fetched.fault = Fault(1, "OutOfBounds", f"put is {put}, and the ring has the entries 0 to {self.entries - 1}")
            return fetched
        fetched.header = self.take(fetched, "header", 0, 4 * self.get, 4)[0]
        fetched.fault = self.header_fault(fetched, put)
        if fetched.fault or fetched.command.is_of_any_size or fetched.command.word_count == 0:
            return fetched
        fetched.words = list(self.take(fetched, "words", 0, 4 * (self.get + 1), 4 * fetched.command.word_count))
        plan = planned(fetched.command, fetched.words)
        fetched.fault = plan and range_fault(self.memory, plan)
        if plan and not fetched.fault and plan[0] == "data":
            self.take_data(fetched, *plan[1:])
        return fetched

    def header_fault(self, fetched, put):
        ready = (put if put > self.get else self.entries) - self.get
        number, size = fetched.header >> SIZE_BITS, fetched.size
        fetched.command = BY_NUMBER.get(number)
        if size == 0:
            return Fault(2, "InvalidSize", "the size in its header is 0")
        if size > ready:
            return Fault(3, "OutOfBounds", f"its {size} entries are more than the {ready} that are ready")
        if fetched.command is None:
            return Fault(4, "UnknownCommand", f"no command has the number {number}")
        if not fetched.command.is_of_any_size and size != 1 + fetched.command.word_count:
            return Fault(5, "InvalidArguments", f"{fetched.command.name} has {1 + fetched.command.word_count} entries, and its header says {size}")
        return None

    def take(self, fetched, part, region, offset, count):
        number = self.memory.copies
        data, met = self.memory.copy(region, offset, count)
        fetched.copies.append(Copy(number, part, met))
        return struct.unpack(f"<{count // 4}I", data)

    def take_data(self, fetched, region, offset, count):
        pieces = []
        for done in range(0, count, LIMITS["COPY_LIMIT"]):
            piece = min(LIMITS["COPY_LIMIT"], count - done)
            number = self.memory.copies
            data, met = self.memory.copy(region, offset + done, piece)
            pieces.append(data)
            fetched.copies.append(Copy(number, f"data {done} to {done + piece - 1}" if count > piece else "data", met))
        fetched.data = b"".join(pieces)


def wire_of(script):
    """The wire of a whole script, with all that its lines write."""
    memory = Memory({0: 4 * script.entries} | script.sizes)
    for line in script.lines:
        if line.word == "bytes":
            region, offset, data = line.values
            memory.regions[region][offset : offset + len(data)] = data
    for line in script.lines:
        if line.word == "at":
            copy, *where = line.values
            memory.overwrite(copy, line.number, *where)
    return Wire(memory, script.entries)
