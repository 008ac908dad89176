"""Requests whatever as records of the program `wire_vectors`, also those that no session makes, each with what is lent to write it.

A record is an i64 offset; a u8 of flags (bit 0 flush, 1 state lookup, 2 finish, 3 data, 4 the object's sum); the u32 sums of the data and of the object; and
three u16: the data's length, how many bytes of it are lent, and the buffer's length. Byte i of the data is i mod 251. The program prints `E14`, or the count of
bytes written and the bytes. A record with another flag ends the run.
"""

import dataclasses
import itertools
import struct

from .messages import decode, length

FLUSH, LOOKUP, FINISH, DATA, SUM = (1 << i for i in range(5))
SWITCHES = FLUSH | LOOKUP | FINISH
LOW, HIGH, MOST = -(2**63), 2**63 - 1, 2**32 - 1
# lengths of varints change at each power of 2^7
OFFSETS = [0, 1, 127, 128, 2**14 - 1, 2**14, 2**14 + 1, 2**21 - 1, 2**21, 2**28, 2**35, 2**42, 2**49, 2**56 - 1, 2**56, HIGH - 1, HIGH, -1, LOW + 1, LOW]
# what the program has to lend
LENT, BUFFER = 16384, 32768


@dataclasses.dataclass(frozen=True)
class Vector:
    offset: int = 0
    flags: int = 0
    data_sum: int = 0
    object_sum: int = 0
    length: int = 0
    lent: int = 0
    buffer: int = 0

    def record(self):
        return struct.pack("<qBIIHHH", *dataclasses.astuple(self))

    def request(self):
        """the fields, as in a `rq` line"""
        content = bytes(i % 251 for i in range(self.length)).hex()
        data = f"{content}/{self.data_sum:08x}" if self.flags & DATA else "none"
        summed = f"{self.object_sum:08x}" if self.flags & SUM else "none"
        flags = " ".join(f"{name}={int(self.flags & flag != 0)}" for name, flag in (("f", FLUSH), ("s", LOOKUP), ("w", FINISH)))
        return f"off={self.offset} data={data} {flags} sum={summed}".encode()

    def needs(self):
        """the lengths of the message and of the data"""
        data = self.length if self.flags & DATA else None
        return length(self.offset, data, (self.flags & SWITCHES).bit_count(), self.flags & SUM != 0), data or 0


def aimed(v):
    """with a buffer just long enough, one byte short, and with one byte of data less"""
    message, content = v.needs()
    yield dataclasses.replace(v, lent=content, buffer=message)
    if message:
        yield dataclasses.replace(v, lent=content, buffer=message - 1)
    if content:
        yield dataclasses.replace(v, lent=content - 1, buffer=message)


def borders():
    """every offset with each flag, each sum and little data; every length of data, or of the part that holds it, with each sum; more lent than needed"""
    flags = [0, FLUSH, LOOKUP, FINISH, SWITCHES]
    sums = [(0, 0), (SUM, 0), (SUM, MOST)]
    bare = [Vector(o, f | s, MOST, n) for o, f, (s, n) in itertools.product(OFFSETS, flags, sums)]
    little = [Vector(o, f | s | DATA, n, n, size) for o, f, (s, n), size in itertools.product(OFFSETS, (0, SWITCHES), sums, (0, 1))]
    # the part has 127 bytes with 120 of data, 2^14 - 1 with 16,375
    middle = [Vector(o, f | DATA, n, 0, size) for o, f, n, size in itertools.product((0, 128), (0, SWITCHES | SUM), (0, MOST), (120, 121, 127, 128))]
    much = [Vector(0, DATA, MOST, 0, 8192), Vector(LOW, SWITCHES | DATA | SUM, MOST, MOST, 8192)]
    much += [Vector(0, DATA, 0, 0, size) for size in (16375, 16376, 16383, 16384)]
    more = [Vector(o, SWITCHES | f, 0, 0, 5, LENT, BUFFER) for o, f in itertools.product((0, -1), (0, DATA, SUM, DATA | SUM))]
    # sums and data that are not there don't count
    absent = [Vector(7, FLUSH, MOST, MOST, 65535, 0, buffer) for buffer in (0, 3, 4, 5)]
    return [a for v in bare + little + middle + much for a in aimed(v)] + more + absent


def random_vectors(rng, count):
    return [random_vector(rng) for _ in range(count)]


def random_vector(rng):
    offset = rng.choice([0, -1, LOW, HIGH, rng.randint(LOW, HIGH), rng.getrandbits(rng.randint(1, 63)), 2 ** (7 * rng.randint(1, 8)) - rng.randint(0, 1)])
    sums = [rng.choice([0, 1, MOST, rng.getrandbits(32)]) for _ in range(2)]
    size = rng.choice([0, 1, 2, rng.randint(3, 40), rng.randint(100, 140), rng.randint(0, 400) if rng.random() < 0.95 else rng.randint(16300, LENT)])
    v = Vector(offset, rng.randrange(32), *sums, size)
    message, content = v.needs()
    lent = rng.choice([content] * 6 + [content - 1, content + 1, 0, 2**16 - 1])
    buffer = rng.choice([message] * 4 + [message - 1] * 2 + [message + 1, 0, rng.randint(0, 2 * message), 2**16 - 1])
    # more than the program has is cut down to that
    return dataclasses.replace(v, lent=max(lent, 0), buffer=max(buffer, 0))


def records(vectors):
    """and behind them one that ends the run, and one that is not read"""
    return b"".join(v.record() for v in [*vectors, Vector(flags=32), Vector()])


def answers(vectors, program):
    return program.raw(records(vectors)).split(b"\n")[:-1]


def against(vectors, program, oracle):
    """What the program shows for each, with what the crate's decoder makes of the bytes in their place; and the crate's counts, with the requests."""
    shown = answers(vectors, program)
    read = dict(zip(shown, decode([line.partition(b" ")[::2] for line in shown], oracle)))
    shown = [line if line == b"E14" else line.partition(b" ")[0] + b" " + read[line] for line in shown]
    crate = answers(vectors, oracle.mode("vectors"))
    return shown, [line if line == b"E14" else line.partition(b" ")[0] + b" " + v.request() for v, line in zip(vectors, crate, strict=True)]
