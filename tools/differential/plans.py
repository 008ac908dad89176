"""Lists of append lengths, 0 for a flush, as inputs of the program `plan`, and the line that it must write for each.

Its code carries the held bytes from entry to entry. Here the numbers are worked out from where the bytes lie: those between two flushes one behind the other,
in cells of C bytes. A call takes what of its append lies in one cell. A full cell is a chunk, and a flush makes one of the last that is not full.
"""

import itertools
import struct
import typing

MAX_LIMIT, MAX_ENTRIES = 2097152, 65536
# the largest length
MOST = 2**32 - 1
# the program reads C and one entry more than it takes, and nothing behind
READ = 4 * (1 + MAX_ENTRIES + 1)
NO_LIMIT = "plan: no C: the input begins with it, in four bytes"
CUT = "plan: the last entry is cut: each has four bytes"


class Needs(typing.NamedTuple):
    chunks: int
    stored: int
    held: int
    appends: int
    flushes: int

    def line(self):
        return " ".join(f"{name} {n}" for name, n in self._asdict().items())


def needs(limit, lengths):
    *flushed, last = stretches(lengths)
    full, held = divmod(sum(last), limit)
    return Needs(
        chunks=full + sum(cells(limit, 0, sum(stretch)) for stretch in flushed),
        stored=sum(lengths) - held,
        held=held,
        appends=sum(cells(limit, end - n, end) for stretch in [*flushed, last] for n, end in zip(stretch, itertools.accumulate(stretch))),
        flushes=sum(1 if sum(stretch) % limit == 0 else 2 for stretch in flushed),
    )


def stretches(lengths):
    """the appends before each flush, and those behind the last"""
    found = [[]]
    for n in lengths:
        if n == 0:
            found.append([])
        else:
            found[-1].append(n)
    return found


def cells(limit, start, end):
    """how many have a byte from start on and before end"""
    return -(-end // limit) - start // limit


def content(limit, lengths):
    """the input"""
    return struct.pack(f"<{1 + len(lengths)}I", limit, *lengths)


def line(data):
    """what the program must write for an input"""
    data = data[:READ]
    if len(data) < 4:
        return NO_LIMIT
    if len(data) % 4:
        return CUT
    limit, *lengths = struct.unpack(f"<{len(data) // 4}I", data)
    if not 0 < limit <= MAX_LIMIT:
        return "E1"
    if len(lengths) > MAX_ENTRIES:
        return "E16"
    return needs(limit, lengths).line()


def written(program, data):
    """what the program does write"""
    return program.raw(data).decode().removesuffix("\n")


# ---- lists by name

# the bank's day: each event is an append and a flush
DAY = [6000, 0] * 700

CASES = {
    # ---- the input's end
    "empty": b"",
    "three-bytes": b"\4\0\0",
    "limit-alone": content(4, []),
    "cut-entry": content(4, [3, 6])[:-3],
    "cut-by-one": content(4, [3, 6])[:-1],
    # ---- C from both sides
    "limit-0": content(0, [3, 0]),
    "limit-1": content(1, [1, 2, 0, 3]),
    "limit-2097152": content(MAX_LIMIT, [MAX_LIMIT - 1, 1, 1, 0]),
    "limit-2097153": content(MAX_LIMIT + 1, [3, 0]),
    "limit-4294967295": content(MOST, [3, 0]),
    # ---- what an entry finds held, and leaves
    "one-flush": content(4, [0]),
    "flush-twice": content(4, [0, 0]),
    "held-to-the-last-byte": content(4, [3]),
    "one-chunk": content(4, [4]),
    "one-byte-more": content(4, [5]),
    "held-filled-exactly": content(4, [3, 1]),
    "held-filled-and-more": content(4, [3, 2]),
    "held-filled-and-a-chunk-more": content(4, [3, 5]),
    "held-across-many": content(1000, [1] * 999),
    "held-across-many-and-cut": content(1000, [1] * 1001),
    "flush-of-held": content(4, [3, 0]),
    "flush-of-held-twice": content(4, [3, 0, 0]),
    "flush-behind-a-chunk": content(4, [4, 0]),
    "append-behind-a-flush": content(4, [3, 0, 3]),
    # ---- the largest numbers
    "largest-length-limit-1": content(1, [MOST]),
    "largest-length-limit-77777": content(77777, [MOST]),
    "largest-length-limit-2097152": content(MAX_LIMIT, [MOST]),
    "largest-length-behind-held": content(MAX_LIMIT, [MAX_LIMIT - 1, MOST, MOST, 0]),
    "65536-entries": content(MAX_LIMIT - 1, [MOST] * 65536),
    "65537-entries": content(MAX_LIMIT - 1, [MOST] * 65537),
    "limit-0-and-65537-entries": content(0, [0] * 65537),
    "behind-65537-entries": content(4096, [0] * 65538)[:-1],
    # ---- a day
    "day-4096": content(4096, DAY),
    "day-2097152": content(MAX_LIMIT, DAY),
}


# ---- lists without number


def longest():
    """at the borders of C and of the number of entries, of one length, and of it and a flush in turn"""
    limits = [0, 1, 2, 4096, MAX_LIMIT - 1, MAX_LIMIT, MAX_LIMIT + 1, MOST]
    counts = [MAX_ENTRIES - 1, MAX_ENTRIES, MAX_ENTRIES + 1]
    turns = [[0], [1], [1, 0], [MAX_LIMIT - 1], [MAX_LIMIT - 1, 0], [MOST], [MOST, 0]]
    for limit, count, turn in itertools.product(limits, counts, turns):
        yield content(limit, (turn * count)[:count])


def random_list(rng):
    """of all numbers of entries, with lengths of all sizes"""
    limit = rng.choice([1, 2, 3, 4096, MAX_LIMIT - 1, MAX_LIMIT, rng.randint(1, MAX_LIMIT), rng.randint(1, 2 ** rng.randint(1, 21))])
    return content(limit, random_lengths(rng, limit, int(2 ** rng.uniform(0, 16)), MOST))


def random_lengths(rng, limit, entries, most):
    """at, beside and between multiples of C, with flushes, more or fewer"""
    times = [rng.randint(0, 2 ** rng.randint(0, (most // limit).bit_length())) for _ in range(12)]
    some = [1, most] + [t * limit + rng.choice([-1, 0, 1, rng.randint(0, limit)]) for t in times]
    found = [n for n in some if 0 < n <= most]
    return rng.choices(found + [0] * rng.randint(0, len(found)), k=entries)


# ---- differences


def shortest(data, differs):
    """an input that dropping entries leads to and that still differs; one that needs almost all of them stays long"""
    size = len(data)
    while size >= 4 and len(data) <= 64 * size:
        at = 4
        while at < len(data):
            shorter = data[:at] + data[at + size :]
            if differs(shorter):
                data = shorter
            else:
                at += size
        size = size // 8 * 4
    return data


def words(data):
    if len(data) < 4 or len(data) % 4:
        return f"the bytes {data.hex()}"
    limit, *lengths = struct.unpack(f"<{len(data) // 4}I", data)
    runs = [(n, len(list(run))) for n, run in itertools.groupby(lengths)]
    return f"C {limit}: " + (", ".join(f"{n}" if count == 1 else f"{count} times {n}" for n, count in runs) or "no entry")
