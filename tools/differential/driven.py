"""Lists of append lengths, 0 for a flush (differential/plans.py), driven through a session: an append is called again with what was not taken, a flush till
its waiter.

Which calls these are depends on the answers. So that a list needs one run, they are foreseen; then those that were given are read, and the calls have to be the
ones that they ask for.
"""

import itertools
import re
import typing

from .agree import calls as calls_of
from .calls import FLUSH, Append, Opening, Response, Script
from .moves import State
from .parts import DATA
from .plans import Needs, content, needs, random_lengths

# what `trace` has to lend, and the most waiters
STORE, SLOTS, WAITERS = 32768, 64, 16
# an append is one record of at most so many bytes
LONGEST = 2**16 - 1
ANSWER = re.compile(rb"AP (\d+) (?:-|\d+:\d+:\S+)|FL \d+:\d+:\S+( w\d+)?")


class Answer(typing.NamedTuple):
    taken: int
    waits: bool


class Unfit(Exception):
    """The list was not driven: a call was refused, or is another than the answers ask for."""


def drive(lengths, data, call):
    """makes the calls of a list; the appended bytes are taken from the front of the data"""
    for n in lengths:
        rest, data = data[:n], data[n:]
        while rest:
            rest = rest[call(Append(rest)).taken :]
        while n == 0 and not call(FLUSH).waits:
            pass


class Foreseen:
    """The answers of a session, and its server's reports of the write offset: where table or store is full, or so many wait; patience None: no report."""

    def __init__(self, opening, patience):
        self.opening, self.patience = opening, patience
        self.calls = [opening]
        self.held = self.offset = 0
        self.report()

    def report(self):
        self.chunks = self.waiters = 0
        self.reported = self.offset

    def __call__(self, call):
        self.calls.append(call)
        flushes, limit = call == FLUSH, self.opening.chunk
        answer = Answer(0, self.held == 0) if flushes else Answer(min(len(call.data), limit - self.held), False)
        self.held += answer.taken
        self.waiters += answer.waits
        if self.held == limit or flushes and self.held:
            self.cut()
        if self.patience and self.full():
            self.calls.append(Response(self.offset))
            self.report()
        return answer

    def cut(self):
        self.chunks += 1
        self.offset += self.held
        self.held = 0

    def full(self):
        stored = self.offset - self.reported
        return self.chunks == self.opening.slots or stored >= self.opening.capacity or self.waiters == self.patience


class Followed:
    """The answers that were given to calls, in turn."""

    def __init__(self, turns):
        self.turns = iter(turns)

    def __call__(self, call):
        made, line = next(self.turns, (None, b"no call"))
        answer = ANSWER.fullmatch(line)
        if made != call or answer is None:
            raise Unfit(f"for {call.words()}: {line.decode()}")
        taken, waiter = answer.groups()
        return Answer(int(taken or 0), waiter is not None)


class Drive:
    """A list, a session for it and the script of its calls."""

    def __init__(self, rng, opening, lengths, patience):
        self.opening, self.lengths, self.silent = opening, lengths, patience is None
        self.data = rng.randbytes(sum(lengths))
        foreseen = Foreseen(opening, patience)
        drive(lengths, self.data, foreseen)
        self.script = Script(foreseen.calls)

    def input(self):
        return content(self.opening.chunk, self.lengths)

    def shown(self, output):
        """What the session shows: its state, where nothing was reported, else the requests with data, and what it holds."""
        calls = self.followed(output)
        state = State(self.opening, output)
        sizes = [size for _, size in state.chunks] if self.silent else [len(sent) // 2 for sent in DATA.findall(output)]
        flushes = calls.count(FLUSH)
        return Needs(len(sizes), state.stored if self.silent else sum(sizes), state.held, len(calls) - flushes, flushes)

    def followed(self, output):
        """the calls for the list, which the answers have to ask for, all and no others"""
        answers = [lines[0] for lines in calls_of(output)]
        turns = itertools.zip_longest(self.script.calls, answers, fillvalue=b"")
        turns = [turn for turn in turns if not isinstance(turn[0], (Opening, Response))]
        followed = Followed(turns)
        drive(self.lengths, self.data, followed)
        if next(followed.turns, None):
            raise Unfit("more calls than the list asks for")
        return [call for call, _ in turns]


# ---- random lists, each with a session


def silent(rng):
    """the server says nothing, and the session has room for the whole list, more or just enough"""
    limit, entries, most = size(rng)
    lengths = random_lengths(rng, limit, rng.randint(0, entries), most)
    while not fits(limit, lengths):
        lengths.pop()
    n = needs(limit, lengths)
    opening = session(rng, limit, rng.choice([n.stored + 1, largest(limit)]), rng.choice([max(n.chunks, 1), SLOTS]))
    return Drive(rng, opening, lengths, None)


def reported(rng):
    """no session has room for the list, and the server reports in time"""
    limit, entries, most = size(rng)
    lengths = random_lengths(rng, limit, rng.randint(entries, 5 * entries), most)
    # the last chunk may pass the capacity
    while fits(limit, lengths, limit):
        lengths += random_lengths(rng, limit, entries, most)
    least, top = 2 * limit + 1, largest(limit)
    opening = session(rng, limit, rng.choice([least, top, rng.randint(least, top)]), rng.choice([1, 2, 3, SLOTS, rng.randint(1, SLOTS)]))
    return Drive(rng, opening, lengths, rng.choice([1, 1, WAITERS, rng.randint(1, WAITERS)]))


def size(rng):
    """C, how many entries, and the longest append; large chunks are seldom, as each line shows all that is stored"""
    limit, entries = (rng.choice([1, 2, 3, 4, 5, 7, 8, 16]), 40) if rng.random() < 0.99 else (rng.choice([100, 1000, 8191, 8192]), 4)
    return limit, entries, min(limit * rng.choice([1, 3, 20]), LONGEST)


def fits(limit, lengths, past=0):
    """whether the largest session that `trace` can open has room for it, or for what ends less than so many bytes past its capacity"""
    n = needs(limit, lengths)
    return n.chunks <= SLOTS and n.stored < largest(limit) + past and lengths.count(0) <= WAITERS


def largest(limit):
    """the capacity that the whole store is enough for"""
    return STORE - 2 * limit + 2


def session(rng, limit, capacity, slots):
    """at offset 0, without a payload"""
    store = max(capacity, 2 * limit + 1) + 2 * limit - 2
    return Opening(
        chunk=limit,
        capacity=capacity,
        append=rng.random() < 0.5,
        response=Response(rng.choice([None, 0])),
        store=rng.choice([store, STORE]),
        slots=slots,
        out=rng.choice([limit, 8192]),
    )
