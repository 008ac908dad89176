"""Every accepted list of bench calls up to a depth, for C 2 and capacity 5, and every list that a refused call of these kinds ends; behind each one more
refused call, a verdict of 5, which no phase takes, and the last accepted call's request as bytes. No size in them is above the write offset: each list has
another of its own, which such a size ends, where its phase takes one.

An append of the bench is called again till all is taken, a flush or finalise till it makes its waiter: the records of docs/TRACE.md name each of these calls.
"""

import struct

from .calls import CLOSE, FINALISE, FLUSH, NEXT, Append, Break, Handshake, Opening, Response, Script, Verdict, Write
from .moves import State
from .past import TAKES

OPENING = Opening(chunk=2, capacity=5, response=Response(0))
BATCH = 20000


REFUSED = Verdict(5)


class Node:
    """A list of calls, as a script and as bench records."""

    def __init__(self, calls, bench):
        self.calls, self.bench = calls, bench

    def script(self):
        return Script(self.calls + [REFUSED, Write()])

    def bench_records(self):
        return self.bench + REFUSED.record()

    def children(self, output):
        for record, calls in following(State(OPENING, output)):
            yield Node(self.calls + calls, self.bench + record)

    def past(self, output):
        """with a size one above the write offset; None where no message is taken"""
        s = State(OPENING, output)
        if s.phase not in TAKES:
            return None
        record, calls = sized(TAKES[s.phase], s.offset + 1)
        return Node(self.calls + calls, self.bench + record)


ROOT = Node([OPENING], b"OP" + struct.pack("<HIq", 2, 5, 0))


def sizes(s):
    """below, at and above P, at the ends of the chunks and at the write offset"""
    edges = {s.p - 1, s.p, s.p + 1, s.offset} | {start + length for start, length in s.chunks}
    return sorted(n for n in edges if n <= s.offset)


def append(s, data):
    """again till all is taken"""
    calls = [Append(data)]
    while len(data) > s.limit - s.held:
        data = data[s.limit - s.held :]
        calls.append(Append(data))
    return b"AP" + struct.pack("<H", len(calls[0].data)) + calls[0].data, calls


def asks(s, call):
    return call.mark, [call] * (2 if s.held else 1)


def sized(call, n):
    return call.mark + struct.pack("<q", n), [call(n)]


def plain(call):
    return call.record(), [call]


def following(s):
    """bench records and their calls"""
    end_of_stream = (b"BR", [Break(0)])
    if s.phase == b"Live":
        calls = [append(s, b"a"), append(s, b"bc"), asks(s, FLUSH), asks(s, FINALISE), plain(CLOSE)]
        return calls + [sized(Response, n) for n in sizes(s)] + [end_of_stream]
    if s.phase == b"Closing":
        return [sized(Response, n) for n in sizes(s)] + [end_of_stream]
    if s.phase == b"Verdict":
        return [plain(Verdict(v)) for v in (1, 2)]
    if s.phase == b"Connecting":
        return [sized(Handshake, n) for n in sizes(s)]
    if s.phase == b"Replay":
        return [plain(NEXT)]
    return []


def is_refused(output):
    """whether the last call was, behind which stand the refused one and the request as bytes"""
    answers = [line for line in output.split(b"\n") if not line.startswith(b"  ")]
    return answers[-3][3:4] == b"E"


def batches(depth, oracle):
    """nodes, and the oracle's output for the script of each"""
    level = [ROOT]
    for d in range(depth + 1):
        grown = []
        for i in range(0, len(level), BATCH):
            nodes = level[i : i + BATCH]
            outputs = oracle.run([node.script() for node in nodes])
            yield nodes, outputs
            if d < depth:
                grown += [child for node, output in zip(nodes, outputs) if not is_refused(output) for child in node.children(output)]
        level = grown
