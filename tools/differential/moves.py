"""Random scripts that go deep. A script grows by moves, short lists of calls that are chosen from the state that the oracle shows for it so far. Then requests
that its calls hand out are written, with buffers around the length of the message, which the oracle's lines tell.

No message states a size above the write offset as far as the state can tell, since the crate's lines end there: differential/past.py has these."""

import itertools
import re

from . import details
from .agree import calls as calls_of
from .calls import CLOSE, FINALISE, FLUSH, NEXT, SEND_FAILED, Append, Break, FailedAttempt, Handshake, Opening, Response, Script, Verdict, Write
from .messages import needs

LOW, HIGH = -(2**63), 2**63 - 1
ABORTED = 10
ROUNDS = 8

STATE = re.compile(
    rb"phase=(\w+) P=(-?\d+) held=(\w*) stored=(\d+) cap=(\d+) mark=. fin=. woff=(-?\d+) "
    rb"run=\w+ last=-?\d+ att=\d+ red=(\d+) chunks=\[(.*?)\] waiters=\[(.*?)\]"
)


class State:
    """What the last `st` line of a script's output says, as far as moves need it."""

    def __init__(self, opening, output):
        found = STATE.search(output, output.rfind(b"  st phase="))
        phase, p, held, stored, capacity, offset, redirects, chunks, waiters = found.groups()
        self.limit, self.slots, self.out = opening.chunk, opening.slots, opening.out
        self.phase = phase
        self.p, self.offset = int(p), int(offset)
        self.held = len(held) // 2
        self.stored, self.capacity = int(stored), int(capacity)
        self.redirects = int(redirects)
        self.chunks = [(int(c[0]), len(c[1]) // 2) for c in (c.split(b":") for c in chunks.split())]
        self.waiters = [int(w.split(b"@")[1].split(b":")[0]) for w in waiters.split()]
        # sends of this connection fail
        self.dead = output.rfind(b"\nSF ok") > output.rfind(b"\nHS ")

    def cuts_held(self):
        """whether a flush or finalise would cut the held bytes"""
        room = self.stored < self.capacity and len(self.chunks) < self.slots and self.offset <= HIGH - self.held
        return self.held > 0 and room and self.out >= self.limit


def state_of(opening, output):
    """None where the script can't go on: a refused opening, or no answer of the crate"""
    if b"  st phase=" not in output or b"\n?" in output:
        return None
    return State(opening, output)


# ---- arguments


def opening(rng):
    limit = rng.choice([1, 2, 2, 3, 4, 4, 4, 5, 7, 8, 16] if rng.random() < 0.99 else [100, 1000, 8192])
    payload = rng.randbytes(rng.choice([0, 1, limit // 2, limit])) if rng.random() < 0.4 else None
    size = opening_size(rng, limit, len(payload or b""))
    answer = response(rng, size)
    o = dict(
        chunk=limit,
        capacity=rng.choice([0, 2 * limit, 2 * limit + 1, 2 * limit + 1, 2 * limit + 2, 3 * limit, 4 * limit + 1, 6 * limit, 9, 20, 40]),
        last=rng.choice([0, 0, size or 0, size or 0, size or 0, 1, 3, -1, LOW, HIGH]),
        append=rng.random() < 0.5,
        generation=rng.choice([0, 7, -2, LOW]),
        token=rng.choice([None, None, b"t", b""]),
        handle=rng.choice([None, b"\1\2", b""]),
        if_match=rng.choice([None, None, 3]),
        if_not_match=rng.choice([None, None, -4]),
        payload=payload,
        response=answer,
        sum=rng.choice([None, 0, rng.getrandbits(32)]),
        slots=rng.choice([64] * 14 + [1, 2, 3]),
        out=rng.choice([8192] * 24 + [limit, limit - 1]),
    )
    if rng.random() < 0.05:
        o.update(odd_opening(rng, limit))
    return Opening(**o)


def opening_size(rng, limit, payload):
    """beside the payload, which goes from 0 to its length, and at both ends of the numbers"""
    if rng.random() < 0.92:
        return rng.choice([None, 0, 0, 0, 0, 1, payload, payload, payload // 2, payload + 1, 5, 100, -1, -7])
    return rng.choice([LOW, LOW + 1, HIGH, HIGH - 1, HIGH - limit, HIGH - 2 * limit, 2**62])


def odd_opening(rng, limit):
    """what refusals 1 to 5 are given for, or just not"""
    enough = 4 * limit - 1
    return rng.choice(
        [
            dict(chunk=0),
            dict(chunk=2097152),
            dict(chunk=2097153),
            dict(chunk=2**32 - 1),
            dict(capacity=None),
            dict(capacity=1073741824),
            dict(capacity=1073741825),
            dict(capacity=0, store=enough - 1),
            dict(capacity=0, store=enough),
            dict(slots=0),
            dict(bucket=b"projects/_/buckets/"),
            dict(bucket=b"projects/x/buckets/b"),
            dict(bucket=b""),
            dict(bucket=b"projects/_/buckets/" + b"b" * 237),
            dict(bucket=b"projects/_/buckets/" + b"b" * 238),
            dict(object=b""),
            dict(object=b"o" * 1024),
            dict(object=b"o" * 1025),
            dict(token=b"t" * 512),
            dict(token=b"t" * 513),
            dict(handle=b"h" * 1024),
            dict(handle=b"h" * 1025),
            dict(payload=b"p" * (limit + 1)),
            dict(response=Response(0, None, False, b"h" * 1025)),
            dict(response=Response(0, 1, True)),
        ]
    )


def response(rng, size, finalised=False):
    generation = rng.choice([None, None, None, 0, 5, -1]) if size is not None else None
    if finalised:
        size, generation = size or 0, generation or 9
    handle = rng.choice([None] * 6 + [b"", b"\x09", b"\xaa\xbb"])
    if rng.random() < 0.003:
        handle = b"h" * rng.choice([1024, 1025])
    return Response(size, generation, finalised, handle)


def handshake(rng, size, finalised=False):
    r = response(rng, size, finalised)
    return Handshake(r.size, r.generation, r.finalised, r.handle)


def size(rng, s):
    """near what the state makes interesting, and at most the write offset"""
    k = rng.random()
    edges = [edge for start, length in s.chunks for edge in (start, start + length)] + s.waiters
    if k < 0.1:
        n = s.p
    elif k < 0.13:
        n = s.p - 1
    elif k < 0.5 and edges:
        n = rng.choice(edges) + rng.choice([0, 0, 0, -1, 1])
    elif k < 0.85:
        n = rng.randint(s.p, s.offset)
    elif k < 0.98:
        n = s.offset
    else:
        n = rng.choice([LOW, -1, 0, 2**62])
    if n < s.p and rng.random() < 0.8:
        n = s.p
    return max(LOW, min(s.offset, n))


def stream_break(rng, redirects=0.3):
    if rng.random() < redirects:
        return Break(1, ABORTED, detail(rng))
    return rng.choice([Break(0), Break(0), Break(2), Break(1, rng.choice([0, 2, ABORTED, 14, 16, 17, 2**32 - 1])), Break(1, 14, detail(rng))])


def detail(rng):
    """a value as received, seldom malformed; none whose token has control characters, which would break the lines that show it"""
    while True:
        found = details.malformed(rng) if rng.random() < 0.08 else details.well_made(rng)
        redirect = details.read_or_none(found)
        if redirect is None or not redirect.token or min(redirect.token) >= 32:
            return found


def verdict(rng):
    return rng.choices([1, 2, 3, 4, 0, 5, 255], [60, 3, 3, 2, 1, 1, 1])[0]


def data(rng, s):
    return rng.randbytes(rng.choice([0, 1, 1, s.limit - s.held, s.limit, s.limit, 2 * s.limit, rng.randint(1, 2 * s.limit + 1)]))


# ---- moves, by phase


def fill(rng, s):
    return [Append(data(rng, s)) for _ in range(rng.randint(1, 4))]


def fill_up(rng, s):
    room = max(s.capacity - s.stored, 0) // s.limit
    return [Append(rng.randbytes(s.limit)) for _ in range(min(room, 70) + rng.randint(1, 3))]


def ask(rng, s):
    return [FLUSH] * (1 if s.held == 0 else rng.choice([1, 2]))


def ask_often(rng, s):
    calls = []
    for _ in range(rng.choice([2, 3, 17])):
        calls += [FLUSH] + ([Append(rng.randbytes(rng.randint(1, min(s.limit, 40)))), FLUSH] if rng.random() < 0.4 else [])
    return calls + rng.choice([[], [], [FINALISE]])


def report(rng, s):
    return [response(rng, rng.choice([None] + [size(rng, s)] * 8), rng.random() < 0.03) for _ in range(rng.randint(1, 2))]


def report_all(rng, s):
    return [response(rng, s.offset)]


def finalise(rng, s):
    calls = [FINALISE] * (1 if s.held == 0 else 2)
    end = s.offset + s.held if s.cuts_held() else s.offset
    answer = response(rng, max(end + rng.choice([0, 0, 0, 0, -1]), LOW), rng.random() < 0.8)
    more = [
        [],
        [answer],
        [answer, stream_break(rng)],
        [answer, CLOSE, stream_break(rng)],
        [stream_break(rng, 0), Verdict(1), Handshake(answer.size, answer.generation, answer.finalised), NEXT, NEXT, NEXT],
    ]
    return calls + rng.choice(more)


def close(rng, s):
    return [CLOSE] + [rng.choice([response(rng, size(rng, s)), stream_break(rng)]) for _ in range(rng.randint(0, 2))]


def reconnect(rng, s):
    return [stream_break(rng), Verdict(verdict(rng))] + connecting(rng, s)


def redirected(rng, s):
    """redirects without progress"""
    calls = [stream_break(rng, 0.9), Verdict(rng.choice([1, 1, 2, 3]))]
    calls += [FailedAttempt(rng.choice([1, 1, 2, 3]), stream_break(rng, 0.9)) for _ in range(rng.choice([0, 0, 0, 1]))]
    return calls + [handshake(rng, rng.choice([s.p, None]))] + [NEXT] * (len(s.chunks) + len(s.waiters) + 1)


def send_fails(rng, s):
    cause = rng.choice([Append(rng.randbytes(s.limit)), FLUSH, FINALISE, response(rng, size(rng, s)), report_all(rng, s)[0]])
    between = rng.choice([[], [], [Append(b"")], [NEXT], [Append(b""), Verdict(1)]])
    return [cause] + between + [SEND_FAILED] + rng.choice([[], [SEND_FAILED]])


def stray(rng, s):
    calls = [Append(data(rng, s)), FLUSH, FINALISE, CLOSE, NEXT, SEND_FAILED, Verdict(rng.choice([0, 1, 5]))]
    calls += [response(rng, size(rng, s)), handshake(rng, size(rng, s)), stream_break(rng), FailedAttempt(verdict(rng), stream_break(rng))]
    return [rng.choice(calls)]


def judging(rng, s):
    return [Verdict(verdict(rng))] + rng.choice([[], connecting(rng, s)])


def connecting(rng, s):
    calls = [FailedAttempt(verdict(rng), stream_break(rng)) for _ in range(rng.choice([0, 0, 0, 1, 2]))]
    calls.append(handshake(rng, rng.choice([None] + [size(rng, s)] * 9), rng.random() < 0.03))
    return calls + rng.choice([[], replaying(rng, s)])


def replaying(rng, s):
    whole = len(s.chunks) + len(s.waiters) + 1
    calls = [NEXT] * rng.choice([1, whole, whole, whole])
    return calls + ([SEND_FAILED] if rng.random() < 0.15 else [])


def closing(rng, s):
    return [rng.choice([response(rng, size(rng, s)), response(rng, size(rng, s), rng.random() < 0.3), stream_break(rng), Append(data(rng, s))])]


def holding(rng, s):
    return [Append(rng.randbytes(rng.randint(0, max(s.limit - s.held - 1, 0) % 50)))]


MOVES = {
    b"Live": [
        (30, fill), (10, fill_up), (14, ask), (2, ask_often), (24, report), (4, report_all), (3, finalise), (2, close), (12, reconnect), (2, redirected),
        (6, send_fails), (4, stray),
    ],
    b"Verdict": [(20, judging), (2, holding), (1, stray)],
    b"Connecting": [(20, connecting), (2, holding), (1, stray)],
    b"Replay": [(20, replaying), (2, holding), (1, stray)],
    b"Closing": [(8, closing), (1, stray)],
    b"Ended": [(1, stray)],
}  # fmt: skip


def move(rng, s):
    if s.phase == b"Live" and s.redirects and rng.random() < 0.6:
        return redirected(rng, s)
    weighted = MOVES[s.phase]
    chosen = rng.choices([m for _, m in weighted], [w for w, _ in weighted])[0]
    calls = chosen(rng, s)
    if s.dead and s.phase == b"Live":
        # what the crate sends on this connection fails, and the host says so
        calls = [c for call in calls for c in (call, SEND_FAILED)] if rng.random() < 0.5 else reconnect(rng, s)
    return calls


def random_scripts(rng, count, oracle):
    """scripts, and the oracle's output for each"""
    scripts = [Script([opening(rng)]) for _ in range(count)]
    outputs = oracle.run(scripts)
    for _ in range(ROUNDS):
        grown = [i for i in range(count) if grow(rng, scripts[i], outputs[i])]
        for i, output in zip(grown, oracle.run([scripts[i] for i in grown])):
            outputs[i] = output
    scripts = [with_writes(rng, script, output) for script, output in zip(scripts, outputs)]
    return scripts, oracle.run(scripts)


def grow(rng, script, output):
    s = state_of(script.calls[0], output)
    if s is None or s.phase == b"Ended" and rng.random() < 0.7:
        return False
    script.extend(move(rng, s))
    return True


def with_writes(rng, script, output):
    """writes behind calls, mostly behind those that hand out a request"""
    calls, request = [], None
    for call, lines in itertools.zip_longest(script.calls, calls_of(output), fillvalue=[]):
        if not call:
            break
        calls.append(call)
        handed = next((line[5:] for line in lines if line.startswith(b"  rq ")), None)
        request = handed or request
        calls += [write(rng, request) for _ in range(2) if rng.random() < (0.25 if handed else 0.02)]
    return Script(calls)


def write(rng, request):
    """what is lent is around what the request needs"""
    message, content = needs(request) if request else (rng.choice([0, 4, 20]), 0)
    buffer = rng.choice([message] * 4 + [message - 1] * 2 + [message + 1, message + rng.randint(1, 40), 0, 2**16 - 1])
    lent = rng.choice([content] * 6 + [content - 1, content - 1, content + 1, 0, 8192, 2**16 - 1])
    return Write(max(buffer, 0), max(lent, 0))
