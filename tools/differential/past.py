"""Sizes above the write offset, at which the crate goes on and the session ends, cause *beyond* (Q-5 of document 02).

The oracle's lines end at such a message, and `Ruled` goes on by the rule. It works from the crate's own state line before the message: that state, ended, with
no mark and no waiter left; a handshake's size above the last one replaces that one and zeroes the counters. What the message makes of the spec is the crate's
to say: it is asked with the write offset for a size. Behind the end each call is refused with 7, but for an append of nothing, and no request is written.

`random_scripts` puts such a message into random scripts, `twin` is the same script up to it with the write offset for a size, which the crate takes.
"""

import dataclasses
import re

from .agree import calls as calls_of
from .calls import CLOSE, FINALISE, FLUSH, NEXT, SEND_FAILED, Append, Break, FailedAttempt, Handshake, Response, Script, Verdict, Write
from .moves import HIGH, handshake, response

# what the oracle says, and only of such a size
ENDS_HERE = b"? a size above the write offset"
STATE = re.compile(
    rb"  st phase=(\w+) (P=.*?) mark=. (fin=. woff=(-?\d+) run=\w+) last=(-?\d+) att=(\d+) red=(\d+) "
    rb"(chunks=\[.*?\]) waiters=\[(.*?)\] spec=(.*?)(?: cause=\w+)?"
)
# what takes a size in a phase
TAKES = {b"Live": Response, b"Closing": Response, b"Connecting": Handshake}


class State:
    """A `st` line, as far as the rule needs it."""

    def __init__(self, line):
        self.phase, self.kept, self.place, offset, last, attempts, redirects, self.chunks, waiters, self.spec = STATE.fullmatch(line).groups()
        self.offset, self.last, self.attempts, self.redirects = int(offset), int(last), int(attempts), int(redirects)
        self.waiters = len(waiters.split())


def state(lines):
    """the last of these"""
    return State(next(line for line in reversed(lines) if line.startswith(b"  st ")))


class Ruled:
    """A program that answers as the oracle does, and goes on by the rule where that stops at a size above the write offset."""

    name = "the rule"

    def __init__(self, oracle):
        self.oracle = oracle

    def mode(self, mode):
        return self.oracle.mode(mode)

    def run(self, scripts):
        scripts, outputs = list(scripts), self.oracle.run(scripts)
        stopped = [i for i, output in enumerate(outputs) if stops(output)]
        twins = self.oracle.run([twin(scripts[i], outputs[i]) for i in stopped])
        for i, judged in zip(stopped, twins):
            outputs[i] = completed(scripts[i], outputs[i], judged)
        return outputs


def stops(output):
    return b"\n" + ENDS_HERE in output


def place(output):
    """where the message stands among the calls: each of them has written its lines"""
    return len(calls_of(output)) - 1


def twin(script, output):
    """up to the message, which states the write offset"""
    i, before = place(output), state(output.split(b"\n"))
    return Script(script.calls[:i] + [dataclasses.replace(script.calls[i], size=before.offset)])


def completed(script, output, judged):
    """the crate's lines, and the rule's from the message on; `judged`: the crate's of the twin, for the spec"""
    i, lines = place(output), output.split(b"\n")
    before, after = state(lines), ended(state(lines), script.calls[i], state(judged.split(b"\n")).spec)
    more = [script.calls[i].mark + b" end", b"  rl 0", b"  en completed=0 failed=%d" % before.waiters, after]
    for call in script.calls[i + 1 :]:
        more += behind(call, after)
    return b"\n".join(lines[:-1] + more)


def bench_lines(lines, message, refused):
    """a bench program's lines, where the oracle's may stop at this message; behind it comes one call more"""
    if not stops(lines):
        return lines
    return lines[: lines.rindex(ENDS_HERE)] + message.mark + b" end\n" + refused.mark + b" E7"


def ended(before, message, spec):
    """the state line behind the message"""
    last, attempts, redirects = before.last, before.attempts, before.redirects
    if isinstance(message, Handshake) and message.size > last:
        last, attempts, redirects = message.size, 0, 0
    counters = b"last=%d att=%d red=%d" % (last, attempts, redirects)
    parts = [b"  st phase=Ended", before.kept, b"mark=0", before.place, counters, before.chunks, b"waiters=[]", b"spec=" + spec, b"cause=beyond"]
    return b" ".join(parts)


def behind(call, after):
    """the lines of a call behind the end"""
    if isinstance(call, Write):
        return [b"WB -"]
    return [b"AP 0 -" if call == Append(b"") else call.mark + b" E7", after]


def random_scripts(rng, scripts, outputs):
    """Each script is cut behind one of its calls, mostly where a message is taken. There comes one with a size above the write offset, and others behind it.
    Left out are scripts without a session, or whose write offset is the highest."""
    found = []
    for script, output in zip(scripts, outputs):
        places = cuts(output)
        # each phase that the script has is as likely
        phases = sorted(phase for phase in places if phase in TAKES or rng.random() < 0.05) or sorted(places)
        if phases:
            i, before = rng.choice(places[rng.choice(phases)])
            found.append(Script(script.calls[: i + 1] + [message(rng, before)] + [other(rng, before) for _ in range(rng.randint(0, 4))]))
    return found


def cuts(output):
    """calls and the state behind each, by its phase"""
    places, before = {}, None
    for i, lines in enumerate(calls_of(output)):
        if lines[-1].startswith(b"  st "):
            before = State(lines[-1])
        if before and before.offset < HIGH and not lines[0].startswith(b"?"):
            places.setdefault(before.phase, []).append((i, before))
    return places


def message(rng, s):
    kind = TAKES.get(s.phase, rng.choice([Response, Handshake]))
    if rng.random() < 0.03:
        kind = rng.choice([Response, Handshake])
    return {Response: response, Handshake: handshake}[kind](rng, size(rng, s), rng.random() < 0.3)


def size(rng, s):
    """just above the write offset, further above it, the highest"""
    n = s.offset + rng.choice([1, 1, 1, 2, rng.randint(1, 40), rng.randint(1, HIGH), HIGH])
    return min(n, HIGH)


def other(rng, s):
    sizes = [response(rng, s.offset), response(rng, size(rng, s)), handshake(rng, size(rng, s)), response(rng, None)]
    plain = [Append(b""), Append(b""), Append(b"a"), FLUSH, FINALISE, CLOSE, NEXT, SEND_FAILED, SEND_FAILED, Verdict(1), Verdict(0)]
    return rng.choice(sizes + plain + [Break(0), Break(1, 10), FailedAttempt(1, Break(2)), Write(), Write(0, 0)])
