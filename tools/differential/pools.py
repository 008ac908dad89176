"""Pools: records PO and BK of docs/TRACE.md, cases by name, random scripts, and what a pool has to answer (Q-7 of document 02).

The crate has no pools. `Pooled` asks it bank by bank: a bank's lines have to be those of its session alone, opened as the bank is, with the bank's own calls
without those that the pool refused. 17, 18 and the sum of the reserves are worked out here, from the L and G of the opening and from what the crate's own state
lines say of stored bytes and phases. A call is refused with 18 exactly when its session alone would cut a chunk and the reserves would then sum to more than L;
the bank's session is asked again without it.
"""

import collections
import dataclasses
import re
import struct
import typing

from .agree import calls as calls_of
from .calls import CLOSE, FINALISE, FLUSH, NEXT, SEND_FAILED, Append, Break, FailedAttempt, Handshake, Opening, Record, Response, Script, Verdict, Write
from .moves import HIGH, move, state_of, stray, write
from .moves import opening as session_opening
from .past import Ruled

MOST = 16
ROUNDS = 8
STATE = re.compile(rb"  st phase=(\w+) .*? stored=(\d+) ")
UPLOADS = (b"AP", b"FL", b"FI")


@dataclasses.dataclass(frozen=True)
class PoolOpening(Record):
    limit: int = 0
    share: int = 0
    # of each bank's out buffer
    out: int = 8192
    banks: tuple[Opening, ...] = ()

    mark, name = b"PO", "open a pool"

    def fields(self):
        head = struct.pack("<BQQH", len(self.banks), self.limit, self.share, self.out)
        # as alone, but for the out buffer, which is named once
        return head + b"".join(o.fields()[:4] + o.fields()[6:] for o in self.banks)

    def words(self):
        return f"{self.name}: limit {self.limit}, share {self.share}, out {self.out}" + "".join(f"\n       bank {i}: {o.words()}" for i, o in enumerate(self.banks))

    def alone(self, i):
        """what opens bank i's session alone"""
        return dataclasses.replace(self.banks[i], out=self.out)

    def out_of_range(self):
        """17 at the opening"""
        count = len(self.banks)
        return not 0 < count <= MOST or any(o.chunk > self.share for o in self.banks) or count * self.share > self.limit


@dataclasses.dataclass(frozen=True)
class Bank(Record):
    """No call: the bank that later records name."""

    number: int = 0

    mark, name = b"BK", "bank"

    def fields(self):
        return bytes([self.number])

    def words(self):
        return f"{self.name} {self.number}"


class Turn(typing.NamedTuple):
    bank: int
    call: Record


def turns(script):
    """each record behind the opening that prints lines, with the bank that it names"""
    bank, found = 0, []
    for call in script.calls[1:]:
        if isinstance(call, Bank):
            bank = call.number
        else:
            found.append(Turn(bank, call))
    return found


class State(typing.NamedTuple):
    """of a bank, as far as the limit needs it"""

    phase: bytes
    stored: int

    def reserve(self, share):
        return max(share, 0 if self.phase == b"Ended" else self.stored)


def state_in(lines):
    """of the `st` line among these"""
    phase, stored = next(STATE.match(line) for line in lines if line.startswith(b"  st ")).groups()
    return State(phase, int(stored))


def cuts(call, lines):
    """whether the call cut a chunk: its own request has data"""
    return call.mark in UPLOADS and any(line.startswith(b"  rq ") and b" data=none " not in line for line in lines)


# ---- what a pool has to answer


class Pooled:
    """A program that answers scripts of pools, by the crate's answers to each bank alone."""

    name = "the crate, bank by bank"

    def __init__(self, oracle):
        self.oracle, self.alone = oracle, Ruled(oracle)

    def mode(self, mode):
        return self.oracle.mode(mode)

    def run(self, scripts):
        runs = [Run(script) for script in scripts]
        asking = [run for run in runs if run.asks]
        while asking:
            outputs = iter(self.alone.run([run.alone(bank) for run in asking for bank in run.asks]))
            for run in asking:
                run.told([calls_of(next(outputs)) for _ in run.asks])
            asking = [run for run in asking if run.asks]
        return [b"\n".join(run.lines) for run in runs]


class Run:
    """A script of a pool: `lines` is what it has to print, once it asks for no bank's session any more."""

    def __init__(self, script):
        self.opening, self.turns = script.calls[0], turns(script)
        # those refused with 18
        self.over = set()
        self.banks = {}
        self.lines = [b"PO E17"]
        self.asks = [] if self.opening.out_of_range() else list(range(len(self.opening.banks)))

    def alone(self, bank):
        """the script of a bank's session: its calls without those that the limit refused"""
        return Script([self.opening.alone(bank)] + [turn.call for k, turn in enumerate(self.turns) if turn.bank == bank and k not in self.over])

    def told(self, banks):
        """the lines of each call of the banks asked for"""
        self.banks.update(zip(self.asks, banks))
        self.asks, self.lines = [], []
        openings = [self.banks[i][0] for i in range(len(self.opening.banks))]
        refused = next((lines[0] for lines in openings if lines[0] != b"OP ok"), None)
        if refused is not None:
            # a reason why the crate has no answer stays
            self.lines = [b"PO" + refused[2:] if refused.startswith(b"OP") else refused]
            return
        self.lines = [b"PO ok"] + [line for lines in openings for line in lines[1:]]
        self.walk([state_in(lines) for lines in openings])

    def walk(self, states):
        """the calls in the pool's order; `states`: of the banks, as they were opened"""
        share, limit = self.opening.share, self.opening.limit
        ahead = [iter(self.banks[i][1:]) for i in range(len(states))]
        shown = [self.banks[i][0][-1] for i in range(len(states))]
        for k, (bank, call) in enumerate(self.turns):
            if bank >= len(states):
                self.lines.append(b"WB -" if isinstance(call, Write) else call.mark + b" E17")
                continue
            if k in self.over:
                self.lines += [call.mark + b" E18", shown[bank], self.sum(states)]
                continue
            lines = next(ahead[bank], [b"?"])
            if lines[0].startswith(b"?"):
                self.lines.append(lines[0])
                return
            if isinstance(call, Write):
                self.lines += lines
                continue
            before, states[bank], shown[bank] = states[bank], state_in(lines), lines[-1]
            if cuts(call, lines) and sum(s.reserve(share) for s in states) > limit:
                self.over.add(k)
                self.asks = [bank]
                return
            assert states[bank].stored <= before.stored or cuts(call, lines)
            self.lines += lines + [self.sum(states)]

    def sum(self, states):
        return b"  pl sum=%d" % sum(s.reserve(self.opening.share) for s in states)


def by_bank(script, output):
    """the lines of each bank, as its session alone writes them"""
    opened, *rest = calls_of(output)
    count = len(script.calls[0].banks)
    found = [[b"OP ok", *opened[1 + 2 * i : 3 + 2 * i]] for i in range(count)]
    for (bank, _), lines in zip(turns(script), rest):
        if bank < count:
            found[bank] += lines
    return [b"\n".join(lines) for lines in found]


def counted(scripts, outputs):
    """what the pools answered"""
    counts = collections.Counter()
    for script, output in zip(scripts, outputs):
        opened, *rest = calls_of(output)
        counts["opened" if opened[0] == b"PO ok" else "refused with 17" if opened[0] == b"PO E17" else "refused by a bank"] += 1
        counts["banks"] += len(script.calls[0].banks) if opened[0] == b"PO ok" else 0
        for turn, lines in zip(turns(script), rest):
            number = lines[0].partition(b" E")[2].decode()
            counts["cuts"] += cuts(turn.call, lines)
            counts["17"] += number == "17"
            counts["18"] += number == "18"
            counts["others refused"] += number not in ("", "17", "18")
    return counts


# ---- random scripts


def opening(rng):
    count = rng.choice([1, 2, 2, 3, 3, 4, 5, 6, 8, 11, 15, 16])
    odd = rng.random() < 0.05
    banks = [bank_opening(rng, i, odd) for i in range(count)]
    most = max(o.chunk for o in banks)
    share = most + rng.choice([0, 0, 0, 1, 2, most, 3 * most])
    room = rng.choice([0, 0, 1, most - 1, most, most + 1, 2 * most, count * most, 10**6])
    pool = PoolOpening(count * share + room, share, min(rng.choice([8192] * 24 + [most, max(most - 1, 0)]), 8192), tuple(banks))
    return dataclasses.replace(pool, **odd_pool(rng, pool, most)) if rng.random() < 0.05 else pool


def bank_opening(rng, i, odd):
    """of an object of its own; seldom with what refusals 1 to 5 are given for"""
    o = session_opening(rng, 0.5 if odd else 0)
    return dataclasses.replace(o, object=b"o%d" % i) if o.object == Opening.object else o


def odd_pool(rng, pool, most):
    """what 17 is given for, or just not"""
    count, share = len(pool.banks), pool.share
    return rng.choice(
        [
            dict(banks=()),
            dict(banks=pool.banks[:1] * rng.choice([16, 17, 18, 40]), limit=40 * share),
            dict(share=max(most - 1, 0), limit=count * share),
            dict(share=most, limit=count * most),
            dict(limit=max(count * share - 1, 0)),
            dict(limit=count * share),
            dict(limit=0),
            dict(limit=2**64 - 1),
            dict(share=2**64 - 1, limit=2**64 - 1),
            dict(share=min(2**64 // count, 2**64 - 1), limit=2**64 - 1),
            dict(share=2**64 // count - 1, limit=2**64 - 1),
        ]
    )


def random_scripts(rng, count, pooled):
    """scripts, and what each has to print"""
    scripts = [Script([opening(rng)]) for _ in range(count)]
    outputs = pooled.run(scripts)
    for _ in range(ROUNDS):
        grown = [i for i in range(count) if grow(rng, scripts[i], outputs[i])]
        for i, output in zip(grown, pooled.run([scripts[i] for i in grown])):
            outputs[i] = output
    scripts = [with_writes(rng, script, output) for script, output in zip(scripts, outputs)]
    return scripts, pooled.run(scripts)


def grow(rng, script, output):
    """moves of some of the banks, each chosen from that bank's state, their calls mixed"""
    pool = script.calls[0]
    if not output.startswith(b"PO ok") or b"\n?" in output:
        return False
    count, alone = len(pool.banks), by_bank(script, output)
    queues = []
    for bank in rng.sample(range(count), min(count, rng.choice([1, 2, 2, 3, 4]))):
        s = state_of(pool.alone(bank), alone[bank])
        if s.phase != b"Ended" or rng.random() < 0.3:
            queues.append([Turn(bank, call) for call in move(rng, s)])
    if rng.random() < 0.15:
        lacking = rng.choice([count, count, MOST - 1, MOST, MOST + 1, 255])
        queues.append([Turn(max(lacking, count), call) for call in stray(rng, state_of(pool.alone(0), alone[0])) + rng.choice([[], [Append(b"")]])])
    named = next((call.number for call in reversed(script.calls) if isinstance(call, Bank)), 0)
    script.extend(with_banks(rng, mixed(rng, queues), named))
    return True


def mixed(rng, queues):
    """each queue in its order"""
    order = [i for i, queue in enumerate(queues) for _ in queue]
    # seldom one after the other
    if rng.random() < 0.8:
        rng.shuffle(order)
    ahead = [iter(queue) for queue in queues]
    return [next(ahead[i]) for i in order]


def with_banks(rng, found, named):
    """the calls, with the bank named where it is another, seldom without need"""
    calls = []
    for bank, call in found:
        if bank != named or rng.random() < 0.03:
            calls.append(Bank(bank))
        named = bank
        calls.append(call)
    return calls


def with_writes(rng, script, output):
    """writes of the named bank's request, and of others', behind calls"""
    _, *printed = calls_of(output)
    calls, requests, bank, ahead = script.calls[:1], {}, 0, iter(printed)
    for call in script.calls[1:]:
        calls.append(call)
        if isinstance(call, Bank):
            bank = call.number
            continue
        handed = next((line[5:] for line in next(ahead, []) if line.startswith(b"  rq ")), None)
        requests[bank] = handed or requests.get(bank)
        calls += [write(rng, requests[bank]) for _ in range(2) if rng.random() < (0.2 if handed else 0.02)]
        if rng.random() < 0.05:
            other = rng.choice([*requests, 255])
            calls += [Bank(other), write(rng, requests.get(other)), Bank(bank)]
    return Script(calls)


# ---- cases by name


def bank(number=0, **given):
    return Opening(object=b"o%d" % number, **given)


def pool(limit, share, *banks, out=8192):
    return PoolOpening(limit, share, out, banks or (bank(0), bank(1)))


def case(name, opened, *calls):
    return name, Script([opened, *calls])


def at(number, *calls):
    return [Bank(number), *calls]


FOUR, ONE = Append(b"abcd"), Append(b"e")

# openings that are refused
REFUSED = [
    # ---- 17
    case("no session", PoolOpening(100, 4)),
    case("seventeen sessions", pool(100, 4, *(bank(i) for i in range(17)))),
    case("255 sessions", pool(2000, 4, *(bank(i) for i in range(255)))),
    case("G below one C", pool(100, 4, bank(0), bank(1, chunk=5, capacity=11))),
    case("count times G above L", pool(7, 4)),
    case("count times G past 64 bits", pool(2**64 - 1, 2**63)),
    case("17 before a bank's own", pool(7, 4, bank(0, chunk=0), bank(1, bucket=b"b"))),
    # ---- the sessions' own, in pool order
    case("1 of the second", pool(100, 4, bank(0), bank(1, chunk=0))),
    case("2 of the second", pool(100, 4, bank(0), bank(1, store=14)), ONE),
    case("2 of the first before 1 of the second", pool(100, 4, bank(0, slots=0), bank(1, chunk=0))),
    case("3 of the last", pool(100, 4, bank(0), bank(1), bank(2, bucket=b"b"))),
    case("4 of the first before 3 of the last", pool(100, 4, bank(0, payload=b"abcde"), bank(1), bank(2, bucket=b"b"))),
    case("5 of the second", pool(100, 4, bank(0), bank(1, response=Response(0, 1, True)))),
]

CASES = REFUSED + [
    # ---- openings that are not
    case("sixteen sessions", pool(64, 4, *(bank(i) for i in range(16))), *at(15, FOUR), *at(16, ONE)),
    case("G at each C", pool(100, 5, bank(0), bank(1, chunk=5, capacity=11))),
    case("count times G at L", pool(8, 4)),
    case("the largest L and G", pool(2**64 - 1, 2**63 - 1), FOUR),
    case("one session, the largest G", pool(2**64 - 1, 2**64 - 1, bank(0)), FOUR, FOUR, FOUR),
    case("stores just long enough", pool(100, 4, bank(0, store=15, slots=1), bank(1, store=15, slots=1)), FOUR, *at(1, FOUR, ONE), *at(0, ONE)),
    case("payloads", pool(100, 4, bank(0, payload=b"abcd", response=Response(1)), bank(1, payload=b"x", response=Response(1))), FOUR, *at(1, FOUR)),
    case("payloads count", pool(9, 4, bank(0, payload=b"abcd"), bank(1, payload=b"wxyz")), FOUR, *at(1, Append(b"v"), FLUSH)),
    # ---- 17 at a call
    case("every call of a bank that the pool lacks", pool(100, 4, bank(0, payload=b"abcd")), *at(1, FOUR, Append(b""), FLUSH, FINALISE, CLOSE, NEXT, SEND_FAILED,
         Response(0), Handshake(0), Break(), Verdict(1), Verdict(9), FailedAttempt(1, Break()), Write()), *at(16, ONE, Write()), *at(255, ONE, Write()), *at(0, ONE)),
    case("an ended session is not lacking", pool(100, 4), CLOSE, Break(), ONE, *at(2, ONE), *at(1, ONE)),
    # ---- 18
    case("18 by an append", pool(11, 4), FOUR, FOUR, Append(b"ef"), Append(b"gh"), ONE),
    case("the limit just met", pool(12, 4), FOUR, FOUR, *at(1, FOUR, FOUR)),
    case("18 by a flush", pool(8, 4), FOUR, ONE, FLUSH, Response(4), FLUSH),
    case("18 by a finalise", pool(8, 4), FOUR, ONE, FINALISE, Response(4), FINALISE),
    case("18 by the held bytes alone", pool(9, 4), FOUR, Append(b"ef"), FLUSH, Append(b"gh"), Append(b"g"), FLUSH),
    case("within G never", pool(8, 4), *at(1, FOUR), *at(0, FOUR), *at(1, ONE, Append(b"fgh")), Response(4), Append(b"fgh")),
    case("a flush of nothing held", pool(8, 4), FOUR, FLUSH, ONE, FLUSH),
    case("an append that only holds", pool(8, 4), FOUR, Append(b"efg"), Append(b""), Append(b"h")),
    case("7 before 18", pool(4, 4, bank(0)), FOUR, Append(b"efg"), Break(), Verdict(2), FOUR, FLUSH),
    case("6 before 18", pool(4, 4, bank(0)), FOUR, Append(b"efg"), Break(), FOUR, FLUSH, FINALISE),
    case("11 before 18", pool(4, 4, bank(0, payload=b"abcd"), out=3), FOUR, Append(b"efg"), ONE, FLUSH),
    case("8 before 18", pool(12, 4, bank(0)), FOUR, FOUR, FOUR, FOUR, ONE, FLUSH, Response(4), FLUSH, FOUR),
    case("9 before 18", pool(4, 4, bank(0, slots=1)), FOUR, FOUR, ONE, FLUSH),
    case("10 before 18", pool(4, 4, bank(0, response=Response(HIGH - 5))), FOUR, FOUR, Append(b"ef"), FLUSH),
    case("18 between a send and its failure", pool(8, 4), FOUR, FOUR, SEND_FAILED, SEND_FAILED),
    case("others between a send and its failure", pool(100, 4), FOUR, *at(1, FOUR, FLUSH), *at(0, SEND_FAILED), *at(1, SEND_FAILED)),
    case("18 refused for another's bytes", pool(12, 4), *at(1, FOUR, FOUR), *at(0, FOUR, FOUR), *at(1, Response(4)), *at(0, FOUR)),
    # ---- ends
    case("an ended bank counts as nothing", pool(12, 4), *at(1, FOUR, FOUR), *at(0, FOUR, FOUR), *at(1, CLOSE, Break()), *at(0, FOUR)),
    case("a bank that ended by a regress", pool(12, 4, bank(0), bank(1, response=Response(5))), *at(1, FOUR, FOUR), *at(0, FOUR, FOUR), *at(1, Response(4)), *at(0, FOUR)),
    case("a size above the write offset", pool(12, 4), *at(1, FOUR, FOUR), *at(0, FOUR, FOUR), *at(1, Response(9)), *at(0, FOUR)),
    # ---- apart
    case("a break and its replay beside another", pool(12, 4), FOUR, FOUR, FLUSH, *at(1, FOUR), *at(0, Break()), *at(1, ONE, FLUSH), *at(0, Verdict(1)),
         *at(1, Response(4)), *at(0, Handshake(4)), *at(1, FLUSH), *at(0, NEXT), *at(1, Response(5)), *at(0, NEXT, NEXT), *at(1, Append(b"fgh"))),
    case("writes of each bank's own request", pool(100, 4), FOUR, Write(), *at(1, Append(b"wxyz")), *at(0, Write()), *at(1, Write(), FLUSH), *at(0, Write()), *at(1, Write())),
]  # fmt: skip

# what the gate runs of them: the whole list is too long for it
LONGER = [
    "payloads count", "every call of a bank that the pool lacks", "18 by a finalise", "9 before 18", "an ended bank counts as nothing",
    "a break and its replay beside another", "writes of each bank's own request",
]  # fmt: skip
SAMPLE = REFUSED + [(name, script) for name, script in CASES if name in LONGER]
