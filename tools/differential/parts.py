"""Parts compared alone: sums and their joins, the redirect detail of a status, the chunks of appends.

Each part gives lists of what the port shows, and of what the crate's own function gives.
"""

import itertools
import re

from .calls import Append, Break, FLUSH, Opening, Response, Script
from .details import FULL, value

RUN = re.compile(rb" run=(\w+) ")
CHUNKS = re.compile(rb" chunks=\[(.*?)\]")
HELD = re.compile(rb" held=(\w*) ")
DATA = re.compile(rb"\n  rq off=\d+ data=(\w*)/")


def sums(rng, oracle, port):
    """the sum of a chunk, and the running sum joined with it: every length to 300, and others to 8,192"""
    texts = [rng.randbytes(n) for n in [*range(1, 301), *(rng.randint(301, 8192) for _ in range(200))]]
    texts += [bytes(n) for n in (1, 31, 32, 33, 4096)] + [b"\xff" * n for n in (1, 32, 8192)]
    before = [rng.choice([0, 1, 2**31, 2**32 - 1, rng.getrandbits(32)]) for _ in texts]
    opening = [Opening(chunk=8192, capacity=16385, response=Response(5), sum=b) for b in before]
    # one of C bytes is cut by the append itself
    outputs = port.run([Script([o, Append(t)] + [FLUSH] * (len(t) < 8192)) for o, t in zip(opening, texts)])
    shown = [b" ".join([CHUNKS.findall(o)[-1].split(b":")[2].strip(), RUN.findall(o)[-1]]) for o in outputs]
    alone = oracle.mode("crc").words([t.hex() for t in texts])
    joined = oracle.mode("crc").words([f"{b:08x} {t.hex()}" for b, t in zip(before, texts)])
    return shown, [b" ".join(pair) for pair in zip(alone, joined)]


def redirects(rng, oracle, port):
    """every code and every detail, on every spec"""
    specs = itertools.product([None, b"t"], [None, b"\x01"], [0, 7])
    details = [None] + [value(*d) for d in itertools.product([None, b"", b"u"], [None, b"", b"\x02"], [None, 0, 8])] + list(FULL.values())
    codes = [*range(18), 2**31, 2**32 - 1]
    scripts = [
        Script([Opening(token=t, handle=h, generation=g, response=Response(0)), Break(1, code, detail)])
        for (t, h, g), code, detail in itertools.product(specs, codes, details)
    ]
    return port.run(scripts), oracle.run(scripts)


def appends(rng, oracle, port):
    """appends, each called again till all is taken, against `CoalescingBuffer::push`"""
    pushes = [(limit, pushed(rng, limit)) for limit in [rng.choice([1, 2, 3, 4, 5, 7, 16, 33, 100]) for _ in range(3000)]]
    outputs = port.run([Script(repeated(limit, texts)) for limit, texts in pushes])
    shown = [b" ".join(DATA.findall(o)) + b" +" + HELD.findall(o)[-1] for o in outputs]
    return shown, oracle.mode("coalesce").words([" ".join([f"{limit:x}"] + [t.hex() for t in texts]) for limit, texts in pushes])


def pushed(rng, limit):
    texts, left = [], 60 * limit
    for _ in range(rng.randint(1, 12)):
        texts.append(rng.randbytes(min(left, rng.choice([1, 2, limit - 1, limit, limit + 1, 2 * limit, rng.randint(1, 8 * limit)]))))
        left -= len(texts[-1])
    return [t for t in texts if t]


def repeated(limit, texts):
    # everything fits, and no response is owed, so that nothing is refused
    calls, held = [Opening(chunk=limit, capacity=64 * limit + 1, response=Response(0))], 0
    for text in texts:
        while text:
            calls.append(Append(text))
            taken = min(len(text), limit - held)
            text, held = text[taken:], (held + taken) % limit
    return calls


PARTS = {"sums and their joins": sums, "redirect details": redirects, "chunks of appends": appends}
