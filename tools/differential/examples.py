"""The computed examples of crate `wire_format` against the crate's decoder and encoder.

An example says of bytes as which request they read, or that they are none, and the comment above it says what the crate's decoder makes of them; or it says as
which bytes a request is written.

    -- the crate: off=2 data=none f=0 s=0 w=0 sum=none
    last-offset : readRequest (0x18 ∷ 0x01 ∷ 0x18 ∷ 0x02 ∷ []) ≡ some (request (pos 2) none none false false false)
    written-flush : wire (request (pos 0) none none false true false) ≡ (0x40 ∷ 0x01 ∷ [])

A request has its offset, its data, the object's sum, and the flags lookup, flush and finish.
"""

import dataclasses
import re

from .agree import intended

CRATE = "-- the crate: "
NUMBER = r"(?:0x[0-9a-f]+|\d+|\(2 \^ \d+(?: - \d+)?\))"
BYTES = rf"(?:\[\]|\((?:{NUMBER} ∷ )*\[\]\))"
REQUEST = (
    rf"\(request \((?P<sign>pos|negsuc) (?P<offset>{NUMBER})\) (?:none|\(some \(checked (?P<content>{BYTES}) (?P<data_sum>{NUMBER})\)\))"
    rf" (?:none|\(some (?P<object_sum>{NUMBER})\)) (?P<lookup>true|false) (?P<flush>true|false) (?P<finish>true|false)\)"
)
READ = re.compile(rf"(?P<name>\S+) : readRequest (?P<bytes>{BYTES}) ≡ (?:none|some {REQUEST})")
WRITTEN = re.compile(rf"(?P<name>\S+) : wire {REQUEST} ≡ (?P<bytes>{BYTES})")


@dataclasses.dataclass(frozen=True)
class Example:
    line: int
    name: str
    message: bytes
    # the fields of a `rq` line, or none
    request: str
    written: bool
    # what the crate is said to make of it
    comment: str | None


def read(text):
    """the examples of a file; ValueError where one has another form"""
    return [example(*stated) for stated in statements(text, ("readRequest ", "wire "))]


def statements(text, words):
    """line, statement and comment of each that has one of the words"""
    comment, lines = None, text.splitlines()
    for i, line in enumerate(lines):
        if line.startswith(CRATE):
            comment = line.removeprefix(CRATE)
        elif re.match(r"[^\s-]\S* :(\s|$)", line):
            whole = statement(lines, i)
            if any(word in whole for word in words):
                yield i + 1, whole, comment
            comment = None


def statement(lines, i):
    """the line and those behind it that are set in"""
    end = next((j for j in range(i + 1, len(lines)) if not lines[j].startswith(" ")), len(lines))
    return " ".join(" ".join(lines[i:end]).split())


def example(line, whole, comment):
    parts = READ.fullmatch(whole) or WRITTEN.fullmatch(whole)
    if not parts:
        raise ValueError(f"line {line}: of another form: {whole}")
    return Example(line, parts["name"], numbers(parts["bytes"]), request(parts), parts.re is WRITTEN, comment)


def request(parts):
    if parts["sign"] is None:
        return "none"
    offset = number(parts["offset"]) if parts["sign"] == "pos" else -1 - number(parts["offset"])
    data = "none" if parts["content"] is None else f"{numbers(parts['content']).hex()}/{number(parts['data_sum']):08x}"
    summed = "none" if parts["object_sum"] is None else f"{number(parts['object_sum']):08x}"
    f, s, w = (int(parts[name] == "true") for name in ("flush", "lookup", "finish"))
    return f"off={offset} data={data} f={f} s={s} w={w} sum={summed}"


def numbers(text):
    return bytes(number(n) for n in text.strip("()[]").split("∷") if n.strip())


def number(text):
    base, _, more = text.strip("() ").partition(" ^ ")
    power, _, less = more.partition(" - ")
    return int(base, 0) ** int(power or "1") - int(less or "0")


def judged(e, crate, again):
    """Where the example says other than the crate: what its decoder makes of the bytes, and as what its encoder writes that again."""
    wrong = []
    if not e.written and e.comment != crate:
        wrong.append(f"the comment says {e.comment}")
    if e.written and again != e.message.hex():
        wrong.append(f"the crate writes {again}")
    if e.request != (crate if crate.startswith("off=") else "none"):
        kind = intended(e.message) if e.request == "none" else None
        wrong.append(f"intended: {kind}" if kind else f"the statement says {e.request}")
    return wrong
