"""Values of redirect details, messages BidiWriteObjectRedirectedError as bytes: written from parts, random ones, well made and malformed, and what they read
as.

The reader follows the text of Q-3 of document 02. It only aims, at scripts that reach something, and `compare --details` holds it against the crate's decoder.
What is right is the crate's answer.
"""

import dataclasses

VARINT, FIXED64, PART, START, END, FIXED32 = range(6)
TOKEN, HANDLE, GENERATION = 1, 2, 3
# the wire types of known fields: of the message, and of the handle in it, whose bytes are field 1
MESSAGE = {TOKEN: PART, HANDLE: PART, GENERATION: VARINT}
INSIDE = {1: PART}
WIDTHS = {FIXED64: 8, FIXED32: 4}
MOST = 2**29 - 1
LOW, HIGH = -(2**63), 2**63 - 1


# ---- writing


def varint(n, length=1):
    """in so many bytes at least"""
    n %= 2**64
    groups = [n >> 7 * i & 127 for i in range(max(length, -(-n.bit_length() // 7), 1))]
    return bytes([g | 128 for g in groups[:-1]] + groups[-1:])


def key(number, kind, length=1):
    return varint(number << 3 | kind, length)


def field(number, kind, held, longer=(1, 1)):
    """`held`: a number for a varint, else bytes; `longer`: in how many bytes at least the key, and the number or the length"""
    if kind == VARINT:
        return key(number, kind, longer[0]) + varint(held, longer[1])
    return key(number, kind, longer[0]) + (varint(len(held), longer[1]) if kind == PART else b"") + held


def token(text):
    return field(TOKEN, PART, text)


def handle(*parts):
    """a handle's message"""
    return field(HANDLE, PART, b"".join(parts))


def content(held):
    """of a handle: its bytes"""
    return field(1, PART, held)


def generation(n):
    return field(GENERATION, VARINT, n)


def group(number, *parts):
    return key(number, START) + b"".join(parts) + key(number, END)


def value(text=None, held=None, number=None):
    """as the crate's encoder writes it"""
    parts = [b"" if text is None else token(text)]
    parts.append(b"" if held is None else handle(content(held) if held else b""))
    parts.append(b"" if number is None else generation(number))
    return b"".join(parts)


# ---- reading


class Malformed(ValueError):
    """with the reason"""


@dataclasses.dataclass(frozen=True)
class Redirect:
    token: bytes | None = None
    handle: bytes | None = None
    generation: int | None = None

    def shown(self):
        """as the oracle's mode `details` has it"""
        hexes = ("none" if b is None else b.hex() for b in (self.token, self.handle))
        return "token={} handle={} generation={}".format(*hexes, "none" if self.generation is None else self.generation)


def read_varint(message, at):
    n = 0
    for i in range(10):
        if at + i == len(message):
            raise Malformed("cut off")
        byte = message[at + i]
        n |= (byte & 127) << 7 * i
        if byte < 128:
            break
    else:
        raise Malformed("varint")
    if n >= 2**64:
        raise Malformed("varint")
    return n, at + i + 1


def fields(message, known):
    """number, wire type and what it holds, of each field"""
    at = 0
    while at < len(message):
        k, at = read_varint(message, at)
        number, kind = k >> 3, k & 7
        check(number, kind, known)
        if kind == VARINT:
            held, at = read_varint(message, at)
        else:
            length, at = read_varint(message, at) if kind == PART else (WIDTHS[kind], at)
            if length > len(message) - at:
                raise Malformed("cut off")
            held, at = message[at : at + length], at + length
        yield number, kind, held


def check(number, kind, known):
    if kind in (START, END):
        raise Malformed("group")
    if kind > FIXED32:
        raise Malformed("wire type 6 or 7")
    if not 1 <= number <= MOST:
        raise Malformed("number")
    if known.get(number, kind) != kind:
        raise Malformed("wrong type")


def read(message):
    text = held = number = None
    for n, _, what in fields(message, MESSAGE):
        if n == TOKEN:
            text = checked_text(what)
        elif n == HANDLE:
            held = merged(held or b"", what)
        elif n == GENERATION:
            number = what - 2**64 if what > HIGH else what
    return Redirect(text, held, number)


def checked_text(what):
    try:
        what.decode()
    except UnicodeDecodeError:
        raise Malformed("not UTF-8") from None
    return what


def merged(held, message):
    """a handle's bytes, behind one more message of it"""
    try:
        for n, _, what in fields(message, INSIDE):
            held = what if n == 1 else held
    except Malformed as e:
        raise Malformed(f"{e} in the handle") from None
    return held


def read_or_none(message):
    try:
        return read(message)
    except Malformed:
        return None


def fault(message):
    """why it is malformed; None where it is not"""
    try:
        read(message)
    except Malformed as e:
        return str(e)
    return None


def tokens(message):
    """each, up to a field that is malformed otherwise than by its text"""
    found = []
    try:
        for n, _, what in fields(message, MESSAGE):
            found += [what] * (n == TOKEN)
    except Malformed:
        pass
    return found


def traits(message):
    """what a message that reads has to show"""
    return {name for name, holds in trait_rules(message).items() if holds}


def trait_rules(message):
    found = list(fields(message, MESSAGE))
    known = [n for n, _, _ in found if n in MESSAGE]
    handles = [list(fields(what, INSIDE)) for n, _, what in found if n == HANDLE]
    with_bytes = [any(n == 1 for n, _, _ in inside) for inside in handles]
    r = read(message)
    return {
        "no bytes": not message,
        "all three": set(known) == set(MESSAGE),
        "another order": known != sorted(known),
        "token again": known.count(TOKEN) > 1,
        "generation again": known.count(GENERATION) > 1,
        "handle again": known.count(HANDLE) > 1,
        "handle's bytes kept": bool(r.handle) and not with_bytes[-1],
        "handle without bytes": bool(handles) and not any(with_bytes),
        "unknown field": len(known) < len(found),
        "unknown field in the handle": any(n != 1 for inside in handles for n, _, _ in inside),
        "longer varint": len(message) > sum(len(field(*f)) for f in found),
        "too long a token before the last": any(len(t) > 512 for t in tokens(message)) and len(r.token) <= 512,
        "characters of several bytes": r.token is not None and not r.token.isascii(),
        "generation below 0": r.generation is not None and r.generation < 0,
    }


TRAITS = list(trait_rules(b""))


# ---- random

BORDERS = "\u0080\u07ff\u0800\ud7ff\ue000\uffff\U00010000\U0010ffff".encode()
TEXTS = [b"", b"u", b"v", b"t", b"ten bytes.", "é".encode(), "€a".encode(), "a𐍈".encode(), BORDERS]
NOT_TEXT = [
    bytes.fromhex(h)
    for h in "80 bf c2 c080 c1bf c241 e0 e09fbf e180 e14180 eda080 edbfbf f0 f08fbfbf f180 f18080 f1804180 f4908080 f5808080 ff fe 61c2 c2c280".split()
]
HANDLES = [b"", b"h", b"\x77", b"\x09\xff", b"\x80" * 5]
NUMBERS = [0, 1, 11, 127, 128, 2**14, 2**32, 2**56, HIGH, -1, -3, LOW]
UNKNOWN = [4, 5, 15, 16, 100, 2047, 2048, 2**18, MOST - 1, MOST]


def longer(rng):
    return tuple(rng.choice([1] * 16 + [2, 3, 5, 10]) for _ in range(2))


def some(rng, number, kind, held):
    return field(number, kind, held, longer(rng))


def some_token(rng):
    return some(rng, TOKEN, PART, rng.choice(TEXTS))


def some_generation(rng):
    return some(rng, GENERATION, VARINT, rng.choice(NUMBERS))


def some_handle(rng):
    parts = [some(rng, 1, PART, rng.choice(HANDLES)) for _ in range(rng.choice([0, 1, 1, 1, 1, 2]))]
    parts += [some_unknown(rng, [2, 3]) for _ in range(rng.choice([0, 0, 0, 0, 1, 2]))]
    rng.shuffle(parts)
    return some(rng, HANDLE, PART, b"".join(parts))


def some_unknown(rng, more=()):
    kind = rng.choice([VARINT, FIXED64, PART, FIXED32])
    return some(rng, rng.choice([*UNKNOWN, *more]), kind, held_by(rng, kind))


def held_by(rng, kind):
    """what a field of this wire type may hold; the bytes of a part may look like fields"""
    if kind == VARINT:
        return rng.choice([*NUMBERS, rng.getrandbits(64)])
    if kind == PART:
        return rng.choice([b"", b"\xff", rng.randbytes(rng.randint(1, 12)), token(b"w"), key(4, START), generation(5)])
    return rng.randbytes(WIDTHS[kind])


def some_fields(rng):
    makers = rng.choices([some_token, some_handle, some_generation, some_unknown], [4, 4, 3, 2], k=rng.choice([0, 1, 1, 2, 2, 3, 3, 4, 6]))
    return [make(rng) for make in makers]


def well_made(rng):
    if rng.random() < 0.005:
        return long(rng)
    return b"".join(some_fields(rng))


def long(rng):
    """token and handle at their bounds, and above"""
    parts = rng.choice(
        [
            [token(b"t" * 512), handle(content(b"h" * 1024))],
            [token(b"t" * 513)],
            [token(b"t" * 513), token(b"u")],
            [handle(content(b"h" * 1025))],
            [handle(content(b"h" * 1025)), handle()],
            [handle(content(b"h" * 1025)), handle(content(b""))],
        ]
    )
    return b"".join(parts + some_fields(rng)[:2])


# what is malformed: each gives a field, or the rest of a message


def a_group(rng, known):
    return group(rng.choice([*UNKNOWN, *known]), rng.choice([b"", b"", some_unknown(rng), group(7)]))


def half_a_group(rng, known):
    n = rng.choice([*UNKNOWN, *known])
    return rng.choice([key(n, START), key(n, END), key(n, START) + key(n + 1, END)])


def a_bad_kind(rng, known):
    return key(rng.choice([*UNKNOWN, *known]), rng.choice([6, 7])) + rng.randbytes(rng.choice([0, 1, 8]))


def a_wrong_type(rng, known):
    n = rng.choice(list(known))
    kind = rng.choice([k for k in (VARINT, FIXED64, PART, FIXED32) if k != known[n]])
    return some(rng, n, kind, held_by(rng, kind))


def a_bad_number(rng, known):
    kind = rng.choice([VARINT, FIXED64, PART, FIXED32])
    return some(rng, rng.choice([0, 0, MOST + 1, MOST + 2, MOST + 3, MOST + 4, 2**32 + 1, 2**60 + 1, 2**61 - 1]), kind, held_by(rng, kind))


def a_bad_varint(rng, known):
    """past ten bytes or 64 bits, as a key, a number or a length"""
    bad = rng.choice([varint(0, 11), varint(1, 11), b"\xff" * 9 + b"\x02", b"\x80" * 9 + b"\x02", b"\xff" * 9 + b"\x7f", b"\xff" * 11])
    unknown = rng.choice(UNKNOWN)
    return rng.choice([b"", key(unknown, VARINT), key(unknown, PART), *(key(n, kind) for n, kind in known.items())]) + bad


def a_bad_token(rng, known):
    return field(TOKEN, PART, rng.choice([b"", b"ab"]) + rng.choice(NOT_TEXT) + rng.choice([b"", b"z"]))


def a_cut_field(rng, known):
    whole = rng.choice([some_token, some_handle, some_generation, some_unknown])(rng)
    return whole[: rng.randint(1, max(1, len(whole) - 1))]


def a_long_part(rng, known):
    """a length that goes past the end"""
    held = rng.randbytes(rng.randint(0, 4))
    missing = rng.choice([1, 1, 2, 100, 2**31, 2**32, 2**63 - len(held), 2**64 - 1 - len(held)])
    return key(rng.choice([1, 2, 4]), PART) + varint(len(held) + missing) + held


FAULTS = [a_group, a_group, half_a_group, a_bad_kind, a_wrong_type, a_bad_number, a_bad_varint, a_bad_token, a_cut_field, a_long_part]
LAST = (a_cut_field, a_long_part)


def malformed(rng):
    """mostly: a field may be cut where it ends"""
    if rng.random() < 0.15:
        return altered(rng, b"".join(some_fields(rng)))
    make, parts = rng.choice(FAULTS), [long(rng)] if rng.random() < 0.01 else some_fields(rng)
    inside = make is not a_bad_token and rng.random() < 0.3
    bad = make(rng, INSIDE if inside else MESSAGE)
    if inside:
        behind = b"" if make in LAST else rng.choice([b"", content(b"k")])
        bad = field(HANDLE, PART, rng.choice([b"", content(b"i")]) + bad + behind)
    at = len(parts) if make in LAST and not inside else rng.randint(0, len(parts))
    return b"".join(parts[:at] + [bad] + parts[at:])


def altered(rng, message):
    """a byte changed, left out or put in"""
    at = rng.randint(0, len(message))
    return message[:at] + rng.choice([b"", rng.randbytes(1)]) + message[at + rng.choice([0, 1]) :]


def random_value(rng):
    return malformed(rng) if rng.random() < 0.4 else well_made(rng)


# ---- every truncation and every change of a byte

UNKNOWNS = [field(4, VARINT, 300), field(5, FIXED64, b"12345678"), field(15, PART, b"xyz"), field(16, FIXED32, b"1234")]
FULL = {
    "ascending": value(b"tok", b"hand", 300),
    "descending": generation(-3) + handle(content(b"\xfe\x01")) + token(b"t"),
    "all again": token(b"a") + generation(1) + handle(content(b"a")) + token(b"b") + handle(content(b"b")) + generation(2),
    "unknown fields": UNKNOWNS[0] + token(b"t") + UNKNOWNS[1] + handle(content(b"h")) + UNKNOWNS[2] + generation(5) + UNKNOWNS[3],
    "unknown fields in the handle": token(b"t") + handle(*UNKNOWNS[:2], content(b"h"), *UNKNOWNS[2:]) + generation(5),
    "handle kept": handle(content(b"keep")) + token(b"t") + handle(field(2, PART, b"n")) + generation(9) + handle(),
    "handle given late": handle() + generation(0) + handle(field(3, VARINT, 1)) + token(b"") + handle(content(b"a"), content(b"late")),
    "longer varints": field(TOKEN, PART, b"t", (10, 3)) + field(HANDLE, PART, field(1, PART, b"h", (2, 10)), (3, 2)) + field(GENERATION, VARINT, 6, (5, 10)),
    "characters of several bytes": token("aé€𐍈".encode()) + handle(content(b"\x80\xff")) + generation(HIGH),
    "borders of characters": token(BORDERS) + generation(LOW) + handle(content(b"")),
    "highest numbers": field(MOST, PART, b"x") + handle(field(MOST, VARINT, 1), content(b"h")) + token(b"t") + field(MOST, FIXED32, b"1234") + generation(1),
    "a part of ten bytes": token(b"0123456789") + handle(content(b"01234567")) + generation(10),
    "groups": token(b"t") + group(4, UNKNOWNS[0], group(5)) + handle(content(b"h"), group(2)) + generation(1),
}


def near(message):
    """the message, each truncation of it, and each with one byte changed"""
    yield message
    for i, byte in enumerate(message):
        yield message[:i]
        for other in range(256):
            if other != byte:
                yield message[:i] + bytes([other]) + message[i + 1 :]
