"""Document 01's boundary cases, and those of written requests, of redirect details and of what is released, as scripts: for each its name, its calls, and what
its opening has that the others have not. CASES are the crate's to answer; PAST, sizes above the write offset, are answered by the rule of differential/past.py.

A call is the mark of its record (docs/TRACE.md) and what it brings, as in docs/DIFFERENCES.md. AP has the bytes, the letters of their offsets from a to z and
again. RS and HS have a size or none, `resource` or `finalised` where a resource holds it, and `handle` and the length of one. BR, and FA behind its verdict,
have a word of BREAKS, or none for an end of stream, or the code of a status and the value of a redirect detail in hexadecimal. WB has the lengths of buffer and
data.

No record says what the program `extremes` has: C and capacity at 2^64 - 1, bytes of a handle or a token that is not given, a call after a refused opening, the
attempt number at 2^32 - 1, and the 2^64 - 1st waiter.
"""

import dataclasses

from .calls import BUCKET, Append, Break, FailedAttempt, Handshake, Opening, Plain, Response, Script, Verdict, Write
from .details import FIXED32, FIXED64, MOST, NOT_TEXT, PART, VARINT, content, field, generation, handle, key, token, value, varint
from .messages import length
from .moves import ABORTED, HIGH, LOW

PREFIX = BUCKET[:-1]
UNAVAILABLE = 14
BREAKS = {
    "": Break(0),
    "error": Break(2),
    "unavailable": Break(1, UNAVAILABLE),
    "aborted": Break(1, ABORTED),
    "detail": Break(1, UNAVAILABLE, value(b"t", b"h")),
    "redirect": Break(1, ABORTED, value(b"t", b"h")),
    "empty redirect": Break(1, ABORTED, value()),
    "longest": Break(1, ABORTED, value(b"t" * 512, b"h" * 1024)),
    "token 513": Break(1, ABORTED, value(b"t" * 513, b"")),
    "handle 1025": Break(1, ABORTED, value(b"", b"h" * 1025)),
    # a group of nothing, alone and behind what is too long
    "malformed": Break(1, ABORTED, b"\x23\x24"),
    "malformed detail": Break(1, UNAVAILABLE, b"\x23\x24"),
    "malformed and token 513": Break(1, ABORTED, value(b"t" * 513, b"") + b"\x23\x24"),
    "malformed and handle 1025": Break(1, ABORTED, value(b"", b"h" * 1025) + b"\x23\x24"),
}
# C 4, capacity 9 and P 0; the store and the out buffer are the shortest that these take
OPENING = Opening(chunk=4, capacity=9, generation=1, response=Response(0), store=15, slots=8, out=4)


def case(name, calls, **opening):
    return name, Script([dataclasses.replace(OPENING, **opening)] + [call(text) for text in calls.split(", ")])


def opens(name, **opening):
    """an opening alone: its response states nothing, and one slot is lent"""
    return name, Script([dataclasses.replace(OPENING, **{"response": Response(), "slots": 1} | opening)])


def call(text):
    mark, _, more = text.partition(" ")
    if mark == "AP":
        return Append(more.encode())
    if mark in ("RS", "HS"):
        return message({"RS": Response, "HS": Handshake}[mark], more)
    if mark == "BR":
        return broken(more)
    if mark == "VE":
        return Verdict(int(more))
    if mark == "WB":
        return Write(*(int(n) for n in more.split()))
    if mark == "FA":
        verdict, _, how = more.partition(" ")
        return FailedAttempt(int(verdict), broken(how))
    return Plain(mark.encode())


def broken(text):
    if text in BREAKS:
        return BREAKS[text]
    code, detail = text.split()
    return Break(1, int(code), bytes.fromhex(detail))


def message(kind, text):
    stated, _, held = text.partition("handle ")
    size, *how = stated.split() or [None]
    return kind(None if size is None else int(size), 2 if how else None, how == ["finalised"], b"h" * int(held) if held else None)


# Refusals 1 to 5, each bound from both sides. Where the store is too short for the largest C or capacity, 2 shows that 1 was not given.
OPENINGS = [
    opens("C 0", chunk=0, capacity=0),
    opens("C 1", chunk=1, capacity=0),
    opens("C 2097152", chunk=2097152, capacity=0),
    opens("C 2097153", chunk=2097153, capacity=0),
    opens("C 2^32 - 1", chunk=2**32 - 1),
    opens("capacity 1073741824", capacity=1073741824),
    opens("capacity 1073741825", capacity=1073741825),
    opens("capacity 2^32 - 1", capacity=2**32 - 1),
    opens("store 15"),
    opens("store 14", store=14),
    opens("no slot", slots=0),
    opens("capacity 8 asked, store 15", capacity=8),
    opens("capacity 8 asked, store 14", capacity=8, store=14),
    opens("capacity 10, store 15", capacity=10),
    opens("capacity not named, store 15", capacity=None),
    opens("bucket of no bytes", bucket=b""),
    opens("bucket prefix alone", bucket=PREFIX),
    opens("bucket prefix and a byte", bucket=PREFIX + b"b"),
    opens("bucket prefix cut", bucket=PREFIX[:-1]),
    opens("bucket of a project", bucket=b"projects/p/buckets/b"),
    opens("bucket 256", bucket=PREFIX + b"x" * 237),
    opens("bucket 257", bucket=PREFIX + b"x" * 238),
    opens("object of no bytes", object=b""),
    opens("object 1024", object=b"o" * 1024),
    opens("object 1025", object=b"o" * 1025),
    opens("handle 1024", handle=b"h" * 1024),
    opens("handle 1025", handle=b"h" * 1025),
    opens("handle 1025, Write form", handle=b"h" * 1025, append=False),
    opens("token 512", token=b"t" * 512),
    opens("token 513", token=b"t" * 513),
    opens("token 513, Write form", token=b"t" * 513, append=False),
    opens("response's handle 1024", response=Response(handle=b"h" * 1024)),
    opens("response's handle 1025", response=Response(handle=b"h" * 1025)),
    opens("payload of no bytes", payload=b""),
    opens("payload 4", payload=b"abcd"),
    opens("payload 5", payload=b"abcde"),
    opens("resource", payload=b"abcd", response=Response(2, 2)),
    opens("finalised", payload=b"abcd", response=Response(2, 2, True)),
    opens("finalised, payload 5", payload=b"abcde", response=Response(2, 2, True)),
    # each deserves its refusal and every one behind it
    opens("1 before 2", chunk=0, slots=0, bucket=b"", payload=b"abcde", response=Response(2, 2, True)),
    opens("2 before 3", slots=0, bucket=b"", payload=b"abcde", response=Response(2, 2, True)),
    opens("3 before 4", bucket=b"", payload=b"abcde", response=Response(2, 2, True)),
    opens("4 before 5", payload=b"abcde", response=Response(2, 2, True)),
]

# Refusals 4, 8, 11 and 13, and lengths of nothing.
LENGTHS = [
    case("document 01", "AP abcdef, AP ef, FL, FL, RS 5, BR, VE 1, HS 5, NX, NX, NX, RS 6"),
    case("held 3, append 1", "AP abc, AP d, FL"),
    case("append of nothing", "AP, AP ab, AP, RS -1, AP, AP c"),
    case("response's handle 1024, 1025", "RS handle 1024, RS handle 1025, RS 0"),
    case("redirect's token 513, handle 1025", "BR token 513, BR handle 1025, BR longest"),
    case("out buffer C - 1, append", "AP a, AP bcd", out=3),
    case("out buffer C, append", "AP a, AP bcde"),
    case("out buffer C - 1, flush", "FL, AP a, FL", out=3),
    case("out buffer C, flush", "AP a, FL, FL"),
    case("out buffer C - 1, replay", "BR, VE 1, HS, NX", payload=b"abcd", out=3),
    case("out buffer C - 1, replay without data", "FI, BR, VE 1, HS 4, NX, NX", payload=b"abcd", out=3),
    case("out buffer C, replay", "AP abcd, FL, BR, VE 1, HS, NX, NX, NX"),
    case("stored 8 of 9, flush", "AP abcd, AP efgh, FL"),
    case("stored 9 of 9, flush", "AP abcd, AP efgh, AP i, FL, FL, FI, CL, AP jklm, AP jk"),
    case("stored 10 of 9, flush", "AP abcd, AP efgh, AP ij, FL, FL, RS 1, FL"),
    case("verdict 0, 1", "BR, VE 0, VE 1"),
    case("verdict 4, 5", "BR, VE 5, VE 4"),
]

# Refusal 6.
PHASES = [
    case("live", "VE 1, FA 1 error, HS 0, NX, SF"),
    case("verdict", "BR, BR, RS 0, AP ab, AP cdef, FL, FI, CL, FA 1 error, HS 0, NX, SF"),
    case("connecting", "BR, VE 1, BR, RS 0, AP abcd, FL, FI, CL, VE 1, NX, SF"),
    case("replay", "AP abcd, BR, VE 1, HS 0, BR, RS 0, AP efgh, FL, FI, CL, VE 1, FA 1 error, HS 0, SF"),
    case("closing", "CL, CL, VE 1, FA 1 error, HS 0, NX, SF, RS 0, BR"),
]

# Refusal 7, and each cause.
ENDED = [
    case("regressed", "FL, RS -1, FL, AP a, AP, CL, BR, VE 1, FA 1 error, HS 0, NX, SF, RS 0"),
    case("permanent", "FL, BR, VE 2, VE 1"),
    case("exhausted", "FL, FL, BR, VE 3, VE 1"),
    case("given up", "BR, VE 4, VE 1"),
    case("finished", "FI, RS 0 finalised, BR, FL"),
    case("stream error", "CL, BR unavailable, RS 0"),
    case("closed, waiter dropped", "FL, CL, BR, RS 0"),
    case("closed, waiter failed", "FL, CL, BR error"),
    case("finished in closing", "FI, RS 0 finalised, CL, BR error"),
]

# Refusal 12.
CLOSED = [
    case("second finalise", "AP a, FI, FI, FI, FL, AP b, AP, CL"),
    case("finalise cuts, append", "AP a, FI, AP b, FI, FI"),
    case("append after close", "AP a, CL, AP b, AP, FL, FI"),
    case("close in replay of a finalise", "FI, BR, VE 1, AP a, FL, HS, NX, NX, CL, BR unavailable"),
]

# Refusals 9 and 10.
ROOM = [
    case("last slot", "AP a, FL, AP b, FL, AP c, FL, AP defg, FI, FL, RS 1, FL", slots=2),
    case("16 flushes", "FL, " * 17 + "FI, AP a, FL, FL, RS 0, FL"),
    case("2^63 - 1, one byte", "AP h, FL, AP ijkl, AP ij, FI", response=Response(HIGH)),
    case("2^63 - 1, none", f"FL, RS {HIGH}, RS {HIGH - 1}", response=Response(HIGH)),
    case("2^63 - 2, one byte", f"AP g, FL, AP h, FL, RS {HIGH}, FL", response=Response(HIGH - 1)),
    case("2^63 - 2, two bytes", "AP gh, FL, FI", response=Response(HIGH - 1)),
    case("2^63 - 2, a chunk", "AP ghi, AP j, AP jklm", response=Response(HIGH - 1)),
]

# P below, at and above zero, and at both ends.
SIZES = [
    case("P lowest", f"AP abcd, RS {LOW}, RS -1, RS 0, RS 1, RS {LOW}", response=Response(LOW)),
    case("P -1", f"FL, RS -1, RS 0, RS {LOW}", response=Response(-1)),
    case("P -1, below", f"AP abcd, FL, RS {LOW}", response=Response(-1)),
    case("P 0, equal, one less", "RS 0, RS -1, RS 0"),
    case("P 0, a resource", "AP abcd, RS 4 resource, RS 3 resource"),
    case("size at the write offset", "AP abcd, FL, RS 4, AP efgh, AP ij, RS 8, FL, RS 10"),
    case("handshake at the write offset", "AP abcd, AP ef, FL, BR, VE 1, HS 6, NX, AP g, FL, BR, VE 1, HS 7, NX"),
    case("no size", "AP abcd, RS, AP efgh, FL, RS, RS 8"),
    case("no bare flush in closing", "AP abcd, CL, RS 0, RS 4, BR"),
    case("trim inside a chunk", "AP abcd, AP ef, FL, RS 5, BR, VE 1, HS 5, NX, NX, NX"),
    case("trim by a handshake", "AP abcd, AP efgh, BR, VE 1, HS 3, NX, NX, NX, NX"),
    case("handshake regresses", "FL, AP abcd, RS 4, BR, VE 1, HS 3"),
    case("handshake without size", "AP abcd, BR, VE 1, HS, NX, NX, NX"),
]

# Finalised responses.
FINALS = [
    case("finalised, none sent", "FL, RS 0 finalised"),
    case("finalised, flush in front", "FL, FI, RS 0 finalised"),
    case("finalised, size short", "AP a, FI, FI, RS 0 finalised"),
    case("not finalised", "FI, RS 0, RS 0, RS 0 finalised, RS 0, BR"),
    case("finalise behind a flush", "AP a, FL, FL, FI, RS 1, RS 1 finalised, BR unavailable"),
    case("finalised handshake", "FI, BR, VE 1, HS 0 finalised, NX, BR"),
    case("finalised handshake, none sent", "BR, VE 1, HS 0 finalised"),
    case("waiters from the front", "FL, AP a, FL, FL, AP b, FL, FL, RS 1, RS 2"),
]

# A payload is stored at offset 0 and acknowledged to P.
PAYLOADS = [
    case("payload C", "BR, VE 1, HS, NX, NX, NX", payload=b"abcd"),
    case("payload C + 1", "FL", payload=b"abcde"),
    case("payload within P", "AP e, FL, BR, VE 1, HS, NX, NX, NX, NX", payload=b"abcd", response=Response(2)),
    case("payload below P", "AP j, FL, BR, VE 1, HS, NX, NX, NX", payload=b"abcd", response=Response(9)),
    case("empty payload, P -1", "BR, VE 1, HS -1, NX, NX", payload=b"", response=Response(-1)),
    case("empty payload, P 0", "BR, VE 1, HS 0, NX, NX", payload=b""),
    case("empty payload, acknowledged", "RS -1, RS 0, BR, VE 1, HS, NX", payload=b"", response=Response(-1)),
    case("empty payload, P lowest", f"RS {LOW}, BR, VE 1, HS, NX, AP ab, NX, FL, FL", payload=b"", response=Response(LOW)),
]

# The first byte and the first slot in use pass the ends of store and table.
RINGS = [
    case(
        "ring",
        "AP abcd, RS 3, AP efgh, RS 6, AP ijkl, RS 9, AP mnop, RS 16, AP qrst, RS 19, AP uvwx, RS 22, AP yz, FL, RS 25, AP abcd, RS 29, AP efgh, RS 31, "
        "AP ijkl, RS 36, AP mnop, BR, VE 1, HS, NX, NX, NX, NX",
    ),
    case(
        "ring, bytes held",
        "AP abcd, AP efgh, AP ij, RS 5, AP kl, AP m, RS 10, AP nopq, AP qr, RS 15, AP stuv, AP u, RS 16, AP vwxy, AP y, BR, VE 1, HS, NX, NX, NX, NX, "
        "FL, FL, RS 25",
    ),
    case(
        "table",
        "AP a, FL, AP b, FL, RS 1, AP c, FL, RS 2, AP de, FL, RS 4, AP f, FL, RS 5, AP g, FL, AP h, RS 6, FL, AP i, FL, BR, VE 1, HS, NX, NX, NX, NX",
        slots=2,
    ),
    case(
        "ring, C 1",
        "AP a, AP b, AP c, AP d, RS 1, AP d, RS 3, AP e, AP f, AP g, RS 5, AP g, BR, VE 1, HS, NX, NX, NX, NX, NX, FL",
        chunk=1,
        capacity=0,
        store=3,
        slots=4,
    ),
]

# The attempt number.
ATTEMPTS = [
    case("attempts", "BR, VE 1, FA 1 error, FA 1 error, HS, NX, BR unavailable, VE 1, HS, NX, BR error, VE 1, HS, NX, BR aborted"),
    case("attempts, progress", "AP abcd, BR, VE 1, HS 0, NX, NX, NX, BR, VE 1, HS 1, NX, NX, NX, BR, VE 1, HS 1, NX, NX, NX, RS 2, BR"),
    case("attempts, detail with another code", "BR, VE 1, HS, NX, BR detail, VE 1, HS, NX, BR redirect"),
]

# A size above the last one starts the count anew.
REDIRECTS = [
    case("redirect 1, verdict 1", "BR redirect, VE 1"),
    case("redirect 1, verdict 2", "BR redirect, VE 2"),
    case("redirect 1, verdict 3", "BR redirect, VE 3"),
    case("redirect 1, verdict 4", "FL, BR redirect, VE 4"),
    case("redirect 2, verdict 1", "BR redirect, VE 1, FA 1 redirect"),
    case("redirect 2, verdict 2", "BR redirect, VE 2, FA 2 redirect"),
    case("redirect 2, verdict 3", "BR redirect, VE 3, FA 3 redirect"),
    case("redirect 2, verdict 4", "BR redirect, VE 1, FA 4 redirect"),
    case("redirect 3, verdict 1", "BR redirect, VE 1, FA 1 redirect, FA 1 redirect"),
    case("redirect 3, verdict 2", "BR redirect, VE 1, FA 1 redirect, FA 2 redirect"),
    case("redirect 3, verdict 3", "BR redirect, VE 1, FA 1 redirect, FA 3 redirect"),
    case("redirect 3, verdict 4", "BR redirect, VE 1, FA 1 redirect, FA 4 redirect"),
    case("redirect 4, verdict 1", "BR redirect, VE 1, FA 1 redirect, FA 1 redirect, FA 1 redirect"),
    case("redirect 4, verdict 2", "BR redirect, VE 1, FA 1 redirect, FA 1 redirect, FA 2 redirect"),
    case("redirect 4, verdict 3", "BR redirect, VE 1, FA 1 redirect, FA 1 redirect, FA 3 redirect"),
    case("redirect 4, verdict 4", "BR redirect, VE 1, FA 1 redirect, FA 1 redirect, FA 4 redirect"),
    case("redirect 4 by a break", "BR redirect, VE 1, FA 1 redirect, FA 1 redirect, HS, NX, BR redirect, VE 1"),
    case(
        "redirect 5, after progress",
        "BR redirect, VE 1, FA 1 redirect, FA 1 redirect, HS 1, NX, BR redirect, VE 1, FA 1 redirect, FA 1 redirect, FA 1 redirect",
        payload=b"a",
    ),
    case("redirect without a token", "BR redirect, VE 1, FA 1 empty redirect"),
    case("redirects 3, other errors", "BR redirect, VE 1, FA 1 redirect, FA 1 redirect, FA 1 error, FA 1 error, FA 3 error"),
    case("failed attempt, verdict 0, 5, 2", "BR, VE 1, FA 0 error, FA 5 error, FA 2 error"),
]


def read(name, *values):
    """Each is taken with another code than Aborted, the first by a break, all by failed attempts, which are no redirects then. The last by a redirect too."""
    attempts = "".join(f"FA 1 {UNAVAILABLE} {v}, " for v in hexes(values))
    calls = f"BR {UNAVAILABLE} {hexes(values)[0]}, VE 1, {attempts}HS, NX, BR {ABORTED} {hexes(values)[-1]}"
    return case(f"detail, {name}", calls, token=b"o", handle=b"o")


def refused(name, *values):
    """each by a break, and by a failed attempt"""
    breaks, attempts = ("".join(f"{mark} {ABORTED} {v}, " for v in hexes(values)) for mark in ("BR", "FA 1"))
    return case(f"malformed, {name}", f"{breaks}BR, VE 1, {attempts}FA 1 redirect")


def hexes(values):
    """of bytes, or of hexadecimal digits with spaces"""
    return [v.hex() if isinstance(v, bytes) else v.replace(" ", "") for v in values]


def aborted(*parts):
    """a break with this detail"""
    return f"BR {ABORTED} {b''.join(parts).hex()}"


# zero in ten bytes and in eleven, and 2^64
TEN, ELEVEN, OVER = varint(0, 10), varint(0, 11), b"\x80" * 9 + b"\x02"
MOST_BITS = b"\xff" * 9 + b"\x01"
FIXED = [field(4, FIXED64, bytes(8)), field(4, FIXED32, bytes(4))]
CHARACTERS = [bytes.fromhex(h) for h in "c280 dfbf e0a080 e0bfbf ecbfbf ed9fbf ee8080 efbfbf f0908080 f0bfbfbf f3bfbfbf f48fbfbf 207f".split()]

# What details read as.
READINGS = [
    read("a field", token(b"t"), handle(content(b"h")), token(b""), *(generation(n) for n in (0, 2, -1, LOW, HIGH))),
    read("any order", generation(2) + handle(content(b"h")) + token(b"t"), handle(content(b"i")) + token(b"u") + generation(3)),
    read("token again", token(b"t") + token(b"u"), token(b"u") + generation(2) + token(b"")),
    read("generation again", generation(2) + generation(3), generation(2) + token(b"t") + generation(0)),
    read(
        "handle again",
        handle(content(b"h")) + handle(content(b"i")),
        handle(content(b"h")) + handle(),
        handle() + handle(content(b"i")),
        handle(content(b"h")) + handle(content(b"")),
        handle(content(b"i")) + token(b"t") + handle(field(2, VARINT, 1)) + handle(),
        handle(content(b"h"), content(b"i")),
        handle(),
    ),
    read("a handle without bytes", handle(field(2, VARINT, 1))),
    read("unknown fields", token(b"t") + field(4, VARINT, 1), FIXED[0] + token(b"u") + FIXED[1], field(4, PART, b"\x23") + generation(2), "22 00"),
    read("unknown fields in the handle", handle(field(2, VARINT, 1), content(b"h"), *FIXED), handle(field(3, PART, b"\x23"), content(b"i"))),
    read("number 2^29 - 1", field(MOST, VARINT, 1) + token(b"t"), handle(field(MOST, PART, b""), content(b"h")) + field(MOST, FIXED32, bytes(4))),
    read(
        "varints of ten bytes",
        b"\x18" + TEN,
        b"\x18" + varint(LOW),
        b"\x18" + MOST_BITS,
        field(1, PART, b"t", (10, 10)),
        handle(field(1, PART, b"h", (10, 10))),
        field(2, PART, content(b"i"), (10, 10)) + field(3, VARINT, 5, (10, 10)),
        b"\x20" + MOST_BITS,
    ),
    read("characters at their borders", *(token(c) for c in CHARACTERS)),
    read("not UTF-8 but in the token", handle(content(b"\xff")) + field(4, PART, b"\xff")),
]

# Refusal 15: each way to be malformed, in the message and in the handle.
MALFORMED = [
    refused("a group", "23 24", "0a 01 74 2b 2c", "23 20 01 24", "2b 2b 2c 2c", "0b 0c", "13 14", "1b 1c", "23", "24", "0c", "23 2c"),
    refused("a group in the handle", "12 02 13 14", "12 02 0b 0c", "12 05 0a 01 68 13 14", "12 01 13", "12 01 14", "12 01 13 14", "12 02 13 14 12 00"),
    refused("wire types 6 and 7", "26", "27", "26 00", "0e 00", "1f 00", "06", "12 01 0e", "12 01 17"),
    refused("type of the token", "08 01", field(1, FIXED64, bytes(8)), field(1, FIXED32, bytes(4)), token(b"t") + field(1, VARINT, 0)),
    refused("type of the handle", "10 01", field(2, FIXED64, bytes(8)), field(2, FIXED32, bytes(4))),
    refused("type of the generation", "1a 00", "1a 01 05", field(3, FIXED64, bytes(8)), field(3, FIXED32, bytes(4))),
    refused("type of the handle's bytes", handle(b"\x08\x01"), handle(field(1, FIXED64, bytes(8))), handle(field(1, FIXED32, bytes(4)))),
    refused("number 0", "00 00", "02 00", field(0, FIXED64, bytes(8)), field(0, FIXED32, bytes(4)), "00", "12 02 00 00", "12 02 02 00"),
    refused("number 2^29", *(field(MOST + n, VARINT, 0) for n in (1, 2, 3, 4)), field(2**61 - 1, PART, b""), handle(field(MOST + 1, VARINT, 0))),
    refused("number past 32 bits", field(2**32 + 1, PART, b"t"), handle(field(2**32 + 1, PART, b"h"))),
    refused("64 bits", *(k + OVER for k in (b"\x18", b"\x20", b"\x0a", b"\x22", b"")), b"\x18" + MOST_BITS[:-1] + b"\x02", b"\x98" + OVER[1:] + b"\x05"),
    refused("64 bits in the handle", *(handle(k + OVER) for k in (b"\x10", b"\x0a", b"\x12", b"")), handle(b"\x8a" + OVER[1:] + b"\x00")),
    refused("eleven bytes", *(k + ELEVEN for k in (b"\x18", b"\x20", b"\x0a", b"\x22", b"")), b"\x98" + ELEVEN[1:] + b"\x05"),
    refused("eleven bytes in the handle", *(handle(k + ELEVEN) for k in (b"\x10", b"\x0a", b"\x12", b"")), handle(b"\x8a" + ELEVEN[1:] + b"\x00")),
    refused("not UTF-8", *(token(t) for t in NOT_TEXT)),
    refused("not UTF-8, one of two tokens", token(b"\x80") + token(b"t"), token(b"t") + token(b"\xed\xa0\x80"), token(b"\xff") + token(b"")),
    refused("cut off", "0a", "0a 01", "0a 02 74", "8a", "0a 81", "12", "12 01", "12 03 0a 01", "18", "18 80", "20", "22 01", "22 80"),
    refused("cut off, eight and four bytes", key(4, FIXED64), FIXED[0][:-1], key(4, FIXED32), FIXED[1][:-1]),
    refused("cut off in the handle", "12 01 0a", "12 02 0a 01", "12 02 0a 01 68", "12 01 10", "12 02 10 80", "12 02 10 80 00", "12 03 0a 02 68 68"),
    refused("cut off in the handle, eight and four bytes", handle(FIXED[0][:-1]) + b"\x00", handle(FIXED[1][:-1]) + b"\x00"),
    refused("longest lengths", *(k + MOST_BITS for k in (b"\x0a", b"\x12", b"\x22")), "0a ff ff ff ff 0f", "0a ff ff ff ff 07", "22" + "ff" * 8 + "7f"),
    case("malformed, any code", "BR 0 23, BR 1 23, BR malformed detail, BR 16 23, BR 17 23, BR 4294967295 23, BR, VE 1, FA 1 0 23, FA 1 malformed detail"),
    case("malformed, nothing changes", "AP abcd, AP ef, BR malformed, FL, BR malformed, FL, RS 4, BR unavailable, VE 1, FA 1 malformed, HS 4, NX, NX, NX"),
    case("malformed between a send and its failure", "AP abcd, BR malformed, WB 99 4, SF, BR malformed, SF"),
    case("malformed, finished", "FI, RS 0 finalised, BR malformed, BR"),
]

# The order 7, 6, 13, 15, 4, and the bounds that 4 has for what is read.
DETAILED = [
    case("7 before 15", "RS -1, BR malformed, FA 1 malformed, FA 0 malformed, BR token 513"),
    case("6 before 15, break", "BR, BR malformed, VE 1, BR malformed, HS, BR malformed, NX, BR malformed"),
    case("6 before 15, failed attempt", "FA 1 malformed, FA 0 malformed, CL, FA 1 malformed, BR malformed, BR token 513, BR"),
    case("6 before 4, failed attempt", "FA 1 token 513, BR, FA 1 handle 1025, VE 1, FA 1 handle 1025, FA 1 longest"),
    case("13 before 15", "BR, VE 1, FA 0 malformed, FA 5 malformed, FA 0 token 513, FA 1 malformed"),
    case("15 before 4", "BR malformed and token 513, BR malformed and handle 1025, BR token 513, BR handle 1025, BR longest"),
    case("15 before 4, failed attempt", "BR, VE 1, FA 1 malformed and token 513, FA 1 malformed and handle 1025, FA 1 token 513, FA 1 handle 1025"),
    case("15 and 4 with another code", f"BR malformed detail, BR 14 {value(b't' * 513).hex()}, BR 14 {value(None, b'h' * 1025).hex()}, BR detail"),
    case("token of 257, 256 characters of two bytes", f"{aborted(token('é'.encode() * 257))}, {aborted(token('é'.encode() * 256))}"),
    case("token 513, then another", f"{aborted(token(b't'), token(b'u' * 513))}, {aborted(token(b't' * 513), token(b'u'))}"),
    case("handle 1025, then no bytes", aborted(handle(content(b"h" * 1025)), handle())),
    case("handle 1, then 1025", aborted(handle(content(b"h")), handle(content(b"i" * 1025)))),
    case("handle 1025, then 1", aborted(handle(content(b"h" * 1025)), handle(content(b"i")))),
    case("handle 1024 beside unknown fields", aborted(handle(field(2, PART, bytes(900)), content(b"h" * 1024), field(3, PART, bytes(900))))),
    case("detail of 4000 bytes", aborted(field(4, PART, bytes(3990)), value(b"t", b"", 7))),
]

# A send reported failed. A bare flush behind it on the same connection fails too in the crate, so it is reported.
FAILURES = [
    case("failed after a chunk", "AP a, AP bcde, SF, SF, FL"),
    case("failed after a flush", "FL, SF, SF, RS 0"),
    case("failed after a refusal", "AP abcd, VE 1, AP, SF, SF"),
    case("failed after a bare flush", "AP abcd, AP efgh, RS 2, SF, RS 2, SF, SF, AP ijkl"),
    case("failed after a marked chunk", "AP abcd, SF, AP efgh, RS, SF, AP i"),
    case("failed in replay", "AP abcd, AP efgh, BR, VE 1, HS 0, NX, SF, NX, SF, AP ijkl, FL"),
    case("failed bare flush of a replay", "AP abcd, BR, VE 1, HS 0, NX, NX, SF, AP efgh"),
    case("failed after done", "AP abcd, BR, VE 1, HS 0, NX, NX, NX, SF"),
    case("failed after append", "AP abcd, AP e, SF, BR"),
]



def writes(offset, data=None, flags=0, summed=False):
    """that request, with a buffer just long enough, one byte short, and with one byte of data less"""
    n, lent = length(offset, data, flags, summed), data or 0
    return f"WB {n} {lent}, WB {n - 1} {lent}" + (f", WB {n} {lent - 1}" if lent else "")


def written_flush(offset):
    return case(f"written, offset {offset}", f"FL, {writes(offset, None, 2)}", response=Response(offset))


def written_chunk(offset, n):
    """an append of C bytes"""
    text = "".join(chr(97 + i % 26) for i in range(n))
    calls = f"AP {text}, {writes(offset, n, 2)}"
    return case(f"written, {n} bytes at {offset}", calls, chunk=n, capacity=0, store=4 * n - 1, out=n, response=Response(offset))


# Refusal 14, at each border of a number's length and of a part's. With 120 bytes of data the part that holds them and their sum has 127, with 121 it has 128.
WRITTEN = [
    *(written_flush(p) for p in (0, 1, 127, 128, 2**14 - 1, 2**14, 2**14 + 1, 2**21 - 1, 2**21, HIGH)),
    *(written_chunk(0, n) for n in (1, 2, 120, 121, 127, 128, 8192)),
    *(written_chunk(p, 1) for p in (1, 127, 128, 2**14 - 1, 2**14, HIGH - 1)),
    case("written, no bytes", f"BR, VE 1, HS -1, NX, {writes(0, 0)}, NX, WB 99 0", payload=b"", response=Response(-1)),
    case("written, one byte left", f"RS 3, BR, VE 1, HS, NX, {writes(3, 1)}, NX, {writes(4, None, 2)}, NX, WB 99 4", payload=b"abcd"),
    case("written, finalise with a sum", f"FI, {writes(0, None, 2, True)}"),
    case("written, finalise with a sum at 5", f"FI, {writes(5, None, 2, True)}", response=Response(5), sum=2**32 - 1),
    case("written, finalise without a sum", f"FI, {writes(5, None, 2)}", response=Response(5)),
    case("written, bare flush by a response", f"AP abcd, RS 0, {writes(4, None, 2)}"),
    case("written, replayed flush", f"FL, BR, VE 1, WB 9 0, HS, WB 9 0, NX, {writes(0, None, 2)}, NX, WB 9 0"),
    case("written, none handed out", "WB 99 4, AP ab, WB 99 4, FL, WB 99 4, AP, WB 99 4, FL, WB 99 4, RS 0, WB 99 4, CL, WB 99 4"),
    case("written behind a refusal", "AP abcd, VE 1, WB 99 4, RS handle 1025, WB 99 4, AP, WB 99 4"),
    case("written behind the end", "FL, RS -1, WB 99 4, FL, WB 99 4"),
    case("written before a failure", "AP abcd, WB 99 4, VE 1, WB 0 0, SF, WB 99 4, SF, WB 99 4"),
    case("written, bare flush before its failure", "AP abcd, RS 0, WB 99 4, SF, WB 99 4, RS 0, WB 99 4, SF"),
    case("written in a replay before its failure", "AP abcd, BR, VE 1, HS 0, NX, WB 99 4, SF, WB 99 4, NX"),
    case("written between a break and its verdict", "FL, BR, WB 9 0, VE 1, WB 9 0"),
    case("written, all lent that may be", "AP abcd, WB 65535 65535, WB 16384 4, WB 0 65535, WB 65535 0", out=65535),
    case("written, no session", "WB 99 4", chunk=0),
    ("written before the opening", Script([Write(), OPENING, Write(), Plain(b"FL"), Write()])),
]

# How two chunks are met: by a response, by one while closing, by a handshake.
MET = {"response": "AP abcd, AP efgh, RS", "response in closing": "AP abcd, AP efgh, CL, RS", "handshake": "AP abcd, AP efgh, BR, VE 1, HS"}

# How much was released: of a payload, of two chunks, and by what ends the session. Bytes held are not stored, and a refused call releases nothing.
RELEASED = [
    *(opens(f"released, payload 4, P {p}", payload=b"abcd", response=Response(p)) for p in (LOW, -1, 0, 1, 3, 4, 5, HIGH)),
    opens("released, payload 4, Write form, P 3", payload=b"abcd", response=Response(3), last=3, append=False),
    opens("released, no payload, P 3", response=Response(3)),
    case("released, payload in parts", "RS 3, BR, VE 1, HS 4, NX", payload=b"abcd", response=Response(2)),
    *(case(f"released, {how} at {n}", f"{calls} {n}") for how, calls in MET.items() for n in (0, 3, 4, 5, 8)),
    *(case(f"released, {how} without size", calls) for how, calls in MET.items()),
    *(case(f"released, {how} at {n}, ends", f"{calls} {n}") for how, calls in MET.items() for n in ("-1", "3 finalised", "8 finalised")),
    case("released, sizes one after the other", "AP abcd, AP efgh, RS 0, RS 1, RS 3, RS 4, RS 4, RS 6, RS 8, RS 8"),
    case("released below 0", "AP abcd, RS -2, RS -1, BR, VE 1, HS -1, NX, NX, NX, RS 0, RS 1", response=Response(-2)),
    case("released with waiters", "AP abcd, FL, AP ef, FL, FL, RS 3, RS 4, BR, VE 1, HS 6, NX"),
    case("released with a finalise", "AP abcd, FI, RS 3, RS 4 finalised, BR"),
    case("released with a finalise, size short", "AP abcd, FI, RS 3 finalised"),
    case("released by a finalised handshake", "AP abcd, FI, BR, VE 1, HS 4 finalised, NX"),
    case("released beside bytes held", "AP abcd, AP ef, RS 3, RS 4, FL, RS 5, AP g, BR, VE 1, HS 6, NX"),
    case("released by none that is refused", "AP abcd, HS 4, RS handle 1025, BR, RS 4, HS 4, VE 1, RS 4, HS handle 1025, HS 4, HS 4, RS 4, NX"),
    case("released where sends fail", "AP abcd, SF, AP efgh, RS 3, SF, RS 8, BR, VE 1, HS 8, NX"),
    case("released, the failed send of an acknowledgement", "AP abcd, AP efgh, RS 3, SF, BR, VE 1, HS 5, NX, SF, RS 8"),
]

CASES = OPENINGS + LENGTHS + PHASES + ENDED + CLOSED + ROOM + SIZES + FINALS + PAYLOADS + RINGS + ATTEMPTS + REDIRECTS + FAILURES + WRITTEN
CASES += READINGS + MALFORMED + DETAILED + RELEASED

# Sizes above the write offset, and at it. Behind the end every call, two of them with such a size.
BEHIND = "FL, AP a, AP, FI, CL, BR, VE 1, FA 1 error, HS 9, NX, SF, RS 9, RS 0, WB 99 4"
# two redirects and an attempt more
COUNTED = "BR redirect, VE 1, FA 1 redirect, HS, NX, NX, NX, BR, VE 1"
PAST = [
    case("past, by one", f"AP abcd, RS 4, RS 5, {BEHIND}"),
    case("past, nothing pushed", "RS 0, RS 1, FL"),
    case("past, P below the write offset", "AP abcd, AP efgh, RS 3, RS 9, AP"),
    case("past, at P and at chunks' ends before", "AP abcd, AP efgh, RS 0, RS 4, RS 8, RS 9"),
    case("past, a marked flush", "AP abcd, AP efgh, RS 9, SF"),
    case("past, waiters", "FL, AP abcd, FL, FI, RS 5, FL"),
    case("past, one waiter completed before", "FL, AP abcd, FL, RS 3, RS 5"),
    case("past, 16 waiters", "FL, " * 16 + "RS 1"),
    case("past, at the end of what is held", "AP abcd, AP ef, RS 6, AP, FL"),
    case("past, held bytes cut", "AP abcd, AP ef, FL, RS 6, AP gh, RS 7"),
    case("past, no size before", "AP abcd, RS, RS 5"),
    case("past, by two", "AP abcd, RS 6"),
    case("past, highest", f"AP abcd, RS {HIGH}, FL, AP efgh, RS {HIGH - 1}"),
    case("past, 2^63 - 2", f"RS {HIGH - 1}, RS {HIGH}, FL", response=Response(HIGH - 1)),
    case("past, 2^63 - 2, one byte held", f"AP g, RS {HIGH}, FL", response=Response(HIGH - 1)),
    case("past, P lowest", f"RS {LOW}, RS 1", response=Response(LOW)),
    case("past, P negative", "AP ab, RS -1, RS 0, RS 1, AP c", response=Response(-2)),
    case("past, empty payload, P -1", "RS -1, RS 1", payload=b"", response=Response(-1)),
    case("past, a resource", "AP abcd, RS 5 resource, FL"),
    case("past, a handle", "AP abcd, RS 5 handle 3, FL"),
    case("past, a resource and a handle", "AP abcd, RS 5 resource handle 2, FL", handle=b"o"),
    case("past, finalised", "AP abcd, RS 5 finalised, BR"),
    case("past, finalised, finalise sent", "AP abcd, FI, RS 5 finalised, BR"),
    case("past, behind a finalised one", "FI, RS 0 finalised, RS 1 finalised, BR"),
    case("past, regressed first", "AP abcd, RS 4, RS 3, RS 9"),
    case("past, closing", "AP abcd, FL, CL, RS 4, RS 5, BR, RS 5"),
    case("past, closing with waiters", "FL, AP a, FL, FL, AP b, CL, RS 2, BR"),
    case("past, closing, finalised", "AP abcd, CL, RS 5 finalised"),
    case("past, handshake", f"AP abcd, BR, VE 1, HS 5, {BEHIND}"),
    case("past, handshake by one", "AP abcd, BR, VE 1, HS 4, NX, BR, VE 1, HS 5, NX"),
    case("past, handshake, waiters and held bytes", "FL, AP abcd, FL, AP ef, BR, VE 1, AP g, HS 6, NX"),
    case("past, handshake, counters zeroed", f"AP abcd, {COUNTED}, HS 5 resource"),
    case("past, handshake, counters kept", f"AP abcd, {COUNTED}, HS 5 resource", last=5),
    case("past, handshake, last size below", f"AP abcd, {COUNTED}, HS 5", last=4),
    case("past, handshake finalised", "FI, BR, VE 1, HS 1 finalised, BR"),
    case("past, handshake, handle", "BR, VE 1, HS 1 handle 3"),
    case("past, handshake highest", f"AP abcd, BR, VE 1, HS {HIGH}"),
    case("past, response keeps counters", "AP abcd, BR, VE 1, HS, NX, NX, NX, BR, VE 1, HS, NX, NX, NX, RS 5"),
    case("past, opening", "RS 5, RS 6", payload=b"abc", response=Response(5)),
    case("past, opening, then an append", "AP d, FL, RS 6, RS 7", payload=b"abc", response=Response(5)),
    case("past, opening by a resource", "RS 9, RS 10", response=Response(9, 2)),
    case("past, payload", "RS 3, RS 4", payload=b"abc"),
    case("past, payload trimmed", "RS 4, FL", payload=b"abc", response=Response(2)),
    case("past, 4 first", "RS 1 handle 1025, RS 1 resource handle 1025, BR, VE 1, HS 1 handle 1025, HS 1"),
    case("past, 6 first", "HS 1, BR, RS 1, HS 1, VE 1, RS 1, HS 0, HS 1, RS 1, NX, HS 1, CL, HS 1, RS 1"),
    case("past, 7 first", "RS -1, RS 1, HS 1, RS 1 handle 1025"),
    case("past, behind a failed send", "AP abcd, SF, RS 5, SF"),
    case("past, before its failure", "AP abcd, RS 5, SF"),
    case("past, behind a failed bare flush", "AP abcd, AP efgh, RS 2, SF, RS 9, SF"),
    case("past, behind a replay cut short", "AP abcd, AP efgh, BR, VE 1, HS 0, NX, SF, RS 9"),
]
