"""The calls of a session as records of docs/TRACE.md, and in words."""

import dataclasses
import struct

from . import details

BUCKET = b"projects/_/buckets/b"


def opt(value, encode):
    return b"\0" if value is None else b"\1" + encode(value)


def string(value):
    return struct.pack("<H", len(value)) + value


def i64(value):
    return struct.pack("<q", value)


def u32(value):
    return struct.pack("<I", value)


def arguments(value):
    """the fields that are not at their defaults"""
    return " ".join(f"{f.name}={shown(getattr(value, f.name))}" for f in dataclasses.fields(value) if getattr(value, f.name) != f.default)


def shown(value):
    return f"({arguments(value)})" if dataclasses.is_dataclass(value) else repr(value)


class Record:
    """What all calls share: a mark, and the bytes behind it."""

    mark = b""

    def fields(self):
        return b""

    def record(self):
        return self.mark + self.fields()

    def words(self):
        return f"{self.name} {arguments(self)}".strip()


@dataclasses.dataclass(frozen=True)
class Response(Record):
    size: int | None = None
    # with a generation the size comes in an object resource
    generation: int | None = None
    finalised: bool = False
    handle: bytes | None = None

    mark, name = b"RS", "response"

    def fields(self):
        handle = opt(self.handle, string)
        if self.size is None:
            return b"\0" + handle
        if self.generation is None:
            return b"\1" + i64(self.size) + handle
        return (b"\3" if self.finalised else b"\2") + i64(self.size) + i64(self.generation) + handle


class Handshake(Response):
    mark, name = b"HS", "handshake"


@dataclasses.dataclass(frozen=True)
class Break(Record):
    # 0 end of stream, 1 status, 2 another error
    kind: int = 0
    code: int = 0
    # the value of a redirect detail as received
    detail: bytes | None = None

    mark, name = b"BR", "break"

    def fields(self):
        if self.kind != 1:
            return bytes([self.kind])
        return b"\1" + u32(self.code) + opt(self.detail, string)

    def words(self):
        how = {0: "end of stream", 1: f"status {self.code}", 2: "another error"}[self.kind]
        return f"{self.name}: {how}" + ("" if self.detail is None else f", detail {self.detail.hex() or 'of no bytes'} ({self.reading()})")

    def redirect(self):
        """what the detail reads as; None where there is none, or it is malformed"""
        return None if self.detail is None else details.read_or_none(self.detail)

    def reading(self):
        redirect = self.redirect()
        return f"malformed: {details.fault(self.detail)}" if redirect is None else redirect.shown()


@dataclasses.dataclass(frozen=True)
class FailedAttempt(Record):
    verdict: int = 1
    error: Break = Break()

    mark, name = b"FA", "failed attempt"

    def fields(self):
        return bytes([self.verdict]) + self.error.fields()

    def words(self):
        return f"{self.name}, verdict {self.verdict}, {self.error.words()}"


@dataclasses.dataclass(frozen=True)
class Verdict(Record):
    verdict: int = 1

    mark, name = b"VE", "verdict"

    def fields(self):
        return bytes([self.verdict])

    def words(self):
        return f"{self.name} {self.verdict}"


@dataclasses.dataclass(frozen=True)
class Append(Record):
    data: bytes = b""

    mark, name = b"AP", "append"

    def fields(self):
        return string(self.data)


@dataclasses.dataclass(frozen=True)
class Plain(Record):
    mark: bytes = b""

    NAMES = {b"FL": "flush", b"FI": "finalise", b"CL": "close", b"NX": "next request", b"SF": "send failed"}

    def words(self):
        return self.NAMES[self.mark]


FLUSH, FINALISE, CLOSE, NEXT, SEND_FAILED = (Plain(mark) for mark in (b"FL", b"FI", b"CL", b"NX", b"SF"))


@dataclasses.dataclass(frozen=True)
class Write(Record):
    """No call of a session: writes as bytes the request that the last accepted one handed out."""

    # the lengths of what is lent
    buffer: int = 16384
    data: int = 8192

    mark, name = b"WB", "write"

    def fields(self):
        return struct.pack("<HH", self.buffer, self.data)


@dataclasses.dataclass(frozen=True)
class Opening(Record):
    chunk: int = 4
    capacity: int | None = 9
    last: int = 0
    append: bool = True
    bucket: bytes = BUCKET
    object: bytes = b"o"
    generation: int = 0
    token: bytes | None = None
    handle: bytes | None = None
    if_match: int | None = None
    if_not_match: int | None = None
    payload: bytes | None = None
    response: Response = Response()
    sum: int | None = None
    store: int = 32768
    slots: int = 64
    out: int = 8192

    mark, name = b"OP", "open"

    def fields(self):
        return b"".join(
            [
                struct.pack("<HHHI", self.store, self.slots, self.out, self.chunk),
                opt(self.capacity, u32),
                i64(self.last),
                bytes([self.append]),
                string(self.bucket),
                string(self.object),
                i64(self.generation),
                opt(self.token, string),
                opt(self.handle, string),
                opt(self.if_match, i64),
                opt(self.if_not_match, i64),
                opt(self.payload, string),
                self.response.fields(),
                opt(self.sum, u32),
            ]
        )


class Script:
    """An opening and calls behind it, with their bytes."""

    def __init__(self, calls):
        self.calls = []
        self.data = b""
        self.extend(calls)

    def extend(self, calls):
        self.calls += calls
        self.data += b"".join([call.record() for call in calls])
