"""What a script reaches of document 01's rules, read from its calls and the oracle's lines. FEATURES is the whole list of what the crate judges; BEYOND is what
the cases of sizes above the write offset reach, by the lines of differential/past.py."""

import itertools
import re

from . import details
from .agree import calls as calls_of
from .calls import Append, Opening
from .messages import needs
from .moves import ABORTED, HIGH, LOW

FIELD = re.compile(rb"(\w+)=(\[.*?\]|\S*)")

OPENING = [
    "OP E1: C 0", "OP E1: C above", "OP E1: capacity above", "OP E2: store", "OP E2: slots", "OP E3: form", "OP E3: length", "OP E4: object",
    "OP E4: token", "OP E4: handle", "OP E4: response's handle", "OP E4: payload", "OP E5",
]  # fmt: skip
REFUSED = {
    "AP": [6, 7, 8, 9, 10, 11, 12],
    "FL": [6, 7, 8, "9: slots", "9: waiters", 10, 11, 12],
    "FI": [6, 7, 8, "9: slots", "9: waiters", 10, 11, 12],
    "CL": [6, 7, 8],
    "RS": [4, 6, 7],
    "HS": [4, 6, 7],
    "BR": [4, 6, 7, 15],
    "VE": [6, 7, 13],
    "FA": [4, 6, 7, 13, 15],
    "NX": [6, 7, 11],
    "SF": [6, 7],
}
ACCEPTED = {
    "Live": ["AP", "FL", "FI", "CL", "RS", "BR", "SF"],
    "Verdict": ["AP", "VE"],
    "Connecting": ["AP", "FA", "HS"],
    "Replay": ["AP", "NX", "SF"],
    "Closing": ["RS", "BR"],
}
ENDS = [
    "RS regressed", "HS regressed", "RS already", "HS already", "BR finished", "BR stream", "VE permanent", "VE exhausted", "VE givenup",
    "FA permanent", "FA exhausted", "FA givenup", "RS regressed in Closing", "RS already in Closing", "BR finished in Closing with waiters",
    "BR finished after a status",
]  # fmt: skip
OTHERS = [
    "own flush on a chunk of AP", "own flush on a chunk of FL", "own flush bare by RS", "own flush bare by NX", "no own flush while marked",
    "no own flush while waiting", "mark cleared by RS without size", "mark cleared by RS with size", "mark cleared by BR", "size at P",
    "size at the write offset", "P at 2^63-1", "P at -2^63",
    "waiters completed by RS: 1", "waiters completed by RS: several", "waiters completed by HS: 1", "waiters completed by HS: several",
    "front waiter blocks", "finalise completed by RS", "finalise completed by HS", "finish with sum", "finish without sum", "16 waiters",
    "redirect 1", "redirect 2", "redirect 3", "redirect 4", "redirect turns verdict 2", "redirect turns verdict 3", "fourth redirect, verdict 2",
    "detail without Aborted", "Aborted without detail", "token replaced by none", "redirect gives generation", "redirect gives handle",
    "redirect keeps handle", "attempt 1", "attempt 2", "attempt 3", "counters zeroed by BR", "counters zeroed by HS",
    "last size kept by HS without size", "FA by end of stream", "FA by error", "FA by status", "FA by redirect", "replayed chunk", "replayed flush",
    "replayed finish", "replayed bare flush", "replay of several chunks", "failed AP", "failed cut by FL", "failed FL", "failed FI",
    "failed bare flush by RS", "failed NX chunk", "failed NX waiter", "failed NX bare flush", "failed send behind refused",
    "failed send behind an empty append", "failed twice on a connection", "RS without status", "RS resource", "RS finalised", "RS handle",
    "HS without status", "HS resource", "HS finalised", "HS handle", "empty append after the end", "append of nothing", "append takes part",
    "append cuts", "append holds", "close with held bytes", "stored past capacity", "one slot", "form Write", "form Append",
    "Write with generation 0", "Write loses handle", "opening without size", "opening resource", "opening sum taken", "opening sum unknown",
    "payload, P negative", "payload, P zero", "payload, P inside", "payload, P at its end", "payload, P above its end", "empty payload kept",
    "empty payload gone", "last size above P", "last size below P", "capacity raised", "metageneration conditions",
    "WB chunk", "WB flush", "WB finish with sum", "WB finish without sum", "WB replayed", "WB exact", "WB longer", "WB E14: buffer one short",
    "WB E14: data one short", "WB - behind OP", "WB - behind another call", "WB - behind SF", "WB - behind an empty append", "WB - behind the end",
    "WB behind refused", "failed send behind WB",
]  # fmt: skip
FAULTS = ["group", "wire type 6 or 7", "wrong type", "number", "varint", "cut off"]
DETAILS = [
    *(f"E15: {fault}{where}" for fault in FAULTS for where in ("", " in the handle")), "E15: not UTF-8", "E15: not UTF-8 before the last token",
    "E15: token too long too", "E15 without Aborted", "E4: token", "E4: handle", "E4: handle's bytes kept", "E4 without Aborted",
    *(f"detail: {trait}" for trait in details.TRAITS),
]  # fmt: skip
SHARES = ["nothing", "part of a chunk", "a chunk", "chunks and part of one", "several chunks"]
RELEASES = [
    *(f"OP releases {share}" for share in SHARES[:3]), *(f"{mark} releases {share}" for mark in ("RS", "HS") for share in SHARES),
    *(f"{mark} releases nothing {why}" for mark in ("RS", "HS") for why in ("without size", "at a negative size", "and ends")),
    *(f"{mark} releases and {what}" for mark in ("RS", "HS") for what in ("completes", "ends")), "RS releases and sends", "RS releases in Closing",
    "RS releases and ends in Closing",
]  # fmt: skip
FEATURES = (
    OPENING
    + [f"{mark} E{n}" for mark, numbers in REFUSED.items() for n in numbers]
    + [f"{mark} in {phase}" for phase, marks in ACCEPTED.items() for mark in marks]
    + [f"end: {end}" for end in ENDS]
    + OTHERS
    + DETAILS
    + RELEASES
)
BESIDE = ["", " with waiters", " with bytes stored", " with bytes held", ", finalised", ", spec changes"]
BEYOND = [
    *(f"{mark} beyond{what}" for mark in ("RS", "HS") for what in BESIDE),
    "RS beyond in Closing", "RS beyond clears the mark", "HS beyond zeroes counters", "HS beyond keeps counters",
]  # fmt: skip


class View:
    """A `st` line's fields."""

    def __init__(self, line):
        f = {k.decode(): v.decode("latin1") for k, v in FIELD.findall(line)}
        self.phase, self.cause = f["phase"], f.get("cause")
        self.p, self.offset, self.last = int(f["P"]), int(f["woff"]), int(f["last"])
        self.stored, self.capacity = int(f["stored"]), int(f["cap"])
        self.held = len(f["held"]) // 2
        self.mark, self.fin = f["mark"] == "1", f["fin"] == "1"
        self.attempts, self.redirects = int(f["att"]), int(f["red"])
        self.run = f["run"]
        self.chunks = f["chunks"][1:-1].split()
        self.waiters = f["waiters"][1:-1].split()
        self.spec = f["spec"]
        self.gen, self.token, self.handle = (re.search(rf"{k}=(none|'.*?'|-?\d+)", line.decode("latin1"))[1] for k in ("gen", "token", "handle"))


def reached(script, output):
    """the set of features of a script"""
    lines = calls_of(output)
    # a record before the opening prints nothing
    calls = script.calls[[isinstance(call, Opening) for call in script.calls].index(True) :]
    opening = calls[0]
    answer = lines[0][0].decode()
    if answer != "OP ok":
        return unopened(opening, answer)
    before = View(lines[0][-1])
    found = opened(opening, before, released(lines[0]))
    sent = between = None
    failed = False
    last, request = "OP", None
    for call, text in zip(calls[1:], lines[1:]):
        mark, answer = text[0].decode("latin1").split(" ", 1)
        if mark == "WB":
            found |= written(call, answer, last, request)
            if between == "failed send behind refused" and request:
                found.add("WB behind refused")
            between = "failed send behind WB"
            continue
        after = View(text[-1])
        if answer.startswith("E"):
            found.add(f"{mark} {answer}")
            found.add(f"{mark} {answer}: {'slots' if before.held else 'waiters'}")
            if mark in ("BR", "FA") and answer in REFUSED_DETAILS:
                found |= REFUSED_DETAILS[answer](call if mark == "BR" else call.error)
            between = "failed send behind refused"
            continue
        if mark == "AP" and not call.data:
            found |= {"append of nothing"} | ({"empty append after the end"} if before.phase == "Ended" else set())
            last, request = "an empty append", None
            between = "failed send behind an empty append"
            continue
        found.add(f"{mark} in {before.phase}")
        if mark == "SF":
            found |= {sent} | {f for f in [between, "failed twice on a connection" if failed else None] if f}
            failed = True
        if mark == "HS":
            failed = False
        found |= accepted(mark, call, answer, before, after)
        if mark in ("RS", "HS"):
            found |= releases(mark, call, answer, before, after, released(text))
        sent, between = sender(mark, answer, before), None
        last, request = "the end" if answer == "end" else mark, next((line[5:] for line in text if line.startswith(b"  rq ")), None)
        before = after
    return found & set(FEATURES + BEYOND)


def unopened(o, answer):
    over = {"object": len(o.object) > 1024, "token": len(o.token or b"") > 512, "handle": o.append and len(o.handle or b"") > 1024}
    over |= {"response's handle": len(o.response.handle or b"") > 1024, "payload": len(o.payload or b"") > o.chunk}
    why = {
        "OP E1": "C 0" if o.chunk == 0 else "C above" if o.chunk > 2097152 else "capacity above",
        "OP E2": "slots" if o.slots == 0 else "store",
        "OP E3": "length" if len(o.bucket) > 256 else "form",
        "OP E4": next((name for name, holds in over.items() if holds), None),
    }
    return {f"{answer}: {why[answer]}" if answer in why else answer}


def opened(o, v, n):
    """`n`: the bytes that it released"""
    p, payload, kept = v.p, o.payload, bool(v.chunks)
    answer = o.response
    rules = {
        "form Write": not o.append,
        "form Append": o.append,
        "Write with generation 0": not o.append and o.generation != 0 and answer.generation is None,
        "Write loses handle": not o.append and o.handle is not None and answer.handle is None,
        "opening without size": answer.size is None,
        "opening resource": answer.generation is not None,
        "opening sum taken": payload is None and p != 0 and o.sum is not None,
        "opening sum unknown": v.run == "none",
        "payload, P negative": bool(payload) and p < 0,
        "payload, P zero": bool(payload) and p == 0,
        "payload, P inside": bool(payload) and 0 < p < len(payload),
        "payload, P at its end": bool(payload) and p == len(payload),
        "payload, P above its end": bool(payload) and p > len(payload),
        f"OP releases {share(n, [len(payload or b'')])}": bool(payload),
        "empty payload kept": payload == b"" and kept,
        "empty payload gone": payload == b"" and not kept,
        "last size above P": v.last > p,
        "last size below P": v.last < p,
        "capacity raised": o.capacity is not None and v.capacity > o.capacity,
        "metageneration conditions": o.if_match is not None and o.if_not_match is not None,
        "one slot": o.slots == 1,
        "P at 2^63-1": p == HIGH,
        "P at -2^63": p == LOW,
    }
    return {name for name, holds in rules.items() if holds}


def sender(mark, answer, before):
    """what a send reported failed behind this call would be"""
    if mark == "AP" and not answer.endswith("-"):
        return "failed AP"
    if mark in ("FL", "FI"):
        return f"failed {mark}" if " w" in answer else "failed cut by FL"
    if mark == "RS" and answer.endswith(":fs"):
        return "failed bare flush by RS"
    if mark == "NX" and answer != "done":
        return {"replayed chunk": "failed NX chunk", "replayed bare flush": "failed NX bare flush"}.get(replayed(answer, before), "failed NX waiter")
    return None


def written(w, answer, last, request):
    """`last`: the last accepted call; `request`: what it handed out"""
    if request is None:
        return {f"WB - behind {last}", "WB - behind another call"} if last != "OP" else {"WB - behind OP"}
    message, content = needs(request)
    refused, data, finish, summed = answer == "E14", b" data=none " not in request, b" w=1 " in request, not request.endswith(b" sum=none")
    rules = {
        "WB E14: buffer one short": refused and w.buffer == message - 1 and w.data >= content,
        "WB E14: data one short": refused and w.buffer >= message and w.data == content - 1,
        "WB exact": not refused and w.buffer == message,
        "WB longer": not refused and w.buffer > message,
        "WB chunk": not refused and data,
        "WB flush": not refused and not data and not finish,
        "WB finish with sum": not refused and finish and summed,
        "WB finish without sum": not refused and finish and not summed,
        "WB replayed": not refused and last == "NX",
    }
    return {name for name, holds in rules.items() if holds}


def accepted(mark, call, answer, before, after):
    found = set()
    if answer == "end":
        found.add(f"end: {mark} {after.cause}")
        if before.phase == "Closing":
            found.add(f"end: {mark} {after.cause} in Closing" + (" with waiters" if after.cause == "finished" and before.waiters else ""))
        if after.cause == "finished" and call.kind == 1:
            found.add("end: BR finished after a status")
    if mark in ("RS", "HS"):
        found |= responded(mark, call, answer, before, after)
        found |= passed(mark, call, before, after) if after.cause == "beyond" else set()
    if mark in ("BR", "FA"):
        found |= broken(mark, call if mark == "BR" else call.error, before, after)
    if mark in ("VE", "FA"):
        found |= judged(mark, call, answer, before, after)
    rules = {
        "own flush on a chunk of AP": mark == "AP" and answer.endswith(":fs"),
        "own flush on a chunk of FL": mark == "FL" and ":fs" in answer and "w" not in answer,
        "own flush bare by RS": mark == "RS" and answer.endswith(":fs"),
        "own flush bare by NX": mark == "NX" and after.mark and not before.mark,
        "no own flush while marked": mark == "AP" and answer.endswith(":-") and before.mark,
        "no own flush while waiting": mark == "AP" and answer.endswith(":-") and bool(before.waiters) and after.stored >= after.capacity,
        "mark cleared by BR": mark == "BR" and before.mark and not after.mark,
        "finish with sum": mark == "FI" and " w" in answer and after.run != "none",
        "finish without sum": mark == "FI" and " w" in answer and after.run == "none",
        "16 waiters": len(after.waiters) == 16,
        "append takes part": isinstance(call, Append) and int(answer.split(" ")[0]) < len(call.data),
        "append cuts": isinstance(call, Append) and not answer.endswith(" -"),
        "append holds": isinstance(call, Append) and answer.endswith(" -"),
        "close with held bytes": mark == "CL" and before.held > 0,
        "stored past capacity": after.stored > after.capacity,
        "replay of several chunks": mark == "HS" and len(after.chunks) > 1,
    }
    found |= {name for name, holds in rules.items() if holds}
    if mark == "NX" and answer != "done":
        found.add(replayed(answer, before))
    return found


def replayed(answer, before):
    if answer.endswith("-"):
        return "replayed chunk"
    if answer.endswith("w"):
        return "replayed finish"
    return "replayed flush" if before.waiters else "replayed bare flush"


def responded(mark, r, answer, before, after):
    gone = len(before.waiters) - len(after.waiters) if answer != "end" else 0
    kind = "without status" if r.size is None else "finalised" if r.finalised else "resource" if r.generation is not None else "size"
    rules = {
        f"{mark} {kind}": True,
        f"{mark} handle": r.handle is not None,
        f"mark cleared by {mark} {'without' if r.size is None else 'with'} size": before.mark and not after.mark,
        "size at P": r.size == before.p,
        "size at the write offset": r.size == before.offset and answer != "end",
        "P at 2^63-1": after.p == HIGH,
        f"waiters completed by {mark}: 1": gone == 1,
        f"waiters completed by {mark}: several": gone > 1,
        "front waiter blocks": gone >= 1 and bool(after.waiters),
        f"finalise completed by {mark}": gone >= 1 and r.finalised,
        "counters zeroed by HS": mark == "HS" and (before.attempts > 0 or before.redirects > 0) and after.attempts == after.redirects == 0,
        "last size kept by HS without size": mark == "HS" and r.size is None,
    }
    return {name for name, holds in rules.items() if holds}


def passed(mark, r, before, after):
    """of a message that ends beyond"""
    counted = before.attempts > 0 or before.redirects > 0
    zeroed = after.attempts == after.redirects == 0
    rules = {
        f"{mark} beyond": True,
        f"{mark} beyond with waiters": bool(before.waiters),
        f"{mark} beyond with bytes stored": before.stored > 0,
        f"{mark} beyond with bytes held": before.held > 0,
        f"{mark} beyond, finalised": r.finalised,
        f"{mark} beyond, spec changes": after.spec != before.spec,
        f"{mark} beyond in Closing": before.phase == "Closing",
        f"{mark} beyond clears the mark": before.mark,
        f"{mark} beyond zeroes counters": counted and zeroed,
        f"{mark} beyond keeps counters": counted and not zeroed,
    }
    return {name for name, holds in rules.items() if holds}


def released(lines):
    """the number in the lines of a call that acknowledges"""
    return next(int(line[5:]) for line in lines if line.startswith(b"  rl "))


def releases(mark, r, answer, before, after, n):
    """of an accepted response or handshake that finds bytes stored; `n`: those that it released"""
    if not before.stored:
        return set()
    ends, closing = answer == "end", before.phase == "Closing"
    rules = {
        f"{mark} releases {share(n, [len(chunk.split(':')[1]) // 2 for chunk in before.chunks])}": True,
        f"{mark} releases nothing without size": n == 0 and r.size is None,
        f"{mark} releases nothing at a negative size": n == 0 and r.size is not None and r.size < 0,
        f"{mark} releases nothing and ends": n == 0 and ends,
        f"{mark} releases and ends": n > 0 and ends,
        f"{mark} releases and completes": n > 0 and not ends and len(after.waiters) < len(before.waiters),
        f"{mark} releases and sends": n > 0 and ":" in answer,
        f"{mark} releases in Closing": n > 0 and closing and not ends,
        f"{mark} releases and ends in Closing": n > 0 and closing and ends,
    }
    return {name for name, holds in rules.items() if holds}


def share(n, lengths):
    """what so many bytes are of the front of chunks of these lengths"""
    ends = list(itertools.accumulate(lengths))
    if n == 0:
        return "nothing"
    if n < ends[0]:
        return "part of a chunk"
    if n not in ends:
        return "chunks and part of one"
    return "a chunk" if n == ends[0] else "several chunks"


def malformed(b):
    """of a break that refusal 15 is given for"""
    why, tokens = details.fault(b.detail), details.tokens(b.detail)
    rules = {
        f"E15: {why}": True,
        "E15: not UTF-8 before the last token": why == "not UTF-8" and tokens[-1].isascii(),
        "E15: token too long too": any(len(t) > 512 for t in tokens),
        "E15 without Aborted": b.code != ABORTED,
    }
    return {name for name, holds in rules.items() if holds}


def too_long(b):
    """of a break that refusal 4 is given for"""
    r = b.redirect()
    long_handle = len(r.handle or b"") > 1024
    rules = {
        "E4: token": len(r.token or b"") > 512,
        "E4: handle": long_handle,
        "E4: handle's bytes kept": long_handle and "handle's bytes kept" in details.traits(b.detail),
        "E4 without Aborted": b.code != ABORTED,
    }
    return {name for name, holds in rules.items() if holds}


REFUSED_DETAILS = {"E15": malformed, "E4": too_long}


def broken(mark, b, before, after):
    detail = b.redirect()
    rules = {
        "detail without Aborted": detail is not None and b.code != ABORTED,
        "Aborted without detail": detail is None and b.kind == 1 and b.code == ABORTED,
        "token replaced by none": detail is not None and detail.token is None and before.token != "none",
        "redirect gives generation": detail is not None and detail.generation is not None and after.gen != before.gen,
        "redirect gives handle": detail is not None and detail.handle is not None and after.handle != before.handle,
        "redirect keeps handle": detail is not None and detail.handle is None and before.handle != "none",
        "counters zeroed by BR": mark == "BR" and after.last > before.last and (before.attempts > 0 or before.redirects > 0),
        f"attempt {after.attempts}": mark == "BR" and after.phase == "Verdict",
        "FA by end of stream": mark == "FA" and b.kind == 0,
        "FA by error": mark == "FA" and b.kind == 2,
        "FA by status": mark == "FA" and b.kind == 1 and detail is None,
        "FA by redirect": mark == "FA" and detail is not None and b.code == ABORTED,
    }
    shown = set() if detail is None else details.traits(b.detail)
    return {name for name, holds in rules.items() if holds} | {f"detail: {trait}" for trait in shown}


def judged(mark, call, answer, before, after):
    if after.redirects == before.redirects:
        return set()
    rules = {
        f"redirect {after.redirects}": True,
        "redirect turns verdict 2": answer == "go" and call.verdict == 2,
        "redirect turns verdict 3": answer == "go" and call.verdict == 3,
        "fourth redirect, verdict 2": after.redirects == 4 and call.verdict == 2,
    }
    return {name for name, holds in rules.items() if holds}
