"""Cuts a script on which two programs differ down to a short one on which they still do."""

import dataclasses
import re

from .agree import agree, first_difference
from .calls import Append, Break, FailedAttempt, Script

FIELD = re.compile(rb"\w+=(?:\[.*?\]|\S*)")


def shortest(script, oracle, port):
    """one of the shortest scripts that dropping calls and simplifying arguments leads to"""

    def differing(candidates):
        scripts = [Script(calls) for calls in candidates]
        return [s.calls for s, a, b in zip(scripts, oracle.run(scripts), port.run(scripts)) if not agree(a, b)]

    calls = script.calls
    while True:
        found = differing(shorter(calls)) or differing(simpler(calls))
        if not found:
            return Script(calls)
        calls = min(found, key=lambda c: (len(c), len(Script(c).data)))


def shorter(calls):
    """without a run of calls, at any place behind the opening"""
    runs = {1, 2, 3, len(calls) // 4, len(calls) // 2}
    return [calls[:i] + calls[i + n :] for n in runs if n for i in range(1, len(calls) - n + 1)]


def simpler(calls):
    """with one call simpler"""
    return [calls[:i] + [other] + calls[i + 1 :] for i, call in enumerate(calls) for other in simpler_calls(call)]


def simpler_calls(call):
    if isinstance(call, Append):
        n = len(call.data)
        return [Append(b"a" * m) for m in (n // 2, n - 1, n) if 0 < m and (m < n or call.data != b"a" * n)]
    # an argument that is left out must not make a record longer
    return [c for c in plainer(call) if len(c.record()) <= len(call.record())] + with_shorter_detail(call)


def with_shorter_detail(call):
    if isinstance(call, FailedAttempt):
        return [dataclasses.replace(call, error=error) for error in with_shorter_detail(call.error)]
    if not isinstance(call, Break) or not call.detail:
        return []
    value, most = call.detail, len(call.detail)
    # fields are a few bytes long; of a long value large parts go first
    runs = range(1, min(most, 8) + 1) if most <= 64 else {1, most // 8, most // 4, most // 2}
    return [dataclasses.replace(call, detail=value[:i] + value[i + n :]) for n in runs for i in range(most - n + 1)] + [dataclasses.replace(call, detail=b"")]


def plainer(value):
    """with one field at its default, at any depth; C is left as it is"""
    for f in dataclasses.fields(value):
        given = getattr(value, f.name)
        if given == f.default or f.name in ("chunk", "mark"):
            continue
        yield dataclasses.replace(value, **{f.name: f.default})
        if dataclasses.is_dataclass(given):
            yield from (dataclasses.replace(value, **{f.name: g}) for g in plainer(given))


def explain(script, oracle, port):
    """the script in words, and where the programs differ"""
    (crate,), (ours,) = oracle.run([script]), port.run([script])
    a, b = first_difference(crate, ours)
    lines = [f"  {i}. {call.words()}" for i, call in enumerate(script.calls, 1)]
    lines += [f"  {oracle.name}:"] + ["    " + text for text in shown(a, b)]
    lines += [f"  {port.name}:"] + ["    " + text for text in shown(b, a)]
    return "\n".join(lines)


def shown(lines, others):
    """a call's lines; of the state only what differs"""
    for line in lines:
        if line.startswith(b"  st"):
            other = next((FIELD.findall(o) for o in others if o.startswith(b"  st")), [])
            line = b" ".join([b"  st"] + [f for f in FIELD.findall(line) if f not in other])
        yield line.decode("latin1")
