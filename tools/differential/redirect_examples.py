"""The computed examples of crate `redirect_format` against the crate's decoder.

An example says of the value of a redirect detail as which redirect it reads, or that it is malformed, and the comment above it says what the crate's decoder
makes of it; or it says as which bytes fields are written, which the decoder has to read back.

    -- the crate: token=74 handle=none generation=5
    token-generation : readRedirect (0x0a ∷ 0x01 ∷ 0x74 ∷ 0x18 ∷ 0x05 ∷ []) ≡ some (redirect (some (0x74 ∷ [])) none (some (generation (pos 5))))
    written-generation : write (generationField (pos 5) ∷ []) ≡ (0x18 ∷ 0x05 ∷ [])
"""

import dataclasses
import re

from .details import Redirect
from .examples import BYTES, NUMBER, number, numbers, statements

INTEGER = rf"\((?P<sign>pos|negsuc) (?P<number>{NUMBER})\)"
REDIRECT = (
    rf"\(redirect (?:none|\(some (?P<token>{BYTES})\)) (?:none|\(some (?P<handle>{BYTES})\))"
    rf" (?:none|\(some \(generation {INTEGER}\)\))\)"
)
FIELDS = rf"(?:tokenField (?P<token>{BYTES}) ∷ )?(?:handleField (?P<handle>{BYTES}) ∷ )?(?:generationField {INTEGER} ∷ )?\[\]"
READ = re.compile(rf"(?P<name>\S+) : readRedirect (?P<bytes>{BYTES}) ≡ (?:(?P<none>none)|some {REDIRECT})")
WRITTEN = re.compile(rf"(?P<name>\S+) : write \({FIELDS}\) ≡ (?P<bytes>{BYTES})")


@dataclasses.dataclass(frozen=True)
class Example:
    line: int
    name: str
    message: bytes
    # as the oracle's mode `details` has it
    redirect: str
    written: bool
    # what the crate is said to make of it
    comment: str | None


def read(text):
    """the examples of a file; ValueError where one has another form"""
    return [example(*stated) for stated in statements(text, ("readRedirect ", "write "))]


def example(line, whole, comment):
    parts = READ.fullmatch(whole) or WRITTEN.fullmatch(whole)
    if not parts:
        raise ValueError(f"line {line}: of another form: {whole}")
    written = parts.re is WRITTEN
    redirect = "malformed" if not written and parts["none"] else stated(parts)
    return Example(line, parts["name"], numbers(parts["bytes"]), redirect, written, comment)


def stated(parts):
    token, handle = (None if parts[name] is None else numbers(parts[name]) for name in ("token", "handle"))
    return Redirect(token, handle, None if parts["sign"] is None else integer(parts)).shown()


def integer(parts):
    n = number(parts["number"])
    return n if parts["sign"] == "pos" else -1 - n


def judged(e, crate):
    """where the example says other than the crate's decoder"""
    made, wrong = crate.removesuffix(" group"), []
    if not e.written and e.comment != made:
        wrong.append(f"the comment says {e.comment}")
    if e.redirect != made:
        wrong.append("intended: a group" if made != crate and e.redirect == "malformed" else f"the statement says {e.redirect}")
    return wrong
