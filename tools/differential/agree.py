"""When the two programs agree on a script: equal outputs, but for the list below. Of a message that is written (`wb`) the length must be equal, and in place of
its bytes, whose fields may come in any order, stands on one side the request handed out, on the other what the crate's decoder reads back.

Intended differences that a script can show:

- `?`: the crate has no answer, and the oracle's lines end there with the reason. Names and tokens of an opening that are not UTF-8: the crate has them as
  `String`. A bare flush on a connection whose sends fail that the host does not report failed: the crate knows of the failure, the session does not. An
  accepted message with a size above the write offset: it ends the session, and the crate goes on; what comes then is differential/past.py's to say. What
  comes before is compared.

One that the oracle hides, since its driver answers 15 as the port does: to the crate a malformed redirect detail is none, and one with a group is a redirect.

Others can't be shown by a script: the attempt number at 2^32 - 1, which the crate's would pass, and 2^64 - 1 waiters. docs/DIFFERENCES.md has all of them.

Intended differences in what bytes read as, which the examples show, and `compare --details` counts:

- a group, wire types 3 and 4: the crate's decoder skips one whose number it does not know; here it is malformed.
"""

# the fields that hold a message, by number
EMBEDDED = (4, 6)


def comparable(crate, port):
    """both outputs, as far as the crate has an answer"""
    lines = crate.split(b"\n")
    stop = next((i for i, line in enumerate(lines) if line.startswith(b"?")), None)
    if stop is None:
        return crate, port
    return b"\n".join(lines[:stop]), b"\n".join(port.split(b"\n")[:stop])


def agree(crate, port):
    if crate == port:
        return True
    crate, port = comparable(crate, port)
    return crate == port


def calls(output):
    """the lines of each call that wrote any"""
    found = []
    for line in output.split(b"\n"):
        if line.startswith(b"  ") and found:
            found[-1].append(line)
        elif line:
            found.append([line])
    return found


def answers(output):
    """what each call answered, in a line; of an end the cause too, and what was released"""
    shown = []
    for lines in calls(output):
        _, end, cause = lines[-1].partition(b" cause=")
        answer = lines[0] + b" " + cause if end and lines[0].endswith(b" end") else lines[0]
        shown.append(b"".join([answer] + [line[1:] for line in lines if line.startswith(b"  rl ")]))
    return b", ".join(shown).decode("latin1")


def first_difference(crate, port):
    """the lines of the first call on which they differ, of either"""
    crate, port = (calls(output) for output in comparable(crate, port))
    for i in range(max(len(crate), len(port))):
        a, b = (side[i] if i < len(side) else [b"(nothing)"] for side in (crate, port))
        if a != b:
            return a, b
    raise ValueError("they agree")


def intended(message):
    """the kind of difference that these bytes may show"""
    return "a group" if has_group(message) else None


def has_group(message):
    """whether a group begins in the message or in one that it holds"""
    at = 0
    while at < len(message):
        key, at = varint(message, at)
        number, kind = key >> 3, key & 7
        if kind == 3:
            return True
        if kind == 0:
            _, at = varint(message, at)
        elif kind == 2:
            length, at = varint(message, at)
            if number in EMBEDDED and has_group(message[at : at + length]):
                return True
            at += length
        else:
            at += {1: 8, 5: 4}.get(kind, len(message))
    return False


def varint(message, at):
    """a number, as far as it goes, and where it ends"""
    end = next((i for i in range(at, len(message)) if message[i] < 128), len(message)) + 1
    return sum((byte & 127) << 7 * i for i, byte in enumerate(message[at:end])), end
