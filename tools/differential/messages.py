"""Requests as messages: how long one is, and what the crate's decoder reads back.

The length is worked out from protobuf's rules and only aims, at buffers just long enough and one byte short. What is right is the crate's answer.
"""

import re

REQUEST = re.compile(rb"off=(-?\d+) data=(?:none|(\w*)/\w+) f=(.) s=(.) w=(.) sum=(\w+)")
WRITTEN = re.compile(rb"^WB (\d+)\n  wb (.*)$", re.M)
HEX = re.compile(rb"(?:[0-9a-f]{2})*")


def varint(n):
    """seven bits a byte; what is below zero has 64 bits"""
    return max(1, -(-(n % 2**64).bit_length() // 7))


def length(offset, data=None, flags=0, summed=False):
    """of a message with so many bytes of data or none, so many flags, and the object's sum or not"""
    whole = (1 + varint(offset) if offset else 0) + 2 * flags + (7 if summed else 0)
    if data is None:
        return whole
    checked = (1 + varint(data) + data if data else 0) + 5
    return whole + 1 + varint(checked) + checked


def needs(request):
    """the lengths of the message and of the data, from the fields of a `rq` line"""
    offset, data, *flags, summed = REQUEST.fullmatch(request).groups()
    data = None if data is None else len(data) // 2
    return length(int(offset), data, flags.count(b"1"), summed != b"none"), data or 0


def handed_out(output):
    """with the request of the last `rq` line in place of the bytes in each `wb` line"""
    request, lines = b"", []
    for line in output.split(b"\n"):
        if line.startswith(b"  rq "):
            request = line[5:]
        lines.append(b"  wb " + request if line.startswith(b"  wb ") else line)
    return b"\n".join(lines)


def read_back(outputs, oracle):
    """with what the crate's decoder makes of the bytes in their place"""
    read = iter(decode([written for output in outputs for written in WRITTEN.findall(output)], oracle))
    return [WRITTEN.sub(lambda found: b"WB %s\n  wb %s" % (found[1], next(read)), output) for output in outputs]


def decode(messages, oracle):
    """what the crate's decoder makes of each count and bytes, with the bytes where that is no request; one process for all"""
    readable = [(count, text) for count, text in messages if is_of_length(count, text)]
    read = dict(zip(readable, oracle.mode("decode").words([text.decode() for _, text in readable])))
    read = {(count, text): answer if answer.startswith(b"off=") else answer + b": " + text for (count, text), answer in read.items()}
    return [read.get(message, b"not so many bytes: " + message[1]) for message in messages]


def is_of_length(count, text):
    return count.isdigit() and HEX.fullmatch(text) is not None and len(text) == 2 * int(count)
