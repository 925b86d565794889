"""A second reader's end, written from document 01 alone: requests, the judging of replies, and an exchange with a
meter. Only imported.

An answer is a pair: ("refused", number), ("request", bytes), ("value", bytes) or ("error", byte).
"""
from collections import namedtuple

from wire import REGISTERS, decimal, di, frame, good, hexed, in_range, item_length, listed, parse

READ, READ_ADDRESS, WRITE = 0x11, 0x13, 0x14

# kind is the control; address is in the order of the wire; identifier is a number with DI3 highest.
Request = namedtuple("Request", "kind address identifier level password operator value")


def short(address):
    """The low bytes of a short address, which has AA above them; None for any other address."""
    for k in range(1, 6):
        if decimal(address[:k]) and address[k:] == [0xAA] * (6 - k):
            return address[:k]
    return None


def allowed(r):
    """Fields that a request's kind does not use are not looked at."""
    if r.kind == READ_ADDRESS:
        return True
    length = item_length(r.identifier)
    if length is None:
        return False
    if r.kind == READ:
        return good(r.address) or short(r.address) is not None
    return (good(r.address) and r.identifier in REGISTERS and r.level <= 9
            and len(r.value) == length and decimal(r.value) and in_range(r.identifier, r.value))


def request_frame(r):
    """The frame of a request."""
    if r.kind == READ_ADDRESS:
        return frame([0xAA] * 6, READ_ADDRESS, [])
    if r.kind == READ:
        return frame(r.address, READ, di(r.identifier))
    return frame(r.address, WRITE, di(r.identifier) + [r.level] + r.password + r.operator + r.value)


def build(r, memory):
    """What building a request comes to with so many bytes of memory: four FE and its frame, or a refusal."""
    if memory < 66:
        return "refused", 1
    if not allowed(r):
        return "refused", 5
    return "request", [0xFE] * 4 + request_frame(r)


def answers(r, address, control):
    """Whether a reply's control and address can belong to the request."""
    if r.kind == READ_ADDRESS:
        return control == 0x93
    if control not in (r.kind | 0x80, r.kind | 0xC0):
        return False
    if r.kind == READ and short(r.address) is not None:
        low = short(r.address)
        return good(address) and address[:len(low)] == low
    return address == r.address


def judge(r, bytes_, memory):
    """What judging a reply, in bytes, against a request comes to with so many bytes of memory."""
    if memory < 196:
        return "refused", 1
    if not allowed(r):
        return "refused", 5
    parts = parse(bytes_)
    if parts is None:
        return "refused", 2
    address, control, data = parts
    if not answers(r, address, control):
        return "refused", 6
    if control & 0x40:
        return ("error", data[0]) if len(data) == 1 else ("refused", 7)
    if control == 0x94:
        return ("value", []) if not data else ("refused", 7)
    if control == 0x93:
        return ("value", data) if data == address and good(data) else ("refused", 7)
    if len(data) < 4:
        return "refused", 7
    if data[:4] != di(r.identifier):
        return "refused", 6
    value = data[4:]
    if len(value) != item_length(r.identifier) or not decimal(value):
        return "refused", 7
    return "value", value


def written(answer):
    """An answer as the program writes it."""
    word, what = answer
    if word == "refused":
        return "refused %d" % what
    return (word + " " + hexed([what] if word == "error" else what)).rstrip()


# The least sizes of an exchange's buffers: request, receiver, reply, value.
LENT = (66, 212, 212, 196)


def exchange(r, meter, lent):
    """The lines that an exchange of a request with a meter writes."""
    if meter.out_of_ranges():
        return ["refused 16"]
    if any(size < least for size, least in zip(lent, LENT)):
        return ["refused 1"]
    if not allowed(r):
        return ["refused 5"]
    # A fresh receiver skips the four FE and hands the frame on.
    sent = request_frame(r)
    reply = meter.answer(sent, lent[2])
    if isinstance(reply, int):
        return [listed(sent), "silent %d" % reply]
    return [listed(sent), listed(reply), written(judge(r, reply, lent[3]))]
