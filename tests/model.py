#!/usr/bin/env python3
"""A second meter and reader's end, written from document 01 and the standard alone, that work out what the program
run_script must write.

    python3 tests/model.py script > crates/run_script/stdin
    python3 tests/model.py output < crates/run_script/stdin > crates/run_script/stdout
    python3 tests/model.py write        writes both
    python3 tests/model.py selftest     puts the frames that document 01 and the manual print to the model

It shares nothing with the Rattle sources. `script` writes the calls, `output` answers them; `selftest` is quiet when
all agree. The frames and items stand in wire.py, the reader's end in reader_model.py, the calls in scripts.py and
reader_scripts.py.
"""
import contextlib
import io
import sys

sys.dont_write_bytecode = True  # no compiled copies beside the sources

import command
import reader_model
import reader_scripts
import scripts
from printed import A, A_LISTED, B, C, C_LISTED, D, E, E_ON, MANUAL_REPLY
from wire import REGISTERS, decimal, di, frame, good, hexed, in_range, item_length, listed, packed, parse


# ---- the meter -------------------------------------------------------------------------------------------------------
class Meter:
    """Document 01, "What the meter holds", and how it treats a frame."""

    def __init__(self, address):
        """A fresh meter."""
        self.address = address
        self.key = False
        self.passwords = [[0, 0, 0] for _ in range(10)]
        self.operator = [0, 0, 0, 0]
        self.rows = [[[0] * 5 for _ in range(13)] for _ in range(2)]
        self.registers = {
            0x04000101: [0x06, 0x01, 0x01, 0x00],
            0x04000102: [0, 0, 0],
            0x04000103: [0x15],
            0x04000104: [0x01],
            0x04000402: [0] * 6,
            0x04000B01: [0x00, 0x01],
            0x04000B02: [0x99, 0x99],
            0x04000B03: [0x99, 0x99],
        }

    def value(self, identifier):
        """The value of an identifier, or None where it is not in the table."""
        if identifier in self.registers:
            return self.registers[identifier]
        if identifier == 0x04000401:
            return self.address
        di3, di2 = identifier >> 24, identifier >> 16 & 255
        t, s = identifier >> 8 & 255, identifier & 255
        if di3 != 0 or di2 not in (1, 2):
            return None
        rows = self.rows[di2 - 1]
        if t <= 4 and s <= 12:
            picked = [rows[s][t]]
        elif t == 0xFF and s <= 12:
            picked = [rows[s][i] for i in range(5)]
        elif t <= 4 and s == 0xFF:
            picked = [rows[i][t] for i in range(13)]
        else:
            return None
        return [b for r in picked for b in packed(r, 4)]

    def out_of_ranges(self):
        """Whether every operation has to refuse this meter with 16."""
        if not good(self.address):
            return True
        if any(r > 99999999 for d in self.rows for row in d for r in row):
            return True
        return not all(decimal(v) for v in self.registers.values())

    def answer(self, bytes_, memory):
        """The number of a refusal, or the reply's bytes, to a frame with so many bytes of reply memory."""
        if self.out_of_ranges():
            return 16
        if memory < 212:
            return 1
        f = parse(bytes_)
        if f is None:
            return 2
        address, control, data = f
        if control not in (0x11, 0x13, 0x14, 0x15, 0x18):
            return 3
        if control in (0x14, 0x18) and address != self.address:
            return 3
        if control in (0x13, 0x15) and address != [0xAA] * 6:
            return 3
        if control == 0x11 and address != self.address:
            if not any(address == self.address[:k] + [0xAA] * (6 - k) for k in range(1, 6)):
                return 3
        done = getattr(self, "control_%02X" % control)(data)
        if isinstance(done, int):
            return done
        error, reply = done
        return frame(self.address, control | (0xC0 if error else 0x80), reply)

    # The checks of each control: the number of a refusal, or whether the reply is an error, and its data.
    def control_11(self, data):
        """A read."""
        if len(data) != 4:
            return True, [0x01]
        value = self.value(int.from_bytes(bytes(data), "little"))
        if value is None:
            return True, [0x02]
        return False, data + value

    def control_13(self, data):
        """A read of the address."""
        if data:
            return 4
        return False, self.address

    def control_15(self, data):
        """A change of the address."""
        if len(data) != 6 or not self.key or not good(data):
            return 4
        self.address = data
        return False, []

    def control_14(self, data):
        """A write."""
        if not 12 <= len(data) <= 50:
            return True, [0x01]
        identifier = int.from_bytes(bytes(data[:4]), "little")
        level, password, operator, value = data[4], data[5:8], data[8:12], data[12:]
        if self.value(identifier) is None:
            return True, [0x02]
        if identifier not in REGISTERS:
            return True, [0x04]
        if not self.key:
            return True, [0x04]
        if level > 4 or self.passwords[level] != password:
            return True, [0x04]
        if len(value) != REGISTERS[identifier]:
            return True, [0x01]
        if not decimal(value) or not in_range(identifier, value):
            return True, [0x01]
        self.registers[identifier] = value
        self.operator = operator
        return False, []

    def control_18(self, data):
        """A change of a password."""
        if len(data) != 12:
            return True, [0x01]
        identifier = data[:4]
        old, old_password, new, new_password = data[4], data[5:8], data[8], data[9:12]
        if new > 9 or identifier != [new + 1, 0x0C, 0x00, 0x04]:
            return True, [0x02]
        if not self.key:
            return True, [0x04]
        if old > new or self.passwords[old] != old_password:
            return True, [0x04]
        if not decimal(new_password):
            return True, [0x01]
        self.passwords[new] = new_password
        return False, [new] + new_password

    # The host's calls: the number of a refusal, or 0.
    def pulse(self, amount, direction, rate):
        """Adds a pulse amount to row 0's rate and total."""
        if self.out_of_ranges():
            return 16
        if direction > 1 or not 1 <= rate <= 4:
            return 8
        row = self.rows[direction][0]
        row[rate] = (row[rate] + amount) % 100000000
        row[0] = (row[0] + amount) % 100000000
        return 0

    def settle(self):
        """Moves every row down one in both directions, and keeps row 0."""
        if self.out_of_ranges():
            return 16
        for d in (0, 1):
            self.rows[d] = [list(self.rows[d][0])] + [list(r) for r in self.rows[d][:12]]
        return 0

    def set_key(self, on):
        """Sets the programming key."""
        if self.out_of_ranges():
            return 16
        self.key = on
        return 0

    def shown(self):
        """The lines that tell what the meter holds besides its readings."""
        order = sorted(self.registers)
        return [
            "address " + hexed(self.address),
            "key " + ("on" if self.key else "off"),
            "passwords " + hexed([b for p in self.passwords for b in p]),
            "operator " + hexed(self.operator),
            "registers " + hexed([b for i in order for b in self.registers[i]]),
        ]


# ---- the program's output --------------------------------------------------------------------------------------------
def said(n):
    """What the program writes of a call that answers with a number."""
    return "done" if n == 0 else "refused %d" % n


def numbers(text, base=10):
    """The numbers of a text, with blanks between."""
    return [int(x, base) for x in text.split()]


class Program(command.Script):
    """What run_script holds between its lines."""

    def __init__(self):
        """Before the first call."""
        self.meter, self.memory = Meter([0] * 6), 212
        self.request, self.lent = None, list(reader_model.LENT)

    # A fresh meter, and the host's calls.
    def call_meter(self, rest):
        """A fresh meter, from an address."""
        self.meter, self.memory = Meter(numbers(rest, 16)), 212
        return ["done" if good(self.meter.address) else "refused 8"]

    def call_memory(self, rest):
        """How much memory is lent from now on."""
        self.memory = int(rest)
        return []

    def call_key(self, rest):
        """The programming key set."""
        return [said(self.meter.set_key(rest == "1"))]

    def call_pulse(self, rest):
        """A pulse."""
        return [said(self.meter.pulse(*numbers(rest)))]

    def call_settle(self, _rest):
        """A settlement."""
        return [said(self.meter.settle())]

    def call_frame(self, rest):
        """Bytes put to the meter; its reply in bytes."""
        got = self.meter.answer(numbers(rest, 16), self.memory)
        return [said(got) if isinstance(got, int) else "reply " + hexed(got)]

    def call_tell(self, rest):
        """Bytes put to the meter; both they and its reply as lines of the listing."""
        bytes_ = numbers(rest, 16)
        got = self.meter.answer(bytes_, 212)
        return [listed(bytes_) if parse(bytes_) else "no frame", said(got) if isinstance(got, int) else listed(got)]

    def call_show(self, _rest):
        """What the meter holds."""
        return self.meter.shown()

    # Values put into the meter past its calls.
    def call_reading(self, rest):
        """A reading, by direction, row and column."""
        direction, row, column, value = numbers(rest)
        self.meter.rows[direction][row][column] = value
        return []

    def call_register(self, rest):
        """A byte of the registers, by its place among them all."""
        place, value = rest.split()
        place = int(place)
        for i in sorted(self.meter.registers):
            v = list(self.meter.registers[i])
            if place < len(v):
                v[place] = int(value, 16)
                self.meter.registers[i] = v
                break
            place -= len(v)
        return []

    def call_address(self, rest):
        """The address."""
        self.meter.address = numbers(rest, 16)
        return []

    # The reader's end.
    def call_request(self, rest):
        """The request of the calls that follow."""
        b = numbers(rest, 16)
        if len(b) < 19 or b[0] not in (reader_model.READ, reader_model.READ_ADDRESS, reader_model.WRITE):
            return None
        identifier = int.from_bytes(bytes(b[7:11]), "big")
        self.request = reader_model.Request(b[0], b[1:7], identifier, b[11], b[12:15], b[15:19], b[19:])
        return []

    def call_build(self, _rest):
        """The request's bytes."""
        return [reader_model.written(reader_model.build(self.request, self.memory))]

    def call_judge(self, rest):
        """What a reply, in bytes, comes to."""
        return [reader_model.written(reader_model.judge(self.request, numbers(rest, 16), self.memory))]

    def call_lent(self, rest):
        """How much memory of each of the four an exchange is lent from now on."""
        self.lent = numbers(rest)
        return []

    def call_exchange(self, _rest):
        """An exchange of the request with the meter."""
        return reader_model.exchange(self.request, self.meter, self.lent)


def output(lines):
    """What the program must write of a script's lines."""
    return Program().output(lines)


def script():
    """The lines of the script."""
    with contextlib.redirect_stdout(io.StringIO()) as text:
        scripts.script()
        reader_scripts.script()
    return text.getvalue().split("\n")[:-1]


def files():
    """The stored files of run_script."""
    calls = script()
    return {"crates/run_script/stdin": command.lines(calls), "crates/run_script/stdout": command.lines(output(calls))}


def write():
    """Writes the stored files of run_script."""
    command.write(files())


def print_script():
    """Writes the script to standard output."""
    sys.stdout.buffer.write(command.lines(script()))


def print_output():
    """Answers the script on standard input, on standard output."""
    sys.stdout.buffer.write(command.lines(output(sys.stdin.read().split("\n")[:-1])))


# ---- the model against printed frames --------------------------------------------------------------------------------
def selftest():
    """Document 01's cases A to E and the manual's reply of 15.82 kWh, byte for byte as printed."""
    awake = [0xFE] * 4
    one = [1, 0, 0, 0, 0, 0]
    read = reader_model.Request(0x11, one, 0x00010000, 0, [0] * 3, [0] * 4, [])
    period = reader_model.Request(0x14, one, 0x04000103, 4, [0] * 3, [0] * 4, [0x30])
    who = reader_model.Request(0x13, [0] * 6, 0, 0, [0] * 3, [0] * 4, [])

    # A and B: the request, the meter's reply and what the reader takes from it.
    meter = Meter(list(one))
    assert reader_model.build(read, 66) == ("request", awake + A)
    assert meter.pulse(12345678, 0, 1) == 0
    assert meter.answer(A, 212) == B
    assert reader_model.judge(read, B, 196) == ("value", [0x78, 0x56, 0x34, 0x12])
    assert listed(A) == A_LISTED
    # C: the request, its line, and the meter's own address as the value.
    assert reader_model.build(who, 66) == ("request", awake + C)
    assert listed(C) == C_LISTED
    assert reader_model.judge(who, meter.answer(C, 212), 196) == ("value", one)
    # D: a read of an identifier that is not listed; the reader takes the error byte, and builds no such read.
    assert meter.answer(frame(one, 0x11, di(0x02010100)), 212) == D
    assert reader_model.judge(read, D, 196) == ("error", 2)
    assert reader_model.build(read._replace(identifier=0x02010100), 66) == ("refused", 5)
    # E: the request; key off and on.
    assert reader_model.build(period, 66) == ("request", awake + E)
    assert reader_model.judge(period, meter.answer(E, 212), 196) == ("error", 4)
    assert meter.registers[0x04000103] == [0x15]
    assert meter.set_key(True) == 0
    assert meter.answer(E, 212) == E_ON
    assert meter.registers[0x04000103] == [0x30]
    assert reader_model.judge(period, E_ON, 196) == ("value", [])
    # The manual's reply: 1582 hundredths.
    assert reader_model.judge(read, MANUAL_REPLY, 196) == ("value", packed(1582, 4))
    # Both ends list the same items, at the same lengths.
    kinds = [0x00000000, 0x00010000, 0x00020000, 0x00030000, 0x04000000, 0x04010000, 0x05000000, 0xFFFF0000]
    for identifier in (kind | low for kind in kinds for low in range(0x10000)):
        value = meter.value(identifier)
        assert item_length(identifier) == (None if value is None else len(value)), "%08X" % identifier


if __name__ == "__main__":
    command.run(__doc__, {"script": print_script, "output": print_output, "write": write, "selftest": selftest})
