#!/usr/bin/env python3
"""A second replay of a recorded line, written from documents 01 and 02 alone, and what the programs run_replay and
replay_trace must write.

    python3 tests/replay_model.py write       writes the stored files of both programs
    python3 tests/replay_model.py selftest    puts the papers' frames to the model, and checks the day that is replayed

The trace that replay_trace is given is a working day, in replay_day.py; the calls of run_replay stand in
replay_scripts.py. The receiver is that of receiver_model.py, the meter that of model.py. `selftest` is quiet when all
agree.
"""
import contextlib
import copy
import io
import sys

sys.dont_write_bytecode = True  # no compiled copies beside the sources

import command
import replay_day
import replay_scripts
from line_model import MOST_KEPT, SILENCE, frames_at, taken
from model import Meter, numbers
from printed import A, B, C, D, E, E_ON, I_WRONG
from receiver_model import LEAST_MEMORY, Receiver
from wire import frame, good, head, hexed, listed, packed, parse

# Document 02, W1: the least memory of a step, and how many bytes the body of a record has, by its kind.
STEP_MEMORY = 8192
BYTE, SILENT, PULSE, KEY, SETTLE = 0x01, 0x02, 0x03, 0x04, 0x05
BODY = {BYTE: 1, SILENT: 0, PULSE: 6, KEY: 1, SETTLE: 0}
BAD_ADDRESS, SHORT_MEMORY, BAD_RECORD, CUT_OFF, OUT_OF_RANGE = 8, 1, 9, 10, 16


# ---- the replay ------------------------------------------------------------------------------------------------------
def fields_right(kind, body):
    """Whether the fields of a whole record are within their ranges."""
    if kind == PULSE:
        return body[0] in (0, 1) and body[1] in (1, 2, 3, 4)
    return kind != KEY or body[0] in (0, 1)


class Replay:
    """A receiver and a meter, and the steps of a replay."""

    def __init__(self, address):
        """A fresh receiver and a fresh meter of an address. One that is not good starts no replay: the meter is out of its
        ranges, and every step refuses it."""
        self.receiver, self.meter = Receiver(), Meter(list(address))
        self.frames = 0  # how many frames were sent to the meter

    def hear(self, symbol):
        """A symbol heard: the replies of the meter to the frames that the receiver hands on, sent to it in order."""
        (size, _count), self.receiver, memory = self.receiver.call(symbol, [0] * LEAST_MEMORY)
        handed = memory[:size]
        frames = frames_at(handed, taken(handed))
        self.frames += len(frames)
        return self.replies(frames)

    def replies(self, frames):
        """The replies of the meter to frames, sent to it in order."""
        answers = [self.meter.answer(bytes_, LEAST_MEMORY) for bytes_ in frames]
        return [answer for answer in answers if not isinstance(answer, int)]

    def play(self, kind, body):
        """A good record played: the replies."""
        if kind == BYTE:
            return self.hear(body[0])
        if kind == SILENT:
            return self.hear(SILENCE)
        if kind == PULSE:
            refused = self.meter.pulse(int.from_bytes(bytes(body[2:]), "little"), body[0], body[1])
        elif kind == KEY:
            refused = self.meter.set_key(body[0] == 1)
        else:
            refused = self.meter.settle()
        assert refused == 0
        return []

    def step(self, trace, at, room):
        """A step at a place of a trace, with so many bytes of lent memory: its answer, and the lines that it writes.

        Only a step that is played changes anything. 9 and 10 give the place where the record begins.
        """
        if not self.receiver.in_range() or self.meter.out_of_ranges():
            return ("refused", OUT_OF_RANGE), []
        if len(trace) <= at:
            return ("done",), []
        if room < STEP_MEMORY:
            return ("refused", SHORT_MEMORY), []
        kind = trace[at]
        if kind not in BODY:
            return ("bad", BAD_RECORD, at), []
        after = at + 1 + BODY[kind]
        if len(trace) < after:
            return ("bad", CUT_OFF, at), []
        body = trace[at + 1:after]
        if not fields_right(kind, body):
            return ("bad", BAD_RECORD, at), []
        lines = [listed(reply) for reply in self.play(kind, body)]
        return ("played", len(command.lines(lines)), len(lines), after), lines

    def steps(self, trace, at, room, most):
        """Steps, until so many are made or one is not played: the last answer, the place after it, and all lines."""
        written = []
        for _ in range(most):
            answer, lines = self.step(trace, at, room)
            written += lines
            if answer[0] != "played":
                break
            at = answer[-1]
        return answer, at, written

    def holds(self):
        """All that is held, to be compared."""
        return self.receiver.array[:self.receiver.count], self.receiver.count, self.meter.shown(), self.meter.rows


def start(address):
    """The start of a replay with an address, or the number of its refusal."""
    return Replay(address) if good(address) else BAD_ADDRESS


def replayed(address, trace):
    """The lines of a whole trace from the start with an address, the last answer, and what is held then."""
    replay = start(address)
    answer, _at, lines = replay.steps(trace, 0, STEP_MEMORY, len(trace) + 1)
    return lines, answer, replay.holds()


# ---- the output of run_replay ----------------------------------------------------------------------------------------
class Holding(command.Script):
    """A script that holds a replay, and the calls that change it past its steps or show it."""

    def call_break(self, rest):
        """A value put into the receiver or the meter past their calls."""
        receiver, meter = self.replay.receiver, self.replay.meter
        if rest == "receiver":
            receiver.count = 300
        elif rest == "kept":
            receiver.count = 1
        elif rest == "meter":
            meter.address = [0xAA] * 6
        elif rest == "register":
            meter.registers[0x04000101] = [0xFA] + meter.registers[0x04000101][1:]
        elif rest == "reading":
            meter.rows[1][12][4] = 100000000
        else:
            return None
        return []

    def call_state(self, _rest):
        """What the meter holds besides its readings, and the bytes that the receiver keeps."""
        kept, count, shown, _rows = self.replay.holds()
        assert count <= MOST_KEPT
        return shown + [("kept " + hexed(kept)).rstrip()]

    def call_reading(self, rest):
        """A reading, by direction, row and column, as it is sent."""
        direction, row, column = numbers(rest)
        return ["reading " + hexed(packed(self.replay.meter.rows[direction][row][column], 4))]


class Program(Holding):
    """What run_replay holds between its lines."""

    def __init__(self):
        """Before the first call."""
        self.replay, self.trace, self.place, self.room = Replay([0] * 6), [], 0, STEP_MEMORY

    def call_start(self, rest):
        """The start, with an address."""
        address = list(bytes.fromhex(rest))[::-1]
        self.replay = Replay(address)
        answer = start(address)
        return ["refused %d" % answer] if isinstance(answer, int) else ["started"]

    def call_trace(self, rest):
        """A trace, from its first record on."""
        self.trace, self.place = numbers(rest, 16), 0
        return []

    def call_more(self, rest):
        """More bytes behind the trace."""
        self.trace = self.trace + numbers(rest, 16)
        return []

    def call_place(self, rest):
        """The place of the next step."""
        self.place = int(rest)
        return []

    def call_short(self, rest):
        """How much memory is lent from here on."""
        self.room = int(rest)
        return []

    def call_steps(self, rest):
        """Steps."""
        answer, self.place, lines = self.replay.steps(self.trace, self.place, self.room, int(rest))
        return lines + [" ".join(str(word) for word in answer)]


def day():
    """The working day."""
    return replay_day.recorded(Replay(replay_day.ADDRESS))


def script(made):
    """The lines of the script of run_replay, of which the last are from this day."""
    with contextlib.redirect_stdout(io.StringIO()) as text:
        replay_scripts.script(made)
    return text.getvalue().split("\n")[:-1]


def files():
    """The stored files of run_replay and replay_trace."""
    made = day()
    calls = script(made)
    lines, _answer, _holds = replayed(replay_day.ADDRESS, made.trace)
    address = "".join("%02X" % b for b in reversed(replay_day.ADDRESS))
    return {
        "crates/run_replay/stdin": command.lines(calls),
        "crates/run_replay/stdout": command.lines(Program().output(calls)),
        "crates/replay_trace/args": command.lines([address]),
        "crates/replay_trace/stdin": bytes(made.trace),
        "crates/replay_trace/stdout": command.lines(lines),
    }


def write():
    """Writes the stored files of run_replay and replay_trace."""
    command.write(files())


# ---- the model against the papers ------------------------------------------------------------------------------------
def selftest_cases():
    """Document 01's cases played from a trace; and that the end of a trace is no silence."""
    heard, pulse = replay_scripts.heard, replay_scripts.pulse
    one = A[1:7]

    def lines(trace):
        """The lines of a whole trace that is done, with a meter of the cases' address."""
        written, answer, _holds = replayed(one, trace)
        assert answer == ("done",)
        return written

    assert lines([]) == [] and start([0x99] * 6) == start([0xAA] + one[1:]) == BAD_ADDRESS
    assert lines(pulse(0, 1, 12345678) + heard(A)) == [listed(B)] == ["000000000001 91 0000010078563412"]
    assert lines([0x03, 0, 1, 0x4E, 0x61, 0xBC, 0x00] + heard(A)) == [listed(B)]
    assert lines(heard(C)) == ["000000000001 93 010000000000"]
    assert lines(heard(replay_scripts.UNKNOWN)) == [listed(D)] == ["000000000001 D1 02"]
    assert lines(heard(E)) == ["000000000001 D4 04"]
    assert lines([KEY, 1] + heard(E)) == [listed(E_ON)] == ["000000000001 94"]
    assert lines([KEY, 1, KEY, 0] + heard(E)) == ["000000000001 D4 04"]
    assert lines(heard(B + D + E_ON)) == []
    # F, G, H and I; a frame inside an unfinished one is handed on with a silence, and not with the end.
    nothing = ["000000000001 91 0000010000000000"]
    outer = head([2, 0, 0, 0, 0, 0], 0x91, 100) + A
    assert lines(heard([0x68] + A)) == lines(heard(I_WRONG + A)) == nothing
    assert lines(heard(A[:-1])) == lines(heard(A[:-1] + [SILENCE] + A[-1:])) == lines(heard(outer)) == []
    assert lines(heard(outer + [SILENCE])) == nothing and lines(heard(A[:-1] + [SILENCE])) == []
    # A settlement keeps row 0, so that row 1 is the same after it.
    row_1 = frame(one, 0x11, [1, 0, 1, 0])
    assert lines(pulse(0, 4, 7) + heard(row_1) + [SETTLE] + heard(row_1)) == [
        "000000000001 91 0100010000000000", "000000000001 91 0100010007000000"
    ]


def selftest_refusals():
    """Document 02's order, with each refusal alone and each two at once; and that nothing is changed."""
    whole = [PULSE, 1, 4, 0, 0, 0, 0]
    done, short, out = ("done",), ("refused", 1), ("refused", 16)
    table = [
        # A trace, a place, the size of the memory, and the answer.
        ([], 0, 0, done), (whole, 7, 0, done), (whole, 7, 8191, done), (whole, 8, 8192, done), (whole, 2 ** 64 - 1, 0, done),
        (whole, 0, 8191, short), ([0x06], 0, 8191, short), ([BYTE], 0, 8191, short), ([KEY, 2], 0, 8191, short),
        ([0x00], 0, 8192, ("bad", 9, 0)), ([0x06], 0, 8192, ("bad", 9, 0)), ([SILENT, 0xFF, 0], 1, 8192, ("bad", 9, 1)),
        ([BYTE], 0, 8192, ("bad", 10, 0)), ([KEY], 0, 8192, ("bad", 10, 0)), ([SILENT, PULSE], 1, 8192, ("bad", 10, 1)),
        (whole[:6], 0, 8192, ("bad", 10, 0)), ([PULSE, 7], 0, 8192, ("bad", 10, 0)),
        ([PULSE, 2, 0, 0, 0, 0], 0, 8192, ("bad", 10, 0)), ([PULSE, 2, 1, 0, 0, 0, 0], 0, 8192, ("bad", 9, 0)),
        ([PULSE, 0, 0, 0, 0, 0, 0], 0, 8192, ("bad", 9, 0)), ([PULSE, 1, 5, 0, 0, 0, 0], 0, 8192, ("bad", 9, 0)),
        ([KEY, 2], 0, 8192, ("bad", 9, 0)), ([KEY, 0xFF], 0, 8192, ("bad", 9, 0)),
        (whole, 0, 8192, ("played", 0, 0, 7)), ([KEY, 1, SETTLE], 2, 9000, ("played", 0, 0, 3)),
    ]
    for trace, at, room, expected in table:
        replay = Replay(A[1:7])
        replay.steps(replay_scripts.heard(A[:5]), 0, STEP_MEMORY, 5)
        before = copy.deepcopy(replay.holds())
        assert replay.step(trace, at, room) == (expected, []), (trace, at, room)
        if expected[0] != "played":
            assert replay.holds() == before and replay.step(trace, at, room) == (expected, [])
        # 16 comes before all of them.
        for broken in (Receiver(A, 300), Receiver([], 1), Receiver(A, 16)):
            replay = Replay(A[1:7])
            replay.receiver = broken
            assert replay.step(trace, at, room) == (out, [])
        assert Replay([0xAA] * 6).step(trace, at, room) == (out, [])
    # What stands behind a record, or does not, changes nothing of its step.
    for kind, fields in ((BYTE, [0x68]), (SILENT, []), (PULSE, [0, 1, 9, 9, 9, 9]), (KEY, [1]), (SETTLE, [])):
        for more in ([], [0x06], [PULSE]):
            assert Replay(A[1:7]).step([kind] + fields + more, 0, 8192) == (("played", 0, 0, 1 + len(fields)), [])


def selftest_day():
    """The working day: replayed, it is the calls made by hand; and it has in it what it is meant to have."""
    made = day()
    lines, answer, holds = replayed(replay_day.ADDRESS, made.trace)
    assert answer == ("done",) and holds == made.replay.holds()
    assert lines == [listed(reply) for replies in made.replies for reply in replies]
    # Every control of a reply, and every error byte that its requests can get.
    parts = [parse(reply) for replies in made.replies for reply in replies]
    said = {(control, data[0] if control & 0x40 else None) for _address, control, data in parts}
    assert said == {(control, None) for control in (0x91, 0x93, 0x94, 0x95, 0x98)} | {
        (0xD1, 1), (0xD1, 2), (0xD4, 1), (0xD4, 2), (0xD4, 4), (0xD8, 1), (0xD8, 2), (0xD8, 4)
    }
    # One symbol is answered by up to fourteen lines, and one by lines from two addresses.
    assert max(len(replies) for replies in made.replies) == 14
    assert any(len({tuple(reply[1:7]) for reply in replies}) == 2 for replies in made.replies)
    # The blocks end inside every kind of record with a body, and between records. A trace that ended there would be cut
    # off at the place where that record begins, or done.
    ends = list(enumerate(replay_day.ends(), 1))
    assert len(made.trace) // replay_day.BLOCK == len(ends) and len(made.trace) > 100000
    for n, (kind, inside) in ends:
        place = n * replay_day.BLOCK - inside
        assert place in made.places and made.trace[place] == kind
        cut = made.trace[:n * replay_day.BLOCK]
        assert Replay(A[1:7]).step(cut, place, STEP_MEMORY)[0] == (("bad", 10, place) if inside else ("done",))
    # A replay that took the end as a silence would answer once more.
    assert len(made.replay.hear(SILENCE)) == 1


def selftest():
    """Puts the papers' cases, each refusal and the working day to the model."""
    selftest_cases()
    selftest_refusals()
    selftest_day()


if __name__ == "__main__":
    command.run(__doc__, {"write": write, "selftest": selftest})
