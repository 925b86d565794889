#!/usr/bin/env python3
"""A second replay in blocks, written from documents 01 and 02 and docs/scope.md alone, and what the program
run_replay_blocks must write.

    python3 tests/replay_block_model.py write       writes crates/run_replay_blocks/stdin and stdout
    python3 tests/replay_block_model.py selftest    compares blocks with a whole trace, and puts refusals to the model

The calls of the program stand in replay_block_scripts.py. Each record is a step of replay_model.py; the texts are those of
replay_texts.py. `selftest` is quiet when all agree.
"""
import contextlib
import copy
import io
import sys

sys.dont_write_bytecode = True  # no compiled copies beside the sources

import command
import replay_block_scripts
import replay_texts
from model import numbers, said
from printed import A, C
from replay_model import CUT_OFF, OUT_OF_RANGE, SHORT_MEMORY, STEP_MEMORY, Holding, Replay, replayed, start
from replay_scripts import heard, pulse
from wire import frame, hexed, listed

# Memory for each byte of a block, besides that of a step, and for each byte of frames that are put to a meter.
TEXT_OF_BLOCK, TEXT_OF_FRAMES = 18, 35
BUFFER, MEMORY = replay_block_scripts.BUFFER, replay_block_scripts.MEMORY
LARGEST = 2 ** 64  # the numbers of a session are modulo this


# ---- blocks, and frames put to a meter -------------------------------------------------------------------------------
class Session(Replay):
    """A replay in blocks, and its numbers: the place of the next record in the whole trace, and how many records were
    played, frames put to the meter and replies given."""

    def __init__(self, address):
        """At the first record of a trace."""
        super().__init__(address)
        self.counts = [0, 0, 0, 0]

    def play_block(self, buffer, kept, read, room):
        """A block of the bytes kept at the front of a buffer and of those read behind them, with so many bytes of lent
        memory: the answer, the lines, and the buffer after it.

        Every whole good record is played. One that is refused with 9 stops the call, and so does one that is cut off
        where no byte was read, since the trace has ended; else the bytes of that one are moved to the front and kept.
        """
        if not self.receiver.in_range() or self.meter.out_of_ranges():
            return ("refused", OUT_OF_RANGE), [], buffer
        if len(buffer) < kept + read or room < STEP_MEMORY + TEXT_OF_BLOCK * (kept + read):
            return ("refused", SHORT_MEMORY), [], buffer
        block, at, records, lines, before = buffer[:kept + read], 0, 0, [], self.frames
        while True:
            answer, written = self.step(block, at, STEP_MEMORY)
            if answer[0] != "played":
                break
            at, records, lines = answer[-1], records + 1, lines + written
        played = (at, records, self.frames - before, len(lines))
        self.counts = [(n + more) % LARGEST for n, more in zip(self.counts, played)]
        text, rest = len(command.lines(lines)), block[at:]
        if answer[0] == "bad" and not (answer[1] == CUT_OFF and read):
            return ("stopped", answer[1], text), lines, buffer
        return ("played", text, len(rest)), lines, rest + buffer[len(rest):]

    def put_frames(self, bytes_, room):
        """Frames that stand end to end put to the meter, with so many bytes of lent memory: the answer, and the lines."""
        if self.meter.out_of_ranges():
            return ("refused", OUT_OF_RANGE), []
        if room < TEXT_OF_FRAMES * len(bytes_):
            return ("refused", SHORT_MEMORY), []
        lines = [listed(reply) for reply in self.replies(pieces(bytes_))]
        return ("put", len(command.lines(lines)), len(lines)), lines


def pieces(bytes_):
    """Bytes cut into frames by their data lengths; what has too few for that is the last piece."""
    cut = []
    while bytes_:
        end = 12 + bytes_[9] if len(bytes_) >= 12 else len(bytes_)
        cut.append(bytes_[:end])
        bytes_ = bytes_[end:]
    return cut


# ---- the output of run_replay_blocks ---------------------------------------------------------------------------------
def spoken(answer):
    """An answer as a line."""
    return " ".join(str(word) for word in answer)


def written(texts, room):
    """What is written of a text that is put into so many bytes of lent memory."""
    length = len(command.lines(texts))
    return ["too little memory"] if room < length else ["written %d" % length] + texts


class Program(Holding):
    """What run_replay_blocks holds between its lines."""

    def __init__(self):
        """Before the first call."""
        self.replay, self.buffer = Session([0] * 6), [0] * BUFFER
        self.room, self.size, self.kept = MEMORY, BUFFER, 0

    def call_begin(self, rest):
        """A session of an address."""
        address = list(bytes.fromhex(rest))[::-1]
        self.replay, self.kept = Session(address), 0
        answer = start(address)
        return [said(answer if isinstance(answer, int) else 0)]

    def call_called(self, rest):
        """A call of the replay program with so many words, its name among them, of which this is the second."""
        words, _, word = rest.partition(" ")
        address = replay_texts.address_of(word)
        if int(words) != 2:
            return written(replay_texts.usage(1), self.room)
        if address is None or isinstance(start(address), int):
            return written(replay_texts.usage(2), self.room)
        self.replay, self.kept = Session(address), 0
        return ["begun"]

    def call_number(self, rest):
        """A number of the session, in two halves."""
        which, high, low = numbers(rest)
        self.replay.counts[which] = high * 2 ** 32 + low
        return []

    def call_sizes(self, rest):
        """What later calls are lent, and how many bytes are kept."""
        self.room, self.size, self.kept = numbers(rest)
        assert self.room <= MEMORY and self.size <= BUFFER
        return []

    def call_block(self, rest):
        """Bytes read behind those kept, and a block played."""
        read = numbers(rest, 16)
        assert self.kept + len(read) <= BUFFER
        self.buffer[self.kept:self.kept + len(read)] = read
        return self.call_play(len(read))

    def call_play(self, rest):
        """A block played, with so many bytes read."""
        answer, lines, front = self.replay.play_block(self.buffer[:self.size], self.kept, int(rest), self.room)
        self.buffer[:self.size] = front
        moved = []
        if answer[0] == "played":
            self.kept = answer[-1]
            moved = front[:self.kept]
        shown = [("front " + hexed(moved)).rstrip(), spoken(["session"] + self.replay.counts)]
        return [spoken(answer)] + lines + shown + self.ending(answer, int(rest))

    def ending(self, answer, read):
        """What the replay program says behind an answer to a block with so many bytes read, where it is the last."""
        place, *counts = self.replay.counts
        if answer[0] != "played":
            return written([replay_texts.refusal(answer[1], place)], MEMORY)
        return [] if read else written([replay_texts.counts(*counts)], MEMORY)

    def call_frames(self, rest):
        """Frames put to the meter."""
        answer, lines = self.replay.put_frames(numbers(rest, 16), self.room)
        return [spoken(answer)] + lines

    def call_refusal(self, rest):
        """The text of a refusal at the session's place."""
        return written([replay_texts.refusal(int(rest), self.replay.counts[0])], self.room)

    def call_counts(self, _rest):
        """The text of the session's other numbers."""
        return written([replay_texts.counts(*self.replay.counts[1:])], self.room)

    def call_usage(self, rest):
        """The text of how the replay program is called."""
        return written(replay_texts.usage(int(rest)), self.room)

    def call_address(self, rest):
        """The address read from a text."""
        address = replay_texts.address_of(rest)
        return ["no address " + hexed([0] * 6)] if address is None else ["address " + hexed(address)]


def script():
    """The lines of the script of run_replay_blocks."""
    with contextlib.redirect_stdout(io.StringIO()) as text:
        replay_block_scripts.script()
    return text.getvalue().split("\n")[:-1]


def files():
    """The stored files of run_replay_blocks."""
    calls = script()
    return {
        "crates/run_replay_blocks/stdin": command.lines(calls),
        "crates/run_replay_blocks/stdout": command.lines(Program().output(calls)),
    }


def write():
    """Writes the stored files of run_replay_blocks."""
    command.write(files())


# ---- the model against the papers ------------------------------------------------------------------------------------
def selftest_blocks():
    """A trace cut into two blocks at every byte, and into blocks of every size, is the trace played as a whole."""
    trace = pulse(0, 1, 12345678) + heard(A) + [0x04, 1, 0x05] + heard(C) + [0x02]
    lines, _answer, holds = replayed(A[1:7], trace)
    records = 1 + len(A) + 2 + len(C) + 1
    cuts = [[trace[:n], trace[n:]] for n in range(1, len(trace))]
    cuts += [[trace[at:at + n] for at in range(0, len(trace), n)] for n in range(1, len(trace) + 1)]
    for blocks in cuts:
        session, buffer, kept, found = Session(A[1:7]), [0xEE] * 120, 0, []
        for block in blocks + [[]]:
            buffer[kept:kept + len(block)] = block
            (word, _text, kept), written_, after = session.play_block(buffer, kept, len(block), MEMORY)
            assert word == "played" and kept <= 6 and after[kept:] == buffer[kept:]
            found, buffer = found + written_, after
        assert kept == 0 and found == lines and session.holds() == holds and len(lines) == 2
        assert session.counts == [len(trace), records, 2, 2]


def selftest_refusals():
    """16 before 1, and that neither changes anything; 9 and 10 stop at the record's place, with those before it played."""
    first = heard(C)
    for buffer, kept, read, room, expected in (
        ([], 0, 0, 8192, ("played", 0, 0)), ([], 0, 0, 8191, ("refused", 1)), ([], 1, 0, MEMORY, ("refused", 1)),
        (first, 0, 24, 8192 + 18 * 24, ("played", 29, 0)), (first, 0, 24, 8191 + 18 * 24, ("refused", 1)),
        (first, 20, 4, 8192 + 18 * 24, ("played", 29, 0)), (first, 20, 5, MEMORY, ("refused", 1)),
        (first + [0x06, 0], 0, 26, MEMORY, ("stopped", 9, 29)), (first + [0x04, 2], 0, 26, MEMORY, ("stopped", 9, 29)),
        (first + [0x04], 0, 25, MEMORY, ("played", 29, 1)), (first + [0x04], 25, 0, MEMORY, ("stopped", 10, 29)),
        (first + [0x03, 7], 0, 26, MEMORY, ("played", 29, 2)), (first + [0x03, 7], 26, 0, MEMORY, ("stopped", 10, 29)),
    ):
        session, broken = Session(A[1:7]), Session([0xAA] * 6)
        before = copy.deepcopy(session.holds())
        answer, lines, after = session.play_block(buffer, kept, read, room)
        assert answer == expected and len(lines) == (expected[0] != "refused" and 24 <= len(buffer))
        if answer[0] == "refused":
            assert session.holds() == before and session.counts == [0] * 4 and after == buffer
        elif answer[0] == "stopped":
            assert session.counts == [24, 12, 1, 1] and after == buffer
        assert broken.play_block(buffer, kept, read, room) == (("refused", 16), [], buffer)


def selftest_put():
    """Frames put in order, each to the meter that the last one left; bytes that are no frame."""
    two = [2, 0, 0, 0, 0, 0]
    read_two, change = frame(two, 0x11, [1, 4, 0, 4]), frame([0xAA] * 6, 0x15, two)
    put = Session(A[1:7]).put_frames
    assert put([], 0) == (("put", 0, 0), []) and put(A, 559) == (("refused", 1), []) and put(A, 560)[0] == ("put", 33, 1)
    assert Session([0xAA] * 6).put_frames(A, 0) == (("refused", 16), [])
    session = Session(A[1:7])
    session.meter.set_key(True)
    _answer, lines = session.put_frames(read_two + A + change + A + read_two, MEMORY)
    assert [line.split()[:2] for line in lines] == [["000000000001", "91"], ["000000000002", "95"], ["000000000002", "91"]]
    assert pieces(A + C + A[:11]) == [A, C, A[:11]] and pieces([0] * 25) == [[0] * 12, [0] * 12, [0]]
    assert pieces(A[:9] + [200] + A[10:]) == [A[:9] + [200] + A[10:]]
    assert put([0] * 12 + A, MEMORY)[0] == ("put", 33, 1) and put([0] * 13 + A, MEMORY)[0] == ("put", 0, 0)


def selftest_texts():
    """Texts, and addresses."""
    assert written(["12345678"], 8) == ["too little memory"] and written(["12345678"], 9) == ["written 9", "12345678"]
    assert replay_texts.address_of("129078563412") == [0x12, 0x34, 0x56, 0x78, 0x90, 0x12]
    assert replay_texts.address_of("999999999999") == [0x99] * 6
    for text in ("", "12345678901", "1234567890123", "12345678901:", "/12345678901", "12345678901A", "-12345678901"):
        assert replay_texts.address_of(text) is None


def selftest():
    """Compares blocks with a whole trace, and puts refusals, frames and texts to the model."""
    selftest_blocks()
    selftest_refusals()
    selftest_put()
    selftest_texts()


if __name__ == "__main__":
    command.run(__doc__, {"write": write, "selftest": selftest})
