"""The texts of the replay program: the address that it reads, and what it writes on standard error. Only imported."""
from wire import packed

USAGE = ("usage: replay_trace ADDRESS < TRACE   plays a trace to a fresh meter of this address, twelve digits, and lists "
         "its replies")
NOT_ONE = "replay_trace: one argument is needed, the address of the meter"
BAD_ADDRESS = "replay_trace: the address has to be twelve digits, and not twelve nines"
# What a refusal of a record means, by document 02's numbers; of no other number anything is said.
MEANINGS = {
    9: "an unknown kind of record, or a field out of its range",
    10: "the trace ends inside the record",
}
DIGITS = "0123456789"


def refusal(number, place):
    """The line of a record that is refused, with its place in the whole trace."""
    meaning = ": " + MEANINGS[number] if number in MEANINGS else ""
    return "replay_trace: refused with %d at place %d%s" % (number, place, meaning)


def counts(records, frames, replies):
    """The line at the end of a trace."""
    return "replay_trace: records %d, frames put to the meter %d, replies %d" % (records, frames, replies)


def usage(reason):
    """The lines that say how the program is called: 0 where it was asked, 1 for arguments, 2 for the address."""
    return [[], [NOT_ONE], [BAD_ADDRESS]][reason] + [USAGE]


def address_of(text):
    """The address that twelve digits spell, highest first, as its bytes in the order of the wire; None of any other text."""
    if len(text) != 12 or not all(c in DIGITS for c in text):
        return None
    return packed(int(text), 6)
