"""The frames that the papers print: document 01's cases, and the manual's complete examples. Only imported."""
from command import at_root


def bytes_of(text):
    """Bytes written in hexadecimal."""
    return list(bytes.fromhex(text))


# Document 01, "Frames to prove". I_WRONG is the first part of case I; E_ON is the reply to E with the key on.
A = bytes_of("68 01 00 00 00 00 00 68 11 04 33 33 34 33 B3 16")
B = bytes_of("68 01 00 00 00 00 00 68 91 08 33 33 34 33 AB 89 67 45 17 16")
C = bytes_of("68 AA AA AA AA AA AA 68 13 00 DF 16")
D = bytes_of("68 01 00 00 00 00 00 68 D1 01 35 D8 16")
E = bytes_of("68 01 00 00 00 00 00 68 14 0D 36 34 33 37 37 33 33 33 33 33 33 33 63 C5 16")
E_ON = bytes_of("68 01 00 00 00 00 00 68 94 00 65 16")
I_WRONG = bytes_of("68 01 00 00 00 00 00 68 11 04 33 33 34 33 B4 16")

# Document 01, "The listing program": the lines of A and of C.
A_LISTED, C_LISTED = "000000000001 11 00000100", "AAAAAAAAAAAA 13"

# The manual's reply of 15.82 kWh.
MANUAL_REPLY = bytes_of("68 01 00 00 00 00 00 68 91 08 33 33 34 33 B5 48 33 33 9A 16")


def manual_frames():
    """The manual's complete example frames, misprinted ones too: the line that each is printed at, and its bytes."""
    with open(at_root("tests/manual_frames.tsv"), encoding="utf-8") as table:
        rows = [line.rstrip("\n").split("\t") for line in table if not line.startswith("#")]
    return [(row[0], bytes_of(row[2])) for row in rows]
