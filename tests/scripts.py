"""The calls of the script that put frames to the meter, and the functions that write them. Only imported."""
from printed import manual_frames
from wire import REGISTERS, di, frame, hexed

ONE = [0x01, 0, 0, 0, 0, 0]
FULL = [0x12, 0x34, 0x56, 0x78, 0x90, 0x12]
AA = [0xAA] * 6
ZERO3, ZERO4 = [0, 0, 0], [0, 0, 0, 0]


def put(f):
    """Bytes put to the meter."""
    print("frame " + hexed(f))


def fresh(address=FULL, key=True):
    """A fresh meter, mostly with the key on."""
    print("meter " + hexed(address))
    if key:
        print("key 1")


def read(identifier, address=FULL):
    """A read put to the meter."""
    put(frame(address, 0x11, di(identifier)))


def write(identifier, value, level=4, password=ZERO3, operator=ZERO4, address=FULL):
    """A write put to the meter."""
    put(frame(address, 0x14, di(identifier) + [level] + password + operator + value))


def title(text):
    """A comment of the script."""
    print("# " + text)


def manual():
    """The manual's complete example frames, misprinted ones too."""
    title("the manual's frames, each to a fresh meter 000000000001")
    for number_, bytes_ in manual_frames():
        print("# line " + number_)
        fresh(ONE, key=False)
        put(bytes_)


def order():
    """Two faults or more at once, for each pair of neighbouring checks."""
    title("16 before 1: a reading above its range, and 211 bytes of memory")
    fresh()
    print("reading 1 12 4 100000000")
    print("memory 211")
    read(0x00010000)
    title("16 for each part: the address, the last register, the first reading; and at its limit none")
    fresh()
    print("address " + hexed([0x99] * 6))
    read(0x00010000)
    print("address " + hexed([0x1A, 0, 0, 0, 0, 0]))
    print("settle")
    fresh()
    print("register 20 9A")
    print("key 0")
    print("pulse 1 0 1")
    fresh()
    print("reading 0 0 0 100000000")
    print("settle")
    print("pulse 1 2 9")
    print("reading 0 0 0 99999999")
    print("settle")
    print("pulse 1 2 1")
    print("pulse 1 0 5")
    print("pulse 1 0 0")
    print("pulse 1 1 4")
    title("8 for a bad address: what comes back is refused with 16")
    fresh([0x99] * 6, key=False)
    print("key 1")
    fresh([0xAA, 0, 0, 0, 0, 0], key=False)
    print("settle")
    title("1 before 2: 211 bytes of memory, and no frame")
    fresh()
    print("memory 211")
    print("frame 68")
    title("1 before 3 and before a reply: the frame is for nobody, and for this meter")
    put(frame(FULL, 0x12, []))
    read(0x00010000)
    print("memory 212")
    read(0x00010000)
    title("2 before 3: not one frame, and an unknown control")
    f = frame(ONE, 0x12, [])
    put(f[:-1] + [0x17])
    put([0xFE] + f)
    put(f + [0x16])
    put(f + f)
    print("frame")
    put(f[:-2] + [f[-2] ^ 1, 0x16])
    title("3 for controls: those of replies, and others of the standard, though the address is right")
    for control in (0x91, 0xD1, 0x51, 0x31, 0x12, 0x19, 0x08, 0x16, 0x1A):
        put(frame(FULL, control, di(0x00010000)))
    title("3 for addresses, though the data are wrong too")
    put(frame(ONE, 0x11, []))
    put(frame(ONE, 0x14, []))
    put(frame(ONE, 0x18, []))
    put(frame(ONE, 0x13, [1]))
    put(frame(FULL, 0x13, []))
    put(frame(FULL, 0x15, ONE))
    put(frame(AA, 0x11, di(0x00010000)))
    put(frame(AA, 0x14, []))
    put(frame(AA, 0x18, []))
    put(frame([0x99] * 6, 0x11, di(0x00010000)))
    for k in range(7):
        title("11 with %d low bytes and AA above" % k)
        put(frame(FULL[:k] + [0xAA] * (6 - k), 0x11, di(0x00010000)))
    title("no wildcard: AA below, in the middle, half bytes, 00 in place of AA; 14 and 18 to a short address")
    put(frame([0xAA] + FULL[1:], 0x11, di(0x00010000)))
    put(frame(FULL[:2] + [0xAA] + FULL[3:], 0x11, di(0x00010000)))
    put(frame(FULL[:5] + [0x1A], 0x11, di(0x00010000)))
    put(frame(FULL[:5] + [0xA2], 0x11, di(0x00010000)))
    put(frame(FULL[:3] + [0, 0, 0], 0x11, di(0x00010000)))
    put(frame(FULL[:3] + [0xAA, 0, 0xAA], 0x11, di(0x00010000)))
    put(frame([0x13] + [0xAA] * 5, 0x11, di(0x00010000)))
    put(frame(FULL[:5] + [0xAA], 0x14, []))
    put(frame(FULL[:5] + [0xAA], 0x18, []))
    title("00 in a meter's address is not AA, and AA matches whatever it holds")
    fresh([0x12, 0x34, 0, 0, 0, 0])
    put(frame([0x12, 0x34, 0xAA, 0xAA, 0xAA, 0xAA], 0x11, di(0x00010000)))
    put(frame([0x12, 0x34, 0x56, 0xAA, 0xAA, 0xAA], 0x11, di(0x00010000)))

    title("11: L (01) before the identifier (02)")
    fresh()
    for n in (0, 3, 5, 6, 200):
        put(frame(FULL, 0x11, ([0xFF] * 200)[:n]))
    put(frame(FULL, 0x11, di(0x00010000) + [1]))
    read(0x0001FFFF)
    title("13: L = 0")
    put(frame(AA, 0x13, []))
    put(frame(AA, 0x13, [0]))

    title("14: L (01) before the identifier (02)")
    fresh(key=False)
    put(frame(FULL, 0x14, []))
    put(frame(FULL, 0x14, di(0x02010100) + [9] + ZERO3 + [0] * 3))
    put(frame(FULL, 0x14, di(0x02010100) + [9] + ZERO3 + [0] * 43))
    title("14: the identifier (02) before writable, key, password, length and content (04, 01)")
    write(0x02010100, [], level=9)
    write(0x0001FFFF, [0xAA], level=9)
    write(0x04000C01, [0xAA], level=9)
    write(0x04000B04, [0xAA] * 38, level=9)
    title("14: writable (04) before the length (01), with the key on and the password right: energies, the address")
    fresh()
    write(0x00010000, [])
    write(0x0002FF0C, [0xAA] * 20)
    write(0x04000401, FULL)
    write(0x04000401, ONE[:5])
    title("14: the key (04) before the length (01), password right")
    fresh(key=False)
    write(0x04000103, [])
    write(0x04000103, [0x30])
    write(0x04000103, [0x30, 0x30], level=9)
    title("14: level and password (04) before the length (01) and the content (01)")
    fresh()
    write(0x04000103, [], level=5)
    write(0x04000103, [0x30], level=5)
    write(0x04000103, [0x30], level=0xFF)
    write(0x04000103, [0xAA], password=[0, 0, 1])
    write(0x04000103, [], password=[1, 0, 0])
    write(0x04000103, [0x61], password=[0, 1, 0])
    for level in range(6):
        write(0x04000103, [0x30], level=level, operator=[level] * 4)
    title("14: the length (01) before the content, both 01; then what is held")
    write(0x04000101, [0xAA] * 5)
    write(0x04000101, [0xAA] * 3)
    print("show")

    title("18: L (01) before the identifier (02)")
    fresh(key=False)
    for n in (0, 11, 13):
        put(frame(FULL, 0x18, (di(0x04000D01) + [0] + ZERO3 + [0] + ZERO3 + [0])[:n]))
    title("18: the identifier (02) before the key (04): another n, another DI1, a new level of 10, and of 255")
    for identifier, new in ((0x04000C02, 0), (0x04000D01, 0), (0x04000C0B, 10), (0x04000C00, 255), (0x04000D00, 255)):
        put(frame(FULL, 0x18, di(identifier) + [11] + [9, 9, 9] + [new] + [0xAA] * 3))
    title("18: the key (04) before the new password (01)")
    put(frame(FULL, 0x18, di(0x04000C05) + [4] + ZERO3 + [4] + [0xAA] * 3))
    title("18: old level and password (04) before the new password (01)")
    fresh()
    put(frame(FULL, 0x18, di(0x04000C05) + [5] + ZERO3 + [4] + [0xAA] * 3))
    put(frame(FULL, 0x18, di(0x04000C05) + [5] + ZERO3 + [4] + [1, 2, 3]))
    put(frame(FULL, 0x18, di(0x04000C05) + [4] + [0, 0, 1] + [4] + [0xAA] * 3))
    put(frame(FULL, 0x18, di(0x04000C05) + [0xFF] + ZERO3 + [4] + [1, 2, 3]))
    put(frame(FULL, 0x18, di(0x04000C05) + [4] + ZERO3 + [4] + [0x10, 0x20, 0x3A]))
    print("show")
    title("18: the password of the old level, and not of the new, is asked")
    put(frame(FULL, 0x18, di(0x04000C05) + [4] + ZERO3 + [4] + [0x11, 0x22, 0x33]))
    put(frame(FULL, 0x18, di(0x04000C05) + [2] + [0x11, 0x22, 0x33] + [4] + [0x44, 0x55, 0x66]))
    put(frame(FULL, 0x18, di(0x04000C05) + [2] + ZERO3 + [4] + [0x44, 0x55, 0x66]))
    put(frame(FULL, 0x18, di(0x04000C0A) + [9] + ZERO3 + [9] + [0x99, 0x99, 0x99]))
    put(frame(FULL, 0x18, di(0x04000C01) + [0] + ZERO3 + [0] + [0x01, 0x02, 0x03]))
    write(0x04000103, [0x31], level=4, password=[0x11, 0x22, 0x33])
    write(0x04000103, [0x32], level=4, password=[0x44, 0x55, 0x66])
    write(0x04000103, [0x33], level=0, password=[0x01, 0x02, 0x03])
    print("show")

    title("15: L, key and new address, each wrong alone and all at once; silence")
    fresh(key=False)
    put(frame(AA, 0x15, [0x99] * 5))
    put(frame(AA, 0x15, ONE))
    fresh()
    put(frame(AA, 0x15, ONE[:5]))
    put(frame(AA, 0x15, ONE + [0]))
    put(frame(AA, 0x15, [0x99] * 6))
    put(frame(AA, 0x15, [0x1A] + ONE[1:]))
    put(frame(AA, 0x15, AA))
    title("15: the reply comes from the new address; the old one is nobody's then")
    put(frame(AA, 0x15, ONE))
    read(0x04000401)
    read(0x04000401, ONE)
    put(frame(AA, 0x13, []))
    print("show")


def edges():
    """The edge values of every range, written and read back."""

    def tries(name, identifier, values):
        """Values written into an item, each read back."""
        title(name)
        fresh()
        for v in values:
            write(identifier, v, operator=[0x12, 0x34, 0xAB, 0xCD])
            read(identifier)

    tries("period: 00, 01, 60, 61, 3C, 99, 0A, A0", 0x04000103, [[v] for v in (0x00, 0x01, 0x60, 0x61, 0x3C, 0x99, 0x0A, 0xA0)])
    tries("slip: 00, 01, 60, 61, 3C", 0x04000104, [[v] for v in (0x00, 0x01, 0x60, 0x61, 0x3C)])
    tries("date: 00-01-01, months 00 and 13, days 00 and 32, weekdays 06 and 07, years 99 and 9A",
          0x04000101,
          [[6, 1, 1, 0], [6, 1, 0, 0], [6, 1, 0x13, 0], [6, 0, 1, 0], [6, 0x32, 1, 0], [0, 1, 1, 0], [7, 1, 1, 0],
           [6, 1, 1, 0x99], [6, 1, 1, 0x9A], [7, 0x32, 0x13, 0x9A], [0x0A, 1, 1, 0], [6, 0x1F, 1, 0], [6, 1, 0x0C, 0]])
    tries("date: 31 in every month", 0x04000101, [[0, 0x31, m, 0x26] for m in (1, 2, 3, 4, 5, 6, 7, 8, 9, 0x10, 0x11, 0x12)])
    tries("time: 23:59:59, 24 hours, 60 minutes, 60 seconds, a half byte", 0x04000102,
          [[0x59, 0x59, 0x23], [0, 0, 0x24], [0, 0x60, 0], [0x60, 0, 0], [0, 0, 0], [0x0A, 0, 0], [0, 0, 0x1A]])
    tries("meter number: any twelve digits", 0x04000402, [[0x99] * 6, [0] * 6, [0x12] * 5 + [0xA0], [0x12] * 6, [0xA2] + [0x12] * 5])
    for day in (1, 2, 3):
        tries("settlement day %d: 9999, 99 with 00 both ways, 28 and 29, 00, hours 23 and 24, half bytes" % day,
              0x04000B00 + day,
              [[0x99, 0x99], [0x00, 0x99], [0x99, 0x00], [0x99, 0x01], [0x23, 0x28], [0x00, 0x29], [0x00, 0x00], [0x24, 0x01],
               [0x00, 0x01], [0x9A, 0x99], [0x99, 0xA9], [0x1A, 0x01]])
    title("every register holds its own bytes")
    fresh()
    for identifier, value in ((0x04000101, [1, 2, 3, 4]), (0x04000102, [5, 6, 7]), (0x04000103, [8]), (0x04000104, [9]),
                              (0x04000402, [0x10, 0x11, 0x12, 0x13, 0x14, 0x15]), (0x04000B01, [0x16, 0x17]), (0x04000B02, [0x18, 0x19]),
                              (0x04000B03, [0x20, 0x21])):
        write(identifier, value, operator=[value[0]] * 4)
    print("show")
    for identifier in sorted(REGISTERS):
        read(identifier)


def counting():
    """Pulses, settlements and what is read of them."""
    title("readings wrap at 100,000,000 on the last pulse")
    fresh(key=False)
    print("pulse 99999999 0 1")
    read(0x0001FF00)
    print("pulse 1 0 1")
    read(0x0001FF00)
    print("pulse 4294967295 0 2")
    read(0x0001FF00)
    print("pulse 5032704 0 3")
    read(0x0001FF00)
    print("pulse 0 0 4")
    read(0x0001FF00)
    read(0x0002FF00)
    print("pulse 4294967295 1 4")
    print("pulse 4294967295 1 4")
    read(0x0002FF00)
    title("a total of 123456.78 kWh")
    fresh(ONE, key=False)
    print("pulse 12345678 0 1")
    read(0x00010000, ONE)
    title("settlements move every row of both directions and keep row 0")
    fresh(key=False)
    for i in range(1, 15):
        print("pulse %d 0 %d" % (i * 1000 + 11, i % 4 + 1))
        print("pulse %d 1 %d" % (i * 7, (i + 1) % 4 + 1))
        print("settle")
        if i in (1, 2, 12, 13, 14):
            for direction in (1, 2):
                for t in (0, 1, 2, 3, 4):
                    read(direction << 16 | t << 8 | 0xFF)
    for direction in (1, 2):
        for s in range(13):
            read(direction << 16 | 0xFF00 | s)
    title("single readings, and identifiers beside the table")
    for identifier in (0x00010000, 0x0001040C, 0x0001000C, 0x00010400, 0x0002040C, 0x00010500, 0x0001000D, 0x0001FF0D, 0x000105FF, 0x0001FFFF,
                       0x0002FFFF, 0x00030000, 0x00000000, 0x01010000, 0x00150000, 0x0001FE00, 0x000100FE, 0x04000100, 0x04000105, 0x040001FF,
                       0x04000400, 0x04000403, 0x04000401, 0x04000B00, 0x04000B04, 0x04000BFF, 0x04000C01, 0x04010101, 0x05000101, 0xFFFFFFFF):
        read(identifier)
    print("show")


def script():
    """Prints these calls."""
    manual()
    order()
    edges()
    counting()
