"""Inputs for the desk: those at the edges of the rules, and recordings that a seed makes and damages."""
import os

MOST_LINES = 16384
TRUCK = os.path.join(os.path.dirname(os.path.abspath(__file__)), "..", "..", "examples", "truck.txt")


def text(labels, widths):
    lines = [b"own\t" + b"\t".join(labels)] + [b"iv\t%d" % w for w in widths]
    return b"".join(line + b"\n" for line in lines)


# Document 01's example, as it stands there.
EXAMPLE = text((b"c17", b"v204"), [300, 200] + [128, 64] * 8 + [300])
EXAMPLE_TEXT = b"customer\tvehicle\tat\tkind\tmain\tresponse\nc17\tv204\t0\tframe\tFFFF\t-\nc17\tv204\t18\tquiet\t-\t-\n"


# ## At the edges

BAD_WIDTHS = [b"", b"00", b"01", b"007", b"4294967296", b"4294967300", b"5000000000", b"04294967295", b"42949672950", b"18446744073709551616", b"99999999999999999999999", b"-1", b"-0", b"+1", b" 1", b"1 ", b"0x1", b"1e3", b"1.0", b"1_0", b"1,000", b"1\t", b"\t1", b"1\t2", b"1\r", b"1\0", b"\xd9\xa1", b"a"]

BAD_LINES = [b"", b"\r", b"\0", b"iv", b"iv ", b"iv 1", b"Iv\t1", b"IV\t1", b" iv\t1", b"iv \t1", b"v\t1", b"ivv\t1", b"\tiv\t1", b"\t1", b"1", b"own", b"own\tc", b"own\tc\tv", b"#", b"refused\t1"]

BAD_OWN = [b"", b"own", b"own\t", b"own\ta", b"own\t\t", b"own\t\tb", b"own\ta\t", b"own\ta\tb\t", b"own\ta\tb\tc", b"OWN\ta\tb", b"Own\ta\tb", b"own \ta\tb", b" own\ta\tb", b"own a b", b"ow\ta\tb", b"owns\ta\tb", b"own\ta b\tc", b"own\ta.b\tc", b"own\ta\tb\r", b"own\t\xc3\xa9\tb", b"iv\t1", b"own\t" + b"c" * 17 + b"\tv", b"own\tc\t" + b"v" * 17]


def among_good(line, before, after):
    return b"own\tc\tv\n" + b"iv\t64\n" * before + line + b"iv\t64\n" * after


def malformed():
    """Each kind of bad line in the first, a middle and the last place, closed and open."""
    for line in BAD_OWN:
        yield line
        yield line + b"\n"
        yield line + b"\niv\t64\niv\t64\n"
    for line in BAD_LINES + [b"iv\t" + width for width in BAD_WIDTHS]:
        yield line + b"\n" + among_good(b"", 2, 0)
        for before, after in ((0, 3), (7, 3), (7, 0)):
            yield among_good(line + b"\n", before, after)
        yield among_good(line, 7, 0)
    yield among_good(b"iv\t64", 7, 0)


def small():
    good = open(TRUCK, "rb").read()
    yield EXAMPLE
    yield good
    yield b""
    yield b"\n"
    yield b"\0"
    yield good[:-1]
    yield good + b"\n"
    for data in (EXAMPLE, good):
        yield data.replace(b"\n", b"\r\n")
        yield data.replace(b"\t", b" ")
        yield b"\xef\xbb\xbf" + data
    for size in range(1, 18):
        yield b"own\t" + b"c" * size + b"\tv\n"
        yield b"own\tc\t" + b"v" * size + b"\n"
    for byte in range(256):
        yield b"own\tc%c\tv\n" % byte
        yield among_good(b"iv\t3%c\n" % byte, 2, 2)
    for width in (b"0", b"1", b"9", b"10", b"4294967289", b"4294967290", b"4294967295"):
        yield among_good(b"iv\t" + width + b"\n", 2, 2)
    yield from malformed()


def large():
    for lines in (MOST_LINES - 1, MOST_LINES, MOST_LINES + 1, MOST_LINES + 2):
        yield text((b"c", b"v"), [64] * lines)
        yield text((b"c" * 16, b"v" * 16), [4294967295] * lines)
        yield text((b"c" * 16, b"v" * 16), ([300, 64] * lines)[:lines])
        yield text((b"c" * 16, b"v" * 16), [300] * lines) + b"iv"
        yield text((b"c" * 16, b"v" * 16), [4294967295] * (lines - 1)) + b"iv\t01\n"
    yield text((b"c", b"v"), [64] * 400000)
    yield b"own\tc\tv\n" + b"iv\t64" * 1000000
    yield b"own\t" + b"c" * 5000000
    yield b"\n" * 3000000


# ## By a seed

def check_byte(data):
    register = 0xFF
    for byte in data:
        register ^= byte
        for _ in range(8):
            register = ((register << 1) ^ (0x1D if register & 0x80 else 0)) & 0xFF
    return register ^ 0xFF


def bits(rng, data):
    passive, out = True, []
    for byte in data:
        for place in range(7, -1, -1):
            long = bool(byte >> place & 1) == passive
            out.append(rng.randint(97, 163) if long else rng.randint(35, 96))
            passive = not passive
    return out


def frame(rng):
    """One frame at widths anywhere in the receiving windows, sometimes with a response."""
    main = [rng.randrange(256) for _ in range(rng.randint(1, 9))]
    out = [rng.randint(164, 239)] + bits(rng, main + [check_byte(main)])
    kind = rng.choice(["", "", "plain", "checked"])
    if kind:
        response = [rng.randrange(256) for _ in range(rng.randint(1, 3))]
        out += [rng.randint(164, 239), rng.randint(35, 96) if kind == "plain" else rng.randint(97, 163)]
        out += bits(rng, response + ([check_byte(response)] if kind == "checked" else []))
    return out


EDGES = [0, 34, 35, 96, 97, 163, 164, 239, 240, 280, 281, 999999, 1000000, 4294967295]


def recording(rng, frames):
    out = [300]
    for _ in range(frames):
        out += frame(rng) + [rng.choice([240, 280, 300, 4294967295])]
    for _ in range(rng.choice([0, 0, 1, 2, 5])):
        out[rng.randrange(len(out))] = rng.choice(EDGES)
    return out[: rng.choice([len(out), rng.randint(0, len(out))])]


LABEL = b"abcxyzABCXYZ0129-_"


def label(rng):
    return bytes(rng.choice(LABEL) for _ in range(rng.randint(1, 16)))


DAMAGE = [b"\t", b"\n", b"\r", b"\r\n", b"\0", b"0", b"-", b" ", b"+1", b"\xc3\xa9", b"iv\t", b"own\t", b"4294967296", b"\n\n", b""]


def damaged(rng, data):
    data = bytearray(data)
    for _ in range(rng.choice([1, 1, 1, 2, 4])):
        at = rng.randint(0, len(data))
        data[at : at + rng.choice([0, 0, 1, 1, 2, 7])] = rng.choice(DAMAGE)
    return bytes(data[: rng.choice([len(data), len(data), rng.randint(0, len(data))])])


def good_file(rng, frames):
    return text((label(rng), label(rng)), recording(rng, frames)[:MOST_LINES])


def seeded(rng, cases):
    """So many damaged files; for every eight of them a good one, and for every thousand a long one."""
    for case in range(cases):
        yield damaged(rng, good_file(rng, rng.choice([0, 1, 1, 2, 3])))
        if case % 8 == 0:
            yield good_file(rng, rng.choice([1, 2, 3, 8]))
        if case % 1000 == 0:
            yield good_file(rng, 300)
