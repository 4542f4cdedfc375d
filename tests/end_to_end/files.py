"""Small SEG-Y files, byte by byte, without the program that is tested.

Places count from 0 here, so byte B of a file is place B - 1.
"""

import functools


def changed(content, *changes):
    """The bytes with some others over them; each change is ``'PLACE HEXADECIMAL'``."""
    made = bytearray(content)
    for change in changes:
        place, digits = change.split()
        start, new = int(place), bytes.fromhex(digits)
        made.extend(bytes(max(0, start + len(new) - len(made))))
        made[start:start + len(new)] = new
    return bytes(made)


def in_order(order, number, size):
    """A number in hexadecimal, in that order of bytes."""
    return (number % (1 << 8 * size)).to_bytes(size, order).hex()


def textual_header():
    """40 lines, each an EBCDIC C and 79 EBCDIC blanks."""
    return (b"\xc3" + b"\x40" * 79) * 40


def survey():
    """4332 bytes, big-endian, revision 1.0, 16-bit samples, two a trace: inline 10, crosslines 21 to 23."""
    heads = ["3216 0fa0", "3220 0002", "3224 0003", "3500 01", "3502 0001"]
    made = changed(textual_header() + bytes(400 + 732), *heads)
    for number, samples in enumerate(("0001fffe", "00030004", "fffb0006"), 1):
        start = 3600 + 244 * (number - 1)
        made = changed(
            made,
            f"{start + 4} {number:08x}",
            f"{start + 36} {100 * number:08x}",
            f"{start + 114} 0002",
            f"{start + 116} 0fa0",
            f"{start + 180} {1000 * number:08x}",
            f"{start + 184} {500:08x}",
            f"{start + 188} {10:08x}",
            f"{start + 192} {20 + number:08x}",
            f"{start + 240} {samples}",
        )
    return made


def extended():
    """4084 bytes, big-endian, revision 2.0, one trace with one header extension and two 16-bit samples."""
    return changed(
        textual_header() + bytes(400 + 484),
        "3216 0fa0",
        "3220 0002",
        "3224 0003",
        "3296 01020304",
        "3500 02",
        "3502 0001",
        "3506 00000001",
        "3604 00000001",
        "4080 00010002",
    )


def little():
    """3846 bytes, little-endian, revision 2.0, one trace of two 24-bit samples."""
    return changed(
        b"\x40" * 3200 + bytes(400 + 246),
        "3220 0200",
        "3224 0700",
        "3296 04030201",
        "3500 02",
        "3502 0100",
        "3840 ffffff000080",
    )


def varying():
    """135400 bytes, revision 1.0, three traces of 3, 2 and 65535 samples by their own headers."""
    return changed(survey()[:3600] + bytes(131800), "3502 0000", "3714 0003", "4204 ffff")


def deep():
    """4324 bytes: revision 2.0, varying, up to 3 header extensions, and 2 of its one trace."""
    made = changed(extended(), "3502 0000", "3506 00000003")
    return changed(made[:4080] + bytes(240) + b"\0\1\0\2", "3714 0002", "3996 0002")


def ended():
    """10732 bytes: the survey with two extended textual headers that end by themselves."""
    first = b"((Acme: Note))".ljust(3200)
    second = b"((Seg:  ENDtext))".ljust(3200)
    return changed(survey()[:3600], "3504 ffff") + first + second + survey()[-732:]


def ebcdic():
    """7532 bytes: the survey with one such header, in EBCDIC."""
    text = bytes.fromhex("4d4de2c5c77a40c59584e385a7a35d5d").ljust(3200, b"\x40")
    return ended()[:3600] + text + survey()[-732:]


def block():
    """7532 bytes: the survey with 3200 zeros behind its headers, which no field counts."""
    return survey()[:3600] + bytes(3200) + survey()[-732:]


def records():
    """10484 bytes: one trace, and two data trailer records of zeros."""
    return changed(extended(), "3528 00000002") + bytes(6400)


def noted():
    """The same, the first record with a stanza."""
    return changed(records(), "4084 " + b"((Acme: Tail))".hex())


def bare():
    """Three traces without a sample."""
    made = survey()
    return changed(made[:3840] + made[3844:4084] + made[4088:4328], "3220 0000")


def wide():
    """Two traces of the greatest sample of 8 bytes without a sign."""
    return changed(survey()[:3600] + 2 * (bytes(240) + b"\xff" * 8), "3220 0001", "3224 000c")


def some():
    """Two traces, of which the first has two header extensions and the second three."""
    made = deep()
    return changed(made + made[-724:-4] + bytes(244), f"{4324 + 240 + 156} 0003")


def float_line(order, form, major, *traces):
    """Floats on inline 10 and crosslines 21 and on: for each trace the patterns of its samples, in hexadecimal with commas between,
    or ``-`` for none. Of fixed length where they are equally many and the revision is not 0; the binary header has the first trace's
    number, and 0 where a trace has none. Bytes 3297-3300 tell the order in revision 2 alone."""
    patterns = [[] if trace == "-" else trace.split(",") for trace in traces]
    count = 0 if [] in patterns else len(patterns[0])
    fixed = all(len(one) == len(patterns[0]) for one in patterns)
    changes = [f"3216 {in_order(order, 4000, 2)}", f"3220 {in_order(order, count, 2)}", f"3224 {in_order(order, form, 2)}", f"3500 0{major}"]
    if major == 2:
        changes.append(f"3296 {in_order(order, 0x01020304, 4)}")
    if major != 0:
        changes.append(f"3502 {in_order(order, int(fixed), 2)}")
    traces = [float_trace(order, number, one) for number, one in enumerate(patterns, 1)]
    return changed(textual_header() + bytes(400), *changes) + b"".join(traces)


def float_trace(order, number, patterns):
    """A trace of float_line."""
    head = changed(
        bytes(240),
        f"4 {in_order(order, number, 4)}",
        f"114 {in_order(order, len(patterns), 2)}",
        f"188 {in_order(order, 10, 4)}",
        f"192 {in_order(order, 20 + number, 4)}",
    )
    return head + b"".join(int(one, 16).to_bytes(len(one) // 2, order) for one in patterns)


# two samples by the standard's tables: 1.0 and -118.625, and with a gain 1 and 2
TWO_SAMPLES = {1: "41100000,c276a000", 4: "00000001,00000002", 5: "3f800000,c2ed4000", 6: "3ff0000000000000,c05da80000000000"}


def floats(order, form, major):
    """Three traces of two such samples, with x 1000, 2000 and 3000."""
    made = float_line(order, form, major, *[TWO_SAMPLES[form]] * 3)
    length = (len(made) - 3600) // 3
    places = [f"{3600 + length * (number - 1) + 180} {in_order(order, 1000 * number, 4)}" for number in (1, 2, 3)]
    return changed(made, *places)


def grown(doublings, copies):
    """The survey's headers and many copies of its last trace."""
    return survey()[:3600] + survey()[-244:] * (1 << doublings) * copies


MAKERS = {
    "s.sgy": survey,
    "x.sgy": extended,
    "t.sgy": little,
    "v.sgy": varying,
    "deep.sgy": deep,
    "ended.sgy": ended,
    "ebcdic.sgy": ebcdic,
    "block.sgy": block,
    "tail.sgy": records,
    "noted.sgy": noted,
    "bare.sgy": bare,
    "wide.sgy": wide,
    "some.sgy": some,
    "none.sgy": lambda: survey()[:3600],
    "loose.sgy": lambda: changed(survey(), "3502 0000"),
    "t_own.sgy": lambda: changed(little(), "3502 0000", "3714 0200"),
    "untold.sgy": lambda: changed(little(), "3296 00000000"),
    "blanks.sgy": lambda: b"\x40" * 3200 + survey()[3200:],
}


@functools.cache
def content(name):
    """The bytes of a file of this module, by its name."""
    return MAKERS[name]()


def damaged(base, *changes):
    """A file ``bad.sgy`` for a table: one of this module with some bytes changed."""
    return "bad.sgy", changed(content(base), *changes)


def without_end(base, length):
    """A file ``bad.sgy`` for a table: the first bytes of one of this module."""
    return "bad.sgy", content(base)[:length]


def behind(made, count, trailer=0, filler=b"\xa5"):
    """The bytes with others behind the last trace, in front of the last ``trailer`` bytes."""
    at = len(made) - trailer
    return made[:at] + filler * count + made[at:]
