"""Small SEG-Y files, byte by byte, without the package that is tested."""

import hashlib
import os
import struct


def header(code="C", blanks=0x40):
    """A textual header in EBCDIC."""
    return (bytes([0xC3]) + bytes([blanks]) * 79) * 40


def binary(samples=2, form=3, fixed=1, major=1, minor=0, blocks=0, extensions=0, interval=4000, **places):
    """The binary header; further places are given as ``at3513=(8, number)``."""
    made = bytearray(400)
    made[16:18] = struct.pack(">H", interval)
    made[20:22] = struct.pack(">H", samples)
    made[24:26] = struct.pack(">H", form)
    made[300], made[301] = major, minor
    made[302:304] = struct.pack(">h", fixed)
    made[304:306] = struct.pack(">h", blocks)
    made[306:310] = struct.pack(">i", extensions)
    for place, (size, number) in places.items():
        at = int(place[2:]) - 3201
        made[at:at + size] = number.to_bytes(size, "big", signed=number < 0)
    return bytes(made)


def trace(position, inline, crossline, samples, size=2, signed=True, told=None):
    """A trace; ``told`` is the number of samples that its header tells."""
    made = bytearray(240)
    made[4:8] = struct.pack(">i", position)
    made[114:116] = struct.pack(">H", len(samples) if told is None else told)
    made[116:118] = struct.pack(">H", 4000)
    made[188:192] = struct.pack(">i", inline)
    made[192:196] = struct.pack(">i", crossline)
    return bytes(made) + b"".join(one.to_bytes(size, "big", signed=signed) for one in samples)


def write(path, *parts):
    """The parts as a file."""
    path.write_bytes(b"".join(parts))
    return path


def cube(path, inlines=3, crosslines=4, samples=3):
    """A sound cube."""
    traces = [
        trace(1 + i * crosslines + x, 1 + i, 1 + x, [10 * i + x + k for k in range(samples)])
        for i in range(inlines)
        for x in range(crosslines)
    ]
    return write(path, header(), binary(samples=samples), *traces)


def floats(path, form=5, traces=3):
    """Traces of two IEEE or IBM floats, 1.0 and -2.0."""
    samples = {1: (0x41100000, 0xC1200000), 5: (0x3F800000, 0xC0000000)}[form]
    return write(path, header(), binary(form=form), *(trace(n, 1, n, samples, size=4, signed=False) for n in range(1, traces + 1)))


def odd_floats(path, form):
    """Traces of their own lengths, of floats of every kind: no numbers, infinities, zeros of both signs, the least, the greatest."""
    patterns = {
        1: [[0xC276A000, 0x42010000], [0x80000000], [0x7FFFFFFF, 0x00000001, 0x4019999A]],
        5: [[0xC2ED4000, 0x7FC00000], [0xFFC00001], [0x7F7FFFFF, 0x00000001, 0x3DCCCCCD, 0xFF800000, 0x80000000]],
        6: [[0xC05DA80000000000, 0x7FF8000000000000], [0x7FF0000000000001], [0x7FEFFFFFFFFFFFFF, 1, 0x3FB999999999999A, 0x7FF0000000000000, 1 << 63]],
    }[form]
    traces = [trace(n, n, 1, samples, size=8 if form == 6 else 4, signed=False) for n, samples in enumerate(patterns, 1)]
    return write(path, header(), binary(samples=2, form=form, fixed=0), *traces)


def varying(path):
    """Traces of 1, 2 and 3 samples of 8 unsigned bytes."""
    traces = [trace(n, n, 1, [2**64 - k - 1 for k in range(n)], size=8, signed=False) for n in (1, 2, 3)]
    return write(path, header(), binary(samples=2, form=12, fixed=0), *traces)


def stanzas(path):
    """Two extended textual headers with stanzas, and two traces."""
    ext = "((OGP:P1/90))".ljust(80).encode("cp037") + " ".ljust(79 * 40 + 40 - 80).encode("cp037")
    ext = ext.ljust(3200, b"\x40")
    end = "((SEG: EndText))".ljust(3200).encode("cp037")
    return write(path, header(), binary(blocks=2), ext, end, trace(1, 1, 1, [1, 2]), trace(2, 1, 2, [3, 4]))


def extended(path):
    """Revision 2.0 with a header extension for each trace."""
    made = []
    for n in (1, 2):
        whole = trace(n, n, n, [1, 2])
        extension = bytearray(240)
        extension[156:158] = struct.pack(">H", 1)
        made.append(whole[:240] + bytes(extension) + whole[240:])
    return write(path, header(), binary(major=2, fixed=0, extensions=1), *made)


def large(path, inlines=20, crosslines=96):
    """A file of more than 1,000,000,000 bytes that takes a few megabytes of the disk: its samples, 65535 of 8 bytes in each trace, are zeros that no
    one has written."""
    size = 240 + 8 * 65535
    with open(path, "wb") as file:
        file.write(header() + binary(samples=65535, form=9))
        for at in range(inlines * crosslines):
            file.seek(3600 + at * size)
            file.write(trace(at + 1, 101 + at // crosslines, 201 + at % crosslines, [], told=65535))
        file.truncate(3600 + inlines * crosslines * size)
    return path


def empty(path):
    """No traces."""
    return write(path, header(), binary())


def torn(path, places):
    """Writes into a file as a repair that is cut off: the journal beside it has the old bytes of these places, of which each has new ones."""
    old = path.read_bytes()
    found = os.stat(path)
    body = b"SEGYWBJL" + struct.pack("<4Q", 2, found.st_size, found.st_ino, 0)
    for at, new in places:
        body += struct.pack("<2Q", at, len(new)) + old[at:at + len(new)]
    journal = path.with_name(f".{path.name}.segywb-journal")
    journal.write_bytes(body + hashlib.md5(body).digest())
    with open(path, "r+b") as file:
        for at, new in places:
            file.seek(at)
            file.write(new)
    return journal
