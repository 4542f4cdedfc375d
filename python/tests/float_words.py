"""What the bytes of float samples say, and what is printed for them: from the standard's section and IEEE 754, by struct, fractions and numpy, and not by the program."""

import struct
from fractions import Fraction
from typing import Iterable, Optional, Sequence, Union

import numpy as np

NAN = float("nan")
WIDTHS = {1: 4, 5: 4, 6: 8}
IBM_GREATEST = (2**24 - 1) << 4 * 127  # in units of 2**-280


def value_of(format: int, pattern: int) -> float:
    """The value of a sample's bytes, read as one number."""
    if format == 5:
        return float(struct.unpack(">f", struct.pack(">I", pattern))[0])
    if format == 6:
        return float(struct.unpack(">d", struct.pack(">Q", pattern))[0])
    size = Fraction(pattern % 2**24, 2**24) * Fraction(16) ** (pattern // 2**24 % 128 - 64)
    return -float(size) if pattern >> 31 else float(size)


def halves_to_even(number: Fraction) -> int:
    """The nearest whole number."""
    return round(number)


def ibm_pattern(negative: bool, size: Fraction) -> Optional[int]:
    """The IBM pattern nearest to a number, ties to even; none past the greatest."""
    sign = int(negative) << 31
    units = size * 2**280
    exponent = 0
    while units >= 16 ** (exponent + 6):
        exponent += 1
    fraction = halves_to_even(units / 16**exponent)
    if fraction == 2**24:
        fraction, exponent = 2**20, exponent + 1
    return None if exponent > 127 else sign + (exponent << 24) + fraction


def size_of(word: str) -> Fraction:
    """What a decimal without a sign writes; an exponent of more than five digits says as much as 10**5 does."""
    digits, _, power = word.lower().partition("e")
    if len(power.strip("+-").lstrip("0")) > 5:
        power = "-100000" if power.startswith("-") else "100000"
    whole = Fraction(digits if digits[-1] != "." else digits[:-1])
    return whole and whole * Fraction(10) ** int(power or 0)


def nearest(word: str, digits: int, least: int, greatest: int) -> Optional[float]:
    """A decimal in binary with so many digits, ties to even: exponents of 2 from ``least``; none where it is past the greatest."""
    negative = word.startswith("-")
    size = size_of(word.lstrip("-"))
    exponent = max(least, (size.numerator.bit_length() - size.denominator.bit_length()) - digits - 1)
    while size >= Fraction(2) ** (exponent + digits):
        exponent += 1
    count = halves_to_even(size / Fraction(2) ** exponent)
    if count == 2**digits:
        count, exponent = count // 2, exponent + 1
    if exponent > greatest:
        return None
    value = float(Fraction(count) * Fraction(2) ** exponent)
    return -value if negative else value


def pattern_of(format: int, word: str) -> Optional[int]:
    """The pattern that a word of ``patch`` becomes; none where it is E04."""
    if format == 1:
        return None if word in ("nan", "inf", "-inf") else ibm_pattern(word.startswith("-"), size_of(word.lstrip("-")))
    if word in ("nan", "inf", "-inf"):
        value = float(word)
    elif format == 5:
        narrow = nearest(word, 24, -149, 104)
        if narrow is None:
            return None
        value = narrow
    else:
        wide = nearest(word, 53, -1074, 971)
        if wide is None:
            return None
        value = wide
    if value != value:
        return 0x7FC00000 if format == 5 else 0x7FF8000000000000
    return int.from_bytes(struct.pack(">f" if format == 5 else ">d", value), "big")


def word_of(format: int, value: Union[float, np.floating]) -> str:
    """What is printed for a value: the shortest decimal that reads back as it, without ``.0`` up to 2**53."""
    if value != value:
        return "nan"
    if np.isinf(value):
        return "-inf" if value < 0 else "inf"
    narrow = format == 5
    # digits and exponent of the shortest decimal, by numpy
    text = np.format_float_scientific(np.float32(value) if narrow else np.float64(value), unique=True, trim="-")
    sign, text = ("-", text[1:]) if text.startswith("-") else ("", text)
    mantissa, power = text.split("e")
    digits = mantissa.replace(".", "")
    point = int(power) + 1  # so many digits stand before the point
    if float(value) == 0:
        return sign + "0"
    most = 13 if narrow else 16
    if len(digits) <= point <= most:
        return sign + digits + "0" * (point - len(digits)) + ("" if abs(float(value)) <= 2**53 else ".0")
    if 0 < point <= most:
        return f"{sign}{digits[:point]}.{digits[point:]}"
    if (-6 if narrow else -5) < point <= 0:
        return f"{sign}0.{'0' * -point}{digits}"
    return f"{sign}{digits[0]}{'.' if digits[1:] else ''}{digits[1:]}e{point - 1}"


def line(format: int, traces: Sequence[Iterable[int]], order: str = "big", revision: int = 1, interval: int = 4000) -> bytes:
    """The bytes of a file on inline 10, crosslines 21 and on: a trace for each list of patterns. Of its own make: no other tool writes it."""
    mark = ">" if order == "big" else "<"
    lengths = [len(list(trace)) for trace in traces]
    fixed = revision > 0 and len(set(lengths)) <= 1
    binary = bytearray(400)
    struct.pack_into(mark + "H", binary, 16, interval)
    struct.pack_into(mark + "H", binary, 20, lengths[0] if lengths and all(lengths) else 0)
    struct.pack_into(mark + "H", binary, 24, format)
    binary[300] = revision
    struct.pack_into(mark + "H", binary, 302, int(fixed))
    if revision == 2:
        struct.pack_into(mark + "I", binary, 96, 0x01020304)
    parts = [bytes([0xC3] + [0x40] * 79) * 40, bytes(binary)]
    for number, trace in enumerate(traces, 1):
        header = bytearray(240)
        struct.pack_into(mark + "I", header, 4, number)
        struct.pack_into(mark + "H", header, 114, lengths[number - 1])
        struct.pack_into(mark + "H", header, 116, interval)
        struct.pack_into(mark + "I", header, 188, 10)
        struct.pack_into(mark + "I", header, 192, 20 + number)
        parts += [bytes(header), *(pattern.to_bytes(WIDTHS[format], order) for pattern in trace)]  # type: ignore[arg-type]
    return b"".join(parts)
