"""Texts of a file: which code a block of 3200 bytes is in, what its lines show, the bytes of a line that is written, stanzas, and where texts
end; with bytes of code page 037, and stanzas of the standard's form."""

import pytest

from files import changed, content
from tables import SAME, case, check, refused, rows, saving

# the last byte of each row of hexadecimal stands behind, as often as a block has room for it
CODES = [
    ("", 0, "ascii"), ("41", 0x40, "ebcdic"), ("c3", 0x20, "ascii"), ("c34020", 0, "ebcdic"), ("c44020", 0, "ascii"), ("c3402020", 0, "ascii"),
]
ASCII = "ascii.sgy", b" " * 3200 + content("s.sgy")[3200:]


def block(front, fill):
    """A block that begins so, and has one other byte behind."""
    return front + bytes([fill]) * (3200 - len(front))


@pytest.mark.parametrize("front, fill, code", CODES)
def test_the_code_of_a_block(room, front, fill, code):
    made = block(bytes.fromhex(front), fill) + content("s.sgy")[3200:]
    check(room, case("code", ("text.sgy", made), "code 0", f"code {code}"))


SHOWN = [
    case(
        "lines in EBCDIC", ("text.sgy", changed(content("blanks.sgy"), "80 c340f140d3c9d5c5", "3199 5c")),
        "line 0 2 ; line 0 1 ; line 0 40", f"line |C 1 LINE| / line || / line |{' ' * 79}*|",
    ),
    # a carriage return, a backslash, and bytes without a character
    case(
        "what is no character", ("text.sgy", b"A\r\\~\x7f\xe0[" + ASCII[1][7:]),
        "line 0 1", "line |A\\0d\\5c~\\7f\\e0[|",
    ),
]

# ---- a line that is written: the text, and its bytes
SIGNS = "4b4c4d4e505b5c5d5e60616b6c6d6e6f7a7b7c7d7e7f"
LETTERS = "c1c9d1d9e2e94081899199a2a940f0f9"
EIGHTY = "123456789 " * 8
WRITTEN = [
    ("signs", "s.sgy", ".<(+&$*);-/,%_>?:#@'=\"", SIGNS),
    ("letters and digits", "s.sgy", "AIJRSZ aijrsz 09", LETTERS),
    ("80 characters", "s.sgy", EIGHTY, EIGHTY.encode("cp037").hex()),
    ("ASCII", ASCII, "C ~", "43207e"),
    ("nothing", ASCII, "", ""),
]


@pytest.mark.parametrize("file, text, digits", [pytest.param(*row[1:], id=row[0]) for row in WRITTEN])
def test_a_line_that_is_written(room, file, text, digits):
    made = content(file) if isinstance(file, str) else file[1]
    blank = 0x40 if isinstance(file, str) else 0x20
    line = bytes.fromhex(digits)
    saved = line + bytes([blank]) * (80 - len(line)) + made[80:]
    check(room, saving("written", file, f"text 1 {text}\n".encode(), "ok", saved=saved))


# the length is told before a character without a code, and that one by its place among the characters
NO_LINES = [
    ("81 characters, the first without a code", "s.sgy", "\u00e9" + EIGHTY[1:] + "1", "T01 too long"),
    ("no code", "s.sgy", "[", "T02 no code for column 1"),
    ("no code behind others", "s.sgy", "caf\u00e9\U0001d11e", "T02 no code for column 4"),
    ("a delete", "s.sgy", "a\x7f", "T02 no code for column 2"),
    ("a NUL", "s.sgy", "\0", "T02 no code for column 1"),
    ("a backslash in ASCII", ASCII, "[\\", "T02 no code for column 2"),
]


@pytest.mark.parametrize("file, text, fault", [pytest.param(*row[1:], id=row[0]) for row in NO_LINES])
def test_what_is_no_line(room, file, text, fault):
    check(room, case("no line", file, f"text 1 {text}\n".encode(), f"refused E07 {fault}", 1, saved=SAME))


# ---- an extended textual header between the binary header and the traces: its begin, the byte behind, and its stanzas
NOTE = bytes.fromhex("4d4dc18394857a40d596a3855d5d")
STANZAS = [
    ("in EBCDIC", NOTE, 0x40, ["Acme: Note"]),
    ("in ASCII", b"(((a)) ((a)b)) (()) (( ))((\x01c))d))", 0x20, ["a", " ", "\\01c"]),
]


def texted(front, fill, count):
    """The survey with one such block, and a number of them in its binary header."""
    return "text.sgy", changed(content("s.sgy")[:3600], f"3504 {count}") + block(front, fill) + content("s.sgy")[3600:]


@pytest.mark.parametrize("front, fill, names", [pytest.param(*row[1:], id=row[0]) for row in STANZAS])
def test_stanzas(room, front, fill, names):
    told = "".join(f"stanza 1 {name}\n" for name in names)
    check(room, case("stanzas", texted(front, fill, "0001"), "stanzas", f"stanzas {len(names)}\n{told}".encode()))


ENDS = [
    ("a stanza of the end", b"((SEG: EndText))", 0x20), ("blanks and further parentheses in it", b" ((( (seg\r\n: ENDTEXT ) )", 0x20),
    ("in EBCDIC", bytes.fromhex("4d0d4de2c5c7257a40c59584e385a7a35d5d"), 0x40),
]
NO_ENDS = [
    ("a tab in it", b" ((( (seg\r\n:\tENDTEXT))", 0x20), ("another word", b"((SEG: EndTexts))", 0x20), ("one parenthesis", b"((SEG: EndText)", 0x20),
]
END = [
    *[case(f"{name} ends the texts", texted(front, fill, "ffff"), "count", "traces 3") for name, front, fill in ENDS],
    *[refused(f"{name} does not", texted(front, fill, "ffff"), "L09 text count -1") for name, front, fill in NO_ENDS],
]


@pytest.mark.parametrize("row", rows(SHOWN + END))
def test_texts(room, row):
    check(room, row)
