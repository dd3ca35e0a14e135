"""Lines with mistakes in them, drawn by a sequence of random numbers."""

# what is put into lines
PIECES = [
    b"NaN",
    b"Infinity",
    b"-Infinity",
    b"-0",
    b"0.0",
    b"1e0",
    b"1e999",
    b"0e999",
    b"1e-999",
    b"18446744073709551615",
    b"18446744073709551616",
    b"-1",
    b"16",
    b"1" * 400,
    b"null",
    b"true",
    b'""',
    b'"\\ud800"',
    b'"\\ud83d\\ude00"',
    b'"\\u0061"',
    b'"\\udc00\\ud800"',
    b"[]",
    b"{}",
    b"[" * 126 + b"]" * 126,
    b"[" * 127 + b"]" * 127,
    b"[" * 2000 + b"]" * 2000,
    b"\xff",
    b"\xc3\xa9",
    b"\xed\xa0\x80",
    b"\x00",
    b"\t",
    b" ",
    b"\r",
    b"\x0b",
    b"\xef\xbb\xbf",
    b"//",
    b",",
    b":",
    b'"',
    b"\\",
    b"}",
    b"{",
    b'"slot":0,',
    b'"slot":1.5,',
    b'"cmd":"step",',
    b'"slot":"\\ud800",',
    b'"cmd":"login",',
    b'"user":"root",',
    b'"roles":["root"],',
    b'{"slot":1},',
    b'"slot":1e999,',
    b'"slot":[[[[]]]],',
    b'"x":{"x":{"x":0,"x":1}},',
]


def changed(line, numbers):
    """A line with some bytes of it changed, taken away or put in."""
    for _ in range(numbers.choice([0, 0, 1, 1, 1, 2, 3])):
        at, to = sorted(numbers.randrange(len(line) + 1) for _ in range(2))
        kind = numbers.randrange(8)
        if kind == 0:
            line = line[:at] + line[at + 1 :]
        elif kind == 1:
            line = line[:at] + bytes([numbers.randrange(256)]) + line[at:]
        elif kind == 2:
            line = line[:at] + bytes([numbers.randrange(256)]) + line[at + 1 :]
        elif kind == 3:
            line = line[:at] + numbers.choice(PIECES) + line[at:]
        elif kind == 4:
            line = line[:1] + numbers.choice(PIECES) + line[1:]
        elif kind == 5:
            line = with_value(line, numbers)
        elif kind == 6:
            line = with_double(line, numbers)
        elif to - at < 20:
            line = line[:at] + line[to:]
    return line.replace(b"\n", b"")


def with_value(line, numbers):
    """A line in which the text after a colon is another value."""
    at = line.find(b":", numbers.randrange(len(line) + 1))
    end = min(
        [place for place in (line.find(b",", at), line.find(b"}", at)) if place >= 0], default=-1
    )
    return line[: at + 1] + numbers.choice(PIECES) + line[end:] if 0 <= at < end else line


def with_double(line, numbers):
    """A line in which a key stands twice, spelt otherwise perhaps."""
    key = numbers.choice(
        [b'"slot"', b'"cmd"', b'"user"', b'"sl\\u006ft"', b'"op"', b'"roles"', b'"text"']
    )
    return line[:1] + key + b":" + numbers.choice(PIECES) + b"," + line[1:]


def flipped(line, numbers):
    """A line of which one bit is another one."""
    at = numbers.randrange(len(line))
    return line[:at] + bytes([line[at] ^ 1 << numbers.randrange(8)]) + line[at + 1 :]


def dropped(line, numbers):
    """A line without one of its bytes."""
    at = numbers.randrange(len(line))
    return line[:at] + line[at + 1 :]


def doubled(line, numbers):
    """A line in which a byte stands twice."""
    at = numbers.randrange(len(line))
    return line[:at] + line[at : at + 1] + line[at:]


def padded(line, length):
    """A line with blanks after it, to this length."""
    return line.ljust(length)
