"""Text fields, read and made after SCOPE 4 and the order of a text in SCOPE 6.2, and from nothing of the library."""
from annex_c_coder import decode, encode, pack
from sections import Refused


def parsed(field):
    """[(language, [(compression, mode, bytes)])], or 9. A field of nothing has no strings."""
    if not field:
        return []
    at = 0

    def take(n):
        nonlocal at
        if at + n > len(field):
            raise Refused(9)
        at += n
        return field[at - n:at]

    strings = []
    for _ in range(take(1)[0]):
        language = int.from_bytes(take(3), "big")
        segments = []
        for _ in range(take(1)[0]):
            compression, mode, size = take(3)
            segments.append((compression, mode, take(size)))
        strings.append((language, segments))
    if at != len(field):
        raise Refused(9)
    return strings


def string(field, k):
    strings = parsed(field)
    if k >= len(strings):
        raise Refused(13)
    return strings[k]


def segment_units(compression, mode, data):
    if (compression, mode) == (0, 0):
        return list(data)
    if (compression, mode) == (0, 0x3F):
        if len(data) % 2:
            raise Refused(11)
        return [data[i] << 8 | data[i + 1] for i in range(0, len(data), 2)]
    if mode == 0 and compression in (1, 2):
        units = decode(compression, data)
        if units is None:
            raise Refused(11)
        return units
    raise Refused(10)


def units(field, k):
    out = []
    for segment in string(field, k)[1]:
        out += segment_units(*segment)
    return out


def made(*strings):
    """A field of strings, each its segments (compression, mode, bytes); the languages are eng, spa, fre, ..."""
    languages = [b"eng", b"spa", b"fre", b"\x00\x00\x00", b"\xff\xff\xff", b"\x80\x01\x02"]
    out = bytes([len(strings)])
    for i, segments in enumerate(strings):
        out += languages[i % len(languages)] + bytes([len(segments)])
        for compression, mode, data in segments:
            out += bytes([compression, mode, len(data)]) + data
    return out


def plain(s):
    return 0, 0, s


def wide(s):
    return 0, 0x3F, s.encode("utf-16-be")


def packed(kind, s):
    """The end has a code after few characters; the full stop is one of them in both lists."""
    data = pack(encode(kind, s))
    assert decode(kind, data) == list(s)
    return kind, 0, data


# segments that are refused: 10, and twice 11
UNREAD = (3, 0, b"x")
ODD = (0, 0x3F, b"\x00A\x00")
BROKEN = (1, 0, b"\xff\xff")  # bits end early
