"""Sections and their checksum, built from SCOPE 1 and from nothing of the library."""

KINDS = {  # table_id: (name, smallest, largest, largest last_section_number)
    0xC7: ("mgt", 14, 4093, 0),
    0xC8: ("tvct", 13, 1021, 255),
    0xCA: ("rrt", 18, 1021, 0),
    0xCB: ("eit", 11, 4093, 255),
    0xCC: ("ett", 15, 4093, 0),
}
MGT, TVCT, RRT, EIT, ETT = KINDS


def byte_in(r, byte):
    """The checksum's register after one byte, bit by bit: polynomial 0x04C11DB7, high bit first."""
    for k in range(7, -1, -1):
        out = r >> 31
        r = r << 1 & 0xFFFFFFFF
        if out != byte >> k & 1:
            r ^= 0x04C11DB7
    return r


TABLE = [byte_in(0, byte) for byte in range(256)]


class Refused(Exception):
    """Its argument is the refusal's number."""


def register(data):
    """The register after the bytes, from all ones."""
    r = 0xFFFFFFFF
    for byte in data:
        r = r << 8 & 0xFFFFFFFF ^ TABLE[r >> 24 ^ byte]
    return r


def sealed(data):
    return data + register(data).to_bytes(4, "big")


def section(table_id, body, extension=0, version=0, current=1, number=0, last=0, protocol=0,
            flags=0xF, reserved=3, length=None):
    """A section with a right checksum. `flags` are the four bits before section_length."""
    if length is None:
        length = 6 + len(body) + 4
    head = bytes([table_id]) + (flags << 12 | length).to_bytes(2, "big")
    head += extension.to_bytes(2, "big")
    head += bytes([reserved << 6 | version << 1 | current, number, last, protocol])
    return sealed(head + body)


def header_outcome(s, asked=0):
    """Tests 1 to 8 in order; the refusal's number, or the header's values."""
    if len(s) < 3:
        return 1
    if s[0] not in KINDS or asked not in (0, s[0]):
        return 2
    _, smallest, largest, most = KINDS[s[0]]
    if not s[1] & 0x80 or not s[1] & 0x40:
        return 3
    length = (s[1] & 0x0F) << 8 | s[2]
    if not smallest <= length <= largest:
        return 4
    if len(s) != length + 3:
        return 5
    if register(s) != 0:
        return 6
    if s[8] != 0:
        return 7
    if s[6] > s[7] or s[7] > most:
        return 8
    return (s[0], s[3] << 8 | s[4], s[5] >> 1 & 31, s[5] & 1, s[6], s[7])


def spoiled(s):
    """A sound section spoiled in nine ways, for which it is refused by 1 to 9."""
    kind, body = s[0], s[9:-4]
    return [s[:2], sealed(b"\xc9" + s[1:-4]), section(kind, body, flags=0x7),
            section(kind, bytes(KINDS[kind][1] - 11)), s + b"\0", s[:-1] + bytes([s[-1] ^ 1]),
            section(kind, body, protocol=1), section(kind, body, number=1),
            section(kind, body + b"\0")]


assert register(b"123456789") == 0x0376E6E7
