"""An encoder and a decoder of compressed segments, from the printed lists of data/ (prior, symbol, code) and not from the decode
tables: what the vectors expect is computed from them alone."""
import os

HERE = os.path.join(os.path.dirname(os.path.abspath(__file__)), "..")
END, ESCAPE = 0, 27


def printed(kind):
    """{prior: {code: symbol}}. Where only the escape is printed, either bit is the escape."""
    out = {}
    for line in open(os.path.join(HERE, "data", "annex-c-%d-codes.txt" % kind)):
        prior, symbol, code = line.split()
        out.setdefault(int(prior), {})[code] = int(symbol)
    for codes in out.values():
        if codes == {"1": ESCAPE}:
            codes["0"] = ESCAPE
    return out


LISTS = {1: printed(1), 2: printed(2)}


def code(kind, prior, symbol):
    """The printed code; of the two of a lone escape the printed one, 1."""
    return max((c for c, s in LISTS[kind][prior].items() if s == symbol), default=None)


def raw(kind, prior, char):
    return code(kind, prior, ESCAPE) + format(char, "08b")


def encode(kind, chars, end=True):
    """Each character coded where the list has a code for it, otherwise raw."""
    bits, prior = "", 0
    for char in list(chars) + ([END] if end else []):
        bits += code(kind, prior, char) or raw(kind, prior, char)
        prior = char
    return bits


def pack(bits, fill="0"):
    bits += fill * (-len(bits) % 8)
    return bytes(int(bits[i:i + 8], 2) for i in range(0, len(bits), 8))


def decode(kind, data):
    """The units, or None for a broken segment (refusal 11)."""
    bits = "".join(format(b, "08b") for b in data)
    units, prior, at = [], 0, 0
    while True:
        codes = LISTS[kind][prior]
        size = next((n for n in range(1, 12) if bits[at:at + n] in codes and at + n <= len(bits)), None)
        if size is None:
            return None
        symbol = codes[bits[at:at + size]]
        at += size
        if symbol == END:
            return units if len(bits) - at < 8 else None
        if symbol == ESCAPE:
            if len(bits) - at < 8:
                return None
            symbol = int(bits[at:at + 8], 2)
            at += 8
            if symbol > 127:
                return None
        units.append(symbol)
        prior = symbol
