"""Vectors of compressed segments, with the answers that the printed lists give; test_text.py writes them out."""
import random

from annex_c_coder import END, ESCAPE, LISTS, code, decode, encode, pack, raw

EDGE = 65535


def most(kind):
    """The segment of 255 bytes with the most units: by the best text of each number of bits that ends at each prior."""
    room = 255 * 8
    useful = [c for c in LISTS[kind] if set(LISTS[kind][c].values()) != {ESCAPE}]
    best = [dict() for _ in range(room + 1)]
    best[0][0] = (0, None)
    for used in range(room):
        for prior, (units, _) in best[used].items():
            for bits, symbol in LISTS[kind][prior].items():
                if symbol == END:
                    continue
                steps = useful if symbol == ESCAPE else [symbol]
                size = len(bits) + (8 if symbol == ESCAPE else 0)
                if used + size > room:
                    continue
                for char in steps:
                    old = best[used + size].get(char)
                    if old is None or old[0] < units + 1:
                        add = bits + (format(char, "08b") if symbol == ESCAPE else "")
                        best[used + size][char] = (units + 1, (used, prior, add))
    found = None
    for used in range(room + 1):
        for prior, (units, _) in best[used].items():
            stop = code(kind, prior, END)
            if stop and room - 8 < used + len(stop) <= room and (found is None or found[0] < units):
                found = (units, used, prior, stop)
    units, used, prior, bits = found
    while best[used][prior][1]:
        used, prior, add = best[used][prior][1]
        bits = add + bits
    return units, pack(bits)


def finish(kind, prior):
    """To the end by way of a raw full stop, which both lists can end after."""
    return raw(kind, prior, 46) + code(kind, 46, END)


def stem(kind, fits):
    """The bits of a short text without its end, and its last character, that fit."""
    for size in range(30):
        for last in range(65, 91):
            bits = encode(kind, [46] * size + [last], end=False)
            if fits(bits, last):
                return bits, last


def segments():
    def both(make):
        for kind in (1, 2):
            yield kind, pack(make(kind))

    # every printed code, after its prior given raw, and the unprinted bit of each lone escape
    for kind in (1, 2):
        for prior, codes in sorted(LISTS[kind].items()):
            for bits, symbol in sorted(codes.items()):
                text = raw(kind, 0, prior) + bits
                if symbol == ESCAPE:
                    text += format(65, "08b") + finish(kind, 65)
                elif symbol != END:
                    text += finish(kind, symbol)
                yield kind, pack(text)
    # annex F's worked example, 39 bits
    example = encode(1, b"The next")
    assert len(example) == 39 and pack(example).hex() == "4328dc84d4"
    yield 1, pack(example)
    yield 1, pack(example, "1")
    # 0 to 7 bits after the end, of either value, and 8 to 15
    for kind in (1, 2):
        for after in range(8):
            bits, last = stem(kind, lambda b, c: (len(b + finish(kind, c)) + after) % 8 == 0)
            for fill in "01":
                data = pack(bits + finish(kind, last) + fill * after)
                yield kind, data
                yield kind, data + b"\x00"
                yield kind, data + b"\xff"
    # no end: a text cut after each of its bytes; and an escape with 0 to 8 bits after it
    for kind in (1, 2):
        text = pack(encode(kind, b"A \x1b\x00q~."))
        for size in range(len(text) + 1):
            yield kind, text[:size]
        for after in range(9):
            bits, last = stem(kind, lambda b, c: (len(b + code(kind, c, ESCAPE)) + after) % 8 == 0)
            for fill in "01":
                yield kind, pack(bits + code(kind, last, ESCAPE) + fill * after)
    # raw 0 and raw 27 are characters, and the prior after each is that character
    yield from both(lambda k: raw(k, 0, 0) + raw(k, 0, 46) + code(k, 46, END))
    yield from both(lambda k: raw(k, 0, 0) + raw(k, 0, 0) + raw(k, 0, 46) + code(k, 46, END))
    yield from both(lambda k: raw(k, 0, 27) + raw(k, 27, 65) + finish(k, 65))
    yield from both(lambda k: raw(k, 0, 27) + raw(k, 27, 27) + raw(k, 27, 46) + code(k, 46, END))
    # raw 127 is plain, and its tree is two bytes 155; raw 128 and above are broken, whatever follows
    for char in (127, 128, 129, 200, 255):
        yield from both(lambda k: raw(k, 0, char) + "1" + format(65, "08b") + finish(k, 65))
        yield from both(lambda k: raw(k, 0, char) + "0" + format(65, "08b") + finish(k, 65))
    # no bytes; a byte of each value; bytes of one value
    yield 1, b""
    yield 2, b""
    for kind in (1, 2):
        for value in range(256):
            yield kind, bytes([value])
        for value in range(0, 256, 5):
            yield kind, bytes([value]) * 255
    # the most units that 255 bytes hold
    for kind in (1, 2):
        units, data = most(kind)
        assert len(data) == 255 and len(decode(kind, data)) == units
        print("type %d: 255 bytes hold at most %d units" % (kind, units))
        yield kind, data
    # chance: coded texts, and bytes of any value
    rng = random.Random(65)
    letters = b"etaoin shrdlu.ABCTHE'-,:;!?0123xyz~\x00\x1b\x7f"
    for kind in (1, 2):
        for size in list(range(1, 60)) + [100] * 20:
            text = [rng.choice(letters) for _ in range(size)] + [46]
            bits = encode(kind, text)
            if len(bits) <= 255 * 8:
                yield kind, pack(bits, rng.choice("01"))
        for _ in range(200):
            yield kind, bytes(rng.randrange(256) for _ in range(rng.randrange(1, 40)))


def answer(kind, data):
    """Judged and written; the output is shown with the units beside the text."""
    units = decode(kind, data)
    said = "refused 11" if units is None else "units %d" % len(units)
    return "%s %s: %s" % (said, said, " ".join(str(u) for u in [EDGE, *(units or []), EDGE]))


vectors = [(kind, (), data, answer(kind, data)) for kind, data in segments()]
