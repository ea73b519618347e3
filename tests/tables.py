"""A reader of the fields of the five tables, and of an event's first advisory, from SCOPE 2 and 3 and from nothing of the
library. Texts and descriptor lists are read as the offset of their first byte and their length."""
from bodies import section_outcome
from sections import EIT, ETT, MGT, RRT, TVCT, Refused

ADVISORY = 0x87


class Bits:
    def __init__(self, s, start=9):
        self.s, self.at = s, 8 * start

    def take(self, bits):
        n = 0
        for _ in range(bits):
            n = 2 * n + (self.s[self.at // 8] >> 7 - self.at % 8 & 1)
            self.at += 1
        return n

    def reserved(self, bits):
        self.at += bits

    def place(self, bits):
        """A length of so many bits: where the bytes after it begin, and how many they are."""
        length = self.take(bits)
        start = self.at // 8
        self.at += 8 * length
        return [start, length]


def read_eit(body, extension):
    events = []
    for _ in range(body.take(8)):
        body.reserved(2)
        event = [body.take(14), body.take(32)]  # event_id, start_time
        body.reserved(2)
        event += [body.take(2), body.take(20)]  # ETM_location, length_in_seconds
        event += body.place(8)  # title
        body.reserved(4)
        events.append(event + body.place(12))
    return [extension, len(events)], events


def read_ett(body, extension):
    etm_id = body.take(32)
    start = body.at // 8
    return [extension, etm_id, start, len(body.s) - 4 - start], []


def read_mgt(body, _):
    tables = []
    for _ in range(body.take(16)):
        table = [body.take(16)]  # table_type
        body.reserved(3)
        table.append(body.take(13))  # PID
        body.reserved(3)
        table += [body.take(5), body.take(32)]  # version, number_bytes
        body.reserved(4)
        tables.append(table + body.place(12))
    body.reserved(4)
    return [len(tables)] + body.place(12), tables


def read_tvct(body, extension):
    channels = []
    for _ in range(body.take(8)):
        channel = [body.take(16) for _ in range(7)]  # short_name
        body.reserved(4)
        channel += [body.take(10), body.take(10)]  # major, minor
        channel += [body.take(8), body.take(32)]  # modulation, carrier
        channel += [body.take(16), body.take(16)]  # channel_TSID, program_number
        channel += [body.take(2), body.take(1), body.take(1)]  # ETM_location, access, hidden
        channel += [body.take(6), body.take(6), body.take(16)]  # six bits, service_type, source_id
        body.reserved(6)
        channels.append(channel + body.place(10))
    body.reserved(6)
    return [extension, len(channels)] + body.place(10), channels


def read_rrt(body, extension):
    name = body.place(8)
    dimensions = []
    for _ in range(body.take(8)):
        dimension = body.place(8)
        body.reserved(3)
        dimension.append(body.take(1))  # graduated_scale
        values = [body.place(8) + body.place(8) for _ in range(body.take(4))]
        dimensions.append(dimension + [len(values), values])
    body.reserved(6)
    return [extension, extension & 0xFF, *name, len(dimensions)] + body.place(10), dimensions


def read_descriptors(s, start, length):
    """Of each its tag, and where its content begins and how long that is."""
    bits, them = Bits(s, start), []
    while bits.at < 8 * (start + length):
        them.append([bits.take(8)] + bits.place(8))
    return them


def read_regions(s, start):
    """Of each region of an advisory its number, its pairs (dimension, value), its text's place."""
    bits, regions = Bits(s, start), []
    bits.reserved(2)
    for _ in range(bits.take(6)):
        region, pairs = bits.take(8), []
        for _ in range(bits.take(8)):
            dimension = bits.take(8)
            bits.reserved(4)
            pairs.append((dimension, bits.take(4)))
        regions.append((region, pairs, bits.place(8)))
    return regions


READ = {EIT: read_eit, ETT: read_ett, MGT: read_mgt, TVCT: read_tvct, RRT: read_rrt}


def read(s, kind):
    """The fields of a table of this kind and its entries, or one of 1 to 9."""
    said = section_outcome(s, kind)
    if isinstance(said, int):
        raise Refused(said)
    if said[0] == "9":
        raise Refused(9)
    return READ[kind](Bits(s), Bits(s, 3).take(16))


def entry(them, k):
    if k >= len(them):
        raise Refused(13)
    return them[k]


def first_advisory(s, event):
    """The regions of the event's first advisory, or None."""
    for tag, start, _ in read_descriptors(s, *event[6:]):
        if tag == ADVISORY:
            return read_regions(s, start)
    return None


def advisory_text(regions, region):
    """The place of the text of the first such region."""
    return entry([place for number, _, place in regions or [] if number == region], 0)
