"""Test 9, the body of a section, written from SCOPE 2 and 4.1 and from nothing of the library.

The offset of a failure counts from the section's first byte and is that of the field that fails: a
field cut short, a length that promises too much, the first byte left over, an RRT count of 0.
Reserved bits are part of the field that they lead.
"""
from sections import EIT, ETT, MGT, RRT, TVCT, header_outcome


class Fault(Exception):
    """The body fails; its argument is the offset."""


class Part:
    """A container of the section: the bytes up to `end`, walked bit by bit."""

    def __init__(self, s, start, end):
        self.s, self.bit, self.end = s, 8 * start, end

    def place(self):
        """The byte in which the next field begins."""
        return self.bit // 8

    def field(self, bits, reserved=0):
        first = self.place()
        self.bit += reserved + bits
        if self.bit > 8 * self.end:
            raise Fault(first)
        whole = int.from_bytes(self.s[first:-(-self.bit // 8)], "big")
        return whole >> -self.bit % 8 & (1 << bits) - 1

    def count(self, bits):
        """A count that may not be 0."""
        first = self.place()
        n = self.field(bits)
        if n == 0:
            raise Fault(first)
        return n

    def part(self, bits, reserved=0):
        """A length, and the container of so many bytes after it."""
        first = self.place()
        n = self.field(bits, reserved)
        start = self.place()
        if start + n > self.end:
            raise Fault(first)
        self.bit += 8 * n
        return Part(self.s, start, start + n)

    def left(self):
        return self.place() < self.end

    def filled(self):
        if self.left():
            raise Fault(self.place())


def structure(part):
    for _ in range(part.field(8)):  # number_strings
        part.field(24)  # language
        for _ in range(part.field(8)):  # number_segments
            part.field(8)  # compression
            part.field(8)  # mode
            part.part(8)  # number_bytes, bytes
    part.filled()


def text(part):
    """A text field with a length: nothing, or a structure."""
    if part.left():
        structure(part)


def advisory(part):
    for _ in range(part.field(6, reserved=2)):  # region count
        part.field(8)  # region
        for _ in range(part.field(8)):  # dimension count
            part.field(8)  # dimension
            part.field(4, reserved=4)  # value
        text(part.part(8))
    part.filled()


def descriptors(part, advised=False):
    while part.left():
        tag = part.field(8)
        content = part.part(8)
        if advised and tag == 0x87:
            advisory(content)


def mgt(body):
    for _ in range(body.field(16)):  # tables_defined
        body.field(16)  # table_type
        body.field(13, reserved=3)  # PID
        body.field(5, reserved=3)  # version
        body.field(32)  # number_bytes
        descriptors(body.part(12, reserved=4))
    descriptors(body.part(12, reserved=4))
    body.filled()


def tvct(body):
    for _ in range(body.field(8)):  # count
        body.field(7 * 16)  # short_name
        body.field(10, reserved=4)  # major
        body.field(10)  # minor
        body.field(8)  # modulation
        body.field(32)  # carrier
        body.field(16)  # channel_TSID
        body.field(16)  # program_number
        body.field(2)  # ETM_location
        body.field(1)  # access_controlled
        body.field(1)  # hidden
        body.field(6)  # the six bits
        body.field(6)  # service_type
        body.field(16)  # source_id
        descriptors(body.part(10, reserved=6))
    descriptors(body.part(10, reserved=6))
    body.filled()


def rrt(body):
    text(body.part(8))  # region name
    for _ in range(body.count(8)):  # dimensions
        text(body.part(8))  # name
        body.field(1, reserved=3)  # graduated_scale
        for _ in range(body.count(4)):  # values
            text(body.part(8))  # short text
            text(body.part(8))  # long text
    descriptors(body.part(10, reserved=6))
    body.filled()


def eit(body):
    for _ in range(body.field(8)):  # count
        body.field(14, reserved=2)  # event_id
        body.field(32)  # start_time
        body.field(2, reserved=2)  # ETM_location
        body.field(20)  # length_in_seconds
        text(body.part(8))  # title
        descriptors(body.part(12, reserved=4), advised=True)
    body.filled()


def ett(body):
    body.field(32)  # ETM_id
    structure(body)


WALKS = {MGT: mgt, TVCT: tvct, RRT: rrt, EIT: eit, ETT: ett}


def body_outcome(s):
    """Of a section that passes tests 1 to 8: None for a sound body, or the first failure's offset."""
    try:
        WALKS[s[0]](Part(s, 9, len(s) - 4))
    except Fault as fault:
        return fault.args[0]
    return None


def section_outcome(s, asked=0):
    """Tests 1 to 9 in order: the refusal's number, ("9", offset), or the header's values."""
    said = header_outcome(s, asked)
    if isinstance(said, int):
        return said
    offset = body_outcome(s)
    return said if offset is None else ("9", offset)
