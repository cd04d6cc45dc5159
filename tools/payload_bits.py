"""Payloads, bit by bit, in the specification's reading order."""


class Bits:
    """A run of bits, the first on the left."""

    def __init__(self):
        self.text = ""

    def put(self, value, width):
        assert 0 <= value < 1 << width
        self.text += format(value, f"0{width}b")

    def flag(self, value):
        self.put(int(value), 1)

    def filled(self):
        """The bits as bytes, with zeros up to a whole byte."""
        text = self.text + "0" * (-len(self.text) % 8)
        return bytes(int(text[i : i + 8], 2) for i in range(0, len(text), 8))


# The bits of a mark, one for each group of the picture.
POSITION, ZONE, SIZE, SCREEN, LOCK = 1, 2, 4, 8, 16
EVERY_GROUP = POSITION | ZONE | SIZE | SCREEN | LOCK

# What is said of one object in one block. Each writes its own bits; `settles` has the bits of the groups that are
# known afterwards, whatever they were before.


class Inactive:
    settles = 0

    def write(self, bits, first, dynamic):
        bits.flag(True)  # not active
        bits.flag(False)  # no table data


class Active:
    """Heard at 0 dB with the default priority. A fixed object has no picture to say."""

    def __init__(self, render=None):
        self.render = render
        self.settles = 0 if render is None else render.settles

    def write(self, bits, first, dynamic):
        bits.flag(False)
        if not first:
            bits.put(1, 2)  # basic status: gain and priority
        bits.put(0, 2)  # gain code: 0 dB
        bits.flag(True)  # default priority
        if dynamic:
            assert first == (type(self.render) is At and self.render.first)
            self.render.write(bits)
        bits.flag(False)  # no table data


class At:
    """Stands at x, y of 62nds and z of 15ths, in block 0 or later: all four groups, an absolute position."""

    settles = EVERY_GROUP

    def __init__(self, x, y, z, first=True):
        self.x, self.y, self.z, self.first = x, y, z, first

    def write(self, bits):
        if not self.first:
            bits.put(1, 2)  # render status: all four groups
            bits.flag(False)  # not differential
        write_place(bits, self.x, self.y, self.z)
        write_rest(bits)


class Placed:
    """Past block 0: says where it stands, and nothing of its other groups but the lock, which is always said."""

    settles = POSITION | LOCK

    def __init__(self, x, y, z):
        self.place = (x, y, z)

    def write(self, bits):
        bits.put(3, 2)  # render status: the groups that are flagged
        bits.put(8, 4)  # the position alone
        bits.flag(False)  # not differential
        write_place(bits, *self.place)
        bits.flag(False)  # no distance
        bits.flag(False)  # no lock


class Moved:
    """Past block 0: steps from -4 to 3 from where it stood, so its place is known only if that was."""

    settles = EVERY_GROUP & ~POSITION

    def __init__(self, x, y, z):
        self.steps = (x, y, z)

    def write(self, bits):
        bits.put(1, 2)
        bits.flag(True)  # differential
        for step in self.steps:
            bits.put(step % 8, 3)
        write_rest(bits)


class Kept:
    """Past block 0: the picture stays as it was."""

    settles = 0

    def write(self, bits):
        bits.put(2, 2)  # render status: kept


class Parked:
    """Past block 0: the default picture, said by the mix itself."""

    settles = EVERY_GROUP

    def write(self, bits):
        bits.put(0, 2)  # render status: default


def write_place(bits, x, y, z):
    bits.put(x, 6)
    bits.put(y, 6)
    bits.flag(z >= 0)  # sign: 1 is positive
    bits.put(abs(z), 4)


def write_rest(bits):
    """What follows a position: no distance, zone 0 with elevation, no size, no screen, no lock."""
    bits.flag(False)
    bits.put(0, 3)
    bits.flag(True)
    bits.put(0, 2)
    bits.flag(False)
    bits.flag(False)


# Which objects there are. `kinds` has True for each dynamic object.


class DynamicOnly:
    def __init__(self, lfe, dynamic):
        self.lfe, self.kinds = lfe, [False] * lfe + [True] * dynamic

    def write(self, bits):
        bits.flag(True)  # dynamic only
        bits.flag(self.lfe)


class BedAndDynamic:
    """A bed of six, left, right, centre, bass and two surrounds, and dynamic objects behind it."""

    def __init__(self, dynamic):
        self.dynamic, self.kinds = dynamic, [False] * 6 + [True] * dynamic

    def write(self, bits):
        bits.flag(False)  # not dynamic only
        bits.put(8 + 2, 4)  # content: beds and dynamic objects
        bits.flag(False)  # distribution
        bits.flag(False)  # one bed
        bits.flag(False)  # not the LFE alone
        bits.flag(True)  # a standard bed
        bits.put(1 << 6 | 1 << 7 | 1 << 8 | 1 << 9, 10)  # channels of widths 2, 1, 1, 2
        bits.put(self.dynamic - 1, 5)


def write_variable(bits, value, width):
    """A number in groups of `width` bits, each with a flag for more: a further group makes it
    (value + 1) x 2^width + group."""
    groups = [value % 2**width]
    while value >= 2**width:
        value = value // 2**width - 1
        groups.insert(0, value % 2**width)
    for index, group in enumerate(groups):
        bits.put(group, width)
        bits.flag(index + 1 < len(groups))


def object_element(assignment, objects, blocks):
    """The objects' updates, `blocks` of them each, in blocks that begin 256 samples apart."""
    bits = Bits()
    bits.flag(False)  # discard flag
    bits.put(0, 2)  # no sample offset
    bits.put(blocks - 1, 3)
    for block in range(blocks):
        bits.put(8 * block, 6)  # of 32 samples
        bits.put(0, 2)  # no ramp
    bits.flag(True)  # no reserved data
    for dynamic, updates in zip(assignment.kinds, objects, strict=True):
        assert len(updates) == blocks
        for block, update in enumerate(updates):
            update.write(bits, block == 0, dynamic)
    return bits


class Payload:
    """A payload that is accepted: its bytes, and where the object element's content begins and ends."""

    def __init__(self, assignment, objects):
        self.assignment, self.objects = assignment, objects
        self.blocks = len(objects[0])
        element = object_element(assignment, objects, self.blocks)
        bits = Bits()
        bits.put(0, 2)  # version
        bits.put(len(assignment.kinds) - 1, 5)
        assignment.write(bits)
        bits.flag(False)  # no alternate data
        bits.put(1, 4)  # one element
        bits.put(1, 4)  # id: objects
        size = -(-len(element.text) // 8)
        write_variable(bits, size - 1, 4)
        self.content = len(bits.text)
        bits.text += element.text + "0" * (8 * size - len(element.text))
        self.end = len(bits.text)
        self.bytes = bits.filled()
