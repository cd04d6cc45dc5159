"""EMDF containers, bit by bit, in the reading order of ETSI TS 102 366, Annex H."""

from payload_bits import Bits, write_variable

OBJECT_ID = 11


def write_extended(bits, value, width):
    """A field whose largest number says that the rest follows in groups."""
    largest = 2**width - 1
    bits.put(min(value, largest), width)
    if value >= largest:
        write_variable(bits, value - largest, width)


class Config:
    """What stands between a payload's id and its size; what is None is not said.

    Only a payload that is not to be discarded where it is unknown says whether it is aligned to its frame,
    and that only without a sample offset. With either of the two it has a priority.
    """

    def __init__(self, offset=None, duration=None, group=None, codec=None, discard=True, aligned=False):
        self.offset, self.duration, self.group, self.codec = offset, duration, group, codec
        self.discard, self.aligned = discard, aligned

    def write(self, bits):
        bits.flag(self.offset is not None)
        if self.offset is not None:
            bits.put(self.offset, 11)
            bits.put(0, 1)  # reserved
        for value, width in [(self.duration, 11), (self.group, 2)]:
            bits.flag(value is not None)
            if value is not None:
                write_variable(bits, value, width)
        bits.flag(self.codec is not None)
        if self.codec is not None:
            bits.put(self.codec, 8)
        bits.flag(self.discard)
        if not self.discard:
            self.write_alignment(bits)

    def write_alignment(self, bits):
        if self.offset is None:
            bits.flag(self.aligned)
            if self.aligned:
                bits.put(0, 2)  # not to be duplicated, nor removed as a duplicate
        if self.offset is not None or self.aligned:
            bits.put(3, 5)  # priority
            bits.put(1, 2)  # processing allowed


class Carried:
    """A payload of any id, as it stands in a container."""

    def __init__(self, number, data, config=None):
        self.number, self.data, self.config = number, data, config or Config()

    def write(self, bits):
        """Its bits; and the place of its first byte."""
        write_extended(bits, self.number, 5)
        self.config.write(bits)
        write_variable(bits, len(self.data), 8)
        first = len(bits.text)
        for byte in self.data:
            bits.put(byte, 8)
        return first


class Container:
    """A container: its bytes, and the bit where each payload begins."""

    def __init__(self, *payloads, version=0, key=0):
        bits = Bits()
        write_extended(bits, version, 2)
        write_extended(bits, key, 3)
        self.firsts = [payload.write(bits) for payload in payloads]
        bits.put(0, 5)  # no more payloads
        bits.put(1, 2)  # protection: 8 bits
        bits.put(0, 2)  # and no second one
        bits.put(0xA5, 8)  # nobody reads it
        self.bytes = bits.filled()
