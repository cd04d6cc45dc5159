"""Journals and recorders' files as they are made record by record, with the lines that are to be printed of them."""

import functools
import operator

from container_bits import OBJECT_ID, Carried, Container
from payload_bits import EVERY_GROUP


class Journal:
    """Records one after the other, and the lines that are printed of them."""

    def __init__(self):
        self.bytes = b""
        self.lines = []
        self.forget(doubt=False)

    def forget(self, doubt):
        self.kinds, self.marks, self.doubt = [], [], doubt

    def record(self, data, said):
        self.lines.append(f"{len(self.lines) + 1} {len(self.bytes)} {said}")
        self.bytes += data

    def raw(self, payload, said):
        self.record(b"PL" + len(payload).to_bytes(2, "big") + payload, said)

    def gap(self):
        """What was heard is not sure any more."""
        self.record(b"GP", "gap")
        self.doubt = True

    def start(self):
        """A programme begins with the next payload."""
        self.record(b"PS", "start")
        self.forget(doubt=False)

    def reset(self):
        """A programme may be under way."""
        self.record(b"RS", "reset")
        self.forget(doubt=True)

    def accept(self, payload):
        """The specification, section 9, "Marks and doubt", of a payload that is accepted."""
        kinds = payload.assignment.kinds
        start = self.marks if kinds == self.kinds else [EVERY_GROUP] * len(kinds)
        if self.doubt:
            start = [0] * len(kinds)
        self.kinds, self.doubt = kinds, False
        self.marks = [
            functools.reduce(operator.or_, (update.settles for update in updates), mark) if dynamic else EVERY_GROUP
            for dynamic, mark, updates in zip(kinds, start, payload.objects)
        ]
        unsettled = sum(mark != EVERY_GROUP for mark in self.marks)
        self.raw(payload.bytes, f"ok {len(kinds)} {payload.blocks} {unsettled}")

    def refuse_nothing(self):
        """No bytes at all: the version is truncated, and both its bits are missing (P1)."""
        self.raw(b"", "no 1 1 0 2")

    def refuse_version(self, payload):
        """Version 1 is not supported (P2)."""
        self.raw(bytes([payload.bytes[0] | 0x40]) + payload.bytes[1:], "no 4 1 0 0")

    def refuse_cut(self, payload):
        """Half of it is cut off: the element is longer than the payload (as P5)."""
        half = first_half(payload.bytes)
        assert payload.content < 8 * len(half)
        self.raw(half, f"no 1 11 {payload.content} {payload.end - 8 * len(half)}")

    def refuse_padding(self, payload):
        """A byte too many, and its last bit is set: padding is zero (as P6)."""
        self.raw(payload.bytes + b"\x01", f"no 2 17 {8 * len(payload.bytes) + 7} 0")

    def finish(self, tail=b"", last=None):
        """The files' contents, after bytes that are no whole record."""
        last = last or f"end {len(self.lines)}"
        return self.bytes + tail, "".join(line + "\n" for line in [*self.lines, last])


def first_half(data):
    return data[: len(data) // 2]


class Recorder:
    """A recorder's file, the lines that are said of its containers, and the journal that comes out."""

    def __init__(self):
        self.bytes = b""
        self.lines = []
        self.journal = Journal()
        self.journal.reset()  # a recorder may be switched on in mid-programme

    def hold(self, data, said):
        self.lines.append(f"{len(self.lines) + 1} {len(self.bytes)} {said}")
        self.bytes += len(data).to_bytes(4, "big") + data

    def accept(self, payload, *others, config=None, key=0, shift=0):
        """A payload behind others; so many bits of a byte stand before its first."""
        container = Container(*others, Carried(OBJECT_ID, payload.bytes, config), key=key)
        assert container.firsts[-1] % 8 == shift
        self.hold(container.bytes, f"ok {len(payload.bytes)}")
        self.journal.accept(payload)

    def refuse_payload(self, payload):
        """The container is whole, and has half a payload: that is for decode to refuse."""
        half = first_half(payload.bytes)
        self.hold(Container(Carried(OBJECT_ID, half)).bytes, f"ok {len(half)}")
        self.journal.refuse_cut(payload)

    def without_object(self, *others):
        """No object payload, so nothing was lost, and the journal has no record of it."""
        self.hold(Container(*others).bytes, "no 15")

    def refuse_cut(self, payload):
        """The container ends within the payload."""
        container = Container(Carried(OBJECT_ID, payload.bytes))
        half = first_half(container.bytes)
        assert container.firsts[-1] < 8 * len(half) < container.firsts[-1] + 8 * len(payload.bytes)
        self.hold(half, "no 13")
        self.journal.gap()

    def refuse_version(self, payload):
        self.hold(Container(Carried(OBJECT_ID, payload.bytes), version=1).bytes, "no 14")
        self.journal.gap()

    def tear(self, payload):
        """The file ends within a container: its head says more bytes than follow."""
        self.lines.append(f"torn {len(self.bytes)}")
        data = Container(Carried(OBJECT_ID, payload.bytes)).bytes
        self.bytes += len(data).to_bytes(4, "big") + first_half(data)
        self.journal.gap()
