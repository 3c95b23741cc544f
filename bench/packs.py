"""Packs with files on them, byte by byte as docs/PACK.md has them, for the benchmarks that begin with files."""

import sys

SECTOR, TRACK = 256, 24
FIRST = 168                      # the sector that the first region begins at
SPOOL = (25 * SECTOR, 153 * SECTOR)


def packed(number, size):
    return bytes.fromhex("%0*d%s" % (2 * size - 1, abs(number), "D" if number < 0 else "F"))


class File:
    """A file's label and sectors: records of one length, with capacity for `room` records. With a key, which is the first bytes
    of each record, it is indexed; without one it is in order, unless another organization is given."""

    def __init__(self, label, length, records, date, key=0, room=0, organization="S", retention="P"):
        self.label, self.length, self.records, self.date, self.key = label, length, records, date, key
        self.kind = ("I" if key else organization) + retention
        self.room = max(room, len(records))
        self.index_at = -(-self.room * length // SECTOR)
        self.entries = SECTOR // (key + 4)
        self.sectors = -(-(self.index_at + (-(-self.room // self.entries) if key else 0)) // TRACK) * TRACK

    def slot(self, start):
        return (b"\x01" + self.label.ljust(8).encode("cp037") + self.kind.encode("cp037") + self.length.to_bytes(2, "big")
                + bytes([self.key]) + (1 if self.key else 0).to_bytes(2, "big") + start.to_bytes(2, "big") + self.sectors.to_bytes(2, "big")
                + self.room.to_bytes(4, "big") + len(self.records).to_bytes(4, "big") + self.date.encode("cp037"))

    def index(self):
        entries = sorted(record[:self.key] + number.to_bytes(4, "big") for number, record in enumerate(self.records, 1))
        sectors = (entries[first:first + self.entries] for first in range(0, len(entries), self.entries))
        return b"".join(b"".join(sector).ljust(SECTOR, b"\0") for sector in sectors)

    def contents(self):
        records = b"".join(self.records).ljust(self.index_at * SECTOR, b"\0")
        return (records + (self.index() if self.key else b"")).ljust(self.sectors * SECTOR, b"\0")


def pack(files, tracks=0):
    """A pack whose three regions have so many tracks, or as many as they need, each with a file at its start or with none."""
    lengths = [max(tracks * TRACK, file.sectors if file else 0) for file in files]
    starts = [FIRST, FIRST + lengths[0], FIRST + lengths[0] + lengths[1]]
    out = bytearray(SECTOR * (FIRST + sum(lengths)))
    numbers = [len(out) // SECTOR] + [number for pair in zip(starts, lengths) for number in pair]
    out[:24] = b"S3PACK02" + b"".join(number.to_bytes(2, "big") for number in numbers) + b"@@"
    for area, (file, start) in enumerate(zip(files, starts)):
        if file:
            label, contents = file.slot(start), file.contents()
            slot = (1 + 8 * area) * SECTOR
            out[slot:slot + len(label)] = label
            out[start * SECTOR:start * SECTOR + len(contents)] = contents
    return bytes(out)


def same(one, other):
    """Whether two packs are the same but for the spool's blocks, which keep the bytes of lines that were printed."""
    return one[:SPOOL[0]] == other[:SPOOL[0]] and one[SPOOL[1]:] == other[SPOOL[1]:]


def expect(path, wanted, name):
    """Ends the benchmark if the pack that a program left isn't the one wanted."""
    with open(path, "rb") as left:
        if not same(left.read(), wanted):
            sys.exit("bench: the pack of %s isn't the one wanted" % name)
