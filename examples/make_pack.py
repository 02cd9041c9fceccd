#!/usr/bin/env python3
"""Writes pack.img beside this file: a 2311 pack of two cylinders with eight data sets.

The bytes are the same each time. FORMATS.md under docs/ tells what they mean.
"""
from dataclasses import dataclass
from pathlib import Path

CREATED = bytes([74]) + (123).to_bytes(2, "big")  # day 123 of 1974


@dataclass(frozen=True)
class Device:
    type_byte: int
    heads: int
    track_size: int
    track_capacity: int
    overheads: bytes  # I, L, K
    tolerance: int
    slots_per_track: int
    directory_blocks_per_track: int


D2311 = Device(0x11, 10, 4096, 3625, bytes([81, 20, 20]), 537, 16, 10)
D3330 = Device(0x30, 19, 13312, 13165, bytes([191, 191, 56]), 512, 39, 28)


@dataclass(frozen=True)
class DataSet:
    slot: int
    name: str
    first: int  # track
    tracks: int


def ebcdic(text, length):
    return text.ljust(length).encode("cp037")


def big(number, length):
    return number.to_bytes(length, "big")


def little(number, length):
    return number.to_bytes(length, "little")


def dscb(*fields):
    """The 140 bytes of a slot: each field behind its offset, zeros elsewhere."""
    slot = bytearray(140)
    for at, field in fields:
        slot[at : at + len(field)] = field
    return bytes(slot)


@dataclass(frozen=True)
class Pack:
    device: Device
    serial: str
    cylinders: int
    vtoc_start: int  # track
    vtoc_tracks: int
    data_sets: list[DataSet]

    @property
    def tracks(self):
        return self.cylinders * self.device.heads

    @property
    def slots(self):
        return self.vtoc_tracks * self.device.slots_per_track

    def cchh(self, track):
        return big(track // self.device.heads, 2) + big(track % self.device.heads, 2)

    def extent(self, first, tracks):
        return b"\x01\x00" + self.cchh(first) + self.cchh(first + tracks - 1)

    def slot_track(self, slot):
        return self.vtoc_start + slot // self.device.slots_per_track

    def slot_address(self, slot):
        return self.cchh(self.slot_track(slot)) + big(slot % self.device.slots_per_track + 1, 1)

    def format_1(self, data_set):
        return dscb(
            (0, ebcdic(data_set.name, 44)),
            (44, b"\xF1"),
            (45, ebcdic(self.serial, 6)),
            (51, big(1, 2)),  # first volume of the set
            (53, CREATED),
            (59, big(1, 1)),  # extents
            (62, ebcdic("", 13)),  # system code
            (82, big(0x4000, 2)),  # DSORG PS
            (84, big(0x90, 1)),  # RECFM FB
            (86, big(800, 2)),  # BLKSIZE
            (88, big(80, 2)),  # LRECL
            (94, big(0x80000000, 4)),  # SCALO: tracks, no secondary quantity
            (105, self.extent(data_set.first, data_set.tracks)),
        )

    def format_4(self):
        device = self.device
        return dscb(
            (0, b"\x04" * 44),
            (44, b"\xF4"),
            (45, self.slot_address(max(data_set.slot for data_set in self.data_sets))),
            (50, big(self.slots - 2 - len(self.data_sets), 2)),  # free DSCBs
            (59, big(1, 1)),  # extents of the VTOC
            (62, big(self.cylinders, 2) + big(device.heads, 2)),  # device size
            (66, big(device.track_capacity, 2)),
            (68, device.overheads + b"\x01"),  # I, L, K, flag
            (72, big(device.tolerance, 2)),
            (74, bytes([device.slots_per_track, device.directory_blocks_per_track])),
            (105, self.extent(self.vtoc_start, self.vtoc_tracks)),
        )

    def free_runs(self):
        """The free tracks, as pairs of a first track and a number of tracks."""
        owned = {0, *range(self.vtoc_start, self.vtoc_start + self.vtoc_tracks)}
        for data_set in self.data_sets:
            owned.update(range(data_set.first, data_set.first + data_set.tracks))
        runs = []
        for track in range(self.tracks):
            if track in owned:
                continue
            if runs and sum(runs[-1]) == track:
                runs[-1][1] += 1
            else:
                runs.append([track, 1])
        return runs

    def free_entry(self, first, tracks):
        heads = self.device.heads
        begin, end = -(-first // heads), (first + tracks) // heads
        whole = max(end - begin, 0)  # cylinders that lie in the run
        return big(first, 2) + big(whole, 2) + big(tracks - whole * heads, 1)

    def format_5(self):
        entries = b"".join(self.free_entry(*run) for run in self.free_runs()).ljust(26 * 5, b"\0")
        return dscb((0, b"\x05" * 4), (4, entries[:40]), (44, b"\xF5"), (45, entries[40:]))

    def record(self, track, number, key, data):
        return self.cchh(track) + bytes([number, len(key)]) + big(len(data), 2) + key + data

    def track_bytes(self, track, records):
        """The home address, R0, the records from R1 on, and the end marker."""
        parts = [b"\0" + self.cchh(track), self.record(track, 0, b"", bytes(8))]
        parts += [self.record(track, r, key, data) for r, (key, data) in enumerate(records, 1)]
        return (b"".join(parts) + b"\xFF" * 8).ljust(self.device.track_size, b"\0")

    def label_records(self):
        label = ebcdic("VOL1" + self.serial, 10) + b"\0" + self.cchh(self.vtoc_start) + b"\x01"
        return [
            (ebcdic("IPL1", 4), bytes(24)),
            (ebcdic("IPL2", 4), bytes(144)),
            (ebcdic("VOL1", 4), label.ljust(80, b"\x40")),
        ]

    def slot_contents(self):
        found = [bytes(140)] * self.slots
        found[0], found[1] = self.format_4(), self.format_5()
        for data_set in self.data_sets:
            found[data_set.slot] = self.format_1(data_set)
        return found

    def header(self):
        numbers = little(self.device.heads, 4) + little(self.device.track_size, 4)
        return (b"CKD_P370" + numbers + bytes([self.device.type_byte])).ljust(512, b"\0")

    def image(self):
        on_track = {0: self.label_records()}
        for slot, content in enumerate(self.slot_contents()):
            on_track.setdefault(self.slot_track(slot), []).append((content[:44], content[44:]))
        tracks = (self.track_bytes(track, on_track.get(track, [])) for track in range(self.tracks))
        return self.header() + b"".join(tracks)


EXAMPLE = Pack(
    device=D2311,
    serial="DEMO01",
    cylinders=2,
    vtoc_start=1,
    vtoc_tracks=2,
    data_sets=[
        DataSet(2, "SYS1.MACLIB", 3, 2),
        DataSet(3, "PAYROLL.MASTER", 5, 1),
        DataSet(4, "@LOCAL.TABLES", 6, 1),
        DataSet(5, "#ACCT.LEDGER", 8, 1),
        DataSet(6, "ARCHIVES.QUARTER4.REGION05.BRANCHES.LEDGER75", 9, 2),
        DataSet(7, "SYSA.MACLIB", 12, 3),
        DataSet(8, "PAY1975.TOTALS", 16, 1),
        DataSet(17, "$TEMP.WORK", 17, 1),
    ],
)


if __name__ == "__main__":
    Path(__file__).with_name("pack.img").write_bytes(EXAMPLE.image())
