"""3330 packs with one library, as the benchmarks want them: its directory, and the blocks of its members."""
from dataclasses import dataclass

import programs  # which finds make_pack

from make_pack import D3330, DataSet, Pack, big, ebcdic

VTOC_START, VTOC_TRACKS = 1, 2
FIRST_TRACK = VTOC_START + VTOC_TRACKS
LRECL, BLKSIZE = 80, 800
ENTRY, ROOM = 12, 254  # bytes of an entry without user data, and of a directory block for entries
END_NAME = b"\xFF" * 8


def cost(device, key, data):
    """What a record takes on its track where another one follows, and where none does."""
    i, l, k = device.overheads
    saved = 0 if key else k
    length = len(key) + len(data)
    return i + length * device.tolerance // 512 - saved, l + length - saved


@dataclass(frozen=True)
class Layout:
    """The records of a library, track by track, and the place of each."""

    tracks: list
    places: list


def laid(device, records):
    """Each record goes behind the last where it fits the track, and else begins the next one."""
    tracks, places, taken = [[]], [], 0
    for key, data in records:
        further, last = cost(device, key, data)
        if taken + last > device.track_capacity:
            tracks.append([])
            taken = 0
        tracks[-1].append((key, data))
        places.append((len(tracks) - 1, len(tracks[-1])))
        taken += further
    return Layout(tracks, places)


def directory_block(entries, is_last):
    """The key and the data of a block."""
    content = b"".join(entries) + (END_NAME + bytes(4) if is_last else b"")
    key = END_NAME if is_last else entries[-1][:8]
    return key, (big(len(content) + 2, 2) + content).ljust(256, b"\0")


def directory(entries, blocks):
    """The blocks of a directory: each takes as many entries as fit, and the last the end entry too."""
    most = ROOM // ENTRY
    parts = [entries[at : at + most] for at in range(0, len(entries), most)] or [[]]
    if (len(parts[-1]) + 1) * ENTRY > ROOM:
        parts.append([])
    used = [directory_block(part, part is parts[-1]) for part in parts]
    return used + [(bytes(8), bytes(256))] * (blocks - len(used))


@dataclass(frozen=True)
class LibraryPack(Pack):
    """A pack whose one data set is a library of these members, each a name and its blocks."""

    directory_blocks: int
    members: list

    def layout(self, entries=()):
        """Where the directory with these entries and the members lie."""
        records = directory(list(entries), self.directory_blocks) + [(b"", b"")]
        for _, blocks in self.members:
            records += [(b"", block) for block in blocks] + [(b"", b"")]
        return laid(self.device, records)

    def entries(self):
        """An entry for each member, with the place of its first block."""
        places = self.layout().places
        found, at = [], self.directory_blocks + 1
        for name, blocks in self.members:
            track, record = places[at]
            found.append(ebcdic(name, 8) + big(track, 2) + bytes([record, 0]))
            at += len(blocks) + 1
        return found

    def format_1(self, data_set):
        slot = bytearray(super().format_1(data_set))
        track, record = self.layout().places[-1]
        slot[82:84] = big(0x0200, 2)  # DSORG PO
        slot[98:101] = big(track, 2) + bytes([record])  # LSTAR
        return bytes(slot)

    def library_tracks(self):
        """The bytes of the library's tracks, each up to its end marker."""
        tracks = self.layout(self.entries()).tracks
        first = self.data_sets[0].first
        return [self.track_bytes(first + k, records) for k, records in enumerate(tracks)]

    def image(self):
        image = bytearray(super().image())
        size = self.device.track_size
        for k, track in enumerate(self.library_tracks()):
            at = 512 + (self.data_sets[0].first + k) * size
            image[at : at + size] = track
        return bytes(image)


def library_pack(serial, name, tracks, directory_blocks, members):
    """A whole 3330 pack with this library behind its VTOC."""
    sets = [DataSet(2, name, FIRST_TRACK, tracks)]
    return LibraryPack(D3330, serial, 404, VTOC_START, VTOC_TRACKS, sets, directory_blocks, members)
