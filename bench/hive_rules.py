"""What Windows relies on in a hive and a reader of its tree ignores, judged for the scripts beside it: the greatest lengths in the nodes of keys, counts
and links of security cells, order and hints of the lists of children, parents, counts, cells that nothing or two things use, bins, and the base block.
The rules are those of docs/format.md."""
import collections
import struct
import sys

import hives

# A hive may have 512 levels, and a broken one more.
sys.setrecursionlimit(100_000)
FOLD = {unit: unit - 32 for unit in range(ord("a"), ord("z") + 1)}
IN_ONE_CELL = 16344


def hint_of(sign, name, narrow):
    """The hint of a name in a list with this signature."""
    if sign == b"lf":
        return int.from_bytes(name[:4].encode("latin-1"), "little") if narrow else 0
    hashed = 0
    for unit in name.translate(FOLD):
        hashed = (37 * hashed + ord(unit)) % 2 ** 32
    return hashed


class Bins:
    """Bins data, and what is wrong in them: `found` has how much of each kind there is at each key, given by its path, or where there is none;
    `of_security` the same of each security cell. `right` has the bytes that put it right, where no cell has to move."""

    def __init__(self, data, root, minor):
        self.data, self.minor = bytes(data), minor
        self.found, self.of_security, self.right = collections.Counter(), collections.Counter(), {}
        self.cells, self.used, self.lists, self.keys, self.guards, self.users = {}, set(), [], {}, {}, {}
        self.bins()
        self.key(root, None, (), False)
        self.security()
        for at, size in self.cells.items():
            if size < 0 and at not in self.used:
                self.find("cell that nothing uses")
                self.right[at] = struct.pack("<i", -size)

    def part(self, at, size):
        return self.data[at:at + size]

    def number(self, at, size=4):
        return int.from_bytes(self.part(at, size), "little")

    def find(self, kind, path=None, amount=1):
        self.found[kind, path] += amount

    def field(self, kind, path, at, right, size=4, least=False):
        """A field that has to be this number, or no less."""
        have = self.number(at, size)
        if have < right or have > right and not least:
            self.find(kind, path, right - have if least else 1)
            self.right[at] = right.to_bytes(size, "little")

    def bins(self):
        at = 0
        while at < len(self.data):
            size = self.number(at + 8)
            self.field("signature of a bin", None, at, int.from_bytes(b"hbin", "little"))
            self.field("offset of a bin", None, at + 4, at)
            if size == 0 or size % 4096 or at + size > len(self.data):
                return self.find("size of a bin")
            self.fill(at + 32, at + size)
            at += size
        return None

    def fill(self, at, end):
        """The cells of a bin."""
        free = None
        while at < end:
            size = self.number(at) - (self.number(at) >> 31 << 32)
            if abs(size) < 8 or size % 8 or at + abs(size) > end:
                return self.find("size of a cell")
            self.cells[at] = size
            if size > 0 and free is not None:
                self.find("free cells side by side")
                self.right[free] = struct.pack("<i", at + size - free)
            else:
                free = at if size > 0 else None
            at += abs(size)
        return None

    def cell(self, at, least, path, sign=b"", more=(0, 0)):
        """Where the payload begins of an allocated cell that nothing else uses, with this signature and at least that many bytes, and those that a
        field of it says."""
        size, again = -self.cells.get(at, 0), at in self.used
        if size > 0:
            self.used.add(at)
        if size <= 0 or again:
            return self.find("cell that two things use" if again else "no allocated cell", path)
        if self.number(at + 4, len(sign)) != int.from_bytes(sign, "little"):
            return self.find("signature of a cell", path)
        if 4 + least > size or 4 + least + self.number(at + 4 + more[0], more[1]) > size:
            return self.find("short cell", path)
        return at + 4

    def name(self, at, size, narrow, path):
        raw = self.part(at, size)
        if narrow:
            return raw.decode("latin-1")
        name = "".join(map(chr, struct.unpack(f"<{size // 2}H", raw[:size // 2 * 2])))
        if size % 2 or max(name, default="") < "\u0100":
            self.find("wide name that can be narrow", path)
        return name

    def key(self, at, above, path, guarded):
        """A key with all below it. The answer is its name, whether that is narrow, and how long its class is."""
        node = self.cell(at, 76, path, b"nk", (72, 2))
        if node is None:
            return None
        narrow, guard, length = self.part(node + 2, 1)[0] & 0x20 != 0, self.number(node + 44), self.number(node + 74, 2)
        name = self.name(node + 76, self.number(node + 72, 2), narrow, path)
        path = path if above is None else path + (name,)
        self.keys[at] = path
        if above is not None:
            self.field("parent", path, node + 16, above)
        self.field("volatile children", path, node + 24, 0)
        if guard != hives.NONE:
            self.guards[path] = guard
            self.users.setdefault(guard, []).append(path)
        elif guarded:
            self.find("no security below a key that has it", path)
        for count, place in ((0, 32), (self.number(node + 20), 28), (self.number(node + 36), 40), (length, 48)):
            if not count:
                self.field("offset of nothing", path, node + place, hives.NONE)
        if length:
            self.cell(self.number(node + 48), length, path)
        self.values(node, path)
        self.children(node, at, path, guard != hives.NONE)
        return name, narrow, length

    def values(self, node, path):
        count = self.number(node + 36)
        listed = self.cell(self.number(node + 40), 4 * count, path) if count else None
        told = [self.value(self.number(listed + 4 * i), path) for i in range(count)] if listed else []
        if len({one[0].translate(FOLD) for one in told if one}) < len(list(filter(None, told))):
            self.find("values of one name", path)
        self.field("greatest length of a value's name", path, node + 60, max((2 * len(one[0]) for one in told if one), default=0), least=True)
        self.field("greatest length of a value's data", path, node + 64, max((one[1] for one in told if one), default=0), least=True)

    def value(self, at, path):
        """A value's name, and how long its data are."""
        start = self.cell(at, 20, path, b"vk", (2, 2))
        if start is None:
            return None
        size = self.number(start + 4)
        length = size & 0x7FFFFFFF
        if size != length and length > 4:
            self.find("data in place that are too long", path)
        elif size == length > IN_ONE_CELL and self.minor >= 5:
            self.segments(self.number(start + 8), length, path)
        elif size == length > 0:
            self.cell(self.number(start + 8), length, path)
        return self.name(start + 20, self.number(start + 2, 2), self.part(start + 16, 1)[0] & 1, path), length

    def segments(self, at, length, path):
        count, start = -(-length // IN_ONE_CELL), self.cell(at, 8, path, b"db")
        if start:
            self.field("number of segments", path, start + 2, count, 2)
            listed = self.cell(self.number(start + 4), 4 * count, path)
            for i in range(count if listed else 0):
                self.cell(self.number(listed + 4 * i), min(IN_ONE_CELL, length - IN_ONE_CELL * i), path)

    def children(self, node, at, path, guarded):
        places = self.listed(self.number(node + 28), path, True) if self.number(node + 20) else []
        self.field("number of children", path, node + 20, len(places))
        told = {place: self.key(self.number(place), at, path, guarded) for place, _ in places}
        for place, sign in places:
            if told[place] and sign in (b"lf", b"lh"):
                self.field(f"hint in {sign.decode()}", path + told[place][:1], place + 4, hint_of(sign, *told[place][:2]))
        order = [(one[0].translate(FOLD), self.part(place, 4)) for place, one in told.items() if one]
        falls = sum(one[0] >= other[0] for one, other in zip(order, order[1:]))
        if falls:
            self.find("order of children", path, falls)
        if falls and len(order) == len(places):
            self.right.update((place, offset) for (place, _), (_, offset) in zip(places, sorted(order)))
        # Later versions of Windows have flags in the upper half of the first field.
        self.field("greatest length of a child's name", path, node + 52, max((2 * len(one[0]) for one in told.values() if one), default=0), 2, True)
        self.field("greatest length of a child's class", path, node + 56, max((one[2] for one in told.values() if one), default=0), least=True)

    def listed(self, at, path, outer):
        """The children in a list: the place of each one's offset, and the list's signature."""
        start = self.cell(at, 4, path)
        sign = self.part(start, 2) if start else b""
        width = 8 if sign in (b"lf", b"lh") else 4
        if sign not in (b"li", b"lf", b"lh", b"ri") or sign == b"ri" and not outer or 8 + width * self.number(start + 2, 2) > -self.cells[at]:
            self.find("form of a list", path)
            return []
        places = range(start + 4, start + 4 + width * self.number(start + 2, 2), width)
        if sign == b"ri":
            return [one for place in places for one in self.listed(self.number(place), path, False)]
        self.lists += [start] if width == 8 else []
        return [(place, sign) for place in places]

    def security(self):
        """Each security cell, also those that no key uses: such a one stays in its ring, with the count 0, until the hive is packed."""
        for at, size in self.cells.items():
            if size < 0 and at not in self.used and self.part(at + 4, 2) == b"sk":
                self.users.setdefault(at, [])
        ring = [at for at, paths in self.users.items() if self.cell(at, 20, (paths or [None])[0], b"sk", (16, 4))]
        for i, at in enumerate(ring):
            links = [(self.number(at + own), other) for own, other in ((8, 12), (12, 8))]
            wrong = sum(link not in self.users or self.number(link + other) != at for link, other in links)
            for kind, amount in (("links of security", wrong), ("count of security", abs(self.number(at + 16) - len(self.users[at])))):
                if amount and self.users[at]:
                    self.of_security[kind, at] = amount
                elif amount:
                    self.find(kind)
            self.right[at + 8] = struct.pack("<III", ring[(i + 1) % len(ring)], ring[i - 1], len(self.users[at]))


def more(before, after):
    """What is wrong after a run and was not, or less, before it: the kind, the path of the key, and how much."""
    for (kind, path), amount in after.found.items():
        if amount > before.found[kind, path]:
            yield kind, path, amount
    for (kind, at), amount in after.of_security.items():
        if amount > max(before.of_security[kind, before.guards.get(path)] for path in after.users[at]):
            yield kind, after.users[at][0], amount


def faults(block, kind):
    """What is wrong in a base block of this file type."""
    if len(block) < 512:
        return ["no base block"]
    size, summed = struct.unpack_from("<I", block, 40)[0], 0
    for word, in struct.iter_unpack("<I", block[:508]):
        summed ^= word
    right = {
        "signature of the base block": block[:4] == b"regf",
        "checksum": struct.unpack_from("<I", block, 508)[0] == {0: 1, hives.NONE: hives.NONE - 1}.get(summed, summed),
        "version, type or format": struct.unpack_from("<IIII", block, 20) in ((1, 3, kind, 1), (1, 5, kind, 1)),
        "size of the bins": size % 4096 == 0 and 4096 <= size <= 16 << 20,
    }
    return [name for name, is_so in right.items() if not is_so]


def by_log(hive, log):
    """The base block and the bins data that a log gives, if it is whole and the hive's."""
    if faults(log, 1) or log[4:8] != log[8:12] or log[512:516] != b"DIRT" or hive[4:8] not in (log[4:8], bytes(4)):
        return None
    count = struct.unpack_from("<I", log, 40)[0] // 512
    bits = bin(int.from_bytes(log[516:516 + (count + 7) // 8], "little") + (1 << count))[:2:-1]
    at, bins = 512 + (4 + (count + 7) // 8 + 511) // 512 * 512, []
    for i in range(count):
        bins.append(log[at:at + 512] if bits[i] == "1" else hive[4096 + 512 * i:4608 + 512 * i])
        at += 512 if bits[i] == "1" else 0
    return (log[:512], b"".join(bins)) if all(len(sector) == 512 for sector in bins) else None


def recovered(hive, log=b""):
    """The base block and the bins data of an image, and what is wrong with it. A sector that was torn is zeros in a file."""
    wrong = faults(hive, 0)
    told = None if not wrong and hive[4:8] == hive[8:12] else by_log(hive + bytes(-len(hive) % 512), log + bytes(-len(log) % 512))
    if told and (not wrong or not any(hive[:512])):
        return *told, []
    base, size = hive[:512].ljust(512, b"\0"), struct.unpack_from("<I", hive.ljust(44, b"\0"), 40)[0]
    if hive[4:8] != hive[8:12]:
        wrong.append("numbers of the base block")
    if len(hive) < 4096 + size:
        wrong.append("file that is shorter than its bins")
    return base, hive[4096:4096 + size], wrong


def judged(hive, log=b"", how=Bins):
    """All that is wrong in an image."""
    base, bins, wrong = recovered(hive, log)
    told = how(bins, *struct.unpack_from("<I", base, 36), *struct.unpack_from("<I", base, 24))
    for kind in wrong:
        told.find(kind)
    return told


def sound(hive, minor=None):
    """A clean hive with all put right that is wrong in it, but for what asks to move cells; with two security cells, the second one of the keys from
    level 3 on, and a class, if it has none; in this version. Else nothing."""
    base, bins, wrong = recovered(hive)
    if wrong:
        return None
    root, told = struct.unpack_from("<I", base, 36)[0], judged(hive)
    if not told.keys:
        return None
    bins, minor = bytearray(bins), minor or told.minor
    for start in told.lists if minor != told.minor else ():
        bins[start:start + 2] = b"lf" if minor == 3 else b"lh"
    if not told.users:
        at = len(bins) + 32
        parts = [b"sk\0\0" + struct.pack("<IIII", 0, 0, 0, 20) + bytes([1, 0, kind, 0x80]) + bytes(16) for kind in (0, 4)]
        cells = b"".join(map(hives.cell, parts + [b"c\0l\0a\0s\0s\0"]))
        bins += b"hbin" + struct.pack("<II", len(bins), 4096) + bytes(20) + cells
        bins += struct.pack("<i", -len(bins) % 4096).ljust(-len(bins) % 4096, b"\0")
        for key, path in told.keys.items():
            struct.pack_into("<I", bins, key + 48, at + 48 * (len(path) > 1))
        key = next((key for key, path in told.keys.items() if len(path) == 1), root)
        struct.pack_into("<I", bins, key + 52, at + 96)
        struct.pack_into("<H", bins, key + 78, 10)
    bins[root + 6] |= 0x0C
    for _ in range(3):
        for at, right in Bins(bins, root, minor).right.items():
            bins[at:at + len(right)] = right
    return hives.base_block(len(bins), root, *struct.unpack_from("<II", base, 4), minor) + bytes(bins)
