"""What a hive becomes by packing and by edits in place, worked out from docs/format.md, sections 8 and 11, for the files that runs must leave: nothing
here asks the program. Keys have no class, and all of them have one security cell or none."""
import dataclasses
import os
import struct
import sys

sys.path.insert(0, os.path.join(os.path.dirname(os.path.abspath(__file__)), "..", "bench"))
import hives

SEGMENT = 16344
FOLD = {unit: unit - 32 for unit in range(ord("a"), ord("z") + 1)}


@dataclasses.dataclass
class Key:
    """A key: values are (name, type, data). Its flags are those beside the one of a narrow name."""

    name: str
    values: list = dataclasses.field(default_factory=list)
    children: list = dataclasses.field(default_factory=list)
    flags: int = 0


def numbers(*items):
    """Numbers of four bytes each."""
    return struct.pack(f"<{len(items)}I", *items)


def number_at(data, at):
    return struct.unpack_from("<I", data, at)[0]


def is_narrow(name):
    return all(unit < "\u0100" for unit in name)


def spelled(name):
    """A name as a cell has it: a byte for each character, else UTF-16. A lone surrogate is a unit like others."""
    return name.encode("latin-1") if is_narrow(name) else name.encode("utf-16-le", "surrogatepass")


def room(size):
    """How much a cell with that many bytes of payload takes."""
    return (4 + size + 7) // 8 * 8


def hint(name, minor):
    """What a list says of a child's name: in version 1.3 its first four bytes, in 1.5 its hash."""
    if minor == 3:
        return (spelled(name) if is_narrow(name) else b"")[:4].ljust(4, b"\0")
    hashed = 0
    for unit in name.translate(FOLD):
        hashed = (37 * hashed + ord(unit)) % 2 ** 32
    return numbers(hashed)


def lists(minor, entries, at):
    """The cells of the lists of these children, from an offset on: each entry is an offset and a hint."""
    sign = b"lf" if minor == 3 else b"lh"
    parts = [entries[i:i + 500] for i in range(0, len(entries), 500)]
    cells = [hives.cell(sign + struct.pack("<H", len(part)) + b"".join(numbers(place) + told for place, told in part)) for part in parts]
    if len(cells) > 1:
        places, at = [], at + room(4 + 4 * len(cells))
        for one in cells:
            places.append(at)
            at += len(one)
        cells.insert(0, hives.cell(b"ri" + struct.pack("<H", len(parts)) + numbers(*places)))
    return b"".join(cells)


def data_cells(minor, data, at):
    """The cells of a value's data, which are from an offset on; none where the value holds them."""
    if len(data) <= 4:
        return b""
    if minor == 3 or len(data) <= SEGMENT:
        return hives.cell(data)
    parts = [data[i:i + SEGMENT] for i in range(0, len(data), SEGMENT)]
    listed = at + room(8)
    places, begin = [], listed + room(4 * len(parts))
    for part in parts:
        places.append(begin)
        begin += room(len(part))
    return b"".join(map(hives.cell, [b"db" + struct.pack("<HI", len(parts), listed), numbers(*places), *parts]))


def value_fields(kind, data, at):
    """The twelve bytes of a value for its size, the place of its data and its type."""
    if len(data) <= 4:
        return numbers(0x80000000 + len(data)) + data.ljust(4, b"\0") + numbers(kind)
    return numbers(len(data), at, kind)


def value_cells(minor, name, kind, data, at):
    """The cell of a value that is put at an offset, and those of its data."""
    own = room(20 + len(spelled(name)))
    head = b"vk" + struct.pack("<H", len(spelled(name))) + value_fields(kind, data, at + own)
    return hives.cell(head + struct.pack("<HH", is_narrow(name), 0) + spelled(name)) + data_cells(minor, data, at + own)


def key_cells(minor, key, at, parent=hives.NONE):
    """The packed cells of a key with all below it, from an offset on."""
    node_at, at = at, at + room(76 + len(spelled(key.name)))
    value_list = at if key.values else hives.NONE
    at += room(4 * len(key.values)) if key.values else 0
    values, offsets = b"", []
    for name, kind, data in key.values:
        offsets.append(at + len(values))
        values += value_cells(minor, name, kind, data, at + len(values))
    at += len(values)
    child_list = at if key.children else hives.NONE
    at += len(lists(minor, [(0, b"\0" * 4)] * len(key.children), 0))
    below, entries = b"", []
    for child in key.children:
        entries.append((at + len(below), hint(child.name, minor)))
        below += key_cells(minor, child, at + len(below), node_at)
    node = b"nk" + struct.pack("<HQI", key.flags | 0x20 * is_narrow(key.name), 0, 0)
    node += numbers(parent, len(key.children), 0, child_list, hives.NONE, len(key.values), value_list, hives.NONE, hives.NONE)
    node += numbers(max((2 * len(child.name) for child in key.children), default=0), 0)
    node += numbers(max((2 * len(name) for name, _, _ in key.values), default=0), max((len(data) for _, _, data in key.values), default=0), 0)
    node += struct.pack("<HH", len(spelled(key.name)), 0) + spelled(key.name)
    listed = hives.cell(numbers(*offsets)) if key.values else b""
    return hives.cell(node) + listed + values + (lists(minor, entries, child_list) if key.children else b"") + below


def one_bin(cells, at=0):
    """A bin at an offset with these cells and the rest of it free."""
    size = (32 + len(cells) + 4095) // 4096 * 4096
    left = size - 32 - len(cells)
    return b"hbin" + numbers(at, size) + bytes(20) + cells + (struct.pack("<i", left).ljust(left, b"\0") if left else b"")


def packed(root, sequence=5, minor=3):
    """A clean hive of this tree, packed."""
    bins = one_bin(key_cells(minor, root, 32))
    return hives.base_block(len(bins), first=sequence, second=sequence, minor=minor) + bins


class Edited:
    """A clean hive, edited cell by cell."""

    def __init__(self, hive):
        size = number_at(hive, 40)
        self.front, self.rest = hive[:4096], hive[4096 + size:]
        self.bins, self.minor, self.root = bytearray(hive[4096:4096 + size]), number_at(hive, 24), number_at(hive, 36)

    # ---- cells

    def cells(self):
        """Each cell in order: where it begins and its size, which is below 0 where it is allocated."""
        at = 0
        while at < len(self.bins):
            end, at = at + number_at(self.bins, at + 8), at + 32
            while at < end:
                size, = struct.unpack_from("<i", self.bins, at)
                yield at, size
                at += abs(size)

    def put(self, run_at):
        """Puts a run of cells, made for its place, into the lowest free cell that holds it, else into a new bin. The answer is where it begins."""
        size = len(run_at(0))
        hole = next(((at, free) for at, free in self.cells() if free >= size), None)
        if hole is None:
            at = len(self.bins) + 32
            self.bins += one_bin(run_at(at), len(self.bins))
            return at
        at, free = hole
        self.bins[at:at + size] = run_at(at)
        if free > size:
            struct.pack_into("<i", self.bins, at + size, free - size)
        return at

    def free(self, at):
        """Frees a cell, which becomes one with the free ones right before and after it."""
        before, beside, size = None, 0, -struct.unpack_from("<i", self.bins, at)[0]
        for other, length in self.cells():
            if length > 0 and other + length == at:
                before = other
            if length > 0 and other == at + size:
                beside = length
        if beside or before is None:
            struct.pack_into("<i", self.bins, at, size + beside)
        if before is not None:
            struct.pack_into("<i", self.bins, before, at + size + beside - before)

    def patch(self, at, place, data):
        self.bins[at + 4 + place:at + 4 + place + len(data)] = data

    def field(self, at, place):
        return number_at(self.bins, at + 4 + place)

    def raised(self, at, place, number):
        """A greatest length in a node, raised where it is less."""
        if self.field(at, place) < number:
            self.patch(at, place, numbers(number))

    # ---- the tree

    def name(self, at, place, size_place, flags_place, narrow):
        size = struct.unpack_from("<H", self.bins, at + 4 + size_place)[0]
        raw = bytes(self.bins[at + 4 + place:at + 4 + place + size])
        is_one_byte = struct.unpack_from("<H", self.bins, at + 4 + flags_place)[0] & narrow
        return raw.decode("latin-1") if is_one_byte else raw.decode("utf-16-le", "surrogatepass")

    def list_cells(self, at):
        """The cells of a key's lists, the list of lists first."""
        first = self.field(at, 28)
        if not self.field(at, 20):
            return []
        if self.bins[first + 4:first + 6] != b"ri":
            return [first]
        return [first] + [self.field(first, 4 + 4 * i) for i in range(struct.unpack_from("<H", self.bins, first + 6)[0])]

    def children(self, at):
        """Where the children of a key are, in order, in lists of entries of eight bytes."""
        parts = [part for part in self.list_cells(at) if self.bins[part + 4:part + 6] != b"ri"]
        return [self.field(part, 4 + 8 * i) for part in parts for i in range(struct.unpack_from("<H", self.bins, part + 6)[0])]

    def key_name(self, at):
        return self.name(at, 76, 72, 2, 0x20)

    def key_at(self, path):
        at = self.root
        for part in filter(None, path.split("\\")):
            at = next(child for child in self.children(at) if self.key_name(child).translate(FOLD) == part.translate(FOLD))
        return at

    def values(self, at):
        return [self.field(self.field(at, 40), 4 * i) for i in range(self.field(at, 36))]

    def data_of(self, value):
        """The cells of a value's data."""
        size, at = self.field(value, 4), self.field(value, 8)
        if size & 0x80000000 or not size:
            return []
        if self.minor == 3 or size <= SEGMENT:
            return [at]
        listed = self.field(at, 4)
        return [at, listed] + [self.field(listed, 4 * i) for i in range(-(-size // SEGMENT))]

    def keys(self, at):
        """A key and all below it."""
        return [at] + [key for child in self.children(at) for key in self.keys(child)]

    def used(self, at):
        """The cells of a key and of all below it but for security, in the order in which the tree is walked."""
        out = [at] + ([self.field(at, 40)] if self.field(at, 36) else [])
        for value in self.values(at):
            out += [value, *self.data_of(value)]
        out += self.list_cells(at)
        for child in self.children(at):
            out += self.used(child)
        return out

    # ---- steps

    def use_security(self, at, security):
        """A key and all below it use a security cell, which counts them."""
        for key in self.keys(at) if security != hives.NONE else ():
            self.patch(key, 44, numbers(security))
            self.patch(security, 12, numbers(self.field(security, 12) + 1))

    def leave_security(self, at):
        """The security cells of a key and of all below it count them no more."""
        for security in [self.field(key, 44) for key in self.keys(at)]:
            if security != hives.NONE:
                self.patch(security, 12, numbers(self.field(security, 12) - 1))

    def set_value(self, path, name, kind, data):
        """Sets a value of the key at a path: the one of this name, else a new one after the others."""
        key = self.key_at(path)
        for value in self.values(key):
            if self.name(value, 20, 2, 16, 1).translate(FOLD) == name.translate(FOLD):
                self.give(value, kind, data)
                return self.raised(key, 64, len(data))
        self.add_value(key, name, kind, data)
        self.raised(key, 60, 2 * len(name))
        return self.raised(key, 64, len(data))

    def give(self, value, kind, data):
        """The value that is there gets a type and data."""
        gone = self.data_of(value)
        at = self.put(lambda at: data_cells(self.minor, data, at)) if len(data) > 4 else 0
        self.patch(value, 4, value_fields(kind, data, at))
        for cell in gone:
            self.free(cell)

    def add_value(self, key, name, kind, data):
        """A value of a new name: its cell, its data, and the list with it, in one run; the list that was there is freed."""
        old, count, listed = self.values(key), self.field(key, 36), self.field(key, 40)

        def run(at):
            return value_cells(self.minor, name, kind, data, at) + hives.cell(numbers(*old, at))

        at = self.put(run)
        self.patch(key, 36, numbers(count + 1, at + len(run(at)) - room(4 * (count + 1))))
        if count:
            self.free(listed)

    def delete_value(self, path, name):
        """The value and its data are freed, and the list closes over its place, or is freed with the last value."""
        key = self.key_at(path)
        old, listed = self.values(key), self.field(key, 40)
        value = next(at for at in old if self.name(at, 20, 2, 16, 1).translate(FOLD) == name.translate(FOLD))
        left = [at for at in old if at != value]
        gone = [value, *self.data_of(value)]
        if left:
            self.patch(listed, 0, numbers(*left))
        self.patch(key, 36, numbers(len(left), listed if left else hives.NONE))
        for cell in gone + ([] if left else [listed]):
            self.free(cell)

    def relist(self, key, children):
        """The lists of these children, in one run, in place of those of the key."""
        gone = self.list_cells(key)
        entries = [(at, hint(self.key_name(at), self.minor)) for at in children]
        at = self.put(lambda at: lists(self.minor, entries, at)) if entries else hives.NONE
        for cell in gone:
            self.free(cell)
        self.patch(key, 20, numbers(len(children)))
        self.patch(key, 28, numbers(at))

    def add_key(self, path, key):
        """A key with all below it, packed in one run, and new lists of the key above: it stands before the first that folds greater."""
        above = self.key_at(path)
        at = self.put(lambda at: key_cells(self.minor, key, at, above))
        self.use_security(at, self.field(above, 44))
        children = self.children(above)
        folded = key.name.translate(FOLD)
        place = next((i for i, child in enumerate(children) if self.key_name(child).translate(FOLD) > folded), len(children))
        self.relist(above, children[:place] + [at] + children[place:])
        self.raised(above, 52, 2 * len(key.name))

    def delete_key(self, path):
        """New lists of the key above without it; all its cells are freed."""
        at, above = self.key_at(path), self.key_at(path.rpartition("\\")[0])
        gone = self.used(at)
        self.leave_security(at)
        self.relist(above, [child for child in self.children(above) if child != at])
        for cell in gone:
            self.free(cell)

    # ---- what is saved

    def file(self, sequence):
        """The clean file with this number, as long as the disk had it where that is more."""
        base = hives.base_block(len(self.bins), self.root, sequence, sequence, self.minor)[:512]
        return base + self.front[512:] + bytes(self.bins) + self.rest[max(0, len(self.bins) - number_at(self.front, 40)):]
