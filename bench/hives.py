"""Makes hives of version 1.3 for the scripts beside it: keys and values out of Python, cells in sequence in one bin."""
import struct

NONE = 0xFFFFFFFF


def cell(payload):
    """An allocated cell with this payload, filled up to a multiple of 8 bytes."""
    size = (4 + len(payload) + 7) // 8 * 8
    return struct.pack("<i", -size) + payload + bytes(size - 4 - len(payload))


def node(name, children, child_list, values, value_list, stamp=0):
    """A key node with a narrow name; the stamp is in 100 ns since 1601."""
    return (
        b"nk" + struct.pack("<HQII", 0x20, stamp, 0, NONE) + struct.pack("<IIII", children, 0, child_list, NONE)
        + struct.pack("<IIII", values, value_list, NONE, NONE) + bytes(20) + struct.pack("<HH", len(name), 0) + name
    )


def base_block(size, root=32, first=5, second=5, minor=3, kind=0):
    """The first 4096 bytes of a primary file, or of the kind 1 the base block of a log with zeros after it."""
    block = bytearray(512)
    block[0:4] = b"regf"
    struct.pack_into("<II", block, 4, first, second)
    struct.pack_into("<IIII", block, 20, 1, minor, kind, 1)
    struct.pack_into("<III", block, 36, root, size, 1)
    summed = 0
    for (word,) in struct.iter_unpack("<I", bytes(block[:508])):
        summed ^= word
    summed = {0: 1, NONE: NONE - 1}.get(summed, summed)
    struct.pack_into("<I", block, 508, summed)
    return bytes(block) + bytes(4096 - 512)


def hive(cells, minor=3):
    """A hive whose one bin has these cells, and the rest of it free. The root is the first cell."""
    used = 32 + len(cells)
    size = (used + 4095) // 4096 * 4096
    free = size - used
    if free:
        cells = cells + struct.pack("<i", free) + bytes(free - 4)
    return base_block(size, minor=minor) + b"hbin" + struct.pack("<II", 0, size) + bytes(20) + cells


def with_children(count):
    """A root with that many keys, in lists of 500 below a list of lists."""
    root_size = len(cell(node(b"ROOT", 0, 0, 0, NONE)))
    parts = [range(i, min(i + 500, count)) for i in range(0, count, 500)]
    at = 32 + root_size
    upper_at = at
    at += len(cell(bytes(4 + 4 * len(parts))))
    lists = []
    for part in parts:
        lists.append(at)
        at += len(cell(bytes(4 + 8 * len(part))))
    child_size = len(cell(node(b"K000000", 0, NONE, 0, NONE)))
    offsets = [at + child_size * i for i in range(count)]
    out = [cell(node(b"ROOT", count, upper_at, 0, NONE))]
    out.append(cell(b"ri" + struct.pack("<H", len(parts)) + b"".join(struct.pack("<I", o) for o in lists)))
    for part in parts:
        entries = b"".join(struct.pack("<I", offsets[i]) + b"K000" for i in part)
        out.append(cell(b"lf" + struct.pack("<H", len(part)) + entries))
    for i in range(count):
        out.append(cell(node(b"K%06d" % i, 0, NONE, 0, NONE)))
    return hive(b"".join(out))


def with_values(count):
    """A root with that many values of four bytes in place."""
    root_size = len(cell(node(b"ROOT", 0, NONE, 0, 0)))
    list_at = 32 + root_size
    at = list_at + len(cell(bytes(4 * count)))
    value_size = len(cell(bytes(27)))
    offsets = [at + value_size * i for i in range(count)]
    out = [cell(node(b"ROOT", 0, NONE, count, list_at)), cell(b"".join(struct.pack("<I", o) for o in offsets))]
    for i in range(count):
        name = b"V%06d" % i
        out.append(cell(b"vk" + struct.pack("<HIIIHH", len(name), 0x80000004, i, 4, 1, 0) + name))
    return hive(b"".join(out))


def with_failing_values(count, segments):
    """A root of version 1.5 with that many values in place, each after one and the same value of big data, whose last segment but one is
    the value's own cell."""
    root_size = len(cell(node(b"ROOT", 0, NONE, 0, 0)))
    list_at = 32 + root_size
    bad_at = list_at + len(cell(bytes(8 * count)))
    big_at = bad_at + len(cell(bytes(23)))
    entries_at = big_at + len(cell(bytes(8)))
    segments_at = entries_at + len(cell(bytes(4 * segments)))
    segment_size = len(cell(bytes(16344)))
    places = [segments_at + segment_size * i for i in range(segments)]
    at = segments_at + segment_size * segments
    places[-2] = bad_at
    value_size = len(cell(bytes(27)))
    offsets = [place for i in range(count) for place in (bad_at, at + value_size * i)]
    out = [cell(node(b"ROOT", 0, NONE, 2 * count, list_at)), cell(b"".join(struct.pack("<I", o) for o in offsets))]
    out.append(cell(b"vk" + struct.pack("<HIIIHH", 3, 16344 * segments, big_at, 3, 1, 0) + b"bad"))
    out.append(cell(b"db" + struct.pack("<HI", segments, entries_at)))
    out.append(cell(b"".join(struct.pack("<I", o) for o in places)))
    out.extend(cell(bytes(16344)) for _ in range(segments))
    for i in range(count):
        name = b"V%06d" % i
        out.append(cell(b"vk" + struct.pack("<HIIIHH", len(name), 0x80000004, i, 4, 1, 0) + name))
    return hive(b"".join(out), minor=5)


def with_small_cells(size):
    """A root, and cells of 8 bytes that nothing names, up to this size of the bins data."""
    root = cell(node(b"ROOT", 0, NONE, 0, NONE))
    count = (size - 32 - len(root)) // 8
    return hive(root + struct.pack("<i", -8).ljust(8, b"\0") * count)


def dword(name, number):
    return (name, 4, struct.pack("<I", number))


def strings(name, items):
    return (name, 7, b"".join(item.encode("utf-16-le") + b"\0\0" for item in items) + b"\0\0")


def layout(key, at):
    """The cells of a key `(name, values, children)`, perhaps with its stamp after them, with all below it, from this offset on, and where they end."""
    name, values, children, *stamp = key
    begin = at
    at += len(cell(node(name, 0, 0, 0, 0)))
    value_list = at if values else NONE
    out = []
    if values:
        at += len(cell(bytes(4 * len(values))))
        offsets = []
        for value_name, kind, data in values:
            offsets.append(at)
            own = len(data) > 4
            data_at = at + len(cell(bytes(20 + len(value_name))))
            size = len(data) if own else 0x80000000 + len(data)
            place = data_at if own else int.from_bytes(data.ljust(4, b"\0"), "little")
            made = cell(b"vk" + struct.pack("<HIIIHH", len(value_name), size, place, kind, 1, 0) + value_name)
            if own:
                made += cell(data)
            out.append(made)
            at += len(made)
        out.insert(0, cell(b"".join(struct.pack("<I", o) for o in offsets)))
    child_list = at if children else NONE
    parts = [children[i : i + 500] for i in range(0, len(children), 500)]
    list_sizes = [len(cell(bytes(4 + 8 * len(part)))) for part in parts]
    if len(parts) > 1:
        upper = len(cell(bytes(4 + 4 * len(parts))))
        places = [at + upper + sum(list_sizes[:i]) for i in range(len(parts))]
        out.append(cell(b"ri" + struct.pack("<H", len(parts)) + b"".join(struct.pack("<I", p) for p in places)))
        at += upper
    at += sum(list_sizes)
    made = []
    entries = []
    for child in children:
        entries.append(struct.pack("<I", at) + child[0][:4].ljust(4, b"\0"))
        cells, at = layout(child, at)
        made.append(cells)
    for i in range(len(parts)):
        part = entries[500 * i : 500 * i + 500]
        out.append(cell(b"lf" + struct.pack("<H", len(part)) + b"".join(part)))
    first = cell(node(name, len(children), child_list, len(values), value_list, *stamp))
    cells = first + b"".join(out) + b"".join(made)
    assert at == begin + len(cells)
    return cells, at


def control_set(name, services, groups, tags):
    """A control set with these services, the groups in this order, and the tags of a group in the order that is given for it."""
    listed = [(group.encode(), 3, b"".join(struct.pack("<I", n) for n in [len(order), *order])) for group, order in tags.items()]
    control = (b"Control", [], [(b"ServiceGroupOrder", [strings(b"List", groups)], []), (b"GroupOrderList", listed, [])])
    return (name, [], [control, (b"Services", [], services)])


def select(current, default, failed, last_known_good):
    """The key that numbers the sets."""
    values = [dword(b"Current", current), dword(b"Default", default), dword(b"Failed", failed), dword(b"LastKnownGood", last_known_good)]
    return (b"Select", values, [])


def machine(sets, numbers):
    """A SYSTEM hive of these control sets, with the numbers of Select."""
    return hive(layout((b"SYSTEM", [], [*sets, select(*numbers)]), 32)[0])


def system(services, groups=10, tags=20, good=0):
    """A SYSTEM hive of one control set with these services, in that many groups with that many tags each, the greatest tag first; `good` is the
    number in LastKnownGood."""
    names = [f"G{i}" for i in range(groups)]
    order = list(range(tags, 0, -1))
    return machine([control_set(b"ControlSet001", services, names, {name: order for name in names})], (1, 1, 0, good))


def service(i, start, group, needs, tag=None):
    group_value = (b"Group", 1, f"G{group}\0".encode("utf-16-le"))
    tag_value = dword(b"Tag", 1 + i % 20 if tag is None else tag)
    values = [dword(b"Type", 1), dword(b"Start", start), dword(b"ErrorControl", 1), group_value, tag_value]
    if needs:
        values.append(strings(b"DependOnService", needs))
    return (b"S%06d" % i, values, [])


def with_services(count, good=0):
    """Services of three phases in ten groups, of which each needs the first one of the group before its own."""
    block = count // 30
    return system([service(i, i // block // 10, i // block % 10, [f"S{(i // block - 1) * block:06d}"] if i // block % 10 else []) for i in range(30 * block)], good=good)


def with_chained_services(count):
    """Boot drivers of one group and tag of which each needs the next one in the registry, so that the last is the first to be ready."""
    return system([service(20 * i, 0, 0, [f"S{20 * (i + 1):06d}"] if i + 1 < count else []) for i in range(count)])


def with_ringed_services(count):
    """Boot drivers of which each needs the next one, and the last one the first."""
    return system([service(i, 0, 0, [f"S{(i + 1) % count:06d}"]) for i in range(count)])


def with_needed_group(count):
    """Boot drivers that are all members of one group, which each of them needs."""
    return system([(name, [*values, strings(b"DependOnGroup", ["G0"])], []) for name, values, _ in (service(i, 0, 0, []) for i in range(count))])


def with_pulled_services(count):
    """Services of which one half pulls in the other: each of Start 2 names one of Start 3, which goes before it."""
    half = count // 2
    return system([service(i, 3, 0, []) for i in range(half)] + [service(half + i, 2, 0, [f"S{i:06d}"]) for i in range(half)])


def with_grouped_services(count):
    """Boot drivers each in a group of its own, the groups in the order of the registry turned round."""
    return system([service(i, 0, count - 1 - i, []) for i in range(count)], groups=count)


def with_tagged_services(count):
    """Boot drivers of one group, each with a tag of its own."""
    return system([service(i, 0, 0, [], 1 + i) for i in range(count)], groups=1, tags=count)


def with_deep_services(count):
    """Services of which the last one alone has Start 2; each names the one before it, which goes before it."""
    return system([service(i, 2 if i + 1 == count else 3, 0, [f"S{i - 1:06d}"] if i else []) for i in range(count)])


def with_many_names(count):
    """Services of Start 2 of which each names the ten before it."""
    return system([service(i, 2, 0, [f"S{k:06d}" for k in range(max(0, i - 10), i)]) for i in range(count)])


def with_a_wide_key(count):
    """Ten services, and a key `A` of the root with that many keys below it."""
    sets = control_set(b"ControlSet001", [service(i, 1, 0, []) for i in range(10)], ["G0"], {"G0": list(range(20, 0, -1))})
    key = (b"A", [], [(b"K%06d" % i, [], []) for i in range(count)])
    return hive(layout((b"SYSTEM", [], [key, sets, select(1, 1, 0, 0)]), 32)[0])


def with_a_key(count, values=1):
    """That many services, and a key `A` of the root with that many values, of which each has a cell for its data."""
    services = [service(i, 1, 0, []) for i in range(count)]
    sets = control_set(b"ControlSet001", services, ["G0"], {"G0": list(range(20, 0, -1))})
    key = (b"A", [(b"V%d" % i if i else b"V", 3, bytes(9)) for i in range(values)], [])
    return hive(layout((b"SYSTEM", [], [key, sets, select(1, 1, 0, 0)]), 32)[0])
