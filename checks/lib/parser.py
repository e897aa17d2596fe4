"""A parser of flattened device trees that names the first fault of a file, the canonical spelling of a tree, and its listing, by
the Devicetree Specification 0.4, chapter 5, and docs/FORMATS.md."""

import struct

LONGEST_READ, LONGEST_WRITTEN, DEEPEST = 1_048_576, 2_097_152, 32


class Refused(Exception):
    """The first fault of a file, as the program names it."""


def word(data, at):
    return struct.unpack_from(">I", data, at)[0]


def padded(size):
    return (size + 3) // 4 * 4


def text(data, start, stop):
    """The bytes up to the first NUL, or none."""
    end = data.find(b"\0", start, stop)
    return None if start > stop or end < 0 else data[start:end]


def header(data):
    """The words of the header, whose refusals come before all others (Devicetree Specification 0.4, 5.2)."""
    if len(data) < 4 or word(data, 0) != 0xD00DFEED:
        raise Refused("Magic")
    if len(data) < 40:
        raise Refused("Bounds at 0")
    head = struct.unpack_from(">10I", data)
    _, total, structure, strings, _, version, compatible, _, strings_size, structure_size = head
    if version < 17 or compatible > 17:
        raise Refused("Version")
    if total < 40 or total > len(data):
        raise Refused("Bounds at 4")
    if structure % 4 or structure + structure_size > total:
        raise Refused("Bounds at 8")
    if strings + strings_size > total:
        raise Refused("Bounds at 12")
    return head


def reservations(data, total, at):
    """The reservations, up to the pair of zeros (5.3)."""
    pairs = []
    while at % 8 == 0 and at + 16 <= total:
        pair = struct.unpack_from(">QQ", data, at)
        if pair == (0, 0):
            return pairs
        pairs.append(pair)
        at += 16
    raise Refused("Bounds at 16")


class Node:
    def __init__(self, name):
        self.name, self.properties, self.children = name, [], []


def begin(data, at, stop, open_nodes):
    """The node that begins here, a last child of the open one, and the offset past its name (5.4.1)."""
    name = text(data, at + 4, stop)
    if name is None or at + 4 + padded(len(name) + 1) > stop:
        raise Refused(f"Token at {at}")
    if not open_nodes:
        return Node(b""), at + 4 + padded(len(name) + 1)
    if name == b"" or b"/" in name:
        raise Refused(f"Name at {at}")
    if len(open_nodes) == DEEPEST:
        raise Refused(f"Deep at {at}")
    node = Node(name)
    open_nodes[-1].children.append(node)
    return node, at + 4 + padded(len(name) + 1)


def give(data, at, stop, strings, open_nodes, after_child):
    """Gives the open node the property that stands here, and answers the offset past it (5.4.1, 5.5)."""
    if at + 12 > stop or at + 12 + padded(word(data, at + 4)) > stop or not open_nodes:
        raise Refused(f"Token at {at}")
    size, place = word(data, at + 4), word(data, at + 8)
    name = text(data, strings[0] + place, strings[1])
    if not name:
        raise Refused(f"Name at {at}")
    if after_child:
        raise Refused(f"Order at {at}")
    open_nodes[-1].properties.append((name, data[at + 12 : at + 12 + size]))
    return at + 12 + padded(size)


def structure(data, at, stop, strings):
    """The tree of the structure block (5.4)."""
    root, open_nodes, after_child = None, [], False
    while True:
        kind = word(data, at) if at + 4 <= stop else 0
        started = root is not None
        if kind == 9 and started and not open_nodes:
            return root
        if kind == 1 and (open_nodes or not started):
            node, at = begin(data, at, stop, open_nodes)
            root = root or node
            open_nodes.append(node)
            after_child = False
        elif kind == 2 and open_nodes:
            open_nodes.pop()
            after_child = True
            at += 4
        elif kind == 3:
            at = give(data, at, stop, strings, open_nodes, after_child)
        elif kind == 4:
            at += 4
        else:
            raise Refused(f"Token at {at}")


def parsed(data):
    """What a file says: root, reservations and boot processor; or its first fault is raised."""
    if len(data) > LONGEST_READ:
        raise Refused(f"longer than {LONGEST_READ}")
    _, total, start, strings, reserved, _, _, boot, strings_size, structure_size = header(data)
    pairs = reservations(data, total, reserved)
    return structure(data, start, start + structure_size, (strings, strings + strings_size)), pairs, boot


def tokens(node, offset_of):
    """The tokens that spell a node (5.4.2)."""
    out = [struct.pack(">I", 1), node.name + b"\0", bytes(padded(len(node.name) + 1) - len(node.name) - 1)]
    for name, value in node.properties:
        out += [struct.pack(">III", 3, len(value), offset_of(name)), value, bytes(padded(len(value)) - len(value))]
    for child in node.children:
        out += tokens(child, offset_of)
    return out + [struct.pack(">I", 2)]


def spelled(root, pairs, boot):
    """The canonical spelling: version 17, no gaps, each property name once in order of first use."""
    offsets, names = {}, []

    def offset_of(name):
        if name not in offsets:
            offsets[name] = sum(map(len, names[-1:])) + (offsets[names[-1][:-1]] if names else 0)
            names.append(name + b"\0")
        return offsets[name]

    block = b"".join(tokens(root, offset_of)) + struct.pack(">I", 9)
    reserved = b"".join(struct.pack(">QQ", *pair) for pair in pairs) + bytes(16)
    strings = b"".join(names)
    first = 40 + len(reserved)
    last = first + len(block)
    head = struct.pack(">10I", 0xD00DFEED, last + len(strings), first, last, 40, 17, 16, boot, len(strings), len(block))
    return head + reserved + block + strings


def listed(root, pairs):
    """The listing of a tree: its reservations, and each node's path with its properties."""
    lines = [b"reserve 0x%x 0x%x" % pair for pair in pairs]

    def add(node, path):
        lines.append(path or b"/")
        for name, value in node.properties:
            lines.append(b"  " + name + b" " + (value.hex().encode() or b"-"))
        for child in node.children:
            add(child, path + b"/" + child.name)

    add(root, b"")
    return b"".join(line + b"\n" for line in lines)
