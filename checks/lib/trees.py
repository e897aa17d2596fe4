"""Device trees: of a file, of a script's lines, and as U-Boot's `fdt print` shows them."""

import re, struct

from lib.result import not_so


class Node:
    """A node: its properties and its children by their names, in order."""

    def __init__(self):
        self.props, self.children = {}, {}

    def at(self, path):
        """The node of a path below this one."""
        node = self
        for name in path.split("/")[1:] if path != "/" else []:
            node = node.children[name]
        return node

    def new_child(self, name):
        """A new child behind the others."""
        if name in self.children:
            not_so(f"{name} stands twice in one node")
        self.children[name] = Node()
        return self.children[name]

    def listed(self, path=""):
        """Each node in order, by its path, with its properties in order."""
        yield path or "/", list(self.props.items())
        for name, child in self.children.items():
            yield from child.listed(f"{path}/{name}")


def first(items, name, value):
    """Puts a new name before the others; an old one keeps its place."""
    if name in items:
        items[name] = value
        return items
    return {name: value, **items}


def flattened(data):
    """The tree of a file, by the Devicetree Specification, chapter 5."""
    words = struct.unpack(">10I", data[:40])
    at, strings, open_nodes = words[2], words[3], [Node()]
    while True:
        (token,) = struct.unpack(">I", data[at : at + 4])
        at += 4
        if token == 1:
            name = data[at : data.index(b"\0", at)].decode()
            at += len(name) // 4 * 4 + 4
            open_nodes.append(open_nodes[-1].new_child(name))
        elif token == 2:
            open_nodes.pop()
        elif token == 3:
            size, name = struct.unpack(">2I", data[at : at + 8])
            name = data[strings + name : data.index(b"\0", strings + name)].decode()
            open_nodes[-1].props[name] = data[at + 8 : at + 8 + size]
            at += 8 + (size + 3) // 4 * 4
        elif token == 9:
            return open_nodes[0].children[""]


def reservations(data):
    """The entries of the memory that a tree's file reserves."""
    at = end = int.from_bytes(data[16:20], "big")
    while data[end : end + 16] != bytes(16):
        end += 16
    return data[at:end]


def cells(text):
    """The bytes of numbers of 32 bits."""
    return b"".join(int(cell, 16).to_bytes(4, "big") for cell in text.split())


def value(text):
    """The bytes of a property's value in a script's line: each piece is `<cells>`, `[bytes]` or `"word"`."""
    pieces = re.findall(r'<([^>]*)>|\[([^]]*)\]|"([^"]*)"', text)
    assert not re.sub(r'<[^>]*>|\[[^]]*\]|"[^"]*"| ', "", text), text
    return b"".join(cells(numbers) if numbers else bytes.fromhex(digits) if digits else word.encode() + b"\0" for numbers, digits, word in pieces)


def edited(tree, script):
    """The tree with the edits of a script's lines; new nodes and properties are put first."""
    for line in script:
        words = line.split(" ", 4)
        if words[:2] == ["fdt", "mknod"]:
            node = tree.at(words[2])
            if words[3] in node.children:
                not_so(f"`{line}` makes a node again")
            node.children = first(node.children, words[3], Node())
        elif words[:2] == ["fdt", "set"]:
            node = tree.at(words[2])
            node.props = first(node.props, words[3].removeprefix("\\"), value(words[4] if len(words) > 4 else ""))
        else:
            assert re.fullmatch(r"(tftpb|load (usb|scsi) 0:1|fdt addr|fdt resize|setenv fdt_high|booti) .*", line), line
    return tree


def shown_value(text):
    """The bytes of a value as `fdt print` shows it."""
    if text.startswith("<"):
        return cells(text[1:-1])
    if text.startswith("["):
        return bytes.fromhex(text[1:-1])
    return b"".join(word.encode() + b"\0" for word in text[1:-1].split('", "'))


def printed(text):
    """The tree that `fdt print` shows."""
    root = Node()
    open_nodes = [root]
    for line in text.split("\n"):
        line = line.lstrip("\t")
        if line.endswith(" {"):
            open_nodes.append(open_nodes[-1].new_child(line[:-2]))
        elif line == "};":
            open_nodes.pop()
        elif line.endswith(";"):
            name, _, rest = line[:-1].partition(" = ")
            open_nodes[-1].props[name] = shown_value(rest) if rest else b""
    return root.children["/"]


def difference(wanted, found):
    """The first node that differs between two trees, or None."""
    wanted, found = dict(wanted.listed()), dict(found.listed())
    for path in [*wanted, *found]:
        if dict(wanted.get(path, [("no such node", b"")])) != dict(found.get(path, [("no such node", b"")])):
            return f"{path}: {wanted.get(path)} by the script, {found.get(path)} in U-Boot"
    return None


def spelled(node, name, offset_of):
    """The tokens of a node, by the Devicetree Specification, 5.4."""
    def padded(data):
        return data + bytes(-len(data) % 4)

    out = [struct.pack(">I", 1), padded(name.encode() + b"\0")]
    for prop, value in node.props.items():
        out += [struct.pack(">3I", 3, len(value), offset_of(prop)), padded(value)]
    for child_name, child in node.children.items():
        out += spelled(child, child_name, offset_of)
    return out + [struct.pack(">I", 2)]


def written(root, reserved=b""):
    """The file of a tree with these entries of reserved memory."""
    strings, offsets = bytearray(), {}

    def offset_of(prop):
        if prop not in offsets:
            offsets[prop] = len(strings)
            strings.extend(prop.encode() + b"\0")
        return offsets[prop]

    block = b"".join(spelled(root, "", offset_of)) + struct.pack(">I", 9)
    start = 56 + len(reserved)
    end = start + len(block)
    head = [0xD00DFEED, end + len(strings), start, end, 40, 17, 16, 0, len(strings), len(block)]
    return struct.pack(">10I", *head) + reserved + bytes(16) + block + bytes(strings)
