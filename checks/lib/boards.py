"""Boards' trees: their memory, what is reserved of it, room for what is described on them, and devices that a guest may be given."""

from lib.trees import Node, flattened, reservations

LAST = 1 << 28
FIRST_BANK, FIRST_BANK_PAGES, SECOND_BANK = 0x40000, 786432, 0x200000
XENS_OWN = [(0x3001, 0x3011), (0x3020, 0x4020), (0x22000, 0x22001), (0x38000, 0x39000)]
GROUP = 512


def number(value):
    return int.from_bytes(value, "big")


def quad(*numbers):
    return b"".join(each.to_bytes(8, "big") for each in numbers)


def entries(value, address, size):
    """The pairs of a `reg`, or none of them where it is no whole entries."""
    step = 4 * (address + size)
    if address not in (1, 2) or size not in (1, 2) or len(value) % step:
        return []
    starts = range(0, len(value), step)
    return [(number(value[at : at + 4 * address]), number(value[at + 4 * address : at + step])) for at in starts]


def cells(node):
    """The cells of the lists of a node's children (Devicetree Specification 0.4, 2.3.5)."""
    return [number(node.props.get(name, bytes([0, 0, 0, n]))) for name, n in [("#address-cells", 2), ("#size-cells", 1)]]


def without(ranges, taken):
    """Ranges of frames without those that are taken."""
    for start, end in taken:
        cut = [(a, b) for a, b in ranges if b <= start or end <= a]
        for a, b in ranges:
            if not (b <= start or end <= a):
                cut += [(a, start)] * (a < start) + [(end, b)] * (end < b)
        ranges = sorted(cut)
    return ranges


def common(some, others):
    """The frames that two lists of ranges have in common, joined."""
    return joined(sorted((max(a, c), min(b, d)) for a, b in some for c, d in others if max(a, c) < min(b, d)))


def joined(ranges):
    """Sorted ranges, with those joined that meet."""
    out = []
    for start, end in ranges:
        if out and start <= out[-1][1]:
            out[-1] = (out[-1][0], max(end, out[-1][1]))
        else:
            out.append((start, end))
    return out


def frames_in(ranges):
    return sum(end - start for start, end in ranges)


class NoRoom(Exception):
    """A board's memory has no room for three guests."""


class Board:
    """A board's tree: its memory, and what is claimed of it."""

    def __init__(self, data, added):
        self.root, self.reserved = flattened(data), reservations(data)
        self.memory = "as they are"
        if added:
            self.add()
        self.memories = [n for n in self.root.children.values() if n.props.get("device_type") == b"memory\0"]
        if self.memories and self.entries() and not any(size for _, size in self.entries()):
            self.fill()
        whole = [((at + 4095) // 4096, min((at + size) // 4096, LAST)) for at, size in self.entries()]
        self.ram = joined(sorted(r for r in whole if r[0] < r[1]))
        self.claimed = [(at // 4096, (at + size + 4095) // 4096) for at, size in self.kept() if size]
        self.avoids = bool(common(self.ram, joined(sorted(self.claimed))))

    def entries(self):
        address, size = cells(self.root)
        return [pair for node in self.memories for pair in entries(node.props.get("reg", b""), address, size)]

    def add(self):
        """Adds a memory node of 2 GiB, as a boot loader would."""
        address, size = cells(self.root)
        reg = (1 << 30).to_bytes(4 * address, "big") + (1 << 31).to_bytes(4 * size, "big")
        self.root.new_child("memory@40000000").props |= {"device_type": b"memory\0", "reg": reg}
        self.memory = "with an added memory node"

    def fill(self):
        """Writes 2 GiB into the first entry, as a boot loader would."""
        address, size = cells(self.root)
        node = next(n for n in self.memories if entries(n.props.get("reg", b""), address, size))
        reg = node.props["reg"]
        node.props["reg"] = reg[: 4 * address] + (1 << 31).to_bytes(4 * size, "big") + reg[4 * (address + size) :]
        self.memory = "with memory of the size 0 filled in"

    def kept(self):
        """The bytes that the tree reserves."""
        pairs = entries(self.reserved, 2, 2)
        parent = self.root.children.get("reserved-memory", Node())
        for node in parent.children.values():
            pairs += entries(node.props.get("reg", b""), *cells(parent))
        return pairs

    def place(self, chance, pages, multiple=GROUP, apart=()):
        """Claims so many pages, or fewer where there are not so many in one place, from a multiple on."""
        free = without(without(self.ram, self.claimed), apart)
        while pages:
            first = [(-(-a // multiple), (b - pages) // multiple) for a, b in free]
            first = [pair for pair in first if pair[0] <= pair[1]]
            if first:
                low, high = chance.choice(first)
                start = chance.choice([low, high, chance.randint(low, high)]) * multiple
                self.claimed.append((start, start + pages))
                return start, pages
            pages //= 2
        raise NoRoom


def translated(chain, address, size):
    """The host address of a child's address at the end of a chain of nodes from the root, or None."""
    for bus, parent in zip(reversed(chain[1:]), reversed(chain[:-1])):
        value = bus.props.get("ranges")
        if value is None:
            return None
        if value == b"":
            continue
        (below, size_cells), (above, _) = cells(bus), cells(parent)
        step = 4 * (below + above + size_cells)
        if below not in (1, 2) or above not in (1, 2) or size_cells not in (1, 2) or len(value) % step:
            return None
        for at in range(0, len(value), step):
            child = number(value[at : at + 4 * below])
            host = number(value[at + 4 * below : at + 4 * (below + above)])
            length = number(value[at + 4 * (below + above) : at + step])
            if child <= address and address + size <= child + length:
                address += host - child
                break
        else:
            return None
    return address


def controller(root):
    """The phandle of the host's interrupt controller: the first node with `interrupt-controller` and three cells."""
    for _, props in root.listed():
        props = dict(props)
        if "interrupt-controller" in props and props.get("#interrupt-cells") == b"\0\0\0\3":
            return props.get("phandle")
    return None


def interrupts(chain, node, gic):
    """The shared interrupts of a device, each as its three words, where all its interrupts are those of the controller."""
    value = node.props.get("interrupts", b"")
    if not value or len(value) % 12 or "interrupts-extended" in node.props or gic is None:
        return []
    parent = next((each.props["interrupt-parent"] for each in reversed([*chain, node]) if "interrupt-parent" in each.props), None)
    triples = [value[at : at + 12] for at in range(0, len(value), 12)]
    shared = [each for each in triples if number(each[:4]) == 0 and number(each[4:8]) < 960]
    return shared if parent == gic else []


def devices(board):
    """Each device that lies in pages apart from memory and from what is claimed: path, first page, pages, interrupts."""
    gic, taken = controller(board.root), [*board.ram, *board.claimed]
    found = []

    def look(chain, path):
        for name, node in chain[-1].children.items():
            address, size = cells(chain[-1])
            for at, length in entries(node.props.get("reg", b""), address, size)[:1]:
                host = translated(chain, at, length) if length else None
                if host is None or host + length > 1 << 39 or length > 1 << 24:
                    continue
                first, end = host >> 12, (host + length + 4095) >> 12
                if first and not common([(first, end)], taken) and "interrupts-extended" not in node.props:
                    found.append((f"{path}/{name}", first, end - first, interrupts(chain, node, gic)))
            look([*chain, node], f"{path}/{name}")

    look([board.root], "")
    return found
