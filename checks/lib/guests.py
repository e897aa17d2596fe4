"""The program's cases as files, and the tree that is generated for a number: descriptions of which guests' trees are built."""

from lib.boards import quad
from lib.found import CRATES
from lib.trees import Node

CASES = CRATES / "cases/data"


def cells(*numbers):
    return b"".join(number.to_bytes(4, "big") for number in numbers)


class Case:
    """The words of a case and its files by their names, as bytes or as a count of zeros; of a file that is cut, the first lines
    alone, one more in each run; of one that is trimmed, one byte less at its end in each run."""

    def __init__(self, name):
        self.words, self.files, self.cut, self.trim, held = [], {}, None, None, None
        for line in (CASES / name).read_text().splitlines():
            kind, _, value = line.partition(" ")
            if kind == "file":
                held, self.files[value] = value, b""
            elif kind == "word":
                self.words.append(value)
            elif kind == "example":
                self.words += value.split()
            elif kind == "cut":
                self.cut = value
            elif kind == "trim":
                self.trim = value.split()
            elif kind == "zeros" and not self.files[held]:
                self.files[held] = int(value)
            elif held and (piece := self.piece(kind, value)):
                before = self.files[held]
                self.files[held] = (bytes(before) if isinstance(before, int) else before) + piece

    @staticmethod
    def piece(kind, value):
        """The bytes that a line gives to the file above it."""
        if kind == "from":
            return (CASES / value).read_bytes()
        return value.encode() + b"\n" if kind == "line" else bytes(int(value)) if kind == "zeros" else b""

    def runs(self):
        """The files of each run."""
        if self.trim:
            name, count = self.trim
            return [{**self.files, name: self.files[name][:-less]} for less in range(1, int(count) + 1)]
        if self.cut is None:
            return [self.files]
        lines = self.files[self.cut].splitlines(keepends=True)
        return [{**self.files, self.cut: b"".join(lines[:count])} for count in range(len(lines) + 1)]


def cases():
    """Each case by its name."""
    return [(name, Case(name)) for name in (CASES / "cases").read_text().split()]


def generated(number):
    """The tree of a number, by docs/FORMATS.md, Generated trees."""
    root, guests = Node(), 1 + number % 16
    two = {"#address-cells": cells(2), "#size-cells": cells(2)}
    root.props |= two
    root.new_child("memory@0").props |= {"device_type": b"memory\0", "reg": quad(0, 64 << 30)}
    chosen = root.new_child("chosen")
    for n in range(guests):
        pages = 512 * (1 + (37 * number + 101 * n) % 1023) + (7 * number + 13 * n) % 512
        peer, node = n ^ 1, chosen.new_child(f"domU{n}")
        node.props |= {"compatible": b"xen,domain\0", **two}
        node.props |= {"memory": quad(4 * pages)} if n % 2 == 0 else {}
        node.props |= {"cpus": cells(1)}
        node.props |= {"xen,static-mem": quad(0x800000000 + n * 0x80000000, 4096 * pages)} if n % 2 else {}
        node.props |= {"xen,enhanced": b"no-xenstore\0"} if peer < guests else {}
        kernel = node.new_child("kernel")
        kernel.props |= {"compatible": b"multiboot,kernel\0multiboot,module\0", "reg": quad(0x200000 * (n + 1), 0x200000)}
        region = node.new_child("shm0")
        region.props |= {"compatible": b"xen,domain-shared-memory-v1\0", "xen,shm-id": b"ring\0"}
        region.props |= {"xen,shared-mem": quad(0x700000000, 0x8000000000, 0x200000)}
        if peer < guests:
            port = node.new_child("evtchn0")
            port.props |= {"compatible": b"xen,evtchn-v1\0", "phandle": cells(n + 1), "xen,evtchn": cells(1, peer + 1)}
    return root
