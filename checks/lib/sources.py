"""A reader of device tree source of its own, by the grammar of docs/FORMATS.md. It goes on byte by byte, and stops at the first
byte with which the text begins no source."""

import re

SPACES = b" \t\r\n"
DIGITS = b"0123456789"
HEXADECIMAL = b"0123456789abcdefABCDEF"
LETTERS = b"abcdefghijklmnopqrstuvwxyzABCDEFGHIJKLMNOPQRSTUVWXYZ"
IN_NAMES = {"property": LETTERS + DIGITS + b",._+?#-", "node": LETTERS + DIGITS + b",._+-@"}
IN_STRINGS = bytes(set(range(0x20, 0x7F)) - set(b'"\\'))
SPACING = re.compile(rb"[ \t\r\n]*")
DEEPEST = 32


class Departs(Exception):
    """The text begins no source with the byte of this offset, or ends there."""


class Reader:
    def __init__(self, text, make_node):
        self.text, self.at, self.make_node = text, 0, make_node

    def next(self):
        """The next byte, or no bytes at the end."""
        return self.text[self.at : self.at + 1]

    def is_next(self, allowed):
        return self.next() != b"" and self.next() in allowed

    def stop(self):
        raise Departs(self.at)

    def take(self, allowed):
        """The next byte, which is one of these."""
        if not self.is_next(allowed):
            self.stop()
        self.at += 1
        return self.text[self.at - 1]

    def word(self, spelled):
        for byte in spelled:
            self.take(bytes([byte]))

    def skip(self, mark, is_needed):
        """Goes behind a mark; where there is none, to the end."""
        found = self.text.find(mark, self.at + 2)
        self.at = len(self.text) if found < 0 else found + len(mark)
        if found < 0 and is_needed:
            self.stop()

    def gap(self, before_slash=False):
        """Spaces and comments, up to anything else; that may be a slash only where one is said to follow."""
        while True:
            self.at = SPACING.match(self.text, self.at).end()
            if self.next() != b"/":
                return
            pair = self.text[self.at : self.at + 2]
            if pair == b"/*":
                self.skip(b"*/", True)
            elif pair == b"//":
                self.skip(b"\n", False)
            elif before_slash:
                return
            else:
                self.at += 1
                self.stop()

    def behind_slash(self):
        """A gap behind the slash of a keyword, which begins with no comment."""
        if self.is_next(b"/"):
            self.stop()
        self.gap()

    def separator(self):
        if not self.is_next(SPACES + b"/"):
            self.stop()
        self.gap()

    def digits(self, allowed, base, value, limit):
        """More digits, each as long as the number stays below its limit."""
        while self.is_next(allowed):
            value = value * base + int(self.next(), base)
            if value >= limit:
                self.stop()
            self.at += 1
        return value

    def number(self, limit):
        first = self.take(DIGITS)
        if first != ord("0"):
            return self.digits(DIGITS, 10, first - ord("0"), limit)
        if not self.is_next(b"x"):
            return 0
        self.at += 1
        if not self.is_next(HEXADECIMAL):
            self.stop()
        return self.digits(HEXADECIMAL, 16, 0, limit)

    def reservation(self):
        self.word(b"memreserve/")
        if not self.is_next(SPACES):
            self.stop()
        self.gap()
        address = self.number(2**64)
        self.separator()
        size = self.number(2**64)
        self.gap()
        self.take(b";")
        self.gap(before_slash=True)
        return address, size

    def value(self):
        kind = self.take(b'"<[')
        made = bytearray()
        if kind == ord('"'):
            while not self.is_next(b'"'):
                made.append(self.take(IN_STRINGS))
            made.append(0)
        elif kind == ord("<"):
            self.gap()
            while not self.is_next(b">"):
                made += self.number(2**32).to_bytes(4, "big")
                if not self.is_next(b">"):
                    self.separator()
        else:
            self.gap()
            while not self.is_next(b"]"):
                made.append(int(bytes([self.take(HEXADECIMAL), self.take(HEXADECIMAL)]), 16))
                self.gap()
        self.at += 1
        return bytes(made)

    def given(self):
        """A property's values, one behind the other."""
        if not self.is_next(b"="):
            return b""
        self.at += 1
        self.gap()
        made = self.value()
        self.gap()
        while self.is_next(b","):
            self.at += 1
            self.gap()
            made += self.value()
            self.gap()
        return made

    def name(self, kinds):
        """A name, and what it may be that of."""
        first = self.at
        while True:
            left = [kind for kind in kinds if self.is_next(IN_NAMES[kind])]
            if not left:
                break
            kinds = left
            self.at += 1
        if self.at == first:
            self.stop()
        return self.text[first : self.at], kinds

    def part(self, node, depth):
        """A property or a node of a node at this depth."""
        kinds = ([] if node.children else ["property"]) + (["node"] if depth < DEEPEST else [])
        name, kinds = self.name(kinds)
        self.gap()
        if "node" in kinds and self.is_next(b"{"):
            child = self.make_node(name)
            node.children.append(child)
            self.braced(child, depth + 1)
        elif "property" in kinds and self.is_next(b"=;"):
            node.properties.append((name, self.given()))
        else:
            self.stop()
        self.take(b";")

    def braced(self, node, depth):
        self.take(b"{")
        self.gap()
        while not self.is_next(b"}"):
            self.part(node, depth)
            self.gap()
        self.at += 1
        self.gap()

    def source(self):
        self.gap(before_slash=True)
        self.word(b"/dts-v1/")
        self.behind_slash()
        self.take(b";")
        self.gap(before_slash=True)
        pairs = []
        self.take(b"/")
        while self.is_next(b"m"):
            pairs.append(self.reservation())
            self.take(b"/")
        root = self.make_node(b"")
        self.behind_slash()
        self.braced(root, 1)
        self.take(b";")
        self.gap()
        if self.at < len(self.text):
            self.stop()
        return root, [pair for pair in pairs if pair != (0, 0)]


def read(text, make_node):
    """The root and the reservations that a text says; else it departs."""
    return Reader(text, make_node).source()


# Single texts of device tree source, and what they say or where they depart from every source.

# The tree of one property, as text and as its file.
ONE = b"/dts-v1/;\n/ {\n\ta = <0x1>;\n};\n"
ONE_FILE = bytes.fromhex(
    "d00dfeed0000005a0000003800000058000000280000001100000010000000000000000200000020" + "00" * 16
    + "000000010000000000000003000000040000000000000001" + "0000000200000009" + "6100"
)

# Texts that depart from every source at the byte behind the mark, which stands for nothing.
MARK = "§"
DEPART = [
    "§",
    "/dts-v1/; / { l§: n { }; };",
    "/dts-v1/§/* a */; / { };",
    "/dts-v1/; / { a = <1 429496729§6>; };",
    "/dts-v1/; / { a = <0x10000000§0>; };",
    "/dts-v1/; /memreserve/ 1844674407370955161§6 1; / { };",
    "/dts-v1/; /memreserve/§1 2; / { };",
    "/dts-v1/; / { a = <0§10>; };",
    "/dts-v1/; / { a = <0x§>; };",
    "/dts-v1/; / { a = [0§]; };",
    '/dts-v1/; / { a = "x§\\n"; };',
    "/dts-v1/; / { a = <§&n>; };",
    '/dts-v1/; /§include/ "a"',
    "/dts-v1/; / { n { }; a §= <1>; };",
    "/dts-v1/; / { a@1 §= <1>; };",
    "/dts-v1/; / { a? §{ }; };",
    "/dts-v1/; / { a§*; };",
    "/dts-v1/; / { }; /§ { };",
    "/dts-v1/; / { }; /* a§",
    "/dts-v1/; / { a = <1>;§",
    "/dts-v1/; / {" + "a{" * 31 + "a§{" + "};" * 33,
]

# Texts, and plain ones that say the same.
SAY_THE_SAME = [
    (
        """/* a */ /dts-v1/ // b
/**/ ; /* ; */ /memreserve/ /* c */ 0x1 /* d */ 2 /* e */ ; // f
/ /* g */ { /* " */ a /* h */ = /* i */ < /* j */ 0x1 /* k */ 2 /**/ > /* l */ , // m
"/* n */" /***/ , [ /* o */ 0a /**/ 0b ] /* p */ ; /* q */ c /* r */ { /* s */ } /* t */ ; } // u
/* ** / */ ; // v""",
        """/dts-v1/; /memreserve/ 1 2; / { a = <1 2>, [2f2a206e202a2f00], [0a0b]; c { }; };""",
    ),
    ('/dts-v1/; / { a = <>; b = []; c; d = <>, [], ""; };', "/dts-v1/; / { a; b; c; d = [00]; };"),
    ('/dts-v1/; / { a = "x", "y"; b = "x", [00], <0>; };', "/dts-v1/; / { a = [78007900]; b = [78000000000000]; };"),
    ("/dts-v1/; / { a = <0 10 0x0a 0xDEADBEEF 4294967295 0x00000000ffffffff>; };", "/dts-v1/; / { a = [000000000000000a0000000adeadbeefffffffffffffffff]; };"),
    ("/dts-v1/; /memreserve/ 0x80000000 0x10000; /memreserve/ 0 0x0; /memreserve/ 1 18446744073709551615; / { };",
     "/dts-v1/; /memreserve/ 0x80000000 0x10000; /memreserve/ 1 0xffffffffffffffff; / { };"),
    ("/dts-v1/; / { ,._+?#-azAZ09; ,._+-@azAZ09 { }; };", "/dts-v1/; / { ,._+?#-azAZ09 = []; ,._+-@azAZ09 { }; };"),
    ("/dts-v1/; / {" + "a{" * 31 + "};" * 31 + "};", "/dts-v1/; / { " + "a { " * 31 + "}; " * 31 + "};"),
]
