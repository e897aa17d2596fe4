"""Overlays applied to a tree, by the rules of docs/FORMATS.md, and overlays that are made for dtc."""

import copy

LAST_PHANDLE, DEEPEST = 0xFFFFFFFE, 32


class Refused(Exception):
    """The first fault of an overlay, as the program names it."""


def first(node, name):
    """The first property of a name, or None."""
    return next((value for held, value in node.properties if held == name), None)


def put(node, name, value):
    """Sets the first property of a name, or adds a last one."""
    for index, (held, _) in enumerate(node.properties):
        if held == name:
            node.properties[index] = (name, value)
            return
    node.properties.append((name, value))


def child(node, name):
    """The first child of a name, or None."""
    return next((below for below in node.children if below.name == name), None)


def walked(node, path=b"", depth=1):
    """Each node in document order, with its path and depth; the path of the first is empty."""
    yield node, path, depth
    for below in node.children:
        yield from walked(below, path + b"/" + below.name, depth + 1)


def found(root, path):
    """The node of a path with its depth, or None."""
    node, depth = root, 1
    if path != b"/":
        start, *names = path.split(b"/")
        if start or not names:
            return None
        for name in names:
            node, depth = name and child(node, name), depth + 1
            if not node:
                return None
    return node, depth


def number(value):
    return int.from_bytes(value, "big") if value is not None and len(value) == 4 else None


def string(value):
    return value[:-1] if value is not None and value.find(b"\0") == len(value) - 1 else None


def highest(root):
    return max(number(first(node, b"phandle")) or 0 for node, _, _ in walked(root))


def shifted(base, overlay):
    """The overlay with its phandles above those of the base, and the words of its local fixups."""
    by, moved = highest(base), copy.deepcopy(overlay)
    if by + highest(overlay) > LAST_PHANDLE:
        raise Refused("PhandleRange")
    for node, _, _ in walked(moved):
        phandle = number(first(node, b"phandle"))
        if phandle is not None:
            put(node, b"phandle", (phandle + by).to_bytes(4, "big"))
    fixups = found(overlay, b"/__local_fixups__")
    for node, path, _ in walked(fixups[0]) if fixups else []:
        bad = Refused(b"BadLocal " + (path or b"/"))
        place = found(moved, path or b"/")
        if not place:
            raise bad
        for name, offsets in node.properties:
            value = first(place[0], name)
            if value is None or len(offsets) % 4:
                raise bad
            for at in range(0, len(offsets), 4):
                value = replaced(value, number(offsets[at : at + 4]), lambda word: word + by)
                if value is None:
                    raise bad
            put(place[0], name, value)
    return moved


def replaced(value, offset, change):
    """A value with the word at an offset changed, or None."""
    if offset + 4 > len(value):
        return None
    word = change(number(value[offset : offset + 4]))
    return None if word > LAST_PHANDLE else value[:offset] + word.to_bytes(4, "big") + value[offset + 4 :]


def label_phandle(base, label):
    symbols = found(base, b"/__symbols__")
    path = symbols and string(first(symbols[0], label))
    place = found(base, path) if path else None
    return place and number(first(place[0], b"phandle"))


def resolved(base, overlay):
    """The overlay with its labels resolved."""
    known, fixups = copy.deepcopy(overlay), found(overlay, b"/__fixups__")
    for label, value in list(fixups[0].properties) if fixups else []:
        phandle = label_phandle(base, label)
        if phandle is None:
            raise Refused(b"Unresolved " + label)
        *strings, rest = value.split(b"\0")
        for text in strings:
            parts = text.split(b":")
            place = found(known, parts[0])
            if len(parts) != 3 or not all(parts) or not parts[2].isdigit() or not place:
                raise Refused(b"BadFixup " + label)
            held = first(place[0], parts[1])
            if held is None or int(parts[2]) + 4 > len(held):
                raise Refused(b"BadFixup " + label)
            at = int(parts[2])
            put(place[0], parts[1], held[:at] + phandle.to_bytes(4, "big") + held[at + 4 :])
        if rest:
            raise Refused(b"BadFixup " + label)
    return known


def target(root, fragment):
    """The node that a fragment is merged into, with its depth, or None."""
    value = first(fragment, b"target")
    if value is None:
        path = string(first(fragment, b"target-path"))
        return found(root, path) if path else None
    wanted = number(value)
    held = ((node, depth) for node, _, depth in walked(root) if number(first(node, b"phandle")) == wanted)
    return None if wanted is None else next(held, None)


def merge(node, content, new_node):
    for name, value in content.properties:
        put(node, name, value)
    for below in content.children:
        into = child(node, below.name)
        if into is None:
            into = new_node(below.name)
            node.children.append(into)
        merge(into, below, new_node)


def applied(base, overlay):
    """The base with the overlay applied, or its first fault is raised."""
    known, made = resolved(base, shifted(base, overlay)), copy.deepcopy(base)
    for fragment in known.children:
        content = child(fragment, b"__overlay__")
        if content is None:
            continue
        place = target(made, fragment)
        if not place:
            raise Refused(b"NoTarget " + fragment.name)
        if place[1] + max(depth for _, _, depth in walked(content)) - 1 > DEEPEST:
            raise Refused(b"Deep " + fragment.name)
        merge(place[0], content, type(base))
    return made
