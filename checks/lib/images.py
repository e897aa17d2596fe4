"""An independent reader of image files: whole walks, by the Arm ARM, VMSAv8-64 stage 2, 4 KB granule, from level 1."""

import struct

KINDS = {0x7FC: "ram", 0x00400000000006C4: "device", 0x00400000000007FC: "shared"}
ADDRESS = 0x0000FFFFFFFFF000
PAGES = {1: 512 * 512, 2: 512, 3: 1}


class Wrong(Exception):
    """What is not so in an image."""


def tables_of(data):
    """The first root frame and the tables by their frames, of an image file."""
    root, count = struct.unpack_from("<2Q", data, 8)
    if data[:8] != b"S2IMAGE1" or len(data) != 24 + 4104 * count:
        raise Wrong("no image file")
    tables = {}
    for at in range(24, len(data), 4104):
        (frame,) = struct.unpack_from("<Q", data, at)
        if frame in tables:
            raise Wrong(f"frame {frame:#x} twice")
        tables[frame] = struct.unpack_from("<512Q", data, at + 8)
    return root, tables


def leaves(tables, frame, level, page, met):
    """Each page or block below a table, whose first page is given: its guest page, host frame, pages and kind."""
    if frame not in tables or frame in met:
        raise Wrong(f"table {frame:#x} is missing or met twice")
    met.add(frame)
    for index, word in enumerate(tables[frame]):
        if word == 0:
            continue
        here, host = page + index * PAGES[level], (word & ADDRESS) >> 12
        if word & 3 == 3 and level < 3:
            if word & ~ADDRESS != 3:
                raise Wrong(f"word {word:#x} of a table has other bits")
            yield from leaves(tables, host, level + 1, here, met)
        elif word & 3 == (3 if level == 3 else 1) and host % PAGES[level] == 0 and word & ~ADDRESS & ~3 in KINDS:
            yield here, host, PAGES[level], KINDS[word & ~ADDRESS & ~3]
        else:
            raise Wrong(f"word {word:#x} at level {level}")


def runs_of(data):
    """The runs of an image by ascending guest page (guest page, host frame, pages, kind), and the frames of its tables."""
    root, tables = tables_of(data)
    runs, met = [], set()
    for half in range(2):
        for guest, host, pages, kind in leaves(tables, root + half, 1, half << 27, met):
            if runs:
                before = runs[-1]
                if (before[0] + before[2], before[1] + before[2], before[3]) == (guest, host, kind):
                    runs[-1] = (before[0], before[1], before[2] + pages, kind)
                    continue
            runs.append((guest, host, pages, kind))
    if met != set(tables):
        raise Wrong("a table that no walk meets")
    return runs, met


def format_fault(data):
    """Why a file is no image, in the words of the audit, or None."""
    if len(data) < 24 or data[:8] != b"S2IMAGE1":
        return "Magic"
    root, count = struct.unpack_from("<2Q", data, 8)
    if len(data) != 24 + 4104 * count:
        return "Length"
    frames = [struct.unpack_from("<Q", data, 24 + 4104 * page)[0] for page in range(count)]
    for page, frame in enumerate(frames):
        if frame >= 1 << 28:
            return f"TooHigh at {page}"
    seen = set()
    for page, frame in enumerate(frames):
        if frame in seen:
            return f"FrameTwice at {page}"
        seen.add(frame)
    if root % 2 or root not in seen or root + 1 not in seen:
        return "Root"
    return None


class Tear(Exception):
    """Where the tables of an image cannot be followed."""


def mapped_regions(tables, frame, level, page, met):
    """Each region that a table maps, and those below it, by ascending guest page: (page, pages, frame, attributes)."""
    for index, word in enumerate(tables[frame]):
        if not word & 1:
            continue
        here, pages, host = page + index * PAGES[level], PAGES[level], (word & ADDRESS) >> 12
        if level < 3 and word & 2:
            if host not in tables:
                raise Tear(f"Missing {host:#x}")
            if host in met:
                raise Tear(f"Reused {host:#x}")
            met.add(host)
            yield from mapped_regions(tables, host, level + 1, here, met)
        elif level == 3 and not word & 2:
            raise Tear(f"Reserved {frame:#x} {index}")
        else:
            yield here, pages, host // pages * pages, word & 0x0078000000000FFC


def joined(regions):
    """Regions by ascending page, where those that run on are one."""
    runs = []
    for page, pages, host, attributes in regions:
        if runs and (runs[-1][0] + runs[-1][1], runs[-1][2] + runs[-1][1], runs[-1][3]) == (page, host, attributes):
            runs[-1] = (runs[-1][0], runs[-1][1] + pages, *runs[-1][2:])
        else:
            runs.append((page, pages, host, attributes))
    return runs


def goal(regions, page):
    """Where regions send a page: a frame with attributes, or None."""
    for first, pages, host, attributes in regions:
        if first <= page < first + pages:
            return host + page - first, attributes
    return None


def named(where):
    """How the audit names where a page goes."""
    if where is None:
        return "none"
    host, attributes = where
    return f"{host << 12:#x} {KINDS.get(attributes) or f'attr {attributes:#x}'}"


def first_difference(regions, planned):
    """The lowest page that two maps send to different places, as the audit names it, or None."""
    edges = sorted({edge for region in [*regions, *planned] for edge in (region[0], region[0] + region[1])})
    for page in edges:
        found, wanted = goal(regions, page), goal(planned, page)
        if found != wanted:
            return f"{page << 12:#x} maps {named(found)}, plan {named(wanted)}"
    return None


def first_finding(data, planned, every_plan, earlier):
    """What an audit says of an image that is to map what is planned, beside the plans of every guest and the frames of the
    tables of earlier images: a status, and a text where there is one."""
    fault = format_fault(data)
    if fault:
        return 4, fault
    root, tables = tables_of(data)
    try:
        met = {root, root + 1}
        regions = [*mapped_regions(tables, root, 1, 0, met), *mapped_regions(tables, root + 1, 1, 1 << 27, met)]
    except Tear as tear:
        return 8, str(tear)
    difference = first_difference(joined(regions), planned)
    if difference:
        return 8, difference
    for frame in tables:  # in the order of the file
        if any(host <= frame < host + pages for plan in every_plan for _, pages, host, _ in plan):
            return 8, f"TableMapped {frame:#x}"
    for frame in tables:
        if frame in earlier:
            return 8, f"TableShared {frame:#x}"
    return 0, None


def audit(images, plans):
    """The status and the line of an audit of these images, by their names, of guests that are planned so."""
    earlier = set()
    for (name, data), planned in zip(images, plans, strict=True):
        status, text = first_finding(data, planned, plans, earlier)
        if status:
            return status, f"dom0less: {name}: {text}"
        earlier |= set(tables_of(data)[1])
    return 0, f"checked {len(plans)}"


def plans_of(report):
    """The plan of each guest that a report of a build lists, as regions."""
    attributes = {kind: bits for bits, kind in KINDS.items()}
    plans = []
    for line in report.splitlines():
        words = line.split()
        if line.startswith("domU"):
            plans.append([])
        elif len(words) == 6 and words[1] == "->":
            guest, host, pages, kind = int(words[0], 0) >> 12, int(words[2], 0) >> 12, int(words[4]), words[5]
            plans[-1].append((guest, pages, host, attributes[kind]))
    return plans
