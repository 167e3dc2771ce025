"""Outlines: reads well-known text, converts it as the mapping requests, and applies the register's rules (docs/OUTLINES.md) exactly."""
import re
from dataclasses import dataclass
from decimal import Context, Decimal
from fractions import Fraction

TOKEN = re.compile(r"[(),]|[^(), \t\r\n]+")
HEAD = re.compile(r"(POLYGON|MULTIPOLYGON)(ZM|Z|M)?", re.I | re.A)
TAG = re.compile(r"ZM|Z|M", re.I | re.A)
EMPTY = re.compile(r"EMPTY", re.I | re.A)
COORDINATE = re.compile(r"([+-]?)([0-9]+)(?:\.0{0,20})?")
NUMBER = re.compile(r"[+-]?(?:[0-9]+\.?[0-9]*|\.[0-9]+)(?:[eE][+-]?[0-9]{1,3})?")
LARGEST = 10_000_000_000
LARGEST_DOUBLED_AREA = 10**18
MOST_LISTED = 201
WIDE = Context(prec=80)


@dataclass(slots=True)
class Shape:
    """A parsed polygon or multipolygon: parts, each a list of rings, each a list of points, each a list of words."""
    is_multi: bool
    tag: str
    parts: list


@dataclass(slots=True)
class Outline:
    """The outline to send: its text, the fault that the register would return or None; if none, the text as the register prints it, and
    twice the area in square millimetres.

    `source_doubled` is twice the area of the source in square millimetres, a Fraction, before rounding; None if it was not computed.
    `changes` names the conversions that were applied.
    """
    text: str
    fault: int | None = None
    printed: str | None = None
    doubled: int = 0
    source_doubled: Fraction | None = None
    changes: tuple = ()
    shift: Fraction | None = None


@dataclass
class Options:
    """The conversions that the mapping requests."""
    scale: Decimal = Decimal(1)
    round: bool = False
    drop_repeated: bool = False
    drop_straight: bool = False
    drop_z: bool = False
    split: bool = False

    @property
    def is_plain(self):
        return self.scale == 1 and not (self.round or self.drop_repeated or self.drop_straight or self.drop_z or self.split)


class Malformed(Exception):
    """The text is not in the grammar."""


class Tokens:
    def __init__(self, text):
        self.list, self.at = TOKEN.findall(text), 0

    def peek(self):
        return self.list[self.at] if self.at < len(self.list) else ""

    def next(self):
        token = self.peek()
        self.at += 1
        return token

    def word(self):
        token = self.next()
        if token in ("", "(", ")", ","):
            raise Malformed
        return token

    def expect(self, token):
        if self.next() != token:
            raise Malformed

    def listed(self, read):
        """Reads `(` item `,` item .. `)`."""
        self.expect("(")
        items = [read()]
        while self.peek() == ",":
            self.next()
            items.append(read())
        self.expect(")")
        return items

    def point(self):
        words = [self.word(), self.word()]
        while self.peek() not in ("", "(", ")", ",") and len(words) < 4:
            words.append(self.next())
        return words


def parse(text):
    """Returns the Shape of a text of the grammar of POLYGON or MULTIPOLYGON. Raises Malformed for any other text."""
    tokens = Tokens(text)
    head = HEAD.fullmatch(tokens.word())
    if not head:
        raise Malformed
    tag = (head[2] or "").upper()
    if not tag and TAG.fullmatch(tokens.peek()):
        tag = tokens.next().upper()
    is_multi = len(head[1]) > 7
    def ring():
        return tokens.listed(tokens.point)
    def rings():
        return tokens.listed(ring)
    if EMPTY.fullmatch(tokens.peek()):
        tokens.next()
        parts = []
    else:
        parts = tokens.listed(rings) if is_multi else [rings()]
    if tokens.peek():
        raise Malformed
    return Shape(is_multi, tag, parts)


def read_coordinate(word):
    """Returns the value of a coordinate, LARGEST + 1 if it is out of range, or None if the word is not a coordinate."""
    found = COORDINATE.fullmatch(word)
    if not found:
        return None
    digits = found[2].lstrip("0") or "0"
    if len(digits) > 11 or int(digits) > LARGEST:
        return LARGEST + 1
    return -int(digits) if found[1] == "-" else int(digits)


def doubled_area(ring):
    """Returns twice the signed area of a ring, counterclockwise positive."""
    total, (x1, y1) = 0, ring[-1]
    for x2, y2 in ring:
        total += x1 * y2 - x2 * y1
        x1, y1 = x2, y2
    return total


def turn(a, b, c):
    return (b[0] - a[0]) * (c[1] - a[1]) - (b[1] - a[1]) * (c[0] - a[0])


def on_box(a, b, c):
    """Returns whether c is in the bounding box of a and b."""
    return min(a[0], b[0]) <= c[0] <= max(a[0], b[0]) and min(a[1], b[1]) <= c[1] <= max(a[1], b[1])


def have_common_point(a, b, c, d):
    """Returns whether the segments a b and c d, whose bounding boxes overlap, have a common point."""
    abc, abd = turn(a, b, c), turn(a, b, d)
    if (abc > 0 and abd > 0) or (abc < 0 and abd < 0):
        return False
    cda, cdb = turn(c, d, a), turn(c, d, b)
    if (cda > 0 and cdb > 0) or (cda < 0 and cdb < 0):
        return False
    if abc or abd or cda or cdb:
        return True
    return on_box(a, b, c) or on_box(a, b, d) or on_box(c, d, a) or on_box(c, d, b)


def is_simple(ring):
    """Returns whether a ring (without its closing point) is simple: no edge is empty, the area is not 0, and no two edges have a common
    point but a shared end.

    Neighbouring edges need no test: an edge that runs back along its neighbour also meets the edge behind that, or the area is 0."""
    count = len(ring)
    edges = []
    for i, a in enumerate(ring):
        b = ring[i + 1 - count]
        if a == b:
            return False
        low, high = (a[0], b[0]) if a[0] < b[0] else (b[0], a[0])
        bottom, top = (a[1], b[1]) if a[1] < b[1] else (b[1], a[1])
        edges.append((low, high, bottom, top, i, a, b))
    if doubled_area(ring) == 0:
        return False
    edges.sort(key=lambda edge: edge[0])
    active = []
    for edge in edges:
        low, high, bottom, top, i, a, b = edge
        active = [it for it in active if it[1] >= low]
        for _, _, other_bottom, other_top, j, c, d in active:
            if other_top >= bottom and other_bottom <= top and (i - j) % count not in (1, count - 1) and have_common_point(a, b, c, d):
                return False
        active.append(edge)
    return True


def describe_crossing(text):
    """Describes why a ring is not simple."""
    ring = [(read_coordinate(x), read_coordinate(y)) for x, y in parse(text).parts[0][0]][:-1]
    count = len(ring)
    for i, (x, y) in enumerate(ring):
        if ring[i] == ring[i + 1 - count]:
            return f"it repeats the point {x} {y}"
    for i in range(count):
        for j in range(i + 2, count - (i == 0)):
            a, b, c, d = ring[i], ring[i + 1 - count], ring[j], ring[j + 1 - count]
            if max(a[0], b[0]) >= min(c[0], d[0]) and max(c[0], d[0]) >= min(a[0], b[0]) and max(a[1], b[1]) >= min(c[1], d[1]) \
                    and max(c[1], d[1]) >= min(a[1], b[1]) and have_common_point(a, b, c, d):
                return f"the edges {a[0]} {a[1]} to {b[0]} {b[1]} and {c[0]} {c[1]} to {d[0]} {d[1]} meet"
    return "its area is 0"


def judge(text):
    """Returns the fault that the register returns for an outline, or None, its ring counterclockwise, and twice its area."""
    try:
        shape = parse(text)
    except Malformed:
        return 110, None, 0
    if shape.is_multi:
        return 110, None, 0
    if not shape.parts:
        return 111, None, 0
    if len(shape.parts[0]) > 1:
        return 112, None, 0
    listed = shape.parts[0][0]
    if shape.tag or any(len(point) > 2 for point in listed):
        return 113, None, 0
    points = [(read_coordinate(x), read_coordinate(y)) for x, y in listed]
    if any(x is None or y is None for x, y in points):
        return 114, None, 0
    if any(abs(x) > LARGEST or abs(y) > LARGEST for x, y in points):
        return 115, None, 0
    if len(points) < 4:
        return 116, None, 0
    if len(points) > MOST_LISTED:
        return 117, None, 0
    if points[0] != points[-1]:
        return 118, None, 0
    ring = points[:-1]
    if not is_simple(ring):
        return 119, None, 0
    doubled = doubled_area(ring)
    if doubled < 0:
        ring = ring[:1] + ring[:0:-1]
        doubled = -doubled
    if doubled > LARGEST_DOUBLED_AREA:
        return 120, None, 0
    return None, ring, doubled


def write(ring):
    """Returns the canonical text of a ring, as the register prints it."""
    return "POLYGON ((" + ", ".join(f"{x} {y}" for x, y in ring + ring[:1]) + "))"


def without_repeated(points):
    return [point for i, point in enumerate(points) if i == 0 or point != points[i - 1]]


def without_straight(points):
    """Drops the points of a closed list in the middle of a straight line. The area and the ground do not change."""
    ring = points[:-1]
    def is_corner(i):
        a, b, c = ring[i - 1], ring[i], ring[i + 1 - len(ring)]
        return turn(a, b, c) != 0 or (a[0] - b[0]) * (c[0] - b[0]) + (a[1] - b[1]) * (c[1] - b[1]) > 0
    corners = [ring[i] for i in range(len(ring)) if is_corner(i)]
    return corners + corners[:1] if len(corners) >= 3 else points


def convert_ring(listed, options, changes):
    """Returns the text of the converted ring, and its points before and after rounding. Raises Malformed if a word is not a number."""
    exact = []
    for point in listed:
        if not NUMBER.fullmatch(point[0]) or not NUMBER.fullmatch(point[1]):
            raise Malformed
        exact.append((Decimal(point[0]), Decimal(point[1])))
    if options.scale != 1:
        exact = [(x * options.scale, y * options.scale) for x, y in exact]
    if all(x == x.to_integral_value() and y == y.to_integral_value() for x, y in exact):
        points = exact = [(int(x), int(y)) for x, y in exact]
    elif options.round:
        changes.append("rounded")
        points = [(int(x.to_integral_value()), int(y.to_integral_value())) for x, y in exact]
    else:
        return ", ".join(f"{x:f} {y:f}" for x, y in exact), None, None
    if options.drop_repeated:
        kept = without_repeated(points)
        if len(kept) < len(points):
            changes.append("repeated points dropped")
        points = kept
    if options.drop_straight and len(points) > 3 and points[0] == points[-1]:
        kept = without_straight(points)
        if len(kept) < len(points):
            changes.append("points on straight lines dropped")
        points = kept
    return ", ".join(f"{x} {y}" for x, y in points), exact, points


def measure(exact):
    """Returns twice the area of a closed list of decimal points, exactly, and the largest distance of a coordinate to an integer."""
    digits = max(0, *(-value.as_tuple().exponent for point in exact for value in point))
    one = 10**digits
    points = [tuple(int(value.scaleb(digits, WIDE)) for value in point) for point in exact]
    shift = max(min(value % one, -value % one) for point in points for value in point)
    return Fraction(abs(doubled_area(points)), one * one), Fraction(shift, one)


def judged(text, source_doubled=None, changes=(), shift=None):
    """Returns the Outline of a text."""
    fault, ring, doubled = judge(text)
    printed = write(ring) if ring else None
    return Outline(text, fault, text if printed == text else printed, doubled, source_doubled, changes, shift)


def convert_part(rings, tag, options, changes):
    """Converts one polygon, given as rings of words. Returns an Outline."""
    changes = list(changes)
    texts, source_doubled, shift = [], None, None
    if (tag or any(len(point) > 2 for ring in rings for point in ring)) and options.drop_z:
        changes.append("Z or M dropped")
        rings, tag = [[point[:2] for point in ring] for ring in rings], ""
    for ring in rings:
        if any(len(point) > 2 for point in ring):
            texts.append(", ".join(" ".join(point) for point in ring))
            continue
        text, exact, points = convert_ring(ring, options, changes)
        texts.append(text)
        if exact is not None and len(rings) == 1 and "rounded" in changes:
            source_doubled, shift = measure(exact)
    text = f"POLYGON {tag} (" .replace("  ", " ") + ", ".join(f"({text})" for text in texts) + ")"
    return judged(text, source_doubled, tuple(dict.fromkeys(changes)), shift)


def convert(text, options):
    """Returns the outlines to send for a geometry of the source: one, or one for each part of a multipolygon that is split."""
    try:
        shape = parse(text)
        if not shape.parts or (shape.is_multi and len(shape.parts) > 1 and not options.split):
            raise Malformed
        if options.is_plain and not shape.is_multi:
            raise Malformed
        changes = []
        if shape.is_multi:
            changes = ["part of a multipolygon" if len(shape.parts) > 1 else "multipolygon of one part"]
        return [convert_part(rings, shape.tag, options, changes) for rings in shape.parts]
    except Malformed:
        return [judged(text)]


def advise(text):
    """Describes a text that is not a POLYGON (fault 110): returns its kind and the remedy, or None."""
    word = re.match(r"\s*([A-Za-z]+)", text)
    kind = word[1].upper() if word else ""
    if "CURVE" in kind or "CIRCULAR" in kind or "SURFACE" in kind:
        return "arcs", "convert arcs to straight segments: ogr2ogr -nlt CONVERT_TO_LINEAR"
    if kind.startswith("MULTIPOLYGON"):
        return "a multipolygon of several parts", "set split = true in [outlines]: each part becomes a parcel with the same label"
    if kind.startswith(("POINT", "LINE", "MULTIPOINT", "MULTILINE", "GEOMETRYCOLLECTION")):
        return f"a {kind}", "select polygons; a parcel is a polygon"
    if not text.strip():
        return "no outline", "add an outline: the register holds no parcel without one"
    return None
