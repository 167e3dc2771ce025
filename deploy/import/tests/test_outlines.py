"""Outlines: the register's faults, conversions, areas. Expected values are worked out by hand."""
import random
import unittest
from decimal import Decimal
from fractions import Fraction

from land_import import outlines
from land_import.outlines import Options, convert, judge

SQUARE = "0 0, 10 0, 10 10, 0 10, 0 0"


def is_simple_by_definition(ring):
    """Compares each pair of edges, including neighbours, by the definition of docs/OUTLINES.md."""
    count = len(ring)
    edges = [(ring[i], ring[(i + 1) % count]) for i in range(count)]
    if any(a == b for a, b in edges) or outlines.doubled_area(ring) == 0:
        return False
    for i in range(count):
        for j in range(i + 1, count):
            (a, b), (c, d) = edges[i], edges[j]
            shared = [p for p in (a, b) if p in (c, d)] if (j - i) % count in (1, count - 1) else []
            if count == 3 or not shared:
                if count > 3 and overlaps(a, b, c, d):
                    return False
                continue
            p, (q,), (r,) = shared[0], [it for it in (a, b) if it != shared[0]], [it for it in (c, d) if it != shared[0]]
            if outlines.turn(q, p, r) == 0 and (q[0] - p[0]) * (r[0] - p[0]) + (q[1] - p[1]) * (r[1] - p[1]) > 0:
                return False
    return True


def overlaps(a, b, c, d):
    """Solves for a common point in fractions."""
    det = (b[0] - a[0]) * (c[1] - d[1]) - (c[0] - d[0]) * (b[1] - a[1])
    if det:
        s = Fraction((c[0] - a[0]) * (c[1] - d[1]) - (c[0] - d[0]) * (c[1] - a[1]), det)
        r = Fraction((b[0] - a[0]) * (c[1] - a[1]) - (c[0] - a[0]) * (b[1] - a[1]), det)
        return 0 <= s <= 1 and 0 <= r <= 1
    return any(outlines.turn(*it[:3]) == 0 and outlines.on_box(*it[:3]) for it in ((a, b, c), (a, b, d), (c, d, a), (c, d, b)))


class Judging(unittest.TestCase):
    def test_valid(self):
        self.assertEqual(judge(f"POLYGON (({SQUARE}))"), (None, [(0, 0), (10, 0), (10, 10), (0, 10)], 200))

    def test_clockwise_is_reversed_from_the_same_first_point(self):
        self.assertEqual(judge("polygon((0 0,0 10,10 10,10 0,0 0))")[1], [(0, 0), (10, 0), (10, 10), (0, 10)])

    def test_faults(self):
        for number, text in ((110, "POINT (0 0)"), (110, f"POLYGON (({SQUARE})) x"), (111, "POLYGON EMPTY"), (111, "POLYGON Z EMPTY"),
                             (112, f"POLYGON (({SQUARE}), ({SQUARE}))"), (113, f"POLYGON M (({SQUARE}))"),
                             (113, "POLYGON ((0 0 0, 1 0, 1 1, 0 0))"),
                             (114, "POLYGON ((0 0, 1.5 0, 99999999999 1, 0 0))"), (115, "POLYGON ((0 0, 99999999999 0, 1 1))"),
                             (116, "POLYGON ((0 0, 1 0, 0 0))"), (118, "POLYGON ((0 0, 1 0, 1 1, 0 1))"),
                             (119, "POLYGON ((0 0, 2 2, 2 0, 0 2, 0 0))"),
                             (119, "POLYGON ((0 0, 1 0, 1 0, 1 1, 0 0))"),
                             (120, "POLYGON ((0 0, 1000000000 0, 1000000000 1000000000, 0 1000000000, 0 0))")):
            with self.subTest(text):
                self.assertEqual(judge(text)[0], number)

    def test_the_largest_area(self):
        side = 707_106_781
        text = f"POLYGON ((0 0, {side} 0, {side} {side}, 0 {side}, 0 0))"
        self.assertEqual(judge(text)[0], None)
        self.assertEqual(judge(text.replace(str(side), str(side + 1)))[0], 120)

    def test_number_of_points(self):
        for count, fault in ((200, None), (201, 117)):
            points = ", ".join(f"{k} {k * k}" for k in [*range(count), 0])
            self.assertEqual(judge(f"POLYGON (({points}))")[0], fault)

    def test_descriptions(self):
        for points, text in (("0 0, 1 0, 1 0, 1 1, 0 0", "it repeats the point 1 0"),
                             ("0 0, 2 2, 2 0, 0 2, 0 0", "the edges 0 0 to 2 2 and 2 0 to 0 2 meet"),
                             ("0 0, 1 1, 2 2, 0 0", "its area is 0")):
            self.assertEqual(outlines.describe_crossing(f"POLYGON (({points}))"), text)

    def test_simple_equals_the_definition(self):
        chance = random.Random(1)
        found = [0, 0]
        for _ in range(20_000):
            ring = [(chance.randint(0, 5), chance.randint(0, 5)) for _ in range(chance.randint(3, 7))]
            found[outlines.is_simple(ring)] += 1
            self.assertEqual(outlines.is_simple(ring), is_simple_by_definition(ring), ring)
        self.assertGreater(min(found), 2000)


class Converting(unittest.TestCase):
    def test_metres(self):
        it, = convert("POLYGON ((0.001 0, 10.5 0, 10.5 2, 0.001 0))", Options(scale=Decimal(1000)))
        self.assertEqual((it.text, it.fault, it.changes), ("POLYGON ((1 0, 10500 0, 10500 2000, 1 0))", None, ()))

    def test_fractions_stay_without_rounding(self):
        it, = convert("POLYGON ((0 0, 10.00049 0, 10 1, 0 0))", Options(scale=Decimal(1000)))
        self.assertEqual(it.fault, 114)

    def test_rounding_states_the_shift_and_the_area(self):
        it, = convert("POLYGON ((0 0, 10.0004 0, 10.0004 1, 0 1, 0 0))", Options(scale=Decimal(1000), round=True))
        self.assertEqual((it.fault, it.doubled, it.source_doubled, it.shift), (None, 20_000_000, Fraction(20_000_800), Fraction(4, 10)))
        self.assertEqual(it.changes, ("rounded",))

    def test_repeated_points(self):
        text = "POLYGON ((0 0, 1 0, 1.0001 0, 1 1, 0 0))"
        self.assertEqual(convert(text, Options(scale=Decimal(1000), round=True))[0].fault, 119)
        it, = convert(text, Options(scale=Decimal(1000), round=True, drop_repeated=True))
        self.assertEqual((it.fault, it.printed), (None, "POLYGON ((0 0, 1000 0, 1000 1000, 0 0))"))

    def test_points_on_straight_lines(self):
        it, = convert("POLYGON ((5 0, 10 0, 10 10, 0 10, 0 5, 0 0, 5 0))", Options(drop_straight=True))
        self.assertEqual((it.fault, it.printed, it.doubled), (None, "POLYGON ((10 0, 10 10, 0 10, 0 0, 10 0))", 200))

    def test_spikes_stay(self):
        self.assertEqual(convert("POLYGON ((0 0, 10 0, 10 10, 10 20, 10 10, 0 10, 0 0))", Options(drop_straight=True))[0].fault, 119)

    def test_multipolygons(self):
        one, two = f"MULTIPOLYGON ((({SQUARE})))", f"MULTIPOLYGON ((({SQUARE})), ((20 0, 30 0, 30 9, 20 0)))"
        self.assertEqual(convert(one, Options())[0].fault, None)
        self.assertEqual([it.fault for it in convert(two, Options())], [110])
        self.assertEqual([it.doubled for it in convert(two, Options(split=True))], [200, 90])

    def test_z(self):
        text = "POLYGON Z ((0 0 7, 10 0 7, 10 10 7, 0 0 7))"
        self.assertEqual(convert(text, Options())[0].fault, 113)
        self.assertEqual(convert(text, Options(drop_z=True))[0].fault, None)

    def test_curves_are_sent_unchanged(self):
        text = "CURVEPOLYGON (CIRCULARSTRING (0 0, 1 0, 1 1, 0 0))"
        it, = convert(text, Options(scale=Decimal(1000), round=True))
        self.assertEqual((it.text, it.fault), (text, 110))

    def test_canonical_text(self):
        _, ring, _ = judge("POLYGON ((0 0, 0 10, 10 10, 0 0))")
        self.assertEqual(outlines.write(ring), "POLYGON ((0 0, 10 10, 0 10, 0 0))")


if __name__ == "__main__":
    unittest.main()
