"""The answers that the manual shows, by the Python module; and the GeoJSON example."""

import ctypes
import doctest
import json
import sys
import unittest
from array import array
from pathlib import Path

HERE = Path(__file__).resolve().parent
sys.path[:0] = [str(HERE), str(HERE / "examples")]

import geojson
import overlay
from overlay import Cause, Common, Layer, Near, Plan, Record, Rect, Refused, Row, Stop, Ticket, Total, Window

try:
    import numpy
except ImportError:
    numpy = None

EXAMPLES = HERE.parent / "examples"


def plan(name):
    """The plan of a file of examples/."""
    return Plan.from_text((EXAMPLES / f"{name}.plan").read_bytes())


class Number:
    """A number as other libraries have them: it is known by its index alone."""

    def __init__(self, value):
        self.value = value

    def __index__(self):
        return self.value


class Overlay(unittest.TestCase):
    """The calls of the module."""

    def refused(self, cause, call, *arguments):
        """A call is refused by a cause."""
        with self.assertRaises(Refused) as caught:
            call(*arguments)
        self.assertEqual(caught.exception.cause, cause)

    def test_version(self):
        self.assertEqual(overlay.version(), overlay.VERSION)

    def test_causes(self):
        self.assertEqual([cause.value for cause in Cause], list(range(1, 25)))
        self.assertEqual(str(Refused(Cause.LAYERS)), "the plan has not 2 to 6 layers (1)")
        self.assertTrue(all(cause.text for cause in Cause))

    def test_texts(self):
        text = (EXAMPLES / "forecourt.plan").read_bytes()
        forecourt = Plan.from_text(text)
        self.assertEqual(forecourt.text, text)
        self.assertEqual((forecourt.k, forecourt.layers[0].margin), (6, 1500))
        self.assertEqual(Plan(forecourt.layers).text, text)
        self.refused(Cause.FORM, Plan.from_text, b"PLAN 2\n")
        self.refused(Cause.COUNT, plan, "refused")

    def test_plans(self):
        zone = [(0, 0, 9, 9)]
        self.refused(Cause.LAYERS, Plan, [zone])
        self.refused(Cause.LAYERS, Plan, [zone] * 7)
        self.refused(Cause.CELLS, Plan, [zone, [0, 0, 9]])
        self.refused(Cause.RECT, Plan, [zone, [(1, 0, 0, 0)]])
        self.refused(Cause.RECT, Plan, [zone, [(0, 0, 1 << 40, 0)]])
        self.refused(Cause.SIZES, Plan, [zone, zone * 513])
        self.refused(Cause.MARGINS, Plan, [zone, Layer(zone, 50_001)])
        self.refused(Cause.MARGINS, Plan, [zone, Layer(zone, -1)])
        self.refused(Cause.CELLS, Plan.from_cells, 2, [1, 1, 0, 0, 0, 0], [0] * 6, [0] * 7)
        self.assertEqual(len(Plan([[], []]).run(0).rows), 0)
        with self.assertRaises(TypeError):
            Plan([zone, [(0.5, 0, 9, 9)]])

    def test_buffers(self):
        drawn = [[0, 0, 9, 9], [5, 5, 20, 20]]
        wide, small = array("q", sum(drawn, [])), array("i", sum(drawn, []))
        shaped = memoryview(small.tobytes()).cast("B").cast("i", (2, 4))
        two = memoryview(wide.tobytes()).cast("q", (2, 4))
        held = (ctypes.c_int32 * 8)(*small)
        numbers = [map(Number, four) for four in drawn]
        layers = (drawn, wide, small, shaped, two, memoryview(wide)[:], held, numbers)
        self.assertEqual(len({Plan([layer, drawn]).text for layer in layers}), 1)
        with self.assertRaises(TypeError):
            Plan.from_text("PLAN\t2\n")

    @unittest.skipIf(numpy is None, "numpy is not installed")
    def test_numpy(self):
        drawn, other = [[0, 0, 9, 9], [5, 5, 20, 20]], [[5, 5, 12, 12], [8, 1, 9, 30]]
        laid = Plan([drawn, other])
        types = ("int8", "uint8", "int16", "int32", "uint32", "int64", "uint64", ">i4", ">i8", "object")
        held = [numpy.array(drawn, dtype=each) for each in types]
        small, wide = held[3], held[5]
        cut = numpy.array([[77] + four + [77] for four in drawn])[:, 1:5]
        held += [cut, cut.astype("int32")[:], numpy.asfortranarray(small), small[::-1][::-1], wide.ravel(), wide.reshape(2, 2, 2)]
        self.assertEqual({Plan([layer, numpy.array(other)]).text for layer in held}, {laid.text})
        sizes = numpy.array([2, 2, 0, 0, 0, 0])
        self.assertEqual(Plan.from_cells(numpy.int64(2), sizes, 0 * sizes, numpy.array([drawn, other])).text, laid.text)
        self.assertEqual(Plan([Layer(wide, numpy.int64(5)), numpy.zeros((0, 4))]).layers[0], Layer(Plan([drawn, []]).layers[0].rects, 5))
        self.refused(Cause.RECT, Plan, [wide << 40, other])
        self.refused(Cause.CELLS, Plan, [wide[:, :3], other])
        with self.assertRaises(TypeError):
            Plan([wide / 2, other])
        places = numpy.array([0, 1])
        for call in (laid.row, laid.common, laid.apart_pair):
            self.assertEqual(call(places), call((0, 1)))
        self.assertIsNone(laid.row(-places))
        self.assertEqual(laid.nearest(wide[0]), laid.nearest(drawn[0]))
        week = [[0, 10], [5, 20], [0, 10_080], [6, 7]]
        self.assertEqual(laid.timed(numpy.array(week)).run(numpy.int64(9)), laid.timed(week).run(9))
        rows = laid.run(9).rows
        self.assertEqual(numpy.array(rows.cells).reshape(-1, 2).tolist(), [list(row) for row in rows])
        records = numpy.array([[1000.25, 500.0, 1250.75, 750.5], [-250.5, 10.0, -0.0, 20.0]])
        covers = overlay.cover_records(records.tolist())
        for corners in (records, records.astype(">f8"), records.astype("float32"), numpy.asfortranarray(records), records[:, ::-1][:, ::-1]):
            self.assertEqual(overlay.cover_records(corners), covers)
        self.assertEqual(overlay.cover_records(records, (None, numpy.float64(0)), (numpy.int64(15), None)), covers[1:])

    def test_runs(self):
        forecourt = plan("forecourt")
        run = forecourt.run(100)
        self.assertEqual((len(run.rows), run.trials), (7, 232))
        self.assertEqual((run.area, str(run.ground)), (Total(1, 340_000), "0.80"))
        self.assertEqual((run.rows[0], run.rows[-1], len(run.rows[2:4])), ((0,) * 6, (3, 1, 1, 2, 1, 2), 2))
        self.refused(Cause.ROWS, forecourt.run, 6)
        for budget, rows in [(1, 1), (7, 100), (1000, 2), (1000, 100), (0, 0)]:
            pages = list(forecourt.pages(budget, rows))
            self.assertEqual([row for page in pages for row in page.rows], list(run.rows))
            self.assertEqual(sum(page.trials for page in pages), run.trials)
            self.assertEqual(sum((page.area for page in pages), Total(0, 0)), run.area)

    def test_tickets(self):
        forecourt = plan("forecourt")
        pages = forecourt.pages(50, 100)
        self.assertEqual(next(pages).stop, Stop.SPENT)
        ticket, record = Ticket(pages.ticket.cells), Record(pages.record.count)
        earlier = Ticket(ticket.cells)
        self.assertEqual((ticket.count, record.count, earlier == ticket), (50, 50, True))
        rest = forecourt.page(ticket, record, 1000, 100)
        self.assertEqual((rest.stop, rest.trials, ticket.ended), (Stop.ENDED, 182, True))
        self.refused(Cause.STALE, forecourt.page, earlier, record, 1000, 100)
        self.refused(Cause.TICKET, plan("d").page, Ticket([9] * 12), record, 1, 1)

    def test_rows(self):
        d, forecourt = plan("d"), plan("forecourt")
        self.assertEqual(d.row((0, 0)), Row(2, 250_000))
        self.assertEqual(d.common((1, 0)), Common(Rect(1000, 500, 1500, 500), "E"))
        self.assertEqual((d.row((2, 0)), d.common([0]), d.row((-1, 0))), (None, None, None))
        self.assertEqual(forecourt.apart_pair((3, 1, 1, 2, 1, 2)), None)
        self.assertEqual(forecourt.apart_pair((0, 0, 0, 0, 0, 3)), (1, 6))
        self.refused(Cause.PLACES, forecourt.apart_pair, (0, 0, 0, 0, 0, 4))

    def test_nearest(self):
        near = plan("forecourt").nearest((30000, 11500, 30600, 12100))
        self.assertEqual([one.squared_gap for one in near], [250_000, 1_000_000, 490_000, 20_250_000, 0, 8_410_000])
        self.assertEqual(Plan([[(0, 0, 10, 10)], []]).nearest(Rect(13, 14, 20, 20)), [Near(0, 25), None])
        self.refused(Cause.BOX, plan("d").nearest, (1, 0, 0, 0))

    def test_classes(self):
        pipes = plan("pipes")
        report = pipes.crossing_report(100)
        self.assertEqual((len(report.run.rows), report.counts), (4, (1, 2, 0, 0, 1) + (0,) * 12))
        self.assertEqual([pipes.row_class(places) for places in ((0, 0, 0), (0, 0, 1), (0, 0, 2))], [0, 4, None])
        self.refused(Cause.FEW_LAYERS, plan("d").row_class, (0, 0))
        self.refused(Cause.SEGMENTS, plan("stand").crossing_report, 9)

    def test_hours(self):
        stand = plan("stand")
        windows = [(480, 600), (0, 10_080), (600, 720), (540, 660)]
        timed = stand.timed(windows)
        run = timed.run(10)
        self.assertEqual((list(run.rows), run.trials), ([(0, 0, 0)], 8))
        self.assertEqual(timed.hours((0, 0, 0)), Window(540, 600))
        self.assertEqual((timed.hours((0, 1, 0)), timed.hours([0])), (None, None))
        self.assertEqual(sum(page.trials for page in timed.pages(3, 10)), 8)
        self.assertEqual(stand.timed([(0, overlay.WEEK)] * 4).run(10), stand.run(10))
        self.refused(Cause.HOURS, stand.timed, windows[:3])
        self.refused(Cause.HOURS, stand.timed, [(-1, 9)] * 4)

    def test_rounds(self):
        clients = plan("d").clients(2)
        told = lambda: [(got.page.stop, len(got.page.rows), got.page.trials) for got in clients.round(5, 2)]
        self.assertEqual(told(), [(Stop.SPENT, 1, 2), (Stop.SPENT, 1, 3)])
        self.assertEqual(clients.first, 2)
        self.assertEqual(told(), [(Stop.ENDED, 1, 2), (Stop.ENDED, 1, 1)])
        self.refused(Cause.ROUND, clients.round, 1 << 32, 2)
        self.refused(Cause.ROUND, plan("d").clients, 17)

    def test_covers(self):
        records = [(1000.2, 500.0, 1250.7, 750.4), (-250.5, 10.0, -0.0, 20.0)]
        covers = [Rect(1000, 500, 1251, 751), Rect(-251, 10, 0, 20)]
        self.assertEqual(overlay.cover_records(records), covers)
        self.assertEqual(overlay.cover_records(array("d", sum(records, ())), (None, 0.0), (15, None)), covers[1:])
        self.assertEqual(overlay.cover_records([]), [])
        self.refused(Cause.STRIP, overlay.cover_records, records, (1, 0))
        self.refused(Cause.RECORD, overlay.cover_records, [(float("nan"),) * 4])

    def test_examples_in_the_texts(self):
        self.assertEqual(doctest.testmod(overlay).failed, 0)


class Site(unittest.TestCase):
    """Layers from GeoJSON."""

    def test_site(self):
        site = json.loads((HERE / "examples" / "site.geojson").read_text(), parse_float=geojson.Fraction)
        told = json.loads(json.dumps(geojson.common_ground(site, {"zones": 1500})))
        rows = [(row["geometry"]["type"], row["properties"]) for row in told["features"]]
        self.assertEqual([kind for kind, _ in rows], ["Polygon", "Polygon", "LineString"])
        named = [(row["zones"], row["drains"], row["heads"], row["area"]) for _, row in rows]
        due = [("pump 1", "east", "A", 180_000), ("pump 2", "west", "B", 150_000), ("pump 2", "east", "C", 0)]
        self.assertEqual(named, due)
        self.assertEqual(told["crs"], json.loads((HERE / "examples" / "site.geojson").read_text())["crs"])

    def test_outwards(self):
        third = geojson.Fraction(1, 3)
        low, high = geojson.floats_around(third, third)
        self.assertTrue(geojson.Fraction(low) <= third <= geojson.Fraction(high) and low < high)
        self.assertEqual(geojson.floats_around(geojson.Fraction(5, 2), geojson.Fraction(5, 2)), (2.5, 2.5))


if __name__ == "__main__":
    unittest.main()
