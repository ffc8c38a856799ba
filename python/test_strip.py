"""Tests of strip.py: each call beside a filter in plain Python on many scans, every refusal that a call can give, what is lent without a copy, and
the layout of every struct beside that of the C compiler."""
import array
import ctypes
import pathlib
import random
import shutil
import subprocess
import sys
import tempfile
import unittest
import unittest.mock

TOP = pathlib.Path(__file__).resolve().parent.parent
sys.path[:0] = [str(TOP / "python"), str(TOP / "scripts")]
import filter as plain  # noqa: E402  the filter that the programs are held to; written from the rules
import strip  # noqa: E402


def mended(row):
    """a row in which a dead sample is the nearest live one to its left, or 0"""
    live, out = 0, []
    for x in row:
        live = live if x == strip.DEAD else x
        out.append(live)
    return out


def filtered(table, rows, width):
    """the pixels of a scan, each added up afresh"""
    seen, height = [mended(r) for r in rows], len(rows)
    total = lambda r, c: sum(d.weight * plain.rect_sum(seen, width, height, table.q1, table.q2, table.q3, d, r, c) for d in table.rectangles)
    return [[total(r, c) >> table.t for c in range(width)] for r in range(height)]


def ranked(window, rank, rows, width):
    """the levels of a scan, each window sorted by itself"""
    seen, height = [mended(r) for r in rows], len(rows)

    def level(r, c):
        covered = sorted(seen[i][j] for i in range(max(0, r + window.trailrow + 1), min(height, r + window.leadrow + 1))
                         for j in range(max(0, c + window.trailcol + 1), min(width, c + window.leadcol + 1)))
        return covered[min(rank, len(covered)) - 1] if covered else strip.EMPTY
    return [[level(r, c) for c in range(width)] for r in range(height)]


def drawn_table(draw, drops=True):
    """a table that loading accepts"""
    while True:
        b = draw.randint(1, 12)
        q = (draw.randrange(b), draw.randint(0, 8), draw.randint(0, 8)) if drops and draw.random() < 0.7 else (0, 0, 0)
        rects = []
        for _ in range(draw.choice([1, 2, 3, 16])):
            (tr, lr), (tc, lc) = (sorted(draw.sample(range(-16, 16), 2)) for _ in range(2))
            rects.append(strip.Rectangle(lr, lc, tr, tc, draw.randint(-300, 300)))
        table = strip.Table(b, *q, draw.randint(0, 12), 32, tuple(rects))
        try:
            table.file()
            return table
        except strip.Refused as refused:
            assert refused.number == 11


def drawn_rows(draw, b, height, width):
    """rows of samples, some of them dead"""
    return [[strip.DEAD if draw.random() < 0.05 else draw.randrange(2**b) for _ in range(width)] for _ in range(height)]


def flat(rows):
    return array.array("H", (x for row in rows for x in row))


class Refusals(unittest.TestCase):
    def refused(self, number, call, *args, place=0, **named):
        with self.assertRaises(strip.Refused) as caught:
            call(*args, **named)
        said = caught.exception
        self.assertEqual((said.number, said.place, said.words), (number, place, strip.words(number)))
        self.assertIn(said.words, str(said))
        return said


class Tables(Refusals):
    A = (TOP / "tables/a.table").read_bytes()

    def test_there_and_back(self):
        table = strip.Table.load(self.A)
        self.assertEqual(table, strip.Table(8, 0, 0, 0, 2, 16, (strip.Rectangle(1, 1, -2, -2, 1), strip.Rectangle(0, 0, -1, -1, -9))))
        self.assertEqual(table.file(), self.A)
        for path in (TOP / "tables").glob("*.table"):
            self.assertEqual(strip.Table.read(path).file(), path.read_bytes())
            self.assertEqual(strip.check(bytearray(path.read_bytes())), 0)

    def test_each_refusal_of_a_file(self):
        rect = bytes([2, 0, 6, 1, 1, 254, 254, 0, 1])
        head = lambda *numbers: bytes([1, 0, 6, *numbers])
        good = head(8, 0, 0, 0, 2, 16)
        for number, data in [(1, b""), (2, self.A[:8]), (2, self.A[:26]), (3, head(13, 0, 0, 0, 2, 16) + rect), (4, head(8, 8, 0, 0, 2, 16) + rect),
                             (5, head(8, 0, 0, 0, 32, 16) + rect), (6, good + 17 * rect), (7, good + 16 * rect + b"\0"), (8, good + rect[:5] + b"\1" + rect[6:]),
                             (9, good), (10, head(8, 0, 0, 0, 2, 9) + self.A[9:])]:
            self.assertEqual(strip.check(data), number)
            self.refused(number, strip.Table.load, data)

    def test_what_no_field_holds(self):
        table = strip.Table.load(self.A)
        for wrong in (table._replace(b=256), table._replace(w=-1), table._replace(rectangles=(strip.Rectangle(128, 0, 0, 0, 1),)),
                      table._replace(rectangles=(strip.Rectangle(1, 1, 0, 0, 32768),))):
            with self.assertRaises(ValueError):
                wrong.file()
        self.refused(11, table._replace(rectangles=17 * table.rectangles[:1]).file)
        self.refused(11, table._replace(rectangles=()).file)

    def test_words(self):
        self.assertEqual(strip.words(9), "there is no rectangle")
        self.assertEqual([strip.words(n) for n in (0, -1, 26, 10**9)], [""] * 4)


class Scans(Refusals):
    def test_beside_plain_python(self):
        draw = random.Random(1)
        for _ in range(120):
            table, height, width = drawn_table(draw), draw.randint(1, 40), draw.choice([1, 2, 5, 17, 33])
            rows = drawn_rows(draw, table.b, height, width)
            wanted = filtered(table, rows, width)
            self.assertEqual(list(strip.filter_scan(table, flat(rows), width)), [p for row in wanted for p in row])
            self.assertEqual([list(row) for row in strip.filter_rows(table, rows)], wanted)
            r, c = draw.randrange(height), draw.randrange(width)
            self.assertEqual(strip.pixel(table, flat(rows), r, c, width), wanted[r][c])

    def test_each_row_as_soon_as_it_is_due(self):
        table, out = strip.Table.load(Tables.A), []
        scan = strip.Scan(table, 3)
        self.assertEqual(table.delay, 1)
        self.assertIsNone(scan.row([10, 10, 10]))
        out.append(scan.row([10, 10, 10]))
        out.append(scan.row([10, 10, 10]))
        scan.close()
        out.extend(scan.rest())
        self.assertEqual([list(row) for row in out], [[-13, -8, -13], [-8, 0, -8], [-13, -8, -13]])
        self.assertEqual(list(scan.rest()), [])

    def test_several_rows_together(self):
        draw = random.Random(2)
        for _ in range(30):
            table, width = drawn_table(draw), draw.randint(1, 9)
            rows = drawn_rows(draw, table.b, 25, width)
            scan, out, k = strip.Scan(table, width), array.array("i"), 0
            while k < len(rows):
                n = draw.randint(0, 7)
                out.extend(scan.rows(flat(rows[k:k + n])))
                k += n
            scan.close()
            for row in scan.rest():
                out.extend(row)
            self.assertEqual(list(out), [p for row in filtered(table, rows, width) for p in row])

    def test_refused(self):
        table = strip.Table.load(Tables.A)
        self.refused(11, strip.Scan, table._replace(b=0), 3)
        self.refused(12, strip.Scan, table, 0)
        self.refused(12, strip.Scan, table, 1025)
        self.refused(12, strip.filter_scan, table, [], width=0)
        self.refused(21, strip.filter_scan, table, [1] * 10, width=3)
        self.assertEqual(self.refused(18, strip.filter_scan, table, [1] * 7 + [256, 1], place=1, width=3).row, 2)
        self.refused(16, strip.filter_scan, table, array.array("H", bytes(2 * 65536)), width=1)
        scan = strip.Scan(table, 3)
        self.refused(17, scan.row, [1, 2])
        self.refused(18, scan.row, [1, 2, 65534], place=2)
        with self.assertRaises(strip.Refused) as caught:
            list(scan.rest())
        self.assertEqual(caught.exception.number, 15)
        said = self.refused(18, scan.rows, [10] * 9 + [256, 0, 0], place=0)
        self.assertEqual((said.row, list(said.pixels)), (3, [-13, -8, -13, -8, 0, -8]))
        self.assertEqual(list(scan.row([10] * 3)), [-8, 0, -8])
        scan.close()
        self.refused(15, scan.close)
        self.refused(15, scan.row, [1, 2, 3])
        self.refused(17, strip.pixel, table, [1] * 10, 0, 0, 3)
        self.refused(20, strip.pixel, table, [1] * 9, 3, 0, 3)
        self.refused(18, strip.pixel, table, [1] * 8 + [256], 0, 0, 3, place=8)

    def test_no_rows(self):
        table = strip.Table.load(Tables.A)
        self.assertEqual(list(strip.filter_rows(table, [])), [])
        self.assertEqual(len(strip.filter_scan(table, [], width=3)), 0)


class Buffers(unittest.TestCase):
    table = strip.Table.load(Tables.A)
    wanted = [-13, -8, -13, -8, 0, -8, -13, -8, -13]

    def test_no_copy_where_the_type_fits(self):
        samples = array.array("H", [10] * 9)
        lent, width = strip._lend_samples(samples)
        self.assertEqual((ctypes.addressof(lent), width), (samples.buffer_info()[0], None))
        square = memoryview(samples).cast("B").cast("H", [3, 3])
        lent, width = strip._lend_samples(square)
        self.assertEqual((ctypes.addressof(lent), width), (samples.buffer_info()[0], 3))

    def test_every_kind_of_buffer(self):
        square = memoryview(array.array("H", [10] * 9)).cast("B").cast("H", [3, 3])
        for samples in (square, memoryview(bytes([10] * 9)).cast("B", [3, 3]), memoryview(array.array("L", [10] * 9)).cast("B").cast("L", [3, 3])):
            self.assertEqual(list(strip.filter_scan(self.table, samples)), self.wanted)
        for samples in ([10] * 9, [[10] * 3] * 3, bytes([10] * 9), array.array("H", [10] * 9), array.array("i", [10] * 9), (ctypes.c_uint8 * 9)(*[10] * 9),
                        memoryview(array.array("H", [10] * 9)).toreadonly(), memoryview(array.array("H", [10] * 18))[::2], (10 for _ in range(9))):
            self.assertEqual(list(strip.filter_scan(self.table, samples, 3)), self.wanted)

    def test_output_lent(self):
        out = array.array("i", [7] * 10)
        self.assertIs(strip.filter_scan(self.table, [10] * 9, 3, out=out), out)
        self.assertEqual(list(out), self.wanted + [7])
        for wrong in (array.array("i", [0] * 8), array.array("H", [0] * 9), array.array("I", [0] * 9), bytes(36)):
            with self.assertRaises((ValueError, TypeError)):
                strip.filter_scan(self.table, [10] * 9, 3, out=wrong)

    def test_what_is_no_sample(self):
        for samples in ([65536], [-1], [1.5]):
            with self.assertRaises((ValueError, TypeError)):
                strip.filter_scan(self.table, samples, 1)
        with self.assertRaises(ValueError):
            strip.filter_scan(self.table, [10] * 9)
        with self.assertRaises(ValueError):
            strip.filter_scan(self.table, memoryview(bytes(9)).cast("B", [3, 3]), 9)

    @unittest.skipUnless(__import__("importlib.util").util.find_spec("numpy"), "numpy is not there")
    def test_numpy(self):
        import numpy
        samples = numpy.full((3, 3), 10, dtype=numpy.uint16)
        self.assertEqual(ctypes.addressof(strip._lend_samples(samples)[0]), samples.ctypes.data)
        out = numpy.zeros((3, 3), dtype=numpy.int32)
        strip.filter_scan(self.table, samples, out=out)
        self.assertEqual(out.ravel().tolist(), self.wanted)
        for dtype in (numpy.uint8, numpy.int64):
            self.assertEqual(list(strip.filter_scan(self.table, samples.astype(dtype))), self.wanted)
        self.assertEqual(list(strip.filter_scan(self.table, samples.T)), self.wanted)
        self.assertEqual([list(r) for r in strip.filter_rows(self.table, samples)], [self.wanted[:3], self.wanted[3:6], self.wanted[6:]])


class Ranked(Refusals):
    def test_beside_plain_python(self):
        draw = random.Random(3)
        for _ in range(80):
            (tr, lr), (tc, lc) = (sorted(draw.sample(range(-16, 16), 2)) for _ in range(2))
            window, b = strip.Window(lr, lc, tr, tc), draw.randint(1, 8)
            rank, height, width = draw.randint(1, (lr - tr) * (lc - tc)), draw.randint(1, 30), draw.choice([1, 2, 7, 20])
            rows = drawn_rows(draw, b, height, width)
            wanted = ranked(window, rank, rows, width)
            self.assertEqual(list(strip.rank_scan(window, rank, flat(rows), width, b)), [v for row in wanted for v in row])
            self.assertEqual([list(row) for row in strip.rank_rows(window, rank, rows, b)], wanted)

    def test_centred(self):
        self.assertEqual(strip.Window.centred(5, 4), strip.Window(2, 2, -3, -2))

    def test_refused(self):
        window = strip.Window.centred(3, 3)
        self.refused(3, strip.RankedScan, window, 1, 3, b=0)
        self.refused(23, strip.RankedScan, window, 1, 3, b=9)
        self.refused(8, strip.RankedScan, strip.Window(0, 0, 0, -1), 1, 3)
        self.refused(22, strip.RankedScan, window, 10, 3)
        self.refused(12, strip.rank_scan, window, 1, [], 0)
        self.assertEqual(self.refused(18, strip.rank_scan, window, 1, [1, 2, 3, 4, 256], 1).row, 4)
        self.assertEqual(self.refused(17, strip.rank_scan, window, 1, [1, 2, 3], 2).row, 1)


class Sameness(Refusals):
    square = strip.Table(8, 0, 0, 0, 0, 16, (strip.Rectangle(1, 1, -2, -2, 5),))

    def test_same(self):
        halves = self.square._replace(rectangles=(strip.Rectangle(1, 1, 0, -2, 5), strip.Rectangle(0, 1, -2, -2, 5)))
        self.assertIsNone(strip.compare(self.square, halves))

    def test_different(self):
        moved = self.square._replace(rectangles=(strip.Rectangle(1, 2, -2, -1, 5),))
        found = strip.compare(self.square, moved)
        self.assertEqual((found.row, found.column), (-1, -1))
        self.assertEqual([k for k, x in enumerate(found.scan) if x], [14 * 31 + 14])
        self.assertNotEqual(*(strip.pixel(t, found.scan, 15, 15, 31) for t in (self.square, moved)))

    def test_refused(self):
        self.refused(11, strip.compare, self.square, self.square._replace(b=0))
        self.refused(24, strip.compare, self.square, self.square._replace(t=1))
        self.refused(25, strip.compare, self.square, self.square._replace(q1=1))


@unittest.skipUnless(shutil.which("gcc"), "gcc is not there")
class Header(unittest.TestCase):
    """What this module says again of include/strip.h, beside what the C compiler makes of the header."""

    def compiled(self, lines):
        with tempfile.TemporaryDirectory() as folder:
            source = pathlib.Path(folder) / "said.c"
            source.write_text('#include <stddef.h>\n#include <stdio.h>\n#include "strip.h"\nint main(void) {\n' + "\n".join(lines) + "\n}\n")
            program = pathlib.Path(folder) / "said"
            subprocess.run(["gcc", "-std=c11", f"-I{TOP / 'include'}", str(source), "-o", str(program)], check=True)
            return subprocess.run([str(program)], check=True, capture_output=True, text=True).stdout.splitlines()

    def test_structs(self):
        structs = {"strip_rect": strip._Rect, "strip_table": strip._Table, "strip_scan": strip._Scan, "strip_window": strip._Window, "strip_rank": strip._Rank,
                   "strip_loaded": strip._Loaded, "strip_written": strip._Written, "strip_started": strip._Started, "strip_burst": strip._Burst,
                   "strip_answer": strip._Answer, "strip_pixel_answer": strip._Pixel, "strip_same_answer": strip._Same,
                   "strip_rank_started": strip._RankStarted, "strip_rank_answer": strip._RankAnswer}
        lines, wanted = [], []
        for name, struct in structs.items():
            lines.append(f'printf("{name} %zu\\n", sizeof({name}));')
            wanted.append(f"{name} {ctypes.sizeof(struct)}")
            for field, *_ in struct._fields_:
                lines.append(f'printf("{name}.{field} %zu %zu\\n", offsetof({name}, {field}), sizeof((({name} *)0)->{field}));')
                wanted.append(f"{name}.{field} {getattr(struct, field).offset} {getattr(struct, field).size}")
        self.assertEqual(self.compiled(lines), wanted)

    def test_words_and_numbers(self):
        said = self.compiled(["for (uint32_t n = 0; n < 40; n++) puts(strip_refusal_text(n));",
                              'printf("%d %d %d %d %d %d\\n", STRIP_RECTS, STRIP_KEPT_ROWS, STRIP_WIDTH_MOST, STRIP_FILE_MOST, STRIP_LEVELS, STRIP_SPOT);',
                              'printf("%d %d %d %d %d %d\\n", STRIP_REFUSED, STRIP_ROW, STRIP_WAITING, STRIP_DONE, STRIP_DEAD, STRIP_EMPTY);'])
        self.assertEqual(said[:40], [strip.words(n) for n in range(40)])
        mine = (strip._RECTS, strip._KEPT_ROWS, strip._WIDTH_MOST, strip._FILE_MOST, strip._LEVELS, strip._SPOT)
        kinds = (strip._REFUSED, strip._ROW, strip._WAITING, strip._DONE, strip.DEAD, strip.EMPTY)
        self.assertEqual(said[40:], [" ".join(map(str, mine)), " ".join(map(str, kinds))])


class Readme(unittest.TestCase):
    def test_lines_as_they_stand(self):
        code = (TOP / "README.md").read_text().split("```python\n")[1].split("```")[0]
        rows = drawn_rows(random.Random(4), 8, 30, 40)
        samples = memoryview(flat(rows)).cast("B").cast("H", [30, 40])
        named = {"samples": samples, "sensor_rows": iter(rows)}
        with unittest.mock.patch("pathlib.Path.read_bytes", lambda path: (TOP / path).open("rb").read()):
            exec(code, named)
        wanted = [p for row in filtered(named["table"], rows, 40) for p in row]
        self.assertEqual(list(named["pixels"]), wanted)
        self.assertEqual(list(named["row"]), wanted[-40:])
        self.assertIsNone(strip.compare(named["table"], named["turned"]))


if __name__ == "__main__":
    unittest.main()
