"""python3 -m unittest test_second      (in this folder)"""

import os
import random
import subprocess
import sys
import unittest

HERE = os.path.dirname(os.path.abspath(__file__))
sys.path.insert(0, HERE)

import framelog
import streams
import worked
from decoder import (BENCH, Decoder, Raster, Refused, TOPS, mean,
                     next_background, number_of, value_of)
from recursive import Recursive


class Sums(unittest.TestCase):
    def test_mean(self):
        self.assertEqual(mean(0, 1), 1)
        self.assertEqual(mean(-1, 0), 0)
        self.assertEqual(mean(-4, 0), -2)
        self.assertEqual(mean(-128, -128), -128)
        self.assertEqual(mean(127, 127), 127)

    def test_mean_of_four(self):
        # Left 0, right 1, above 0, below 0: 1, and not 0.
        self.assertEqual(mean(mean(0, 1), mean(0, 0)), 1)

    def test_characteristics(self):
        self.assertEqual(TOPS, (28, 28, 25, 18))
        self.assertEqual(value_of(3, number_of(3, -6)), 0)
        self.assertEqual(value_of(3, number_of(3, -7)), -7)
        self.assertEqual(value_of(2, number_of(2, 125)), 127)
        # Pel 123 predicted as -1 in characteristic 0: error 124, value 127.
        self.assertEqual(-1 + value_of(0, number_of(0, 124)), 126)
        self.assertIsNone(number_of(0, 256))
        self.assertIsNone(value_of(2, 26))

    def test_characteristic_law(self):
        for q, shortfall in enumerate((3, 3, 4, 6)):
            values = [value_of(q, k) for k in range(-TOPS[q], TOPS[q] + 1)]
            self.assertEqual(values, sorted(set(values)))
            self.assertEqual(values, [-v for v in reversed(values)])
            for e in range(-255, 256):
                v = value_of(q, number_of(q, e))
                self.assertTrue(v == 0 or (v > 0) == (e > 0))
                self.assertLessEqual(abs(v), abs(e) + 3)
                least = abs(e) - shortfall if abs(e) <= 130 else 124
                self.assertGreaterEqual(abs(v), least)

    def test_background(self):
        # Update alone: B 5, Y 9, before 10: still enough, 6; before 11: 5.
        self.assertEqual(next_background(5, 9, 10, False, 1, 0), 6)
        self.assertEqual(next_background(5, 9, 11, False, 1, 0), 5)
        self.assertEqual(next_background(5, 9, 8, False, 1, 0), 6)
        self.assertEqual(next_background(5, -9, -9, False, 1, 0), 4)
        self.assertEqual(next_background(5, 5, 5, False, 1, 0), 5)
        self.assertEqual(next_background(5, 9, 9, False, 1, 1), 5)
        # Revision and forcing come first.
        self.assertEqual(next_background(5, 9, 10, False, 0, 0), 9)
        self.assertEqual(next_background(5, 9, 10, True, 1, 0), 9)


class RasterAndCalls(unittest.TestCase):
    def test_sizes(self):
        standard = Raster(4, 24, 32)
        self.assertEqual((standard.w, standard.F), (455, 238875))
        bench = Raster(*BENCH)
        self.assertEqual((bench.w, bench.F), (119, 3451))
        self.assertEqual(bench.record_bytes, 938)
        for limits in ((0, 6, 1), (5, 6, 1), (1, 0, 1), (1, 25, 1),
                       (1, 6, 0), (1, 6, 33)):
            with self.assertRaises(Refused) as caught:
                Raster(*limits)
            self.assertEqual(caught.exception.args, (1, 0))

    def test_order_of_calls(self):
        decoder = Decoder(worked.RASTER)
        self.assertRaises(RuntimeError, decoder.block_line, b'')
        self.assertRaises(RuntimeError, decoder.finish)
        self.assertEqual(decoder.open(streams.pack_header(pt=0x0F)), 0xF0)
        self.assertRaises(RuntimeError, decoder.open, b'')
        for done in (0, 1):
            with self.assertRaises(Refused) as caught:
                decoder.finish()
            self.assertEqual(caught.exception.args, (3, done))
            # A refused record leaves the frame in hand as it was.
            with self.assertRaises(Refused) as caught:
                decoder.block_line(bytes(937))
            self.assertEqual(caught.exception.args, (4, 937))
            decoder.block_line(worked.rec())
        # A block-line too many comes before its wrong length.
        with self.assertRaises(Refused) as caught:
            decoder.block_line(b'')
        self.assertEqual(caught.exception.args, (3, 2))
        self.assertEqual(decoder.finish(), (0xFF, 0))


class Worked(unittest.TestCase):
    def test_by_hand(self):
        for name, _, data, lines, _ in worked.CASES:
            with self.subTest(name):
                self.assertEqual(list(framelog.lines(data)), lines)

    def test_files(self):
        for name, _, data, lines, gate in worked.CASES:
            if gate:
                base = os.path.join(HERE, 'cases', name)
                with open(base + '.bin', 'rb') as kept:
                    self.assertEqual(kept.read(), data)
                with open(base + '.txt') as kept:
                    self.assertEqual(kept.read().splitlines(), lines)

    def test_program(self):
        run = subprocess.run([sys.executable, os.path.join(HERE, 'framelog.py')],
                             input=worked.GOOD, stdout=subprocess.PIPE)
        self.assertEqual(run.stdout, b'FRAME 1 PARITY FF PLANES 00 HELD 0\n')

    def test_no_more_than_a_thousand(self):
        data = worked.GOOD * 3
        most, framelog.MOST = framelog.MOST, 2
        try:
            self.assertEqual(most, 1000)
            self.assertEqual(len(list(framelog.lines(data))), 2)
        finally:
            framelog.MOST = most

    def test_background_by_hand(self):
        # Forced line 1 with 1 on pel 118: background 1 on 118 and 119.  Line 3
        # with 1 on pel 60 is not forced: the background stays 0.
        decoder = Decoder(worked.RASTER)
        decoder.open(streams.pack_header(crm=0))
        decoder.block_line(worked.rec({(1, 118): 1, (3, 60): 1}, ifm=0))
        decoder.block_line(worked.rec())
        decoder.finish()
        at = decoder.origin + 7 * 119
        self.assertEqual(list(decoder.G[at + 116:at + 119]), [0, 1, 1])
        self.assertEqual(decoder.Y[at + 2 * 119 + 59], 1)
        self.assertEqual(decoder.G[at + 2 * 119 + 59], 0)


class BlockLinesTouching(unittest.TestCase):
    """Two block-lines a field, one colour and one luminance block: w = 39,
    colour 8 to 23, luminance 24 to 39."""

    def setUp(self):
        self.raster = Raster(1, 1, 2)
        self.decoder = Decoder(self.raster)

    def rec(self, levels=None, **how):
        return streams.pack_record(self.raster, levels=levels, **how)

    def show(self, *records, **how):
        self.decoder.open(streams.pack_header(**how))
        for record in records:
            self.decoder.block_line(record)
        return self.decoder.finish()

    def y(self, block_line, line, pel):
        row = 7 + 8 * (block_line - 1) + (6 if block_line > 2 else 0) + line - 1
        base = self.decoder.origin + (self.decoder.frames - 1) * self.raster.F
        return self.decoder.Y[base + row * 39 + pel - 1]

    def test_line_8_sees_the_next_block_line(self):
        # 2 on (1,31) of block-line 2, coded.  Above it (8,31) of block-line 1
        # is left out: mean(0, mean(0,2) = 1) = 1.  In block-line 2 are left
        # out (1,30), (1,32), (2,31), each 1.  2 ^ four 1 = 2: parity FD.
        got = self.show(self.rec(), self.rec({(1, 31): 2}), self.rec(),
                        self.rec(), sbc=0)
        self.assertEqual(got, (0xFD, 0))
        self.assertEqual(self.y(1, 8, 31), 1)

    def test_line_8_sees_a_repeated_line(self):
        # Field 2: block-line 3 subsampled, block-line 4 repeated from
        # block-line 2, near being the same line there.  3 on (1,31) of
        # block-line 2: its line 8 neighbour (8,31) of block-line 1 is
        # mean(0, mean(0,3) = 2) = 1; (1,30), (1,32), (2,31) of block-line 2
        # are mean(2,0) = 1.
        # Block-line 4, line 1: (1,31): near 3, far (8,31) of block-line 1,
        # 1: mean 2.  (1,30), (1,32): near 1, far 0: 1.  Line 2: (2,31): near
        # 1, far 3: 2; (2,30), (2,32): near 0, far 1: 1.  Line 3: (3,31): near
        # 0, far 1: 1.
        # Block-line 3, line 8: (8,31) is left out; below it is the repeated
        # (1,31), 2: mean(0, mean(0,2) = 1) = 1.
        got = self.show(self.rec(), self.rec({(1, 31): 3}), self.rec(),
                        self.rec(frp=0), sbc=0)
        self.assertEqual(self.y(1, 8, 31), 1)
        self.assertEqual([self.y(4, 1, p) for p in (30, 31, 32)], [1, 2, 1])
        self.assertEqual([self.y(4, 2, p) for p in (30, 31, 32)], [1, 2, 1])
        self.assertEqual([self.y(4, 3, p) for p in (30, 31, 32)], [0, 1, 0])
        self.assertEqual(self.y(3, 8, 31), 1)
        # Ones: (8,31) | 30, 32, (2,31) | 1 | 2 + 2 + 1: ten, even; 3 adds one
        # to plane 0 and one to plane 1; twos: 2, plane 1 even.  Sum 3.
        self.assertEqual(got, (0xFC, 0))

    def test_field_ends_in_reset_lines(self):
        # 2 on (8,30) of block-line 2, the end of field 1: three neighbours.
        got = self.show(self.rec(), self.rec({(8, 30): 2}), self.rec(),
                        self.rec(), sbc=0)
        self.assertEqual(got, (0xFC, 0))


class TwoReadings(unittest.TestCase):
    """The array decoder against the definitions asked pel by pel."""

    def compare(self, raster, kind, seed, count):
        maker = streams.Maker(random.Random(seed), kind, raster)
        frames = []
        decoder = Decoder(raster)
        answers = []
        for _ in range(count):
            pieces = maker.frame()
            frames.append(pieces)
            decoder.open(pieces[0])
            for record in pieces[1:]:
                decoder.block_line(record)
            answers.append(decoder.finish())
        other = Recursive(raster, frames)
        self.assertEqual([other.result(k) for k in range(count)], answers)
        for i in range(count * raster.F):
            at = decoder.origin + i
            self.assertEqual(decoder.Y[at], other.y(i), i)
            self.assertEqual(decoder.G[at], other.back(i), i)

    def test_bench(self):
        for kind in streams.USABLE:
            with self.subTest(kind):
                self.compare(Raster(*BENCH), kind, 'bench', 4)

    def test_other_rasters(self):
        for size in ((1, 1, 1), (1, 1, 3), (2, 2, 2), (4, 1, 1), (1, 5, 4)):
            for kind in ('mix', 'edge', 'sblock', 'repeated'):
                with self.subTest((size, kind)):
                    self.compare(Raster(*size), kind, 'other', 3)


class Streams(unittest.TestCase):
    def test_same_seed_same_stream(self):
        self.assertEqual(streams.stream(5, 2, 'mix'),
                         streams.stream(5, 2, 'mix'))
        self.assertNotEqual(streams.stream(5, 2, 'mix'),
                            streams.stream(6, 2, 'mix'))

    def test_usable(self):
        for kind in streams.USABLE:
            got = list(framelog.lines(streams.stream(1, 3, kind)))
            self.assertEqual(len(got), 3)
            self.assertTrue(all(g.startswith('FRAME') for g in got))

    def test_damaged(self):
        wanted = dict(cut=4, header=5, head=6, both=7, word=8, vector=9,
                      level=10)
        for kind, number in wanted.items():
            for seed in range(8):
                got = list(framelog.lines(streams.stream(seed, 2, kind)))
                self.assertEqual(got[-1].split()[:2], ['REFUSED', str(number)])


if __name__ == '__main__':
    unittest.main()
