"""python3 -m unittest test_coder      (in this folder)

Cases of the coder worked by hand, on the bench raster unless said otherwise:
w = 119, burst to pel 7, colour 8 to 23, luminance from 24.  A frame is opened
with SBC, BRC, BUC and DRM 1 (F8) unless said otherwise.  In characteristic 0,
numbers 1 to 6 have the values 1, 2, 3, 5, 7, 10.
"""

import os
import subprocess
import sys
import unittest

HERE = os.path.dirname(os.path.abspath(__file__))
sys.path.insert(0, HERE)

import code_gate
import framecode
import framelog
import pictures
from coder import Coder, code, prepared, without_vectors
from decoder import BENCH, Decoder, Raster, Refused
from recursive import Recursive
from streams import pack_header, pack_record

RASTER = Raster(*BENCH)
W = 119


def picture(pels=None):
    """8 lines of pels that are 0 but for {(line, pel): value}."""
    data = bytearray(8 * W)
    for (line, pel), value in (pels or {}).items():
        data[(line - 1) * W + pel - 1] = value & 0xFF
    return bytes(data)


def front(q=0, ifm=1, frp=1, words=None):
    return pack_record(RASTER, q, ifm, frp, words)[:10]


class Bench(unittest.TestCase):
    def setUp(self):
        self.coder = Coder(RASTER)

    def frame(self, first=None, second=None, **how):
        """Each block-line is (pels, front, stop).  The records as
        {(line, pel): level} without the zeros, and the parity."""
        header = pack_header(**how)
        self.header = bytearray(5)
        self.coder.open(*header[1:], self.header)
        self.records, levels = [], []
        for pels, given, stop in (first or ({}, front(), 0),
                                  second or ({}, front(), 0)):
            record = bytearray(938)
            self.coder.block_line(given, stop, picture(pels), record)
            self.records.append(bytes(record))
            levels.append({(at // 116 + 1, at % 116 + 4):
                           byte - 256 if byte > 127 else byte
                           for at, byte in enumerate(record[10:]) if byte})
        return levels, self.coder.finish()

    def y(self, line, pel, block_line=1):
        row = (7 if block_line == 1 else 21) + line - 1
        past = self.coder.past
        return past.Y[past.origin + (past.frames - 1) * 3451
                      + row * W + pel - 1]

    # -- levels ----------------------------------------------------------------

    def test_nothing(self):
        levels, parity = self.frame()
        self.assertEqual((levels, parity), ([{}, {}], 0xFF))
        self.assertEqual(bytes(self.header), bytes.fromhex('FFF800FF00'))
        self.assertEqual(self.records[0], b'\x3F' + bytes(937))

    def test_first_pel_limited(self):
        # Pel 4 of the first line is predicted by 0.  127 is limited to 123:
        # error 123, number 27 in Q0 and Q1 (117 to 123, value 120), 24 in Q2
        # (119 to 124, value 121), 17 in Q3 (116 to 123, value 119).
        for q, number, x in ((0, 27, 120), (1, 27, 120), (2, 24, 121),
                             (3, 17, 119)):
            for value in (127, 124, 123):
                self.setUp()
                levels, parity = self.frame(({(1, 4): value}, front(q), 0))
                self.assertEqual(levels, [{(1, 4): number}, {}])
                self.assertEqual(self.y(1, 4), x)
                self.assertEqual(parity, 0xFF ^ x)

    def test_first_pel_limited_below(self):
        # -128 is limited to -124: the last number but in Q2, where -124 has
        # number -24, value -121.
        for q, number, x in ((0, -28, -127), (1, -28, -127), (2, -24, -121),
                             (3, -18, -127)):
            self.setUp()
            levels, _ = self.frame(({(1, 4): -128}, front(q), 0))
            self.assertEqual(levels, [{(1, 4): number}, {}])
            self.assertEqual(self.y(1, 4), x)
        # The byte of number -28 is E4, the first after head and words.
        self.setUp()
        self.frame(({(1, 4): -128}, front(), 0))
        self.assertEqual(self.records[0][10], 0xE4)

    def test_largest_pel(self):
        # -2 has number -1 in Q0, so X = -1.  Then 123 from -1: error 124,
        # number 28, value 127: X = 126.
        levels, parity = self.frame(({(1, 4): -2}, front(), 0))
        self.assertEqual((levels[0], parity), ({(1, 4): -1}, 0x00))
        levels, parity = self.frame(({(1, 4): 127}, front(), 0))
        self.assertEqual((levels[0], parity), ({(1, 4): 28}, 0xFF ^ 126))
        # The parity of the frame before went out with the second header.
        self.assertEqual(self.header[0], 0x00)

    def test_prepared_zeros(self):
        # Pels 1 to 3, 7 and 24 are taken as 0, their neighbours are not.
        # 10 has number 6 in Q0.
        pels = {(1, p): 10 for p in (1, 2, 3, 6, 7, 8, 23, 24, 25)}
        levels, _ = self.frame((pels, front(), 0))
        self.assertEqual(levels[0], {(1, p): 6 for p in (6, 8, 23, 25)})

    def test_prepared_rows(self):
        rows = prepared(Raster(2, 1, 1), bytes([0x80] * (8 * 55)))
        for line in range(1, 9):
            self.assertEqual([p for p in range(1, 56) if rows[line][p] == 0],
                             [1, 2, 3, 7, 40])
            self.assertEqual(rows[line][55], -124)

    def test_zero_within_the_dead_zone(self):
        # 1 and -1 have number 0 in Q0, up to 6 in Q3.
        levels, _ = self.frame(({(1, 30): 1, (1, 32): -1}, front(0), 0),
                               ({(1, 30): 6, (1, 32): -6, (1, 34): 7},
                                front(3), 0))
        self.assertEqual(levels, [{}, {(1, 34): 1}])

    # -- predictions -----------------------------------------------------------

    def test_forced(self):
        # Line 1 in a forced block-line: each pel from the one before.
        # 4: 10 from 0: number 6, X 10.  5: 11 from 10: error 1, none, X 10.
        # 6: 13 from 10: error 3, number 2, X 12.  7 counts as 0: error -12,
        # number -7 (12 to 14, value 13), X -1.  8: 0 from -1: error 1, none,
        # X -1, and so to the end of the line.
        levels, _ = self.frame(({(1, 4): 10, (1, 5): 11, (1, 6): 13,
                                 (1, 7): 13}, front(ifm=0), 0), drm=0)
        self.assertEqual(levels[0], {(1, 4): 6, (1, 6): 2, (1, 7): -7})
        self.assertEqual([self.y(1, p) for p in (4, 5, 6, 7, 8, 24, 119)],
                         [10, 10, 12, -1, -1, -1, -1])

    def test_a_pair_of_lines(self):
        # CRM 01 forces lines 3 and 4.  The same pels, 5 at 30 and after it to
        # 119, in lines 1 and 3.  Line 1: each pel from 0 (above is a reset
        # line, so no R2 there): number 3 (4 to 5, value 3) for every pel.
        # Line 3 forced: number 3 at 30, X 3; at 31 error 2, number 1, X 4; at
        # 32 error 1, none, to the end of the line.
        pels = {(line, p): 5 for line in (1, 3) for p in range(30, 120)}
        levels, _ = self.frame((pels, front(ifm=0), 0), crm=1)
        line1 = {at: n for at, n in levels[0].items() if at[0] == 1}
        line3 = {at: n for at, n in levels[0].items() if at[0] == 3}
        self.assertEqual(line1, {(1, p): 3 for p in range(30, 120)})
        self.assertEqual(line3, {(3, 30): 3, (3, 31): 1})

    def test_frame_before(self):
        # 50 at (1,60): number 17 (49 to 54, value 51).  Next frame: 50 from
        # 51, error -1, none.  Next: 0 from 51: -17.
        levels, _ = self.frame(({(1, 60): 50}, front(), 0))
        self.assertEqual(levels[0], {(1, 60): 17})
        levels, _ = self.frame(({(1, 60): 50}, front(), 0))
        self.assertEqual(levels[0], {})
        levels, _ = self.frame(({}, front(), 0))
        self.assertEqual(levels[0], {(1, 60): -17})

    def test_vector(self):
        # 50 at (1,60), then at (3,63) with vx 3 and vy 2 in block 5 (pels 56
        # to 71): (3,63) is predicted by 51, (1,60) by 0.
        self.frame(({(1, 60): 50}, front(), 0))
        levels, _ = self.frame(({(3, 63): 50}, front(words={5: (0, 3, 2)}), 0))
        self.assertEqual(levels[0], {})
        self.assertEqual((self.y(1, 60), self.y(3, 63)), (0, 51))

    def test_subsampled(self):
        # Odd pels of odd lines and even pels of even lines are coded.  5 has
        # number 3, value 3.  (1,60) is left out: its picture counts for
        # nothing.  Y of it is mean(mean(0, 3), mean(0, 0)) = mean(2, 0) = 1.
        levels, _ = self.frame(({(1, 60): 100, (1, 61): 5, (1, 6): 5},
                                front(), 0), sbc=0)
        self.assertEqual(levels[0], {(1, 6): 3, (1, 61): 3})
        self.assertEqual([self.y(1, p) for p in (60, 61, 62)], [1, 3, 1])

    def test_s_of_one_block(self):
        # S in block 5 only, pels 56 to 71.
        levels, _ = self.frame(({(1, p): 5 for p in (54, 56, 57, 72)},
                                front(words={5: (1, 0, 0)}), 0))
        self.assertEqual(levels[0], {(1, p): 3 for p in (54, 57, 72)})

    def test_repeated(self):
        # Block-line 2 repeats block-line 1 (near: the same line there): pel 10
        # is its pel, luminance is a mean with the line above.
        levels, _ = self.frame(({(1, 10): 5, (1, 60): 5}, front(), 0),
                               ({(1, 10): 99, (4, 60): 99}, front(frp=0), 0))
        self.assertEqual(levels, [{(1, 10): 3, (1, 60): 3}, {}])
        self.assertEqual([self.y(k, 10, 2) for k in (1, 2)], [3, 0])
        self.assertEqual([self.y(k, 60, 2) for k in (1, 2, 3)], [2, 2, 0])

    # -- Stop ------------------------------------------------------------------

    def test_stop(self):
        # What is there stays, whatever the picture.
        self.frame(({(1, 60): 50}, front(), 0))
        levels, parity = self.frame(({(1, 60): -50, (2, 4): 99}, front(), 1))
        self.assertEqual((levels, parity), ([{}, {}], 0xFF ^ 51))
        self.assertEqual(self.records[0], b'\x3F' + bytes(937))
        # And is coded from there when Stop is over.
        levels, _ = self.frame(({(1, 60): 51}, front(), 0))
        self.assertEqual(levels[0], {})

    def test_stop_keeps_head_and_s(self):
        # Block 2: S, vx -3, vy 2; block 3: vx 15, vy -7, no S; block 8: S and
        # a vector.  Only the S are left: bits 0 and 60 of the words.
        given = front(q=2, words={2: (1, -3, 2), 3: (0, 15, -7),
                                  8: (1, 1, -1)})
        self.assertEqual(given[:4], bytes.fromhex('BFF48F90'))
        self.frame(({(1, 60): 50}, given, 1))
        self.assertEqual(self.records[0][:10],
                         bytes.fromhex('BF800000000000000800'))
        self.assertEqual(self.records[0][10:], bytes(928))

    def test_stop_has_no_vector_in_the_prediction(self):
        # As test_vector, but stopped: (1,60) stays where it is.
        self.frame(({(1, 60): 50}, front(), 0))
        levels, parity = self.frame(
            ({(3, 63): 50}, front(words={5: (0, 3, 2)}), 1))
        self.assertEqual((levels[0], parity), ({}, 0xFF ^ 51))
        self.assertEqual((self.y(1, 60), self.y(3, 63)), (51, 0))

    def test_stop_with_s(self):
        # 3 at (1,59), (1,60) and (1,61), then stopped and subsampled in block
        # 5: (1,60) is left out, mean(mean(3, 3), mean(0, 0)) = mean(3, 0) = 2;
        # below, (2,59) and (2,61): mean(mean(0, 0), mean(3, 0)) = 1.
        # Beside, (1,58) and (1,62): mean(mean(0, 3), 0) = 1.
        self.frame(({(1, p): 5 for p in (59, 60, 61)}, front(), 0))
        levels, _ = self.frame(({}, front(words={5: (1, 4, 0)}), 1))
        self.assertEqual(levels[0], {})
        self.assertEqual([self.y(1, p) for p in range(58, 63)],
                         [1, 3, 2, 3, 1])
        self.assertEqual([self.y(2, p) for p in range(58, 63)],
                         [0, 1, 0, 1, 0])

    def test_stop_forced(self):
        # A forced line without levels is 0: the picture goes, and with it the
        # background.
        self.frame(({(1, 60): 50}, front(), 0), brc=0)
        levels, parity = self.frame(({(1, 60): 50}, front(ifm=0), 1), drm=0)
        self.assertEqual((levels, parity), ([{}, {}], 0xFF))
        past = self.coder.past
        self.assertEqual(past.G[past.origin + 3451 + 7 * W + 59], 0)

    def test_stop_one_block_line(self):
        levels, _ = self.frame(({(1, 60): 5}, front(), 1),
                               ({(1, 60): 5}, front(), 0))
        self.assertEqual(levels, [{}, {(1, 60): 3}])

    def test_without_vectors(self):
        for words in ({}, {2: (1, 15, 7)}, {b: (b % 2, -15, -7)
                                            for b in range(2, 9)}):
            wanted = front(3, 0, 1, {b: (s, 0, 0)
                                     for b, (s, _, _) in words.items()})
            self.assertEqual(without_vectors(RASTER, front(3, 0, 1, words)),
                             wanted)


class Refusals(unittest.TestCase):
    def setUp(self):
        self.coder = Coder(RASTER)

    def refused(self, number, place, call, *given):
        buffer = given[-1]
        before = bytes(buffer)
        with self.assertRaises(Refused) as caught:
            call(*given)
        self.assertEqual(caught.exception.args, (number, place))
        self.assertEqual(bytes(buffer), before)

    def test_opening(self):
        opening = self.coder.open
        for length in (0, 4, 6):       # the length comes before the bits
            self.refused(4, length, opening, 0, 0, 0, 0,
                         bytearray(b'\xA5' * length))
        buffer = bytearray(b'\xA5' * 5)
        self.refused(5, 1, opening, 0xF0, 0, 0xFE, 0, buffer)
        self.refused(5, 1, opening, 0xF9, 0, 0xFF, 0, buffer)
        self.refused(5, 2, opening, 0xF8, 0, 0x7F, 0, buffer)
        self.refused(5, 2, opening, 0xF8, 0, 0xFE, 0, buffer)
        opening(0xF8, 0x12, 0xA7, 0x40, buffer)
        self.assertEqual(bytes(buffer), bytes.fromhex('FFF812A740'))

    def test_out_of_turn(self):
        self.assertRaises(RuntimeError, self.coder.finish)
        self.assertRaises(RuntimeError, self.coder.block_line, front(), 0,
                          picture(), bytearray(938))
        self.coder.open(0xF8, 0, 0xFF, 0, bytearray(5))
        self.assertRaises(RuntimeError, self.coder.open, 0xF8, 0, 0xFF, 0,
                          bytearray(5))

    def test_block_line(self):
        coder = self.coder
        coder.open(0x78, 0, 0xFF, 0, bytearray(5))       # SBC 0
        call, room = coder.block_line, bytearray(b'\xA5' * 938)
        short = bytearray(b'\xA5' * 937)
        word = lambda text: bytes.fromhex(text).ljust(10, b'\x00')
        for stop in (0, 1):
            # Lengths: head and words, picture, buffer.
            self.refused(4, 9, call, bytes(9), stop, b'', short)
            self.refused(4, 951, call, bytes(10), stop, bytes(951), short)
            self.refused(4, 937, call, bytes(10), stop, picture(), short)
            # Then the tests of head and words, as in a decoder.
            self.refused(6, 0, call, word('CDC0'), stop, picture(), room)
            self.refused(7, 0, call, word('CFC0'), stop, picture(), room)
            self.refused(8, 2, call, word('FFC0'), stop, picture(), room)
            self.refused(8, 2, call, word('EF01'), stop, picture(), room)
            self.refused(8, 0, call, b'\xFF' + bytes(8) + b'\x01', stop,
                         picture(), room)
            self.refused(9, 2, call, word('FF40'), stop, picture(), room)
            self.refused(9, 3, call, word('FF000080'), stop, picture(), room)
        # A refused call has left nothing behind.
        for done in (0, 1):
            with self.assertRaises(Refused) as caught:
                coder.finish()
            self.assertEqual(caught.exception.args, (3, done))
            call(front(), 0, picture(), room)
            self.assertEqual(bytes(room), b'\x3F' + bytes(937))
        # A block-line too many comes before its lengths.
        self.refused(3, 2, call, b'', 0, b'', bytearray())
        self.assertEqual(coder.finish(), 0xFF)


class Program(unittest.TestCase):
    def run_on(self, data):
        run = subprocess.run([sys.executable, os.path.join(HERE, 'framecode.py')],
                             input=data, stdout=subprocess.PIPE,
                             stderr=subprocess.PIPE)
        return run.stdout, run.stderr.decode()

    def test_frames(self):
        flat = b'\x00' + front() + picture()
        one = bytes.fromhex('F800FF00') + flat + flat
        self.assertEqual(len(one), 1930)
        nothing = bytes.fromhex('FFF800FF00') + (b'\x3F' + bytes(937)) * 2
        self.assertEqual(self.run_on(b''), (b'', ''))
        self.assertEqual(self.run_on(one + one), (nothing + nothing, ''))
        for cut, place in ((1, 1), (3, 3), (4, 0), (5, 1), (966, 962),
                           (967, 0), (1929, 962)):
            self.assertEqual(self.run_on(one + one[:cut]),
                             (nothing, f'REFUSED 4 {place}\n'))
        # Pel 4 of line 1 is 1 too large to be nothing: 2, number 1, X 1.
        lit = bytes.fromhex('F8AAFF55') + b'\x00' + front() \
            + picture({(1, 4): 2}) + flat
        out, told = self.run_on(lit + lit)
        self.assertEqual(told, '')
        self.assertEqual(out[:16], bytes.fromhex('FFF8AAFF55') + b'\x3F'
                         + bytes(9) + b'\x01')
        self.assertEqual(out[1881:1897], bytes.fromhex('FEF8AAFF55') + b'\x3F'
                         + bytes(10))
        self.assertEqual(list(framelog.lines(out)),
                         ['FRAME 1 PARITY FE PLANES 00 HELD 0',
                          'FRAME 2 PARITY FE PLANES 00 HELD 0'])

    def test_refused(self):
        flat = b'\x01' + front() + picture()
        stray = b'\x01\xFF' + bytes(8) + b'\x02' + picture()
        self.assertEqual(self.run_on(bytes.fromhex('F800FF00') + flat + stray),
                         (b'', 'REFUSED 8 0\n'))
        self.assertEqual(self.run_on(bytes.fromhex('F800FE00') + flat),
                         (b'', 'REFUSED 5 2\n'))


class Random(unittest.TestCase):
    """The coder holds itself to its decoder; here a decoder of its own and the
    definitions asked pel by pel read what it wrote."""

    def check(self, size, kind, seed, count):
        raster = Raster(*size)
        coder = Coder(raster)
        decoder = Decoder(raster)
        frames, answers = [], []
        for frame in pictures.frames(seed, count, kind, size):
            pieces = code(coder, frame)
            frames.append(pieces)
            self.assertEqual(decoder.open(pieces[0]), 0)
            for record in pieces[1:]:
                decoder.block_line(record)
            answers.append(decoder.finish())
            self.assertEqual(answers[-1], (coder.parity, 0))
        self.assertEqual(decoder.Y, coder.past.Y)
        self.assertEqual(decoder.G, coder.past.G)
        self.assertEqual((min(decoder.Y) >= -127, max(decoder.Y) <= 126),
                         (True, True))
        other = Recursive(raster, frames)
        self.assertEqual([other.result(k) for k in range(count)], answers)

    def test_bench(self):
        for kind in pictures.USABLE:
            with self.subTest(kind):
                self.check(BENCH, kind, 'bench', 3)

    def test_other_rasters(self):
        for size in ((1, 1, 1), (1, 1, 3), (2, 2, 2), (4, 1, 1), (1, 5, 4)):
            for kind in ('mix', 'edge', 'sblock', 'stop'):
                with self.subTest((size, kind)):
                    self.check(size, kind, 'other', 3)

    def test_same_seed_same_input(self):
        for kind in ('mix', 'damaged'):
            self.assertEqual(pictures.inputs(5, 2, kind),
                             pictures.inputs(5, 2, kind))
            self.assertNotEqual(pictures.inputs(5, 2, kind),
                                pictures.inputs(6, 2, kind))

    def test_damaged(self):
        wanted = dict(cut=4, header=5, head=6, both=7, word=8, vector=9)
        for kind, number in wanted.items():
            for seed in range(6):
                _, refusal = framecode.coded(pictures.inputs(seed, 2, kind))
                self.assertEqual(refusal.number, number)

    def test_the_gate_uses_everything(self):
        coder = Coder(RASTER)
        data = code_gate.given()
        self.assertEqual(len(data) % 1930, 0)
        _, refusal = framecode.coded(data, coder=coder)
        self.assertIsNone(refusal)
        self.assertTrue(all(count > 1000 for count in coder.used.values()))


if __name__ == '__main__':
    unittest.main()
