"""A second source decoder, kept apart from the proved one and built otherwise.

The picture of all time is one long serial signal.  Every signal of the decoder
(Y, background, X, marks) is one growing array, and a pel has one absolute
position in all of them; a delay is a subtraction from that position.  The
records of a frame are only tested and kept when they come.  The picture is
worked at the finish, a whole field at a time and in separate passes:

  1. X and the marks of every line of the field,
  2. Y of the pels that subsampling left out, now that the line below is there,
  3. the background, and the parity.

That is sound because a field never looks at its own Y: the least delay of a
moved prediction is a frame less 7 lines and 15 pels, and a repeated line looks
a field or more back.
"""

from array import array

# One characteristic a row: the least error of each number, and its value.
# Number 0 begins at error 0; each range ends where the next one begins.
_RANGES = (
    ((0, 0), (2, 1), (3, 2), (4, 3), (6, 5), (8, 7), (10, 10), (12, 13),
     (15, 16), (18, 19), (21, 22), (24, 25), (27, 28), (30, 31), (33, 35),
     (38, 40), (43, 45), (49, 51), (55, 57), (61, 64), (68, 71), (75, 78),
     (82, 85), (89, 92), (96, 99), (103, 106), (110, 113), (117, 120),
     (124, 127)),
    ((0, 0), (4, 3), (7, 6), (9, 9), (11, 12), (14, 15), (17, 18), (20, 21),
     (23, 24), (27, 28), (31, 32), (35, 37), (40, 42), (45, 47), (50, 52),
     (55, 57), (60, 62), (65, 67), (70, 72), (75, 77), (80, 82), (85, 87),
     (90, 92), (95, 97), (100, 102), (105, 107), (110, 113), (117, 120),
     (124, 127)),
    ((0, 0), (5, 5), (9, 10), (13, 15), (18, 20), (23, 25), (28, 30),
     (33, 35), (38, 40), (43, 45), (48, 50), (53, 55), (58, 60), (63, 65),
     (68, 70), (73, 75), (78, 80), (83, 85), (88, 90), (93, 95), (98, 100),
     (103, 105), (108, 110), (113, 115), (119, 121), (125, 127)),
    ((0, 0), (7, 7), (12, 14), (18, 21), (25, 28), (32, 35), (39, 42),
     (46, 49), (53, 56), (60, 63), (67, 70), (74, 77), (81, 84), (88, 91),
     (95, 98), (102, 105), (109, 112), (116, 119), (124, 127)),
)

TOPS = tuple(len(row) - 1 for row in _RANGES)


def value_of(q, number):
    """The value of a level number, or None outside the characteristic."""
    if not -TOPS[q] <= number <= TOPS[q]:
        return None
    value = _RANGES[q][abs(number)][1]
    return -value if number < 0 else value


def number_of(q, error):
    """The level number of a prediction error, or None outside -255..255."""
    if not -255 <= error <= 255:
        return None
    number = sum(1 for least, _ in _RANGES[q] if least <= abs(error)) - 1
    return -number if error < 0 else number


def mean(a, b):
    """Half the sum, a half going upwards; floor division also below zero."""
    return (a + b + 1) // 2


def signed(bits, value):
    """Two's complement of so many bits."""
    return value - (1 << bits) if value >> (bits - 1) else value


def next_background(b, y, y_before, forced, brc, buc):
    """What the background holds next at a pel of a block-line."""
    if forced or brc == 0:
        return y
    if buc == 0 and abs(y - y_before) <= 1:
        return b + (y > b) - (y < b)
    return b


class Refused(Exception):
    def __init__(self, number, place):
        super().__init__(number, place)
        self.number = number
        self.place = place


class Raster:
    def __init__(self, colour, luminance, n):
        if not (1 <= colour <= 4 and 1 <= luminance <= 24 and 1 <= n <= 32):
            raise Refused(1, 0)
        self.colour = colour
        self.luminance = luminance
        self.n = n
        self.K = colour + luminance
        self.w = 7 + 16 * self.K
        self.lines = 13 + 16 * n
        self.F = self.w * self.lines
        self.word_bytes = -(-10 * self.K // 8)
        self.record_bytes = 1 + self.word_bytes + 8 * (self.w - 3)
        self.first_luminance = 8 + 16 * colour

    def block_of(self, pel):
        return 1 if pel <= 7 else (pel - 8) // 16 + 2


BENCH = (1, 6, 1)


class Header:
    """The five bytes of a frame, tested."""

    def __init__(self, data):
        if len(data) != 5:
            raise Refused(4, len(data))
        self.pt, fm1, _bc, fm2, _fc = data
        if fm1 & 0x0F != 0x08:
            raise Refused(5, 1)
        if fm2 & 0xA7 != 0xA7:
            raise Refused(5, 2)
        self.sbc = fm1 >> 7 & 1
        self.brc = fm1 >> 6 & 1
        self.buc = fm1 >> 5 & 1
        self.drm = fm1 >> 4 & 1
        self.crm = fm2 >> 3 & 3


class Record:
    """A block-line's bytes, taken apart into numbers and tested."""

    def __init__(self, raster, header, data):
        if len(data) != raster.record_bytes:
            raise Refused(4, len(data))
        w, K = raster.w, raster.K
        head = data[0]
        if head & 0x0F != 0x0F:
            raise Refused(6, 0)
        self.q = head >> 6
        ifm = head >> 5 & 1
        frp = head >> 4 & 1
        if ifm == 0 and frp == 0:
            raise Refused(7, 0)
        self.repeated = frp == 0
        if ifm == 1:
            self.forced = frozenset()
        elif header.drm == 0:
            self.forced = frozenset(range(1, 9))
        else:
            self.forced = frozenset((2 * header.crm + 1, 2 * header.crm + 2))

        # All the words as one string of bits.
        bits = ''.join(format(byte, '08b')
                       for byte in data[1:1 + raster.word_bytes])
        words = {b: bits[10 * (b - 2):10 * (b - 1)] for b in range(2, K + 2)}
        fill = bits[10 * K:]
        for b, word in words.items():
            if self.repeated and '1' in word:
                raise Refused(8, b)
            if header.sbc == 0 and word[0] == '1':
                raise Refused(8, b)
        if '1' in fill:
            raise Refused(8, 0)
        self.vector = {}
        self.subsampled = {1: False}
        for b, word in words.items():
            vx = signed(5, int(word[1:6], 2))
            vy = signed(4, int(word[6:], 2))
            if vx == -16 or vy == -8:
                raise Refused(9, b)
            self.vector[b] = (vx, vy)
            self.subsampled[b] = (not self.repeated
                                  and (header.sbc == 0 or word[0] == '1'))

        # levels[line][pel], both counted from 1; pels 1 to 3 have none.
        self.levels = [None]
        at = 1 + raster.word_bytes
        for line in range(1, 9):
            row = [0, 0, 0, 0]
            row += [signed(8, byte) for byte in data[at:at + w - 3]]
            at += w - 3
            self.levels.append(row)
        top = TOPS[self.q]
        for line in range(1, 9):
            for pel in range(4, w + 1):
                level = self.levels[line][pel]
                if level and (abs(level) > top or self.repeated
                              or self.omits(raster, line, pel)):
                    raise Refused(10, (line - 1) * w + pel)

    def omits(self, raster, line, pel):
        """Whether subsampling leaves this pel out."""
        return ((pel + line) % 2 == 1
                and self.subsampled[raster.block_of(pel)])


class Decoder:
    def __init__(self, raster):
        self.raster = raster
        r = raster
        # Zeros stand before the first frame, as many as the longest delay
        # reaches, and one line and a pel of zeros always stands ready behind
        # the last frame: the line below it is a reset line.
        self.origin = r.F + 7 * r.w + 15
        size = self.origin + r.w + 1
        self.Y = array('b', bytes(size))
        self.G = array('b', bytes(size))     # background
        self.X = array('b', bytes(size))     # X, or Y where repeated
        self.R1 = bytearray(size)
        self.R2 = bytearray(size)
        self.OUT = bytearray(size)           # 1: subsampling left it out
        self.frames = 0
        self.last_parity = 0xFF
        self.header = None
        self.records = []

    # -- the three calls ---------------------------------------------------

    def open(self, data):
        if self.header is not None:
            raise RuntimeError('finish first')
        header = Header(data)
        self.header = header
        self.records = []
        return header.pt ^ self.last_parity

    def block_line(self, data):
        if self.header is None:
            raise RuntimeError('open first')
        if len(self.records) == 2 * self.raster.n:
            raise Refused(3, len(self.records))
        self.records.append(Record(self.raster, self.header, data))

    def finish(self):
        if self.header is None:
            raise RuntimeError('open first')
        r = self.raster
        if len(self.records) != 2 * r.n:
            raise Refused(3, len(self.records))
        base = self.origin + self.frames * r.F
        for signal in (self.Y, self.G, self.X):
            signal.frombytes(bytes(r.F))
        for mark in (self.R1, self.R2, self.OUT):
            mark.extend(bytes(r.F))
        held = 0
        ones = 0
        for field, top in ((0, 7), (1, 13 + 8 * r.n)):
            start = base + top * r.w
            records = self.records[field * r.n:(field + 1) * r.n]
            held += self.work_x(field, start, records)
            self.interpolate(start)
            self.work_background(start, records)
            for y in self.Y[start:start + 8 * r.n * r.w]:
                ones ^= y & 0xFF
        self.frames += 1
        self.header = None
        self.last_parity = ones ^ 0xFF
        return self.last_parity, held

    # -- a field, pass by pass -----------------------------------------------

    def work_x(self, field, start, records):
        r = self.raster
        held = 0
        for number, record in enumerate(records):
            for line in range(1, 9):
                # pel p of this line stands at zero + p
                zero = start + (8 * number + line - 1) * r.w - 1
                if record.repeated:
                    self.repeat_line(field, zero)
                else:
                    held += self.code_line(zero, line, record)
        return held

    def repeat_line(self, field, zero):
        r = self.raster
        near = (6 + 8 * r.n) * r.w
        far = (7 + 8 * r.n) * r.w
        whole = near if field == 1 else far
        for i in range(zero + 4, zero + r.first_luminance):
            self.X[i] = self.Y[i] = self.Y[i - whole]
        for i in range(zero + r.first_luminance, zero + r.w + 1):
            self.X[i] = self.Y[i] = mean(self.Y[i - near], self.Y[i - far])

    def code_line(self, zero, line, record):
        r = self.raster
        w, F = r.w, r.F
        X, Y, G, R1, R2, OUT = (self.X, self.Y, self.G,
                                self.R1, self.R2, self.OUT)
        forced = line in record.forced
        levels = record.levels[line]
        held = 0
        for pel in range(4, w + 1):
            i = zero + pel
            if record.omits(r, line, pel):
                OUT[i] = 1
                continue
            intra = X[i - 2] if OUT[i - 1] else X[i - 1]
            burst = pel <= 7
            if forced:
                prediction = intra
            elif burst:
                prediction = Y[i - F]
            else:
                vx, vy = record.vector[r.block_of(pel)]
                moved = Y[i - (F + vx + w * vy)]
                back = G[i - F]
                s1 = R1[i - w + 1] + R1[i - w] + R1[i - w - 1] >= 2
                x1 = back if s1 else moved
                before = R2[i - 2] if OUT[i - 1] else R2[i - 1]
                if OUT[i - w]:
                    above = R2[i - w + 1] and R2[i - w - 1]
                else:
                    above = R2[i - w]
                s2 = before and above
                prediction = intra if s2 else x1
            exact = prediction + value_of(record.q, levels[pel])
            x = max(-128, min(127, exact))
            held += x != exact
            X[i] = Y[i] = x
            if forced:
                R2[i] = 1
            elif not burst:
                R1[i] = abs(x - back) < abs(x - moved)
                R2[i] = abs(x - intra) < abs(x - x1)
        return held

    def interpolate(self, start):
        r = self.raster
        w, X, Y, OUT = r.w, self.X, self.Y, self.OUT
        i = OUT.find(1, start)
        while i >= 0:
            pel = (i - self.origin) % w + 1
            beside = mean(X[i - 1], X[i + 1])
            if pel < r.first_luminance:
                Y[i] = beside
            else:
                Y[i] = mean(beside, mean(X[i - w], X[i + w]))
            i = OUT.find(1, i + 1)

    def work_background(self, start, records):
        r = self.raster
        Y, G = self.Y, self.G
        for number, record in enumerate(records):
            for line in range(1, 9):
                first = start + (8 * number + line - 1) * r.w
                forced = line in record.forced
                for i in range(first, first + r.w):
                    G[i] = next_background(G[i - r.F], Y[i], Y[i - r.F],
                                           forced, self.header.brc,
                                           self.header.buc)
