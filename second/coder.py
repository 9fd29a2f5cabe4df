"""A second source coder, written from the rules alone and built otherwise.

Nothing is handed on from pel to pel here, and no memory takes anything while a
frame is in hand.  What is past is a Decoder (decoder.py) that was given the
frames as this coder wrote them, so the memories of both ends are the same by
the way they are made.  A frame in hand is a few plain arrays over the positions
of that frame, filled in by the block-lines; every value that a prediction needs
is asked for by its absolute position in the serial signal:

  - y(i) is the picture: the past decoder's before this frame, and in this frame
    X, or the mean of neighbours worked out anew each time it is asked for;
  - the background is always a frame ago, so it is the past decoder's;
  - X and the marks are those of this frame: nothing looks at those of another.

At the finish the past decoder gets the frame as it was written, and everything
that this coder found for itself is held against what the decoder found: X, the
marks, the parity, no held pel, pels within -127 to 126.  Each coded pel is held
to the shortfall of its characteristic as it is coded.  Where anything is off,
Unlike is raised; that is no refusal but a mistake in one of the two programs.
"""

from array import array

from decoder import Decoder, Header, Record, Refused, mean, number_of, value_of

LEAST, MOST = -124, 123                # a prepared pel
SHORTFALLS = (3, 3, 4, 6)


class Unlike(Exception):
    """The coder and the decoder do not agree."""


def prepared(raster, picture):
    """The picture of a block-line ready for coding: rows[line][pel], from 1."""
    rows = [None]
    for line in range(8):
        row = [None]
        for byte in picture[line * raster.w:(line + 1) * raster.w]:
            pel = byte - 256 if byte > 127 else byte
            row.append(max(LEAST, min(MOST, pel)))
        for pel in (1, 2, 3, 7, raster.first_luminance):
            row[pel] = 0
        rows.append(row)
    return rows


def without_vectors(raster, front):
    """Head and words with every vector 0; head, S bits and fill stay."""
    bits = ''.join(format(byte, '08b') for byte in front[1:])
    kept = ''.join(bit if at % 10 == 0 or at >= 10 * raster.K else '0'
                   for at, bit in enumerate(bits))
    return front[:1] + bytes(int(kept[at:at + 8], 2)
                             for at in range(0, len(kept), 8))


class Coder:
    def __init__(self, raster):
        self.raster = raster
        self.past = Decoder(raster)
        self.parity = 0xFF             # of the frame before
        self.header = None
        # What the checks have seen, over all frames.
        self.frames = self.coded = self.close = 0
        self.used = dict.fromkeys(('forced', 'burst', 'intraframe',
                                   'background', 'moved', 'stop'), 0)

    # -- the three calls ---------------------------------------------------

    def open(self, fm1, bc, fm2, fc, buffer):
        if self.header is not None:
            raise RuntimeError('finish first')
        if len(buffer) != 5:
            raise Refused(4, len(buffer))
        data = bytes((self.parity, fm1, bc, fm2, fc))
        self.header = Header(data)
        buffer[:] = data
        r = self.raster
        self.written = [data]
        # Position 0 is the first pel of this frame; base is where that stands
        # in the arrays of the past decoder.
        self.base = self.past.origin + self.past.frames * r.F
        self.X = array('b', bytes(r.F))
        self.R1 = bytearray(r.F)
        self.R2 = bytearray(r.F)
        self.OUT = bytearray(r.F)

    def block_line(self, front, stop, picture, buffer):
        if self.header is None:
            raise RuntimeError('open first')
        r = self.raster
        done = len(self.written) - 1
        if done == 2 * r.n:
            raise Refused(3, done)
        for given, length in ((front, 1 + r.word_bytes), (picture, 8 * r.w),
                              (buffer, r.record_bytes)):
            if len(given) != length:
                raise Refused(4, len(given))
        front = bytes(front)
        no_levels = bytes(8 * (r.w - 3))
        Record(r, self.header, front + no_levels)      # tests what is given
        if stop:
            front = without_vectors(r, front)
        modes = Record(r, self.header, front + no_levels)
        rows = prepared(r, picture)
        record = bytearray(front)
        top = 7 + 8 * done + (6 if done >= r.n else 0)
        for line in range(1, 9):
            for pel in range(4, r.w + 1):
                i = (top + line - 1) * r.w + pel - 1
                level = self.work(i, line, pel, modes, stop, rows[line][pel])
                record.append(level & 0xFF)
        buffer[:] = record
        self.written.append(bytes(record))

    def finish(self):
        if self.header is None:
            raise RuntimeError('open first')
        r = self.raster
        done = len(self.written) - 1
        if done != 2 * r.n:
            raise Refused(3, done)
        planes = 0
        for i in range(r.F):
            planes ^= self.y(i) & 0xFF         # a reset line adds nothing
        self.parity = planes ^ 0xFF
        self.give_to_past()
        self.header = None
        self.frames += 1
        return self.parity

    # -- one pel -------------------------------------------------------------

    def work(self, i, line, pel, modes, stop, wanted):
        """The level of a pel; X and the marks at its position are set."""
        r = self.raster
        if modes.repeated:
            self.X[i] = self.repeated(i, pel)
            return 0
        if modes.omits(r, line, pel):
            self.OUT[i] = 1
            return 0
        before = i - 2 if self.OUT[i - 1] else i - 1
        intra = self.X[before]
        adaptive = False
        if line in modes.forced:
            prediction, why = intra, 'forced'
            self.R2[i] = 1
        elif pel <= 7:
            prediction, why = self.y(i - r.F), 'burst'
        else:
            adaptive = True
            vx, vy = modes.vector[r.block_of(pel)]
            moved = self.y(i - r.F - vx - r.w * vy)
            back = self.past.G[self.base + i - r.F]
            above = i - r.w
            votes = [self.R1[k] for k in (above - 1, above, above + 1)]
            x1, why = (back, 'background') if sum(votes) > 1 \
                else (moved, 'moved')
            stand = [above - 1, above + 1] if self.OUT[above] else [above]
            if all(self.R2[k] for k in [before] + stand):
                prediction, why = intra, 'intraframe'
            else:
                prediction = x1
        error = wanted - prediction
        level = 0 if stop else number_of(modes.q, error)
        x = prediction + value_of(modes.q, level)
        if not -127 <= x <= 126:
            raise Unlike('a pel of', x)
        self.coded += 1
        self.used['stop' if stop else why] += 1
        if not stop and abs(error) <= 130:
            self.close += 1
            if abs(wanted - x) > SHORTFALLS[modes.q]:
                raise Unlike('a pel beyond the shortfall', wanted, x)
        self.X[i] = x
        if adaptive:
            self.R1[i] = abs(x - back) < abs(x - moved)
            self.R2[i] = abs(x - intra) < abs(x - x1)
        return level

    def repeated(self, i, pel):
        r = self.raster
        near = self.y(i - (6 + 8 * r.n) * r.w)
        far = self.y(i - (7 + 8 * r.n) * r.w)
        if pel >= r.first_luminance:
            return mean(near, far)
        return near if i >= (13 + 8 * r.n) * r.w else far

    def y(self, i):
        """The picture at a position, counted from the start of this frame."""
        if i < 0:
            return self.past.Y[self.base + i]
        if not self.OUT[i]:
            return self.X[i]
        r, X = self.raster, self.X
        after = X[i + 1] if i + 1 < r.F else 0
        beside = mean(X[i - 1], after)
        if i % r.w + 1 < r.first_luminance:
            return beside
        below = X[i + r.w] if i + r.w < r.F else 0
        return mean(beside, mean(X[i - r.w], below))

    # -- the other end ---------------------------------------------------------

    def give_to_past(self):
        """The past decoder takes the frame, and has to come to the same."""
        r, past = self.raster, self.past
        planes = past.open(self.written[0])
        for record in self.written[1:]:
            past.block_line(record)
        parity, held = past.finish()
        if planes:
            raise Unlike('planes', planes)
        if held:
            raise Unlike('held pels', held)
        if parity != self.parity:
            raise Unlike('parities', self.parity, parity)
        here = slice(self.base, self.base + r.F)
        for name in ('X', 'R1', 'R2', 'OUT'):
            if getattr(past, name)[here] != getattr(self, name):
                raise Unlike(name)
        if not (-127 <= min(past.Y[here]) and max(past.Y[here]) <= 126):
            raise Unlike('pels')


def code(coder, frame):
    """A frame as [header, record, ...].  The frame is ((FM1, BC, FM2, FC),
    [(stop, head and words, picture), ...])."""
    modes, block_lines = frame
    r = coder.raster
    pieces = [bytearray(5)]
    coder.open(*modes, pieces[0])
    for stop, front, picture in block_lines:
        pieces.append(bytearray(r.record_bytes))
        coder.block_line(front, stop, picture, pieces[-1])
    coder.finish()
    return [bytes(piece) for piece in pieces]
