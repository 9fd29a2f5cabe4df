"""The same rules once more, as definitions asked for one pel at a time.

Nothing is passed over in order here: a question about a position asks the
questions it depends on, and answers are remembered.  It serves only to catch
slips of the array decoder, and is slow.
"""

import sys
from functools import lru_cache

from decoder import Header, Record, mean, value_of

sys.setrecursionlimit(100000)


class Recursive:
    """Frames are lists [header, record, ...] of usable bytes."""

    def __init__(self, raster, frames):
        self.r = raster
        self.headers = [Header(f[0]) for f in frames]
        self.records = [[Record(raster, h, data) for data in f[1:]]
                        for h, f in zip(self.headers, frames)]
        for name in ('kind', 'y', 'x', 'pred', 'marks', 'back'):
            setattr(self, name, lru_cache(None)(getattr(self, name)))

    def where(self, i):
        """Frame, block-line from 0 (None: reset), line, pel, all of i."""
        frame, rest = divmod(i, self.r.F)
        row, pel = divmod(rest, self.r.w)
        n = self.r.n
        if 7 <= row < 7 + 8 * n:
            j, line = divmod(row - 7, 8)
        elif 13 + 8 * n <= row < 13 + 16 * n:
            j, line = divmod(row - 13 - 8 * n, 8)
            j += n
        else:
            j, line = None, 0
        return frame, j, line + 1, pel + 1

    def kind(self, i):
        if i < 0 or i >= len(self.headers) * self.r.F:
            return 'nothing'
        frame, j, line, pel = self.where(i)
        if j is None:
            return 'nothing'
        if pel <= 3:
            return 'clamped'
        record = self.records[frame][j]
        if record.repeated:
            return 'repeated'
        block = 1 if pel < 8 else 2 + (pel - 8) // 16
        if record.subsampled[block] and pel % 2 != line % 2:
            return 'omitted'
        if line in record.forced:
            return 'forced'
        return 'burst' if block == 1 else 'adaptive'

    def x(self, i):
        kind = self.kind(i)
        if kind == 'repeated':
            return self.y(i)
        if kind in ('forced', 'burst', 'adaptive'):
            return max(-128, min(127, self.sum(i)))
        return 0

    def sum(self, i):
        frame, j, line, pel = self.where(i)
        record = self.records[frame][j]
        return self.pred(i) + value_of(record.q, record.levels[line][pel])

    def y(self, i):
        kind = self.kind(i)
        r = self.r
        if kind in ('nothing', 'clamped'):
            return 0
        _, j, _, pel = self.where(i)
        luminance = pel > 7 + 16 * r.colour
        if kind == 'repeated':
            near = self.y(i - (6 + 8 * r.n) * r.w)
            far = self.y(i - (7 + 8 * r.n) * r.w)
            if luminance:
                return mean(near, far)
            return near if j >= r.n else far
        if kind == 'omitted':
            side = mean(self.x(i - 1), self.x(i + 1))
            if not luminance:
                return side
            return mean(side, mean(self.x(i - r.w), self.x(i + r.w)))
        return self.x(i)

    def intra(self, i):
        return self.x(i - 2 if self.kind(i - 1) == 'omitted' else i - 1)

    def moved(self, i):
        frame, j, _, pel = self.where(i)
        vx, vy = self.records[frame][j].vector[2 + (pel - 8) // 16]
        return self.y(i - self.r.F - vx - vy * self.r.w)

    def x1(self, i):
        w = self.r.w
        votes = sum(self.marks(i - d)[0] for d in (w - 1, w, w + 1))
        return self.back(i - self.r.F) if votes > 1 else self.moved(i)

    def pred(self, i):
        kind = self.kind(i)
        w = self.r.w
        if kind == 'forced':
            return self.intra(i)
        if kind == 'burst':
            return self.y(i - self.r.F)
        asked = [2 if self.kind(i - 1) == 'omitted' else 1]
        asked += [w - 1, w + 1] if self.kind(i - w) == 'omitted' else [w]
        if all(self.marks(i - d)[1] for d in asked):
            return self.intra(i)
        return self.x1(i)

    def marks(self, i):
        kind = self.kind(i)
        if kind == 'forced':
            return 0, 1
        if kind != 'adaptive':
            return 0, 0
        y = self.y(i)
        r1 = abs(y - self.back(i - self.r.F)) < abs(y - self.moved(i))
        r2 = abs(y - self.intra(i)) < abs(y - self.x1(i))
        return int(r1), int(r2)

    def back(self, i):
        if self.kind(i) == 'nothing':
            return 0
        frame, j, line, _ = self.where(i)
        header = self.headers[frame]
        if line in self.records[frame][j].forced or not header.brc:
            return self.y(i)
        b = self.back(i - self.r.F)
        if not header.buc and -1 <= self.y(i) - self.y(i - self.r.F) <= 1:
            if b < self.y(i):
                return b + 1
            if b > self.y(i):
                return b - 1
        return b

    def result(self, frame):
        """Parity and held count of a frame."""
        counts = [0] * 8
        held = 0
        for i in range(frame * self.r.F, (frame + 1) * self.r.F):
            kind = self.kind(i)
            if kind == 'nothing':
                continue
            for plane in range(8):
                counts[plane] += self.y(i) >> plane & 1
            if kind in ('forced', 'burst', 'adaptive'):
                held += not -128 <= self.sum(i) <= 127
        parity = sum(1 << k for k in range(8) if counts[k] % 2 == 0)
        return parity, held
