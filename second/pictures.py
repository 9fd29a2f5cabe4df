"""Random pictures with their modes, for a coder; the same ones for the same seed.

    python3 pictures.py SEED COUNT KIND [FILE [COLOUR LUMINANCE N]]

writes COUNT frames as framecode.py reads them to FILE (- is standard output, as
when it is left out), of the bench raster or of another one.  Kinds by what is
in the picture, with no mode but the characteristic:

    plain      gradients and boxes that move      flat      flat pictures
    noise      every pel at random                cuts      scene cuts and returns
    extremes   -128 and 127

Kinds by their modes, over pictures of every sort:

    sbc        subsampled frames                  demand    all 8 lines forced
    sblock     subsampled blocks                  cyclic    two lines forced
    background all of revision and update         repeated  repeated block-lines
    vectors    vectors up to their limits         stop      Stop, with S and vectors
    edge       vectors and pels at their limits   mix       everything together

Every kind has all four characteristics.  Damaged kinds carry usable frames of
the mix up to a fault in one frame:

    cut        the input stops at some byte              (refusal 4)
    header     a fixed bit of the header                 (5)
    head       the last four bits of a head              (6)
    both       forced and repeated                       (7)
    word       stray S, stray word, fill bits            (8)
    vector     vx = -16 or vy = -8                       (9)
    damaged    one to three of these in one frame, so that the order counts
"""

import os
import random
import sys

sys.path.insert(0, os.path.dirname(os.path.abspath(__file__)))

from decoder import BENCH, Raster
from streams import hurt, pack_header, pack_record

SHOWN = ('plain', 'noise', 'flat', 'extremes', 'cuts')
MODES = ('sbc', 'sblock', 'demand', 'cyclic', 'repeated', 'background',
         'vectors', 'stop', 'edge', 'mix')
USABLE = SHOWN + MODES
FAULTS = ('header', 'head', 'both', 'word', 'vector')
DAMAGED = ('cut',) + FAULTS + ('damaged',)


class Scene:
    """A picture that may move.  Rows are counted through both fields, so that
    a line of a field is two rows."""

    def __init__(self, rng, raster, look):
        self.rng = rng
        self.look = look
        self.t = 0
        still = rng.random() < 0.3
        self.dx = 0 if still else rng.randint(-15, 15)
        self.dy = 0 if still else rng.randint(-7, 7)
        self.level = rng.randint(-128, 127)
        self.slopes = rng.choice(((5, 3), (1, 1), (2, -1), (0, 4), (7, 0)))
        self.swing = rng.choice((15, 100, 100, 140))
        self.grain = rng.choice((0, 0, 1, 3, 8))
        self.tile = rng.choice(((1, 1), (1, 2), (2, 8), (16, 8), (200, 1),
                                (1, 300)))
        self.boxes = [(rng.randint(1, raster.w), rng.randint(0, 16 * raster.n),
                       rng.randint(1, 20), rng.randint(1, 10),
                       rng.randint(-15, 15), rng.randint(-14, 14),
                       rng.randint(-128, 127)) for _ in range(3)]

    def pel(self, row, p):
        rng, t = self.rng, self.t
        if self.look == 'noise':
            return rng.randint(-128, 127)
        p0, row0 = p - self.dx * t, row - 2 * self.dy * t
        if self.look == 'extremes':
            if self.grain and rng.random() < 0.02:
                return rng.choice((-128, -124, -1, 0, 1, 123, 127))
            across, down = self.tile
            return 127 if (p0 // across + row0 // down) % 2 else -128
        if self.look == 'flat':
            value = self.level
        else:
            gx, gy = self.slopes
            value = (p0 * gx + row0 * gy) % (2 * self.swing + 1) - self.swing
            for x, y, half, high, vx, vy, light in self.boxes:
                if abs(p - x - vx * t) <= half and abs(row - y - vy * t) <= high:
                    value = light - value // 8
        if self.grain:
            value += rng.randint(-self.grain, self.grain)
        return max(-128, min(127, value))


class Pictures:
    def __init__(self, rng, kind, raster):
        self.rng = rng
        self.kind = kind
        self.raster = raster
        self.scenes = [Scene(rng, raster, self.look()) for _ in range(3)]
        self.scene = self.scenes[0]

    def look(self):
        kind = self.kind
        if kind == 'edge':
            return self.rng.choice(('extremes', 'extremes', 'plain', 'noise'))
        if kind in ('noise', 'flat', 'extremes'):
            return kind
        if kind in ('plain', 'cuts'):
            return 'plain'
        return self.rng.choice(('plain', 'plain', 'plain', 'plain', 'flat',
                                'noise', 'extremes'))

    def has(self, mode, chance):
        """Whether a mode is used now: its own kind often, a mix sometimes."""
        if self.kind == mode:
            return self.rng.random() < (0.5 if mode == 'stop' else 0.8)
        if (self.kind in ('mix', 'edge')
                or self.kind == 'stop' and mode in ('sblock', 'vectors')):
            return self.rng.random() < chance
        return False

    def frame(self):
        """((FM1, BC, FM2, FC), [(stop, head and words, picture), ...])"""
        rng, r = self.rng, self.raster
        if rng.random() < (0.4 if self.kind == 'cuts' else 0.1):
            self.scene = rng.choice(self.scenes)
        elif self.kind == 'flat' and rng.random() < 0.5:
            self.scene.level = rng.randint(-128, 127)
        self.scene.t += 1
        self.sbc = 0 if self.has('sbc', 0.25) else 1
        self.drm = 0 if self.has('demand', 0.4) else 1
        ground = self.kind in ('background', 'cuts', 'mix', 'edge')
        header = pack_header(
            sbc=self.sbc, drm=self.drm,
            brc=rng.choice((0, 1, 1)) if ground else 1,
            buc=rng.randrange(2) if ground else 1,
            crm=rng.randrange(4), drr=rng.randrange(2),
            bc=rng.randrange(256), fc=rng.randrange(256))
        return header[1:], [self.block_line(j) for j in range(2 * r.n)]

    def block_line(self, j):
        rng, r = self.rng, self.raster
        stop = 1 if self.has('stop', 0.15) else 0
        q = rng.randrange(4)
        if self.has('repeated', 0.2):
            record = pack_record(r, q, 1, 0)
        else:
            forced = self.has('demand' if self.drm == 0 else 'cyclic', 0.4)
            record = pack_record(r, q, 0 if forced else 1, 1,
                                 {b: self.word() for b in range(2, r.K + 2)})
        field, top = divmod(j, r.n)
        picture = bytes(self.scene.pel(2 * (8 * top + l) + field, p) & 0xFF
                        for l in range(8) for p in range(1, r.w + 1))
        return stop, record[:1 + r.word_bytes], picture

    def word(self):
        rng = self.rng
        s = 1 if self.sbc == 1 and self.has('sblock', 0.3) else 0
        vx = vy = 0
        if self.has('vectors', 0.5):
            how = rng.randrange(4)
            if how == 0 or self.kind == 'edge' and how < 3:
                vx, vy = rng.choice((-15, 15)), rng.choice((-7, 7))
            elif how == 1:
                vx, vy = rng.randint(-15, 15), rng.randint(-7, 7)
            else:                          # what the scene does
                vx, vy = self.scene.dx, self.scene.dy
        return s, vx, vy


def frames(seed, count, kind, size=BENCH):
    """Usable frames, one after another."""
    if kind not in USABLE:
        raise ValueError(kind)
    pictures = Pictures(random.Random(f'pictures {seed} {count} {kind}'), kind,
                        Raster(*size))
    for _ in range(count):
        yield pictures.frame()


def packed(frame):
    modes, block_lines = frame
    return bytes(modes) + b''.join(bytes([stop]) + front + picture
                                   for stop, front, picture in block_lines)


def inputs(seed, count, kind, size=BENCH):
    """The bytes of an input."""
    if kind in USABLE:
        return b''.join(packed(f) for f in frames(seed, count, kind, size))
    if kind not in DAMAGED:
        raise ValueError(kind)
    rng = random.Random(f'pictures {seed} {count} {kind}')
    raster = Raster(*size)
    pictures = Pictures(rng, 'mix', raster)
    made = [pictures.frame() for _ in range(count)]
    if count == 0:
        return b''
    if kind != 'cut':
        which = rng.randrange(count)
        modes, block_lines = made[which]
        header = bytearray(b'\xFF' + modes)
        fronts = [bytearray(front) for _, front, _ in block_lines]
        faults = [kind] if kind != 'damaged' else rng.sample(
            FAULTS if rng.random() < 0.2 else FAULTS[1:], rng.randint(1, 3))
        for fault in faults:
            hurt(rng, raster, [header] + fronts, fault)
        made[which] = bytes(header[1:]), [
            (stop, bytes(front), picture)
            for (stop, _, picture), front in zip(block_lines, fronts)]
    data = b''.join(packed(f) for f in made)
    if kind == 'cut' or kind == 'damaged' and rng.random() < 0.2:
        whole = len(data) // count
        piece = (whole - 4) // (2 * raster.n)
        where = rng.randrange(count) * whole
        how = rng.randrange(4)
        if how == 0:
            where += rng.randrange(1, 4)
        elif how == 1:                     # between the pieces, or next to it
            where += (4 + rng.randrange(2 * raster.n) * piece
                      + rng.choice((-1, 0, 1)))
        else:
            where += rng.randrange(1, whole)
        data = data[:where]
    return data


def main():
    if len(sys.argv) not in (4, 5, 8):
        sys.exit(__doc__)
    size = [int(a) for a in sys.argv[5:8]] or BENCH
    data = inputs(int(sys.argv[1]), int(sys.argv[2]), sys.argv[3], size)
    if len(sys.argv) > 4 and sys.argv[4] != '-':
        with open(sys.argv[4], 'wb') as out:
            out.write(data)
    else:
        sys.stdout.buffer.write(data)


if __name__ == '__main__':
    main()
