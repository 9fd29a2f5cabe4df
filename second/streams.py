"""Random bench streams, the same ones for the same seed.

    python3 streams.py SEED COUNT KIND [FILE [COLOUR LUMINANCE N]]

writes COUNT frames to FILE (- is standard output, as when it is left out), of
the bench raster or of another one.  Usable kinds:

    plain      no mode at all            demand     all 8 lines forced
    sbc        subsampled frames         cyclic     two lines forced
    sblock     subsampled blocks         repeated   repeated block-lines
    background revision and update       vectors    vectors up to their limits
    held       levels that overshoot     edge       vectors and levels at limits
    mix        everything together       parity     mix with many wrong PT

Damaged kinds carry usable frames of the mix up to a fault in one frame:

    cut        the input stops at some byte              (refusal 4)
    header     a fixed bit of the header                 (5)
    head       the last four bits of a head              (6)
    both       forced and repeated                       (7)
    word       stray S, stray word, fill bits            (8)
    vector     vx = -16 or vy = -8                       (9)
    level      beyond the top or on an omitted pel       (10)
    damaged    one to four of these in one frame, so that the order counts
"""

import os
import random
import sys

sys.path.insert(0, os.path.dirname(os.path.abspath(__file__)))

from decoder import BENCH, Decoder, Raster, Record, TOPS, number_of

USABLE = ('plain', 'sbc', 'sblock', 'demand', 'cyclic', 'repeated',
          'background', 'vectors', 'held', 'edge', 'mix', 'parity')
DAMAGED = ('cut', 'header', 'head', 'both', 'word', 'vector', 'level',
           'damaged')


# -- packing ----------------------------------------------------------------

def pack_header(pt=0xFF, sbc=1, brc=1, buc=1, drm=1, crm=3, drr=1,
                bc=0, fc=0):
    fm1 = sbc << 7 | brc << 6 | buc << 5 | drm << 4 | 8
    fm2 = 0xA7 | drr << 6 | crm << 3
    return bytes((pt, fm1, bc, fm2, fc))


def pack_record(raster, q=0, ifm=1, frp=1, words=None, levels=None,
                tail=0xF, fill=0):
    """words: {block: (S, vx, vy)}; levels: {(line, pel): number}."""
    words = words or {}
    levels = levels or {}
    out = bytearray([q << 6 | ifm << 5 | frp << 4 | tail])
    spare = 8 * raster.word_bytes - 10 * raster.K
    bits = 0
    for b in range(2, raster.K + 2):
        s, vx, vy = words.get(b, (0, 0, 0))
        bits = bits << 10 | s << 9 | (vx & 31) << 4 | (vy & 15)
    out += (bits << spare | fill).to_bytes(raster.word_bytes, 'big')
    for line in range(1, 9):
        out += bytes(levels.get((line, pel), 0) & 0xFF
                     for pel in range(4, raster.w + 1))
    return bytes(out)


# -- usable frames ----------------------------------------------------------

class Maker:
    def __init__(self, rng, kind, raster):
        self.rng = rng
        self.kind = kind
        self.raster = raster
        self.decoder = Decoder(raster)
        # Scenes that come and go, so that a background is worth having.
        self.scenes = [self.scene() for _ in range(3)]

    def scene(self):
        rng, r = self.rng, self.raster
        swing = rng.choice((3, 20, 90))
        patch = {}
        return [[max(-124, min(123, patch.setdefault(
                     (row // 4, pel // 6), rng.randint(-swing, swing))
                     + rng.randint(-2, 2)))
                 for pel in range(r.w + 1)] for row in range(r.lines)]

    def has(self, mode, chance=0.4):
        """Whether a mode is used now: its own kind often, a mix sometimes."""
        if self.kind == mode:
            return self.rng.random() < 0.8
        if self.kind in ('mix', 'parity', 'edge'):
            return self.rng.random() < chance
        return False

    def frame(self):
        """One usable frame as [header, record, ...]."""
        rng, r, decoder = self.rng, self.raster, self.decoder
        pt = decoder.last_parity
        if rng.random() < (0.6 if self.kind == 'parity' else 0.1):
            pt = rng.randrange(256)
        self.sbc = 0 if self.has('sbc', 0.25) else 1
        self.drm = 0 if self.has('demand', 0.4) else 1
        header = pack_header(
            pt=pt, sbc=self.sbc, drm=self.drm,
            brc=0 if self.has('background', 0.2) and rng.random() < 0.4 else 1,
            buc=0 if self.has('background', 0.4) else 1,
            crm=rng.randrange(4), drr=rng.randrange(2),
            bc=rng.randrange(256), fc=rng.randrange(256))
        decoder.open(header)
        pieces = [header]
        for number in range(2 * r.n):
            record = self.record(number)
            decoder.block_line(record)
            pieces.append(record)
        decoder.finish()
        return pieces

    def record(self, number):
        rng, r = self.rng, self.raster
        q = rng.randrange(4)
        if self.has('repeated', 0.2):
            return pack_record(r, q, ifm=1, frp=0)
        forced = ((self.drm == 0 and self.has('demand', 0.6))
                  or (self.drm == 1 and self.has('cyclic', 0.3)))
        words = {b: self.word() for b in range(2, r.K + 2)}
        bare = pack_record(r, q, 0 if forced else 1, 1, words)
        modes = Record(r, self.decoder.header, bare)
        levels = self.levels(number, q, modes)
        return pack_record(r, q, 0 if forced else 1, 1, words, levels)

    def word(self):
        rng = self.rng
        s = 1 if self.sbc == 1 and self.has('sblock', 0.3) else 0
        vx = vy = 0
        if self.has('vectors', 0.5):
            how = rng.randrange(4)
            if how == 0 or self.kind == 'edge':
                vx, vy = rng.choice((-15, 15)), rng.choice((-7, 7))
            elif how == 1:
                vx, vy = rng.randint(-2, 2), rng.randint(-1, 1)
            else:
                vx, vy = rng.randint(-15, 15), rng.randint(-7, 7)
        return s, vx, vy

    def levels(self, number, q, modes):
        rng, r, decoder = self.rng, self.raster, self.decoder
        top = TOPS[q]
        shape = rng.choice(('none', 'few', 'small', 'dense', 'wild',
                            'scene', 'scene', 'scene'))
        if self.kind == 'held' and rng.random() < 0.7:
            shape = 'high'
        if self.kind == 'edge':
            shape = rng.choice(('few', 'scene', 'high', 'limit'))
        scene = rng.choice(self.scenes)
        sign = rng.choice((-1, 1))
        row0 = 7 + 8 * number + (6 if number >= r.n else 0)
        frame = decoder.origin + (decoder.frames - 1) * r.F
        levels = {}
        for line in range(1, 9):
            row = row0 + line - 1
            for pel in range(4, r.w + 1):
                if modes.omits(r, line, pel):
                    continue
                level = 0
                if shape == 'few':
                    if rng.random() < 0.03:
                        level = rng.randint(-top, top)
                elif shape == 'small':
                    if rng.random() < 0.3:
                        level = rng.randint(-3, 3)
                elif shape == 'dense':
                    level = rng.randint(-2, 2)
                elif shape == 'wild':
                    if rng.random() < 0.5:
                        level = rng.randint(-top, top)
                elif shape == 'high':
                    if rng.random() < 0.3:
                        level = sign * rng.randint(top - 3, top)
                elif shape == 'limit':
                    level = rng.choice((-top, 0, 0, top))
                elif shape == 'scene':
                    if line in modes.forced:
                        aim = scene[row][pel] - scene[row][pel - 1]
                    else:
                        aim = (scene[row][pel]
                               - decoder.Y[frame + row * r.w + pel - 1])
                    level = number_of(q, max(-255, min(255, aim)))
                if level:
                    levels[line, pel] = level
        return levels


# -- damage -----------------------------------------------------------------

def bit_off(rng, byte, mask):
    """Some of the masked bits turned over, at least one."""
    bits = [1 << k for k in range(8) if mask >> k & 1]
    for bit in rng.sample(bits, rng.randint(1, len(bits))):
        byte ^= bit
    return byte


def put_word(data, raster, b, word):
    """Writes the ten bits of a block's word."""
    size = 8 * raster.word_bytes
    bits = int.from_bytes(data[1:1 + raster.word_bytes], 'big')
    at = size - 10 * (b - 1)
    bits = bits & ~(0x3FF << at) | word << at
    data[1:1 + raster.word_bytes] = bits.to_bytes(raster.word_bytes, 'big')


def get_word(data, raster, b):
    bits = int.from_bytes(data[1:1 + raster.word_bytes], 'big')
    return bits >> (8 * raster.word_bytes - 10 * (b - 1)) & 0x3FF


def hurt(rng, raster, pieces, kind):
    """Puts one fault of this kind into the pieces of a frame."""
    header = pieces[0]
    record = rng.choice(pieces[1:])
    block = rng.randint(2, raster.K + 1)
    if kind == 'header':
        which = rng.choice(((1,), (3,), (1, 3)))
        for byte in which:
            mask = 0x0F if byte == 1 else 0xA7
            header[byte] = bit_off(rng, header[byte], mask)
    elif kind == 'head':
        record[0] = bit_off(rng, record[0] | 0x0F, 0x0F)
    elif kind == 'both':
        record[0] &= 0xCF
    elif kind == 'word':
        how = rng.randrange(4)
        if how == 0:                       # fill
            spare = 8 * raster.word_bytes - 10 * raster.K
            if spare:
                record[raster.word_bytes] |= rng.randrange(1, 1 << spare)
        elif how == 1:                     # a word in a repeated block-line
            record[0] = record[0] & 0xEF | 0x20
            for _ in range(rng.randint(1, 3)):
                put_word(record, raster, rng.randint(2, raster.K + 1),
                         rng.choice((1 << rng.randrange(10),
                                     rng.randrange(1, 1024))))
        else:                              # S in a subsampled frame
            header[1] &= 0x7F
            for _ in range(rng.randint(1, 3)):
                b = rng.randint(2, raster.K + 1)
                put_word(record, raster, b,
                         get_word(record, raster, b) | 0x200)
    elif kind == 'vector':
        record[0] |= 0x10
        for _ in range(rng.randint(1, 3)):
            b = rng.randint(2, raster.K + 1)
            word = get_word(record, raster, b)
            if rng.random() < 0.5:
                word = word & ~0x1F0 | 0x100
            else:
                word = word & ~0x00F | 0x008
            put_word(record, raster, b, word)
    elif kind == 'level':
        levels = 1 + raster.word_bytes
        across = raster.w - 3
        how = rng.randrange(4)
        if how == 0:                       # a level in a repeated block-line
            record[:] = pack_record(raster, record[0] >> 6, 1, 0)
            record[rng.randrange(levels, len(record))] = rng.choice((1, 0xFF))
        elif how == 1:                     # on a subsampled pel
            word = get_word(record, raster, block)
            if header[1] & 0x80:
                put_word(record, raster, block, word | 0x200)
            record[0] |= 0x10
            line = rng.randint(1, 8)
            pel = rng.choice([p for p in range(16 * block - 24, 16 * block - 8)
                              if (p + line) % 2 == 1])
            record[levels + (line - 1) * across + pel - 4] = \
                rng.choice((1, 0xFF, 0x80, 0x7F))
        else:                              # beyond the top
            top = TOPS[record[0] >> 6]
            for _ in range(rng.randint(1, 3)):
                wrong = rng.choice((top + 1, -top - 1, 127, -128,
                                    rng.randint(top + 1, 127),
                                    -rng.randint(top + 1, 128)))
                record[rng.randrange(levels, len(record))] = wrong & 0xFF


FAULTS = ('header', 'head', 'both', 'word', 'vector', 'level')


def stream(seed, count, kind, size=BENCH):
    """The bytes of a stream."""
    if kind not in USABLE and kind not in DAMAGED:
        raise ValueError(kind)
    rng = random.Random(f'{seed} {count} {kind}')
    raster = Raster(*size)
    usable = kind in USABLE
    maker = Maker(rng, kind if usable else 'mix', raster)
    frames = [[bytearray(piece) for piece in maker.frame()]
              for _ in range(count)]
    if usable or count == 0:
        return b''.join(piece for frame in frames for piece in frame)
    frame = frames[rng.randrange(count)]
    if kind == 'damaged':
        faults = FAULTS if rng.random() < 0.2 else FAULTS[1:]
        for fault in rng.sample(faults, rng.randint(1, 4)):
            hurt(rng, raster, frame, fault)
    elif kind != 'cut':
        hurt(rng, raster, frame, kind)
    data = b''.join(piece for frame in frames for piece in frame)
    if kind == 'cut' or kind == 'damaged' and rng.random() < 0.2:
        size = len(data) // count
        where = rng.randrange(count) * size
        how = rng.randrange(4)
        if how == 0:
            where += rng.randrange(1, 5)
        elif how == 1:                     # between the pieces, or next to it
            border = rng.randrange(2 * raster.n) * raster.record_bytes
            where += 5 + border + rng.choice((-1, 0, 1))
        else:
            where += rng.randrange(1, size)
        data = data[:where]
    return data


def main():
    if len(sys.argv) not in (4, 5, 8):
        sys.exit(__doc__)
    size = [int(a) for a in sys.argv[5:8]] or BENCH
    data = stream(int(sys.argv[1]), int(sys.argv[2]), sys.argv[3], size)
    if len(sys.argv) > 4 and sys.argv[4] != '-':
        with open(sys.argv[4], 'wb') as out:
            out.write(data)
    else:
        sys.stdout.buffer.write(data)


if __name__ == '__main__':
    main()
