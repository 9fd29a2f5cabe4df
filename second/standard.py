"""The six standard-raster frames of speed/plain_coder.c, coded by the second coder.

    python3 standard.py [COUNT]

prints for the first COUNT of them (six unless said) what plain_coder prints on
standard output.  How the frames are made is told at the head of plain_coder.c.
"""

import os
import sys

sys.path.insert(0, os.path.dirname(os.path.abspath(__file__)))

from coder import Coder, code
from decoder import Raster
from streams import pack_record

STANDARD = (4, 24, 32)
FM1 = (0xE8, 0x98, 0xD8, 0xB8, 0xC8, 0x58)
FM2 = (0xFF, 0xE7, 0xEF, 0xF7, 0xBF, 0xEF)


def noise():
    x = 12345
    while True:
        x = (x * 1103515245 + 12345) % 2 ** 31
        yield x // 65536 % 7 - 3


def pel(f, row, p, grain):
    base = ((p + 3 * f) * 5 + (row + 2 * f) * 3) % 201 - 100
    if abs(p - (100 + 20 * f)) <= 30 and abs(row - 256) <= 60:
        half = abs(base) // 2
        base = 90 - (half if base > 0 else -half)
    return max(-128, min(127, base + grain))


def front(raster, f, j):
    words = {}
    for b in range(2, raster.K + 2):
        s = int(f in (1, 2, 4) and (b + j) % 3 == 0)
        moves = f in (2, 4, 5)
        words[b] = (s, (3 * b + j) % 7 - 3 if moves else 0,
                    (b + f) % 5 - 2 if moves else 0)
    record = pack_record(raster, (f + j) % 4,
                         0 if f == 0 or j % 16 == 5 else 1,
                         0 if f == 3 and j % 8 == 3 else 1, words)
    return record[:1 + raster.word_bytes]


def frames(raster, count=6):
    grain = noise()
    for f in range(count):
        block_lines = []
        for j in range(2 * raster.n):
            picture = bytes(pel(f, 8 * j + l, p, next(grain)) & 0xFF
                            for l in range(8) for p in range(1, raster.w + 1))
            block_lines.append((0, front(raster, f, j), picture))
        yield (FM1[f], 0, FM2[f], 0), block_lines


def fnv(data):
    """32-bit FNV-1a."""
    total = 2166136261
    for byte in data:
        total = (total ^ byte) * 16777619 % 2 ** 32
    return total


def main():
    count = int(sys.argv[1]) if len(sys.argv) > 1 else 6
    raster = Raster(*STANDARD)
    coder = Coder(raster)
    for number, frame in enumerate(frames(raster, count), 1):
        data = b''.join(code(coder, frame))
        print(f'FRAME {number} PARITY {coder.parity:02X} SUM {fnv(data):08X}',
              flush=True)


if __name__ == '__main__':
    main()
