"""What the gate replays: the input of the program replay and the lines expected of it.

    python3 gate.py FOLDER

writes FOLDER/stdin and FOLDER/stdout.  Each stream comes after its raster in
three bytes and its length in four.  The lines of the small streams are those
worked by hand in worked.py, the lines of the others are the second decoder's;
none comes from the program that is tested.  The last streams are pictures as
the second coder sends them.
"""

import os
import sys

sys.path.insert(0, os.path.dirname(os.path.abspath(__file__)))

import framelog
import pictures
import streams
import worked
from coder import Coder, code
from decoder import BENCH, Raster

# Rasters with several block-lines in a field, so that block-lines touch.
OTHERS = ((1, 1, 2), (2, 3, 3), (4, 1, 2))
# No raster has these counts.
OUTSIDE = ((0, 6, 1), (5, 6, 1), (1, 0, 1), (1, 25, 1), (1, 6, 0), (1, 6, 33))

USABLE_SEEDS = (101, 102)
USABLE_FRAMES = 10
DAMAGED_SEEDS = range(201, 214)
DAMAGED_FRAMES = 2
OTHER_SEED = 301
OTHER_FRAMES = 3
CODED_SEED = 351
CODED_KINDS = ('plain', 'extremes', 'cuts', 'vectors', 'stop', 'mix')
CODED_OTHER_KINDS = ('sblock', 'mix')
CODED_FRAMES = 6


def coded(kind, count, size):
    """A stream of the second coder's, over random pictures."""
    coder = Coder(Raster(*size))
    return b''.join(piece
                    for frame in pictures.frames(CODED_SEED, count, kind, size)
                    for piece in code(coder, frame))


def chosen():
    """(raster, bytes, lines) of every stream, in order."""
    for _, _, data, lines, _ in worked.CASES:
        yield BENCH, data, lines
    for size in OUTSIDE:
        yield size, b'', ['REFUSED 1 0']
    for kind in streams.USABLE:
        for seed in USABLE_SEEDS:
            data = streams.stream(seed, USABLE_FRAMES, kind)
            yield BENCH, data, list(framelog.lines(data))
        for size in OTHERS:
            data = streams.stream(OTHER_SEED, OTHER_FRAMES, kind, size)
            yield size, data, list(framelog.lines(data, size))
    for kind in streams.DAMAGED:
        for seed in DAMAGED_SEEDS:
            data = streams.stream(seed, DAMAGED_FRAMES, kind)
            yield BENCH, data, list(framelog.lines(data))
    for kind in CODED_KINDS:
        data = coded(kind, CODED_FRAMES, BENCH)
        yield BENCH, data, list(framelog.lines(data))
    for size in OTHERS:
        for kind in CODED_OTHER_KINDS:
            data = coded(kind, OTHER_FRAMES, size)
            yield size, data, list(framelog.lines(data, size))


def main():
    if len(sys.argv) != 2:
        sys.exit(__doc__)
    count = frames = refused = 0
    with open(os.path.join(sys.argv[1], 'stdin'), 'wb') as given, \
            open(os.path.join(sys.argv[1], 'stdout'), 'w') as wanted:
        for size, data, lines in chosen():
            count += 1
            frames += sum(text.startswith('FRAME') for text in lines)
            refused += sum(text.startswith('REFUSED') for text in lines)
            given.write(bytes(size) + len(data).to_bytes(4, 'big') + data)
            wanted.write(f'STREAM {count}\n' + ''.join(text + '\n' for text in lines))
    print(f'{count} streams, {frames} frames, {refused} refusals; seeds '
          f'{list(USABLE_SEEDS)}, {OTHER_SEED}, {DAMAGED_SEEDS[0]} to {DAMAGED_SEEDS[-1]}, '
          f'coded {CODED_SEED}')


if __name__ == '__main__':
    main()
