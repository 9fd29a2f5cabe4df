"""Codes bench frames from standard input, as framecode does.

    python3 framecode.py [COLOUR LUMINANCE N] < INPUT > FRAMES

With three numbers it takes and writes frames of that raster instead.  A frame
of the input is FM1, BC, FM2, FC, and for each block-line a byte Stop (0 or 1),
head and words, and the picture, 8 lines of w pels.  The frames go out as
framelog reads them.  A refusal ends the output after the frames before it, and
is told on standard error.
"""

import os
import sys

sys.path.insert(0, os.path.dirname(os.path.abspath(__file__)))

from coder import Coder, code
from decoder import BENCH, Raster, Refused


def pieces(raster, data):
    """The frames of an input, as far as it goes; a piece that is cut short is
    refused."""
    at = 0

    def piece(length):
        nonlocal at
        given = data[at:at + length]
        at += len(given)
        if len(given) != length:
            raise Refused(4, len(given))
        return given

    front = 1 + raster.word_bytes
    while at < len(data):
        modes = piece(4)

        def block_lines():
            for _ in range(2 * raster.n):
                whole = piece(1 + front + 8 * raster.w)
                yield whole[0] != 0, whole[1:1 + front], whole[1 + front:]

        yield modes, block_lines()


def coded(data, size=BENCH, coder=None):
    """The frames that go out, and the refusal that ended them or None."""
    coder = coder or Coder(Raster(*size))
    frames = []
    try:
        for frame in pieces(coder.raster, data):
            frames.append(b''.join(code(coder, frame)))
    except Refused as refusal:
        return frames, refusal
    return frames, None


def main():
    size = [int(a) for a in sys.argv[1:4]] or BENCH
    frames, refusal = coded(sys.stdin.buffer.read(), size)
    sys.stdout.buffer.write(b''.join(frames))
    sys.stdout.flush()
    if refusal:
        print(f'REFUSED {refusal.number} {refusal.place}', file=sys.stderr)


if __name__ == '__main__':
    main()
