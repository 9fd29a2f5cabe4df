"""Bench frames from standard input, one line a frame, as framelog prints.

    python3 framelog.py [COLOUR LUMINANCE N] < STREAM

With three numbers it reads frames of that raster instead.
"""

import os
import sys

sys.path.insert(0, os.path.dirname(os.path.abspath(__file__)))

from decoder import BENCH, Decoder, Raster, Refused

MOST = 1000


def lines(data, size=BENCH):
    """The lines printed for these input bytes, one after another."""
    decoder = Decoder(Raster(*size))
    at = 0

    def piece(length):
        # A piece that the input does not fill is handed on as far as it goes;
        # the decoder refuses its length.
        nonlocal at
        given = data[at:at + length]
        at += len(given)
        return given

    for number in range(1, MOST + 1):
        if at == len(data):
            return
        try:
            planes = decoder.open(piece(5))
            for _ in range(2 * decoder.raster.n):
                decoder.block_line(piece(decoder.raster.record_bytes))
            parity, held = decoder.finish()
        except Refused as refusal:
            yield f'REFUSED {refusal.number} {refusal.place}'
            return
        yield (f'FRAME {number} PARITY {parity:02X} '
               f'PLANES {planes:02X} HELD {held}')


def main():
    size = [int(a) for a in sys.argv[1:4]] or BENCH
    for line in lines(sys.stdin.buffer.read(), size):
        print(line)


if __name__ == '__main__':
    main()
