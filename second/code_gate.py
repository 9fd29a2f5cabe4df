"""What the gate gives to the program framecode, and the frames expected of it.

    python3 code_gate.py FOLDER

writes FOLDER/stdin and FOLDER/stdout.  All frames are one input, so each kind
of picture finds the memories as the kind before it left them.  The frames in
stdout are the second coder's; none comes from the program that is tested.
"""

import os
import sys

sys.path.insert(0, os.path.dirname(os.path.abspath(__file__)))

import framecode
import pictures
from coder import Coder
from decoder import BENCH, Raster

SEED = 401
FRAMES = 4


def given():
    return b''.join(pictures.inputs(SEED, FRAMES, kind)
                    for kind in pictures.USABLE)


def main():
    if len(sys.argv) != 2:
        sys.exit(__doc__)
    data = given()
    coder = Coder(Raster(*BENCH))
    frames, refusal = framecode.coded(data, coder=coder)
    if refusal or len(frames) != FRAMES * len(pictures.USABLE):
        sys.exit('the second coder refuses what should be usable')
    with open(os.path.join(sys.argv[1], 'stdin'), 'wb') as out:
        out.write(data)
    with open(os.path.join(sys.argv[1], 'stdout'), 'wb') as out:
        out.write(b''.join(frames))
    print(f'{len(frames)} frames, {coder.coded} coded pels, seed {SEED}; '
          + ', '.join(f'{count} {why}' for why, count in coder.used.items()))


if __name__ == '__main__':
    main()
