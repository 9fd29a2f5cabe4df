"""The meeting of the program rooms, held by the second coder and decoder.

    python3 rooms.py

prints the lines that the program should print.  The script is written out here
once more: what each frame's header and records say, what befalls a record on
its way, and the pictures.
"""

from coder import Coder
from decoder import BENCH, Decoder, Raster, Refused

PLAIN, FORCED, REPEATED, COARSE = 0x3F, 0x1F, 0x2F, 0xFF
STRUCK = 10 + 2 * 116 + (60 - 4)          # the level of pel 60 in line 3

STILL = dict(fm1=0xF8, fm2=0xA7, heads=(PLAIN, PLAIN), thinned=False, vx=0,
             stop=False, accident=None, says='no vectors')
REFRESH = dict(STILL, fm1=0xE8, heads=(FORCED, FORCED), says='wholly refreshed')
MOVING = dict(STILL, vx=2, says='vectors follow the movement')

SCRIPT = (
    REFRESH,
    STILL,
    MOVING,
    dict(MOVING, fm1=0xD8, says='the background follows'),
    dict(MOVING, thinned=True, says='some blocks subsampled'),
    dict(MOVING, fm1=0x78, says='all blocks subsampled'),
    dict(MOVING, heads=(PLAIN, REPEATED), says='the second field repeated'),
    dict(MOVING, fm2=0xAF, heads=(FORCED, FORCED), says='lines 3 and 4 forced'),
    dict(MOVING, heads=(COARSE, COARSE), says='the coarsest characteristic'),
    dict(MOVING, stop=True, says='coding stopped'),
    dict(MOVING, accident='unusable', says='a record made unusable on its way'),
    MOVING,
    dict(MOVING, fm2=0xAF, heads=(FORCED, FORCED), accident='altered',
         says='a level of a forced line altered on its way'),
    dict(MOVING, says='planes betray it, vectors carry it on'),
    dict(MOVING, says='and on'),
    REFRESH,
    dict(MOVING, says='both rooms agree again'),
    MOVING,
)


def front(scene, field):
    """Head and words of a block-line, ten bits a word."""
    head = scene['heads'][field]
    bits = ''
    for block in range(7):
        s = scene['thinned'] and block % 3 == 0
        word = (s << 9) | (scene['vx'] << 4)
        bits += format(0 if head == REPEATED else word, '010b')
    bits = bits.ljust(72, '0')
    return bytes([head]) + bytes(int(bits[i:i + 8], 2) for i in range(0, 72, 8))


def picture(number, field):
    """Stripes with lighter patches, two pels further right in each frame."""
    pels = bytearray()
    for row in range(8 * field, 8 * field + 8):
        for column in range(119):
            x = column + 2 * (255 - number)
            pel = (5 * x + 3 * row) % 120 - 60
            if (x // 16 + row // 4) % 3 == 0:
                pel += 50
            pels.append(pel & 0xFF)
    return bytes(pels)


def struck(record, accident):
    record = bytearray(record)
    if accident == 'unusable':
        record[STRUCK] = 100
    elif accident == 'altered':
        record[STRUCK] = 2 if record[STRUCK] == 5 else 5
    return bytes(record)


def newest(decoder):
    """The picture that a decoder holds."""
    F = decoder.raster.F
    end = decoder.origin + decoder.frames * F
    return decoder.Y[end - F:end]


def lines():
    raster = Raster(*BENCH)
    coder, decoder = Coder(raster), Decoder(raster)
    for number, scene in enumerate(SCRIPT, 1):
        header = bytearray(5)
        coder.open(scene['fm1'], 0, scene['fm2'], 0, header)
        planes = decoder.open(bytes(header))
        for field in range(2):
            record = bytearray(raster.record_bytes)
            coder.block_line(front(scene, field), scene['stop'],
                             picture(number, field), record)
            try:
                decoder.block_line(struck(record, scene['accident'] if field == 0 else None))
            except Refused as refused:
                yield f'REFUSED {refused.number} {refused.place}, and sent again'
                decoder.block_line(bytes(record))
        sent = coder.finish()
        found, held = decoder.finish()
        differ = sum(a != b for a, b in zip(newest(coder.past), newest(decoder)))
        yield (f'FRAME {number} CODER {sent:02X} DECODER {found:02X} '
               f'PLANES {planes:02X} HELD {held} DIFFER {differ}: {scene["says"]}')


if __name__ == '__main__':
    for text in lines():
        print(text)
