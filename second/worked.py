"""Streams small enough to be worked by hand, with the lines worked by hand.

    python3 worked.py

writes the ones for the gate into cases/, the lines there being what the second
decoder says; test_second.py holds the decoder to the lines worked here.

The bench raster: a line has 119 pels, 1 to 3 clamped, 4 to 7 the rest of the
burst, 8 to 23 colour (block 2), 24 to 119 luminance (blocks 3 to 8, block 4
being pels 40 to 55).  A frame has 7 reset lines, the 8 lines of block-line 1,
6 reset lines and the 8 lines of block-line 2.  (line, pel) below is a line of
the block-line in question.  With characteristic 0, numbers 1, 2, 3, 4 have the
values 1, 2, 3, 5, and 28 has 127.

The parity is FF with the exclusive or of all counted pels taken off, so only
that exclusive or ("sum" below) has to be found.  In a first frame nothing is
remembered: all predictions are 0, unless intraframe prediction sets in.
Intraframe prediction needs a 1 in R2 above as well, and above the first line
of a block-line there is a reset line, so on line 1 it never sets in.
"""

import os
import sys

sys.path.insert(0, os.path.dirname(os.path.abspath(__file__)))

import framelog
from decoder import BENCH, Raster
from streams import pack_header, pack_record

RASTER = Raster(*BENCH)
CASES = []


def rec(levels=None, **how):
    return pack_record(RASTER, levels=levels, **how)


def frame(first=None, second=None, **how):
    return (pack_header(**how) + (rec() if first is None else first)
            + (rec() if second is None else second))


def line(number, parity, planes=0, held=0):
    return f'FRAME {number} PARITY {parity:02X} PLANES {planes:02X} HELD {held}'


def refused(number, place):
    return f'REFUSED {number} {place}'


def case(name, about, data, *lines, gate=False):
    CASES.append((name, about, data, list(lines), gate))


# -- plain ------------------------------------------------------------------

case('empty', 'no input, no line', b'')

# The input given as an example: nothing in it, every plane even.
case('zeros', 'one frame of nothing',
     bytes.fromhex('FFF800FF00') + (b'\x3F' + bytes(937)) * 2,
     line(1, 0xFF), gate=True)

# Pel 4 is burst: it is predicted by the pel a frame before, 0, and becomes 1.
# Pel 5 is burst too and does not look at pel 4.  Pel 8 is the first that
# could, through pel 7, and R2 of pel 7 is 0.  The lone 1 makes plane 0 odd.
# Frame 2 has no level and keeps the 1.  Frame 3 takes it away.
# PT: frame 2 brings FE as it should, frame 3 brings FF where FE is due, and
# names plane 0; frame 4 brings 7E where FF is due.
case('burst', 'one burst pel, kept and taken away, PT right and wrong',
     frame(rec({(1, 4): 1})) + frame(pt=0xFE)
     + frame(rec({(1, 4): -1}), pt=0xFF) + frame(pt=0x7E),
     line(1, 0xFE), line(2, 0xFE), line(3, 0xFF, 0x01), line(4, 0xFF, 0x81),
     gate=True)

# -- held pels --------------------------------------------------------------

# (1,40): 127, then 127 + 127 = 254 held to 127.  (1,60): -127, then -254 held
# to -128.  Bytes: 7F and 81, sum FE; then 7F and 80, sum FF.
# (1,80): -127 and then -127 - 1 = -128 exactly, which is not held: byte 81
# first, then 80.  Frame 1: FE ^ 81 = 7F, parity 80.  Frame 2: FF ^ 80 = 7F,
# parity 80.  The neighbours to the right are predicted 0 (line 1).
case('held', 'two large levels on one pel in two frames; -128 itself not held',
     frame(rec({(1, 40): 28, (1, 60): -28, (1, 80): -28}))
     + frame(rec({(1, 40): 28, (1, 60): -28, (1, 80): -1}), pt=0x80),
     line(1, 0x80), line(2, 0x80, 0, 2), gate=True)

# -- subsampling ------------------------------------------------------------

# A subsampled frame, 1 on (3,41), coded since both are odd.  Left out around
# it: (3,40) and (3,42), whose one side neighbour is 1: mean(0,1) = 1, above
# and below 0: mean(1,0) = 1.  (2,41) and (4,41) have it below and above, in
# the same way 1.  Five ones: sum 1.
case('sub-one', 'subsampled luminance, 1 makes four ones around it',
     frame(rec({(3, 41): 1}), sbc=0), line(1, 0xFE))

# 5 on (3,41) of block-line 1 and -5 on (3,41) of block-line 2.  mean(0,5) = 3
# and mean(3,0) = 2: four 2 and a 5, sum 5.  mean(0,-5) = -2 (half of -4) and
# mean(-2,0) is half of -1, rounded down to -1: four -1 and a -5 (FB), sum FB.
# 5 ^ FB = FE, parity 01.
case('sub-signs', 'subsampled luminance, means above and below zero',
     frame(rec({(3, 41): 4}), rec({(3, 41): -4}), sbc=0), line(1, 0x01))

# 2 on (8,40), the last line: left out are (8,39), (8,41) and (7,40), each
# mean(mean(0,2) = 1, 0) = 1 or mean(0, mean(0,2) = 1) = 1.  Below is a reset
# line, where nothing enters.  Three 1 and a 2: sum 3.
# Block-line 2 has -5 on (8,40), where the frame ends: mean(0,-5) = -2 and
# mean(-2,0) is half of -1, rounded down to -1: three -1 and a -5 (FB): sum 4.
# It also has 2 on (3,119), the last pel: left out are (3,118), (2,119),
# (4,119), each 1; to the right comes pel 1 of the next line, clamped: sum 3.
# All three: 3 ^ 4 ^ 3 = 4, parity FB.
case('sub-edges', 'subsampled luminance at the last lines and the last pel',
     frame(rec({(8, 40): 2}), rec({(3, 119): 2, (8, 40): -4}), sbc=0),
     line(1, 0xFB), gate=True)

# Colour looks only left and right.  5 on (1,23), the last colour pel.
# (1,22) colour: mean(0,5) = 3.  (1,24) luminance: mean(mean(5,0) = 3, 0) = 2.
# (2,23) colour: above does not count, 0.  Sum 5 ^ 3 ^ 2 = 4.
# 1 on (2,8) in block-line 2, even and even, the first colour pel.  Pel 7 is
# burst and never left out; (2,9) is mean(1,0) = 1.  Sum 0.  Together 4.
case('sub-colour', 'subsampled colour and its two borders',
     frame(rec({(1, 23): 4}), rec({(2, 8): 1}), sbc=0), line(1, 0xFB),
     gate=True)

# S in block 4 (pels 40 to 55) alone.  2 on (1,55), its last pel: (1,54) is
# left out, mean(mean(0,2) = 1, 0) = 1; (2,55) left out, 1; (1,56) belongs to
# block 5, is coded and 0.  Sum 2 ^ 1 ^ 1 = 2.
# 2 on (1,39) of block 3, coded: (1,40) in block 4 is left out, left 2: 1.
# (2,39) is in block 3 and coded, 0.  Sum 2 ^ 1 = 3.  Together 1.
# Frame 2 has no S and no level: every pel keeps what it had.  Is that so?
# M is what was there a frame before, and S2 would need two 1 in R2; the first
# R2 to become 1 needs I nearer than M, and Y equals M.  So again 1.
case('sub-block', 'one subsampled block, its borders, kept in a full frame',
     frame(rec({(1, 55): 2, (1, 39): 2}, words={4: (1, 0, 0)}))
     + frame(pt=0xFE),
     line(1, 0xFE), line(2, 0xFE), gate=True)

# -- forced lines -----------------------------------------------------------

# All 8 lines forced: a level is carried to the end of its line and no
# further.  1 on (1,5): pels 5 to 119, 115 ones, sum 1.  2 on (8,118): two
# pels, sum 0.  Block-line 2: 1 on (2,4): 116 ones, sum 0.  Parity FE.
# Frame 2: nothing forced, no level: everything stays, FE.  Y equals M.
case('forced', 'demand refresh: a level is carried along its line',
     frame(rec({(1, 5): 1, (8, 118): 2}, ifm=0), rec({(2, 4): 1}, ifm=0),
           drm=0) + frame(pt=0xFE),
     line(1, 0xFE), line(2, 0xFE), gate=True)

# DRM 0 but IFM 1: not forced; CRM does not matter.  1 on (1,118) stays alone:
# sum 1.  Carried to 119 it would come out even.
case('demand-only', 'demand refresh without IFM forces nothing',
     frame(rec({(1, 118): 1}), drm=0, crm=0), line(1, 0xFE))

# Lines 1 and 2 forced (CRM 00), so R2 is 1 on all of line 2.  Line 3 is not
# forced.  1 on (3,29): predicted 0, Y = 1, I = 0, X1 = 0, equal: R2 is 0.
# 1 on (3,30): R2 of pel 29 is 0, so predicted 0 and Y = 1; now I = 1 is
# nearer than X1 = 0: R2 is 1.  Pel 31: R2 before and above are both 1, so it
# is predicted by I = 1, Y = 1, R2 is 1, and so on to the end of the line.
# Pels 29 to 119 are 91 ones: sum 1.  Line 4: R2 above is 1, but before it
# is 0 everywhere since Y = I = X1 = 0.
# Block-line 2 has CRM 00 as well: 1 on (1,118) is carried to 119, sum 0;
# 2 on (3,118) is not, sum 2.  Pel 119 of line 3: R2 of (3,118) is 0.
# Together 3, parity FC.
case('cyclic', 'two forced lines, then intraframe prediction sets in below',
     frame(rec({(3, 29): 1, (3, 30): 1}, ifm=0),
           rec({(1, 118): 1, (3, 118): 2}, ifm=0), drm=1, crm=0),
     line(1, 0xFC), gate=True)

# CRM 11 forces lines 7 and 8, 10 lines 5 and 6, 01 lines 3 and 4.  1 on pel
# 118 of the forced line is carried (sum 0), 2 on pel 118 of the line before
# the pair is not (sum 2), nor on a line after it: there R2 of pel 117 is 0.
case('cyclic-pairs', 'which two lines each CRM forces',
     frame(rec({(6, 118): 2, (7, 118): 1, (8, 118): 1}, ifm=0), crm=3)
     + frame(rec({(6, 118): 1, (5, 118): 1, (7, 118): 1}, ifm=0), crm=2,
             pt=0xFD)
     + frame(rec({(4, 118): 1, (3, 118): 1, (2, 118): 1}, ifm=0), crm=1,
             pt=0xFF ^ 2 ^ 1),
     # Frame 1: 2.
     line(1, 0xFD),
     # Frame 2: (6,118): forced, predicted by I = 0: 1 twice where 2 was
     # (sum 0); (5,118): 1 twice (0); (7,118) not forced any more: M = 1,
     # R2 of (7,117) is 0 (Y = I = X1 = 0), so 1 + 1 = 2; (7,119): M = 1, and
     # S2 asks R2 of (7,118): Y = 2, I = 0, X1 = 1: 2 >= 1, so 0; stays 1.
     # (8,118) and (8,119): M = 1 each, R2 of (8,117) is 0, then R2 of
     # (8,118): |1 - 0| >= |1 - 1|, 0; stay 1, 1 (0).  Sum 2 ^ 1 = 3.
     line(2, 0xFC),
     # Frame 3: (3,118), (4,118) carried (0, 0).  (2,118) 1 alone: 1.
     # (5,118), (5,119) keep 1, 1: R2 of (5,117) is 0, and R2 of (5,118) is 0
     # as Y = X1.  (6,.) and (7,.), (8,.) in the same way keep 1, 1 and 2, 1
     # and 1, 1.  Sum 1 ^ 3 = 2.
     line(3, 0xFD), gate=True)

# Both at once: subsampled, lines 1 and 2 forced.  On line 3 the odd pels are
# coded.  2 on (3,29): Y = 2, I = X of 27 = 0 as X1: R2 0.  2 on (3,31): I = X
# of 29 = 2 is nearer than X1 = 0: R2 1.  (3,33): the pel before is left out,
# so R2 of 31 is asked: 1.  The pel above, (2,33), is left out, so (2,32) and
# (2,34) are asked: forced, 1 and 1.  Predicted by I = 2.  So on to 117.  Pel
# 119: above it (2,119) is left out, (2,118) has 1, but the delay of a line
# less one is pel 1 of this very line, clamped, 0: predicted by X1 = 0.
# Coded: 29, 31, ..., 117 are 2: 45 of them, plane 1 odd.  Left out on line 3:
# 28 to 118 even, each mean(1 or 2, 0) = 1: 46.  Left out on lines 2 and 4: 29
# to 117 odd have a 2 below or above: mean(0, mean(0,2) = 1) = 1: 45 each.
# Ones: 46 + 90 = 136, plane 0 even.  Sum 2.
case('cyclic-sub', 'forced lines in a subsampled frame, S2 past the gaps',
     frame(rec({(3, 29): 2, (3, 31): 2}, ifm=0), sbc=0, crm=0),
     line(1, 0xFD), gate=True)

# A forced and subsampled block-line: I is X two pels back.  2 on (1,115):
# 115, 117, 119 are 2.  Left out on line 1: 114: mean(mean(0,2) = 1, 0) = 1;
# 116, 118: mean(mean(2,2) = 2, 0) = 1.  Line 2: coded pels 0; (2,115),
# (2,117), (2,119) left out: mean(0, mean(2,0) = 1) = 1.  Sum: 2 and 1 ^ 1 ^ 1
# ^ 1 ^ 1 ^ 1 = 0: 2.
case('forced-sub', 'forced and subsampled together',
     frame(rec({(1, 115): 2}, ifm=0), sbc=0, drm=0), line(1, 0xFD))

# -- repeated block-lines ---------------------------------------------------

# Second field repeated.  Near is the same line of the first field, far the
# line above it.  3 on (1,40): line 1 near 3, far 0: mean 2; line 2 near 0,
# far 3: 2.  3, 2, 2: sum 3.  3 on (7,60): lines 7 and 8 in the same way: sum
# 3.  3 on (8,80): line 8: 2, there is no line 9: sum 3 ^ 2 = 1.  Colour 1 on
# (8,10): near alone, one more 1: sum 0.  Burst 5 on (8,6): near alone, one
# more 5: sum 0.  (With far these two would fall off the end.)  Together 1.
# Frame 2, the same again with no levels: field 1 stays, field 2 is repeated
# from it: 1.
case('repeat-2', 'second field repeated',
     frame(rec({(1, 40): 3, (7, 60): 3, (8, 80): 3, (8, 10): 1, (8, 6): 4}),
           rec(frp=0))
     + frame(rec(), rec(frp=0), pt=0xFE),
     line(1, 0xFE), line(2, 0xFE), gate=True)

# First field repeated in frame 2.  Far is the same line of the second field
# of frame 1, near the line below it.  Frame 1: block-line 2 has 3 on (2,40),
# 3 on (1,60), 3 on (8,80), 1 on (1,12), 5 on (1,5): sum 3 ^ 1 ^ 5 = 7.
# Frame 2, block-line 1: (2,40): far 3, near 0: 2; (1,40): near 3: 2; sum 0.
# (1,60): 2; there is no line 0; sum 2.  (8,80): far 3, near a reset line of
# this frame: 2; (7,80): near 3: 2; sum 0.  Colour (1,12): far alone: 1.
# Burst (1,5): far alone: 5.  (With near these two would fall off the top.)
# Block-line 2 stays: 7.  Together 2 ^ 1 ^ 5 ^ 7 = 1.
case('repeat-1', 'first field repeated from the frame before',
     frame(rec(), rec({(2, 40): 3, (1, 60): 3, (8, 80): 3, (1, 12): 1,
                       (1, 5): 4}))
     + frame(rec(frp=0), rec(), pt=0xF8),
     line(1, 0xF8), line(2, 0xFE), gate=True)

# Subsampling by frame does not touch a repeated block-line: with SBC 0 and 3
# on (3,41) the first field has 3 and around it mean(mean(0,3) = 2, 0) = 1
# four times: (2,41), (3,40), (3,42), (4,41).  Second field, near and far:
# (2,41): mean(1,0) = 1.  (3,40), (3,42): mean(1,0) = 1 each.  (3,41):
# mean(3,1) = 2.  (4,41): mean(1,3) = 2.  (4,40), (4,42): mean(0,1) = 1 each.
# (5,41): mean(0,1) = 1.  First field sum 3, second 1 ^ (2 ^ 2) ^ 1: ones are
# (2,41), (3,40), (3,42), (4,40), (4,42), (5,41), six, 0.  Together 3.
case('repeat-sub', 'a repeated block-line in a subsampled frame',
     frame(rec({(3, 41): 3}), rec(frp=0), sbc=0), line(1, 0xFC))

# -- vectors ----------------------------------------------------------------

# 5 on (4,50) in block 4.  Frame 2: vector (2, 1) in block 4: a longer delay,
# so (5,52) finds it, and (4,50) itself finds (3,48), 0.  Sum 5.  Frame 3:
# vector (-6, -3): (2,46) finds it.  Sum 5.  Frame 4: vector (12, 0): it would
# come to (2,58), which is in block 5; block 5 stands still.  Gone: sum 0.
case('vector', 'one pel moved down right, up left, and out of its block',
     frame(rec({(4, 50): 4}))
     + frame(rec(words={4: (0, 2, 1)}), pt=0xFA)
     + frame(rec(words={4: (0, -6, -3)}), pt=0xFA)
     + frame(rec(words={4: (0, 12, 0)}), pt=0xFA),
     line(1, 0xFA), line(2, 0xFA), line(3, 0xFA), line(4, 0xFF), gate=True)

# 5 on (8,112) of block-line 2, the last line of frame 1; frame 2 keeps it.
# Frame 3, block-line 1, block 2, vector (15, 7): pel 8 of line 1 looks a
# frame, 7 lines and 15 pels back: line 1 is the eighth line of the frame, so
# this is the first line of frame 2, 15 pels before pel 8, which is pel 112 of
# the last line of frame 1: 5.  (1,8) becomes 5, block-line 2 keeps its 5:
# sum 0.
case('reach-above', 'the longest vector reaches into the frame before last',
     frame(None, rec({(8, 112): 4})) + frame(pt=0xFA)
     + frame(rec(words={2: (0, 15, 7)}), pt=0xFA),
     line(1, 0xFA), line(2, 0xFA), line(3, 0xFF), gate=True)

# The shortest delay: 5 on (1,15) of block-line 1.  Block-line 2, block 8,
# vector (-15, -7): pel 119 of line 8 looks at 15 pels after it in the line 7
# lines on, counted in the frame before: 7 lines below the last line is the
# last reset line of this frame, and 15 pels after its pel 119 stands pel 15
# of line 1 of block-line 1 of this frame: 5.  Sum 0.
case('reach-now', 'the shortest delay reaches into the frame in work',
     frame(rec({(1, 15): 4}), rec(words={8: (0, -15, -7)})),
     line(1, 0xFF), gate=True)

# A burst pel takes no vector, and a block's vector leaves its neighbours: 1
# on (4,7), frame 2 has vector (1, 0) in block 2: (4,8) finds (4,7): 1.
# (4,7) keeps its 1: sum 0.
case('vector-burst', 'a vector that fetches a burst pel',
     frame(rec({(4, 7): 1})) + frame(rec(words={2: (0, 1, 0)}), pt=0xFE),
     line(1, 0xFE), line(2, 0xFF))

# -- background -------------------------------------------------------------

# Frame 1, BRC 0: line 1 has 1 on 40 and 41, 60 and 62, 80 and 81, and 100;
# line 2 has 1 on 41, 2 on 61, 16 on 80, 64 on 100 (numbers 1, 2, 8, 19); the
# background takes all of them.  On line 2 each stands alone, R2 before it is
# 0, so each is predicted 0.  Sum: seven 1, and 1 ^ 2 ^ 10h ^ 40h: 52h.
# Frame 2 takes them away.  Y = 0 while M = B: R1 is 0 everywhere.  On line 2
# again R2 before each is 0, so each is predicted by M.  Sum 0.
# Frame 3: line 1 has its seven 1 again: M = 0, B = 1, Y = 1: R1 is 1 there.
# Line 2 has no level.  (2,41): R1 at (1,40), (1,41): two, S1 is 1, predicted
# by B: 1.  (2,61): R1 at (1,60), (1,62): two, B: 2.  (2,80): R1 at (1,80),
# (1,81): two, B: 16.  (2,100): R1 at (1,100) alone: M, 0.  The pels beside
# them have B = M = 0.  S2: R2 before each is 0.  R2 of each itself is 0 as Y
# is X1.  Sum: seven 1, and 1 ^ 2 ^ 10h: 12h.
case('background', 'background revised, the picture cleared, S1 brings it back',
     frame(rec({(1, 40): 1, (1, 41): 1, (2, 41): 1,
                (1, 60): 1, (1, 62): 1, (2, 61): 2,
                (1, 80): 1, (1, 81): 1, (2, 80): 8,
                (1, 100): 1, (2, 100): 19}), brc=0)
     + frame(rec({(1, 40): -1, (1, 41): -1, (2, 41): -1,
                  (1, 60): -1, (1, 62): -1, (2, 61): -2,
                  (1, 80): -1, (1, 81): -1, (2, 80): -8,
                  (1, 100): -1, (2, 100): -19}), pt=0xAD)
     + frame(rec({(1, 40): 1, (1, 41): 1, (1, 60): 1, (1, 62): 1,
                  (1, 80): 1, (1, 81): 1, (1, 100): 1})),
     line(1, 0xAD), line(2, 0xFF), line(3, 0xED), gate=True)

# Frame 1: line 1 has 1 on 40, 41, 60, 61, 80, 81; line 2 has 5 on 41.  Sum 5.
# Frame 2, BUC 0: (2,61) goes from 0 to -1, (2,81) from 0 to 2, all else is
# kept.  The background of the six on line 1 moves from 0 to 1.  (2,41) is
# still: it moves from 0 towards 5, to 1.  (2,61) is 1 away from before: it
# moves to -1.  (2,81) is 2 away: it stays 0.  Sum 5 ^ FFh ^ 2 = F8h.
# Frame 3 takes all away; Y = 0 and M = B on line 1: R1 0.  Sum 0.
# Frame 4: the six 1 are back, R1 is 1 on them, and S1 on (2,41), (2,61) and
# (2,81): they become their B: 1, -1, 0.  Sum 1 ^ FFh = FEh.
case('update', 'background update moves one level where the picture is still',
     frame(rec({(1, 40): 1, (1, 41): 1, (2, 41): 4,
                (1, 60): 1, (1, 61): 1, (1, 80): 1, (1, 81): 1}))
     + frame(rec({(2, 61): -1, (2, 81): 2}), buc=0, pt=0xFA)
     + frame(rec({(1, 40): -1, (1, 41): -1, (2, 41): -4,
                  (1, 60): -1, (1, 61): -1, (2, 61): 1,
                  (1, 80): -1, (1, 81): -1, (2, 81): -2}), pt=0x07)
     + frame(rec({(1, 40): 1, (1, 41): 1, (1, 60): 1, (1, 61): 1,
                  (1, 80): 1, (1, 81): 1})),
     line(1, 0xFA), line(2, 0x07), line(3, 0xFF), line(4, 0x01), gate=True)

# Lines 1 and 2 forced: 1 on (1,40) is carried until -1 on (1,42) ends it: 1
# on 40 and 41; in the same way 1 on (2,41) alone.  The background takes them.
# Sum 1.  Frame 2 takes them away, sum 0.  Frame 3 has 1 on (1,40), (1,41):
# B = 1, M = 0, R1 is 1, and (2,41) with two of them comes back as B = 1.
# Sum 1.  Without that background it would stay 0 and the sum be 0.
case('forced-background', 'a forced line enters the background',
     frame(rec({(1, 40): 1, (1, 42): -1, (2, 41): 1, (2, 42): -1}, ifm=0),
           crm=0)
     + frame(rec({(1, 40): -1, (1, 41): -1, (2, 41): -1}), pt=0xFE)
     + frame(rec({(1, 40): 1, (1, 41): 1})),
     line(1, 0xFE), line(2, 0xFF), line(3, 0xFE), gate=True)

# -- refusals ---------------------------------------------------------------

GOOD = frame()

case('cut-header', 'stops inside the second header',
     GOOD + GOOD[:3], line(1, 0xFF), refused(4, 3))
case('cut-before-record', 'stops where the first record would begin',
     GOOD[:5], refused(4, 0))
# The second record is wrong too, but its length comes first.
case('cut-record', 'stops inside the second record, whose head is wrong too',
     GOOD[:943] + b'\x00' * 500, refused(4, 500), gate=True)
case('cut-last-byte', 'the last byte is missing', GOOD[:-1], refused(4, 937))

case('fixed-1', 'fixed bits of both mode bytes wrong: the first is named',
     bytes.fromhex('FFF900FE00'), refused(5, 1))
case('fixed-2', 'CMS is 0', bytes.fromhex('FFF800DF00') + GOOD[5:],
     refused(5, 2), gate=True)
# DRR and CRM are free: 10100111 is usable.
case('fixed-free', 'DRR and CRM may be 0',
     bytes.fromhex('FFF8AAA755') + GOOD[5:], line(1, 0xFF))

# Forced and repeated as well, but the four bits come first.
case('head', 'last four head bits', frame(rec(ifm=0, frp=0, tail=0xE)),
     refused(6, 0), gate=True)

# A stray word as well, but forced and repeated comes first; DRM is 1 here.
case('forced-repeated', 'forced and repeated, with a stray word',
     frame(None, rec(ifm=0, frp=0, words={2: (1, 0, 0)})), refused(7, 0),
     gate=True)

# Block 3 has vx = -16, but an S in a subsampled frame comes before it.
case('stray-s', 'S in a subsampled frame, behind a wrong vector',
     frame(rec(words={3: (0, -16, 0), 5: (1, 0, 0), 6: (1, 0, 0)}), sbc=0),
     refused(8, 5), gate=True)
case('stray-word', 'a vector in a repeated block-line, and fill: fill is last',
     frame(None, rec(frp=0, words={8: (0, 0, -8)}, fill=3)), refused(8, 8))
case('fill', 'fill not 0, and a wrong vector',
     frame(rec(words={2: (0, 0, -8)}, fill=1)), refused(8, 0))

case('vector-range', 'vy = -8 before vx = -16, and a level beyond the top',
     frame(rec({(1, 4): 29}, words={6: (0, 0, -8), 7: (0, -16, 0)})),
     refused(9, 6), gate=True)

# Line 2, pel 10: 119 + 10.
case('level-top', 'level beyond the top of characteristic 0',
     frame(rec({(2, 10): 29, (3, 4): -128})), refused(10, 129), gate=True)
# The tops themselves pass: 28, 28, 25, 18, each in its own characteristic,
# each with value 127 (7F); on line 1, pel 40 of four block-lines.  Frame 1:
# sum 0.  Frame 2: 127 + 127 held, and again: sum 0.
case('level-tops', 'the top numbers themselves pass',
     frame(rec({(1, 40): 28}, q=0), rec({(1, 40): 28}, q=1))
     + frame(rec({(1, 40): 25}, q=2), rec({(1, 40): 18}, q=3)),
     line(1, 0xFF), line(2, 0xFF, 0, 2))
# 7 x 119 + 119.
case('level-q3', 'level 19 in characteristic 3 on the very last pel',
     frame(None, rec({(8, 119): -19}, q=3)), refused(10, 952))
# (1,8) is left out: 1 is odd and 8 even.
case('level-omitted', 'a level on a pel that subsampling leaves out',
     frame(rec({(1, 7): 1, (1, 8): 1, (1, 9): 29}, words={2: (1, 0, 0)})),
     refused(10, 8))
case('level-repeated', 'a level in a repeated block-line, on the burst',
     frame(None, rec({(1, 4): -1}, frp=0)), refused(10, 4))


def write_cases():
    folder = os.path.join(os.path.dirname(os.path.abspath(__file__)), 'cases')
    os.makedirs(folder, exist_ok=True)
    rows = []
    for name, about, data, _, gate in CASES:
        if not gate:
            continue
        with open(os.path.join(folder, name + '.bin'), 'wb') as out:
            out.write(data)
        with open(os.path.join(folder, name + '.txt'), 'w') as out:
            out.writelines(text + '\n' for text in framelog.lines(data))
        rows.append(f'- `{name}`: {about}\n')
    with open(os.path.join(folder, 'README.md'), 'w') as out:
        out.write('# Small streams for the gate\n\n'
                  '`NAME.bin` is the input of framelog, `NAME.txt` what it '
                  'prints.  `worked.py` one folder up\nmakes them and has the '
                  'working by hand.\n\n')
        out.writelines(rows)


if __name__ == '__main__':
    write_cases()
