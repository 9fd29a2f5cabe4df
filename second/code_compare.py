"""A framecode program held against the second coder.

    python3 code_compare.py FIRST LAST COUNT FRAMECODE FRAMELOG

For every kind of pictures.py and the seeds FIRST to LAST: makes COUNT frames,
runs the program FRAMECODE over them and compares what it writes, byte for byte,
with what the second coder writes, and its refusal, if any, with the second
coder's.  Then what FRAMECODE wrote goes through the program FRAMELOG and through
the second decoder: both have to print the same lines, a line for each frame,
all with PLANES 00 and HELD 0.  An input on which anything differs is kept as
differs-code-KIND-SEED.bin in the present folder.  The exit code is 1 if any
differs.  Each program may have arguments of its own:

    python3 code_compare.py 1 2 3 "python3 framecode.py" "python3 framelog.py"
"""

import os
import shlex
import subprocess
import sys

sys.path.insert(0, os.path.dirname(os.path.abspath(__file__)))

import framecode
import framelog
import pictures

FRAME = 1881


def first_byte(wanted, got):
    return next((k for k, (a, b) in enumerate(zip(wanted, got)) if a != b),
                min(len(wanted), len(got)))


def place(at):
    """Where a byte of the output stands, in words."""
    frame, at = divmod(at, FRAME)
    text = f'frame {frame + 1}'
    if at < 5:
        return f'{text}, header byte {at}'
    record, at = divmod(at - 5, 938)
    text += f', record {record + 1}'
    if at < 10:
        return f'{text}, byte {at} of head and words'
    line, at = divmod(at - 10, 116)
    return f'{text}, line {line + 1}, pel {at + 4}'


def faults(data, coder, log):
    """What is wrong with the two programs on this input, and the frames."""
    frames, refusal = framecode.coded(data)
    wanted = b''.join(frames)
    words = f'REFUSED {refusal.number} {refusal.place}' if refusal else ''
    run = subprocess.run(coder, input=data, stdout=subprocess.PIPE,
                         stderr=subprocess.PIPE)
    got = run.stdout
    told = [text for text in run.stderr.decode('ascii', 'replace').splitlines()
            if text.startswith('REFUSED')]
    if got != wanted:
        yield (f'{len(got)} bytes for {len(wanted)}, first at '
               + place(first_byte(wanted, got)))
    if told != ([words] if words else []):
        yield f'says {told}, not {words or "nothing"}'
    lines = list(framelog.lines(got))
    run = subprocess.run(log, input=got, stdout=subprocess.PIPE)
    if run.stdout.decode('ascii', 'replace') != ''.join(t + '\n' for t in lines):
        yield 'the two logs differ'
    if len(lines) != len(frames):
        yield f'{len(lines)} lines for {len(frames)} frames'
    for text in lines:
        if not text.endswith(' PLANES 00 HELD 0'):
            yield text
            break


def main():
    if len(sys.argv) != 6:
        sys.exit(__doc__)
    first, last, count = (int(a) for a in sys.argv[1:4])
    coder, log = shlex.split(sys.argv[4]), shlex.split(sys.argv[5])
    streams = frames = refused = differing = 0
    for seed in range(first, last + 1):
        for kind in pictures.USABLE + pictures.DAMAGED:
            data = pictures.inputs(seed, count, kind)
            streams += 1
            frames += -(-len(data) // 1930)
            refused += kind in pictures.DAMAGED
            found = list(faults(data, coder, log))
            if found:
                differing += 1
                print(f'{kind}-{seed}: ' + '; '.join(found))
                with open(f'differs-code-{kind}-{seed}.bin', 'wb') as out:
                    out.write(data)
    print(f'{streams} streams, {frames} frames, {refused} damaged, '
          f'{differing} differing')
    sys.exit(1 if differing else 0)


if __name__ == '__main__':
    main()
