"""A framelog program held against the second decoder.

    python3 compare.py FIRST LAST COUNT PROGRAM [ARGUMENT ...]

runs PROGRAM over every stream in cases/ and over the random streams of every
kind with seeds FIRST to LAST, COUNT frames each.  A stream on which the two
differ is kept as differs-KIND-SEED.bin in the present folder.  The exit code
is 1 if any differs.
"""

import os
import subprocess
import sys

HERE = os.path.dirname(os.path.abspath(__file__))
sys.path.insert(0, HERE)

import framelog
import streams


def said(program, data):
    run = subprocess.run(program, input=data, stdout=subprocess.PIPE)
    return run.stdout.decode('ascii', 'replace')


def main():
    if len(sys.argv) < 5:
        sys.exit(__doc__)
    first, last, count = (int(a) for a in sys.argv[1:4])
    program = sys.argv[4:]
    tried = wrong = 0

    def hold(name, data, wanted, keep):
        nonlocal tried, wanted_lines, wrong
        tried += 1
        wanted_lines += len(wanted)
        got = said(program, data)
        if got == ''.join(text + '\n' for text in wanted):
            return
        wrong += 1
        got_lines = got.split('\n')[:-1]
        at = next((k for k, (a, b) in enumerate(zip(wanted, got_lines))
                   if a != b), min(len(wanted), len(got_lines)))
        print(f'{name} differs at line {at + 1}')
        print('  wanted', wanted[at] if at < len(wanted) else 'no line')
        print('  got   ', got_lines[at] if at < len(got_lines) else 'no line')
        if keep:
            with open(f'differs-{name}.bin', 'wb') as out:
                out.write(data)

    wanted_lines = 0
    folder = os.path.join(HERE, 'cases')
    for entry in sorted(os.listdir(folder)):
        if entry.endswith('.bin'):
            base = os.path.join(folder, entry[:-4])
            with open(base + '.bin', 'rb') as kept:
                data = kept.read()
            with open(base + '.txt') as kept:
                hold(entry[:-4], data, kept.read().splitlines(), False)
    for seed in range(first, last + 1):
        for kind in streams.USABLE + streams.DAMAGED:
            data = streams.stream(seed, count, kind)
            hold(f'{kind}-{seed}', data, list(framelog.lines(data)), True)
    print(f'{tried} streams, {wanted_lines} lines, {wrong} differ')
    sys.exit(1 if wrong else 0)


if __name__ == '__main__':
    main()
