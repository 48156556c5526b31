#!/usr/bin/env python3
"""The check of certificates whose labels are made to cost time: seconds of the processor by kind, order and number of labels.

    PROGRAM=FILE bench/covers.py [LABELS..]

PROGRAM is the program where not the one that `./build` makes. The map is a street of three segments, with a profile that prices both
buffers and never reduces them; half of the labels are of its first link, half of its second, each of which covers what one of the first
half leads to. In kind `alike` all have the same buffers and rising costs; in `two` and `three` none makes another needless, by two numbers
or by three; in `column` none does, and each pair of them differs in two numbers alone; `dear` is `three` with one label of a very high cost.
In `slot` the profile asks for equal buffers, and all labels of a link have buffers that put them into one slot.
The first form is answered with yes; of the second, labels are cheaper than can be, and so refused at the goal, once all steps are tested."""
import os
import random
import resource
import subprocess
import sys
import tempfile
from pathlib import Path

HERE = Path(__file__).resolve().parent.parent
PROGRAM = os.path.realpath(os.environ.get('PROGRAM', HERE / 'crates/route_serve/out/route_serve'))
PROFILE = '''---context:global
assign downhillcost 60
assign uphillcost 60
assign downhillcutoff 0
assign uphillcutoff 0
assign elevationpenaltybuffer 10000
assign elevationmaxbuffer 10000
assign elevationbufferreduce 0
---context:way
assign costfactor 1
'''
EQUAL = 'assign downhillcostfactor 0.5\nassign uphillcostfactor 0.5\n'
# How many slots there are where a buffer must be equal.
SLOTS = 1048573
FIRST, SECOND, THIRD = 111320000, 111320000, 22264000000
WANTED = {1: 'yes cost 22486.640000', 2: 'certificate refused: leg 0, goal'}
PLACES = [49000000, 49001000, 49002000, 49202000]
KINDS = {
    'alike': lambda count: [(place, 0, 0) for place in range(count)],
    'two': lambda count: [(place, count - place, 0) for place in range(count)],
    'three': lambda count: [(60000000 - 30 * (down + up), down, up) for down, up in drawn(count)],
    'column': lambda count: [(60 * (place // 2), count - place // 2 + place % 2, count - place // 2 + 1 - place % 2)
                             for place in range(count)],
    'dear': lambda count: KINDS['three'](count - 1) + [(2**119, 0, 0)],
    'slot': lambda count: [(place, SLOTS * (place % 9000), SLOTS * (place // 9000)) for place in range(count)],
}
ORDERS = {'rising': sorted, 'falling': lambda labels: sorted(labels, reverse=True),
          'random': lambda labels: random.sample(labels, len(labels))}


def drawn(count):
    return [(random.randrange(1000000), random.randrange(1000000)) for _ in range(count)]


def street():
    nodes = ['{"type":"node","id":%d,"lon":8.5,"lat":%.6f}' % (number, place / 10**6) for number, place in enumerate(PLACES, 1)]
    ways = ['{"type":"way","id":%d,"nodes":[%d,%d],"tags":{"highway":"residential"}}' % (9 + it, it, it + 1) for it in (1, 2, 3)]
    return '{"elements":[%s]}' % ','.join(nodes + ways)


def certificate(form, kind, labels):
    base = FIRST if form == 1 else 0
    rows = [f'label 10/0/f {base} 0 0', f'label 11/0/f {base + SECOND} 0 0']
    ends = [label[1:] for label in labels] if kind == 'slot' else [(0, 0)]
    rows += [f'label 12/0/f 0 {down} {up}' for down, up in ends] if form == 2 else []
    for way, start in ((10, base), (11, base + SECOND)):
        rows += [f'label {way}/0/f {start + cost} {down} {up}' for cost, down, up in labels]
    return '\n'.join([f'certificate {form}', 'leg 10/0/f 11/0/f 12/0/f', f'cost {FIRST + SECOND + THIRD}', *rows, 'end', ''])


def seconds(folder, form, kind, labels):
    (folder / 'text').write_text(certificate(form, kind, labels))
    before = resource.getrusage(resource.RUSAGE_CHILDREN).ru_utime
    told = subprocess.run(
        [PROGRAM, 'check', f'lookups={folder}/look', f'profile={folder}/profile.brf', f'map={folder}/map',
         f'query=lonlats=8.5,{PLACES[0] / 10**6:.6f}|8.5,{PLACES[-1] / 10**6:.6f}&profile=profile', f'certificate={folder}/text'],
        capture_output=True, text=True)
    took = resource.getrusage(resource.RUSAGE_CHILDREN).ru_utime - before
    return took, ' '.join((told.stdout + told.stderr).split())


def main():
    counts = [int(word) for word in sys.argv[1:]] or [40000, 80000, 160000]
    with tempfile.TemporaryDirectory() as name:
        folder = Path(name)
        samples = (HERE / 'crates/case_inputs/src/samples.rt').read_text()
        (folder / 'look').write_text(samples.split('pub const LOOK: ')[1].split('"', 1)[1].split('";')[0])
        (folder / 'map').write_text(street())
        print('| form | kind | order | ' + ' | '.join(f'{count:,} labels' for count in counts) + ' |')
        print('|---|---|---|' + '---|' * len(counts))
        for form in (1, 2):
            for kind, make in KINDS.items():
                (folder / 'profile.brf').write_text(PROFILE + (EQUAL if kind == 'slot' else ''))
                for order, put in ORDERS.items():
                    random.seed(1)
                    rows = [seconds(folder, form, kind, put(make(count // 2))) for count in counts]
                    print(f'| {form} | {kind} | {order} | ' + ' | '.join(f'{took:.2f} s' for took, _ in rows) + ' |', flush=True)
                    for _, told in rows:
                        if told != WANTED[form]:
                            print(f'DIFFERENT: check tells {told!r}')


main()
