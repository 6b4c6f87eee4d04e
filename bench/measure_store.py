#!/usr/bin/env python3
"""Times a store that is built and edited by steps of the built program of rows, and prints how its figures grow.

    python3 bench/measure_store.py --program crates/cedar_layer_rows/out/cedar_layer_rows [--repeat 5] [--instructions]

A store of users in groups that nest five deep, each user and group with three parents, is built, and then single
entities without children are added, put or removed. Each case is a run of its own over standard input; the figure
is the least of the repeats, in seconds of the processor. Building is told with the greatest resident set of that
run in MiB. An edit's figure is that of a run with 51 edits less that of a run with one, a fiftieth of it.
`--instructions` counts the instructions of each edit too, by callgrind, for stores of up to 11,000 entities.
"""
import argparse
import os
import re
import subprocess
import tempfile

# users, and a tenth as many groups: 1,000, 10,000, 11,000 and 100,000 entities
USERS = (910, 9_095, 10_000, 90_910)
EDITS = 51
COUNTED = 10_000


def put(user, step):
    return ['bare User.0.%d' % user, 'edit add-parent Group.1.0', step]


def edits(name, count):
    """So many edits of that name, each of another user."""
    steps = {
        'add': lambda number: put((1 << 32) - 1 - number, 'fill add'),
        'put': lambda number: put(number, 'fill put'),
        'remove': lambda number: ['stored remove User.0.%d' % number],
    }
    return [step for number in range(count) for step in steps[name](number)]


def rows(users, edited):
    """The lines that build a store of so many users, and edit it."""
    steps = ['layer store', 'nested %d' % users, 'fill of', 'store counted', *edited]
    return ''.join(step + '\n' for step in steps).encode()


def run(command, data):
    """Seconds of the processor, the greatest resident set in MiB, and what was answered."""
    with tempfile.TemporaryFile() as told, tempfile.TemporaryFile() as said:
        told.write(data)
        told.seek(0)
        child = subprocess.Popen(command, stdin=told, stdout=said, stderr=said)
        _, status, usage = os.wait4(child.pid, 0)
        child.returncode = os.waitstatus_to_exitcode(status)
        assert child.returncode == 0, command
        said.seek(0)
        return usage.ru_utime + usage.ru_stime, usage.ru_maxrss / 1024, said.read().decode()


def seconds(program, users, edited, repeat):
    return min(run([program], rows(users, edited))[0] for _ in range(repeat))


def instructions(program, users, edited):
    counter = ['valgrind', '--tool=callgrind', '--callgrind-out-file=/dev/null', program]
    return int(re.search(r'Collected : (\d+)', run(counter, rows(users, edited))[2]).group(1))


def an_edit(name, measured):
    """What one edit takes of what is measured over a list of edits."""
    return (measured(edits(name, EDITS)) - measured(edits(name, 1))) / (EDITS - 1)


def main():
    parser = argparse.ArgumentParser(description=__doc__, formatter_class=argparse.RawDescriptionHelpFormatter)
    parser.add_argument('--program', required=True)
    parser.add_argument('--repeat', type=int, default=5)
    parser.add_argument('--instructions', action='store_true')
    options = parser.parse_args()
    program = options.program
    for users in USERS:
        runs = [run([program], rows(users, [])) for _ in range(options.repeat)]
        text = runs[0][2].splitlines()[3].partition(' => ')[2]
        print('%s: built in %.3f s, in %.1f MiB' % (text, min(r[0] for r in runs), min(r[1] for r in runs)), flush=True)
        for name in ('add', 'put', 'remove'):
            taken = an_edit(name, lambda edited: seconds(program, users, edited, options.repeat))
            print('    %-6s %8.3f ms' % (name, 1000 * taken), end='', flush=True)
            if options.instructions and users <= COUNTED:
                counted = an_edit(name, lambda edited: instructions(program, users, edited))
                print('  %12s instructions' % format(round(counted), ','), end='', flush=True)
            print(flush=True)


if __name__ == '__main__':
    main()
