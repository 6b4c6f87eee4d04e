#!/usr/bin/env python3
"""Times frames that stand in the program's pipe before it reads them, and prints how long one takes.

    python3 bench/measure_frames.py --program crates/cedar_main/out/cedar_main [--beside PROGRAM] [--repeat 20]

The program is held while a thousand frames are written to its input, and let go; the figures are of the fastest repeat, up to the
last line: microseconds a frame on the clock, and of a processor. With another program beside it each repeat runs both in turn, and
the ratios of their frames a second are printed.
"""
import argparse
import fcntl
import os
import signal
import subprocess
import time

from measure import ASK, frame, policies

FRAMES = 1000
# Room for all of them: as much as a pipe may have without a right.
PIPE = 1 << 20


def cases():
    yield 'an ask, 10 policies', frame('load', policies(10)), frame('ask', ASK)
    yield 'a removal of none', frame('load', policies(10)), frame('remove', '[]')


def processor(pid):
    """The processor time of a process, in seconds."""
    return time.clock_gettime((~pid << 3) | 2)


def read_lines(stream, count):
    """Reads until so many lines have come."""
    while count > 0:
        piece = os.read(stream.fileno(), PIPE)
        assert piece, 'the program ended'
        count -= piece.count(b'\n')


def run(program, before, data):
    """Seconds of the clock and of a processor between a thousand frames in the pipe and their last line."""
    with subprocess.Popen([program], stdin=subprocess.PIPE, stdout=subprocess.PIPE, bufsize=0) as child:
        fcntl.fcntl(child.stdin, fcntl.F_SETPIPE_SZ, PIPE)
        fcntl.fcntl(child.stdout, fcntl.F_SETPIPE_SZ, PIPE)
        child.stdin.write(before)
        read_lines(child.stdout, 1)
        child.send_signal(signal.SIGSTOP)
        os.waitid(os.P_PID, child.pid, os.WSTOPPED)
        child.stdin.write(data * FRAMES)
        used, start = processor(child.pid), time.perf_counter()
        child.send_signal(signal.SIGCONT)
        read_lines(child.stdout, FRAMES)
        taken = time.perf_counter() - start, processor(child.pid) - used
        child.stdin.close()
        assert child.stdout.read() == b'end\n'
    return taken


def main():
    parser = argparse.ArgumentParser(description=__doc__)
    parser.add_argument('--program', required=True)
    parser.add_argument('--beside')
    parser.add_argument('--repeat', type=int, default=20)
    options = parser.parse_args()
    programs = [it for it in (options.program, options.beside) if it]
    for name, before, data in cases():
        runs = {program: [] for program in programs}
        for _ in range(options.repeat):
            for program in programs:
                runs[program].append(run(program, before, data))
        best = [[min(kind) / FRAMES * 1e6 for kind in zip(*runs[program])] for program in programs]
        for program, (clock, used) in zip(programs, best):
            print('%-24s %-40s %8.2f us, %8.2f us of a processor' % (name, program, clock, used), flush=True)
        if options.beside:
            print('%-24s %.2f and %.2f times as many a second' % (name, best[1][0] / best[0][0], best[1][1] / best[0][1]), flush=True)


if __name__ == '__main__':
    main()
