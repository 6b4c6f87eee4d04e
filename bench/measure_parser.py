#!/usr/bin/env python3
"""Times loose parsing by the built program of rows, and prints for each text the time and the most memory
that a run takes, and for each nested construct the stack that it takes.

    python3 bench/measure_parser.py --program crates/cedar_layer_rows/out/cedar_layer_rows [--repeat 5]

Each run is given one line of the layer of texts, which holds the text. The time is that of the fastest of the
repeats less that of a run that takes the same text and does not read it, in seconds; the memory is the greatest
resident set in MiB, in which the line and its text stand too. The stack is the smallest limit with which the
text is read, in KiB.
"""
import argparse
import os
import resource
import subprocess
import tempfile
import time

MIB = 1 << 20
POLICY = ('@id("p") permit(principal == User::"someone", action in [Action::"view"], resource is Photo)\n'
          'when { context.size + 1 < 20 && resource.tags.contains("a") };\n')
EXPRESSION = 'loose reads-expression/256'
POLICIES = 'loose reads-policies/256'
UNREAD = 'repeat 1'


def filled(start, part, end, size):
    """As many parts as fit the size, between a start and an end."""
    return start + part * ((size - len(start) - len(end)) // len(part)) + end


def texts(size):
    """Each text with what it is, and the step that reads it."""
    expressions = [
        ('a chain of `1+`', filled('', '1+', '1', size)),
        ('a chain of `.b`', filled('a', '.b', '', size)),
        ('a list of `1`', filled('[', '1,', ']', size)),
        ('a record', filled('{', 'a:1,', '}', size)),
        ('a string', filled('"', 'a', '"', size)),
        ('`[` past the limit', filled('', '[', '', size)),
        ('`(` past the limit', filled('', '(', '', size)),
    ]
    yield 'policies', filled('', POLICY, '', size), POLICIES
    yield 'a comment', filled('//', 'a', '', size), POLICIES
    for name, text in expressions:
        yield name, text, EXPRESSION


NESTED = [('`(`', '(', ')'), ('`[`', '[', ']'), ('a call', 'f(', ')'), ('an index', 'a[', ']'),
          ('a record', '{a: ', '}'), ('`if`', 'if ', ' then 1 else 2')]
LEVELS = (55, 255)


def rows(step, text):
    """The lines that have the step of this layer take the text, in which a caret and `J` write a line feed."""
    return ('layer parser\n%s %s\n' % (step, text.replace('\n', '^J'))).encode()


def reads(program, text, kibibytes):
    """Whether the program ends by itself over this text, with a stack of so many KiB."""
    limit = 1024 * kibibytes
    done = subprocess.run([program], input=rows(EXPRESSION, text), stdout=subprocess.DEVNULL,
                          preexec_fn=lambda: resource.setrlimit(resource.RLIMIT_STACK, (limit, limit)))
    return done.returncode == 0


def stack(program, text):
    """The smallest stack with which the text is read, in KiB, up to 4 more."""
    small, great = 32, 65536
    while great - small > 4:
        middle = (small + great) // 2
        if reads(program, text, middle):
            great = middle
        else:
            small = middle
    return great


def timed(program, data):
    """Seconds, greatest resident set in MiB, and what the last line is answered."""
    with tempfile.TemporaryFile() as given, tempfile.TemporaryFile() as said:
        given.write(data)
        given.seek(0)
        start = time.perf_counter()
        child = subprocess.Popen([program], stdin=given, stdout=said)
        _, _, usage = os.wait4(child.pid, 0)
        seconds = time.perf_counter() - start
        said.seek(0)
        return seconds, usage.ru_maxrss / 1024, said.read().decode().rpartition(' => ')[2].strip()


def fastest(program, data, repeat):
    """The least seconds of the repeats, their greatest memory, and what the last line is answered."""
    runs = [timed(program, data) for _ in range(repeat)]
    return min(run[0] for run in runs), max(run[1] for run in runs), runs[0][2]


def main():
    parser = argparse.ArgumentParser(description=__doc__, formatter_class=argparse.RawDescriptionHelpFormatter)
    parser.add_argument('--program', required=True)
    parser.add_argument('--repeat', type=int, default=5)
    options = parser.parse_args()
    print('| text | bytes | seconds | MiB | answer |')
    print('|---|---|---|---|---|')
    for size in (MIB // 4, MIB // 2, MIB):
        for name, text, step in texts(size):
            unread, _, _ = fastest(options.program, rows(UNREAD, text), options.repeat)
            seconds, memory, answer = fastest(options.program, rows(step, text), options.repeat)
            print(f'| {name} | {len(text):,} | {seconds - unread:.3f} | {memory:.0f} | {answer} |')
    few, many = LEVELS
    print(f'\n| nested | KiB of stack for {few} levels | for {many} | a level |')
    print('|---|---|---|---|')
    for name, start, end in NESTED:
        low, high = (stack(options.program, start * levels + 'true' + end * levels) for levels in LEVELS)
        print(f'| {name} | {low:,} | {high:,} | {(high - low) / (many - few):.1f} |')


if __name__ == '__main__':
    main()
