#!/usr/bin/env python3
"""Keys that an attacker picks: no choice of uids, ids of links or names of unknowns may make a command slow.

    collide.py --program PATH [--keys N] [--bar TIMES]

Each case is run twice, with keys of one length: once with keys that all have one hash under the default hasher of the kit's
maps, whose seed is fixed, and once with others. It prints the seconds of both, the fastest of three runs, and their ratio.
With --bar it fails where a ratio is above it, a tenth of a second aside."""
import argparse
import itertools
import string
import subprocess
import sys
import time

WORD = (1 << 64) - 1
START = 0x243F6A8885A308D3
FACTOR = 0x9E3779B97F4A7C15
PRINTABLE = set(range(0x20, 0x7F)) - set(b'"\\')
NULS = '\\0' * 8


def number(some):
    return int.from_bytes(some, 'little')


def folded(a, b):
    product = a * b
    return (product & WORD) ^ (product >> 64)


def short(some):
    """A text of at most eight bytes as one number, as the hasher reads it."""
    size = len(some)
    if size >= 4:
        return number(some[:4]) | number(some[-4:]) << 32
    return some[0] | some[size // 2] << 8 | some[-1] << 16 if size else 0


def written(state, some):
    """The hasher's state behind some bytes."""
    size = len(some)
    if size <= 8:
        return folded(state ^ short(some), FACTOR ^ (2 * size))
    state, at = (state + size) & WORD, 0
    while size - at > 16:
        state = folded(number(some[at : at + 8]) ^ state, number(some[at + 8 : at + 16]) ^ FACTOR)
        at += 16
    return folded(number(some[max(0, size - 16) : max(0, size - 16) + 8]) ^ state, number(some[-8:]) ^ FACTOR)


def text_written(state, text):
    return written(written(state, text), b'\xff')


def found(words, state_behind):
    """The first word behind which the state is eight printable bytes, and these: written next, they leave nothing of what follows."""
    for word in words:
        state = state_behind(word.encode()).to_bytes(8, 'little')
        if all(it in PRINTABLE for it in state):
            return word, state.decode()
    raise AssertionError('words have no end')


def words(length):
    return (''.join(it) for it in itertools.product(string.ascii_letters, repeat=length))


def type_of_uids():
    """A type and what the ids of its colliding uids begin with: a uid writes how many identifiers its type has, these, and its id of 16 bytes."""
    counted = written(START, (1).to_bytes(8, 'little'))
    all_words = itertools.chain.from_iterable(map(words, itertools.count(3)))
    return found(all_words, lambda word: (text_written(counted, word) + 16) & WORD)


def front_of_texts():
    """What colliding texts of 40 bytes begin with, before eight NULs and eight bytes of any kind."""
    padded = (it.ljust(16, '.') for it in itertools.chain.from_iterable(map(words, itertools.count(3))))
    front, state = found(padded, lambda front: folded(number(front[:8]) ^ ((START + 40) & WORD), number(front[8:]) ^ FACTOR))
    return front + state


class Keys:
    """So many uids and texts, which collide or don't."""

    def __init__(self, count, collide):
        kind, id_front = type_of_uids()
        id_front = id_front if collide else 'x' * 8
        text_front = front_of_texts() + NULS if collide else 'x' * 24 + NULS
        self.uids = [f'{kind}::"{id_front}{at:08}"' for at in range(count)]
        self.texts = [f'"{text_front}{at:08}"' for at in range(count)]


def frame(verb, body):
    body = body.encode()
    return b'%s %d\n%s\n' % (verb.encode(), len(body), body)


def frames(verb, bodies):
    return b''.join(frame(verb, it) for it in bodies)


def listed(items):
    return '[' + ','.join(items) + ']'


def question(context):
    return '{principal: A::"a", action: Action::"v", resource: R::"r", context: {%s}}' % context


def entities(keys):
    return listed('{uid: %s}' % it for it in keys.uids)


def told_names(keys):
    asked = question('a: ' + listed('unknown(%s)' % it for it in keys.texts))
    return frame('ask', asked) + frame('tell', '{' + ','.join(it + ': 1' for it in keys.texts) + '}')


def children(keys):
    below = listed('{uid: %s, parents: [G::"g"]}' % it for it in keys.uids)
    return frame('put', below) + frame('put', '[{uid: G::"g", parents: [G::"h"]}]')


def scopes(keys):
    policies = ''.join('permit(principal == %s, action, resource);' % it for it in keys.uids)
    return frame('load', policies) + frame('ask', question(''))


def sets(keys):
    clause = 'context.a.containsAny(context.a) && context.a.contains(principal) && principal in context.a'
    return frame('load', 'permit(principal, action, resource) when { %s };' % clause) + frame('ask', question('a: ' + listed(keys.uids)))


def linked(keys):
    made = frames('link', ('{template: "policy0", id: %s, principal: A::"a"}' % it for it in keys.texts))
    return frame('load', 'permit(principal == ?principal, action, resource);') + made


def links(keys):
    return linked(keys) + frames('unlink', keys.texts)


def reasons(keys):
    """Links under such ids, which all are reasons of each answer."""
    return linked(keys) + frames('ask', [question('')] * 20)


CASES = {
    'put of entities': lambda keys: frame('put', entities(keys)),
    'add of entities': lambda keys: frame('add', entities(keys)),
    'parents of one entity': lambda keys: frame('put', '[{uid: A::"x", parents: %s}]' % listed(keys.uids)),
    'children of one': children,
    'remove of entities': lambda keys: frame('put', entities(keys)) + frame('remove', listed(keys.uids)),
    'entities of scopes': scopes,
    'a set of entities': sets,
    'names of unknowns': told_names,
    'ids of links': links,
    'ids of reasons': reasons,
}

# Seconds that say nothing.
NOISE = 0.1


def seconds(program, data):
    begun = time.perf_counter()
    ran = subprocess.run([program], input=data, stdout=subprocess.PIPE)
    taken = time.perf_counter() - begun
    if ran.returncode or b'refused' in ran.stdout or b'fault' in ran.stdout:
        sys.exit(f'a command was refused: {ran.stdout[:300]!r}')
    return taken


def main():
    parser = argparse.ArgumentParser(description=__doc__, formatter_class=argparse.RawDescriptionHelpFormatter)
    parser.add_argument('--program', required=True)
    parser.add_argument('--keys', type=int, default=4000)
    parser.add_argument('--bar', type=float)
    given = parser.parse_args()
    chosen, others = Keys(given.keys, True), Keys(given.keys, False)
    above = 0
    for name, case in CASES.items():
        taken = [min(seconds(given.program, case(keys)) for _ in range(3)) for keys in (chosen, others)]
        ratio = taken[0] / taken[1]
        above += given.bar is not None and ratio > given.bar and taken[0] - taken[1] > NOISE
        print(f'{name:24} {taken[0]:.3f} s with keys that collide, {taken[1]:.3f} s with others: {ratio:.1f} times', flush=True)
    if given.bar is not None:
        print(f'{len(CASES) - above} passed, {above} failed')
    return 1 if above else 0


if __name__ == '__main__':
    sys.exit(main())
