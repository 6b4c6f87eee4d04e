#!/usr/bin/env python3
"""Times the built program on asks, loads, links and puts, and prints how time grows.

    python3 bench/measure.py --program crates/cedar_main/out/cedar_main [--repeat 5]

Each case is a run of its own over standard input; the figure is the fastest of the repeats, in seconds. Of questions and
of edits the time of one is printed first, in microseconds: that of a run with many less that of a run with none.
"""
import argparse
import subprocess
import time

ASK = '{principal: User::"u7", action: Action::"view", resource: Photo::"p", context: {}}'


def frame(verb, body):
    data = body.encode('utf-8')
    return b'%s %d\n%s\n' % (verb.encode(), len(data), data)


def policies(count):
    return ''.join('permit(principal == User::"u%d", action, resource);\n' % n for n in range(count))


def policies_of_size(size):
    line = 'permit(principal == User::"someone", action == Action::"view", resource is Photo);\n'
    return line * (size // len(line))


def asks(count, held):
    return frame('load', policies(held)) + frame('ask', ASK) * count


def entity(number):
    """User number `number`, in one of ten groups."""
    return '{uid: User::"u%d", parents: [Group::"g%d"]}' % (number, number % 10)


def put(numbers):
    return frame('put', '[' + ', '.join(entity(n) for n in numbers) + ']')


def groups():
    return frame('put', '[' + ', '.join('{uid: Group::"g%d", parents: [Group::"all"]}' % n for n in range(10)) + ']')


def puts(held, count):
    return groups() + put(range(held)) + b''.join(put([held + n]) for n in range(count))


def asks_in_groups(count, policies_held, held):
    text = ''.join('permit(principal in Group::"h%d", action, resource);\n' % n for n in range(policies_held - 1))
    text += 'permit(principal in Group::"all", action, resource);\n'
    return groups() + put(range(held)) + frame('load', text) + frame('ask', ASK) * count


def loads(count):
    """Texts of one policy each: all but the first are renamed."""
    return b''.join(frame('load', 'permit(principal == User::"u%d", action, resource);' % n) for n in range(count))


def links(count):
    link = '{template: "policy0", id: "l%d", principal: User::"u%d"}'
    return frame('load', 'permit(principal == ?principal, action, resource);') + b''.join(
        frame('link', link % (n, n)) for n in range(count)
    )


def unlinks(count):
    return links(count) + b''.join(frame('unlink', '"l%d"' % n) for n in range(count))


def clauses(count):
    """Policies whose clauses read attributes of the principal and of the context."""
    return ''.join(
        'permit(principal, action, resource) when { principal.level > %d && context.hour < 18 };\n' % n for n in range(count)
    )


def asks_with_clauses(count, policies_held):
    user = '[{uid: User::"u7", attrs: {level: %d}}]' % (policies_held // 2)
    ask = ASK.replace('{}', '{hour: 9}')
    return frame('put', user) + frame('load', clauses(policies_held)) + frame('ask', ask) * count


def asks_of_condition(count, operators):
    """One policy, whose condition is a chain of this many sums and one comparison."""
    text = 'permit(principal, action, resource) when { context.hour' + ' + 1' * (operators - 1) + ' < 1000 };'
    return frame('load', text) + frame('ask', ASK.replace('{}', '{hour: 9}')) * count


def asks_with_unknowns(count, keys, known):
    """A hundred policies, each of which reads one of the keys of the context; all of these are known, or none is."""
    text = ''.join('permit(principal, action, resource) when { context.k%d == %d };\n' % (n % keys, n) for n in range(100))
    context = ', '.join('k%d: %s' % (n, n if known else 'unknown("k%d")' % n) for n in range(keys))
    return frame('load', text) + frame('ask', ASK.replace('{}', '{%s}' % context)) * count


def tells(count, told=True):
    """A hundred policies, each of which reads one of five unknown keys of the context, which are told one by one, or not."""
    text = ''.join('permit(principal, action, resource) when { context.k%d == %d };\n' % (n % 5, n) for n in range(100))
    context = ', '.join('k%d: unknown("k%d")' % (n, n) for n in range(5))
    tells = b''.join(frame('tell', '{k%d: %d}' % (n, n)) for n in range(5)) if told else b''
    return frame('load', text) + (frame('ask', ASK.replace('{}', '{%s}' % context)) + tells) * count


def grants(held):
    """One grant a policy, and as many users with one parent each."""
    text = ''.join(
        'permit(principal in Group::"g%d", action == Action::"view", resource == Photo::"p%d");\n' % (n, n) for n in range(held)
    )
    users = ', '.join('{uid: User::"u%d", parents: [Group::"g%d"]}' % (n, n) for n in range(held))
    return frame('put', '[' + users + ']') + frame('load', text)


def many_grants(held, each=10_000):
    """The same by texts and lists of so many; all users are in one of as many groups as ten grants have each."""
    for first in range(0, held, each):
        numbers = range(first, min(first + each, held))
        users = ', '.join('{uid: User::"u%d", parents: [Group::"g%d"]}' % (n, n // 10) for n in numbers)
        grant = 'permit(principal in Group::"g%d", action == Action::"view", resource == Photo::"p%d");\n'
        yield frame('put', '[' + users + ']')
        yield frame('load', ''.join(grant % (n // 10, n) for n in numbers))


def early_ask(held):
    n = held // 2
    return frame('ask', '{principal: User::"u%d", resource: Photo::"p%d", context: {}}' % (n, n))


def ask_of_grants(held):
    n = held // 2
    return frame('ask', '{principal: User::"u%d", action: Action::"view", resource: Photo::"p%d", context: {}}' % (n, n))


def single():
    """A run without a command and one with many, and how many there are."""
    for held, count in ((10, 20_000), (100, 10_000), (1000, 1000), (10_000, 100)):
        yield 'an ask, %s grants' % format(held, ','), grants(held), grants(held) + ask_of_grants(held) * count, count
    held = 100_000
    before = b''.join(many_grants(held))
    yield 'the first ask over 100,000 grants', before, before + ask_of_grants(held), 1
    yield 'one without an action, 100,000 grants', before + ask_of_grants(held), before + ask_of_grants(held) + early_ask(held) * 1000, 1000
    user = '[{uid: User::"u7", attrs: {level: 50}}]'
    ask = frame('ask', ASK.replace('{}', '{hour: 9}'))
    for held, count in ((10, 20_000), (100, 10_000), (1000, 1000)):
        before = frame('put', user) + frame('load', clauses(held))
        yield 'an ask, %s clauses' % format(held, ','), before, before + ask * count, count
    for held, count in ((1000, 1000), (10_000, 100)):
        before = groups() + put(range(held))
        yield 'a put of one, %s entities' % format(held, ','), before, before + put([0]) * count, count
    yield 'five tells, 100 clauses', tells(1000, told=False), tells(1000), 1000


def cases():
    yield '10,000 asks, 100 policies', asks(10_000, 100)
    yield '20,000 asks, 100 policies', asks(20_000, 100)
    yield '10,000 asks, 200 policies', asks(10_000, 200)
    yield 'put of 1,000 entities', puts(1000, 0)
    yield '100 puts of one, into 1,000', puts(1000, 100)
    yield '1,000 puts of one, into 1,000', puts(1000, 1000)
    yield '100 puts of one, into 2,000', puts(2000, 100)
    yield '10,000 asks, 100 policies with in', asks_in_groups(10_000, 100, 1000)
    for size in (64, 256, 512, 1024):
        yield 'load of %d KiB' % size, frame('load', policies_of_size(size * 1024))
    body = 'permit(principal, action in [' + ', '.join('Action::"a%d"' % n for n in range(40_000)) + '], resource);'
    yield 'load of one list of 40,000 actions', frame('load', body[:1_048_576])
    for count in (1000, 2000, 4000):
        yield '%s loads of one policy' % format(count, ','), loads(count)
    yield '4,000 links', links(4000)
    yield '4,000 links, and each unlinked', unlinks(4000)
    yield '10,000 asks, 100 links', links(100) + frame('ask', ASK) * 10_000
    for held in (100, 1000):
        yield '10,000 asks, %s policies with clauses' % format(held, ','), asks_with_clauses(10_000, held)
    for operators in (5, 50, 250):
        yield '100,000 asks, a condition of %d' % operators, asks_of_condition(100_000, operators)
    for keys in (1, 5, 50):
        yield '1,000 asks, %d keys known' % keys, asks_with_unknowns(1000, keys, True)
        yield '1,000 asks, %d keys unknown' % keys, asks_with_unknowns(1000, keys, False)
    yield '1,000 asks, 5 keys told one by one', tells(1000)


def seconds(program, data, repeat):
    best = None
    for _ in range(repeat):
        start = time.perf_counter()
        done = subprocess.run([program], input=data, stdout=subprocess.PIPE, check=False)
        taken = time.perf_counter() - start
        assert done.returncode == 0 and done.stdout.endswith(b'end\n'), done.stdout[-200:]
        assert b'refused' not in done.stdout, 'a command of the case is refused'
        best = taken if best is None else min(best, taken)
    return best


def main():
    parser = argparse.ArgumentParser(description=__doc__)
    parser.add_argument('--program', required=True)
    parser.add_argument('--repeat', type=int, default=5)
    options = parser.parse_args()
    for name, before, data, count in single():
        taken = seconds(options.program, data, options.repeat) - seconds(options.program, before, options.repeat)
        print('%-40s %9d times  %8.1f microseconds' % (name, count, taken / count * 1e6), flush=True)
    for name, data in cases():
        taken = seconds(options.program, data, options.repeat)
        print('%-40s %9d bytes  %8.3f s' % (name, len(data), taken), flush=True)


if __name__ == '__main__':
    main()
