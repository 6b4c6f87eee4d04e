#!/usr/bin/env python3
"""Counts the instructions of a question over so many policies, body and answer line included.

    python3 bench/measure_asks.py --program crates/cedar_main/out/cedar_main [--preload FILE] [CASE..]

A figure is what 120 questions take less what 60 take, by valgrind (`--tool=callgrind`), a question each: counts don't depend on what
else the machine does. Needs valgrind. The case `memory` is the most memory of a run that loads 100,000 grants by texts of 10,000.

`--preload FILE` gives each figure a second time, with FILE before the C library (`LD_PRELOAD`): another allocator, as libmimalloc.so.2.
"""
import argparse
import re

from measure import frame
from measure_store import run

COUNTED = 60
ASK = '{principal: %s, action: Action::"%s", resource: %s, context: %s}'


def put(*entities):
    return frame('put', '[' + ', '.join(entities) + ']')


def grant_texts(numbers):
    return ''.join(f'permit(principal in Group::"g{n}", action == Action::"view", resource == Photo::"p{n}");\n' for n in numbers)


def grants(count):
    """A grant for each group, on one photo each; a user in each group."""
    text = grant_texts(range(count))
    users = put(*(f'{{uid: User::"u{n}", parents: [Group::"g{n}"]}}' for n in range(count)))
    middle = count // 2
    return frame('load', text) + users, ASK % (f'User::"u{middle}"', 'view', f'Photo::"p{middle}"', '{hour: 9}')


def roles(count):
    """Policies of ten roles and a hundred actions; the principal is in one of them, through ten levels."""
    text = ''.join(f'permit(principal in Role::"r{n % 10}", action == Action::"a{n % 100}", resource in Folder::"f{n // 10}");\n' for n in range(count))
    levels = [f'{{uid: Group::"g{n}", parents: [Group::"g{n + 1}"]}}' for n in range(9)]
    held = put('{uid: User::"u", parents: [Group::"g0"]}', *levels, '{uid: Group::"g9", parents: [Role::"r0"]}', '{uid: Data::"d", parents: [Folder::"f0"]}')
    return frame('load', text) + held, ASK % ('User::"u"', 'a0', 'Data::"d"', '{}')


def clauses(count):
    """Clauses that read the principal, the resource and the context; half of the policies are satisfied."""
    text = ''.join(f'permit(principal, action, resource) when {{ principal.level > {n} && resource.owner == principal && context.ip == "x" }};\n' for n in range(count))
    held = put(f'{{uid: User::"u", attrs: {{level: {count // 2}}}}}', '{uid: Data::"d", attrs: {owner: User::"u"}}')
    return frame('load', text) + held, ASK % ('User::"u"', 'read', 'Data::"d"', '{ip: "x"}')


def arithmetic(count):
    text = ''.join(f'permit(principal, action, resource) when {{ context.a + context.b * 2 - {n} == 0 }};\n' for n in range(count))
    return frame('load', text), ASK % ('User::"u"', 'read', 'Data::"d"', '{a: 1, b: -2}')


def written_sets(count):
    text = ''.join(f'permit(principal, action, resource) when {{ ["a{n}", "b", "c"].contains(context.s) }};\n' for n in range(count))
    return frame('load', text), ASK % ('User::"u"', 'read', 'Data::"d"', '{s: "d"}')


def action_lists(count):
    """Twenty policies whose scopes list so many actions; the one that is asked for isn't among them, nor held."""
    listed = ', '.join(f'Action::"a{n:03}"' for n in range(count))
    return frame('load', f'permit(principal, action in [{listed}], resource);\n' * 20), ASK % ('User::"u"', 'view', 'Data::"d"', '{}')


def contexts(count):
    """A context of so many keys."""
    keys = ', '.join(f'k{n}: {n}' for n in range(count))
    return frame('load', 'permit(principal, action, resource);'), ASK % ('User::"u"', 'read', 'Data::"d"', '{' + keys + '}')


def sets_of(longs):
    """A context of one set of these."""
    return frame('load', 'permit(principal, action, resource);'), ASK % ('User::"u"', 'read', 'Data::"d"', f'{{s: [{", ".join(map(str, longs))}]}}')


def rising_sets(count):
    return sets_of(range(10_000, 10_000 + count))


def mixed_sets(count):
    """The same longs, in no order."""
    return sets_of(10_000 + n * 389 % count for n in range(count))


CASES = {
    'grants': (grants, (10, 100, 1000, 10_000)),
    'roles': (roles, (10, 100, 1000)),
    'clauses': (clauses, (10, 100)),
    'arithmetic': (arithmetic, (50,)),
    'written_sets': (written_sets, (50,)),
    'action_lists': (action_lists, (100,)),
    'contexts': (contexts, (10, 100, 1000)),
    'rising_sets': (rising_sets, (500, 1000)),
    'mixed_sets': (mixed_sets, (500, 1000)),
}


def answered(command, data, preload):
    """The memory of a run, in MiB, and what it wrote; each command is answered."""
    _, memory, said = run(['env', f'LD_PRELOAD={preload}', *command] if preload else command, data)
    assert 'refused' not in said, 'a command of the case is refused'
    return memory, said


def instructions(program, data, preload):
    counter = ['valgrind', '--tool=callgrind', '--callgrind-out-file=/dev/null', program]
    return int(re.search(r'Collected : (\d+)', answered(counter, data, preload)[1])[1])


def of_a_question(program, held, question, preload):
    few, many = (instructions(program, held + frame('ask', question) * count, preload) for count in (COUNTED, 2 * COUNTED))
    return (many - few) / COUNTED


def of_loads(program, preload):
    """The memory of 100,000 grants that are loaded by texts of 10,000, in MiB."""
    texts = [grant_texts(range(first, first + 10_000)) for first in range(0, 100_000, 10_000)]
    return answered([program], b''.join(frame('load', it) for it in texts), preload)[0]


def tell(name, measure, preload):
    print(f'{name}: {measure(None):,.0f}' + (f'; with {preload} {measure(preload):,.0f}' if preload else ''), flush=True)


def main():
    words = argparse.ArgumentParser(description=__doc__, formatter_class=argparse.RawDescriptionHelpFormatter)
    words.add_argument('--program', required=True)
    words.add_argument('--preload')
    words.add_argument('cases', nargs='*', choices=[[], *CASES, 'memory'])
    given = words.parse_args()
    for name in given.cases or [*CASES, 'memory']:
        if name == 'memory':
            tell('memory, MiB', lambda preload: of_loads(given.program, preload), given.preload)
            continue
        made, sizes = CASES[name]
        for size in sizes:
            held, question = made(size)
            tell(f'{name}, {size}', lambda preload: of_a_question(given.program, held, question, preload), given.preload)


if __name__ == '__main__':
    main()
