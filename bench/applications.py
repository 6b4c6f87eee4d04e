#!/usr/bin/env python3
"""Counts what an ask takes in three applications, as those who write policies write them, and what one takes between edits.

    python3 bench/applications.py --program crates/cedar_main/out/cedar_main [--instructions] [NAME..]

Documents stand in nested folders and are shared with groups; repositories have teams and roles; to-do lists are shared by links of
templates. Each is built small and large. Of an ask is printed what it takes above the same ask in a session that holds nothing, which
is what reading its body and writing its answer take: in microseconds, or with `--instructions` as valgrind counts them. Churn is a
round of an ask and an edit of one entity, a link that is made and taken away, or a policy that is loaded and removed: printed is the
whole round.
"""
import argparse
import re
import subprocess
import time

# How often an ask is repeated where it is timed, and where its instructions are counted.
TIMED, COUNTED = 2000, 51

DOCUMENTS = """
@id("owners do all") permit(principal, action, resource is Document) when { resource.owner == principal };
@id("viewers read") permit(principal, action in Action::"reading", resource is Document) when { principal in resource.viewers };
@id("editors write") permit(principal, action in Action::"writing", resource is Document) when { principal in resource.editors };
@id("staff read the handbook") permit(principal in Group::"staff", action in Action::"reading", resource in Folder::"f0");
@id("public") permit(principal, action == Action::"view", resource) when { resource has public && resource.public };
@id("locked") forbid(principal, action in Action::"writing", resource is Document) when { resource.locked && resource.owner != principal };
@id("second factor") forbid(principal, action == Action::"share", resource) unless { context.second_factor };
"""

REPOSITORIES = """
@id("readers") permit(principal, action in Action::"reading", resource is Repository) when { principal in resource.readers };
@id("triagers") permit(principal, action in Action::"triaging", resource is Repository) when { principal in resource.triagers };
@id("writers") permit(principal, action in Action::"writing", resource is Repository) when { principal in resource.writers };
@id("maintainers") permit(principal, action in Action::"maintaining", resource is Repository) when { principal in resource.maintainers };
@id("admins") permit(principal, action, resource is Repository) when { principal in resource.admins };
@id("reporters") permit(principal, action == Action::"edit-issue", resource is Issue) when { resource.reporter == principal };
@id("archived") forbid(principal, action in Action::"writing", resource is Repository) when { resource.archived };
@id("hours") forbid(principal, action == Action::"delete", resource) when { context.hour < 8 || context.hour > 18 };
"""

LISTS = """
@id("owners") permit(principal, action, resource is List) when { resource.owner == principal };
@id("anyone makes lists") permit(principal, action in [Action::"create-list", Action::"get-lists"], resource == Application::"lists");
@id("interns") forbid(principal in Team::"interns", action == Action::"create-list", resource == Application::"lists");
@id("hours") forbid(principal, action == Action::"delete-list", resource) when { context.hour < 8 };
permit(principal == ?principal, action in Action::"reading", resource == ?resource);
permit(principal in ?principal, action in Action::"editing", resource == ?resource);
"""


def frame(verb, body):
    data = body.encode("utf-8")
    return b"%s %d\n%s\n" % (verb.encode(), len(data), data)


def entity(uid, parents=(), attrs=""):
    return "{uid: %s, parents: [%s], attrs: {%s}}" % (uid, ", ".join(parents), attrs)


def put(entities):
    return frame("put", "[" + ", ".join(entities) + "]")


def actions(groups_of):
    """Actions, each in groups of its own."""
    return [entity('Action::"%s"' % name, ['Action::"%s"' % it for it in groups.split()]) for name, groups in groups_of.items()]


def users(count, kind, each):
    """Users, each in one of as many groups as there are for `each` of them, and those in one of all."""
    groups = max(1, count // each)
    yield from (entity('%s::"%d"' % (kind, n), ['%s::"staff"' % kind]) for n in range(groups))
    yield from (entity('User::"u%d"' % n, ['%s::"%d"' % (kind, n % groups)]) for n in range(count))


def documents(count):
    """Folders in folders, five deep, with a document for each user; each is shared with two groups."""
    folders = [entity('Folder::"f%d"' % n, ['Folder::"f%d"' % (n // 4)] if n else []) for n in range(max(6, count // 4))]
    shared = 'owner: User::"u%d", viewers: Group::"%d", editors: Group::"%d", locked: %s'
    groups = max(1, count // 8)
    papers = [
        entity('Document::"d%d"' % n, ['Folder::"f%d"' % (n % len(folders))], shared % (n, n % groups, (n + 1) % groups, "false"))
        for n in range(count)
    ]
    acts = actions({"view": "reading", "comment": "reading", "edit": "writing", "move": "writing", "delete": "writing"})
    n = count // 2
    body = '{principal: User::"u%d", action: Action::"view", resource: Document::"d%d", context: {second_factor: true}}'
    held = put(acts + list(users(count, "Group", 8))) + put(folders + papers)
    return held + frame("load", DOCUMENTS), body % (n + groups, n)


def repositories(count):
    """Repositories of as many teams, whose roles are teams; issues that users reported."""
    teams = max(1, count // 6)
    roles = ("readers", "triagers", "writers", "maintainers", "admins")
    given = lambda n: ", ".join('%s: Team::"%d"' % (role, (n + at) % teams) for at, role in enumerate(roles))
    stores = [entity('Repository::"r%d"' % n, [], given(n) + ", archived: false") for n in range(count // 2)]
    issues = [entity('Issue::"i%d"' % n, ['Repository::"r%d"' % (n // 2)], 'reporter: User::"u%d"' % n) for n in range(count // 2)]
    acts = {"pull": "reading", "fork": "reading", "label": "triaging", "push": "writing", "merge": "maintaining"}
    n = count // 4
    body = '{principal: User::"u%d", action: Action::"push", resource: Repository::"r%d", context: {hour: 9}}'
    held = put(actions(acts) + list(users(count, "Team", 6))) + put(stores + issues)
    return held + frame("load", REPOSITORIES), body % ((n + 2) % teams, n)


def lists(count):
    """Lists, each shared with one user to read it and with one team to edit it."""
    teams = max(1, count // 8)
    held = [entity('List::"l%d"' % n, ['Application::"lists"'], 'owner: User::"u%d"' % n) for n in range(count)]
    acts = actions({"get-list": "reading editing", "add-task": "editing", "remove-task": "editing"})
    link = '{template: "%s", id: "%s%d", principal: %s, resource: List::"l%d"}'
    links = b"".join(
        frame("link", link % ("policy4", "reader", n, 'User::"u%d"' % ((n + 1) % count), n))
        + frame("link", link % ("policy5", "editor", n, 'Team::"%d"' % (n % teams), n))
        for n in range(count)
    )
    n = count // 2
    body = '{principal: User::"u%d", action: Action::"get-list", resource: List::"l%d", context: {hour: 9}}' % (n + 1, n)
    return put(acts + list(users(count, "Team", 8))) + put(held) + frame("load", LISTS) + links, body


APPLICATIONS = {"documents": documents, "repositories": repositories, "lists": lists}

# The numbers of users: some 50 entities and some 5,000.
SIZES = {"small": 24, "large": 2000}


def churns(count):
    """What is held, the ask, and what stands around it in a round."""
    held, body = lists(count)
    ask = frame("ask", body)
    link = frame("link", '{template: "policy4", id: "new", principal: User::"u0", resource: List::"l1"}') + ask + frame("unlink", '"new"')
    number = frame("load", 'permit(principal == User::"u0", action, resource == List::"l1");') + ask + frame("remove-static", '"policy6"')
    yield "an entity is put", held, put([entity('User::"u0"', ['Team::"0"'])]) + ask
    yield "a link is made and taken away", held, link + ask
    yield "a policy is loaded and removed", held, number + ask


def seconds(program, data):
    start = time.perf_counter()
    done = subprocess.run([program], input=data, stdout=subprocess.PIPE, check=False)
    taken = time.perf_counter() - start
    assert done.returncode == 0 and done.stdout.endswith(b"end\n"), done.stdout[-200:]
    assert b"refused" not in done.stdout, "a command of the case is refused"
    return taken


def instructions(program, data):
    counter = ["valgrind", "--tool=callgrind", "--callgrind-out-file=/dev/null", program]
    return int(re.search(rb"Collected : (\d+)", subprocess.run(counter, input=data, capture_output=True, check=True).stderr)[1])


def one(measured, held, round_of, count):
    """What one more round takes, once the first is over."""
    return (measured(held + round_of * count) - measured(held + round_of)) / (count - 1)


def answered(program, held, body):
    done = subprocess.run([program], input=held + frame("ask", body), stdout=subprocess.PIPE, check=True)
    return done.stdout.splitlines()[-2].decode()


def main():
    words = argparse.ArgumentParser(description=__doc__, formatter_class=argparse.RawDescriptionHelpFormatter)
    words.add_argument("--program", required=True)
    words.add_argument("--instructions", action="store_true")
    words.add_argument("names", nargs="*")
    given = words.parse_args()
    count, unit = (COUNTED, "instructions") if given.instructions else (TIMED, "microseconds")
    if given.instructions:
        measured = lambda data: instructions(given.program, data)
    else:
        measured = lambda data: min(seconds(given.program, data) for _ in range(5)) * 1e6
    for name, made in APPLICATIONS.items():
        for size, users_held in SIZES.items():
            if given.names and name not in given.names:
                continue
            held, body = made(users_held)
            ask = frame("ask", body)
            above = one(measured, held, ask, count) - one(measured, b"", ask, count)
            line = answered(given.program, held, body)
            print(f"{name}, {size}: {above:,.1f} {unit} above reading the body; {line[:60]}", flush=True)
    if not given.names or "churn" in given.names:
        for size, users_held in SIZES.items():
            for name, held, round_of in churns(users_held):
                print(f"churn, {size}, {name}: {one(measured, held, round_of, count):,.1f} {unit} a round", flush=True)


if __name__ == "__main__":
    main()
