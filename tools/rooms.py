#!/usr/bin/env python3
"""rooms.py [ROOM], at the top of the repository: how many rooms of crates.txt stand on a room, directly or not, and which;
`cedar_world` where none is named. A statement of that room that changes has all of these proved again."""

import sys


def read(path="crates.txt"):
    """What each room stands on directly, by its name, in the order of the file."""
    rooms = {}
    with open(path, encoding="utf-8") as it:
        for line in it:
            head, colon, below = line.partition("#")[0].partition(":")
            if colon:
                rooms[head.split()[0]] = below.split()
    return rooms


def below(rooms, room):
    """What a room stands on, directly or not."""
    found, left = set(), [room]
    while left:
        for it in rooms.get(left.pop(), []):
            if it not in found:
                found.add(it)
                left.append(it)
    return found


def above(rooms, room):
    """The rooms that stand on a room, directly or not."""
    return [it for it in rooms if room in below(rooms, it)]


def nearest(rooms, room):
    """Of the rooms that a room stands on, those on which no other of them stands."""
    direct = [it for it in rooms[room] if it in rooms]
    return [it for it in direct if not any(it in below(rooms, other) for other in direct)]


def main():
    rooms = read()
    room = sys.argv[1] if len(sys.argv) > 1 else "cedar_world"
    if room not in rooms:
        print(f"crates.txt has no room {room}")
        return 1
    found = above(rooms, room)
    direct = [it for it in found if room in rooms[it]]
    print(f"{len(found)} of {len(rooms)} rooms stand on {room}, {len(direct)} of them directly")
    print("directly: " + " ".join(direct))
    print("through others: " + " ".join(it for it in found if it not in direct))
    return 0


if __name__ == "__main__":
    sys.exit(main())
