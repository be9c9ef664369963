#!/usr/bin/env python3
"""Writes the cases of crates/readings: files in hexadecimal (stdin) and what a reader must say of each (stdout).

The answers come from the rules in docs/FORMAT.md, written here a second time and in another way than in the crates, so
that the two can disagree. Run it in the repository's folder after a change of the format."""
import random
import struct

ACTIONS = [(1, 2, 1), (2, 1, 2), (6, 8, 4), (10, 16, 8), (34, 64, 32), (66, 32, 64), (49, 128, 0)]
GROUPS, BARS, INITIAL, GOAL = [3, 28, 96], [72], 37, 145


def record(sets):
    mask = sum(1 << i for i, s in enumerate(sets) if s)
    return bytes([mask]) + b"".join(struct.pack("<Q", s) for s in sets if s)


def book(facts=8, actions=ACTIONS, groups=GROUPS, bars=BARS, initial=INITIAL, goal=GOAL):
    out = bytes([facts, len(actions), len(groups), len(bars)]) + record((initial, goal))
    out += b"".join(record(a) for a in actions)
    return out + b"".join(struct.pack("<Q", s) for s in list(groups) + list(bars))


class Refused(Exception):
    pass


def said(data):
    """What the rules make of the bytes."""
    at = 0

    def no(number, where, byte=None):
        raise Refused(f"no {number} {where}" + ("" if byte is None else f" at {byte}"))

    def byte(where):
        nonlocal at
        if at >= len(data):
            no(1, where, at)
        at += 1
        return data[at - 1]

    def count(low, high):
        n = byte("head")
        return n if low <= n <= high else no(2, "head", at - 1)

    def one_set(where, n):
        nonlocal at
        field = data[at:at + 8]
        if len(field) < 8:
            no(1, where, at)
        s = int.from_bytes(field, "little")
        if not s:
            no(4, where, at)
        if s.bit_length() > n:
            no(5, where, at)
        at += 8
        return s

    def sets(where, fields, n):
        mask = byte(where)
        if mask >> fields:
            no(3, where, at - 1)
        return [one_set(where, n) if mask >> i & 1 else 0 for i in range(fields)]

    try:
        n, m, g, h = count(1, 64), count(0, 64), count(0, 16), count(0, 8)
        initial, _goal = sets("head", 2, n)
        actions = [sets(f"action {i}", 3, n) for i in range(m)]
        groups = [one_set(f"group {i}", n) for i in range(g)]
        bars = [one_set(f"bar {i}", n) for i in range(h)]
        if at < len(data):
            no(6, "head", at)
        ones = lambda s: bin(s).count("1")
        for i, (_needs, adds, deletes) in enumerate(actions):
            if adds & deletes:
                no(7, f"action {i}")
        for i in range(g):
            if any(groups[i] & other for other in groups[:i]):
                no(8, f"group {i}")
        for i in range(g):
            if ones(initial & groups[i]) != 1:
                no(9, f"group {i}")
        for i, action in enumerate(actions):
            for group in groups:
                needs, adds, deletes = (s & group for s in action)
                rests = adds == deletes == 0
                moves = ones(adds) == 1 and ones(deletes) == 1 and deletes == needs
                if ones(needs) > 1 or not (rests or moves):
                    no(10, f"action {i}")
        for i in range(h):
            if bars[i] | initial == initial:
                no(11, f"bar {i}")
        return f"ok {n} {m} {g} {h} back true short true"
    except Refused as e:
        return str(e)


def longest():
    """The longest book: every field there."""
    actions = [(2 ** 64 - 2 ** 32, 1 << 40, 1 << 41)] * 64
    groups = [3 << 2 * i for i in range(16)]
    return book(64, actions, groups, [1 << 63] * 8, sum(1 << 2 * i for i in range(16)), 1)


def cases():
    sample = book()
    yield sample
    yield longest()
    yield from (sample[:k] for k in range(len(sample)))
    yield sample + b"\0"
    for counts in ([0, 0, 0, 0], [65, 0, 0, 0], [8, 65, 0, 0], [8, 0, 17, 0], [8, 0, 0, 9], [1, 0, 0, 0, 0], [64, 0, 0, 0, 4]):
        yield bytes(counts)
    yield book(actions=[]) + b"x"
    yield sample[:4] + b"\4" + sample[5:]
    yield sample[:21] + b"\10" + sample[22:]
    yield sample[:5] + bytes(8) + sample[13:]
    yield sample[:-8] + bytes(8)
    yield book(initial=INITIAL | 256)
    yield book(goal=256)
    yield book(actions=ACTIONS[:3] + [(1 << 63, 0, 0)] + ACTIONS[3:])
    yield book(groups=[3, 28, 512])
    yield book(bars=[72, 256])
    # the whole book: 7 to 11, alone and against each other
    yield book(actions=ACTIONS + [(128, 128, 128), (0, 128, 128)])
    yield book(groups=[3, 28, 96, 1])
    yield book(groups=[3, 28, 96, 2], initial=36)
    yield book(initial=36)
    yield book(initial=39)
    yield book(actions=ACTIONS + [(3, 0, 0)])
    yield book(actions=ACTIONS + [(1, 2, 0)])
    yield book(actions=ACTIONS + [(1, 0, 1)])
    yield book(actions=ACTIONS + [(0, 2, 1)])
    yield book(actions=ACTIONS + [(4, 24, 4)])
    yield book(bars=[72, 33])
    yield book(bars=[37, 5])
    yield book(actions=[(3, 128, 128)] + ACTIONS, groups=[3, 28, 97], initial=0, bars=[])
    yield book(actions=[(3, 0, 0)], groups=[3, 28, 96], initial=37, bars=[1])
    # damage at random: bytes, then whole sets
    rng = random.Random(7)
    for _ in range(120):
        b = bytearray(sample)
        for _ in range(rng.randint(1, 2)):
            b[rng.choice((rng.randrange(len(b)), rng.randrange(30)))] = rng.choice((0, 1, 2, 4, 7, 8, 16, 64, 255, rng.randrange(256)))
        yield bytes(b)
    for _ in range(240):
        parts = {"actions": [list(a) for a in ACTIONS], "groups": list(GROUPS), "bars": list(BARS), "initial": INITIAL}
        for _ in range(rng.randint(1, 2)):
            which = rng.choice(("actions", "actions", "groups", "bars", "initial"))
            other = rng.choice((1 << rng.randrange(8), rng.randrange(1, 256)))
            if which == "initial":
                parts[which] ^= other
            elif which == "actions":
                rng.choice(parts[which])[rng.randrange(3)] ^= 1 << rng.randrange(8)
            else:
                parts[which][rng.randrange(len(parts[which]))] = other
        yield book(**parts)


def main():
    files = list(cases())
    with open("crates/readings/stdin", "w") as f:
        f.writelines(b.hex() + "\n" for b in files)
    with open("crates/readings/stdout", "w") as f:
        f.writelines(said(b) + "\n" for b in files)
    assert len(longest()) == 1813


if __name__ == "__main__":
    main()
