#!/usr/bin/env python3
"""Prints requests of the line protocol for kind 3. Its records are laid out from node types, as document 02 (f) has them.

node_types.py types M                  reading all words of types that have the length of those of M trails
node_types.py words COUNT MOST [SEED]  reading random words for up to MOST trails: by turns a mesh's and seven that are nearly one's
node_types.py shelves COUNT [SEED]     shelving, fetching and walking; on shelves records of kind 3 have any length from 6 on, and many
                                       that are shelved are a mesh's
node_types.py longest                  reading a mesh of the most trails whose record is the longest
"""
import itertools
import random
import struct
import sys

CODE_A = {1: "00", 2: "01", 3: "1", 4: "1", 5: "1"}
MOST_TRAILS = 4095
TRIANGLE = bytes.fromhex("08000300030080A2")
# Of kinds 1, 2, 4 and 104h.
OTHERS = [bytes.fromhex(record) for record in ("070001000200C8", "08000200010080A2", "070004000100B0", "0900040101000100B0")]


def nodes(m):
    """How many types a mesh of m trails has: one for each area but the start's."""
    return 2 * m // 3 - 1


def lengths(types):
    """How many bytes code A takes, and how many the digits of types 3, 4 and 5."""
    bits = sum(len(CODE_A[kind]) for kind in types)
    digits = sum(kind > 2 for kind in types)
    return -(-bits // 8), -(-digits // 5)


def payload(types):
    codes, groups = lengths(types)
    bits = "".join(CODE_A[kind] for kind in types).ljust(8 * codes, "0")
    digits = "".join(str(kind - 3) for kind in types if kind > 2).ljust(5 * groups, "0")
    in_codes = (int(bits[8 * i : 8 * i + 8], 2) for i in range(codes))
    in_groups = (int(digits[5 * i : 5 * i + 5], 3) for i in range(groups))
    return bytes([*in_codes, *in_groups])


def headed(m, rest):
    return struct.pack("<3H", 6 + len(rest), 3, m) + rest


def shown(some_bytes):
    return some_bytes.hex().upper() or "-"


def reading(m, rest):
    return f"read {32 * m} {2 * m} {shown(headed(m, rest))}"


def staying(count, least):
    """How many leaves can stay without a free place in a tree of so many nodes, `least` or more at and below each of them."""
    fewest = max(least, 3 - count)
    return range(fewest + (fewest + count + 1) % 2, count + 2, 2)


def divided(count, left, least, rng):
    """For a node with two nodes below it: what each of them has of the others and of the leaves left; None if that cannot be."""
    first = rng.randrange(1, count - 1)
    second = count - 1 - first
    both = [stay for stay in staying(first, least) if left - stay in staying(second, least)]
    if not both:
        return None
    stay = rng.choice(both)
    return (first, stay), (second, left - stay)


def tree(count, left, least, rng):
    """The types of a random tree of so many nodes in which so many leaves stay, `least` or more at and below each node.

    With 2 left and least 1 it is a mesh's. With least 0 all leaves are joined, but some trails may be loops; with less some
    free places get no leaf.
    """
    ones = rng.choice((2, 5, 20))
    types, to_do = [], [(count, left)]
    while to_do:
        count, left = to_do.pop()
        if count == 1:
            types.append(5)
            continue
        parts = divided(count, left, least, rng) if count > 2 and rng.randrange(ones) == 0 else None
        if parts:
            types.append(1)
            to_do += reversed(parts)
            continue
        below = staying(count - 1, least)
        types.append(rng.choice([2, 2] * (left + 1 in below) + [3, 4] * (left - 1 in below)))
        to_do.append((count - 1, left + 1 if types[-1] == 2 else left - 1))
    return types


def word(turn, m, rng):
    """A reading: of a mesh at turn 0, at others of what is nearly one."""
    types = tree(nodes(m), 2, {1: 0, 2: -2}.get(turn, 1), rng)
    if turn == 3 and m > 3:
        types = tree(nodes(m), rng.choice((4, min(6, nodes(m) + 1))), 1, rng)
    if turn == 4:
        types[rng.randrange(len(types))] = rng.randrange(1, 6)
    if turn == 5:
        place, other = rng.randrange(len(types)), rng.randrange(len(types))
        other = rng.choice((other, (place + 1) % len(types)))
        types[place], types[other] = types[other], types[place]
    rest = payload(types)
    if turn == 6:
        m = max(1, m + rng.choice((-3, -1, 1, 3)))
    if turn == 7:
        place = rng.randrange(len(rest))
        changed = rng.choice((rest[place] ^ 1 << rng.randrange(8), rng.randrange(256)))
        rest = rng.choice((rest[:-1], rest + b"\0", rest[:place] + bytes([changed]) + rest[place + 1 :]))
    return reading(m, rest)


def words(count, most, seed=1):
    rng = random.Random(seed)
    for number in range(count):
        yield word(number % 8, 3 * rng.randint(1, most // 3), rng)


def readable(rng):
    """A record that a plan has, mostly a mesh's."""
    if rng.randrange(3) == 0:
        return rng.choice([TRIANGLE, *OTHERS])
    m = 3 * rng.randint(1, 40)
    return headed(m, payload(tree(nodes(m), 2, 1, rng)))


def some_record(rng):
    """A record for a shelf: mostly of kind 3 and of any length, seldom with a head that is none."""
    if rng.randrange(3) == 0:
        return readable(rng)
    m = rng.choice((1, 2, 3, 9, 4096)) if rng.randrange(20) else rng.choice((0, 4097))
    return headed(m, rng.randbytes(rng.choice((0, 0, 1, 2, 3, rng.randrange(300)))))


def lent_work(record, rng):
    """The word for a work area, a space after it: now and then of just the length that the record needs, or one less."""
    _, _, m = struct.unpack("<3H", record[:6])
    return rng.choice(("", "", "", f"work={32 * m} ", f"work={max(0, 32 * m - 1)} "))


def shelves(count, seed=1):
    rng = random.Random(seed)
    for number in range(count):
        records = [some_record(rng) for _ in range(rng.randrange(6))]
        shelf = b"".join(records)
        used = max(0, len(shelf) + (rng.choice((-1, 0, 1)) if rng.randrange(10) == 0 else 0))
        if number % 3:
            yield f"{('fetch', 'walk')[number % 3 - 1]} {used} {rng.randrange(len(records) + 2)} {shown(shelf)}"
            continue
        new = rng.choice([some_record(rng), readable(rng), readable(rng), *records])
        room = used + len(new) - rng.randrange(2)
        yield f"shelve {lent_work(new, rng)}{used} {room} {shown(shelf)} {shown(new)}"


def longest():
    """Types 2 are a third of the trails less one, types 5 one more than types 1; all others are free."""
    twos = MOST_TRAILS // 3 - 1

    def with_ones(ones):
        among = nodes(MOST_TRAILS) - twos - 2 * ones - 1
        pairs = list(itertools.islice(itertools.cycle((2, 3, 2, 4)), 2 * among))
        return [*pairs, *[2] * (twos - among), *[1, 5] * ones, 5]

    return max(map(with_ones, range(twos // 2 + 1)), key=lambda types: sum(lengths(types)))


def requests(what, *numbers):
    match what:
        case "types":
            (m,) = numbers
            return (reading(m, payload(types)) for types in itertools.product(range(1, 6), repeat=nodes(m)))
        case "words":
            return words(*numbers)
        case "shelves":
            return shelves(*numbers)
        case "longest":
            return [reading(MOST_TRAILS, payload(longest()))]


if __name__ == "__main__":
    for line in requests(sys.argv[1], *map(int, sys.argv[2:])):
        print(line)
