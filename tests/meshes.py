#!/usr/bin/env python3
"""Prints COUNT triangle meshes of TRAILS trails, a multiple of 3, as `jurnadel write --lines` takes them: meshes.py COUNT TRAILS [SEED].

A mesh is grown from the triangle: junctions are put into areas and joined to their three corners, and trails are turned to join
the other two corners of the areas beside them, where that makes no loop; so some meshes have parallel trails. Start and numbering
are taken at random.
"""
import random
import sys

from plans import insert


def junction(order, at, corner):
    """Puts a junction into the area of a corner."""
    first = len(order)
    corners = [corner, order[corner] ^ 1, order[order[corner] ^ 1] ^ 1]
    order += range(first, first + 6)
    # The corners come in the order of the area's walk, and so the other way round about the new junction.
    for place, corner in enumerate(corners):
        insert(order, corner, first + 2 * place)
        order[first + 2 * place + 1] = first + 2 * ((place - 1) % 3) + 1
        at += [at[corner], first]


def turn(order, at, dart):
    """Turns a trail to the other corners of its two areas, unless these are of one junction."""
    ends = (dart, dart ^ 1)
    corners = [order[end] ^ 1 for end in ends]
    if at[corners[0]] == at[corners[1]]:
        return
    for end in ends:
        order[order.index(end)] = order[end]
    for end, corner in zip(ends, corners):
        insert(order, corner, end)
        at[end] = at[corner]


def mesh(trails, rng):
    order = [5, 2, 1, 4, 3, 0]
    at = [0, 1, 1, 2, 2, 0]
    while len(order) < 2 * trails:
        junction(order, at, rng.randrange(len(order)))
        for _ in range(rng.randrange(4)):
            turn(order, at, rng.randrange(len(order)))
    return order


def main(count, trails, seed=1):
    rng = random.Random(seed)
    for _ in range(count):
        order = mesh(trails, rng)
        number = [2 * trail + side for trail in rng.sample(range(trails), trails) for side in rng.sample((0, 1), 2)]
        inverse = sorted(range(2 * trails), key=number.__getitem__)
        print(rng.randrange(2 * trails), *(number[order[dart]] for dart in inverse))


if __name__ == "__main__":
    main(*map(int, sys.argv[1:]))
