#!/usr/bin/env python3
"""Prints COUNT plans of TRAILS trails as `jurnadel write --lines` takes them: plans.py COUNT [TRAILS [SEED [LOOPS]]].

A map is grown trail by trail from two parallel trails, half of the maps without dead ends; about LOOPS of a hundred trails are
loops. Each map gives several plans, each with a start taken at random and numbered anew, so that some are the same plan in
another numbering.
"""
import random
import sys

PLANS_OF_A_MAP = 40
NUMBERINGS = 500


def insert(order, corner, dart):
    """Puts a dart into a corner, which is named by the dart that it follows."""
    order[dart] = order[corner]
    order[corner] = dart


def joined(order, at, corner, steps):
    """A corner of the same area, so many steps on or a few more, at another junction; None if none is near."""
    other = corner
    for step in range(steps + 8):
        other = order[other] ^ 1
        if step >= steps and at[other] != at[corner]:
            return other
    return None


def returning(order, at, corner, steps):
    """A corner of the same area and junction, within so many steps."""
    other = end = corner
    for _ in range(steps):
        other = order[other] ^ 1
        if at[other] == at[corner]:
            end = other
    return end


def grown(trails, hanging, loops, rng):
    """The turning order of a random map; `hanging` of a hundred trails lead to a new junction with no other trail."""
    order = [3, 2, 1, 0]
    at = [0, 1, 1, 0]
    while len(order) < 2 * trails:
        dart = len(order)
        corner = rng.randrange(dart)
        order += [dart, dart + 1]
        at += [at[corner], dart]
        if loops and rng.randrange(100) < loops:
            end = returning(order, at, corner, rng.randrange(12))
            insert(order, corner, dart)
            insert(order, dart if end == corner else end, dart + 1)
            at[dart + 1] = at[corner]
        elif rng.randrange(100) < hanging:
            insert(order, corner, dart)
        elif rng.randrange(100) < 50:
            divide(order, at, corner, dart)
        else:
            other = joined(order, at, corner, rng.randrange(6))
            if other is None:
                divide(order, at, corner, dart)
            else:
                insert(order, corner, dart)
                insert(order, other, dart + 1)
                at[dart + 1] = at[other]
    return order


def divide(order, at, far, dart):
    """A new junction on the trail of dart `far`: `far` and `dart` make it, the other new dart takes the place of `far`."""
    before = far
    while order[before] != far:
        before = order[before]
    order[before] = dart + 1
    order[dart + 1] = order[far]
    order[far], order[dart] = dart, far
    at[dart + 1] = at[far]
    at[far] = at[dart] = dart


def numberings(trails, rng):
    """Pairs of a numbering, a list that carries opposite darts to opposite darts, and its inverse."""
    for _ in range(NUMBERINGS):
        number = [2 * trail + side for trail in rng.sample(range(trails), trails) for side in rng.sample((0, 1), 2)]
        inverse = sorted(range(2 * trails), key=number.__getitem__)
        yield number, inverse


def plans(count, trails=40, seed=1, loops=0):
    rng = random.Random(seed)
    names = [str(dart) for dart in range(2 * trails)]
    known = list(numberings(trails, rng))
    for plan in range(count):
        if plan % PLANS_OF_A_MAP == 0:
            order = grown(trails, rng.choice((0, 30)), loops, rng)
        number, inverse = rng.choice(known)
        start = rng.randrange(2 * trails)
        yield " ".join([names[number[start]], *(names[number[order[dart]]] for dart in inverse)])


if __name__ == "__main__":
    for line in plans(*map(int, sys.argv[1:])):
        print(line)
