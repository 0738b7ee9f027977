#!/usr/bin/env python3
"""Makes the planar_code files of this folder but planarg's own (planarg-*.pc), each from a drawing, and beside those that
are to be taken the plan that a drawing has: its entries counterclockwise, its start the first neighbour that the code
lists. Nothing here is shared with the tool; the files are kept, so that the tests need not run this."""
import math
import os

FOLDER = os.path.dirname(os.path.abspath(__file__))
HEADER = b">>planar_code<<"


def straight(points, edges):
    """A drawing of straight edges between points: for each edge its ends and the angles at which it leaves them."""
    def angle(u, v):
        return math.degrees(math.atan2(points[v][1] - points[u][1], points[v][0] - points[u][0]))
    return len(points), [(u, angle(u, v), v, angle(v, u)) for u, v in edges]


def around(drawing):
    """For each vertex its (angle, edge, end), counterclockwise."""
    count, edges = drawing
    ends = [[] for _ in range(count)]
    for e, (u, a, v, b) in enumerate(edges):
        ends[u].append((a % 360, e, 0))
        ends[v].append((b % 360, e, 1))
    return [sorted(vertex) for vertex in ends]


def numbers(drawing):
    """The numbers of the code: neighbours clockwise, from 1."""
    count, edges = drawing
    code = [count]
    for vertex in around(drawing):
        code += [edges[e][0 if end else 2] + 1 for _, e, end in reversed(vertex)] + [0]
    return code


def plan(drawing):
    """The plan file: edge e has darts 2e and 2e+1."""
    order = [0] * (2 * len(drawing[1]))
    for vertex in around(drawing):
        for (_, e, end), (_, f, other) in zip(vertex, vertex[1:] + vertex[:1]):
            order[2 * e + end] = 2 * f + other
    _, e, end = around(drawing)[0][-1]
    return "start: %d\n%s\n" % (2 * e + end, " ".join(map(str, order)))


TETRAHEDRON = straight([(0, 0), (0, 4), (-4, -3), (4, -3)], [(0, 1), (0, 2), (0, 3), (1, 2), (2, 3), (3, 1)])
CUBE = straight([(1, 1), (-1, 1), (-1, -1), (1, -1), (3, 3), (-3, 3), (-3, -3), (3, -3)],
                [(i, (i + 1) % 4) for i in range(4)] + [(4 + i, 4 + (i + 1) % 4) for i in range(4)] + [(i, 4 + i) for i in range(4)])
# No turn and no mirror maps it to itself; two dead ends.
VALLEY = straight([(0, 0), (4, 1), (7, -2), (3, -4), (-3, -2), (-4, 3), (1, 5), (6, 4), (9, 2), (2, 2), (-7, 4)],
                  [(0, 1), (1, 2), (2, 3), (3, 0), (0, 4), (4, 5), (5, 6), (6, 1), (6, 7), (7, 8), (1, 9), (5, 10), (1, 3), (0, 5), (4, 3)])
PATH = straight([(0, 0), (1, 0)], [(0, 1)])
# Three parallel edges; a double edge with a vertex between and one outside.
THETA = 2, [(0, 40, 1, 140), (0, 0, 1, 180), (0, 320, 1, 220)]
DOUBLED = 4, [(0, 60, 1, 120), (0, 300, 1, 240), (0, 0, 2, 180), (1, 180, 2, 0), (0, 80, 3, 250), (1, 100, 3, 290)]
# The parallel edges of the first two could bound the dead ends on one side or on both.
OPEN = 4, [(0, 60, 1, 120), (0, 300, 1, 240), (0, 0, 2, 180), (1, 180, 3, 0)]
APART = 4, [(0, 0, 1, 180), (2, 0, 3, 180)]
CROSSING = straight([(0, 0), (2, 0), (2, 2), (0, 2), (3, 5)],
                    [(0, 1), (1, 2), (2, 3), (3, 0), (0, 2), (1, 3), (4, 0), (4, 1), (4, 2), (4, 3)])
LOOP = 2, [(0, 0, 1, 180), (0, 100, 0, 140)]
# Loops on both sides of a double edge, one around a dead end; a vertex beside the double edge tells how it is joined.
PARK = 4, [(0, 60, 1, 120), (0, 300, 1, 240), (0, 80, 3, 250), (1, 100, 3, 290), (0, 340, 0, 20), (0, 0, 2, 180), (0, 150, 0, 210), (1, 170, 1, 190)]
# Two loops with nothing between them that is joined elsewhere: they could be in each other.
PETALS = 2, [(0, 20, 0, 100), (0, 60, 1, 240), (0, 200, 0, 300)]


def write(name, data):
    with open(os.path.join(FOLDER, name), "wb") as file:
        file.write(data)


def main():
    for name, drawings in [("tetrahedron", [TETRAHEDRON]), ("cube", [CUBE]), ("valley", [VALLEY]), ("doubled", [DOUBLED]),
                           ("several", [PATH, THETA, TETRAHEDRON]), ("loops", [LOOP, PARK])]:
        write(name + ".pc", HEADER + bytes(sum(map(numbers, drawings), [])))
        for i, drawing in enumerate(drawings):
            write("%s-%d.plan" % (name, i + 1), plan(drawing).encode())
    write("wide.pc", b">>planar_code be<<" + b"\0" + b"".join(n.to_bytes(2, "big") for n in numbers(VALLEY)))
    for name, drawing in [("open", OPEN), ("apart", APART), ("crossing", CROSSING), ("petals", PETALS)]:
        write(name + ".pc", HEADER + bytes(numbers(drawing)))
    write("cut.pc", HEADER + bytes(numbers(CUBE))[:-3])
    write("bare.pc", bytes(numbers(CUBE)))


main()
