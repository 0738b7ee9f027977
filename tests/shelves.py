#!/usr/bin/env python3
"""Holds the lines that program `shelves` must write to the answers of the second coder, whose command is the arguments.

The cases stand here as in the program, so that a line with another case is seen too. The second coder is asked all but
steps from a place that no walk comes to, which follow document 01, and how many records a search compares, which follows
document 02 (g) from the number that the second coder gives.
"""
import difflib
import struct
import subprocess
import sys

STARRED = [
    "07 00 01 00 02 00 C8",
    "08 00 01 00 03 00 E2 00",
    "08 00 01 00 03 00 D2 80",
    "08 00 02 00 01 00 80 A2",
    "08 00 02 00 02 00 C0 36",
    "08 00 02 00 02 00 A0 D8",
    "08 00 02 00 02 00 C0 51",
    "08 00 02 00 03 00 CC 12",
]
# Records to shelve on the full shelf: those that are there already, then refusals 1, 2, 3 and 5, each twice.
ON_FULL = [
    STARRED[0],
    STARRED[3],
    STARRED[4],
    STARRED[7],
    "05 00 01 00 02",
    "08 00 05 00 00 00 C8",
    "07 00 00 00 00 00 C8",
    "07 00 05 00 02 00 C8",
    "07 00 01 00 00 00 C8",
    "07 00 01 00 01 10 C8",
    "07 00 01 00 03 00 C8",
    "07 00 02 00 01 00 80",
]
UNREADABLE = "07 00 01 00 02 00 CC"
# A record, a used length and the length of the work area: 14 three times, 16; then refusals met while reading.
WORK = 96
REFUSED = [
    (STARRED[0], 71, WORK),
    (STARRED[0], 62, WORK),
    (STARRED[0], 64, WORK),
    ("08 00 01 00 03 00 E1 00", 63, WORK),
    (UNREADABLE, 63, 64),
    (UNREADABLE, 63, 63),
    (STARRED[0], 71, 63),
    (UNREADABLE, 71, WORK),
    ("08 00 01 00 03 00 CC CC", 63, WORK),
]
# A number and a used length; for a walk how many steps too.
FETCHES = [(number, 63) for number in range(9)] + [(3, 23), (0, 0), (0, 62), (0, 71)]
WALKS = [(0, 63, 9), (5, 63, 4), (1, 15, 2), (8, 63, 2), (0, 0, 2), (0, 62, 2), (0, 71, 2)]
# A place, a used length, how many steps.
NOWHERE = [(3, 63, 2), (62, 63, 2), (1000, 63, 2)]
CUT_SHORT = [(47, 62, 3)]


def ask(*words):
    """The number of the refusal, 0 if there is none, and the words that come with the answer."""
    request = " ".join(map(str, words))
    coder = subprocess.run(
        sys.argv[1:], input=request + "\n", capture_output=True, text=True, check=True
    )
    outcome, *rest = coder.stdout.split()
    if outcome not in ("ok", "refused"):
        sys.exit(f"tests/shelves.py: {request}: the second coder says {coder.stdout}")
    return (0, rest) if outcome == "ok" else (int(rest[0]), [])


def shown(record):
    return record.hex(" ").upper() or "none"


def compared(used_bytes, record, number):
    """Of how many records the search compared more than the length: those of this length up to the number that it found."""
    records = []
    while used_bytes:
        length = struct.unpack("<H", used_bytes[:2])[0]
        records.append(used_bytes[:length])
        used_bytes = used_bytes[length:]
    return sum(len(met) == len(record) for met in records[: number + 1])


def shelve(shelf, used, record, work=WORK):
    """The line; shelf and used length after it."""
    asked = f"shelve {record}, used {used} of {len(shelf)}, work {work}"
    refusal, rest = ask("shelve", f"work={work}", used, len(shelf), shelf.hex(), record.replace(" ", ""))
    if refusal:
        return f"{asked}: refusal {refusal}", shelf, used
    number, end, after = rest
    looked = compared(shelf[:used], bytes.fromhex(record), int(number))
    return f"{asked}: record {number}, used {end}, compared {looked}", bytes.fromhex(after), int(end)


def fetch(shelf, number, used):
    refusal, rest = ask("fetch", used, number, shelf.hex())
    return f"fetch {number}, used {used}: refusal {refusal}, {shown(bytes.fromhex(''.join(rest)))}"


def walk(shelf, number, used, count):
    """The walked records end where the used bytes do, so their lengths give the places."""
    refusal, rest = ask("walk", used, number, shelf.hex())
    records = [bytes.fromhex(record) for record in rest] + [b""] * count
    place = used - sum(map(len, records))
    yield f"walk from {number}, used {used}: refusal {refusal}, {shown(records[0])}"
    places = []
    for record in records[:count]:
        yield f"  at {place}: {shown(record)}"
        places.append(str(place))
        place += len(record)
    yield "  places " + " ".join(places)


def standing(used_bytes, place):
    """The record at this place, if one stands there that passes checks 1, 2, 3 and 5; else no bytes."""
    rest = used_bytes[place:]
    if len(rest) < 6:
        return b""
    length, kind, m = struct.unpack("<3H", rest[:6])
    lengths = {1: 6 + (3 * m + 7) // 8, 2: 6 + (2 * m + 7) // 8 + (m + 4) // 5, 4: 6 + (m + 1) // 2}
    lengths |= {0x100 + plain: fixed + 2 for plain, fixed in lengths.items()} | {3: length}
    passes = 6 <= length <= len(rest) and kind in lengths and 1 <= m <= 4096 and length == lengths[kind]
    return rest[:length] if passes else b""


def steps(shelf, place, used, count):
    for _ in range(count):
        record = standing(shelf[:used], place)
        yield f"  at {place}: {shown(record)}"
        place += len(record)


def looked(shelf):
    """The lines of what is fetched and walked."""
    yield f"the shelf {shown(shelf)}"
    for case in FETCHES:
        yield fetch(shelf, *case)
    for case in WALKS:
        yield from walk(shelf, *case)
    yield "from places where nothing stands"
    for case in NOWHERE:
        yield from steps(shelf, *case)
    yield "the last record cut short"
    for case in CUT_SHORT:
        yield from steps(shelf, *case)


def lines():
    shelf, used = b"\xEE" * 70, 0
    for record in STARRED + ON_FULL:
        line, shelf, used = shelve(shelf, used, record)
        yield line
    for record, given, work in REFUSED:
        line, shelf, _ = shelve(shelf, given, record, work)
        yield line
    yield from looked(shelf)
    line, shelf, used = shelve(shelf, used, "07 00 04 00 01 00 B0")
    yield line
    yield fetch(shelf, 8, used)
    line, shelf, used = shelve(bytes.fromhex(2 * STARRED[0]), 14, STARRED[0])
    yield line
    yield fetch(shelf, 1, used)
    line, shelf, used = shelve(b"\xEE" * 7, 0, STARRED[0], 64)
    yield line
    yield fetch(shelf, 0, used)
    yield from lent()


def lent():
    """A lent shelf that holds a record no plan has."""
    shelf = bytes.fromhex(UNREADABLE) + b"\xEE" * 7
    line, shelf, used = shelve(shelf, 7, UNREADABLE)
    yield line
    line, shelf, used = shelve(shelf, 7, STARRED[0])
    yield line
    yield fetch(shelf, 0, used)
    yield from walk(shelf, 0, used, 3)


def main():
    with open("crates/shelves/stdout") as stored:
        said = stored.read().split("\n")
    made = [*lines(), ""]
    if said != made:
        wrong = difflib.unified_diff(said, made, "crates/shelves/stdout", "the second coder", lineterm="", n=0)
        sys.exit("tests/shelves.py: the second coder says otherwise\n" + "\n".join(wrong))
    print(f"tests/shelves.py: the second coder agrees on {len(made) - 1} lines")


main()
