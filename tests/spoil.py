#!/usr/bin/env python3
"""Spoils the requests of standard input, each in one place; what comes out is mostly no request of the line protocol."""
import random
import sys

# Verbs of document 02, and words that are no verb.
VERBS = "load areas open close compare same starts club-shelve club-fetch game census Write writes - /".split()
# In place of a number or of bytes: signs, other digits, numbers at the limits, options.
WORDS = (
    "- / + +1 -1 1.0 1e1 0x1 007 a1 A 0g C8C8 c8 CG 65535 65536 99999 18446744073709551615 18446744073709551616 "
    "outside=0 outside=7 outside=65536 outside= outside=+1 Outside=0 table= table=00 work=0 work=131072 work=x ۱ é"
).split()
STANDARD = "table=" + bytes(range(243)).hex()
WORDS += [STANDARD, STANDARD + "f3", STANDARD + ":", STANDARD + ":" + bytes([*range(243), *[243] * 13]).hex()]
# In place of a space, or at an end: some part words, some do not, one is no UTF-8.
SPACES = [b"\t", b"  ", b"\x0c", b"\x0b", b"\r", b"\xc2\xa0", b"\xff", b","]


def spoil(request, chance):
    words = request.split()
    place = chance.randrange(len(words))
    match chance.randrange(8):
        case 0:
            words[0] = chance.choice(VERBS)
        case 1:
            words.insert(1, chance.choice(WORDS))
        case 2:
            words.insert(place + 1, chance.choice(WORDS))
        case 3 | 4:
            words[place] = chance.choice(WORDS)
        case 5:
            del words[place]
        case 6:
            at = chance.randrange(len(words[place]))
            words[place] = words[place][:at] + chance.choice("0aG+-= ") + words[place][at + 1 :]
        case 7:
            at = chance.randrange(len(words) + 1)
            return " ".join(words[:at]).encode() + chance.choice(SPACES) + " ".join(words[at:]).encode()
    return " ".join(words).encode()


def long_shelf(line):
    """Whether the answer may be a shelf of millions of bytes."""
    verb, *words = line.split() or [b""]
    lengths = [word for word in words if b"=" not in word]
    return verb == b"shelve" and len(lengths) > 1 and lengths[1].isdigit() and len(lengths[1]) > 6


def main():
    chance = random.Random(2026)
    for request in sys.stdin:
        line = spoil(request, chance)
        if not long_shelf(line):
            sys.stdout.buffer.write(line + b"\n")


main()
