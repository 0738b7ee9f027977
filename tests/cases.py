#!/usr/bin/env python3
"""Holds the lines that program `cases` must write to the answers of the second coder, whose command is the arguments."""
import subprocess
import sys


def turning(even, odd, darts=8192):
    return [(dart + (odd if dart % 2 else even)) % 8192 for dart in range(darts)]


LARGE = {
    "ring of 4096 trails": turning(8191, 1),
    "star of 4096 trails": turning(2, 0),
    "loops of 4096 trails": turning(1, 1),
    "8192 darts": turning(0, 0),
    "8194 darts": turning(0, 0, 8194),
}


def request(case):
    """A line of the protocol: write [outside=N] KIND START WORK OUTPUT ENTRIES, or areas WORK LIST ENTRIES where no kind is said."""
    name, *details = case.split(", ")
    order = LARGE.get(name)
    if order is None:
        entries = name.removeprefix("order")
        order = [] if "length 0" in entries else [int(entry) for entry in entries.split()]
    given = {"start": 0, "work area": 32 * (len(order) // 2) or 32, "output": 2056, "list": 4097}
    for detail in details:
        key, _, value = detail.rpartition(" ")
        given[key] = int(value) if value.isdigit() else value
    entries = " ".join(map(str, order))
    if "kind" not in given:
        return "areas {} {} {}".format(given["work area"], given["list"], entries)
    outside = "outside={} ".format(given["outside"]) if "outside" in given else ""
    return f"write {outside}{given['kind']} {given['start']} {given['work area']} {given['output']} {entries}"


def line(answer):
    """What the program prints of an answer: ok HEX, ok COUNT LENGTHS, refused NUMBER, or refused 10 CHARACTERISTIC."""
    word, first, *rest = answer.split()
    if word == "refused":
        return f"refusal {first}" + "".join(f", characteristic {x}" for x in rest)
    if rest:
        many = int(first) > 16
        return f"areas {first}, " + (f"sum {sum(map(int, rest))}" if many else f"lengths {' '.join(rest)}")
    record = bytes.fromhex(first)
    if len(record) <= 16:
        return f"length {len(record)}, bytes {record.hex(' ').upper()}"
    checksum = 0
    for byte in record:
        checksum = (31 * checksum + byte) % 65521
    return f"length {len(record)}, checksum {checksum}"


def main():
    with open("crates/cases/stdout") as stored:
        cases = [case.rstrip("\n").split(": ") for case in stored]
    requests = "".join(request(case) + "\n" for case, _ in cases)
    coder = subprocess.run(sys.argv[1:], input=requests, capture_output=True, text=True, check=True)
    answers = coder.stdout.splitlines()
    wrong = [
        f"{case}: {said}, not {line(answer)}"
        for (case, said), answer in zip(cases, answers, strict=True)
        if said != line(answer)
    ]
    if wrong:
        sys.exit("tests/cases.py: the second coder says otherwise\n" + "\n".join(wrong))
    print(f"tests/cases.py: the second coder agrees on {len(cases)} cases")


main()
