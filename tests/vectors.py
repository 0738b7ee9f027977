#!/usr/bin/env python3
"""Prints the rows of a file like crates/model/proofs/Vectors.antt with the answers of the second coder.

Usage: tests/vectors.py FILE COMMAND.., the second coder's. A row's kind, root, outside if it has one, and rotation are the
file's; what it says is the coder's: of an accepted plan the record and what is read from it.
"""
import re
import subprocess
import sys

ROW = re.compile(r"record { kind = (\d+); root = (\d+); (?:outside = (\d+); )?rotation = ([\d ∷]*)\[\];")


def plans(file):
    with open(file, encoding="utf-8") as text:
        rows = ROW.findall(text.read())
    return [(kind, root, outside, re.findall(r"\d+", rotation)) for kind, root, outside, rotation in rows]


def ask(lines):
    """The second coder's answers, each as a list of words."""
    said = subprocess.run(
        sys.argv[2:], input="".join(line + "\n" for line in lines), capture_output=True, text=True, check=True
    )
    return [answer.split() for answer in said.stdout.splitlines()]


def listed(numbers):
    return "".join(f"{n} ∷ " for n in numbers) + "[]"


def says(answer, rotation):
    """What a row says of a plan with this answer to writing it."""
    match answer:
        case ["ok", record]:
            [standard] = ask([f"read {16 * len(rotation)} {len(rotation)} {record}"])
            return f"standard_is ({listed(bytes.fromhex(record))}) ({listed(standard[-len(rotation):])})"
        case ["refused", "10", characteristic]:
            x = int(characteristic)
            return f"not_planar ({f'pos {x}' if x >= 0 else f'negsuc {-x - 1}'})"
        case _:
            return " ".join(answer)


def main():
    rows = plans(sys.argv[1])
    answers = ask(
        f"write {outside and f'outside={outside} '}{kind} {root} {16 * len(rotation)} 16 {' '.join(rotation)}"
        for kind, root, outside, rotation in rows
    )
    lines = [
        f"record {{ kind = {kind}; root = {root}; {outside and f'outside = {outside}; '}rotation = {listed(rotation)}; "
        f"says = {says(answer, rotation)} }}"
        for (kind, root, outside, rotation), answer in zip(rows, answers, strict=True)
    ]
    print("    " + "\n    ∷ ".join(lines) + "\n    ∷ []")


main()
