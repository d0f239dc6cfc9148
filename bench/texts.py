#!/usr/bin/env python3
"""Writes an assembler text of about so many bytes: texts.py SHAPE BYTES FILE

`lines`: methods of short instructions. `labels`: methods of labels, each with a branch to the one
before. `entries`: methods of instructions that each name an entry of the constant pool of its own,
as far as a pool has room for them, and then the same again.
"""

import sys

# The lines of a method, so that its code stays below 65,536 bytes, and its branches in their range.
MOST_LINES = 8_000


def instruction(shape, number):
    if shape == "lines":
        return "iinc 1 1"
    if shape == "labels":
        return f"at L{number}\ngoto L{max(number - number % MOST_LINES, number - 1)}"
    return f"ldc int {100_000 + number % 60_000}\npop"


def main():
    shape, size, name = sys.argv[1], int(sys.argv[2]), sys.argv[3]
    lines, written, number = ["class Main extends java/lang/Object"], 36, 0
    while written < size:
        method = [f"method 9 m{number} ()V", "stack 1 locals 2"]
        for _ in range(MOST_LINES):
            method.append(instruction(shape, number))
            written += len(method[-1]) + 1
            number += 1
            if written >= size:
                break
        number += MOST_LINES - 1 - (number - 1) % MOST_LINES
        lines += method + ["return", "end"]
    with open(name, "w") as out:
        out.write("\n".join(lines) + "\n")


main()
