#!/usr/bin/env python3
"""Writes a journal of about so many MiB: journal.py FILE MEBIBYTES"""

import sys


def main():
    name, wanted = sys.argv[1], int(sys.argv[2]) * 1_048_576
    # 64 threads in turn, with steps of one to four digits, and now and then an attempt.
    block = "".join(
        f"run {turn % 64} {turn * 7 % 4096 + 1}\n" for turn in range(4096)
    )
    block = (block + "attempt\n").encode()
    with open(name, "wb") as file:
        file.write(block * ((wanted - len("end\n")) // len(block)))
        file.write(b"end\n")


main()
