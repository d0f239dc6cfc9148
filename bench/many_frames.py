#!/usr/bin/env python3
"""Writes a class file whose one method has many locals and a stack map of many short entries: many_frames.py FILE"""

import sys

from class_file import attribute, u2, u4, utf8, write

POOL = [
    utf8(b"Frames"), b"\x07" + u2(1), utf8(b"java/lang/Object"), b"\x07" + u2(3),
    utf8(b"Code"), utf8(b"StackMapTable"), utf8(b"()V"), utf8(b"m"),
]
# As many as a method may have.
PLACES, LOCALS = 65_535, 4_096


def main():
    # nop, and return at the end
    code = bytes(PLACES - 1) + b"\xb1"
    # full_frame with ints alone, then same_frame at each place
    full = b"\xff" + u2(0, LOCALS) + b"\x01" * LOCALS + u2(0)
    frames = u2(PLACES) + full + bytes(PLACES - 1)
    body = u2(0, LOCALS) + u4(len(code)) + code + u2(0, 1) + attribute(6, frames)
    write(sys.argv[1], POOL, [], [], [u2(9, 8, 7, 1) + attribute(5, body)])


if __name__ == "__main__":
    main()
