#!/usr/bin/env python3
"""Writes a class file of nearly so many bytes, all of it code and stack maps: large_code.py FILE BYTES"""

import sys

from class_file import attribute, u2, u4, utf8, write

# What the methods share, but for their names.
POOL = [
    utf8(b"Large"), b"\x07" + u2(1), utf8(b"java/lang/Object"), b"\x07" + u2(3),
    utf8(b"Code"), utf8(b"StackMapTable"), utf8(b"(II)V"),
]
# Every instruction that `wide` widens: store, load and drop an int, a long and a reference.
WIDE = b"".join([
    b"\x1a\xc4\x36", u2(256), b"\xc4\x84", u2(256, 1000), b"\xc4\x15", u2(256), b"\x57",
    b"\x09\xc4\x37", u2(256), b"\xc4\x16", u2(256), b"\x58",
    b"\x01\xc4\x3a", u2(256), b"\xc4\x19", u2(256), b"\x57",
])
# iload_0, ifeq to the end, iinc 0 by -1, iload_0, bipush 7, iadd, istore_1, goto the begin
LOOP = b"\x1a\x99" + u2(14) + b"\x84\x00\xff\x1a\x10\x07\x60\x3c\xa7" + u2(65_536 - 12)


def method(name, loops):
    """A method of so many loops, with a frame at the begin of each and behind the last."""
    code = WIDE + LOOP * loops + b"\xb1"
    # same_frame, its first delta from the begin of the code
    frames = u2(loops + 1) + bytes([len(WIDE)]) + bytes([len(LOOP) - 1]) * loops
    body = u2(2, 258) + u4(len(code)) + code + u2(0, 1) + attribute(6, frames)
    return u2(9, name, 7, 1) + attribute(5, body)


def main():
    pool, methods, room = list(POOL), [], int(sys.argv[2]) - 200
    most = (65_535 - len(WIDE) - 1) // len(LOOP)
    rest = len(method(0, 0)) + len(utf8(b"m0000"))
    while (loops := min(most, (room - rest) // (len(LOOP) + 1))) > 0:
        pool.append(utf8(b"m%04d" % len(methods)))
        methods.append(method(len(pool), loops))
        room -= len(methods[-1]) + len(pool[-1])
    write(sys.argv[1], pool, [], [], methods)


if __name__ == "__main__":
    main()
