#!/usr/bin/env python3
"""Writes a class file of nearly 1 MiB, whose constant pool has 65,534 entries: large_class.py FILE"""

import struct
import sys

from class_file import attribute, u2, u4, utf8, write

ENTRIES = 65_534
MEMBERS = 1_000


def main():
    pool = [
        utf8(b"Large"), b"\x07" + u2(1), utf8(b"java/lang/Object"), b"\x07" + u2(3),
        utf8(b"ConstantValue"), utf8(b"I"), b"\x03" + struct.pack(">i", -1), utf8(b"Code"), utf8(b"()V"),
    ]
    # Half texts, half names of classes, so that what an entry names is looked at often.
    while len(pool) < ENTRIES:
        index = len(pool) + 1
        if index % 2 == 0:
            pool.append(utf8(b"name/of/a/class/%08d" % index))
        else:
            pool.append(b"\x07" + u2(index - 1))
    names = range(10, 10 + 2 * MEMBERS, 2)
    value = attribute(5, u2(7))
    # `return`, without handlers and attributes
    code = attribute(8, u2(0, 1) + u4(1) + b"\xb1" + u2(0, 0))
    fields = [u2(8, name, 6, 1) + value for name in names]
    methods = [u2(8, name, 9, 1) + code for name in names]
    write(sys.argv[1], pool, [11], fields, methods)


main()
