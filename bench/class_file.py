"""The parts of class files (JVMS 4), for the scripts that make large ones."""

import struct

LIMIT = 1_048_576


def u2(*numbers):
    return b"".join(struct.pack(">H", number) for number in numbers)


def u4(number):
    return struct.pack(">I", number)


def utf8(text):
    return b"\x01" + u2(len(text)) + text


def attribute(name, contents):
    return u2(name) + u4(len(contents)) + contents


def write(path, pool, interfaces, fields, methods, flags=33):
    """Writes a class of the entry 2 that extends that of the entry 4, and prints its length."""
    whole = b"".join([
        u4(0xCAFEBABE), u2(0, 52, len(pool) + 1), *pool,
        u2(flags, 2, 4, len(interfaces), *interfaces),
        u2(len(fields)), *fields, u2(len(methods)), *methods, u2(0),
    ])
    assert len(whole) <= LIMIT, len(whole)
    with open(path, "wb") as file:
        file.write(whole)
    print(len(whole), "bytes")
