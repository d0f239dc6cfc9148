#!/usr/bin/env python3
"""Writes the class files of a program of nearly so many MiB, all of it code, and its manifest, and
beside it the file `program` for `Verify.java`: code_programs.py SHAPE MEBIBYTES FOLDER

Each class has nearly 1 MiB and stands below the one before. `loops`: the loops of `large_code.py`.
`objects`: fields, calls, new objects, arrays and casts, with branches that meet with an object.
`handlers`: each instruction is covered by rows around it and by those of the whole method.
"""

import os
import sys

from class_file import LIMIT, u2
from large_code import LOOP, WIDE
from worlds import OBJECT, ClassFile, names, write_manifest

PUBLIC, PUBLIC_STATIC = 1, 9
ARITHMETIC, RUNTIME = "java/lang/ArithmeticException", "java/lang/RuntimeException"
THROWABLE = "java/lang/Throwable"


class Body:
    """Code that is being made, from instructions of which some branch to labels."""

    def __init__(self):
        self.code, self.labels, self.branches, self.frames = bytearray(), {}, [], []

    def put(self, *parts):
        """Numbers are bytes."""
        for part in parts:
            self.code += part if isinstance(part, bytes) else bytes([part])

    def branch(self, opcode, label):
        self.branches.append((len(self.code), label))
        self.put(opcode, 0, 0)

    def at(self, label, stack=b"", more=()):
        """A label with a frame: of the locals before and more, or with one type on the stack."""
        since = len(self.code) - (self.labels[self.frames[-1][0]] + 1 if self.frames else 0)
        self.labels[label] = len(self.code)
        if more:
            frame = bytes([251 + len(more)]) + u2(since) + b"".join(more)
        elif since < 64:
            frame = bytes([since + (64 if stack else 0)]) + stack
        else:
            frame = bytes([247 if stack else 251]) + u2(since) + stack
        self.frames.append((label, frame))

    def add_to(self, file, flags, name, descriptor, sizes, rows=()):
        for pc, label in self.branches:
            self.code[pc + 1:pc + 3] = u2((self.labels[label] - pc) % 65_536)
        places = [[*(self.labels[label] for label in row[:3]), row[3]] for row in rows]
        frames = [frame for _, frame in self.frames]
        file.add_code(flags, name, descriptor, sizes, bytes(self.code), places, frames)


def object_type(file, name):
    return b"\x07" + u2(file.class_entry(name))


def loops(file, name, count):
    """The method of `large_code.py`."""
    code = WIDE + LOOP * count + b"\xb1"
    frames = [bytes([len(WIDE)]), *[bytes([len(LOOP) - 1])] * count]
    file.add_code(PUBLIC_STATIC, name, "(II)V", (2, 258), code, frames=frames)


def objects(file, name, count):
    """Locals are the receiver, a Main, an int, one of the own class, and an array."""
    own, first = u2(file.class_entry(file.name)), u2(file.class_entry("Main"))
    field = u2(file.field_entry(file.name, "next", "LMain;"))
    made = u2(file.method_entry(file.name, "<init>", "(I)V"))
    called = u2(file.method_entry(file.name, "pick", "(LMain;I)LMain;"))
    body = Body()
    # aload_0, astore_3, iconst_0, anewarray, astore
    body.put(0x2a, 0x4e, 0x03, 0xbd, first, 0x3a, 4)
    body.at("begin", more=(object_type(file, file.name), object_type(file, "[LMain;")))
    for number in range(count):
        # aload_0, getfield, astore_1; new, dup, iload_2, invokespecial, astore_3; iload_2, ifeq
        body.put(0x2a, 0xb4, field, 0x4c, 0xbb, own, 0x59, 0x1c, 0xb7, made, 0x4e, 0x1c)
        body.branch(0x99, f"else {number}")
        # aload_1, goto
        body.put(0x2b)
        body.branch(0xa7, f"both {number}")
        body.at(f"else {number}")
        # aload_3
        body.put(0x2d)
        body.at(f"both {number}", stack=object_type(file, "Main"))
        # checkcast, astore_3; aload_3, aload_1, iload_2, invokevirtual, astore_1
        body.put(0xc0, own, 0x4e, 0x2d, 0x2b, 0x1c, 0xb6, called, 0x4c)
        # iconst_1, anewarray, dup, iconst_0, aload_3, aastore, astore; aload, arraylength, istore_2
        body.put(0x04, 0xbd, first, 0x59, 0x03, 0x2d, 0x53, 0x3a, 4, 0x19, 4, 0xbe, 0x3d)
    body.put(0xb1)
    body.add_to(file, PUBLIC, name, "(LMain;I)V", (4, 5))


PARTS = ("start", "end", "caught", "any", "after")


def handlers(file, name, count):
    """Two ints, one of which is divided by the other over and over."""
    body, rows = Body(), []
    arithmetic, runtime = file.class_entry(ARITHMETIC), file.class_entry(RUNTIME)
    body.at("begin")
    for number in range(count):
        start, end, caught, any_, after = (f"{part} {number}" for part in PARTS)
        body.labels[start] = len(body.code)
        # iload_0, iload_1, idiv, istore_0, goto
        body.put(0x1a, 0x1b, 0x6c, 0x3b)
        body.labels[end] = len(body.code)
        body.branch(0xa7, after)
        body.at(caught, stack=object_type(file, ARITHMETIC))
        # pop, iinc, goto
        body.put(0x57, 0x84, 1, 1)
        body.branch(0xa7, after)
        body.at(any_, stack=object_type(file, THROWABLE))
        # pop, iload_1, ineg, istore_0
        body.put(0x57, 0x1b, 0x74, 0x3b)
        body.at(after)
        rows += [(start, end, caught, arithmetic), (start, end, any_, 0), (caught, any_, any_, 0)]
    # iload_0, ireturn
    body.put(0x1a, 0xac)
    body.at("caught", stack=object_type(file, RUNTIME))
    # pop, iload_1, ireturn
    body.put(0x57, 0x1b, 0xac)
    body.at("any", stack=object_type(file, THROWABLE))
    # athrow
    body.put(0xbf)
    rows += [("begin", "caught", "caught", runtime), ("begin", "caught", "any", 0)]
    body.add_to(file, PUBLIC_STATIC, name, "(II)I", (2, 2), rows)


# The method of each shape, and how many times it has its part at the most.
SHAPES = {"loops": (loops, 4_300), "objects": (objects, 1_000), "handlers": (handlers, 40)}


def add_members(file, superclass):
    """A field and a method that all inherit, a constructor, and main, as far as they are wanted."""
    above = file.method_entry(superclass, "<init>", "(I)V" if superclass != OBJECT else "()V")
    # aload_0, iload_1, invokespecial, return
    call = b"\x2a" + (b"\x1b" if superclass != OBJECT else b"") + b"\xb7" + u2(above)
    file.add_code(PUBLIC, "<init>", "(I)V", (2, 2), call + b"\xb1")
    if superclass == OBJECT:
        file.fields.append(u2(PUBLIC, file.text("next"), file.text("LMain;"), 0))
        # aload_1, areturn
        file.add_code(PUBLIC, "pick", "(LMain;I)LMain;", (1, 3), b"\x2b\xb0")
        file.add_main(file.name, [])


def fill(file, shape):
    """Adds methods as long as there is room, shorter ones in the end."""
    add, count = SHAPES[shape]
    number = 0
    while count > 0:
        add(file, f"m{number:05}", count)
        if file.length() <= LIMIT:
            number += 1
        else:
            file.methods.pop()
            count //= 2


def main():
    shape, count, folder = sys.argv[1], int(sys.argv[2]), sys.argv[3]
    os.makedirs(folder, exist_ok=True)
    classes = names(count)
    for name, superclass in zip(classes, [OBJECT, *classes]):
        file = ClassFile(name, superclass)
        add_members(file, superclass)
        fill(file, shape)
        file.write(folder)
    write_manifest(folder, classes)
    with open(os.path.join(folder, "program"), "w") as program:
        program.write(" ".join(f"{name}={name}" for name in classes) + "\n")


main()
