#!/usr/bin/env python3
"""Writes the class files of a world of so many classes, and its manifest: worlds.py SHAPE COUNT FOLDER

`pools`: classes that nothing is above, each with 500 static fields and code that names those of the
next class, of 16 kB each. `fields`: the same with 16,000 fields, of half a megabyte each. `chain`:
each class stands below the one before, overrides its method, and names a field of the first.
`methods`: each stands below the one before, and has 900 abstract methods of names of its own;
`finals`: the same with 400 final methods.
`lattice`: interfaces that each stand below all before, and a class below the last whose field is
looked for in them all. `interfaces`: a class that names an interface so many times, by an entry each.
"""

import os
import sys

from class_file import attribute, u2, u4, utf8, write

INTERFACE = 1537
OBJECT = "java/lang/Object"


class ClassFile:
    """A class that is being made. Its first four entries are its own name and its superclass's."""

    def __init__(self, name, superclass=OBJECT):
        self.name = name
        self.entries, self.pool = {}, []
        self.interfaces, self.fields, self.methods = [], [], []
        self.class_entry(name)
        self.class_entry(superclass)

    def entry(self, contents):
        """The index of an entry, which is added unless it's there."""
        if contents not in self.entries:
            self.pool.append(contents)
            self.entries[contents] = len(self.pool)
        return self.entries[contents]

    def text(self, text):
        return self.entry(utf8(text.encode()))

    def class_entry(self, name):
        return self.entry(b"\x07" + u2(self.text(name)))

    def member_entry(self, tag, owner, name, descriptor):
        pair = self.entry(b"\x0c" + u2(self.text(name), self.text(descriptor)))
        return self.entry(bytes([tag]) + u2(self.class_entry(owner), pair))

    def field_entry(self, owner, name, descriptor="I"):
        return self.member_entry(9, owner, name, descriptor)

    def method_entry(self, owner, name, descriptor):
        return self.member_entry(10, owner, name, descriptor)

    def add_field(self, name):
        """A public static int."""
        self.fields.append(u2(9, self.text(name), self.text("I"), 0))

    def add_method(self, flags, name, descriptor, owner, fields):
        """A method that reads static ints of a class."""
        reads = b"".join(b"\xb2" + u2(self.field_entry(owner, field)) + b"\x57" for field in fields)
        self.add_code(flags, name, descriptor, (1, 1), reads + b"\xb1")

    def add_code(self, flags, name, descriptor, sizes, code, rows=(), frames=()):
        """A method with code of max_stack and max_locals, its exception table and the entries of its stack map."""
        table = u2(len(frames)) + b"".join(frames)
        maps = [attribute(self.text("StackMapTable"), table)] if frames else []
        body = b"".join([
            u2(*sizes), u4(len(code)), code, u2(len(rows)), *(u2(*row) for row in rows), u2(len(maps)), *maps,
        ])
        head = u2(flags, self.text(name), self.text(descriptor), 1)
        self.methods.append(head + attribute(self.text("Code"), body))

    def add_abstract(self, name):
        self.methods.append(u2(1025, self.text(name), self.text("()V"), 0))

    def add_main(self, owner, fields):
        self.add_method(9, "main", "([Ljava/lang/String;)V", owner, fields)

    def length(self):
        return 24 + sum(map(len, [*self.pool, *self.fields, *self.methods])) + 2 * len(self.interfaces)

    def write(self, folder, flags=33):
        path = os.path.join(folder, self.name)
        write(path, self.pool, self.interfaces, self.fields, self.methods, flags)


def names(count):
    """The main class comes first."""
    return ["Main"] + ["C%04d" % number for number in range(1, count)]


def pools(count, folder, fields=500):
    classes, members = names(count), ["f%05d" % number for number in range(fields)]
    for number, name in enumerate(classes):
        made = ClassFile(name)
        for member in members:
            made.add_field(member)
        made.add_main(classes[(number + 1) % count], members)
        made.write(folder)
    return classes


def fields(count, folder):
    return pools(count, folder, 16_000)


def classes_below(count):
    """Classes that each stand below the one before. The first has a field and the main method."""
    classes = names(count)
    made = [ClassFile(name, above) for name, above in zip(classes, [OBJECT, *classes])]
    made[0].add_field("f")
    made[0].add_main(classes[0], ["f"])
    return made


def chain(count, folder):
    made = classes_below(count)
    for each in made:
        each.add_method(1, "m", "()V", each.name, ["f"])
        each.write(folder)
    return [each.name for each in made]


def methods(count, folder):
    made = classes_below(count)
    for number, each in enumerate(made):
        for method in range(900):
            each.add_abstract("m%d" % (900 * number + method))
        each.write(folder)
    return [each.name for each in made]


def finals(count, folder):
    made = classes_below(count)
    for number, each in enumerate(made):
        for method in range(400):
            each.add_method(17, "m%d" % (400 * number + method), "()V", each.name, [])
        each.write(folder)
    return [each.name for each in made]


def lattice(count, folder):
    first, *interfaces, last = names(count)
    above = ClassFile(last)
    above.add_field("f")
    above.write(folder)
    for number, name in enumerate(interfaces):
        made = ClassFile(name)
        made.interfaces = [made.class_entry(other) for other in reversed(interfaces[:number])]
        made.write(folder, INTERFACE)
    made = ClassFile(first, last)
    made.interfaces = [made.class_entry(interfaces[-1])]
    made.add_main(first, ["f"])
    made.write(folder)
    return [first, *interfaces, last]


def interfaces(count, folder):
    made = ClassFile("Main")
    made.add_main("java/lang/System", [])
    name = made.text("java/lang/Runnable")
    for _ in range(count):
        made.pool.append(b"\x07" + u2(name))
        made.interfaces.append(len(made.pool))
    made.write(folder)
    return ["Main"]


def write_manifest(folder, classes):
    with open(os.path.join(folder, "manifest"), "w") as manifest:
        manifest.write("jvolve 1\nmain Main\n")
        manifest.writelines(f"class {name} {name}\n" for name in classes)


def main():
    shape, count, folder = sys.argv[1:]
    shapes = {
        "pools": pools, "fields": fields, "chain": chain, "methods": methods, "finals": finals,
        "lattice": lattice, "interfaces": interfaces,
    }
    os.makedirs(folder, exist_ok=True)
    write_manifest(folder, shapes[shape](int(count), folder))


if __name__ == "__main__":
    main()
