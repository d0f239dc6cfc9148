#!/usr/bin/env python3
"""Writes mutants of class files, the same ones each time: mutants.py COUNT FOLDER

FOLDER/classes has a folder of class files for each program, which has the name of its main class.
A mutant is one class file of a program, changed, in FOLDER/mutants, with a manifest of the program
that it makes. FOLDER/programs gets a line for each, with its class files as NAME=FILE, and
FOLDER/changes one that says what was changed.
"""

import glob
import os
import random
import sys

from class_code import ClassCode, Code
from mutations import change


def mutant(chance, contents):
    """A class file with one to three changes in one method, and which ones."""
    file = ClassCode(contents)
    methods = [each for each in file.methods if each.code is not None]
    # Longer ones more often, since more of the changes can be made in them.
    method, = chance.choices(methods, [min(len(each.code), 200) for each in methods])
    code = Code(file, method)
    name = (file.text(method.name) + file.text(method.descriptor)).decode()
    changes = [change(chance, code) for _ in range(chance.choice((1, 1, 1, 1, 2, 2, 3)))]
    code.write()
    return file.bytes(), f"{', '.join(changes)} in {name}"


class Program:
    """The names and files of a program's classes, and the contents of those that have code."""

    def __init__(self, folder):
        self.main = os.path.basename(folder)
        self.files = {}
        for path in sorted(glob.glob(os.path.join(folder, "*.class"))):
            self.files[os.path.basename(path)[:-len(".class")]] = path
        self.contents = {}
        for name, path in self.files.items():
            with open(path, "rb") as file:
                contents = file.read()
            if any(each.code is not None for each in ClassCode(contents).methods):
                self.contents[name] = contents


def write(folder, number, program, name, contents):
    """Writes a mutant with its manifest, and gives the line of its class files."""
    path = os.path.join("mutants", f"{number:06}")
    with open(os.path.join(folder, path + ".class"), "wb") as file:
        file.write(contents)
    files = {
        each: path + ".class" if each == name else os.path.relpath(known, folder)
        for each, known in program.files.items()
    }
    with open(os.path.join(folder, path + ".manifest"), "w") as manifest:
        manifest.write(f"jvolve 1\nmain {program.main}\n")
        manifest.writelines(f"class {each} {known}\n" for each, known in files.items())
    return " ".join(f"{each}={known}" for each, known in files.items())


def main():
    count, folder = int(sys.argv[1]), sys.argv[2]
    programs = [Program(each) for each in sorted(glob.glob(os.path.join(folder, "classes", "*")))]
    classes = [(program, name) for program in programs for name in program.contents]
    seen = {contents for program in programs for contents in program.contents.values()}
    os.makedirs(os.path.join(folder, "mutants"), exist_ok=True)
    chance, lines, changes = random.Random(1), [], []
    while len(lines) < count:
        program, name = chance.choice(classes)
        contents, said = mutant(chance, program.contents[name])
        if contents not in seen:
            seen.add(contents)
            changes.append(f"{name}: {said}\n")
            lines.append(write(folder, len(lines), program, name, contents) + "\n")
    for path, written in (("programs", lines), ("changes", changes)):
        with open(os.path.join(folder, path), "w") as file:
            file.writelines(written)


if __name__ == "__main__":
    main()
