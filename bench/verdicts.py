#!/usr/bin/env python3
"""Compares what `jvolve check` says of mutants with what HotSpot says.

    verdicts.py PROGRAM FOLDER KEPT

FOLDER is the one that `mutants.py` filled, and FOLDER/hotspot has the line of `Verify.java` for
each. Of each kind of difference that no rule below explains, and of what is no answer, the smallest
mutant is put into the folder KEPT as a program of its own.
"""

import collections
import concurrent.futures
import os
import re
import shutil
import subprocess
import sys

from class_code import NEW, NEW_OPCODE, TOP, WIDE, ClassCode, Code, is_constructor_call

ACCEPTED, NOT_VERIFIED, VERIFY_ERROR = "accepted", "41", "java.lang.VerifyError"
# What is refused because the machine leaves it out, because it is above a limit, or because all is
# linked at once. HotSpot links later.
LEFT_OUT = ("8", "16", "17", "31", "32", "33", "34", "35", "36", "37", "38")
# Stores into the local that their operand names, and into local 0.
STORES, STORES_OVER_THIS = range(54, 59), (59, 63, 67, 71, 75)
# What HotSpot says where it counts `this` as uninitialized by its flag.
OF_FLAG = (
    r"Constructor must call super\(\) or this\(\) before return",
    r"Current frame's flags are not assignable",
    r"Bad <init> method call from after the start of a try block",
)
# Why something else is accepted, by what HotSpot says against it.
ACCEPTED_BY_RULE = {
    r"current class isn't assignable to reference class":
        "`invokespecial` of a class that is neither the current one nor above it",
    r"interface method reference is in an indirect superinterface":
        "`invokespecial` of an interface that the current class doesn't name",
    r"\(current frame, locals.* is not assignable to uninitialized \d":
        "a handler over a constructor's call is held to the locals before it alone",
}
LOCATION = re.compile(r"([^.]*)\.([^.(]*)(\(\S*) @(\d+): \w+")


class Mutant:
    """A mutant and both answers: ours is the words of a refusal, theirs the parts of a line."""

    def __init__(self, number, files, change, theirs):
        self.number, self.change = number, change
        self.files = dict(word.split("=") for word in files.split(" "))
        self.theirs = theirs.split("\t")
        self.ours = None

    def path(self):
        return os.path.join("mutants", f"{self.number:06}")

    def size(self, folder):
        return sum(os.path.getsize(os.path.join(folder, file)) for file in self.files.values())


def answer(program, folder, mutant):
    """`accepted`, the words of a refusal from its number on, or what came in place of an answer."""
    words = [program, "check", mutant.path() + ".manifest"]
    try:
        run = subprocess.run(words, cwd=folder, capture_output=True, text=True, timeout=60)
    except subprocess.TimeoutExpired:
        return "no answer in a minute"
    if run.returncode == 0 and run.stdout == f"ok {len(mutant.files)}\njvolve: 0 finished\n":
        return ACCEPTED
    refusal = re.fullmatch(r"jvolve: 3 bad input \d+ \d+ (.*)\n", run.stdout)
    if run.returncode == 3 and refusal:
        return refusal[1]
    return f"no answer, but {run.returncode} and {run.stdout[-100:]!r}"


# ---- what a refusal by a verifier is about

class Place:
    """The method, the place and the rule of a refusal. HotSpot's has no rule."""

    def __init__(self, folder, mutant, owner, name, descriptor, pc, rule=None):
        self.name, self.rule = name, rule
        with open(os.path.join(folder, mutant.files[owner]), "rb") as file:
            self.file = ClassCode(file.read())
        wanted = (self.name.encode(), descriptor.encode())
        text = self.file.text
        method, = (
            each for each in self.file.methods if (text(each.name), text(each.descriptor)) == wanted
        )
        self.code = Code(self.file, method)
        self.code.unpack()
        self.at = self.code.places[int(pc)]

    def frames(self):
        """The frames that the rule looks at."""
        covering = [row[2] for row in self.code.rows if row[0].pc <= self.at.pc < row[1].pc]
        places = {"map": [self.at], "target": self.at.targets, "handler": covering}
        return [frame for frame in self.code.frames if frame.at in places.get(self.rule, [])]

    def is_this_stored_over(self):
        """Whether a local that holds uninitialized `this` is lost, as far as the instructions tell."""
        return any(
            each.opcode in STORES_OVER_THIS or each.opcode in STORES and each.operands[:1] == b"\0"
            or each.opcode == WIDE and each.operands[0] in STORES and each.operands[1:] == b"\0\0"
            for each in self.code.instructions
        )

    def is_this_under_handler(self):
        before = [each for each in self.code.instructions if each.pc < self.at.pc]
        called = sum(is_constructor_call(self.file, each) for each in before)
        is_made = called > sum(each.opcode == NEW_OPCODE for each in before)
        return self.rule == "handler" and self.name == "<init>" and not is_made

    def is_made_again(self):
        of_frames = any(each[0] == NEW for frame in self.frames() for each in frame.locals)
        return of_frames or self.rule == "operand" and self.at.opcode == NEW_OPCODE

    def is_long_for_tops(self):
        stacks = [[each[0] for each in frame.stack] for frame in self.frames()]
        return any(pair == (TOP, TOP) for stack in stacks for pair in zip(stack, stack[1:]))


REFUSED_BY_RULE = {
    Place.is_this_under_handler: "a handler over uninitialized `this`",
    Place.is_made_again: "a `new` where its object from before is in the frame",
    Place.is_long_for_tops: "a long where the frame has two `top` on the stack",
}


# ---- differences

def pattern(text):
    """A message without numbers and names."""
    return re.sub(r"\d+", "N", re.sub(r" in (method|class|class file) .*|'[^' ]*'|\".*\"", "", text))


def difference(folder, mutant):
    """What the answers are to each other: whether a rule explains it, and in words."""
    ours, theirs = mutant.ours.split(" "), mutant.theirs
    if ours[0] == "no":
        return False, mutant.ours
    if ours == [ACCEPTED] == theirs:
        return True, "accepted by both"
    if ours == [ACCEPTED]:
        return accepted_here(folder, mutant, theirs)
    if theirs == [ACCEPTED]:
        return refused_here(folder, mutant, ours)
    at = "not verified" if ours[0] == NOT_VERIFIED else "before verifying"
    return True, f"refused by both, {at}"


def refused_here(folder, mutant, ours):
    if ours[0] in LEFT_OUT:
        return True, f"not compared, refused here: {ours[0]} {ours[1]}"
    if ours[0] != NOT_VERIFIED:
        return False, f"refused here: {ours[0]} {ours[1]}"
    place = Place(folder, mutant, *ours[3:])
    for test, rule in REFUSED_BY_RULE.items():
        if test(place):
            return True, f"refused here: {rule}"
    return False, f"refused here: not verified, {place.rule}"


def accepted_here(folder, mutant, theirs):
    if theirs[0] != VERIFY_ERROR:
        return True, f"not compared, accepted here: {theirs[0]}, {pattern(theirs[1])}"
    place = next(filter(None, map(LOCATION.fullmatch, theirs)), None)
    if place and any(re.search(said, part) for said in OF_FLAG for part in theirs):
        if Place(folder, mutant, *place.groups()).is_this_stored_over():
            return True, "accepted here: `this` counts as uninitialized by the locals, not by a flag"
    for said, rule in ACCEPTED_BY_RULE.items():
        if any(re.search(said, part) for part in theirs):
            return True, f"accepted here: {rule}"
    return False, f"accepted here: {pattern(theirs[1])}, {pattern(theirs[-1])}"


# ---- the whole

def keep(folder, kept, mutant, kind):
    """Puts a mutant as a program of its own into a new folder."""
    os.makedirs(kept)
    with open(os.path.join(folder, mutant.path() + ".manifest")) as manifest:
        head = manifest.readlines()[:2]
    for name, file in mutant.files.items():
        shutil.copy(os.path.join(folder, file), os.path.join(kept, name + ".class"))
    with open(os.path.join(kept, "manifest"), "w") as manifest:
        manifest.writelines([*head, *(f"class {name} {name}.class\n" for name in mutant.files)])
    theirs = ", ".join(mutant.theirs)
    with open(os.path.join(kept, "said"), "w") as said:
        said.write(f"{kind}\n{mutant.change}\njvolve: {mutant.ours}\nHotSpot: {theirs}\n")


def lines(folder, name):
    with open(os.path.join(folder, name)) as file:
        return file.read().split("\n")[:-1]


def main():
    program, folder, kept = os.path.abspath(sys.argv[1]), sys.argv[2], sys.argv[3]
    parts = zip(*(lines(folder, name) for name in ("programs", "changes", "hotspot")), strict=True)
    mutants = [Mutant(number, *each) for number, each in enumerate(parts)]
    kinds = collections.defaultdict(list)
    with concurrent.futures.ThreadPoolExecutor(os.cpu_count()) as workers:
        answers = workers.map(lambda each: answer(program, folder, each), mutants)
        for mutant, ours in zip(mutants, answers):
            mutant.ours = ours
            kinds[difference(folder, mutant)].append(mutant)
    print(f"{len(mutants)} mutants")
    unexplained = 0
    for is_explained, kind in sorted(kinds, key=lambda each: (not each[0], each[1])):
        some = kinds[is_explained, kind]
        if is_explained:
            print(f"{len(some)} {kind}")
        else:
            unexplained += 1
            into = os.path.join(kept, str(unexplained))
            keep(folder, into, min(some, key=lambda each: each.size(folder)), kind)
            print(f"{len(some)} {kind}: no rule says why, the smallest is in {into}")
    sys.exit(unexplained > 0)


if __name__ == "__main__":
    main()
