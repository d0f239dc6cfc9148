#!/usr/bin/env python3
"""Compares the code that `code_bench` lists with what `javap -c -p` prints: bodies.py PROGRAM

The class files are named on the standard input, each name ended by a zero byte. Those of another
major version than 51 and 52 are left out. A file that isn't loaded has to be refused at the first
instruction that the machine leaves out, or at a stack map in front of it.
"""

import collections
import re
import subprocess
import sys

MEMBER = re.compile(r"  \S.*(\)|\{\}).*;")
INSTRUCTION = re.compile(r" +(\d+): ([a-z]\w*)(.*)")
REFUSAL = re.compile(r".*: Code\((\d+), (Unsupported|MapFrame) \{ \w+: (\d+) \}\)\n")
LEFT_OUT = re.compile(
    r"[fd](const|load|store|aload|astore|add|sub|mul|div|rem|neg|cmp[lg]|return|2.)(_\w+)?|[il]2[fd]"
    r"|jsr(_w)?|ret(_w)?|invokedynamic|multianewarray"
)
LOADABLE = re.compile(r".*// (int|long|String)\b")


def is_left_out(mnemonic, operands):
    if mnemonic == "newarray":
        return operands.strip() in ("float", "double")
    if mnemonic.startswith("ldc"):
        return not LOADABLE.match(operands)
    return bool(LEFT_OUT.fullmatch(mnemonic))


def code_of(lines):
    """The pcs and mnemonics of each method that has code, and the first place that is left out."""
    method, methods, left_out = -1, {}, None
    for line in lines:
        if MEMBER.fullmatch(line):
            method += 1
        elif found := INSTRUCTION.fullmatch(line):
            pc, mnemonic, operands = int(found[1]), found[2], found[3]
            methods.setdefault(method, []).append((pc, mnemonic))
            if left_out is None and is_left_out(mnemonic, operands):
                left_out = (method, pc)
    return methods, left_out


def javap(names):
    """The lines of each class. One ends in a brace that isn't indented."""
    text = subprocess.run(["javap", "-c", "-p", *names], capture_output=True, text=True).stdout
    classes = [[]]
    for line in text.split("\n"):
        classes[-1].append(line)
        if line == "}":
            classes.append([])
    assert len(classes) == len(names) + 1, names
    return classes[:-1]


def listing(methods):
    return "".join(
        f"method {method}\n" + "".join(f"{pc} {mnemonic}\n" for pc, mnemonic in code)
        for method, code in methods.items()
    )


def outcome(said, methods, left_out):
    if refusal := REFUSAL.fullmatch(said):
        method, kind, place = int(refusal[1]), refusal[2], int(refusal[3])
        if kind == "Unsupported" and left_out == (method, place):
            return "refused at an instruction"
        if kind == "MapFrame" and (left_out is None or method < left_out[0]):
            return "refused at a stack map"
    elif left_out is None and said == listing(methods):
        return "loaded"
    return "wrong"


def is_of_version(name):
    with open(name, "rb") as file:
        return int.from_bytes(file.read(8)[6:], "big") in (51, 52)


def main():
    names = [name for name in sys.stdin.read().split("\0") if name and is_of_version(name)]
    counts = collections.Counter()
    for begin in range(0, len(names), 100):
        some = names[begin:begin + 100]
        for name, lines in zip(some, javap(some)):
            methods, left_out = code_of(lines)
            said = subprocess.run([sys.argv[1], name], capture_output=True, text=True).stdout
            found = outcome(said, methods, left_out)
            counts[found] += 1
            if found == "loaded":
                counts["methods"] += len(methods)
                counts["instructions"] += sum(len(code) for code in methods.values())
            elif found == "wrong":
                print("wrong:", name, said[:200])
    print(", ".join(f"{count} {what}" for what, count in counts.items()))
    sys.exit(counts["wrong"] > 0 or counts["loaded"] == 0)


main()
