"""Class files whose code can be changed (JVMS 4): read, and written again."""

import re

from class_file import attribute, u2, u4, utf8

# Tags of the constant pool (JVMS 4.4).
CLASS, FIELD, METHOD, INTERFACE_METHOD, PAIR = 7, 9, 10, 11, 12
# The bytes of each entry that follow its tag, but for texts.
ENTRY_LENGTHS = {
    3: 4, 4: 4, 5: 8, 6: 8, 7: 2, 8: 2, 9: 4, 10: 4, 11: 4, 12: 4, 15: 3, 16: 2, 18: 4,
}
# The verification types (JVMS 4.7.4). The last two have a class, and the `new` of an object.
TOP, INT, LONG_TYPE, NULL, THIS, OBJECT, NEW = 0, 1, 4, 5, 6, 7, 8
STATIC = 8

TABLESWITCH, LOOKUPSWITCH, WIDE, IINC, GOTO_W = 170, 171, 196, 132, 200
NEW_OPCODE, INVOKESPECIAL = 187, 183
BRANCHES = (*range(153, 168), 198, 199)
# The lengths of instructions that aren't of one byte and always have the same.
LENGTHS = {
    **dict.fromkeys((16, 18, *range(21, 26), *range(54, 59), 188), 2),
    **dict.fromkeys((17, 19, 20, IINC, *BRANCHES, *range(178, 185), 187, 189, 192, 193), 3),
    **dict.fromkeys((185, GOTO_W), 5),
}


class Bytes:
    """Contents that are read from the front."""

    def __init__(self, contents):
        self.contents, self.at = contents, 0

    def take(self, count):
        self.at += count
        if self.at > len(self.contents):
            raise ValueError("cut")
        return self.contents[self.at - count:self.at]

    def number(self, count, signed=False):
        return int.from_bytes(self.take(count), "big", signed=signed)

    def numbers(self, count):
        """So many of two bytes."""
        return [self.number(2) for _ in range(count)]


def types_of(descriptor):
    """The descriptors of a method's parameters."""
    return re.findall(rb"\[*(?:L[^;]*;|[B-Z])", descriptor.split(b")")[0])


class Method:
    """A method. `code` is the contents of its Code attribute, or none."""

    def __init__(self, flags, name, descriptor):
        self.flags, self.name, self.descriptor = flags, name, descriptor
        self.code, self.others = None, []


class ClassCode:
    """A class file. The entries of its pool are bytes, and none for the gaps."""

    def __init__(self, contents):
        file = Bytes(contents)
        self.head, self.pool = file.take(8), [None]
        for _ in range(file.number(2) - 1):
            # A gap follows an entry of eight bytes.
            if self.tag(len(self.pool) - 1) not in (5, 6):
                tag = file.take(1)
                length = ENTRY_LENGTHS.get(tag[0])
                self.pool.append(tag + (file.take(length) if length else self.text_of(file)))
            else:
                self.pool.append(None)
        self.flags, self.this, self.superclass = file.numbers(3)
        self.interfaces = file.numbers(file.number(2))
        self.fields = [self.member(file) for _ in range(file.number(2))]
        self.methods = [self.member(file) for _ in range(file.number(2))]
        self.attributes = [self.attribute(file) for _ in range(file.number(2))]

    @staticmethod
    def text_of(file):
        length = file.take(2)
        return length + file.take(int.from_bytes(length, "big"))

    @staticmethod
    def attribute(file):
        return file.number(2), file.take(file.number(4))

    def member(self, file):
        member = Method(*file.numbers(3))
        for _ in range(file.number(2)):
            name, contents = self.attribute(file)
            if self.text(name) == b"Code":
                member.code = contents
            else:
                member.others.append((name, contents))
        return member

    def bytes(self):
        entries = [entry for entry in self.pool if entry]
        return b"".join([
            self.head, u2(len(self.pool)), *entries, u2(self.flags, self.this, self.superclass),
            u2(len(self.interfaces), *self.interfaces),
            u2(len(self.fields)), *map(self.member_bytes, self.fields),
            u2(len(self.methods)), *map(self.member_bytes, self.methods),
            u2(len(self.attributes)), *(attribute(*each) for each in self.attributes),
        ])

    def member_bytes(self, member):
        code = [] if member.code is None else [(self.text_entry(b"Code"), member.code)]
        attributes = code + member.others
        head = u2(member.flags, member.name, member.descriptor, len(attributes))
        return head + b"".join(attribute(*each) for each in attributes)

    # ---- the pool

    def tag(self, index):
        return self.pool[index][0] if self.pool[index] else 0

    def text(self, index):
        return self.pool[index][3:]

    def parts(self, index):
        """The indices that an entry names."""
        return Bytes(self.pool[index][1:]).numbers((len(self.pool[index]) - 1) // 2)

    def entries(self, *tags):
        return [index for index in range(len(self.pool)) if self.tag(index) in tags]

    def entry(self, contents):
        """The index of an entry, which is added unless it's there."""
        if contents not in self.pool:
            self.pool.append(contents)
        return self.pool.index(contents)

    def text_entry(self, text):
        return self.entry(utf8(text))

    def class_entry(self, name):
        return self.entry(bytes([CLASS]) + u2(self.text_entry(name)))

    # ---- what a method begins with

    def type_of(self, descriptor):
        if descriptor[:1] in b"L[":
            is_array = descriptor[:1] == b"["
            return OBJECT, self.class_entry(descriptor if is_array else descriptor[1:-1])
        return (LONG_TYPE,) if descriptor == b"J" else (INT,)

    def parameters(self, method):
        """The types of a method's parameters, its receiver in front of them."""
        receiver = []
        if not method.flags & STATIC:
            is_made = self.text(method.name) == b"<init>"
            receiver = [(THIS,) if is_made else (OBJECT, self.this)]
        return receiver + [self.type_of(each) for each in types_of(self.text(method.descriptor))]


class Instruction:
    """An instruction: what stands between its opcode and its targets, and what it branches to."""

    def __init__(self, opcode, operands=b"", targets=()):
        self.opcode, self.operands, self.targets = opcode, operands, list(targets)
        self.pc = 0

    def padding(self):
        return -(self.pc + 1) % 4

    def length(self):
        """At its pc."""
        fixed = 1 + len(self.operands)
        if self.opcode == TABLESWITCH:
            return fixed + self.padding() + 4 * len(self.targets)
        if self.opcode == LOOKUPSWITCH:
            return fixed + self.padding() + 4 * len(self.targets) + 4
        return fixed + len(self.targets) * (4 if self.opcode == GOTO_W else 2)

    def bytes(self):
        # A target is an instruction, or the distance to what isn't one.
        away = [each if isinstance(each, int) else each.pc - self.pc for each in self.targets]
        fours = [u4(each % 2**32) for each in away]
        if self.opcode == TABLESWITCH:
            tail = bytes(self.padding()) + fours[0] + self.operands + b"".join(fours[1:])
        elif self.opcode == LOOKUPSWITCH:
            keys = [self.operands[at:at + 4] for at in range(0, len(self.operands), 4)]
            rows = [key + target for key, target in zip(keys, fours[1:])]
            tail = bytes(self.padding()) + fours[0] + u4(len(rows)) + b"".join(rows)
        elif self.opcode == GOTO_W:
            tail = fours[0]
        else:
            tail = self.operands + u2(*(each % 65_536 for each in away))
        return bytes([self.opcode]) + tail


def is_constructor_call(file, instruction):
    index = int.from_bytes(instruction.operands, "big")
    if instruction.opcode != INVOKESPECIAL or index >= len(file.pool) or file.tag(index) != METHOD:
        return False
    return file.text(file.parts(file.parts(index)[1])[0]) == b"<init>"


class Frame:
    """A full frame of a stack map."""

    def __init__(self, at, local_types, stack_types):
        self.at, self.locals, self.stack = at, list(local_types), list(stack_types)


class Code:
    """The code of a method (JVMS 4.7.3). Rows and frames name instructions, or `end`."""

    def __init__(self, file, method):
        self.file, self.method = file, method
        body = Bytes(method.code)
        self.max_stack, self.max_locals = body.numbers(2)
        code = body.take(body.number(4))
        self.end = Instruction(0)
        self.instructions = self.read_instructions(Bytes(code))
        self.rows = [self.row(body) for _ in range(body.number(2))]
        # The bytes of the stack map, as long as no instruction moves; then its frames.
        self.map, self.frames = b"\0\0", None
        for _ in range(body.number(2)):
            name, contents = file.attribute(body)
            if file.text(name) == b"StackMapTable":
                self.map = contents

    def read_instructions(self, code):
        read = []
        while code.at < len(code.contents):
            pc = code.at
            read.append(self.read_instruction(code))
            read[-1].pc = pc
        self.end.pc = code.at
        self.places = {each.pc: each for each in [*read, self.end]}
        for each in read:
            each.targets = [self.places[each.pc + target] for target in each.targets]
        return read

    def read_instruction(self, code):
        opcode = code.number(1)
        if opcode in (TABLESWITCH, LOOKUPSWITCH):
            code.take(-code.at % 4)
            targets = [code.number(4, signed=True)]
            if opcode == TABLESWITCH:
                operands = code.take(8)
                low, high = (int.from_bytes(part, "big") for part in (operands[:4], operands[4:]))
                targets += [code.number(4, signed=True) for _ in range((high - low + 1) % 2**32)]
            else:
                operands = b""
                for _ in range(code.number(4)):
                    operands += code.take(4)
                    targets.append(code.number(4, signed=True))
            return Instruction(opcode, operands, targets)
        if opcode in BRANCHES:
            return Instruction(opcode, targets=[code.number(2, signed=True)])
        if opcode == GOTO_W:
            return Instruction(opcode, targets=[code.number(4, signed=True)])
        if opcode == WIDE:
            return Instruction(opcode, code.take(5 if code.contents[code.at] == IINC else 3))
        return Instruction(opcode, code.take(LENGTHS.get(opcode, 1) - 1))

    def row(self, body):
        start, end, handler, caught = body.numbers(4)
        return [*(self.places[pc] for pc in (start, end, handler)), caught]

    def is_constructor(self):
        return self.file.text(self.method.name) == b"<init>"

    # ---- frames

    def unpack(self):
        """Makes frames of the stack map, so that instructions may move."""
        if self.frames is not None:
            return
        table, place, known = Bytes(self.map), -1, self.file.parameters(self.method)
        frames = []
        for _ in range(table.number(2)):
            kind, stack = table.number(1), []
            place += 1 + (kind % 64 if kind < 128 else table.number(2))
            if 64 <= kind < 128 or kind == 247:
                stack = [self.read_type(table)]
            elif 248 <= kind < 251:
                known = known[:len(known) - (251 - kind)]
            elif 252 <= kind < 255:
                known = known + [self.read_type(table) for _ in range(kind - 251)]
            elif kind == 255:
                known = [self.read_type(table) for _ in range(table.number(2))]
                stack = [self.read_type(table) for _ in range(table.number(2))]
            frames.append(Frame(self.places[place], known, stack))
        self.frames = frames

    def read_type(self, table):
        tag = table.number(1)
        if tag == NEW:
            return tag, self.places[table.number(2)]
        return (tag, table.number(2)) if tag == OBJECT else (tag,)

    @staticmethod
    def type_bytes(tag, *named):
        numbers = (each.pc if isinstance(each, Instruction) else each for each in named)
        return bytes([tag]) + u2(*numbers)

    def types(self, types):
        return u2(len(types)) + b"".join(self.type_bytes(*each) for each in types)

    def map_bytes(self):
        if self.frames is None:
            return self.map
        packed, place = [], -1
        for frame in sorted(self.frames, key=lambda each: each.at.pc):
            if frame.at.pc > place:
                since = u2(frame.at.pc - place - 1)
                packed.append(b"\xff" + since + self.types(frame.locals) + self.types(frame.stack))
                place = frame.at.pc
        return u2(len(packed)) + b"".join(packed)

    # ---- the whole

    def place(self):
        """Gives each instruction its pc."""
        pc = 0
        for each in [*self.instructions, self.end]:
            each.pc = pc
            pc += each.length()

    def write(self):
        """Puts the code into the class file."""
        self.place()
        code = b"".join(each.bytes() for each in self.instructions)
        rows = [u2(*(each.pc for each in row[:3]), row[3]) for row in self.rows]
        table, maps = self.map_bytes(), []
        if table != b"\0\0":
            maps = [attribute(self.file.text_entry(b"StackMapTable"), table)]
        self.method.code = b"".join([
            u2(self.max_stack, self.max_locals), u4(len(code)), code,
            u2(len(rows)), *rows, u2(len(maps)), *maps,
        ])
