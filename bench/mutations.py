"""Changes of one method in a class file, or of what it names.

Each takes a source of chance and the code of the method, and raises an error where it has nothing
to change.
"""

import struct

from class_code import (
    BRANCHES, CLASS, FIELD, GOTO_W, IINC, INT, INTERFACE_METHOD, INVOKESPECIAL, LENGTHS, LONG_TYPE,
    LOOKUPSWITCH, METHOD, NEW, NEW_OPCODE, NULL, OBJECT, PAIR, STATIC, TABLESWITCH, THIS, TOP, WIDE,
    Code, Frame, Instruction, is_constructor_call, types_of,
)
from class_file import u2

NOP, ACONST_NULL, ICONST_0, LCONST_0 = 0, 1, 3, 9
POP, POP2, DUP, DUP_X1, DUP_X2, DUP2, DUP2_X1, DUP2_X2, SWAP = range(87, 96)
GOTO, RETURN, ATHROW, MONITORENTER = 167, 177, 191, 194
GETSTATIC, PUTSTATIC, GETFIELD, PUTFIELD = range(178, 182)
INVOKEVIRTUAL, INVOKESTATIC, INVOKEINTERFACE = 182, 184, 185
ALOAD, ASTORE, ILOAD, ISTORE, LLOAD, LSTORE, ALOAD_0 = 25, 58, 21, 54, 22, 55, 42
# The instructions after which the next one isn't reached.
LEAVING = (GOTO, GOTO_W, TABLESWITCH, LOOKUPSWITCH, *range(172, 178), ATHROW)
# Those of floats and doubles, which the machine leaves out.
FLOATS = (
    *range(11, 16), 23, 24, *range(34, 42), 48, 49, 56, 57, *range(67, 75), 81, 82, 98, 99,
    102, 103, 106, 107, 110, 111, 114, 115, 118, 119, 134, 135, *range(137, 145),
    *range(149, 153), 174, 175,
)
NOT_PLAIN = (*LENGTHS, *FLOATS, *range(168, 172), 186)
# Instructions that have the same form.
FORMS = (
    [each for each in range(196) if each not in NOT_PLAIN],
    (ILOAD, LLOAD, ALOAD, ISTORE, LSTORE, ASTORE),
    BRANCHES,
    (GETSTATIC, PUTSTATIC, GETFIELD, PUTFIELD),
    (INVOKEVIRTUAL, INVOKESPECIAL, INVOKESTATIC),
    (NEW_OPCODE, 189, 192, 193),
)
# Those that name an entry of the constant pool by two bytes.
INDEXED = (19, 20, *range(178, 186), 187, 189, 192, 193)
# Those of a local: with its number after the opcode, and in the opcode.
LOCALS = (ILOAD, LLOAD, ALOAD, ISTORE, LSTORE, ASTORE, IINC)
SHORT_LOCALS = {ILOAD: 26, LLOAD: 30, ALOAD: 42, ISTORE: 59, LSTORE: 63, ASTORE: 75}
# What is put in front of an instruction; a number below 0 stands for one of a local.
INSERTED = (
    [NOP], [POP], [POP2], [DUP], [SWAP], [DUP2], [ACONST_NULL], [ICONST_0], [LCONST_0], [RETURN],
    [MONITORENTER], [-ALOAD], [-ILOAD], [-LLOAD], [-ASTORE], [-ISTORE], [ACONST_NULL, POP],
    [DUP, POP], [DUP2, POP2], [ACONST_NULL, ATHROW], [ICONST_0, -ISTORE], [LCONST_0, -LSTORE],
    [ACONST_NULL, -ASTORE], [-ALOAD, POP], [-ALOAD, -ASTORE], [-ILOAD, -ISTORE],
    [-ALOAD, MONITORENTER], [ICONST_0, ICONST_0, POP2],
)
# How many words each instruction of the stack takes, and which of them it puts there, from the bottom.
SHUFFLES = {
    POP: (1, ()), POP2: (2, ()), DUP: (1, (0, 0)), DUP_X1: (2, (1, 0, 1)), DUP_X2: (3, (2, 0, 1, 2)),
    DUP2: (2, (0, 1, 0, 1)), DUP2_X1: (3, (1, 2, 0, 1, 2)), DUP2_X2: (4, (2, 3, 0, 1, 2, 3)),
    SWAP: (2, (1, 0)),
}


def other(chance, items, item):
    """One of the items that is another one."""
    return chance.choice([each for each in items if each != item])


def one_of(chance, code, test):
    """One of the instructions that meet the test."""
    return chance.choice([each for each in code.instructions if test(each)])


def place_of(chance, code, test):
    """The number of one of these."""
    return chance.choice([at for at, each in enumerate(code.instructions) if test(each)])


def range_of(chance, code):
    """Two places, the first one before the second one, which may be the end of the code."""
    return sorted(chance.sample([*code.instructions, code.end], 2), key=lambda each: each.pc)


# ---- instructions that stay in their places

def opcode(chance, code):
    each = one_of(chance, code, lambda each: any(each.opcode in form for form in FORMS))
    form = next(form for form in FORMS if each.opcode in form)
    each.opcode = other(chance, form, each.opcode)


def any_opcode(chance, code):
    each = one_of(chance, code, lambda each: not each.targets)
    kept = (TABLESWITCH, LOOKUPSWITCH, GOTO_W)
    each.opcode = chance.choice([known for known in range(256) if known not in kept])


def local(chance, code):
    """Another local, which may be the first that isn't there."""
    each = one_of(chance, code, is_of_local)
    if short_local(each):
        base = SHORT_LOCALS[short_local(each)]
        each.opcode = other(chance, range(base, base + 4), each.opcode)
    else:
        each.operands = bytes([chance.randrange(code.max_locals + 1) % 256]) + each.operands[1:]


def short_local(instruction):
    """The opcode of its longer form, or none."""
    for long, base in SHORT_LOCALS.items():
        if base <= instruction.opcode < base + 4:
            return long
    return None


def is_of_local(instruction):
    return short_local(instruction) or instruction.opcode in LOCALS


def null(chance, code):
    """Null in place of a reference from a local."""
    each = one_of(chance, code, lambda each: ALOAD in (each.opcode, short_local(each)))
    if each.operands:
        code.unpack()
    each.opcode, each.operands = ACONST_NULL, b""


def entry(chance, code):
    """Another entry of the same kind in the constant pool."""
    each = one_of(chance, code, lambda each: each.opcode in INDEXED)
    index = int.from_bytes(each.operands[:2], "big")
    alike = code.file.entries(code.file.tag(index))
    each.operands = u2(other(chance, alike, index)) + each.operands[2:]


def operand_byte(chance, code):
    each = one_of(chance, code, lambda each: each.operands)
    at = chance.randrange(len(each.operands))
    each.operands = each.operands[:at] + bytes([chance.randrange(256)]) + each.operands[at + 1:]


def target(chance, code):
    """A branch to another instruction, or to one of those with a frame, or into one."""
    code.unpack()
    each = one_of(chance, code, lambda each: each.targets)
    framed = [frame.at for frame in code.frames]
    places = chance.choice([code.instructions, framed, framed, framed, range(-4, 5)])
    each.targets[chance.randrange(len(each.targets))] = chance.choice(places)


# ---- instructions that move

def swap(chance, code):
    code.unpack()
    at = chance.randrange(len(code.instructions) - 1)
    first, second = code.instructions[at:at + 2]
    code.instructions[at:at + 2] = second, first
    if chance.random() < 0.5:
        redirect(code, {first: second, second: first})


def remove(chance, code):
    code.unpack()
    remove_at(code, chance.randrange(len(code.instructions)))


def remove_at(code, at):
    gone = code.instructions.pop(at)
    redirect(code, {gone: [*code.instructions, code.end][at]})


def redirect(code, instead):
    """Puts other instructions wherever some are named."""
    for each in code.instructions:
        each.targets = [instead.get(target, target) for target in each.targets]
    code.rows = [[instead.get(place, place) for place in row] for row in code.rows]
    for frame in code.frames:
        frame.at = instead.get(frame.at, frame.at)
        for types in (frame.locals, frame.stack):
            types[:] = [tuple(instead.get(part, part) for part in each) for each in types]


def repeat(chance, code):
    code.unpack()
    at = chance.randrange(len(code.instructions))
    each = code.instructions[at]
    code.instructions.insert(at, Instruction(each.opcode, each.operands, each.targets))


def insert(chance, code, last=None):
    """A few instructions in front of one, with room for them or without."""
    code.unpack()
    at = chance.randrange(len(code.instructions) if last is None else last + 1)
    number = bytes([chance.randrange(code.max_locals + 1) % 256])
    code.instructions[at:at] = [
        Instruction(each) if each >= 0 else Instruction(-each, number)
        for each in chance.choice(INSERTED)
    ]
    if chance.random() < 0.8:
        code.max_stack += 2
        code.max_locals += 2


def can_be_widened(instruction):
    return is_of_local(instruction) or instruction.opcode == GOTO and instruction.targets


def widen(chance, code):
    code.unpack()
    each = one_of(chance, code, can_be_widened)
    if each.opcode == GOTO:
        each.opcode = GOTO_W
    elif short_local(each):
        long = short_local(each)
        number = each.opcode - SHORT_LOCALS[long]
        each.operands, each.opcode = bytes([long]) + u2(number), WIDE
    elif each.opcode == IINC:
        number, by = struct.unpack("Bb", each.operands)
        each.operands, each.opcode = struct.pack(">BHh", IINC, number, by), WIDE
    else:
        each.operands, each.opcode = bytes([each.opcode, 0]) + each.operands, WIDE


def defaults(descriptors):
    """What pushes a zero, or null, for each of some types."""
    zeros = {b"J": LCONST_0, b"L": ACONST_NULL, b"[": ACONST_NULL}
    return [Instruction(zeros.get(each[:1], ICONST_0)) for each in descriptors]


def dropped(result):
    """What drops a result."""
    return [] if result == b"V" else [Instruction(POP2 if result == b"J" else POP)]


def call(chance, code):
    """A call of one of the methods that are named, on null, on `this` or on a new object."""
    file = code.file
    index = chance.choice(file.entries(METHOD, INTERFACE_METHOD))
    owner, pair = file.parts(index)
    name, descriptor = (file.text(part) for part in file.parts(pair))
    arguments, result = defaults(types_of(descriptor)), dropped(descriptor.split(b")")[1])
    receiver, operands = [Instruction(chance.choice((ACONST_NULL, ALOAD_0)))], u2(index)
    if name == b"<init>":
        how = INVOKESPECIAL
        receiver, result = [Instruction(NEW_OPCODE, u2(owner)), Instruction(DUP)], dropped(b"L")
    elif file.tag(index) == METHOD:
        how = chance.choice((INVOKEVIRTUAL, INVOKEVIRTUAL, INVOKESPECIAL, INVOKESTATIC))
    else:
        how = chance.choice((INVOKEINTERFACE, INVOKEINTERFACE, INVOKESPECIAL))
    if how == INVOKESTATIC:
        receiver = []
    elif how == INVOKEINTERFACE:
        longs = sum(each.opcode == LCONST_0 for each in arguments)
        operands += bytes([1 + len(arguments) + longs, 0])
    put_in(chance, code, [*receiver, *arguments, Instruction(how, operands), *result])


def access(chance, code):
    """A field that is named is read, or written."""
    file = code.file
    index = chance.choice(file.entries(FIELD))
    type_ = file.text(file.parts(file.parts(index)[1])[1])
    how = chance.choice((GETSTATIC, PUTSTATIC, GETFIELD, PUTFIELD))
    receiver, value, result = [], [], []
    if how in (GETFIELD, PUTFIELD):
        receiver = [Instruction(chance.choice((ACONST_NULL, ALOAD_0)))]
    if how in (GETSTATIC, GETFIELD):
        result = dropped(type_)
    else:
        value = defaults([type_])
    put_in(chance, code, [*receiver, *value, Instruction(how, u2(index)), *result])


def put_in(chance, code, added):
    """Puts instructions in front of one, in a constructor often before it calls another one."""
    code.unpack()
    before, last = constructor_call(code), len(code.instructions) - 1
    at = chance.randrange((before if before and chance.random() < 0.5 else last) + 1)
    code.instructions[at:at] = added
    code.max_stack += 2 * len(added)


def shuffle(chance, code):
    """Values are pushed, moved by an instruction that knows words alone, and dropped again."""
    pushed = [chance.choice((ICONST_0, LCONST_0, ACONST_NULL)) for _ in range(chance.randrange(1, 5))]
    words = "".join("Jj" if each == LCONST_0 else "I" for each in pushed)
    how = chance.choice(list(SHUFFLES))
    taken, order = SHUFFLES[how]
    kept, moved = words[:-taken], words[-taken:]
    words, dropping = kept + "".join(moved[place] for place in order), []
    while words:
        dropping.append(POP2 if words.endswith("Jj") else POP)
        words = words[:-2] if words.endswith("Jj") else words[:-1]
    put_in(chance, code, [Instruction(each) for each in (*pushed, how, *dropping)])


def left_behind(chance, code):
    """A value that lies on the stack where a method returns, and a frame that says what it is."""
    code.unpack()
    at = place_of(chance, code, lambda each: each.opcode == RETURN)
    returned, zeros = code.instructions[at], (ICONST_0, LCONST_0, ACONST_NULL)
    pushed = chance.choice([*(Instruction(each) for each in zeros), new(chance, code)])
    code.instructions[at:at] = [pushed, Instruction(GOTO, targets=[returned])]
    kept = chance.choice(([], code.file.parameters(code.method)))
    top, any_ = (TOP,), any_type(chance, code)
    code.frames.insert(0, Frame(returned, kept, chance.choice(([top], [top, top], [any_], [any_]))))
    code.max_stack += 2


def new(chance, code):
    return Instruction(NEW_OPCODE, u2(chance.choice(code.file.entries(CLASS))))


def unreachable(chance, code):
    """Code with a frame that nothing reaches."""
    code.unpack()
    at = 1 + place_of(chance, code, lambda each: each.opcode in LEAVING)
    dropping = Instruction(POP)
    before = chance.choice(([], [], [], [dropping], [new(chance, code), dropping]))
    added = [*before, Instruction(GOTO)]
    added[-1].targets = [added[0]]
    code.instructions[at:at] = added
    frame = Frame(added[0], code.file.parameters(code.method), [])
    for types in (frame.locals, frame.stack):
        types += [any_type(chance, code) for _ in range(chance.randrange(3))]
    code.frames.append(frame)
    code.max_stack += 6
    code.max_locals += 4


# ---- sizes, rows and frames

def sizes(chance, code):
    by = chance.choice((-2, -1, -1, 1))
    if chance.random() < 0.6:
        code.max_stack = max(0, code.max_stack + by)
    else:
        code.max_locals = max(0, code.max_locals + by)


def row_place(chance, code):
    row, at = chance.choice(code.rows), chance.randrange(3)
    row[at] = other(chance, code.instructions, row[at])


def row_class(chance, code):
    row = chance.choice(code.rows)
    row[3] = other(chance, [0, *code.file.entries(CLASS)], row[3])


def row_removed(chance, code):
    code.rows.pop(chance.randrange(len(code.rows)))


def row_added(chance, code):
    """A row to a place that has a frame with one operand, or just a frame."""
    code.unpack()
    framed = [frame.at for frame in code.frames if len(frame.stack) == 1]
    handled = chance.choice(framed or [frame.at for frame in code.frames])
    row = [*range_of(chance, code), handled, chance.choice([0, *code.file.entries(CLASS)])]
    code.rows.insert(chance.randrange(len(code.rows) + 1), row)


def handler(chance, code):
    """A handler of its own over some of the code, in a constructor often over its first part."""
    code.unpack()
    code.place()
    start, end = range_of(chance, code)
    call = constructor_call(code)
    if call and chance.random() < 0.7:
        start, end = (code.instructions[at] for at in sorted(chance.sample(range(call + 2), 2)))
    framed = [frame.locals for frame in code.frames]
    known = chance.choice([[], code.file.parameters(code.method), *framed])
    ends = chance.choice(([ATHROW], [POP, ACONST_NULL, ATHROW], [POP, RETURN]))
    add_handler(code, (start, end), known, ends)


def add_handler(code, covered, known, opcodes):
    """A handler of these opcodes at the end of the code, from one place to another."""
    added = [Instruction(each) for each in opcodes]
    throwable = code.file.class_entry(b"java/lang/Throwable")
    code.frames.append(Frame(added[0], known, [(OBJECT, throwable)]))
    code.rows.append([*covered, added[0], throwable])
    # What ended with the code ends where the handler begins.
    redirect(code, {code.end: added[0]})
    code.instructions += added
    code.max_stack = max(code.max_stack, 1)


def handler_of_made(chance, code):
    """A handler over the call of a constructor, whose object a local holds already."""
    code.unpack()
    at = place_of(chance, code, lambda each: each.opcode == NEW_OPCODE)
    made, local_number = code.instructions[at], code.max_locals
    kept = [Instruction(DUP), Instruction(ASTORE, bytes([local_number % 256]))]
    code.instructions[at + 1:at + 1] = kept
    after = [each for each in code.instructions[at + 3:] if is_constructor_call(code.file, each)]
    call_at = code.instructions.index(after[0])
    covered = (
        code.instructions[chance.randrange(at + 3, call_at + 1)],
        [*code.instructions, code.end][call_at + 1],
    )
    index = int.from_bytes(made.operands, "big")
    known = chance.choice(((NEW, made), (OBJECT, index), (TOP,)))
    add_handler(code, covered, [(TOP,)] * local_number + [known], [ATHROW])
    code.max_stack += 1
    code.max_locals += 1


def any_type(chance, code):
    tag = chance.choice((TOP, INT, LONG_TYPE, NULL, THIS, OBJECT, OBJECT, OBJECT, NEW))
    if tag == OBJECT:
        return tag, chance.choice(code.file.entries(CLASS))
    if tag == NEW:
        made = [each for each in code.instructions if each.opcode == NEW_OPCODE]
        return tag, chance.choice(made or code.instructions)
    return (tag,)


def frame_type(chance, code):
    code.unpack()
    frame = chance.choice(code.frames)
    types = chance.choice([each for each in (frame.locals, frame.stack) if each])
    types[chance.randrange(len(types))] = any_type(chance, code)


def frame_top(chance, code):
    """A local that isn't known any more, in one frame or in all."""
    code.unpack()
    frames = chance.choice((code.frames, [chance.choice(code.frames)]))
    at = chance.randrange(max(len(frame.locals) for frame in frames))
    for frame in frames:
        frame.locals[at:at + 1] = [(TOP,)]


def frame_length(chance, code):
    code.unpack()
    frame = chance.choice(code.frames)
    types = chance.choice((frame.locals, frame.locals, frame.stack))
    if types and chance.random() < 0.7:
        types.pop(chance.choice((-1, -1, 0)))
    else:
        types.append(any_type(chance, code))


def frame_removed(chance, code):
    code.unpack()
    code.frames.pop(chance.randrange(len(code.frames)))


def frame_moved(chance, code):
    code.unpack()
    frame = chance.choice(code.frames)
    frame.at = other(chance, code.instructions, frame.at)


def frame_added(chance, code):
    code.unpack()
    at = chance.choice(code.instructions)
    framed = [frame.locals for frame in code.frames]
    known = chance.choice([code.file.parameters(code.method), *framed])
    code.frames.insert(0, Frame(at, known, []))


def map_byte(chance, code):
    if code.frames is None:
        at = chance.randrange(len(code.map))
        value = (code.map[at] + chance.choice((-2, -1, 1, 2, chance.randrange(256)))) % 256
        code.map = code.map[:at] + bytes([value]) + code.map[at + 1:]
    else:
        frame_type(chance, code)


# ---- constructors

def constructor_call(code):
    """The number of the instruction that calls another constructor on `this`, or none."""
    return next(iter(constructor_calls(code)), None)


def constructor_calls(code):
    """The same as a list of one or none."""
    made = 0
    for at, each in enumerate(code.instructions if code.is_constructor() else []):
        if each.opcode == NEW_OPCODE:
            made += 1
        elif is_constructor_call(code.file, each):
            if made == 0:
                return [at]
            made -= 1
    return []


def before_constructor(chance, code):
    """Something in front of the call of another constructor, often a store over `this`."""
    at = chance.choice(constructor_calls(code))
    if chance.random() < 0.3:
        insert(chance, code, at + 1)
    else:
        forget(code, chance.choice((0, at, at + 1)), chance.random() < 0.7)


def forget(code, at, is_told):
    """Stores null over `this`. The frames after it may tell so."""
    code.unpack()
    code.place()
    first = code.instructions[at].pc
    code.instructions[at:at] = [Instruction(ACONST_NULL), Instruction(ASTORE, b"\0")]
    code.max_stack += 1
    for frame in code.frames:
        if is_told and frame.at.pc >= first:
            frame.locals[:1] = [(TOP,)]


def without_constructor(chance, code):
    """A constructor that calls no other one, and may store over `this`."""
    at = chance.choice(constructor_calls(code))
    code.unpack()
    remove_at(code, at)
    if chance.random() < 0.8:
        code.instructions.insert(at, Instruction(POP))
    if chance.random() < 0.7:
        forget(code, at + 1, chance.random() < 0.7)


# ---- what isn't code

def entry_class(chance, code):
    """Another class, or another name and descriptor, of a member that the pool names."""
    file = code.file
    index = chance.choice(file.entries(FIELD, METHOD, INTERFACE_METHOD))
    owner, pair = file.parts(index)
    if chance.random() < 0.6:
        owner = other(chance, file.entries(CLASS), owner)
    else:
        pair = other(chance, file.entries(PAIR), pair)
    file.pool[index] = file.pool[index][:1] + u2(owner, pair)


def entry_kind(chance, code):
    index = chance.choice(code.file.entries(METHOD, INTERFACE_METHOD))
    tag = METHOD + INTERFACE_METHOD - code.file.tag(index)
    code.file.pool[index] = bytes([tag]) + code.file.pool[index][1:]


def entry_name(chance, code):
    """The name of a class, or the name or the descriptor of a member, is another one's."""
    file = code.file
    index = chance.choice(file.entries(CLASS, PAIR))
    parts = file.parts(index)
    at = chance.randrange(len(parts))
    known = [file.parts(each) for each in file.entries(file.tag(index))]
    alike = [each[at] for each in known if is_like(file, each[-1], parts[-1])]
    parts[at] = other(chance, alike, parts[at])
    file.pool[index] = file.pool[index][:1] + u2(*parts)


def is_like(file, left, right):
    """Both are descriptors of methods, or none is."""
    return (file.text(left)[:1] == b"(") == (file.text(right)[:1] == b"(")


def descriptor(chance, code):
    file = code.file
    known = [file.parts(each)[1] for each in file.entries(PAIR)]
    known += [each.descriptor for each in file.methods]
    calls = sorted({each for each in known if file.text(each)[:1] == b"("})
    code.method.descriptor = other(chance, calls, code.method.descriptor)


def static(chance, code):
    code.method.flags ^= STATIC


def superclass(chance, code):
    code.file.superclass = other(chance, code.file.entries(CLASS), code.file.superclass)


def other_code(chance, code):
    """The code of another method. What was changed in the method's own goes."""
    with_code = [each for each in code.file.methods if each.code is not None]
    theirs = Code(code.file, other(chance, with_code, code.method))
    theirs.method = code.method
    vars(code).update(vars(theirs))


# How often each is tried.
MUTATIONS = {
    opcode: 8, any_opcode: 1, local: 6, null: 4, entry: 6, operand_byte: 1, target: 6,
    swap: 6, remove: 6, repeat: 3, insert: 8, widen: 2,
    call: 6, access: 4, shuffle: 3, left_behind: 3, unreachable: 2,
    sizes: 3, row_place: 3, row_class: 2, row_removed: 1, row_added: 3, handler: 5,
    handler_of_made: 2,
    frame_type: 6, frame_top: 5, frame_length: 3, frame_removed: 1, frame_moved: 1, frame_added: 2,
    map_byte: 1, before_constructor: 3, without_constructor: 3,
    entry_class: 1, entry_kind: 1, entry_name: 1,
    descriptor: 1, static: 1, superclass: 1, other_code: 1,
}


def change(chance, code):
    """Makes one of the changes that can be made, and says which."""
    while True:
        mutation, = chance.choices(list(MUTATIONS), list(MUTATIONS.values()))
        try:
            mutation(chance, code)
            return mutation.__name__
        except (LookupError, ValueError, struct.error):
            # What it did before stays.
            continue
