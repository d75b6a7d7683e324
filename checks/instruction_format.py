"""The instructions of a code, read from the format's text (JVMS 4.9.1, 6.5) and from nothing else.

`Decoder(pool, code).decode(pc)` is the words of the instruction at pc, as the head of `code.py` has them, the pcs that
it may go to, and its size; Bad tells what is wrong with it.
"""
import struct
from class_file_format import (class_text, part, text, type_text, CLASS, DOUBLE, DYNAMIC, FIELD, FLOAT, HANDLE, INTEGER, INTERFACE_METHOD,
                               LONG, METHOD, METHOD_TYPE, NAME_AND_TYPE, STRING)

KINDS = ["Int", "Long", "Float", "Double", "Ref"]
ELEMENTS = ["Int", "Long", "Float", "Double", "Ref", "Byte", "Char", "Short"]
TESTS = ["Eq", "Ne", "Lt", "Ge", "Gt", "Le"]
STACK = ["Pop", "Pop2", "Dup", "DupX1", "DupX2", "Dup2", "Dup2X1", "Dup2X2", "Swap"]
CONVERSIONS = ["Int J", "Int F", "Int D", "Long I", "Long F", "Long D", "Float I", "Float J", "Float D", "Double I", "Double J",
               "Double F", "Int B", "Int C", "Int S"]
COMPARES = ["Long false", "Float false", "Float true", "Double false", "Double true"]
FIELDS = ["GetStatic", "PutStatic", "GetField", "PutField"]
CALLS = {182: ("InvokeVirtual", (METHOD,)), 183: ("InvokeSpecial", (METHOD, INTERFACE_METHOD)),
         184: ("InvokeStatic", (METHOD, INTERFACE_METHOD)), 185: ("InvokeInterface", (INTERFACE_METHOD,))}
PRIMITIVES = dict(zip(range(4, 12), "ZCFDBSIJ"))
LOADS, STORES, IINC = range(21, 26), range(54, 59), 132
NO_OPCODES = {168, 169, 201, *range(202, 256)}  # jsr, ret, jsr_w, and what has no meaning


def alone():
    """The instructions of one byte, by opcode."""
    words = {0: "Nop", 1: "PushNull", 177: "Return", 190: "ArrayLength", 191: "Throw", 194: "MonitorEnter", 195: "MonitorExit"}
    pushed = [f"Int {n}" for n in range(-1, 6)] + ["Long 0", "Long 1"]
    pushed += ["Float " + struct.pack(">f", n).hex() for n in (0, 1, 2)] + ["Double " + struct.pack(">d", n).hex() for n in (0, 1)]
    words.update({2 + n: f"Push {value}" for n, value in enumerate(pushed)})
    words.update({26 + n: f"Load {KINDS[n // 4]} {n % 4}" for n in range(20)})
    words.update({59 + n: f"Store {KINDS[n // 4]} {n % 4}" for n in range(20)})
    words.update({46 + n: f"ArrayLoad {element}" for n, element in enumerate(ELEMENTS)})
    words.update({79 + n: f"ArrayStore {element}" for n, element in enumerate(ELEMENTS)})
    words.update({87 + n: word for n, word in enumerate(STACK)})
    words.update({96 + n: f"Calc {('Add', 'Sub', 'Mul', 'Div', 'Rem', 'Neg')[n // 4]} {KINDS[n % 4]}" for n in range(24)})
    words.update({120 + n: f"Calc {('Shl', 'Shr', 'Ushr', 'And', 'Or', 'Xor')[n // 2]} {KINDS[n % 2]}" for n in range(12)})
    words.update({133 + n: f"Convert {pair}" for n, pair in enumerate(CONVERSIONS)})
    words.update({148 + n: f"Compare {pair}" for n, pair in enumerate(COMPARES)})
    words.update({172 + n: f"Return {kind}" for n, kind in enumerate(KINDS)})
    return words


ALONE = alone()


class Bad(Exception):
    pass


def shown(units):
    return "".join(one if 33 <= ord(one) <= 126 and one != "\\" else f"\\u{ord(one):04x}" for one in units)


def type_of_name(name):
    """The type that a Class entry's name means."""
    return name if name.startswith("[") else f"L{name};"


def dimensions(name):
    return len(name) - len(name.lstrip("["))


def member(pool, index, tags):
    """Owner, name and descriptor of the field or method at this index, or None where its tag isn't one of these."""
    if index not in pool or pool[index][0] not in tags:
        return None
    (_, owner), (_, both) = pool[index][1]
    return type_of_name(class_text(pool, owner)), text(pool, part(pool, both, (NAME_AND_TYPE,), 0)), type_text(pool, both)


def handle(pool, kind, index):
    """What a load of a MethodHandle of this kind pushes, which refers to the field or method at this index."""
    interface = "true" if pool[index][0] == INTERFACE_METHOD else "false"
    owner, name, descriptor = map(shown, member(pool, index, (FIELD, METHOD, INTERFACE_METHOD)))
    return f"PushHandle {kind} {interface} {owner} {name} {descriptor}"


# What a load of each other constant pushes, by its tag, from the pool and the number in its entry.
PUSHES = {
    INTEGER: lambda _, value: f"Push Int {value - (value >> 31 << 32)}",
    LONG: lambda _, value: f"Push Long {value - (value >> 63 << 64)}",
    FLOAT: lambda _, value: f"Push Float {value:08x}",
    DOUBLE: lambda _, value: f"Push Double {value:016x}",
    STRING: lambda pool, value: f'Push Text "{shown(text(pool, value))}"',
    CLASS: lambda pool, value: f"PushClass {shown(type_of_name(text(pool, value)))}",
    METHOD_TYPE: lambda pool, value: f"PushMethodType {shown(text(pool, value))}",
}


def constant(pool, index, tags):
    """What a load of the constant at this index pushes, or None where its tag isn't one of these."""
    tag, content = pool.get(index, (None, None))
    if tag not in tags:
        return None
    if tag == HANDLE:
        return handle(pool, content[0][1], content[1][1])
    return PUSHES[tag](pool, content[0][1])


class Decoder:
    """The instructions of a code; each has its words, the pcs that it may go to, and its size."""

    def __init__(self, pool, code):
        self.pool, self.code = pool, code

    def number(self, pc, at, size, signed=False):
        """A number of the instruction at pc, which has to stand in the code."""
        self.within(pc, at + size)
        return int.from_bytes(self.code[at:at + size], "big", signed=signed)

    def within(self, pc, end):
        if end > len(self.code):
            raise Bad("CutOff", pc)

    def lawful(self, pc, words):
        if words is None:
            raise Bad("Opcode", pc)
        return words

    def decode(self, pc):
        op = self.code[pc]
        if op in NO_OPCODES:
            raise Bad("Opcode", pc)
        if op in ALONE:
            return ALONE[op], [], 1
        if op in (16, 17):
            size = op - 15
            return f"Push Int {self.number(pc, pc + 1, size, True)}", [], 1 + size
        if op in (18, 19, 20):
            size = 1 if op == 18 else 2
            tags = (LONG, DOUBLE) if op == 20 else (INTEGER, FLOAT, CLASS, STRING, HANDLE, METHOD_TYPE)
            return self.lawful(pc, constant(self.pool, self.number(pc, pc + 1, size), tags)), [], 1 + size
        if op in LOADS or op in STORES or op == IINC:
            return self.local(pc, pc, 1)
        if op == 196:
            inner = self.number(pc, pc + 1, 1)
            if inner not in LOADS and inner not in STORES and inner != IINC:
                raise Bad("Opcode", pc)
            return self.local(pc, pc + 1, 2)
        if 153 <= op <= 167 or op in (198, 199, 200):
            return self.jump(pc, op)
        if op == 170:
            return self.table(pc)
        if op == 171:
            return self.lookup(pc)
        if 178 <= op <= 186:
            return self.access(pc, op)
        return self.typed(pc, op)

    def local(self, pc, at, size):
        """A load, a store or an increment, whose opcode is at `at` and whose numbers have this size."""
        op = self.code[at]
        slot = self.number(pc, at + 1, size)
        if op == IINC:
            by = self.number(pc, at + 1 + size, size, True)
            return f"Iinc {slot} {by}", [], at + 1 + 2 * size - pc
        word = f"Load {KINDS[op - 21]}" if op in LOADS else f"Store {KINDS[op - 54]}"
        return f"{word} {slot}", [], at + 1 + size - pc

    def jump(self, pc, op):
        size = 4 if op == 200 else 2
        target = pc + self.number(pc, pc + 1, size, True)
        if op in (167, 200):
            word = "Goto"
        elif op >= 198:
            word = "IfNull true" if op == 198 else "IfNull false"
        elif op >= 165:
            word = "IfRefs true" if op == 165 else "IfRefs false"
        else:
            word = f"IfZero {TESTS[op - 153]}" if op < 159 else f"IfInts {TESTS[op - 159]}"
        return f"{word} {target}", [target], 1 + size

    def table(self, pc):
        at = (pc + 4) // 4 * 4
        self.within(pc, at + 12)
        other, low, high = (self.number(pc, at + 4 * n, 4, True) for n in range(3))
        if low > high:
            raise Bad("Opcode", pc)
        count = high - low + 1
        self.within(pc, at + 12 + 4 * count)
        targets = [pc + self.number(pc, at + 12 + 4 * n, 4, True) for n in range(count)]
        return f"TableSwitch {low} {pc + other} {' '.join(map(str, targets))}", [pc + other, *targets], at + 12 + 4 * count - pc

    def lookup(self, pc):
        at = (pc + 4) // 4 * 4
        self.within(pc, at + 8)
        other, count = self.number(pc, at, 4, True), self.number(pc, at + 4, 4)
        self.within(pc, at + 8 + 8 * count)
        keys = [self.number(pc, at + 8 + 8 * n, 4, True) for n in range(count)]
        targets = [pc + self.number(pc, at + 12 + 8 * n, 4, True) for n in range(count)]
        if any(first >= second for first, second in zip(keys, keys[1:])):
            raise Bad("Opcode", pc)
        cases = "".join(f" {key}:{target}" for key, target in zip(keys, targets))
        return f"LookupSwitch {pc + other}{cases}", [pc + other, *targets], at + 8 + 8 * count - pc

    def access(self, pc, op):
        """An access to a field, or a call."""
        index, size = self.number(pc, pc + 1, 2), 5 if op >= 185 else 3
        self.within(pc, pc + size)
        if op == 186:
            if index not in self.pool or self.pool[index][0] != DYNAMIC:
                raise Bad("Opcode", pc)
            (_, bootstrap), (_, both) = self.pool[index][1]
            name, descriptor = text(self.pool, part(self.pool, both, (NAME_AND_TYPE,), 0)), type_text(self.pool, both)
            words = f"InvokeDynamic {bootstrap} {shown(name)} {shown(descriptor)}"
        else:
            word, tags = (FIELDS[op - 178], (FIELD,)) if op < 182 else CALLS[op]
            owner, name, descriptor = self.lawful(pc, member(self.pool, index, tags))
            interface = "" if op < 182 else " true" if self.pool[index][0] == INTERFACE_METHOD else " false"
            words = f"{word} {shown(owner)}{interface} {shown(name)} {shown(descriptor)}"
        if op >= 182 and (name == "<clinit>" or name == "<init>" and op != 183):
            raise Bad("Opcode", pc)
        return words, [], size

    def typed(self, pc, op):
        """The instructions with a type as their operand."""
        if op == 188:
            kind = PRIMITIVES.get(self.number(pc, pc + 1, 1))
            return self.lawful(pc, kind and f"NewArray {kind}"), [], 2
        index, size = self.number(pc, pc + 1, 2), 4 if op == 197 else 3
        self.within(pc, pc + size)
        tag, _ = self.pool.get(index, (None, None))
        if tag != CLASS:
            raise Bad("Opcode", pc)
        name = class_text(self.pool, index)
        depth, kind = dimensions(name), shown(type_of_name(name))
        if op == 187:
            words = None if depth else f"New {shown(name)}"
        elif op == 189:
            words = None if depth == 255 else f"NewArray {kind}"
        elif op == 197:
            sizes = self.code[pc + 3]
            words = f"MultiNewArray {kind} {sizes}" if 1 <= sizes <= depth else None
        else:
            words = f"CheckCast {kind}" if op == 192 else f"InstanceOf {kind}"
        return self.lawful(pc, words), [], size
