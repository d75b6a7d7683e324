"""Random families of classes for `causes.py`, whose methods use members, make objects and begin constructors in lawful and unlawful ways.

`some_family(rng)` is class files by their names: those of `class_families.py`, each with methods of a few statements besides, which
the verifier takes, mostly. Receivers and arguments are null, cast to the type that is wanted, `this`, or objects that are made there.
"""
import struct
from class_families import ABSTRACT, INTERFACE, OBJECT, PRIVATE, PROTECTED, PUBLIC, STATIC, Family, Member, Pool, parameters

FINAL, BRIDGE, SYNTHETIC = 0x10, 0x40, 0x1000
ZEROS = {**dict.fromkeys("ZBCSI", 3), "J": 9, "F": 11, "D": 14}
WORDS = {**dict.fromkeys("ZBCSI", "I")}
TAGS = {"top": 0, "I": 1, "F": 2, "D": 3, "J": 4, "null": 5, "this": 6}
NAMES = ["int", "p0", "v", "q"]
GET_STATIC, PUT_STATIC, GET_FIELD, PUT_FIELD = range(178, 182)
VIRTUAL, SPECIAL, STATICALLY, INTERFACELY = range(182, 186)


class Body:
    """A method that is being written: its code, frames, ranges, and what its locals and stack hold."""

    def __init__(self, rng, family, owner, pool, member):
        self.rng, self.family, self.owner, self.pool, self.member = rng, family, owner, pool, member
        self.code, self.frames, self.ranges, self.stack = bytearray(), {}, [], []
        self.is_static = member.flags & STATIC != 0
        self.local = [] if self.is_static else ["this" if member.name == "<init>" else owner.type]
        for kind in parameters(member.descriptor):
            self.local += [WORDS.get(kind, kind), *(["top"] if kind in "JD" else [])]
        self.free = len(self.local)

    def op(self, *numbers):
        self.code += bytes(numbers)

    def wide(self, op, index):
        self.code += struct.pack(">BH", op, index)

    def chance(self, share):
        return self.rng.random() < share

    def type_index(self, kind):
        return self.pool.named(kind[1:-1] if kind[0] == "L" else kind)

    def frame(self):
        """A frame given here, of all that is there."""
        self.frames[len(self.code)] = [tag for at, tag in enumerate(self.local) if tag != "top" or self.local[at - 1] not in "JD"], list(self.stack)

    def merge(self, write):
        """Has one of two ways of writing a value be taken, by a number."""
        self.op(3)
        at = len(self.code)
        self.wide(153, 0)
        before = list(self.stack)
        write()
        middle = len(self.code)
        self.wide(167, 0)
        self.stack, after = before, list(self.stack)
        self.code[at + 1:at + 3] = struct.pack(">H", len(self.code) - at)
        self.frame()
        write()
        self.stack = after
        self.code[middle + 1:middle + 3] = struct.pack(">H", len(self.code) - middle)
        self.frame()

    # ---- values

    def cast(self, kind):
        """Null of a type."""
        self.op(1)
        self.wide(192, self.type_index(kind))
        self.stack.append(kind)

    def plain(self, kind):
        """A value of a type that comes of nothing else."""
        if kind in ZEROS:
            self.op(ZEROS[kind])
            self.stack.append(WORDS.get(kind, kind))
        elif kind == self.owner.type and not self.is_static and self.local[0] == kind and self.chance(0.5):
            self.op(42)
            self.stack.append(kind)
        elif self.chance(0.3) and kind[0] == "L" and self.is_interface(kind):
            self.cast(self.rng.choice(self.family.classes).type)
        elif self.chance(0.5):
            self.op(1)
            self.stack.append("null")
        else:
            self.cast(kind)

    def value(self, kind):
        """A value of a type, sometimes of what may not stand in an expression."""
        way = self.rng.randrange(60)
        if way == 0:
            self.merge(lambda: self.plain(kind))
        elif way == 1:
            self.plain(kind)
            self.op(*((0,) if kind in "JD" else (89, 87)))
        elif way == 2:
            self.plain(kind)
            self.frame()
        elif way < 8 and kind == "I":
            self.compare()
        elif way < 12 and kind[0] == "L":
            self.birth([one for one in self.family.classes if one.type == kind] or [self.rng.choice(self.family.classes)], kind)
        elif way == 12:
            self.op(3, 54, self.free)
            self.plain(kind)
        elif way == 13:
            self.op(0)
            self.plain(kind)
        else:
            self.plain(kind)

    def compare(self):
        """A comparison of longs, each a constant, or more than one."""
        self.op(9, 10)
        if self.chance(0.3):
            self.op(10, 97)
        if self.chance(0.2):
            self.op(0)
        self.op(148)
        self.stack.append("I")

    def pop(self):
        kind = self.stack.pop()
        self.op(88 if kind in ("J", "D") else 87)

    # ---- members

    def is_interface(self, kind):
        one = self.family.class_of(kind[1:-1])
        return one is not None and one.is_interface()

    def member_index(self, owner, name, descriptor, face):
        both = self.pool.add(b"\x0c" + struct.pack(">HH", self.pool.utf8(name), self.pool.utf8(descriptor)))
        tag = 9 if descriptor[0] != "(" else 11 if face else 10
        return self.pool.add(bytes([tag]) + struct.pack(">HH", self.type_index(owner), both))

    def some_owner(self):
        """A type to name a member by."""
        if self.chance(0.03):
            return "[" + self.family.some_type()
        if self.chance(0.01):
            return "Lp/Nowhere;"
        return self.rng.choice([*self.family.classes, *self.family.classes, self.owner]).type

    def known(self, owner, what):
        """A member of a class, or of one above it, mostly a public one; now and then of any."""
        above = self.family.all_above(owner[1:-1]) if self.chance(0.95) else self.family.classes
        found = [each for one in above for each in getattr(one, what)]
        public = [each for each in found if each.flags & PUBLIC]
        found = public if public and self.chance(0.7) else found
        return self.rng.choice(found) if found else None

    def field(self):
        owner = self.some_owner()
        field = self.known(owner, "fields") or Member(0, "x", "I")
        static = (field.flags & STATIC != 0) != self.chance(0.05)
        sets = self.chance(0.4)
        kind = field.descriptor if self.chance(0.95) else self.family.some_type()
        if not static:
            self.receiver(owner)
        if sets:
            self.plain(kind)
        self.wide((PUT_STATIC if static else PUT_FIELD) if sets else GET_STATIC if static else GET_FIELD, self.member_index(owner, field.name, kind, False))
        del self.stack[len(self.stack) - sets - (not static):]
        if not sets:
            self.stack.append(WORDS.get(kind, kind))
            self.pop()

    def receiver(self, owner):
        if owner == self.owner.type and not self.is_static and self.local[0] == owner and self.chance(0.6):
            self.op(42)
            self.stack.append(owner)
        else:
            self.cast(owner)

    def arguments(self, descriptor):
        kinds = parameters(descriptor)
        for kind in kinds:
            self.value(kind)
        return len(kinds)

    def called(self, op, owner, name, descriptor, taken):
        """A call, and nothing left of what it gives."""
        face = self.is_interface(owner) != self.chance(0.02)
        self.wide(op, self.member_index(owner, name, descriptor, face or op == INTERFACELY))
        if op == INTERFACELY:
            self.op(taken, 0)
        del self.stack[len(self.stack) - taken:]
        result = descriptor[descriptor.index(")") + 1:]
        if result != "V":
            self.stack.append(WORDS.get(result, result))
            self.pop()

    def call(self):
        if not self.is_static and self.local[0] == self.owner.type and self.chance(0.3):
            self.special()
            return
        owner = self.some_owner()
        method = self.known(owner, "methods") or Member(PUBLIC, "toString", "()Ljava/lang/String;")
        if method.name == "<init>":
            self.birth([one for one in self.family.classes if one.type == owner], owner)
            return
        static = (method.flags & STATIC != 0) != self.chance(0.04)
        if not static:
            self.receiver(owner)
        count = self.arguments(method.descriptor) + (not static)
        self.called(STATICALLY if static else INTERFACELY if self.is_interface(owner) else VIRTUAL, owner, method.name, method.descriptor, count)

    def special(self):
        """A call by invokespecial, on `this` mostly."""
        owner = self.rng.choice([self.owner.name, self.owner.superclass, self.owner.superclass, *self.owner.interfaces, *self.owner.interfaces,
                                 self.rng.choice(self.family.all_above(self.owner.name)).name])
        methods = [each for one in self.family.all_above(owner) for each in one.methods if each.name != "<init>"]
        methods.append(Member(PUBLIC, *self.rng.choice([("hashCode", "()I"), ("clone", "()Ljava/lang/Object;"), ("finalize", "()V")])))
        method = self.rng.choice(methods)
        own, way = self.owner.type, self.rng.randrange(16)
        if way == 0:
            self.cast(own)
        elif way == 1:
            self.merge(lambda: (self.op(42), self.stack.append(own)))
        elif way == 2:
            self.op(42, 58, self.free, 25, self.free)
            self.stack.append(own)
        elif way == 3:
            self.op(42, 3, 95, 87)
            self.stack.append(own)
            self.code[-2:] = bytes([95, 89, 87, 95, 87]) if self.chance(0.5) else bytes([95, 95, 87])
        elif way == 4:
            self.op(42, 75, 42)
            self.stack.append(own)
        else:
            self.op(42)
            self.stack.append(own)
        count = self.arguments(method.descriptor) + 1
        self.called(SPECIAL, f"L{owner};", method.name, method.descriptor, count)

    # ---- objects

    def birth(self, classes, kind):
        """An object of one of these classes, or null of this type where none has a constructor."""
        found = [(one, each) for one in classes for each in one.methods if each.name == "<init>"]
        if not found:
            self.cast(kind)
            return
        one, method = self.rng.choice(found)
        tag, has_two = f"U{len(self.code)}", self.chance(0.95)
        self.wide(187, self.pool.named(one.name))
        self.op(*([0] if self.chance(0.02) else []), *([89] if has_two else []))
        self.stack += [tag] * (1 + has_two)
        count = self.arguments(method.descriptor) + 1
        self.wide(SPECIAL, self.member_index(one.type, "<init>", method.descriptor, False))
        del self.stack[len(self.stack) - count:]
        if has_two:
            self.stack[-1] = one.type
        else:
            self.cast(kind)

    def begin(self):
        """The call of another constructor."""
        one = self.owner if self.chance(0.3) else self.family.class_of(self.owner.superclass)
        descriptor = self.rng.choice([each.descriptor for each in one.methods if each.name == "<init>"]) if one else "()V"
        owner = one.type if one else f"L{self.owner.superclass};"
        way, start = self.rng.randrange(24), len(self.code)
        if way == 0 and self.owner.fields:
            field = self.rng.choice(self.owner.fields)
            if not field.flags & STATIC:
                self.op(42)
                self.plain(field.descriptor)
                self.stack.pop()
                self.wide(PUT_FIELD, self.member_index(self.owner.type, field.name, field.descriptor, False))
        elif way == 1:
            self.op(0)
        elif way == 2:
            self.frame()
        self.op(42, *([89, 87] if way == 3 else []))
        self.stack.append("this")
        count = self.arguments(descriptor) + 1
        if way == 4:
            self.frame()
        self.wide(SPECIAL, self.member_index(owner, "<init>", descriptor, False))
        del self.stack[len(self.stack) - count:]
        if way == 5:
            self.ranges.append((start, len(self.code), "java/lang/Exception"))
        self.local[0] = self.owner.type

    # ---- statements

    def statement(self):
        way = self.rng.randrange(20)
        if way < 4:
            self.field()
        elif way < 12:
            self.call()
        elif way < 16:
            concrete = [one for one in self.family.classes if not one.flags & ABSTRACT]
            one = self.rng.choice(concrete if concrete and self.chance(0.95) else self.family.classes)
            self.birth([one], one.type)
            self.pop()
        elif way == 16:
            self.cast(self.some_owner())
            self.pop()
        elif way == 17:
            start = len(self.code)
            self.call()
            self.ranges.append((start, len(self.code), self.rng.choice([None, "java/lang/Exception", "p/Nowhere"]) if self.chance(0.3) else None))
        elif way == 18 and self.chance(0.2):
            self.op(11, 87)
        else:
            self.value("I")
            self.pop()

    def ended(self):
        """The content of the Code."""
        self.op(177)
        handlers = []
        for start, end, kind in self.ranges:
            if start < end:
                self.stack = [f"L{kind or 'java/lang/Throwable'};"]
                handlers.append(struct.pack(">HHHH", start, end, len(self.code), self.pool.named(kind) if kind else 0))
                local, self.local = self.local, [self.local[0] if not self.is_static and self.member.name != "<init>" else "top", *self.local[1:]]
                if self.member.name == "<init>":
                    self.local = ["this", *self.local[1:]]
                self.frame()
                self.op(191)
                self.local = local
        frames, last = [], -1
        for pc, (local, stack) in sorted(self.frames.items()):
            tags = [struct.pack(">H", len(each)) + b"".join(map(self.tag, each)) for each in (local, stack)]
            frames.append(struct.pack(">BH", 255, pc - last - 1) + b"".join(tags))
            last = pc
        content = struct.pack(">HHI", 40, self.free + 4, len(self.code)) + bytes(self.code) + struct.pack(">H", len(handlers)) + b"".join(handlers)
        table = struct.pack(">H", len(frames)) + b"".join(frames)
        return content + struct.pack(">HHI", 1, self.pool.utf8("StackMapTable"), len(table)) + table

    def tag(self, kind):
        if kind in TAGS:
            return bytes([TAGS[kind]])
        if kind[0] == "U":
            return struct.pack(">BH", 8, int(kind[1:]))
        return struct.pack(">BH", 7, self.type_index(kind))


def body_of(rng, family, owner, pool, member):
    """The content of the Code of a random method."""
    body = Body(rng, family, owner, pool, member)
    if member.name == "<init>":
        body.begin()
    for _ in range(rng.choice([1, 1, 1, 2, 3])):
        body.statement()
    return body.ended()


def some_methods(rng, owner):
    """Members for methods with random code, of which some stand in each other's way."""
    for number in range(8):
        flags = PUBLIC | (STATIC if rng.random() < 0.4 else 0)
        yield Member(flags, f"t{number}", "()V")
    if not owner.is_interface():
        for kind in ("(B)V", "(BB)V", "(BBB)V"):
            yield Member(PUBLIC, "<init>", kind)
        if rng.random() < 0.1:
            yield Member(rng.choice([STATIC, 0]), "<clinit>", "()V")
    if rng.random() < 0.1:
        yield Member(PUBLIC | rng.choice([0, BRIDGE]), "t0", rng.choice(["()V", "()I"]))
    if rng.random() < 0.1:
        yield Member(rng.choice([PRIVATE, PROTECTED, PUBLIC]), rng.choice(NAMES), "()V")


def attribute(pool, name, content):
    return struct.pack(">HI", pool.utf8(name), len(content)) + content


def class_file(rng, family, owner):
    """The class file of a class, with random methods besides its own, which throw null."""
    pool, parts = Pool(), []
    for field in owner.fields:
        is_constant = field.descriptor in "IZBCS" and (owner.is_interface() or rng.random() < 0.3)
        content = attribute(pool, "ConstantValue", struct.pack(">H", pool.add(struct.pack(">Bi", 3, 1)))) if is_constant else b""
        parts.append(struct.pack(">HHHH", field.flags, pool.utf8(field.name), pool.utf8(field.descriptor), is_constant) + content)
    methods = []
    for member in owner.methods:
        content = b""
        if not member.flags & ABSTRACT:
            words = 1 + sum(2 if kind in "JD" else 1 for kind in parameters(member.descriptor))
            content = attribute(pool, "Code", struct.pack(">HHI", 1, words, 2) + b"\x01\xbf" + bytes(4))
        thrown = [name for name in ["java/lang/Exception", "java/lang/Error", "java/io/IOException"] if rng.random() < 0.1]
        several = b"".join(struct.pack(">H", pool.named(name)) for name in thrown)
        more = attribute(pool, "Exceptions", struct.pack(">H", len(thrown)) + several) if thrown else b""
        methods.append(struct.pack(">HHHH", member.flags, pool.utf8(member.name), pool.utf8(member.descriptor), bool(content) + bool(more)) + content + more)
    for member in some_methods(rng, owner):
        content = attribute(pool, "Code", body_of(rng, family, owner, pool, member))
        methods.append(struct.pack(">HHHH", member.flags, pool.utf8(member.name), pool.utf8(member.descriptor), 1) + content)
    head = struct.pack(">HHHH", owner.flags, pool.named(owner.name), pool.named(owner.superclass), len(owner.interfaces))
    head += b"".join(struct.pack(">H", pool.named(name)) for name in owner.interfaces)
    members = b"".join(struct.pack(">H", len(each)) + b"".join(each) for each in (parts, methods))
    return b"\xca\xfe\xba\xbe" + struct.pack(">HHH", 0, 52, len(pool.entries) + 1) + b"".join(pool.entries) + head + members + bytes(2)


def some_family(rng):
    """The class files of a random family, by their names."""
    family = Family(rng)
    for one in family.classes:
        one.fields = [Member(field.flags | (FINAL if rng.random() < 0.2 else 0), *field[1:]) for field in one.fields
                      if not one.is_interface() or field.descriptor in "IZBCS"]
        if rng.random() < 0.04:
            one.fields.append(Member(PUBLIC | STATIC, rng.choice(NAMES), "I"))
    if rng.random() < 0.15:
        odd = rng.choice(family.classes)
        renamed(family, odd, odd.name[:odd.name.rindex("/") + 1] + rng.choice(["int", "q", "p0", "C-"]) + odd.name[-1:] * rng.randrange(2))
    return {one.name: class_file(rng, family, one) for one in family.classes + family.callers}


def renamed(family, odd, name):
    """Gives a class of a family another name, wherever it is named."""
    old, new = odd.type, f"L{name};"
    if family.class_of(name):
        return
    for one in family.classes + family.callers:
        one.superclass = name if one.superclass == odd.name else one.superclass
        one.interfaces = [name if each == odd.name else each for each in one.interfaces]
        one.fields = [Member(each.flags, each.name, each.descriptor.replace(old, new)) for each in one.fields]
        one.methods = [Member(each.flags, each.name, each.descriptor.replace(old, new)) for each in one.methods]
    odd.name = name
