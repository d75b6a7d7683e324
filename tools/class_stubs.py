"""Class files (JVMS 4) as far as a world of classes needs them: their names, what they name, and stubs of them.

`read` takes the bytes of a class file apart, or raises Broken. Names and descriptors stay the bytes of the constant pool.
`stub` writes a class file of version 52 or below with the same class and the same members, in which every method that is
neither native nor abstract has the code `aconst_null; athrow`, and initializers are left out.
"""
import dataclasses
import re
import struct

UTF8, INTEGER, FLOAT, LONG, DOUBLE, CLASS, STRING = 1, 3, 4, 5, 6, 7, 8
NAME_AND_TYPE, METHOD_TYPE = 12, 16
# How many bytes stand behind the tag of an entry of the pool (JVMS 4.4), but for a text.
SIZES = {3: 4, 4: 4, 5: 8, 6: 8, 7: 2, 8: 2, 9: 4, 10: 4, 11: 4, 12: 4, 15: 3, 16: 2, 17: 4, 18: 4, 19: 2, 20: 2}
NEWEST = 52
PRIVATE, STATIC, NATIVE, ABSTRACT, SYNTHETIC, MODULE = 0x2, 0x8, 0x100, 0x400, 0x1000, 0x8000
# The flags that the format knows in version 52 (JVMS 4.1, 4.5, 4.6); of methods all but strictfp.
CLASS_FLAGS, FIELD_FLAGS, METHOD_FLAGS = 0x7631, 0x50DF, 0x15FF
# aconst_null; athrow
THROWS = b"\x01\xbf"
REFERENCE = re.compile(rb"L([^;]+);")


class Broken(Exception):
    """Bytes that are no class file."""


@dataclasses.dataclass
class Member:
    """A field or a method: its flags, name and descriptor, its constant's entry or None, and the classes it throws."""

    flags: int
    name: bytes
    descriptor: bytes
    constant: tuple | None
    thrown: list


@dataclasses.dataclass
class ClassFile:
    """A class: its version, flags, name, superclass or None, interfaces, members, and its pool."""

    major: int
    minor: int
    flags: int
    name: bytes
    superclass: bytes | None
    interfaces: list
    fields: list
    methods: list
    pool: list

    def above(self):
        """The names of the classes right above it."""
        return [*([self.superclass] if self.superclass else []), *self.interfaces]

    def names(self):
        """The names of the classes that its file names, by itself or in a descriptor."""
        found = {self.name}
        for entry in self.pool:
            if entry and entry[0] == CLASS:
                found.update(in_class_entry(text(self.pool, entry[1])))
            elif entry and entry[0] == NAME_AND_TYPE:
                found.update(REFERENCE.findall(text(self.pool, entry[2])))
            elif entry and entry[0] == METHOD_TYPE:
                found.update(REFERENCE.findall(text(self.pool, entry[1])))
        return found | self.named_by_members(0)

    def named_by_members(self, but):
        """The names of the classes that its members' descriptors and thrown lists name, but for members with these flags."""
        found = set()
        for member in [*self.fields, *self.methods]:
            if not member.flags & but:
                found.update(REFERENCE.findall(member.descriptor), member.thrown)
        return found


def in_class_entry(name):
    """The class that a Class entry names, or that its array is of (JVMS 4.4.1)."""
    return REFERENCE.findall(name) if name.startswith(b"[") else [name]


def text(pool, index):
    """The text at an index of the pool."""
    entry = pool[index]
    if not entry or entry[0] != UTF8:
        raise Broken(f"entry {index} is no text")
    return entry[1]


def class_at(pool, index):
    """The name of the class at an index of the pool, or None at index 0."""
    if index == 0:
        return None
    entry = pool[index]
    if not entry or entry[0] != CLASS:
        raise Broken(f"entry {index} is no class")
    return text(pool, entry[1])


def read_pool(data):
    """The entries of the pool by their indices, and the offset behind them. An entry is a tag and its numbers or bytes."""
    count, at, pool = struct.unpack_from(">H", data, 8)[0], 10, [None]
    while len(pool) < count:
        tag = data[at]
        if tag == UTF8:
            size = struct.unpack_from(">H", data, at + 1)[0]
            pool.append((tag, data[at + 3:at + 3 + size]))
            at += 3 + size
            continue
        if tag not in SIZES:
            raise Broken(f"an entry has the tag {tag}")
        behind = data[at + 1:at + 1 + SIZES[tag]]
        at += 1 + SIZES[tag]
        if tag in (INTEGER, FLOAT, LONG, DOUBLE):
            pool.extend([(tag, behind)] if tag < LONG else [(tag, behind), None])
        else:
            pool.append((tag, *struct.unpack(">" + "H" * (len(behind) // 2), behind[:len(behind) & ~1])))
    return pool, at


def read_attributes(data, at, pool):
    """The contents of attributes by their names, the first of each name, and the offset behind them."""
    found, count = {}, struct.unpack_from(">H", data, at)[0]
    at += 2
    for _ in range(count):
        index, size = struct.unpack_from(">HI", data, at)
        found.setdefault(text(pool, index), (at + 6, size))
        at += 6 + size
    if at > len(data):
        raise Broken("an attribute is longer than the file")
    return found, at


def read_members(data, at, pool):
    """The fields, or the methods, that stand at an offset, and the offset behind them."""
    members, count = [], struct.unpack_from(">H", data, at)[0]
    at += 2
    for _ in range(count):
        flags, name, descriptor = struct.unpack_from(">HHH", data, at)
        attributes, at = read_attributes(data, at + 6, pool)
        constant, thrown = None, []
        if b"ConstantValue" in attributes:
            constant = pool[struct.unpack_from(">H", data, attributes[b"ConstantValue"][0])[0]]
        if b"Exceptions" in attributes:
            start = attributes[b"Exceptions"][0]
            several = struct.unpack_from(">H", data, start)[0]
            thrown = [class_at(pool, it) for it in struct.unpack_from(f">{several}H", data, start + 2)]
        if constant and constant[0] == STRING:
            constant = (STRING, text(pool, constant[1]))
        members.append(Member(flags, text(pool, name), text(pool, descriptor), constant, thrown))
    return members, at


def read(data):
    """The class of a class file; raises Broken where the bytes are none as far as is read here."""
    try:
        magic, minor, major = struct.unpack_from(">IHH", data)
        if magic != 0xCAFEBABE:
            raise Broken("it doesn't begin as a class file does")
        pool, at = read_pool(data)
        flags, this, upper, count = struct.unpack_from(">HHHH", data, at)
        interfaces = [class_at(pool, it) for it in struct.unpack_from(f">{count}H", data, at + 8)]
        fields, at = read_members(data, at + 8 + 2 * count, pool)
        methods, at = read_members(data, at, pool)
        read_attributes(data, at, pool)
        name, superclass = class_at(pool, this), class_at(pool, upper)
    except (struct.error, IndexError) as error:
        raise Broken(f"it is cut off or leads out of its pool ({error})") from None
    if name is None or None in interfaces or flags & MODULE:
        raise Broken("it is no class or interface")
    return ClassFile(major, minor, flags, name, superclass, interfaces, fields, methods, pool)


class Pool:
    """A pool that is being written: each entry once."""

    def __init__(self):
        self.known, self.parts, self.next = {}, [], 1

    def put(self, part, width=1):
        """The index of an entry with these bytes."""
        if part not in self.known:
            self.known[part] = self.next
            self.parts.append(part)
            self.next += width
        return self.known[part]

    def text(self, units):
        """The index of a text."""
        return self.put(struct.pack(">BH", UTF8, len(units)) + units)

    def of_class(self, name):
        """The index of a class by its name."""
        return self.put(struct.pack(">BH", CLASS, self.text(name)))

    def constant(self, entry):
        """The index of a constant that `read` gave: of a string by its text, of a number by its bytes."""
        if entry[0] == STRING:
            return self.put(struct.pack(">BH", STRING, self.text(entry[1])))
        return self.put(bytes([entry[0]]) + entry[1], 2 if entry[0] in (LONG, DOUBLE) else 1)

    def content(self):
        """The bytes of the pool, with its count."""
        return struct.pack(">H", self.next) + b"".join(self.parts)


def attribute(pool, name, content):
    """The bytes of an attribute."""
    return struct.pack(">HI", pool.text(name), len(content)) + content


def words_of(descriptor):
    """How many words the parameters of a method take (JVMS 4.3.3)."""
    kinds = re.findall(rb"\[*(?:L[^;]+;|[BCDFIJSZ])", descriptor[1:descriptor.index(b")")])
    return sum(2 if it in (b"J", b"D") else 1 for it in kinds)


def code_that_throws(pool, member):
    """The Code of a method that throws at once."""
    locals_ = words_of(member.descriptor) + (not member.flags & STATIC)
    return attribute(pool, b"Code", struct.pack(">HHI", 1, locals_, len(THROWS)) + THROWS + b"\0" * 4)


def member_bytes(pool, member, mask, is_method):
    """A field or a method of a stub."""
    attributes = []
    if is_method and not member.flags & (NATIVE | ABSTRACT):
        attributes.append(code_that_throws(pool, member))
    if is_method and member.thrown:
        thrown = [pool.of_class(name) for name in member.thrown]
        attributes.append(attribute(pool, b"Exceptions", struct.pack(f">{len(thrown) + 1}H", len(thrown), *thrown)))
    if not is_method and member.constant:
        attributes.append(attribute(pool, b"ConstantValue", struct.pack(">H", pool.constant(member.constant))))
    head = struct.pack(">HHHH", member.flags & mask, pool.text(member.name), pool.text(member.descriptor), len(attributes))
    return head + b"".join(attributes)


def stub(found):
    """The bytes of a stub of a class that `read` gave; raises Broken where its pool would have too many entries."""
    pool = Pool()
    head = [found.flags & CLASS_FLAGS, pool.of_class(found.name), pool.of_class(found.superclass) if found.superclass else 0]
    head += [len(found.interfaces), *map(pool.of_class, found.interfaces)]
    methods = [it for it in found.methods if it.name != b"<clinit>"]
    fields = [member_bytes(pool, it, FIELD_FLAGS, False) for it in found.fields]
    bodies = [member_bytes(pool, it, METHOD_FLAGS, True) for it in methods]
    if pool.next > 0xFFFF:
        raise Broken("its stub's pool has too many entries")
    version = (0, NEWEST) if found.major > NEWEST else (found.minor, found.major)
    parts = [struct.pack(">IHH", 0xCAFEBABE, *version), pool.content(), struct.pack(f">{len(head)}H", *head)]
    for members in (fields, bodies):
        parts += [struct.pack(">H", len(members)), *members]
    return b"".join([*parts, b"\0\0"])
