"""The class file format, read from its text (JVMS 4.1 to 4.7) and from nothing else.

`fault(data)` is None for a class file, else the kind of its first fault and the offset. Three passes: the layout, the
references and descriptors of the pool, the rest; each goes from front to back.
"""
import re

UTF8, INTEGER, FLOAT, LONG, DOUBLE, CLASS, STRING = 1, 3, 4, 5, 6, 7, 8
FIELD, METHOD, INTERFACE_METHOD, NAME_AND_TYPE, HANDLE, METHOD_TYPE, DYNAMIC = 9, 10, 11, 12, 15, 16, 18
PARTS = {INTEGER: (4,), FLOAT: (4,), LONG: (8,), DOUBLE: (8,), CLASS: (2,), STRING: (2,), METHOD_TYPE: (2,), HANDLE: (1, 2)}
PARTS.update({tag: (2, 2) for tag in (FIELD, METHOD, INTERFACE_METHOD, NAME_AND_TYPE, DYNAMIC)})
CONSTANTS = {**{kind: INTEGER for kind in "ISCBZ"}, "F": FLOAT, "J": LONG, "D": DOUBLE, "Ljava/lang/String;": STRING}
NAME = r"[^./;\[]+(?:/[^./;\[]+)*"
TYPE = rf"\[{{0,255}}(?:[BCDFIJSZ]|L{NAME};)"
IS_NAME, IS_FIELD = re.compile(NAME, re.S), re.compile(TYPE, re.S)
IS_METHOD, EACH = re.compile(rf"\(((?:{TYPE})*)\)(?:V|{TYPE})", re.S), re.compile(TYPE, re.S)


class Fault(Exception):
    pass


def units_of(data, start):
    """The text that modified UTF-8 spells (JVMS 4.4.7), or the fault at the first wrong sequence."""
    units, at = [], 0
    while at < len(data):
        first, more = data[at], data[at + 1:at + 3]
        follows = [byte & 0xC0 == 0x80 for byte in more]
        if 1 <= first <= 0x7F:
            units.append(first)
            at += 1
            continue
        unit = None
        if first & 0xE0 == 0xC0 and follows[:1] == [True]:
            unit, size = (first & 31) << 6 | more[0] & 63, 2
            unit = unit if unit == 0 or unit > 0x7F else None
        elif first & 0xF0 == 0xE0 and follows[:2] == [True, True]:
            unit, size = (first & 15) << 12 | (more[0] & 63) << 6 | more[1] & 63, 3
            unit = unit if unit > 0x7FF else None
        if unit is None:
            raise Fault("Units", start + at)
        units.append(unit)
        at += size
    return "".join(map(chr, units))


def is_field(text):
    return IS_FIELD.fullmatch(text) is not None


def is_method(text):
    whole = IS_METHOD.fullmatch(text)
    return whole is not None and sum(2 if one in "JD" else 1 for one in EACH.findall(whole[1])) <= 255


class Reader:
    def __init__(self, data):
        self.data, self.at = data, 0

    def number(self, size):
        if self.at + size > len(self.data):
            raise Fault("Short", self.at)
        self.at += size
        return int.from_bytes(self.data[self.at - size:self.at], "big")

    def run(self, size):
        if self.at + size > len(self.data):
            raise Fault("Short", self.at)
        self.at += size
        return self.data[self.at - size:self.at]


def lay_out(data, oldest):
    """The first pass: the parts of the file, each number with its offset in front."""
    read = Reader(data)

    def placed(size=2):
        return read.at, read.number(size)

    def attributes():
        at, count = placed()
        items = []
        for _ in range(count):
            name, length = placed(), read.number(4)
            items.append((name, read.run(length)))
        return at, items

    def members():
        return [(placed(), placed(), placed(), attributes()) for _ in range(read.number(2))]

    if read.number(4) != 0xCAFEBABE:
        raise Fault("Magic", 0)
    read.number(2)
    if not oldest <= read.number(2) <= 52:
        raise Fault("Version", 6)
    count = read.number(2)
    if count == 0:
        raise Fault("Index", 8)
    pool, index = {}, 1
    while index < count:
        at, tag = placed(1)
        if tag != UTF8 and tag not in PARTS:
            raise Fault("Tag", at)
        if tag in (LONG, DOUBLE) and index + 2 > count:
            raise Fault("Index", at)
        if tag == UTF8:
            length = read.number(2)
            start = read.at
            pool[index] = tag, units_of(read.run(length), start)
        else:
            pool[index] = tag, [placed(size) for size in PARTS[tag]]
        index += 2 if tag in (LONG, DOUBLE) else 1
    flags, this, above = placed(), placed(), placed()
    interfaces = [placed() for _ in range(read.number(2))]
    fields, methods, (_, own) = members(), members(), attributes()
    if read.at < len(data):
        raise Fault("Trailing", read.at)
    return pool, flags, this, above, interfaces, fields, methods, own


def text(pool, index):
    return pool[index][1] if index in pool and pool[index][0] == UTF8 else None


def part(pool, index, tags, place):
    """The entry that a part of another entry names, None where it isn't of one of these tags."""
    if index in pool and pool[index][0] in tags:
        return pool[index][1][place][1]
    return None


def class_text(pool, index):
    return text(pool, part(pool, index, (CLASS,), 0))


def type_text(pool, index):
    return text(pool, part(pool, index, (NAME_AND_TYPE,), 1))


def check_pool(pool):
    """The second pass: where each entry leads."""
    def wants(place, tags):
        if place[1] not in pool or pool[place[1]][0] not in tags:
            raise Fault("Index", place[0])

    def spells(place, found, test):
        if found is not None and not test(found):
            raise Fault("Descriptor", place[0])

    for tag, parts in (pool[index] for index in sorted(pool)):
        if tag == CLASS:
            wants(parts[0], (UTF8,))
            spells(parts[0], text(pool, parts[0][1]), lambda t: IS_NAME.fullmatch(t) or t.startswith("[") and is_field(t))
        elif tag == STRING:
            wants(parts[0], (UTF8,))
        elif tag in (FIELD, METHOD, INTERFACE_METHOD):
            wants(parts[0], (CLASS,))
            wants(parts[1], (NAME_AND_TYPE,))
            spells(parts[1], type_text(pool, parts[1][1]), is_field if tag == FIELD else is_method)
        elif tag == NAME_AND_TYPE:
            wants(parts[0], (UTF8,))
            wants(parts[1], (UTF8,))
            spells(parts[1], text(pool, parts[1][1]), lambda t: is_field(t) or is_method(t))
        elif tag == HANDLE:
            wants(parts[1], (FIELD, METHOD, INTERFACE_METHOD))
        elif tag == METHOD_TYPE:
            wants(parts[0], (UTF8,))
            spells(parts[0], text(pool, parts[0][1]), is_method)
        elif tag == DYNAMIC:
            wants(parts[1], (NAME_AND_TYPE,))
            spells(parts[1], type_text(pool, parts[1][1]), is_method)


def is_class(pool, index):
    found = class_text(pool, index)
    return found is not None and IS_NAME.fullmatch(found) is not None


def is_thrown(pool, content):
    numbers = [int.from_bytes(content[at:at + 2], "big") for at in range(0, len(content), 2)]
    return len(content) % 2 == 0 and len(numbers) > 0 and numbers[0] == len(numbers) - 1 and all(is_class(pool, i) for i in numbers[1:])


def check_member(pool, member, is_a_method):
    flags, name, descriptor, (count_at, attributes) = member
    if bin(flags[1] & 7).count("1") > 1 or not is_a_method and flags[1] & 0x50 == 0x50:
        raise Fault("Flags", flags[0])
    if text(pool, name[1]) is None:
        raise Fault("Index", name[0])
    kind = text(pool, descriptor[1])
    if kind is None or not (is_method if is_a_method else is_field)(kind):
        raise Fault("Descriptor", descriptor[0])
    has_code = any(text(pool, each[1]) == "Code" for each, _ in attributes)
    if is_a_method and has_code != (flags[1] & 0x500 == 0):
        raise Fault("Attribute", count_at)
    seen = set()
    for each, content in attributes:
        word = text(pool, each[1])
        if word is None:
            raise Fault("Index", each[0])
        if word not in (("Code", "Exceptions") if is_a_method else ("ConstantValue",)):
            continue
        right = word not in seen
        seen.add(word)
        if word == "Exceptions":
            right = right and is_thrown(pool, content)
        elif word == "ConstantValue":
            entry = pool.get(int.from_bytes(content, "big"))
            right = right and len(content) == 2 and entry is not None and entry[0] == CONSTANTS.get(kind)
        if not right:
            raise Fault("Attribute", each[0])


def check_rest(pool, flags, this, above, interfaces, fields, methods, own):
    """The third pass: flags, names, descriptors, attributes."""
    is_interface = flags[1] & 0x200 != 0
    if is_interface and flags[1] & 0x410 != 0x400 or not is_interface and flags[1] & 0x410 == 0x410:
        raise Fault("Flags", flags[0])
    if not is_class(pool, this[1]):
        raise Fault("Index", this[0])
    is_root = class_text(pool, this[1]) == "java/lang/Object"
    if above[1] == 0:
        is_right = is_root and not is_interface
    else:
        is_right = is_class(pool, above[1]) and (not is_interface or class_text(pool, above[1]) == "java/lang/Object")
    if not is_right:
        raise Fault("Index", above[0])
    for at, index in interfaces:
        if not is_class(pool, index):
            raise Fault("Index", at)
    for member in fields:
        check_member(pool, member, False)
    for member in methods:
        check_member(pool, member, True)
    for name, _ in own:
        if text(pool, name[1]) is None:
            raise Fault("Index", name[0])


def parts_of(data, oldest=50):
    """The pool and the other parts of a class file, by all three passes; Fault tells what is wrong with other bytes."""
    pool, *rest = lay_out(data, oldest)
    check_pool(pool)
    check_rest(pool, *rest)
    return pool, rest


def fault(data):
    try:
        parts_of(data)
    except Fault as found:
        return found.args
    return None
