"""A method's Code, read from the format's text (JVMS 4.7.3, 4.7.4) and from nothing else.

`answer(data)` is the lines that a program tells of the bytes of a class file; what each line is says the head of
`code.py`. A Code is read in five passes: layout, instructions, targets, ranges, frames. The first pass with a fault
counts, and within one the least place.
"""
from class_file_format import Fault, Reader, class_text, is_class, parts_of, text, CLASS, EACH
from instruction_format import Bad, Decoder, shown, type_of_name

TAGS = ["Top", "Int", "Float", "Double", "Long", "Null", "UnbornThis"]


def lay_out_code(content):
    """The first pass: limits, code, entries of exceptions, attributes."""
    read = Reader(content)
    try:
        stack, local = read.number(2), read.number(2)
        length = read.number(4)
        if not 1 <= length <= 65535:
            raise Bad("CutOff", 0)
        code = read.run(length)
        entries = [tuple(read.number(2) for _ in range(4)) for _ in range(read.number(2))]
        attributes = []
        for _ in range(read.number(2)):
            name, size = read.number(2), read.number(4)
            attributes.append((name, read.run(size)))
    except Fault:
        raise Bad("CutOff", 0)
    if read.at < len(content):
        raise Bad("CutOff", 0)
    return stack, local, code, entries, attributes


def first_locals(owner, static, name, descriptor):
    """The values that a method begins with, a long or double once (JVMS 4.10.1.6)."""
    def tag(kind):
        return kind if kind[0] in "[L" else {"J": "Long", "F": "Float", "D": "Double"}.get(kind, "Int")

    here = "UnbornThis" if name == "<init>" and owner != "java/lang/Object" else type_of_name(owner)
    return ([] if static else [here]) + [shown(tag(kind)) for kind in EACH.findall(descriptor[:descriptor.rindex(")")])]


class Frames:
    """The frames of a StackMapTable (JVMS 4.7.4); `last` is the offset of the last good one, 0 where none is."""

    def __init__(self, pool, listing, values):
        self.pool, self.words, self.values = pool, {pc: words for pc, words, *_ in listing}, values
        self.last, self.lines = 0, []

    def read(self, content):
        try:
            read = Reader(content)
            for place in range(read.number(2)):
                self.frame(read, place == 0)
        except Fault:
            raise Bad("Frame", self.last)
        if read.at < len(content):
            raise Bad("Frame", self.last)

    def frame(self, read, is_first):
        kind, values, stack = read.number(1), self.values, []
        if 128 <= kind <= 246:
            raise Fault
        delta = kind % 64 if kind < 128 else read.number(2)
        if 64 <= kind <= 127 or kind == 247:
            stack = [self.tag(read)]
        elif 248 <= kind <= 250:
            gone = 251 - kind
            if gone > len(values):
                raise Fault
            values = values[:len(values) - gone]
        elif 252 <= kind <= 254:
            values = values + [self.tag(read) for _ in range(kind - 251)]
        elif kind == 255:
            values = [self.tag(read) for _ in range(read.number(2))]
            stack = [self.tag(read) for _ in range(read.number(2))]
        offset = delta if is_first else self.last + delta + 1
        if offset not in self.words:
            raise Fault
        self.last, self.values = offset, values
        unborn = "true" if "UnbornThis" in values else "false"
        local = [word for value in values for word in ([value, "Top"] if value in ("Long", "Double") else [value])]
        self.lines.append(" ".join(["frame", str(offset), unborn, *local, "/", *stack]))

    def tag(self, read):
        tag = read.number(1)
        if tag < 7:
            return TAGS[tag]
        if tag > 8:
            raise Fault
        operand = read.number(2)
        if tag == 8:
            if not self.words.get(operand, "").startswith("New "):
                raise Fault
            return f"Unborn:{operand}"
        if operand not in self.pool or self.pool[operand][0] != CLASS:
            raise Fault
        return shown(type_of_name(class_text(self.pool, operand)))


def instructions_of(pool, code):
    """The second pass: each instruction's pc, its words and the pcs that it may go to."""
    decoder, pc, listing = Decoder(pool, code), 0, []
    while pc < len(code):
        words, targets, size = decoder.decode(pc)
        listing.append((pc, words, targets))
        pc += size
    return listing


def check_targets(listing, starts, entries):
    """The third pass: where jumps and handlers lead."""
    for pc, _, targets in listing:
        if any(target not in starts for target in targets):
            raise Bad("Target", pc)
    wrong = [start for start, _, target, _ in entries if target not in starts]
    if wrong:
        raise Bad("Target", min(wrong))


def check_ranges(pool, length, starts, entries):
    """The fourth pass: what entries of exceptions span and take."""
    def is_right(start, end, kind):
        return start in starts and (end in starts or end == length) and start < end and (kind == 0 or is_class(pool, kind))

    wrong = [start for start, end, _, kind in entries if not is_right(start, end, kind)]
    if wrong:
        raise Bad("Range", min(wrong))


def listing_of(pool, owner, static, name, descriptor, content):
    """The lines of a Code that is whole; Bad tells the first fault of another."""
    stack, local, code, entries, attributes = lay_out_code(content)
    listing = instructions_of(pool, code)
    starts = {at for at, *_ in listing}
    check_targets(listing, starts, entries)
    check_ranges(pool, len(code), starts, entries)
    frames, is_first = Frames(pool, listing, first_locals(owner, static, name, descriptor)), True
    for index, table in attributes:
        if text(pool, index) == "StackMapTable":
            if not is_first:
                raise Bad("Frame", frames.last)
            frames.read(table)
            is_first = False
    lines = [f"limits {stack} {local}"] + [f"{at} {words}" for at, words, _ in listing]
    for start, end, target, kind in entries:
        lines.append(f"handler {start} {end} {target}" + (f" {shown(class_text(pool, kind))}" if kind else ""))
    return lines + frames.lines


def lines_of(pool, owner, static, name, descriptor, content):
    head = f"method {shown(name)} {shown(descriptor)}"
    try:
        return [head, *listing_of(pool, owner, static, name, descriptor, content)]
    except Bad as fault:
        return [head, f"bad {fault.args[0]} {fault.args[1]}"]


def methods_of(pool, rest):
    """Of each method with code: its class, whether it is static, its name, descriptor and Code."""
    _, this, _, _, _, methods, _ = rest
    for flags, name, descriptor, (_, attributes) in methods:
        for word, content in attributes:
            if text(pool, word[1]) == "Code":
                yield class_text(pool, this[1]), flags[1] & 8 != 0, text(pool, name[1]), text(pool, descriptor[1]), content


def answer(data):
    try:
        pool, rest = parts_of(data)
    except Fault as found:
        return [f"broken {found.args[0]} {found.args[1]}", "end"]
    lines = [line for method in methods_of(pool, rest) for line in lines_of(pool, *method)]
    return lines + ["end"]
