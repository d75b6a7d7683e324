"""Copies of class files with one method each, whose Code is damaged: bytes and numbers changed, cut out, doubled, swapped."""
import struct
from class_file_format import CLASS, HANDLE, METHOD_TYPE, class_text, lay_out, text
from code_format import instructions_of, lay_out_code

FRAME_BYTES = [*range(10), 63, 64, 127, 128, 246, *range(247, 256)]  # tags, and the kinds at which the form of a frame changes
OPCODES = [0xC4, 0xAA, 0xAB, 0xA8, 0xA9, 0xC9, 0x12, 0x14, 0xBC, 0xC5]  # wide, switches, jsr, ret, jsr_w, ldc, ldc2_w, newarray, multianewarray


class Lone:
    """A class file with one method: what stands before the length of its Code, the Code, what stands behind; and how it is read."""

    def __init__(self, pool, owner, head, member, content, tail):
        flags, name, descriptor, _ = member
        self.pool, self.head, self.content, self.tail = pool, head, content, tail
        self.method = owner, flags[1] & 8 != 0, text(pool, name[1]), text(pool, descriptor[1])
        self.indices = list(pool)
        self.seldom = [index for index, (tag, _) in pool.items() if tag in (HANDLE, METHOD_TYPE)] or self.indices
        self.starts = [pc for pc, *_ in instructions_of(pool, lay_out_code(content)[2])]

    def file(self, content):
        return self.head + struct.pack(">I", len(content)) + content + self.tail


def lone_methods(data):
    """Each method with code, in a file of its own."""
    pool, _, this, _, _, _, methods, _ = lay_out(data, 50)
    if methods:
        count_at, attributes = methods[-1][3]
        end = attributes[-1][0][0] + 6 + len(attributes[-1][1]) if attributes else count_at + 2
    for member in methods:
        for name, content in member[3][1]:
            if text(pool, name[1]) == "Code":
                at = member[0][0]
                head = data[:methods[0][0][0] - 2] + b"\x00\x01" + data[at:at + 6] + struct.pack(">HH", 1, name[1])
                yield Lone(pool, class_text(pool, this[1]), head, member, content, data[end:])


def damage_bytes(rng, data, wanted=()):
    """One place of some bytes changed, cut out, doubled or swapped; `wanted` has values that tell much."""
    if not data:
        data.append(rng.randrange(256))
    at, size, kind = rng.randrange(len(data)), rng.choice([1, 2, 3, 8]), rng.randrange(7)
    if kind < 3:
        data[at] = rng.choice([0, data[at] ^ 1 << rng.randrange(8), rng.randrange(256), *wanted])
    elif kind == 3:
        number = int.from_bytes(data[at:at + 2], "big")
        data[at:at + 2] = (rng.choice([number + 1, number - 1, rng.randrange(70), rng.randrange(65_536)]) & 65_535).to_bytes(2, "big")
    elif kind == 4:
        del data[at:at + size]
    elif kind == 5:
        data[at:at] = data[at:at + size]
    else:
        data[at:at + 2 * size] = data[at + size:at + 2 * size] + data[at:at + size]


def damage_code(rng, lone, code):
    """An opcode changed, an index or a jump, or any bytes."""
    at, kind = rng.choice(lone.starts), rng.randrange(5)
    if kind == 0:
        code[at] = rng.choice([*OPCODES, rng.randrange(256), *(rng.randrange(202) for _ in range(5))])
    elif kind == 1:
        code[at + 1:at + 3] = rng.choice([rng.choice(lone.indices), rng.choice(lone.seldom), rng.randrange(-20, 20) & 65_535]).to_bytes(2, "big")
    elif kind == 2:
        code[at + 1:at + 2] = bytes([rng.choice([rng.randrange(256), rng.choice(lone.indices) & 255])])
    elif kind == 3:
        code[at:at + 2] = bytes([0x12, rng.choice(lone.seldom) & 255])
    else:
        damage_bytes(rng, code)


def damage_entries(rng, lone, length, entries):
    """A number of an entry changed, an entry added, or all of them turned."""
    if not entries or rng.random() < 0.3:
        entries.append([0, length, 0, 0])
    classes = [index for index, (tag, _) in lone.pool.items() if tag == CLASS]
    values = [rng.choice(lone.starts), rng.choice(lone.starts), length, rng.randrange(length + 2), rng.choice(classes), rng.choice(lone.indices), rng.randrange(65_536)]
    rng.choice(entries)[rng.randrange(4)] = rng.choice(values)
    if rng.random() < 0.2:
        entries.reverse()


def damage(rng, lone):
    """A damaged Code of a method; its lengths are mostly made right again."""
    stack, local, code, entries, attributes = lay_out_code(lone.content)
    code, entries, attributes = bytearray(code), [list(entry) for entry in entries], [[name, bytearray(table)] for name, table in attributes]
    tables = [attribute for attribute in attributes if text(lone.pool, attribute[0]) == "StackMapTable"]
    kind = rng.random()
    if kind < 0.25:
        damage_entries(rng, lone, len(code), entries)
    elif kind < 0.6 and tables:
        for _ in range(rng.choice([1, 1, 2])):
            damage_bytes(rng, tables[0][1], FRAME_BYTES)
    elif kind < 0.97:
        damage_code(rng, lone, code)
    if rng.random() < 0.04:
        attributes += rng.choice([tables, [[rng.choice(lone.indices), bytearray(rng.randbytes(3))]], attributes[:1]])
    length = len(code) if rng.random() < 0.97 else rng.choice([0, 1, len(code) - 1, len(code) + 1, 65_536])
    made = bytearray(struct.pack(">HHI", stack, local, length) + code + struct.pack(">H", len(entries)))
    made += b"".join(struct.pack(">HHHH", *entry) for entry in entries) + struct.pack(">H", len(attributes))
    made += b"".join(struct.pack(">HI", name, len(table)) + table for name, table in attributes)
    if rng.random() < 0.05:
        damage_bytes(rng, made)
    return bytes(made)
