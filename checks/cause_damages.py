"""Class files of packages with some things changed that the verifier takes, mostly: who may use members, and which ones code names.

`changed(rng, data)` is a copy of a class file in which some members have another access, some fields are final or not, some methods are
bridges or not, and some instructions name another entry of the pool of the same kind, or call as another instruction would.
"""
import struct
from class_file_format import INTERFACE_METHOD, METHOD, Fault, fault, parts_of, text
from code_format import instructions_of, lay_out_code
from instruction_format import Bad

FINAL, VOLATILE, BRIDGE, ABSTRACT = 0x10, 0x40, 0x40, 0x400
ACCESS = [0, 1, 2, 2, 4]
ALIKE = {METHOD: (METHOD, INTERFACE_METHOD), INTERFACE_METHOD: (METHOD, INTERFACE_METHOD)}
INDEXED = {178, 179, 180, 181, 182, 183, 184, 187, 192, 193}
CALLS = {182: 183, 183: 182}
OF_MEMBERS, OF_INSTRUCTIONS = 0.2, 0.01


def change_flags(rng, data, members, are_methods, is_interface):
    """Gives some members other flags; those of interfaces keep their access."""
    for flags, name, *_ in members:
        if rng.random() >= OF_MEMBERS:
            continue
        found = flags[1]
        way = rng.randrange(3)
        if way == 0 and not is_interface and not found & ABSTRACT:
            found = found & ~7 | rng.choice(ACCESS)
        elif way == 1 and not are_methods and not found & VOLATILE and not is_interface:
            found ^= FINAL
        elif way == 2 and are_methods:
            found ^= BRIDGE
        struct.pack_into(">H", data, flags[0], found)


def change_code(rng, data, pool, content):
    """Has some instructions of a Code name other entries; the Code stands in the file as it is here."""
    at = data.find(content)
    try:
        code = lay_out_code(content)[2]
        starts = [pc for pc, *_ in instructions_of(pool, code)]
    except Bad:
        return
    for pc in starts:
        op = code[pc]
        if op not in INDEXED or rng.random() >= OF_INSTRUCTIONS:
            continue
        place = at + 8 + pc
        if op in CALLS and rng.random() < 0.3:
            data[place] = CALLS[op]
            continue
        tag = pool[int.from_bytes(code[pc + 1:pc + 3], "big")][0]
        like = [index for index, entry in pool.items() if entry[0] in ALIKE.get(tag, (tag,))]
        struct.pack_into(">H", data, place + 1, rng.choice(like))


def changed(rng, data):
    """A copy of a class file with some changes; the file itself where these would make it none."""
    made = bytearray(data)
    try:
        pool, (flags, _, _, _, fields, methods, _) = parts_of(data, 45)
    except Fault:
        return data
    for members, are_methods in ((fields, False), (methods, True)):
        change_flags(rng, made, members, are_methods, flags[1] & 0x200 != 0)
    for *_, (_, attributes) in methods:
        for word, content in attributes:
            if text(pool, word[1]) == "Code" and data.count(content) == 1:
                change_code(rng, made, pool, content)
    return bytes(made) if fault(bytes(made)) is None else data
