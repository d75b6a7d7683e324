"""A class with what javac seldom makes: each form of the instructions that move words of the stack, `nop` and `goto_w`."""
import struct
from random_methods import MOVES, Pool

NAME, ADD = "H", b"\x10\x1f\x85\x69\x61"  # bipush 31, i2l, lmul, ladd


def load(words, slot):
    return bytes([22 if words == 2 else 21, slot])


def code_of(opcode, taken, given):
    """Loads parameters, moves them, and adds up what the stack then has, from the top down, each sum times 31."""
    words = [int(one) for one in taken]
    slots = [sum(words[:place]) for place in range(len(words))]
    total = sum(words)
    code = b"\x09" + bytes([55, total]) + b"".join(map(load, words, slots)) + bytes([opcode])
    left = [words[int(place)] for place in given]
    for one in reversed(left):
        code += (b"\x85" if one == 1 else b"") + bytes([22, total]) + ADD + bytes([55, total])
    return code + bytes([22, total]) + b"\xad", "".join("IJ"[one - 1] for one in words)


def methods():
    for place, (opcode, taken, given) in enumerate(MOVES):
        yield f"t_moves{place}", *code_of(opcode, taken, given)
    yield "t_nothing", b"\x00\x1a\x85\x00\xad", "I"
    yield "t_far", b"\xc8" + struct.pack(">i", 6) + b"\x00" + b"\x1a\x85\xad", "I"


def class_file():
    pool, made = Pool(), []
    this, above, attribute = pool.type(NAME), pool.type("java/lang/Object"), pool.text("Code")
    for name, code, kinds in methods():
        content = struct.pack(">HHI", 20, 20, len(code)) + code + bytes(4)
        made.append(struct.pack(">HHHHHI", 9, pool.text(name), pool.text(f"({kinds})J"), 1, attribute, len(content)) + content)
    head = struct.pack(">IHHH", 0xCAFEBABE, 0, 50, pool.size) + b"".join(pool.entries)
    return head + struct.pack(">HHHHHH", 0x21, this, above, 0, 0, len(made)) + b"".join(made) + bytes(2)
