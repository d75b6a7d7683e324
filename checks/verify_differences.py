"""A method for each thing in which the JVM's verifier and files_check differ, made by hand, with the name that it has to get."""
import struct
import verify_rules as rules
from random_methods import Pool

TOP, INT, LONG, UNBORN_THIS = b"\x00", b"\x01", b"\x04", b"\x06"
ABOVE = {"q/C": ("q/B", ["q/I"]), "q/D": ("q/C", [])}


class Made:
    """A class file with one method of a class of `other_files`; the pool is filled as its code is written."""

    def __init__(self, name="m", descriptor="()V", flags=9, this="q/C", version=52):
        self.pool, self.name, self.descriptor, self.flags, self.this, self.version = Pool(), name, descriptor, flags, this, version

    def kind(self, name):
        return b"\x07" + struct.pack(">H", self.pool.type(name))

    def member(self, opcode, tag, owner, name, descriptor, more=b""):
        return bytes([opcode]) + struct.pack(">H", self.pool.member(tag, owner, name, descriptor)) + more

    def new(self, name):
        return b"\xbb" + struct.pack(">H", self.pool.type(name))

    def table(self, frames):
        """Of each frame its place, its locals and its stack."""
        last, made = -1, struct.pack(">H", len(frames))
        for at, *lists in frames:
            made += b"\xff" + struct.pack(">H", at - last - 1) + b"".join(struct.pack(">H", len(tags)) + b"".join(tags) for tags in lists)
            last = at
        return made

    def file(self, code, stack=2, local=2, entries=(), frames=None, attribute=None, class_flags=0x21):
        """The file, with these frames, or with an attribute of the Code told by its name and content."""
        pool, (name, content_of) = self.pool, ("StackMapTable", self.table(frames)) if frames else attribute or ("", None)
        content = struct.pack(">HHI", stack, local, len(code)) + code + struct.pack(">H", len(entries))
        content += b"".join(struct.pack(">HHHH", *entry) for entry in entries)
        content += b"\0\0" if content_of is None else struct.pack(">HHI", 1, pool.text(name), len(content_of)) + content_of
        above, faces = ABOVE[self.this]
        body = struct.pack(">HHHH", class_flags, pool.type(self.this), pool.type(above), len(faces))
        body += b"".join(struct.pack(">H", pool.type(face)) for face in faces) + struct.pack(">HH", 0, 1)
        body += struct.pack(">HHHHHI", self.flags, pool.text(self.name), pool.text(self.descriptor), 1, pool.text("Code"), len(content)) + content + b"\0\0"
        return b"\xca\xfe\xba\xbe\0\0\0" + bytes([self.version]) + struct.pack(">H", pool.size) + b"".join(pool.entries) + body


def named(words):
    """The name of the rule of what the JVM refuses that has these words."""
    [name] = {row[-2] for row in (*rules.PARSER, *rules.REFUSALS) if words in row[-2]}
    return name


def class_files():
    yield named("flags beyond"), Made("<init>", flags=9).file(b"\xb1")
    yield named("in InnerClasses"), Made().file(b"\xb1", class_flags=0x2021)
    yield named("of <init> and <clinit>"), Made("<clinit>", flags=1).file(b"\xb1")
    yield named("of a method's name"), Made("a;b").file(b"\xb1")
    yield named("attribute of a Code"), Made().file(b"\xb1", attribute=("LineNumberTable", b"\0"))
    made = Made()
    yield named("attribute of a Code"), made.file(b"\x10\x00\x57\xb1", attribute=("LocalVariableTable", struct.pack(">HHHHHH", 1, 0, 1, made.pool.text("x"), made.pool.text("I"), 0)))
    made = Made(version=50)
    made.pool.add(b"\x10" + struct.pack(">H", made.pool.text("()V")))
    yield named("version 51"), made.file(b"\xb1")


def constructors():
    made = Made("<init>", flags=1)
    call = made.member(0xB7, 10, "q/B", "<init>", "()V")
    frames = [(5, [UNBORN_THIS], [made.kind("java/lang/Throwable")])]
    yield named("called on this inside"), made.file(b"\x2a" + call + b"\xb1" + b"\x57\x2a" + call + b"\xb1", entries=[(0, 4, 5, 0)], frames=frames)
    made = Made("<init>", flags=1)
    call = made.member(0xB7, 10, "q/B", "<init>", "()V")
    frames = [(5, [UNBORN_THIS], [made.kind("java/lang/Throwable")])]
    yield named("with the locals behind"), made.file(b"\x2a" + call + b"\xb1" + b"\xbf", entries=[(0, 4, 5, 0)], frames=frames)
    made = Made()
    new, call = made.new("q/A"), made.member(0xB7, 10, "q/A", "<init>", "()V")
    frames = [(9, [b"\x08\x00\x00"], [made.kind("java/lang/Throwable")])]
    yield named("with the locals behind"), made.file(new + b"\x59\x4b" + call + b"\xb1" + b"\xbf", entries=[(5, 8, 9, 0)], frames=frames)
    made = Made("<init>", flags=1)
    field, call = made.member(0xB5, 9, "q/C", "zz", "I"), made.member(0xB7, 10, "q/B", "<init>", "()V")
    yield named("set on an unborn this"), made.file(b"\x2a\x04" + field + b"\x2a" + call + b"\xb1")


def members():
    made = Made(flags=1)
    static, call = made.member(0xB2, 9, "q/A", "s", "Lq/A;"), made.member(0xB6, 10, "java/lang/Object", "clone", "()Ljava/lang/Object;")
    yield named("protected members"), made.file(static + call + b"\x57\xb1")
    made = Made(flags=1, this="q/D")
    yield named("direct superinterface"), made.file(b"\x2a" + made.member(0xB7, 11, "q/I", "y", "()V") + b"\xb1")
    made = Made(version=51)
    yield named("came with version 52"), made.file(made.member(0xB8, 11, "q/I", "y", "()V") + b"\xb1")
    made = Made(descriptor="([I)V")
    yield named("field of an array"), made.file(b"\x2a" + made.member(0xB4, 9, "[I", "zz", "I") + b"\x57\xb1")
    yield named("final methods"), Made("wait", flags=1).file(b"\xb1")
    made = Made()
    call = made.member(0xB9, 11, "q/I", "y", "(J)V", b"\x02\x00")
    yield named("behind the index"), made.file(b"\x01\x09" + call + b"\xb1", stack=3)
    made = Made(descriptor="()Lq/A;")
    yield rules.LOADED, made.file(made.member(0xB2, 9, "q/A", "s", "Lq/Nowhere;") + b"\xb0")


def taken_by_the_jvm():
    yield rules.INFERRED, Made(version=50).file(b"\x03\x99\x00\x03\xb1")
    yield rules.EMPTY, Made().file(b"\xb1", attribute=("StackMapTable", b""))
    yield rules.WIDE, Made().file(b"\x09\xa7\x00\x03\xb1", frames=[(4, [], [TOP, TOP])])
    yield rules.WIDE, Made().file(b"\x0e\x00\xb1", frames=[(1, [], [TOP, TOP])])
    yield rules.WIDE, Made().file(b"\x04\x0e\x00\xb1", stack=3, frames=[(2, [], [INT, TOP, TOP])])
    made = Made()
    yield rules.FORGOTTEN, made.file(b"\xb1" + made.new("q/A") + b"\x57\x2a\x57\xb1", frames=[(1, [b"\x08\x00\x01"], [])])
    made = Made()
    yield rules.FORGOTTEN, made.file(b"\xb1" + made.new("q/A") + b"\x57\xa7\xff\xfc", frames=[(1, [b"\x08\x00\x01"], [])])
    made = Made()
    yield rules.OWN, made.file(b"\xb1" + made.new("q/A") + b"\x57\xa7\xff\xfc", frames=[(1, [], [b"\x08\x00\x01"])])


def methods():
    return [*class_files(), *constructors(), *members(), *taken_by_the_jvm()]
