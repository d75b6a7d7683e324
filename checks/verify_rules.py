"""Why the JVM's verifier and files_check differ on a method, and the method with just that set right.

A rule has a name, tells whether it is what stands at the place of the difference, and makes of the class file one or
several in which nothing but that is changed, so that both can be asked again: what else differs can't hide behind it.
Where the JVM refuses a file before it looks at the code, and no change makes it look, there is none.
"""
import collections, functools, re, struct
from class_file_format import CLASS, EACH, FIELD, METHOD, NAME_AND_TYPE, UTF8, Fault, class_text, lay_out, part, text
from code_format import answer, lay_out_code
from damaged_types import frame_bytes, read_frames
from instruction_format import Bad

OF_CODE = ("StackMapTable",)
OF_METHODS = ("Code", "Exceptions")
OF_FIELDS = ("ConstantValue",)
OF_CLASSES = ("BootstrapMethods",)


class Opened:
    """A class file with one method, taken apart so that something in it can be changed."""

    def __init__(self, data):
        self.pool, flags, this, above, faces, self.fields, self.methods, self.own = lay_out(data, 45)
        self.version, self.size, self.added, self.entries_of_pool = data[:8], int.from_bytes(data[8:10], "big"), b"", data[10:flags[0]]
        self.head = [flags[1], this[1], above[1], *[index for _, index in faces]]
        self.flags, self.name, self.descriptor = (place[1] for place in self.methods[0][:3])
        self.attributes = [(name[1], content) for name, content in self.methods[0][3][1]]
        content = next(content for name, content in self.attributes if text(self.pool, name) == "Code")
        self.stack, self.local, code, entries, self.inner = lay_out_code(content)
        self.code, self.entries, self.more_fields = bytearray(code), list(entries), []

    def add(self, entry):
        """The index of a further entry of the pool."""
        self.added += entry
        self.size += 1
        return self.size - 1

    def add_text(self, words):
        return self.add(bytes([UTF8]) + struct.pack(">H", len(words)) + words.encode())

    def index_at(self, pc):
        return int.from_bytes(self.code[pc + 1:pc + 3], "big")

    def member(self, pc):
        """Of the member that the instruction names: the tag, the class's index and that of its name and type."""
        tag, parts = self.pool[self.index_at(pc)]
        return tag, parts[0][1], parts[1][1]

    def name_member(self, pc, tag, owner, both):
        index = self.add(bytes([tag]) + struct.pack(">HH", owner, both))
        self.code[pc + 1:pc + 3] = index.to_bytes(2, "big")

    def cut_out(self, pc, behind, targets=None):
        """Takes an instruction out of the ranges, of these handlers alone where some are told."""
        kept = []
        for start, end, target, kind in self.entries:
            if start <= pc < end and (targets is None or target in targets):
                kept += [(one, other, target, kind) for one, other in ((start, pc), (behind, end)) if one < other]
            else:
                kept.append((start, end, target, kind))
        self.entries = kept

    def drop(self, kept, attributes):
        return [(name, content) for name, content in attributes if text(self.pool, name) in kept]

    def drop_passed_over(self):
        """Takes out the attributes that aren't looked at."""
        self.inner, self.attributes = self.drop(OF_CODE, self.inner), self.drop(OF_METHODS, self.attributes)
        self.own = [(name, content) for name, content in self.own if text(self.pool, name[1]) in OF_CLASSES]
        self.fields = [(*each[:3], (each[3][0], [(name, content) for name, content in each[3][1] if text(self.pool, name[1]) in OF_FIELDS])) for each in self.fields]

    def frames(self):
        """The places of the frames, and the frames."""
        table = next((content for name, content in self.inner if text(self.pool, name) == "StackMapTable"), b"\0\0")
        frames = read_frames(table)
        return [sum(frame[1] + 1 for frame in frames[:n + 1]) - 1 for n in range(len(frames))], frames

    def set_frames(self, frames):
        made = struct.pack(">H", len(frames)) + b"".join(map(frame_bytes, frames))
        self.inner = [(name, made if text(self.pool, name) == "StackMapTable" else content) for name, content in self.inner]

    def file(self):
        def listed(attributes):
            return struct.pack(">H", len(attributes)) + b"".join(struct.pack(">HI", name, len(content)) + content for name, content in attributes)

        code = struct.pack(">HHI", self.stack, self.local, len(self.code)) + self.code
        code += struct.pack(">H", len(self.entries)) + b"".join(struct.pack(">HHHH", *entry) for entry in self.entries) + listed(self.inner)
        made = bytes(self.version) + struct.pack(">H", self.size) + self.entries_of_pool + self.added
        flags, this, above, *faces = self.head
        made += struct.pack(">HHHH", flags, this, above, len(faces)) + b"".join(struct.pack(">H", face) for face in faces)
        made += struct.pack(">H", len(self.fields) + len(self.more_fields))
        for each in self.fields:
            made += struct.pack(">HHH", *(place[1] for place in each[:3])) + listed([(name[1], content) for name, content in each[3][1]])
        made += b"".join(self.more_fields) + struct.pack(">HHHH", 1, self.flags, self.name, self.descriptor)
        made += listed([(name, bytes(code) if text(self.pool, name) == "Code" else content) for name, content in self.attributes])
        return made + listed([(name[1], content) for name, content in self.own])


LOADED = "a class that no file gives, which the JVM has to load"
INFERRED = "in version 50 the JVM infers frames where those that are given don't fit"
FORGOTTEN = "the JVM doesn't forget at a `new` an object in a local that it made before, and may use it later"
OTHER_PLACE = "another"
Found = collections.namedtuple("Found", "name files lacking")  # a difference, the files with it set right, classes that the JVM lacks


class Case:
    """A class file with one method, what each says of it, and what the second reading of `code.py` tells of its Code."""

    def __init__(self, data, lines, theirs):
        self.data, self.ours, self.theirs = data, lines[0] if lines else "none verified", theirs
        self.accepted, self.fine = self.ours.endswith(" verified"), theirs == "ok"

    @functools.cached_property
    def lines(self):
        return answer(self.data)

    @functools.cached_property
    def instructions(self):
        return {int(line.split(" ")[0]): line.split(" ")[1:] for line in self.lines if line[0].isdigit()}

    @functools.cached_property
    def handlers(self):
        return [tuple(map(int, line.split(" ")[1:4])) for line in self.lines if line.startswith("handler")]

    def violation(self):
        """The rule that is broken here, and where."""
        _, _, rule, pc = self.ours.split(" ")
        return rule, int(pc)

    def opened(self):
        return Opened(self.data)

    def name(self):
        opened = self.opened()
        return text(opened.pool, opened.name)

    def instruction(self, pc):
        return self.instructions.get(pc, [""])

    def behind(self, pc):
        return min((each for each in self.instructions if each > pc), default=len(self.opened().code))

    def targets(self, pc):
        """Where the instruction may jump."""
        words = self.instruction(pc)
        if words[0] in ("TableSwitch", "LookupSwitch"):
            return [int(word.split(":")[-1]) for word in words[2 if words[0] == "TableSwitch" else 1:]]
        return [int(words[-1])] if words[0].startswith("If") or words[0] == "Goto" else []

    def constructs(self, pc):
        """The instruction calls a constructor."""
        words = self.instruction(pc)
        return words[0] == "InvokeSpecial" and words[3] == "<init>"

    def covers(self, pc, targets=None):
        """The handlers whose ranges have the instruction, among these where some are told."""
        return [target for start, end, target in self.handlers if start <= pc < end and (targets is None or target in targets)]

    def agrees_behind(self, name):
        """Both say of the method with that set right what is to be said."""
        refused = not self.accepted and self.theirs.startswith(("VerifyError ", "ClassFormatError StackMapTable")) and compares_place(self) != OTHER_PLACE
        return refused if name == INFERRED else self.accepted and self.fine or name in (LOADED, FORGOTTEN) and refused


def place_of(theirs):
    found = re.search(r" @(\d+):", theirs)
    return int(found[1]) if found else None


def frame_of(theirs):
    """The instruction whose frame the JVM looked at."""
    found = re.search(r" frame of @(\d+)", theirs)
    return int(found[1]) if found else None


# ---- what the JVM refuses before it looks at code

def right_flags(case):
    """Flags that each method may have; a static constructor has another name."""
    opened = case.opened()
    static = opened.flags & 8
    if static and case.name() == "<init>":
        opened.name = opened.add_text("m")
    opened.flags = 1 | static
    opened.head[0] |= 1
    opened.head[0] &= 0x611
    opened.fields = [((each[0][0], 9 if opened.head[0] & 0x200 else 1), *each[1:]) for each in opened.fields]
    if opened.head[0] & 0x200:
        opened.fields, opened.version = [], opened.version[:7] + b"\x34"
    return [opened.file()]


def right_class_flags(case):
    """Flags that the class may have; where they are its InnerClasses', no attribute that is passed over."""
    told = re.search(r"0x([0-9a-f]+)", case.theirs)
    others = told and int(told[1], 16) & ~case.opened().head[0]
    return without_attributes(case) if others else right_flags(case)


def another_name(case):
    """A name that each method may have, where it isn't a constructor with an object."""
    opened = case.opened()
    member_names = [text(opened.pool, parts[0][1]) for tag, parts in opened.pool.values() if tag == NAME_AND_TYPE]
    if case.name() == "<init>" and not opened.flags & 8 or case.name() in member_names:
        return []
    opened.name = opened.add_text("m$")
    return [opened.file()]


def legal_names(case):
    """Names that methods may have in place of those of the pool that none may have; where there are none, another name of the method's own."""
    opened = case.opened()
    named = [parts[0] for tag, parts in opened.pool.values() if tag == NAME_AND_TYPE]
    wrong = [place for place, name in named if set(text(opened.pool, name)) & set(".;[/<>") and text(opened.pool, name) not in ("<init>", "<clinit>")]
    if not wrong:
        return another_name(case)
    entries, legal = bytearray(opened.entries_of_pool), opened.add_text("m$")
    for place in wrong:
        struct.pack_into(">H", entries, place - 10, legal)
    opened.entries_of_pool = bytes(entries)
    return [opened.file()]


def version_52(case):
    return [case.data[:7] + b"\x34" + case.data[8:]]


def without_attributes(case):
    opened = case.opened()
    opened.drop_passed_over()
    return [opened.file()]


def nothing(case):
    return []


IN_CODE = "an attribute of a Code that is passed over here (JVMS 4.7.3)"
# What the JVM's parser refuses of what is passed over here, and how it is set right.
PARSER = [
    (r"Bad (method|field) name at constant pool index", "the spelling of a member's name in the pool (JVMS 4.2.2)", nothing),
    (r"[Bb]ootstrap|argument_index", "BootstrapMethods, which are passed over here (JVMS 4.7.23)", nothing),
    (r"Field .* has illegal signature", IN_CODE, without_attributes),
    (r"has illegal signature|<clinit> is not static", "the descriptor and the flags of <init> and <clinit> (JVMS 4.6)", another_name),
    (r"Illegal class modifiers", "a class's flags, its own or in InnerClasses, that aren't asked here (JVMS 4.1, 4.7.6)", right_class_flags),
    (r"illegal modifiers|Illegal (field|method) modifiers", "flags beyond those that are asked here (JVMS 4.1, 4.5, 4.6)", right_flags),
    (r"Illegal (method) name|Bad method name", "the spelling of a method's name, its own or one in the pool (JVMS 4.2.2)", legal_names),
    (r"Illegal (field|class) name|Bad field name|Bad name", "the spelling of a field's or a class's name (JVMS 4.2.2)", nothing),
    (r"Duplicate (field|method|interface)", "two members or interfaces alike (JVMS 4.5, 4.6, 4.1)", nothing),
    (r"LineNumberTable|LocalVariable|local variable table|LVTT? entry|code attribute name", IN_CODE, without_attributes),
    (r"InnerClasses|inner_class|outer_class|inner_name|EnclosingMethod|SourceFile|Signature|Annotation|MethodParameters|Wrong size|attribute length|Truncated class file", "an attribute that is passed over here (JVMS 4.7)", without_attributes),
    (r"method handle|reference_kind", "what a MethodHandle refers to (JVMS 4.4.8)", nothing),
    (r"does not support constant tag", "kinds of entry that came with version 51 (JVMS 4.4)", version_52),
]


# ---- what the JVM refuses of code that is verified here

def right_counts(case):
    """The bytes behind the index as the standard has them (JVMS 6.5)."""
    pc, opened = place_of(case.theirs), case.opened()
    words = case.instruction(pc)
    count = 1 + sum(2 if kind in "JD" else 1 for kind in EACH.findall(words[4].split(")")[0])) if words[0] == "InvokeInterface" else 0
    opened.code[pc + 3:pc + 5] = bytes([count & 255, 0])
    return [opened.file()]


def sets_another_field(case, pc):
    """The instruction sets a field of the class that the class doesn't declare."""
    opened, words = case.opened(), case.instruction(pc)
    declared = [(text(opened.pool, name[1]), text(opened.pool, kind[1])) for _, name, kind, _ in opened.fields]
    return words[0] == "PutField" and words[1] == f"L{class_text(opened.pool, opened.head[1])};" and tuple(words[2:4]) not in declared


def declares_field(case):
    opened = case.opened()
    _, _, both = opened.member(place_of(case.theirs))
    name, kind = (part(opened.pool, both, (NAME_AND_TYPE,), place) for place in (0, 1))
    opened.more_fields.append(struct.pack(">HHHH", 1, name, kind, 0))
    return [opened.file()]


def outside_ranges(case):
    pc, opened = place_of(case.theirs), case.opened()
    opened.cut_out(pc, case.behind(pc))
    return [opened.file()]


def outside_range_of_handler(case):
    pc, opened = frame_of(case.theirs), case.opened()
    opened.cut_out(pc, case.behind(pc), {place_of(case.theirs)})
    return [opened.file()]


def another_member(case):
    """The same member by a name that no class has."""
    pc, opened = place_of(case.theirs), case.opened()
    tag, owner, both = opened.member(pc)
    name, kind = (part(opened.pool, both, (NAME_AND_TYPE,), place) for place in (0, 1))
    if text(opened.pool, name) == "<init>":
        return []
    fresh = opened.add(bytes([NAME_AND_TYPE]) + struct.pack(">HH", opened.add_text("no$member"), kind))
    opened.name_member(pc, tag, owner, fresh)
    return [opened.file()]


def method_of_class(case):
    """The same method as that of a class."""
    pc, opened = place_of(case.theirs), case.opened()
    _, owner, both = opened.member(pc)
    opened.name_member(pc, METHOD, owner, both)
    return [opened.file()]


def field_of_object(case):
    """The same field as one of java/lang/Object."""
    pc, opened = place_of(case.theirs), case.opened()
    _, _, both = opened.member(pc)
    root = opened.add(bytes([CLASS]) + struct.pack(">H", opened.add_text("java/lang/Object")))
    opened.name_member(pc, FIELD, root, both)
    return [opened.file()]


def is_access(words):
    return words[0] in ("GetField", "PutField", "GetStatic", "PutStatic", "InvokeVirtual", "InvokeSpecial")


# What the JVM says, what has to stand at the place that it tells, the name, and how it is set right.
REFUSALS = [
    (r"count operand in invokeinterface|operand byte(s)? of invoke(interface|dynamic)|operand bytes of invoke", lambda case, pc: case.instruction(pc)[0] in ("InvokeInterface", "InvokeDynamic"),
     "the bytes behind the index of invokeinterface and invokedynamic aren't looked at", right_counts),
    (r"Illegal type at constant pool entry", lambda case, pc: case.data[7] < 52 and case.instruction(pc)[0] in ("InvokeSpecial", "InvokeStatic") and "true" in case.instruction(pc)[1:3],
     "invokespecial and invokestatic of an interface's method came with version 52 (JVMS 4.9.1)", version_52),
    (r"uninitializedThis.*in putfield|in putfield.*uninitializedThis", lambda case, pc: case.name() == "<init>" and sets_another_field(case, pc),
     "a field that is set on an unborn this has to be one that the class itself declares, by the JVM", declares_field),
    (r"Bad <init> method call from after", lambda case, pc: case.name() == "<init>" and case.constructs(pc) and case.covers(pc),
     "a constructor that is called on this inside a range, whose handler may return (JVMS 4.10.1.6, initHandlerIsLegal)", outside_ranges),
    (r"at exception handler", lambda case, pc: case.constructs(frame_of(case.theirs)) and case.covers(frame_of(case.theirs), {pc}),
     "the JVM looks at a handler with the locals behind a constructor's call, the standard with those before", outside_range_of_handler),
    (r"Bad access to protected", lambda case, pc: is_access(case.instruction(pc)),
     "access to protected members isn't looked at", another_member),
    (r"in an indirect superinterface", lambda case, pc: case.instruction(pc)[0] == "InvokeSpecial" and case.instruction(pc)[2] == "true",
     "invokespecial of an interface's method: that it is a direct superinterface isn't asked", method_of_class),
    (r"Expecting reference to class", lambda case, pc: case.instruction(pc)[0] in ("GetField", "PutField", "GetStatic", "PutStatic") and case.instruction(pc)[1].startswith("["),
     "a field of an array class, whose class the JVM wants to be no array", field_of_object),
    (r"Illegal local variable table", lambda case, pc: True, IN_CODE, without_attributes),
    (r"overrides final method", lambda case, pc: True, "overriding of final methods isn't looked at", another_name),
]
def refused_code(case):
    """The rows of what the JVM refuses at the place that it tells, where that is taken here."""
    return [row for row in REFUSALS if re.search(row[0], case.theirs) and row[1](case, place_of(case.theirs))]


def refusal(case, world):
    """What the JVM refuses where all is verified here, or None."""
    theirs = case.theirs
    if theirs.startswith("NoClassDefFoundError "):
        name = re.sub(r"\\u([0-9a-f]{4})", lambda found: chr(int(found[1], 16)), theirs.split(" ")[1].lstrip("[").removeprefix("L").rstrip(";"))
        return None if name in world.known else Found(LOADED, [] if name.startswith("java/") else [case.data], {name})
    if theirs.startswith("ClassFormatError "):
        return next((Found(rule, mend(case), set()) for pattern, rule, mend in PARSER if re.search(pattern, theirs)), None)
    return next((Found(rule, mend(case), set()) for _, _, rule, mend in refused_code(case)), None)


# ---- what the JVM accepts and is refused here

def has_empty_table(case):
    opened = case.opened()
    return any(text(opened.pool, name) == "StackMapTable" and not table for name, table in opened.inner)


def without_empty_tables(case):
    opened = case.opened()
    opened.inner = [(name, table) for name, table in opened.inner if table or text(opened.pool, name) != "StackMapTable"]
    return [opened.file()]


def doubled(tags):
    """The ways in which a Long or a Double may stand for two Tops of a list, at least once."""
    if len(tags) < 2:
        return []
    rest = [tags[:1] + more for more in doubled(tags[1:])]
    if tags[0][0] == 0 and tags[1][0] == 0:
        ends = [tags[2:], *doubled(tags[2:])]
        rest += [[wide, *end] for wide in ([4, 0], [3, 0]) for end in ends]
    return rest


def with_wide(case):
    """A Long or a Double for two Tops on the stack of the frame into which something doesn't go."""
    rule, pc = case.violation()
    wanted = [pc] if rule == "Into" else case.targets(pc)
    made, opened = [], case.opened()
    places, frames = opened.frames()
    for n, (place, frame) in enumerate(zip(places, frames)):
        for stack in doubled(frame[4])[:16] if place in wanted else []:
            opened.set_frames([*frames[:n], [*frame[:4], stack], *frames[n + 1:]])
            made.append(opened.file())
    return made


def with_top_for_own(case):
    """Top for an object of the `new` itself on the stack of the frame from which control comes to it."""
    pc, opened = case.violation()[1], case.opened()
    if case.instruction(pc)[0] != "New":
        return []
    places, frames = opened.frames()
    last = max((place for place in places if place <= pc), default=None)
    changed = [[*frame[:4], [[0, 0] if tag == [8, pc] else tag for tag in frame[4]]] if place == last else frame for place, frame in zip(places, frames)]
    opened.set_frames(changed)
    return [opened.file()] if changed != frames else []


def with_top_for_forgotten(case):
    """Top for an object of a `new` that comes behind in the locals of the frames before it, one file for each `new`."""
    made, opened = [], case.opened()
    places, frames = opened.frames()
    for pc in [pc for pc, words in case.instructions.items() if words[0] == "New"][:16]:
        changed = [[*frame[:3], [[0, 0] if tag == [8, pc] else tag for tag in frame[3]], frame[4]] if place <= pc else frame for place, frame in zip(places, frames)]
        if changed != frames:
            opened.set_frames(changed)
            made.append(opened.file())
    return made


EMPTY = "a StackMapTable without a byte, not even its count, which the JVM takes for none"
WIDE = "a long or a double on the stack goes into two Tops, by the JVM"
OWN = "the JVM doesn't ask at a `new` whether an object that it made before is still there unborn"
# What is refused here where the JVM accepts, by the rules that it may be told by, and how it is set right.
ACCEPTANCES = [
    (("Into", "Target"), WIDE, with_wide),
    (("Operands",), OWN, with_top_for_own),
    (("Into", "Operands", "Target", "Handler"), FORGOTTEN, with_top_for_forgotten),
]


def acceptance(case):
    """What is refused here where the JVM accepts all, or None."""
    if case.data[7] == 50:
        return Found(INFERRED, [case.data[:7] + b"\x33" + case.data[8:]], set())
    if case.ours.split(" ")[1:] == ["bad", "Frame", "0"]:
        return Found(EMPTY, without_empty_tables(case), set()) if has_empty_table(case) else None
    if " unverified " not in case.ours:
        return None
    found = ((name, mend(case)) for rules, name, mend in ACCEPTANCES if case.violation()[0] in rules)
    return next((Found(name, files, set()) for name, files in found if files), None)


def difference(case, world):
    """What the two differ in, or None where it has no name or the file can't be taken apart."""
    try:
        return refusal(case, world) if case.accepted else acceptance(case)
    except (Bad, Fault, KeyError, StopIteration, struct.error):
        return None


# ---- where both refuse

def compares_place(case):
    """How the places differ where both refuse."""
    if " unverified " not in case.ours:
        return "the Code isn't whole"
    (rule, pc), theirs = case.violation(), place_of(case.theirs)
    if theirs is None:
        return "the JVM tells none"
    if theirs == pc:
        return "the same"
    if rule == "Target" and theirs in case.targets(pc):
        return "the JVM tells that of the target"
    if rule == "Handler" and theirs in case.covers(pc):
        return "the JVM tells that of the handler"
    if rule == "Past" and "falls through code end" in case.theirs:
        return "the JVM tells that of the end"
    if "Catch type" in case.theirs and any(target == theirs for _, _, target in case.handlers):
        return "the JVM looks at the classes of handlers first"
    if (frame_of(case.theirs) if "at exception handler" in case.theirs else theirs) < pc and refused_code(case):
        return "the JVM refuses something before that is taken here"
    if frame_of(case.theirs) == pc:
        return "the JVM tells another place of the same instruction"
    if rule in ("Into", "Target") and theirs > pc and with_wide(case):
        return "the JVM takes a long into two Tops there, and refuses something behind"
    return OTHER_PLACE
