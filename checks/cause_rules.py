"""The causes of a method with code, for `causes.py`: what can't be said in Java, each from its rule.

Each function answers what the report tells behind the cause's name, or None where the cause doesn't hold. `first_cause` looks at
them in order. Monitors aren't paired here: of a method that has an instruction on them the first seven causes alone are told.
"""
import re
from cause_worlds import ABSTRACT, BRIDGE, EACH, FINAL, PRIVATE, PUBLIC, STATIC, classes_of, is_identifier, parameters_of, result_of

CORE = {"java/lang/Object", "java/lang/String", "java/lang/Class", "java/lang/Throwable"}
DYNAMIC = {"InvokeDynamic", "PushHandle", "PushMethodType"}
FLOATING = {"Float", "Double"}
MONITORS = {"MonitorEnter", "MonitorExit"}
BLOCKS, BIRTH = 2_000, 2_000
NEVER = {"Store", "ArrayStore", "Pop", "Pop2", "DupX1", "DupX2", "Dup2", "Dup2X1", "Dup2X2", "Swap", "Iinc", "IfZero", "IfInts", "IfRefs", "IfNull", "Goto",
         "TableSwitch", "LookupSwitch", "Return", "PutStatic", "PutField", "Throw", *MONITORS}


class Method:
    """A method with its code, its class and the world."""

    def __init__(self, world, owner, place, code):
        self.world, self.owner, self.here = world, owner, owner.name
        self.head, self.place, self.code = owner.methods[place], place, code
        self.kept_marks = None

    def marks(self):
        if self.kept_marks is None:
            self.kept_marks = self.code.marks()
        return self.kept_marks

    def is_constructor(self):
        return self.head.name == "<init>"


# ---- what is named

def is_floating(descriptor):
    return re.search("[FD]", re.sub("L[^;]*;", "", descriptor)) is not None


def works_on_floating(at):
    if at.word in ("Push", "Load", "Store", "ArrayLoad", "ArrayStore", "Calc", "Convert", "Compare", "Return"):
        own = at.parts[:2] if at.word in ("Calc", "Convert") else at.parts[:1]
        return any(part in FLOATING or part in ("F", "D") for part in own)
    if at.word in DYNAMIC:
        own = [at.parts[2], at.parts[4]] if at.word == "PushHandle" else at.parts[-1:]
        return any(map(is_floating, own))
    return any(map(is_floating, at.kinds()))


def float_cause(one):
    if is_floating(one.head.descriptor):
        return 0
    return next((at.pc for at in one.code.instructions if works_on_floating(at)), None)


def dynamic_cause(one):
    return next((at.pc for at in one.code.instructions if at.word in DYNAMIC), None)


def classes_in(one):
    """The classes that a method's class, head, instructions, given frames and handlers name, the core's, and all above them."""
    named = {one.here, *CORE, *one.head.thrown, *(kind for *_, kind in one.code.handlers if kind)}
    kinds = [*EACH.findall(one.head.descriptor), *one.code.named, *(kind for at in one.code.instructions for kind in at.kinds())]
    return frozenset().union(*(one.world.once("at_or_above", name) for name in named | classes_of(kinds)))


def missing_cause(one):
    return min((name for name in classes_in(one) if name not in one.world.classes), default=None)


def name_cause(one):
    members = {one.head.name if one.head.name not in ("<init>", "<clinit>") else "m"}
    for at in one.code.instructions:
        if at.word in ("GetStatic", "PutStatic", "GetField", "PutField"):
            members.add(at.parts[1])
        elif at.is_call() and at.parts[2] not in ("<init>", "<clinit>"):
            members.add(at.parts[2])
    wrong = {name for name in members if not is_identifier(name)}
    return min(wrong | {name for name in classes_in(one) if not one.world.once("can_say", one.here, name)}, default=None)


def signature_cause(one):
    """Whether Java doesn't let the method stand where it does."""
    head, methods = one.head, one.owner.methods
    alike = [place for place, each in enumerate(methods) if (each.name, parameters_of(each.descriptor)) == (head.name, parameters_of(head.descriptor))]
    counts = next((place for place in alike if not methods[place].has(BRIDGE)), alike[0])
    has_result = result_of(head.descriptor) != "V"
    holds = [
        sum(methods[place].descriptor == head.descriptor for place in alike) > 1,
        one.place != counts,
        one.owner.is_interface() and (head.name in ("<clinit>", "<init>") or not head.has(PUBLIC)),
        head.name == "<clinit>" and (head.descriptor != "()V" or not head.has(STATIC) or head.thrown),
        head.name == "<init>" and (has_result or head.has(STATIC)),
    ]
    return "" if any(holds) else None


# ---- members

def lacks_field(one, at):
    """Whether an access doesn't mean the field that it names, or Java can't do what it does with it."""
    owner, name, kind = at.parts
    if owner[0] != "L":
        return True
    static, sets = "Static" in at.word, at.word.startswith("Put")
    meant = one.world.meant_field(one.here, owner[1:-1], name, None if static else owner)
    found = one.world.find_field(owner[1:-1], name, kind)
    if meant is None or found is None or meant[0] != found[0] or meant[1] is not found[1] or meant[1].has(STATIC) != static:
        return True
    place, field = meant
    is_constant = field.has(STATIC) and field.has(FINAL) and field.has_constant
    if sets:
        return is_constant or field.has(FINAL) and place != one.here
    return is_constant


def meant_by(one, at, start, through):
    """The owner and the method that a call means, searched for from a class, where it is the one that the JVM finds by what the call names; else None."""
    *_, name, descriptor = at.parts
    meant = one.world.meant_method(one.here, start, name, parameters_of(descriptor), through)
    found = one.world.find_method(start, name, descriptor)
    return meant if meant and found and meant[0] == found[0] and meant[1].descriptor == descriptor else None


def lacks_method(one, at):
    """Whether a call doesn't mean the method that it names, or not by this kind of call."""
    owner = at.parts[0]
    is_array = owner[0] == "["
    start = "java/lang/Object" if is_array else owner[1:-1]
    if at.word in ("InvokeVirtual", "InvokeInterface") and (at.word == "InvokeInterface") != one.world.is_interface(start):
        return True
    if is_array and at.word != "InvokeVirtual":
        return True
    if at.word == "InvokeSpecial":
        return not is_lawful_special(one, at, start)
    meant = meant_by(one, at, start, None if at.word == "InvokeStatic" else owner)
    if meant is None:
        return True
    if at.word == "InvokeStatic":
        return not meant[1].has(STATIC)
    return meant[1].has(STATIC) or meant[1].has(PRIVATE)


def is_lawful_special(one, at, start):
    """Whether invokespecial is a call of a constructor, of a private method of this class, or one behind `super`, of one kind or the other."""
    stack, count = one.code.frames()[at.pc][1], len(at.parameters())
    tag = stack[len(stack) - count - 1]
    if at.parts[2] == "<init>":
        if tag == "UnbornThis":
            return meant_by(one, at, start, None) is not None
        return not one.world.classes[start].flags & ABSTRACT and meant_by(one, at, start, f"L{start};") is not None
    if start == one.here:
        meant = meant_by(one, at, start, f"L{start};")
        if meant and meant[1].has(PRIVATE) and not meant[1].has(STATIC):
            return True
    marks = one.marks().get(at.pc)
    if one.head.has(STATIC) or any(sets_own(each) for each in one.code.instructions) or marks is not None and not marks[len(marks) - count - 1]:
        return False
    if start in one.owner.interfaces and one.world.is_interface(start):
        meant = meant_by(one, at, start, None)
        return meant is not None and one.world.is_interface(meant[0]) and not meant[1].has(ABSTRACT | STATIC)
    if one.owner.is_interface() or start == one.here or not one.world.is_below(one.here, start):
        return False
    meant = meant_by(one, at, one.owner.superclass, None)
    return meant is not None and not meant[1].has(ABSTRACT | STATIC)


def sets_own(at):
    """Whether an instruction changes local 0."""
    return at.word == "Store" and at.parts[1] == "0" or at.word == "Iinc" and at.parts[0] == "0"


def member_cause(one):
    for at in one.code.instructions:
        if at.word in ("GetStatic", "PutStatic", "GetField", "PutField") and lacks_field(one, at) or at.is_call() and lacks_method(one, at):
            return at.pc
    return None


def interface_cause(one):
    return one.code.first_loose(one.world)


# ---- births, and the code before a constructor's call of another one

def constructor_calls(one):
    """The pcs of the calls of constructors, by the tag of what each is on."""
    found = {}
    for at in one.code.instructions:
        if at.is_constructor_call():
            stack = one.code.frames()[at.pc][1]
            found.setdefault(stack[len(stack) - len(at.parameters()) - 1], []).append(at.pc)
    return found


class Births:
    """What `new`s and constructor calls a method has."""

    def __init__(self, one):
        self.one, self.code = one, one.code
        self.calls = constructor_calls(one)
        self.news = [at.pc for at in self.code.instructions if at.word == "New"]
        self.ends = {pc: self.calls[f"Unborn:{pc}"][0] for pc in self.news if self.is_met_once(self.calls.get(f"Unborn:{pc}", []), pc)}
        self.bounds = {bound for start, end, *_ in self.code.handlers for bound in (start, end)}

    def is_met_once(self, calls, pc):
        return len(calls) == 1 and calls[0] > pc

    def own_call(self):
        """The least pc of a call of another constructor, or None."""
        return min(self.calls.get("UnbornThis", []), default=None)

    def between(self, start, end):
        """The instructions behind a pc and before another, each with its place."""
        first, last = self.code.place[start], self.code.place[end] if end is not None else len(self.code.instructions)
        return [(place, self.code.instructions[place]) for place in range(first + 1, last)]

    def is_allowed(self, place, at, start):
        """Whether an instruction may stand in the birth that began at a pc."""
        words = [each.word for each in self.code.instructions[place - 1:place + 2]]
        if at.word in NEVER or at.word == "Dup" and words[0] != "New" or at.word == "New" and words[2:] != ["Dup"]:
            return False
        if at.is_call() and result_of(at.descriptor()) == "V":
            return any(new > start and end == at.pc for new, end in self.ends.items())
        return True

    def compares_more(self, place, at):
        """Whether an instruction is an lcmp of more than a constant or a load on each side."""
        if at.word != "Compare":
            return False
        before = [each for each in self.code.instructions[:place] if each.word != "Nop"][-2:]
        return len(before) < 2 or any(each.word not in ("Push", "Load", "PushNull") for each in before)

    def is_written(self, start):
        """Whether the birth of a `new` can be written as one expression."""
        end = self.ends.get(start)
        if end is None:
            return False
        inside = self.between(start, end)
        free = [at.pc not in self.code.given and at.pc not in self.bounds for at in [*(at for _, at in inside), self.code.at[end]]]
        return all(free) and all(self.is_allowed(place, at, start) and not self.compares_more(place, at) for place, at in inside)

    def size(self, start, end):
        return self.code.place[end] - self.code.place[start] + 1


def has_own_receiver(one, call):
    """Whether the first instruction loads `this` for the call of another constructor, which takes it with its arguments alone above it."""
    first, *rest = one.code.instructions[:one.code.place[call] + 1]
    frames = one.code.frames()
    if not rest or first.word != "Load" or first.parts != ["Ref", "0"]:
        return False
    spared = all(touched(one, at) < len(frames[at.pc][1]) for at in rest[:-1])
    return spared and len(frames[call][1]) == len(rest[-1].parameters()) + 1


def touched(one, at):
    """How many entries of the stack an instruction takes or looks at."""
    local, stack = one.code.frames()[at.pc]
    if at.word == "Store":
        return 1
    if at.word in ("Pop", "Pop2", "Swap") or at.word.startswith("Dup"):
        wide = [tag in ("Long", "Double") for tag in stack]
        top = 1 if "2" not in at.word.removesuffix("X1").removesuffix("X2") or wide[-1] else 2
        under = 0 if "X" not in at.word else 1 if at.word.endswith("X1") or wide[-top - 1] else 2
        return 2 if at.word == "Swap" else top + under
    return len(one.code.takes_gives(at, local, stack)[0])


def thrown_by(one, at):
    """The classes that what a call means lists."""
    owner, _, name, descriptor = at.parts
    start = "java/lang/Object" if owner[0] == "[" else owner[1:-1]
    if at.word == "InvokeSpecial" and name != "<init>" and start != one.here and start not in one.owner.interfaces:
        start = one.owner.superclass
    if owner[0] == "[" and name == "clone":
        return []
    found = one.world.meant_method(one.here, start, name, parameters_of(descriptor), None)
    return found[1].thrown if found else []


def escapes(one, at):
    """Whether a call lists a checked class that the method's thrown list has no class above of."""
    world = one.world
    return at.is_call() and any(world.is_checked(name) and not any(world.is_below(name, upper) for upper in one.head.thrown) for name in thrown_by(one, at))


def before_super_cause(one):
    if not one.is_constructor():
        return None
    births = Births(one)
    call = births.own_call()
    if call is None or not has_own_receiver(one, call):
        return 0
    for place, at in enumerate(one.code.instructions[:one.code.place[call] + 1]):
        inside = 0 < at.pc < call
        wrong = [
            inside and (not births.is_allowed(place, at, 0) or births.compares_more(place, at)),
            at.pc > 0 and at.pc in one.code.given,
            any(start <= at.pc < end for start, end, *_ in one.code.handlers),
            escapes(one, at),
        ]
        if any(wrong):
            return at.pc
    return None


def unborn_cause(one):
    births = Births(one)
    return next((pc for pc in births.news if not births.is_written(pc)), None)


# ---- sizes

def changes_slot(one, at):
    """Whether an instruction is a store that changes the type of what a local holds."""
    local, stack = one.code.frames()[at.pc]
    return at.word == "Store" and one.code.stored(local, int(at.parts[1]), stack[-1]) != local


def block_starts(one):
    code = one.code
    found = {0, *code.given, *(pc for start, end, target, _ in code.handlers for pc in (start, end, target))}
    covered = lambda pc: any(start <= pc < end for start, end, *_ in code.handlers)
    for at in code.instructions:
        behind = code.behind(at.pc)
        found.update(at.targets())
        ends = at.targets() or at.word in ("Return", "Throw") or at.word in MONITORS
        if behind is not None and (ends or changes_slot(one, at) and (covered(at.pc) or covered(behind))):
            found.add(behind)
    return found & code.reached()


def large_cause(one):
    blocks = len(block_starts(one))
    if blocks > BLOCKS:
        return blocks
    births = Births(one)
    spans = dict(births.ends)
    if one.is_constructor() and births.own_call() is not None:
        spans[0] = births.own_call()
    return next((births.size(*span) for span in sorted(spans.items()) if births.size(*span) > BIRTH), None)


CAUSES = [("Float", float_cause), ("Dynamic", dynamic_cause), ("Missing", missing_cause), ("Name", name_cause), ("Signature", signature_cause),
          ("Member", member_cause), ("Interface", interface_cause), ("Monitor", None), ("BeforeSuper", before_super_cause), ("Unborn", unborn_cause),
          ("Large", large_cause)]


def first_cause(one):
    """The first cause that holds, as its name and what is told with it; None where none does, and Monitor where that one isn't known."""
    for name, cause in CAUSES:
        if cause is None:
            if any(at.word in MONITORS for at in one.code.instructions):
                return name, ""
            continue
        told = cause(one)
        if told is not None:
            return name, told
    return None
