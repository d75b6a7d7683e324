"""The code of a method for `causes.py`: its instructions, the frame before each of them, and where control goes.

Instructions, ranges and given frames are read by `code_format.py`. The frames in between follow from what each instruction takes
and gives (JVMS 4.10.1.9, 6.5), since the code is verified: nothing is checked again but, where that is asked for, that each
reference really goes where it is put (`Strict`).
"""
from cause_worlds import EACH, OBJECT, is_reference, parameters_of, result_of
from code_format import listing_of
import re

KINDS = {"Int": "Int", "Long": "Long", "Float": "Float", "Double": "Double", "Byte": "Int", "Char": "Int", "Short": "Int"}
TAGS = {**dict.fromkeys("ZBCSI", "Int"), "J": "Long", "F": "Float", "D": "Double"}
PUSHED = {"Text": "Ljava/lang/String;"}
JUMPS = {"IfZero": 1, "IfInts": 2, "IfRefs": 2, "IfNull": 1, "Goto": 0}
CALLS = ("InvokeVirtual", "InvokeSpecial", "InvokeStatic", "InvokeInterface")
NO_FALL = {"Goto", "TableSwitch", "LookupSwitch", "Return", "Throw"}
# What shows an action other than Exit, and what traps; divisions are told by their kind.
THROWING = {"New", "NewArray", "MultiNewArray", "GetField", "PutField", "GetStatic", "PutStatic", "ArrayLoad", "ArrayStore", *CALLS,
            "InvokeDynamic", "PushClass", "MonitorEnter", "Throw", "ArrayLength", "CheckCast"}
ESCAPED = re.compile(r"\\u([0-9a-f]{4})")


def is_wide(tag):
    return tag in ("Long", "Double")


def plain(part):
    """A part of a line as it was before it was written there."""
    return ESCAPED.sub(lambda found: chr(int(found[1], 16)), part)


def tag_of(kind):
    return TAGS.get(kind, kind)


class Instruction:
    """A pc, a word and its parts."""

    def __init__(self, pc, words):
        self.pc, (self.word, *self.parts) = int(pc), map(plain, words.split(" "))

    def is_call(self):
        return self.word in CALLS

    def descriptor(self):
        """What a call takes and gives."""
        return self.parts[-1]

    def parameters(self):
        return parameters_of(self.parts[-1])

    def is_constructor_call(self):
        return self.word == "InvokeSpecial" and self.parts[2] == "<init>"

    def targets(self):
        if self.word in JUMPS:
            return [int(self.parts[-1])]
        if self.word == "TableSwitch":
            return list(map(int, self.parts[1:]))
        if self.word == "LookupSwitch":
            return [int(self.parts[0]), *(int(each.partition(":")[2]) for each in self.parts[1:])]
        return []

    def can_throw(self):
        return self.word in THROWING or self.word == "Calc" and self.parts[0] in ("Div", "Rem") and self.parts[1] in ("Int", "Long")

    def kinds(self):
        """The types that it names, and of calls those of their descriptors."""
        if self.word in ("GetStatic", "PutStatic", "GetField", "PutField"):
            return [self.parts[0], self.parts[2]]
        if self.is_call():
            return [self.parts[0], *EACH.findall(self.descriptor())]
        if self.word == "New":
            return [f"L{self.parts[0]};"]
        return self.parts[:1] if self.word in ("PushClass", "NewArray", "MultiNewArray", "CheckCast", "InstanceOf") else []


def moved(word, stack):
    """Of a form of dup, pop or swap: where each entry of the stack behind it comes from."""
    n, wide = len(stack), [is_wide(tag) for tag in stack]
    one = [n - 1]
    # As many words as two, from the top, and what lies in two words under them.
    two = one if n and wide[-1] else [n - 2, n - 1]
    rest = list(range(n))
    if word == "Pop":
        return rest[:-1]
    if word == "Pop2":
        return rest[:two[0]]
    if word == "Swap":
        return rest[:-2] + [n - 1, n - 2]
    if not word.startswith("Dup"):
        return None
    top = two if word.startswith("Dup2") else one
    under = {"1": 1, "2": 1 if word[-2:] == "X2" and wide[top[0] - 1] else 2}[word[-1]] if "X" in word else 0
    return rest[:top[0] - under] + top + rest[top[0] - under:]


class Strict:
    """Keeps the least pc at which a reference doesn't go where it is put."""

    def __init__(self, world):
        self.world, self.least = world, None

    def asks(self, pc, kind, wanted):
        """Asks it of a tag and a type; what isn't an object of a type is left to the verifier."""
        if not is_reference(kind) or not is_reference(wanted) or self.world.goes(kind, wanted):
            return
        self.least = pc if self.least is None else min(self.least, pc)

    def flows(self, pc, frame, given):
        for ours, theirs in zip(frame[0] + frame[1], given[0] + given[1]):
            if theirs != "Top":
                self.asks(pc, ours, theirs)


class Code:
    """A method's code, whole and verified; Bad comes of one that isn't whole."""

    def __init__(self, owner, method, pool):
        self.owner, self.method = owner, method
        static = method.has(8)
        lines = [line.split(" ", 1) for line in listing_of(pool, owner, static, method.name, method.descriptor, method.code)]
        self.max_locals = int(lines[0][1].split(" ")[1])
        self.instructions = [Instruction(*line) for line in lines[1:] if line[0].isdigit()]
        self.handlers = [self.handler(line[1].split(" ")) for line in lines if line[0] == "handler"]
        self.given, self.named = {}, set()
        for line in lines:
            if line[0] == "frame":
                self.give(line[1].split(" "))
        self.place = {at.pc: place for place, at in enumerate(self.instructions)}
        self.at = {at.pc: at for at in self.instructions}
        self.entry = self.padded([*([] if static else [self.this_tag()]), *map(tag_of, parameters_of(method.descriptor))], [])
        self.kept_frames = None

    def this_tag(self):
        return "UnbornThis" if self.method.name == "<init>" and self.owner != OBJECT else f"L{self.owner};"

    def handler(self, words):
        return (*map(int, words[:3]), plain(words[3]) if len(words) > 3 else None)

    def padded(self, values, stack):
        """A frame of these locals, each long and double once."""
        local = [word for value in values for word in ([value, "Top"] if is_wide(value) else [value])]
        return local + ["Top"] * (self.max_locals - len(local)), stack

    def give(self, words):
        """A given frame, whose line has both words of a wide local; of two at one pc the first counts."""
        tags = list(map(plain, words[2:]))
        cut = tags.index("/")
        local = tags[:cut]
        self.named |= {tag for tag in tags if tag[0] in "L["  and tag != "Long"}
        self.given.setdefault(int(words[0]), (local + ["Top"] * (self.max_locals - len(local)), tags[cut + 1:]))

    # ---- frames

    def frames(self):
        """The frame before each instruction, by its pc: locals and stack."""
        if self.kept_frames is None:
            self.kept_frames = self.follow(None)
        return self.kept_frames

    def follow(self, strict):
        """The frames; where `strict` is there it is asked of all that flows, too."""
        found, frame = {}, self.entry
        for place, at in enumerate(self.instructions):
            if at.pc in self.given:
                if strict and frame is not None:
                    strict.flows(at.pc, frame, self.given[at.pc])
                frame = self.given[at.pc]
            found[at.pc] = frame
            behind = self.effect(at, frame, strict)
            if strict:
                self.flow_on(at, frame, behind, strict)
            frame = None if at.word in NO_FALL else behind
        return found

    def flow_on(self, at, frame, behind, strict):
        """Asks it of what flows to the targets of an instruction, and to the handlers of its ranges."""
        for target in at.targets():
            strict.flows(at.pc, behind, self.given[target])
        for start, end, target, kind in self.handlers:
            if start <= at.pc < end:
                thrown = f"L{kind or 'java/lang/Throwable'};"
                strict.asks(at.pc, thrown, "Ljava/lang/Throwable;")
                strict.flows(at.pc, (frame[0], [thrown]), self.given[target])

    def effect(self, at, frame, strict=None):
        """The frame behind an instruction."""
        local, stack = frame
        order = moved(at.word, stack)
        if order is not None:
            return local, [stack[place] for place in order]
        if at.word == "Store":
            return self.stored(local, int(at.parts[1]), stack[-1]), stack[:-1]
        wanted, given = self.takes_gives(at, local, stack)
        taken, rest = stack[len(stack) - len(wanted):], stack[:len(stack) - len(wanted)]
        for kind, want in zip(taken, wanted):
            if strict and want:
                strict.asks(at.pc, kind, want)
        if at.word == "New":
            local = ["Top" if tag == given[0] else tag for tag in local]
        if at.is_constructor_call():
            return self.born(local, rest, taken[0])
        return local, rest + given

    def stored(self, local, slot, value):
        local = list(local)
        if slot > 0 and is_wide(local[slot - 1]):
            local[slot - 1] = "Top"
        local[slot] = value
        if is_wide(value):
            local[slot + 1] = "Top"
        return local

    def born(self, local, stack, tag):
        """The frame behind the call of a constructor on what has this tag."""
        kind = f"L{self.owner};" if tag == "UnbornThis" else f"L{self.at[int(tag[7:])].parts[0]};" if tag.startswith("Unborn:") else tag
        return [kind if each == tag else each for each in local], [kind if each == tag else each for each in stack]

    def takes_gives(self, at, local, stack):
        """What an instruction takes from the stack, an entry each: the type that a reference has to go to, or None; and what it gives."""
        word, parts = at.word, at.parts
        if word in ("Nop", "Iinc", "Goto"):
            return [], []
        if word == "PushNull":
            return [], ["Null"]
        if word == "Push":
            return [], [PUSHED.get(parts[0], parts[0])]
        if word in ("PushClass", "PushHandle", "PushMethodType"):
            return [], ["Ljava/lang/Class;" if word == "PushClass" else "Ljava/lang/invoke/Method" + ("Handle;" if word == "PushHandle" else "Type;")]
        if word == "Load":
            return [], [local[int(parts[1])]]
        if word == "ArrayLoad":
            return [None, None], [KINDS.get(parts[0]) or ("Null" if stack[-2] == "Null" else tag_of(stack[-2][1:]))]
        if word == "ArrayStore":
            return [None, None, f"L{OBJECT};" if parts[0] == "Ref" else None], []
        if word == "Calc":
            return [None] * (1 if parts[0] == "Neg" else 2), [parts[1]]
        if word == "Convert":
            return [None], [tag_of(parts[1])]
        if word == "Compare":
            return [None, None], ["Int"]
        if word in JUMPS:
            return [None] * JUMPS[word], []
        if word in ("TableSwitch", "LookupSwitch", "MonitorEnter", "MonitorExit"):
            return [None], []
        if word == "Return":
            return [result_of(self.method.descriptor)] if parts else [], []
        if word == "Throw":
            return ["Ljava/lang/Throwable;"], []
        if word in ("GetStatic", "PutStatic", "GetField", "PutField"):
            receiver, value = [parts[0]] if "Field" in word else [], tag_of(parts[2])
            return (receiver, [value]) if word[0] == "G" else ([*receiver, value], [])
        if word == "InvokeDynamic" or at.is_call():
            return self.call(at)
        return self.of_objects(at)

    def call(self, at):
        """What a call takes and gives; behind `super` and of a private method the receiver goes to the code's own class."""
        result = result_of(at.descriptor())
        receiver = [] if at.word in ("InvokeStatic", "InvokeDynamic") else [None] if at.is_constructor_call() else [at.parts[0]]
        if at.word == "InvokeSpecial" and not at.is_constructor_call():
            receiver = [f"L{self.owner};"]
        return [*receiver, *at.parameters()], [] if result == "V" else [tag_of(result)]

    def of_objects(self, at):
        """Of the instructions that make objects and arrays, and of those that look at them."""
        word, parts = at.word, at.parts
        if word == "New":
            return [], [f"Unborn:{at.pc}"]
        if word == "NewArray":
            return [None], ["[" + parts[0]]
        if word == "MultiNewArray":
            return [None] * int(parts[1]), [parts[0]]
        if word == "ArrayLength":
            return [None], ["Int"]
        assert word in ("CheckCast", "InstanceOf"), word
        return [f"L{OBJECT};"], [parts[0] if word == "CheckCast" else "Int"]

    def first_loose(self, world):
        """The least pc at which a reference doesn't go where it is put, or None."""
        strict = Strict(world)
        self.follow(strict)
        for at in self.instructions:
            if at.word == "InvokeSpecial" and not at.is_constructor_call():
                strict.asks(at.pc, f"L{self.owner};", at.parts[0])
        return strict.least

    # ---- control

    def behind(self, pc):
        """The pc of the next instruction, or None."""
        place = self.place[pc] + 1
        return self.instructions[place].pc if place < len(self.instructions) else None

    def edges(self, at):
        """Where control goes from an instruction: pcs, each with whether an exception leads there."""
        found = [(target, False) for target in at.targets()]
        if at.word not in NO_FALL:
            found.append((self.behind(at.pc), False))
        if at.can_throw():
            for start, end, target, kind in self.handlers:
                if start <= at.pc < end:
                    found.append((target, True))
                    if kind is None:
                        break
        return found

    def reached(self):
        """The pcs that control reaches."""
        found, left = {0}, [0]
        while left:
            for target, _ in self.edges(self.at[left.pop()]):
                if target not in found:
                    found.add(target)
                    left.append(target)
        return found

    def marks(self):
        """At each pc that is reached, of each entry of the stack whether on each way a load of local 0 pushed it, and copies alone moved it."""
        found, left, frames = {0: []}, [0], self.frames()
        while left:
            pc = left.pop()
            at, marks, stack = self.at[pc], found[pc], frames[pc][1]
            order = moved(at.word, stack)
            if order is not None:
                after = [marks[place] for place in order]
            elif at.word == "Store":
                after = marks[:-1]
            else:
                wanted, given = self.takes_gives(at, frames[pc][0], stack)
                after = marks[:len(marks) - len(wanted)] + [at.word == "Load" and at.parts == ["Ref", "0"]] * len(given)
            for target, thrown in self.edges(at):
                flows = [False] if thrown else after
                both = [ours and theirs for ours, theirs in zip(flows, found.get(target, flows))]
                if both != found.get(target):
                    found[target] = both
                    left.append(target)
        return found
