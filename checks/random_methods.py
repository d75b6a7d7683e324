"""Random class files with one method each, whose frames have what javac seldom makes: halves of numbers, objects that aren't constructed, wide stacks."""
import struct

OBJECT, STRING = "java/lang/Object", "java/lang/String"
ABOVE = {"q/A": OBJECT, "q/B": "q/A", "q/C": "q/B", "q/D": "q/C", "java/lang/Exception": "java/lang/Throwable", "java/lang/Throwable": OBJECT, STRING: OBJECT, "q/I": OBJECT, "q/J": OBJECT}
REFERENCES = [f"L{name};" for name in [*ABOVE, OBJECT]] + ["[I", "[J", "[B", "[Z", "[Lq/A;", "[Lq/B;", "[[I", "[Ljava/lang/Object;", "[[Lq/I;", "[Lq/I;"]
NUMBERS = ["I", "J", "F", "D"]
# Opcodes by what they take, the top last, and what they give.
SIMPLE = {"I": "116:I 133:J 134:F 135:D 145:I 146:I 147:I", "J": "117:J 136:I 137:F 138:D", "F": "118:F 139:I 140:J 141:D", "D": "119:D 142:I 143:J 144:F",
          "I I": "96:I 100:I 104:I 108:I 112:I 120:I 122:I 124:I 126:I 128:I 130:I", "J J": "97:J 101:J 127:J 148:I", "J I": "121:J 123:J", "F F": "98:F 102:F 149:I",
          "D D": "99:D 103:D 152:I", "[I I": "46:I", "[J I": "47:J", "[B I": "51:I", "[Z I": "51:I", "[Lq/A; I": "50:Lq/A;", "[[I I": "50:[I", "[I I I": "79:", "[J I J": "80:",
          "[Z I I": "84:", "[Lq/A; I Lq/B;": "83:", "[I": "190:I", "[[I": "190:I", "Lq/A;": "194: 195:"}
OPERATIONS = [(takes.split(), int(row.split(":")[0]), row.split(":", 1)[1]) for takes, rows in SIMPLE.items() for row in rows.split()]
# The ways to move entries: opcode, the words that are taken, the top last, and which of them are put back.
MOVES = [(87, "1", ""), (88, "11", ""), (88, "2", ""), (89, "1", "00"), (90, "11", "101"), (91, "111", "2012"), (91, "21", "101"), (92, "11", "0101"), (92, "2", "00"),
         (93, "111", "12012"), (93, "12", "101"), (94, "1111", "230123"), (94, "112", "2012"), (94, "211", "12012"), (94, "22", "101"), (95, "11", "10")]
CALLS = [(184, "q/A", "s", "(IJ)V"), (184, "q/A", "t", "(Lq/B;D)Lq/A;"), (182, "q/A", "v", "(Lq/I;)J"), (182, "q/C", "w", "([Lq/A;)Lq/C;"), (183, "q/A", "v", "(Lq/I;)J"),
         (183, "q/B", "x", "(F)V"), (185, "q/I", "y", "(Ljava/lang/Object;)I"), (182, OBJECT, "hashCode", "()I"), (182, "q/B", "o", "(ILjava/lang/String;[I)[[I")]
CONSTRUCTORS = [("q/A", "()V"), ("q/B", "()V"), ("q/B", "(J)V"), ("q/C", "()V"), ("q/C", "(Lq/I;I)V"), (OBJECT, "()V"), ("java/lang/Exception", "()V"), ("q/D", "()V")]
FIELDS = [("q/C", "f", "I"), ("q/C", "g", "Lq/A;"), ("q/C", "h", "J"), ("q/B", "k", "D")]


def words(tag):
    return 2 if tag in ("J", "D") else 1


def letters(descriptor):
    """The types of a method's parameters, and its result."""
    found, at = [], 1
    while descriptor[at] != ")":
        end = at
        while descriptor[end] == "[":
            end += 1
        end = descriptor.index(";", end) + 1 if descriptor[end] == "L" else end + 1
        found.append(descriptor[at:end])
        at = end
    return found, descriptor[at + 1:]


def goes(one, other):
    """Whether a class's objects may stand for those of another."""
    if one == other or one == "null" or other == "Ljava/lang/Object;":
        return True
    if one[0] != "L" or other[0] != "L":
        return False
    if other in ("Lq/I;", "Lq/J;"):
        return True
    upper = ABOVE.get(one[1:-1])
    return upper is not None and goes(f"L{upper};", other)


class Pool:
    def __init__(self):
        self.entries, self.places, self.size = [], {}, 1

    def add(self, data, words=1):
        if data not in self.places:
            self.places[data] = self.size
            self.entries.append(data)
            self.size += words
        return self.places[data]

    def text(self, words):
        return self.add(b"\x01" + struct.pack(">H", len(words.encode())) + words.encode())

    def type(self, name):
        return self.add(b"\x07" + struct.pack(">H", self.text(name)))

    def string(self, words):
        return self.add(b"\x08" + struct.pack(">H", self.text(words)))

    def member(self, tag, owner, name, descriptor):
        both = self.add(b"\x0c" + struct.pack(">HH", self.text(name), self.text(descriptor)))
        return self.add(bytes([tag]) + struct.pack(">HH", self.type(owner), both))


class RandomMethod:
    """A method of q/C; `local` and `stack` are what is thought to be there, the top last."""

    def __init__(self, rng):
        self.rng, self.pool, self.code, self.frames, self.entries, self.jumps = rng, Pool(), bytearray(), {}, [], []
        self.kind = rng.choice(["static", "instance", "<init>", "<init>"])
        self.parameters = [rng.choice([*NUMBERS, *REFERENCES]) for _ in range(rng.randrange(4))]
        self.result = rng.choice(["V", "V", *NUMBERS, rng.choice(REFERENCES)]) if self.kind != "<init>" else "V"
        self.local = [] if self.kind == "static" else ["this" if self.kind == "<init>" else "Lq/C;"]
        for kind in self.parameters:
            self.local += [kind] + ["top"] * (words(kind) - 1)
        self.room = len(self.local) + rng.randrange(4)
        self.local += ["top"] * (self.room - len(self.local))
        self.first, self.stack, self.most = list(self.local), [], 0
        self.block(rng.randrange(2, 9), 3)
        self.leave()

    # ---- instructions

    def put(self, *data):
        self.code += bytes(data)

    def push(self, tag):
        self.stack.append(tag)
        self.most = max(self.most, sum(map(words, self.stack)))

    def indexed(self, opcode, index, more=b""):
        self.code += bytes([opcode]) + struct.pack(">H", index) + more

    def value(self, kind):
        """Pushes a value of the type."""
        held = [slot for slot, tag in enumerate(self.local) if tag == kind or tag not in ("top", "this") and tag[0] in "L[n" and kind[0] in "L[" and goes(tag, kind)]
        if held and self.rng.random() < 0.6:
            self.load(self.rng.choice(held))
        elif kind in NUMBERS:
            self.put({"I": 4, "J": 9, "F": 12, "D": 14}[kind])
            self.push(kind)
        elif self.rng.random() < 0.3:
            self.put(1)
            self.push("null")
        else:
            self.indexed(178, self.pool.member(9, "q/A", "s" + str(len(kind)), kind))
            self.push(kind)

    def load(self, slot):
        tag = self.local[slot]
        self.put({"I": 21, "J": 22, "F": 23, "D": 24}.get(tag, 25), slot)
        self.push(tag)

    def store(self):
        tag = self.stack[-1]
        slots = range(self.room - words(tag) + 1)
        if slots:
            slot = self.rng.choice(slots)
            self.put({"I": 54, "J": 55, "F": 56, "D": 57}.get(tag, 58), slot)
            if slot and words(self.local[slot - 1]) == 2:
                self.local[slot - 1] = "top"
            self.local[slot:slot + words(tag)] = [tag] + ["top"] * (words(tag) - 1)
            self.stack.pop()

    def moves(self):
        fits = [row for row in MOVES if [words(tag) for tag in self.stack[len(self.stack) - len(row[1]):]] == [int(word) for word in row[1]]]
        if fits:
            opcode, takes, gives = self.rng.choice(fits)
            taken = self.stack[len(self.stack) - len(takes):]
            del self.stack[len(self.stack) - len(takes):]
            self.put(opcode)
            for place in gives:
                self.push(taken[int(place)])

    def operate(self):
        takes, opcode, gives = self.rng.choice(OPERATIONS)
        for kind in takes:
            self.value(kind)
        del self.stack[len(self.stack) - len(takes):]
        self.put(opcode)
        if gives:
            self.push(gives)

    def call(self):
        opcode, owner, name, descriptor = self.rng.choice(CALLS)
        if opcode == 183 and self.local[:1] != ["Lq/C;"]:
            return
        takes, gives = letters(descriptor)
        takes = ([] if opcode == 184 else ["Lq/C;" if opcode == 183 else f"L{owner};"]) + takes
        for kind in takes:
            self.value(kind)
        del self.stack[len(self.stack) - len(takes):]
        count = 1 + sum(words(kind) for kind in takes[1:])
        self.indexed(opcode, self.pool.member(11 if opcode == 185 else 10, owner, name, descriptor), bytes([count, 0]) if opcode == 185 else b"")
        if gives != "V":
            self.push(gives)

    def make(self):
        """An object that isn't constructed yet; mostly some copies of it, and mostly its constructor."""
        owner, descriptor = self.rng.choice(CONSTRUCTORS)
        self.push(f"new {len(self.code)} {owner}")
        self.indexed(187, self.pool.type(owner))
        if self.rng.random() < 0.8:
            self.put(89)
            self.push(self.stack[-1])
        if self.rng.random() < 0.3:
            self.store()
            if self.stack[-1:] and self.stack[-1].startswith("new") and self.rng.random() < 0.5:
                self.put(89)
                self.push(self.stack[-1])

    def construct(self):
        """Calls a constructor on what is on top of the stack, where it isn't constructed."""
        if not self.stack or not self.stack[-1].startswith(("new", "this")):
            if self.kind != "<init>" or self.local[:1] != ["this"]:
                return
            self.load(0)
        tag = self.stack[-1]
        owners = ["q/C", "q/B"] if tag == "this" else [tag.split()[2]]
        owner, descriptor = self.rng.choice([row for row in CONSTRUCTORS if row[0] in owners])
        takes, _ = letters(descriptor)
        for kind in takes:
            self.value(kind)
        del self.stack[len(self.stack) - len(takes) - 1:]
        self.indexed(183, self.pool.member(10, owner, "<init>", descriptor))
        born = "Lq/C;" if tag == "this" else f"L{owner};"
        self.local, self.stack = ([born if each == tag else each for each in tags] for tags in (self.local, self.stack))

    def set_field(self):
        owner, name, kind = self.rng.choice(FIELDS)
        if self.local[:1] == ["this"] and owner == "q/C":
            self.load(0)
        else:
            self.value(f"L{owner};")
        if self.rng.random() < 0.5 and self.stack[-1] != "this":
            self.stack.pop()
            self.indexed(180, self.pool.member(9, owner, name, kind))
            self.push(kind)
        else:
            self.value(kind)
            del self.stack[-2:]
            self.indexed(181, self.pool.member(9, owner, name, kind))

    def typed(self):
        """A cast, a test, an array."""
        way, kind = self.rng.randrange(4), self.rng.choice(REFERENCES)
        name = kind[1:-1] if kind[0] == "L" else kind
        if way < 2:
            self.value(self.rng.choice(REFERENCES))
            self.stack.pop()
            self.indexed(192 + way, self.pool.type(name))
            self.push(kind if way == 0 else "I")
        elif way == 2:
            self.value("I")
            self.stack.pop()
            self.indexed(189, self.pool.type(name))
            self.push("[" + kind)
        else:
            self.value("I")
            self.value("I")
            del self.stack[-2:]
            self.indexed(197, self.pool.type("[[I"), b"\x02")
            self.push("[[I")

    # ---- control

    def condition(self):
        way = self.rng.randrange(4)
        if way == 0:
            self.value("I")
            self.stack.pop()
            return self.rng.randrange(153, 159)
        if way == 1:
            self.value("I")
            self.value("I")
            del self.stack[-2:]
            return self.rng.randrange(159, 165)
        if way == 2:
            self.value(self.rng.choice(REFERENCES))
            self.value(self.rng.choice(REFERENCES))
            del self.stack[-2:]
            return self.rng.choice([165, 166])
        self.value(self.rng.choice(REFERENCES))
        self.stack.pop()
        return self.rng.choice([198, 199])

    def jump(self, opcode):
        """A jump whose target is filled in later."""
        at = len(self.code)
        self.put(opcode, 0, 0)
        return at

    def aim(self, at, target):
        self.code[at + 1:at + 3] = struct.pack(">h", target - at)

    def state(self):
        return list(self.local), list(self.stack)

    def met(self, one, other):
        """What two ways have in common."""
        return [tag if tag == each else "top" if tag[0] not in "L[n" or each[0] not in "L[n" or tag.startswith("new") or each.startswith("new") else
                each if goes(tag, each) else tag if goes(each, tag) else "Ljava/lang/Object;" for tag, each in zip(one, other)]

    def frame(self, local, stack):
        """A frame here, which may be wider than what comes in."""
        self.local = [self.wider(tag) for tag in local]
        self.stack = [self.wider(tag) if words(tag) == 1 else tag for tag in stack]
        for slot, tag in enumerate(self.local):
            if words(tag) == 2 and self.local[slot + 1:slot + 2] != ["top"]:
                self.local[slot] = "top"
        if not any(each == "this" for each in self.local) and self.kind == "<init>" and "this" in local:
            self.local[local.index("this")] = "this"
        self.frames[len(self.code)] = self.state()

    def wider(self, tag):
        if self.rng.random() > 0.1 or tag == "this":
            return tag
        if tag == "null":
            return self.rng.choice(REFERENCES)
        if tag[0] == "L":
            return f"L{ABOVE.get(tag[1:-1], OBJECT)};"
        return "Ljava/lang/Object;" if tag[0] == "[" else tag if tag == "top" else self.rng.choice([tag, "top"])

    def block(self, size, depth):
        actions = [lambda: self.value(self.rng.choice([*NUMBERS, *REFERENCES])), self.moves, self.moves, self.operate, self.call, self.make, self.construct, self.set_field, self.typed]
        for _ in range(size):
            if self.stack and self.rng.random() < 0.25:
                self.store()
            elif depth and self.rng.random() < 0.3:
                self.rng.choice([self.choice, self.loop, self.range])(depth - 1)
            else:
                self.rng.choice(actions)()

    def lower(self, height):
        """Takes entries off the stack down to a height."""
        while len(self.stack) > height:
            self.put(88 if words(self.stack.pop()) == 2 else 87)

    def choice(self, depth):
        at = self.jump(self.condition())
        local, stack = self.state()
        self.block(self.rng.randrange(1, 4), depth)
        if self.stack[:len(stack)] == stack:
            self.lower(len(stack))
        else:
            self.lower(0)
            self.leave()
            self.local, self.stack = local, stack
            self.aim(at, len(self.code))
            self.frame(local, stack)
            self.put(0)
            return
        self.aim(at, len(self.code))
        self.frame(self.met(local, self.local), stack)
        self.put(0)

    def loop(self, depth):
        self.frame(*self.state())
        start, (local, stack) = len(self.code), self.state()
        self.put(0)
        self.block(self.rng.randrange(1, 4), depth)
        self.lower(len(stack) if self.stack[:len(stack)] == stack else 0)
        if self.local == local and self.stack == stack:
            at = self.jump(self.condition())
            self.aim(at, start)

    def range(self, depth):
        """A block in a range of exceptions, whose handler stands behind it."""
        start, (before, stack) = len(self.code), self.state()
        self.put(0)
        self.block(self.rng.randrange(1, 3), depth)
        end, (after, there) = len(self.code), self.state()
        if self.stack[:len(stack)] != stack or len(self.code) == start:
            return
        self.lower(len(stack))
        over = self.jump(167)
        kind = self.rng.choice([0, "java/lang/Exception", "java/lang/Throwable"])
        self.entries.append((start, end, len(self.code), self.pool.type(kind) if kind else 0))
        self.frame(self.met(before, after), [f"L{kind or 'java/lang/Throwable'};"])
        self.most = max(self.most, 1)
        self.put(191 if self.rng.random() < 0.5 else 87)
        if self.code[-1] == 87:
            self.stack.pop()
            self.leave()
        self.local, self.stack = after, stack
        self.aim(over, len(self.code))
        self.frame(after, stack)
        self.put(0)

    def leave(self):
        """Returns."""
        if self.kind == "<init>" and "this" in self.local:
            self.put(25, self.local.index("this"))
            self.push("this")
            self.construct()
        if self.result == "V":
            self.put(177)
        else:
            self.value(self.result)
            self.put({"I": 172, "J": 173, "F": 174, "D": 175}.get(self.result, 176))

    # ---- the file

    def tag(self, tag):
        plain = {"top": 0, "I": 1, "F": 2, "D": 3, "J": 4, "null": 5, "this": 6}
        if tag in plain:
            return bytes([plain[tag]])
        if tag.startswith("new"):
            return b"\x08" + struct.pack(">H", int(tag.split()[1]))
        return b"\x07" + struct.pack(">H", self.pool.type(tag[1:-1] if tag[0] == "L" else tag))

    def tags(self, tags):
        kept = [tag for n, tag in enumerate(tags) if not (n and tag == "top" and words(tags[n - 1]) == 2 and tags is not self.stack)]
        return struct.pack(">H", len(kept)) + b"".join(map(self.tag, kept))

    def table(self):
        made, last = b"", -1
        for at, (local, stack) in sorted(self.frames.items()):
            made += b"\xff" + struct.pack(">H", at - last - 1) + self.tags(local)
            made += struct.pack(">H", len(stack)) + b"".join(map(self.tag, stack))
            last = at
        return struct.pack(">H", len(self.frames)) + made

    def file(self):
        pool, table = self.pool, self.table()
        content = struct.pack(">HHI", self.most, self.room, len(self.code)) + self.code + struct.pack(">H", len(self.entries))
        content += b"".join(struct.pack(">HHHH", *entry) for entry in self.entries)
        content += struct.pack(">HHI", 1, pool.text("StackMapTable"), len(table)) + table
        name, descriptor = "<init>" if self.kind == "<init>" else "m", f"({''.join(self.parameters)}){self.result}"
        body = struct.pack(">HHHHHH", 0x21, pool.type("q/C"), pool.type("q/B"), 1, pool.type("q/I"), 3)
        for field, kind in (("f", "I"), ("g", "Lq/A;"), ("h", "J")):
            body += struct.pack(">HHHH", 1, pool.text(field), pool.text(kind), 0)
        body += struct.pack(">HHHHHHI", 1, 9 if self.kind == "static" else 1, pool.text(name), pool.text(descriptor), 1, pool.text("Code"), len(content))
        return b"\xca\xfe\xba\xbe\x00\x00\x00\x34" + struct.pack(">H", pool.size) + b"".join(pool.entries) + body + content + b"\x00\x00"


def other_files():
    """The classes that these methods speak of, as headers."""
    made = {}
    for name in ("q/A", "q/B", "q/C", "q/D", "q/I", "q/J"):
        pool = Pool()
        faces = {"q/C": ["q/I"], "q/J": ["q/I"]}.get(name, [])
        body = struct.pack(">HHHH", 0x601 if name in ("q/I", "q/J") else 0x21, pool.type(name), pool.type(ABOVE[name]), len(faces))
        body += b"".join(struct.pack(">H", pool.type(face)) for face in faces) + bytes(6)
        made[name] = b"\xca\xfe\xba\xbe\x00\x00\x00\x34" + struct.pack(">H", pool.size) + b"".join(pool.entries) + body
    return made
