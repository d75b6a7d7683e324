"""Copies of class files with one method each, in which one thing is changed so that the Code is mostly whole and its types mostly not right."""
import struct
from class_file_format import CLASS, FIELD, INTERFACE_METHOD, METHOD, UTF8, Reader, is_method, text
from code_format import instructions_of, lay_out_code

ALONE = [*range(16), *range(26, 54), *range(59, 132), *range(133, 153), *range(172, 178), 190, 191, 194, 195]
LOCALS = [*range(21, 26), *range(54, 59)]
JUMPS = [*range(153, 168), 198, 199]
GROUPS = [ALONE, LOCALS, JUMPS, [*range(178, 182)], [*range(182, 185)], [187, 189, 192, 193]]
SAME, ONE, CHOP, APPEND, FULL = range(5)


def read_tag(read):
    tag = read.number(1)
    return [tag, read.number(2) if tag > 6 else 0]


def read_frames(content):
    """The frames as they are stored: form, distance, how many locals go, the locals, the stack."""
    read, frames = Reader(content), []
    for _ in range(read.number(2)):
        kind = read.number(1)
        delta = kind % 64 if kind < 128 else read.number(2)
        if kind < 64 or kind == 251:
            frames.append([SAME, delta, 0, [], []])
        elif kind < 128 or kind == 247:
            frames.append([ONE, delta, 0, [], [read_tag(read)]])
        elif kind < 251:
            frames.append([CHOP, delta, 251 - kind, [], []])
        elif kind < 255:
            frames.append([APPEND, delta, 0, [read_tag(read) for _ in range(kind - 251)], []])
        else:
            frames.append([FULL, delta, 0, *([read_tag(read) for _ in range(read.number(2))] for _ in range(2))])
    return frames


def tag_bytes(tag):
    return struct.pack(">BH", *tag) if tag[0] > 6 else bytes([tag[0]])


def frame_bytes(frame):
    form, delta, gone, local, stack = frame
    kind = {SAME: 251, ONE: 247, CHOP: 251 - gone, APPEND: 251 + len(local), FULL: 255}[form]
    made = struct.pack(">BH", kind, delta & 65_535)
    for tags in [local, stack] if form in (APPEND, FULL) else [stack]:
        made += struct.pack(">H", len(tags)) if form == FULL else b""
        made += b"".join(map(tag_bytes, tags))
    return made


class Damage:
    """One change of a method; `kind` tells which."""

    def __init__(self, rng, lone):
        self.rng, self.lone, self.head = rng, lone, bytearray(lone.head)
        self.stack, self.local, code, entries, attributes = lay_out_code(lone.content)
        self.code, self.entries = bytearray(code), [list(entry) for entry in entries]
        tables = [(name, content) for name, content in attributes if text(lone.pool, name) == "StackMapTable"]
        self.table = tables[0][0] if tables else None
        self.frames = read_frames(tables[0][1]) if tables else []
        self.starts = lone.starts
        ways = [self.opcode] * 4 + [self.slot, self.index, self.index, self.jump, self.move, self.room, self.method]
        ways += [self.tag, self.tag, self.tag, self.shape, self.frame_place] * bool(self.frames) + [self.entry, self.entry]
        self.kind = rng.choice(ways)
        self.kind()

    def named(self, tags):
        return [index for index, (tag, _) in self.lone.pool.items() if tag in tags]

    def some(self, opcodes):
        """The pc of some instruction with one of these opcodes, or None."""
        found = [pc for pc in self.starts if self.code[pc] in opcodes]
        return self.rng.choice(found) if found else None

    # ---- code

    def opcode(self):
        """Another opcode of the same size."""
        pc = self.rng.choice(self.starts)
        group = next((group for group in GROUPS if self.code[pc] in group), None)
        if group:
            near = [op for op in group if op != self.code[pc] and abs(op - self.code[pc]) in (1, 2, 4, 5)]
            self.code[pc] = self.rng.choice(near if near and self.rng.random() < 0.7 else group)

    def slot(self):
        """Another local."""
        pc = self.some([*LOCALS, 132, *range(26, 46), *range(59, 79)])
        if pc is not None and self.code[pc] in (*LOCALS, 132):
            self.code[pc + 1] = self.rng.choice([max(self.code[pc + 1] - 1, 0), self.code[pc + 1] + 1, self.rng.randrange(self.local + 2)]) & 255
        elif pc is not None:
            first = (26 if self.code[pc] < 46 else 59)
            self.code[pc] = first + (self.code[pc] - first) // 4 * 4 + self.rng.randrange(4)

    def index(self):
        """Another entry of the pool with the same tag."""
        pc = self.some([*range(178, 186), 187, 189, 192, 193, 19, 20, 197])
        if pc is not None:
            old = int.from_bytes(self.code[pc + 1:pc + 3], "big")
            tag = self.lone.pool.get(old, (CLASS,))[0]
            self.code[pc + 1:pc + 3] = self.rng.choice(self.named([tag]) or [old]).to_bytes(2, "big")

    def jump(self):
        """Another target, mostly one with a frame."""
        pc = self.some(JUMPS)
        if pc is not None:
            places = self.places() if self.rng.random() < 0.7 else self.starts
            self.code[pc + 1:pc + 3] = (self.rng.choice(places or self.starts) - pc & 65_535).to_bytes(2, "big")

    def move(self):
        """Two instructions swapped, or one taken out."""
        at = self.rng.randrange(len(self.starts))
        starts = [*self.starts, len(self.code)]
        one = self.code[starts[at]:starts[at + 1]]
        if self.rng.random() < 0.4 or at + 2 >= len(starts):
            self.code[starts[at]:starts[at + 1]] = bytes(len(one))
        else:
            self.code[starts[at]:starts[at + 2]] = self.code[starts[at + 1]:starts[at + 2]] + one

    def room(self):
        """One word of the stack or one local more or less."""
        if self.rng.random() < 0.6:
            self.stack = max(0, self.stack + self.rng.choice([-2, -1, -1, -1, 1]))
        else:
            self.local = max(0, self.local + self.rng.choice([-2, -1, -1, -1, 1]))

    def method(self):
        """A static method that isn't, or the other way round, or another name or descriptor, such as a class file may have."""
        kind, (_, static, name, descriptor) = self.rng.randrange(3), self.lone.method
        descriptors = [index for index in self.named([UTF8]) if is_method(text(self.lone.pool, index)) and (name[0] != "<" or text(self.lone.pool, index)[-1] == "V")]
        names = [index for index in self.named([UTF8]) if text(self.lone.pool, index) == "<init>"]
        if kind == 0 and name[0] != "<":
            self.head[-9] ^= 8
        elif kind == 1 and name != "<clinit>":
            self.head[-6:-4] = self.rng.choice(descriptors).to_bytes(2, "big")
        elif kind == 2 and names and not static and descriptor[-1] == "V":
            self.head[-8:-6] = names[0].to_bytes(2, "big")

    # ---- entries of exceptions

    def entry(self):
        if not self.entries or self.rng.random() < 0.2:
            start = self.rng.choice(self.starts)
            self.entries.append([start, len(self.code), self.rng.choice(self.places() or self.starts), self.rng.choice([0, *self.named([CLASS])])])
        else:
            values = [self.starts, [*self.starts, len(self.code)], self.places() or self.starts, [0, *self.named([CLASS])]]
            place = self.rng.randrange(4)
            self.rng.choice(self.entries)[place] = self.rng.choice(values[place])

    # ---- frames

    def places(self):
        """The pcs of the frames."""
        at, places = -1, []
        for frame in self.frames:
            at += frame[1] + 1
            places.append(at)
        return [pc for pc in places if pc in self.starts]

    def some_tag(self):
        news = [pc for pc in self.starts if self.code[pc] == 187]
        tag = self.rng.choice([0, 1, 2, 3, 4, 5, 6, 7, 7, 7, 8])
        if tag == 8:
            return [8, self.rng.choice(news)] if news else [6, 0]
        return [tag, self.rng.choice(self.named([CLASS])) if tag == 7 else 0]

    def tag(self):
        """Another tag in a frame, one more or one less."""
        lists = [tags for frame in self.frames for tags in (frame[3], frame[4]) if tags]
        if not lists:
            self.shape()
            return
        tags, way = self.rng.choice(lists), self.rng.randrange(8)
        at = self.rng.randrange(len(tags))
        if way == 0 and len(tags) > 1:
            del tags[at]
        elif way == 1 and len(tags) < 3:
            tags.insert(at, self.some_tag())
        elif way == 2 and tags[at][0] in (3, 4) and any(frame[0] == FULL and frame[4] is tags for frame in self.frames):
            tags[at:at + 1] = [[0, 0], [0, 0]]  # a long or a double on the stack as two Tops
        else:
            tags[at] = self.some_tag()
        self.mend()

    def mend(self):
        """Gives a frame of one entry that has another number of them a form that takes them."""
        for frame in self.frames:
            if frame[0] == ONE and len(frame[4]) != 1:
                frame[0] = FULL
            if frame[0] == APPEND and len(frame[3]) > 3:
                frame[0] = FULL

    def shape(self):
        """A frame of another form."""
        frame, way = self.rng.choice(self.frames), self.rng.randrange(4)
        if way == 0:
            frame[:] = [CHOP, frame[1], self.rng.choice([1, 1, 2]), [], []]
        elif way == 1:
            frame[:] = [SAME, frame[1], 0, [], []]
        elif way == 2:
            frame[:] = [ONE, frame[1], 0, [], [self.some_tag()]]
        else:
            frame[:] = [APPEND, frame[1], 0, [self.some_tag()], []]

    def frame_place(self):
        """A frame less, one more, or one elsewhere."""
        at, way = self.rng.randrange(len(self.frames)), self.rng.randrange(3)
        places = [sum(frame[1] + 1 for frame in self.frames[:n + 1]) - 1 for n in range(len(self.frames))]
        if way == 0:
            del self.frames[at], places[at]
        elif way == 1:
            free = [pc for pc in self.starts if pc not in places]
            if not free:
                return
            new = self.rng.choice(free)
            at = sum(pc < new for pc in places)
            self.frames.insert(at, [SAME, 0, 0, [], []])
            places.insert(at, new)
        else:
            below, above = places[at - 1] if at else -1, places[at + 1] if at + 1 < len(places) else len(self.code)
            places[at] = self.rng.choice([pc for pc in self.starts if below < pc < above] or [places[at]])
        for n, frame in enumerate(self.frames):
            frame[1] = places[n] - (places[n - 1] if n else -1) - 1

    # ---- the whole

    def file(self):
        made = struct.pack(">HHI", self.stack, self.local, len(self.code)) + self.code
        made += struct.pack(">H", len(self.entries)) + b"".join(struct.pack(">HHHH", *entry) for entry in self.entries)
        if self.table is None or not self.frames:
            made += b"\x00\x00"
        else:
            frames = struct.pack(">H", len(self.frames)) + b"".join(map(frame_bytes, self.frames))
            made += struct.pack(">HHI", 1, self.table, len(frames)) + frames
        return bytes(self.head) + struct.pack(">I", len(made)) + made + self.lone.tail
