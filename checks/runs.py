"""Runs of code or of bodies by a program of ours, on a heap that answers what they ask, and calls in the JVM likewise (`Runs.java`).

The program reads lines, each behind the word that says what is run: `class` or `unit` and bytes in hexadecimal, answered by a line `NAME DESCRIPTOR` for each method and
`end`; `run PLACE BOUND ARGUMENT.. | ANSWER..`, the methods being counted from 0, and `more ANSWER..` for the same run with
further answers, each answered by how many actions it shows, and `return`, `return VALUE`, `throw REFERENCE`, or `more` and
its last action. A VALUE is i5, l5, n for null, sWORD for a string constant, or rREFERENCE, and a REFERENCE is
NUMBER:TYPE:LENGTH. An ANSWER is d, a VALUE, or tREFERENCE for what is thrown.
"""
import subprocess

INTS = [0, 1, -1, 2, -2, 3, 4, 5, 6, 7, -5, -6, 8, 15, 16, 31, 32, 33, 63, 64, 100, 101, 127, 128, -128, -129, 255, 256, 32767, 32768, -32768, -32769,
        65535, 65536, 2147483645, 2147483646, 2147483647, -2147483647, -2147483648]
LONGS = INTS + [2147483648, -2147483649, 4294967295, 4294967296, 9223372036854775807, -9223372036854775807, -9223372036854775808]
BITS = {"Z": 1, "B": 8, "S": 16, "C": 16, "I": 32, "J": 64}
LARGEST, FUEL = 1000, 8


def number(rng, kind):
    """A number of a type, mostly near a limit."""
    bits = BITS[kind]
    low = (rng.choice(LONGS if kind == "J" else INTS) if rng.randrange(4) else rng.getrandbits(64)) % (1 << bits)
    return low if kind in "CZ" or not low >> (bits - 1) else low - (1 << bits)


def word_of(kind, value):
    """A number of a type as a value."""
    return f"{'l' if kind == 'J' else 'i'}{value}"


def default(kind):
    """What a field or an element of a type holds at first."""
    return word_of(kind, 0) if kind in BITS else "n"


def type_of(value):
    """The type of what a value is a reference to, or n."""
    return "n" if value == "n" else "Ljava/lang/String;" if value[0] == "s" else value.split(":")[1]


class Program:
    """The program, its methods by their class, name and descriptor, and the heap that its questions are answered from."""

    def __init__(self, path, word, bound):
        self.process = subprocess.Popen([path], stdin=subprocess.PIPE, stdout=subprocess.PIPE, text=True)
        self.word, self.bound, self.places, self.asked = word, bound, {}, 0
        self.clear()

    def say(self, line):
        self.process.stdin.write(f"{self.word} {line}\n")
        self.process.stdin.flush()

    def told(self):
        return self.process.stdout.readline().split()

    def add(self, verb, data, owner):
        """Gives the program a class file or a text, whose class is the owner, and keeps where it has the methods that it tells."""
        self.say(f"{verb} {data.hex()}")
        while (words := self.told()) not in (["end"], []):
            self.places[owner, *words] = len(self.places)

    def clear(self):
        self.elements, self.fields, self.classes, self.log, self.left = {}, {}, {}, [], FUEL

    # ---- the heap

    def made(self, kind, elements=()):
        """A new object of a type, or an array of these elements."""
        assert len(elements) <= LARGEST, kind
        reference = f"{len(self.elements) + 1}:{kind}:{len(elements)}"
        self.elements[reference] = list(elements)
        return reference

    def array(self, kind, sizes):
        assert sizes[0] <= LARGEST, sizes
        if len(sizes) > 1:
            return self.made(kind, ["r" + self.array(kind[1:], sizes[1:]) for _ in range(sizes[0])])
        return self.made(kind, [default(kind[1:])] * sizes[0])

    def class_constant(self, kind):
        if kind not in self.classes:
            self.classes[kind] = self.made("Ljava/lang/Class;")
        return self.classes[kind]

    def answer(self, word, *words):
        """What an action is answered by."""
        if word in ("new", "trap"):
            return ("t" if word == "trap" else "r") + self.made(f"L{words[0]};")
        if word == "array":
            return "r" + self.array(words[0], [int(size) for size in words[1:]])
        if word == "class":
            return "r" + self.class_constant(words[0])
        if word in ("get", "getstatic"):
            return self.fields.get(words[:2], default(words[2]))
        if word == "load":
            return self.elements[words[0][1:]][int(words[1])]
        if word == "call":
            return self.call(*words)
        assert word in ("put", "putstatic", "store", "enter", "exit"), word
        if word == "store":
            self.elements[words[0][1:]][int(words[1])] = words[2]
        elif word.startswith("put"):
            self.fields[words[:2]] = words[2]
        return "d"

    def call(self, kind, owner, name, descriptor, *values):
        """What a call is answered by: by a run of its own, where the program has the method."""
        found = type_of(values[0]) if kind in ("virtual", "interface") else owner
        place = self.places.get((found, name, descriptor))
        if place is not None:
            end, *result = self.run(place, values)
            assert end != "more", (owner, name, result)
            return "t" + result[0][1:] if end == "throw" else (result or ["d"])[0]
        if owner == "LL;":
            return self.logged(name, *values)
        if name == "clone":
            return "r" + self.made(type_of(values[0]), self.elements[values[0][1:]])
        if name == "equals":
            return f"i{int(values[0] == values[1])}"
        assert name == "<init>", (owner, name)
        return "d"

    def logged(self, name, *values):
        if name == "more":
            self.left -= 1
            return f"i{int(self.left >= 0)}"
        self.log += [value if value[0] in "il" else type_of(value) for value in values]
        return "d"

    # ---- runs

    def shown(self, line):
        self.say(line)
        self.asked += 1
        count, *end = self.told()
        return int(count), end

    def run(self, place, arguments):
        """How a method ends on these arguments."""
        begin, answers = f"run {place} {self.bound} {' '.join(arguments)} |", []
        count, end = self.shown(begin)
        while end[0] == "more" and count == len(answers) + 1:
            before = self.asked
            answers.append(self.answer(*end[1:]))
            own = self.asked == before
            count, end = self.shown(f"more {answers[-1]}" if own else f"{begin} {' '.join(answers)}")
        return end

    def ended(self, place, arguments):
        """How a call ends and what it logged, as the JVM tells it."""
        word, *rest = self.run(place, arguments)
        if word == "throw":
            rest = [type_of(rest[0])]
        elif word == "return" and rest and rest[0][0] in "rs":
            kind = type_of(rest[0])
            many = ["of", *(one if one[0] in "il" else type_of(one) for one in self.elements[rest[0][1:]])] if kind[0] == "[" else []
            rest = [kind, *many]
        return " ".join([word, *rest, "|", *self.log])
