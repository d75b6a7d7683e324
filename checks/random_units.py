"""Random units of every kind of expression, statement and member, as the trees of `unit_texts.py`."""

OPERATORS = "* / % + - << >> >>> < <= > >= == != & ^ | && ||".split()
IDENTIFIERS = ["a", "b", "C", "Dd", "x1", "f", "m", "_", "$", "aB_$9", "p", "v", "l0", "T", "t", "var", "record", "yield", "sealed", "permits", "module", "get", "length"]
VARIABLE_LIKE = ["p0", "v1", "e2", "s3", "p00"]
FIELD_BITS, METHOD_BITS = [0x0001, 0x0002, 0x0004, 0x0008, 0x0080, 0x0040], [0x0001, 0x0002, 0x0004, 0x0400, 0x0008, 0x0010, 0x0020, 0x0100]
INTS = [0, 1, 5, -1, -5, 127, -32_768, 2**31 - 1, -2**31]
LONGS = [*INTS, 2**63 - 1, -2**63]
UNITS = [0, 8, 9, 10, 12, 13, 32, 34, 39, 65, 92, 117, 126, 127, 0x1A, 0xE9, 0x20AC, 0xD800, 0xDFFF, 0xFFFF]


class Maker:
    def __init__(self, rng):
        self.rng = rng

    # ---- names

    def identifier(self):
        return self.rng.choice(IDENTIFIERS + VARIABLE_LIKE)

    def class_name(self, sayable=False):
        first = self.rng.choice(IDENTIFIERS) if sayable else self.identifier()
        return "/".join([first] + [self.identifier() for _ in range(self.rng.choice([0, 0, 1, 2, 4]))])

    def variable(self):
        return self.rng.choice("pves") + str(self.rng.choice([0, 1, 2, 17, 2**32 - 1]))

    def label(self):
        return self.rng.choice([0, 1, 2, 2**32 - 1])

    def element(self):
        return self.rng.choice(["Z", "B", "C", "S", "I", "J", "F", "D", f"L{self.class_name()};"])

    def type(self):
        return "[" * self.rng.choice([0, 0, 0, 1, 2]) + self.element()

    # ---- expressions

    def exps(self, depth, least=0):
        return [self.exp(depth) for _ in range(self.rng.choice([least, least, least + 1, least + 2]))]

    def receiver(self, depth):
        """An expression before a dot or a bracket: no number of 0 or more, since `5.x` begins with a floating-point literal, and javac reads `-5[x]` as `(-5)[x]`."""
        exp = self.exp(depth)
        return exp if exp[0] not in ("Int", "Long") or exp[1] < 0 else ("This",)

    def leaf(self):
        rng = self.rng
        return rng.choice([
            lambda: ("Int", rng.choice(INTS)), lambda: ("Long", rng.choice(LONGS)), lambda: ("Text", rng.choices(UNITS, k=rng.randrange(5))),
            lambda: ("Bool", rng.random() < 0.5), lambda: ("Null",), lambda: ("This",), lambda: ("Var", self.variable()),
            lambda: ("ClassOf", self.type()), lambda: ("Static", self.class_name(True), self.identifier())])()

    def call(self, depth):
        return self.rng.choice([
            lambda: ("Call", self.receiver(depth - 1), self.identifier(), self.exps(depth - 1)),
            lambda: ("StaticCall", self.class_name(True), self.identifier(), self.exps(depth - 1)),
            lambda: ("SuperCall", self.rng.choice([None, self.class_name()]), self.identifier(), self.exps(depth - 1)),
            lambda: ("New", self.class_name(), self.exps(depth - 1))])()

    def exp(self, depth):
        rng = self.rng
        if depth <= 0 or rng.random() < 0.2:
            return self.leaf()
        return rng.choice([
            lambda: self.call(depth), lambda: self.call(depth),
            lambda: ("Field", self.receiver(depth - 1), self.identifier()),
            lambda: ("Element", self.receiver(depth - 1), self.exp(depth - 1)),
            lambda: ("NewArray", self.element(), self.exps(depth - 1, 1), rng.choice([0, 0, 1, 3])),
            lambda: ("Cast", self.type(), self.exp(depth - 1)),
            lambda: ("InstanceOf", self.exp(depth - 1), self.type()),
            lambda: ("Negative", self.exp(depth - 1)),
            lambda: ("Not", self.exp(depth - 1)),
            lambda: ("Binary", rng.choice(OPERATORS), self.exp(depth - 1), self.exp(depth - 1)),
            lambda: ("Binary", rng.choice(OPERATORS), self.exp(depth - 1), self.exp(depth - 1)),
            lambda: ("Choice", self.exp(depth - 1), self.exp(depth - 1), self.exp(depth - 1)),
            lambda: ("Assign", self.variable(), self.exp(depth - 1))])()

    def value(self, depth):
        """The expression of a statement, less deep inside deep statements so that a unit stays small."""
        return self.exp(self.rng.randrange(min(depth, 6) + 1))

    # ---- statements

    def stms(self, depth, least=0):
        return [self.stm(depth) for _ in range(self.rng.choice([least, least + 1, least + 1, least + 2]))]

    def group(self, depth, last):
        labels = [self.rng.choice([None, self.rng.choice(INTS)]) for _ in range(self.rng.choice([1, 1, 2]))]
        return labels, self.stms(depth, 0 if last else 1)

    def simple(self, depth):
        rng = self.rng
        return rng.choice([
            lambda: ("Declare", self.variable(), self.type(), rng.choice([None, self.value(depth)])),
            lambda: ("Set", self.variable(), self.value(depth)),
            lambda: ("SetField", self.receiver(rng.randrange(3)), self.identifier(), self.value(depth)),
            lambda: ("SetStatic", self.class_name(True), self.identifier(), self.value(depth)),
            lambda: ("SetElement", self.receiver(rng.randrange(3)), self.value(depth), self.value(depth)),
            lambda: ("Run", self.call(rng.randrange(1, 4))),
            lambda: ("Break", self.label()), lambda: ("Continue", self.label()),
            lambda: ("Return", rng.choice([None, self.value(depth)])), lambda: ("Throw", self.value(depth)),
            lambda: ("Rethrow", self.variable(), self.own, self.helper) if self.helper else ("Throw", ("Null",)),
            lambda: ("Construct", rng.random() < 0.5, self.exps(2))])()

    def stm(self, depth):
        rng, inner = self.rng, depth - 1
        if depth <= 0 or rng.random() < 0.3:
            return self.simple(rng.randrange(7))
        return rng.choice([
            lambda: ("Block", self.stms(inner)),
            lambda: ("Labelled", self.label(), next(stm for stm in iter(lambda: self.stm(inner), None) if stm[0] != "Declare")),
            lambda: ("If", self.value(3), self.stms(inner), self.stms(inner)),
            lambda: ("While", self.value(3), self.stms(inner)),
            lambda: ("Switch", self.value(3), [self.group(inner, False) for _ in range(rng.randrange(2))] + [self.group(inner, True)]),
            lambda: ("Try", self.stms(inner), [(self.class_name(), self.variable(), self.stms(inner)) for _ in range(rng.choice([1, 1, 2]))]),
            lambda: ("Synchronized", self.value(3), self.stms(inner)),
            lambda: ("Do", self.stms(inner), self.value(3)),
            lambda: ("For", self.value(3), self.variable(), self.value(2), self.stms(inner)),
            lambda: ("Finally", self.stms(inner), self.stms(inner))])()

    # ---- members

    def bits(self, bits):
        return sum(bit for bit in bits if self.rng.random() < 0.25)

    def field(self, interface):
        value = self.exp(self.rng.randrange(3)) if interface or self.rng.random() < 0.5 else None
        if interface:
            flags = 0x0011 | self.bits([0x0008])
        else:
            flags = self.bits(FIELD_BITS + ([] if value is None else [0x0010]))
        return {"flags": flags, "kind": self.type(), "name": self.identifier(), "value": value}

    def method(self, interface, depth):
        rng = self.rng
        name = rng.choice([self.identifier(), self.identifier(), self.identifier()] + ([] if interface else ["<init>", "<clinit>"]))
        body = self.stms(depth) if name == "<clinit>" or rng.random() < 0.8 else None
        if name == "<clinit>":
            return {"flags": 8, "name": name, "parameters": [], "result": "V", "thrown": [], "body": body}
        if interface:
            flags = self.bits([0x0008]) | 0x0001
            flags |= 0x0400 if body is None and not flags & 8 else 0
        else:
            flags = self.bits(METHOD_BITS)
        result = "V" if name == "<init>" or rng.random() < 0.3 else self.type()
        thrown = [self.class_name() for _ in range(rng.choice([0, 0, 1, 2]))]
        return {"flags": flags, "name": name, "parameters": [self.type() for _ in range(rng.choice([0, 1, 2, 5]))], "result": result, "thrown": thrown, "body": body}

    def unit(self):
        rng = self.rng
        package = rng.choice([None, self.class_name()])
        name = self.identifier()
        interface = rng.random() < 0.2
        flags = 0x0600 | self.bits([0x0001]) if interface else self.bits([0x0001, 0x0400, 0x0010])
        self.own = name if package is None else f"{package}/{name}"
        self.helper = rng.choice([None, f"rethrow${rng.choice([0, 1, 10, 10**20])}"])
        return {"package": package, "flags": flags, "name": name,
                "superclass": None if interface or rng.random() < 0.5 else self.class_name(),
                "interfaces": [self.class_name() for _ in range(rng.choice([0, 0, 1, 2]))],
                "fields": [self.field(interface) for _ in range(rng.randrange(4))], "helper": self.helper,
                "methods": [self.method(interface, rng.randrange(7)) for _ in range(rng.randrange(4))]}
