"""Units of random bodies that javac takes and whose runs end, as the trees of `unit_texts.py`.

Each is well typed by construction. Every loop asks `L.more` or counts to a number of at most 3, so that it ends; `L.log` tells
what is found on the way. What Java asks besides of statements, that each can be reached, is kept track of as they are made.
"""

OBJECT, TEXT, OBJECTS, COMPARABLE = "Ljava/lang/Object;", "Ljava/lang/String;", "[Ljava/lang/Object;", "Ljava/lang/Comparable;"
NARROW, NUMBERS = ["B", "S", "C"], ["I", "J", "B", "S", "C"]
ARITHMETIC, BITS, SHIFTS, ORDERS, EQUALS = "* / % + -".split(), "& ^ |".split(), "<< >> >>>".split(), "< <= > >=".split(), ["==", "!="]
INTS = [0, 1, 2, 3, 5, 7, -1, -3, 31, 33, 127, 128, 255, -129, 32_767, 65_536, 2**31 - 1, -2**31]
LONGS = [*INTS, 2**31, 2**32 + 5, 2**63 - 1, -2**63]
# Each exception behind those that it is above.
CAUGHT = ["ArithmeticException", "ArrayIndexOutOfBoundsException", "IndexOutOfBoundsException", "ArrayStoreException", "ClassCastException",
          "NegativeArraySizeException", "NullPointerException", "IllegalArgumentException", "RuntimeException", "Exception", "Error", "Throwable"]
CAUGHT = [f"java/lang/{name}" for name in CAUGHT]
MADE = [name for name in CAUGHT if "Index" not in name]
STATICS = {"I": ["s", "K"], "J": ["w", "Q"], "Z": ["z"], "[I": ["a"], OBJECT: ["o"]}
FIELDS = {"I": ["f"], "J": ["g"], "Z": ["h"], "B": ["y"], "C": ["c"], "[J": ["q"], OBJECT: ["r"]}
CONSTANTS = ["K", "Q"]
DEPTH = 3


def call(name, *exps):
    return "StaticCall", "L", name, list(exps)


def log(exp):
    return "Run", call("log", exp)


MORE = call("more")


class BodyMaker:
    """Makes one body. `scope` has the variables that may be named and their types, `hidden` others whose
    names are in use, `frozen` those that aren't assigned."""

    caught, thrown, switched = CAUGHT, MADE, ["I", "I", "I", *NARROW]

    def __init__(self, rng, own, callees, this):
        self.rng, self.own, self.this, self.callees = rng, own, this, callees
        self.type, self.array = f"L{own};", f"[L{own};"
        self.scope, self.hidden, self.frozen, self.labels, self.loops, self.taken = {}, [], set(), {}, 0, set()

    def pick(self, *makers):
        return self.rng.choice(makers)()

    def chance(self, part):
        return self.rng.random() < part

    def variables(self, kinds, assigned=False):
        return [name for name, kind in self.scope.items() if kind in kinds and not (assigned and (name in self.frozen or name[0] == "e"))]

    # ---- expressions of a type

    def exp(self, kind, depth):
        """An expression of just this type."""
        makers = [self.leaf]
        if depth > 0:
            makers += [self.compound, self.compound, self.compound, self.shared]
        return self.rng.choice(makers)(kind, depth)

    def leaf(self, kind, depth):
        held = self.variables([kind])
        if held and self.chance(0.7):
            return "Var", self.rng.choice(held)
        if kind in STATICS and self.chance(0.3):
            return "Static", self.own, self.rng.choice(STATICS[kind])
        if kind in ("I", "J"):
            return {"I": "Int", "J": "Long"}[kind], self.rng.choice(INTS if kind == "I" else LONGS)
        if kind == "Z":
            return "Bool", self.chance(0.5)
        if kind in NARROW:
            return "Cast", kind, ("Int", self.rng.choice(INTS))
        return self.reference(kind, 0)

    def shared(self, kind, depth):
        """An expression that any type has."""
        def choice():
            return "Choice", self.exp("Z", depth - 1), self.exp(kind, depth - 1), self.exp(kind, depth - 1)

        def assign():
            held = self.variables([kind], True)
            if not held:
                return self.compound(kind, depth)
            name = self.rng.choice(held)
            return "Assign", name, self.fitting(kind, depth - 1)

        def called():
            found = [name for name, (_, result) in self.callees.items() if result == kind]
            return self.called(self.rng.choice(found), depth) if found and not self.loops else self.compound(kind, depth)

        def field():
            return ("Field", self.object(depth - 1), self.rng.choice(FIELDS[kind])) if kind in FIELDS else self.compound(kind, depth)

        return self.pick(choice, assign, called, field)

    def compound(self, kind, depth):
        if kind == "I":
            return self.whole(depth)
        if kind == "J":
            return self.wide(depth)
        if kind == "Z":
            return self.truth(depth)
        if kind in NARROW:
            return "Cast", kind, self.exp(self.rng.choice(NUMBERS), depth - 1)
        return self.reference(kind, depth)

    def small(self, depth):
        """A number that is promoted to an int."""
        return self.exp(self.rng.choice(["I"] * 7 + NARROW), depth)

    def index(self, depth):
        return ("Int", self.rng.randrange(3)) if self.chance(0.6) else ("Binary", self.rng.choice("&&&%"), self.small(depth - 1), ("Int", 3))

    def whole(self, depth):
        rng, less = self.rng, depth - 1
        return self.pick(
            lambda: ("Binary", rng.choice(ARITHMETIC + BITS), self.small(less), self.small(less)),
            lambda: ("Binary", rng.choice(ARITHMETIC + BITS), self.small(less), self.small(less)),
            lambda: ("Binary", rng.choice(SHIFTS), self.small(less), self.exp(rng.choice(NUMBERS), less)),
            lambda: ("Negative", self.small(less)),
            lambda: ("Cast", "I", self.exp(rng.choice(["J", "J", *NARROW]), less)),
            lambda: ("Element", self.exp("[I", less), self.index(less)),
            lambda: ("Field", self.exp(rng.choice(["[I", "[J", "[[I", OBJECTS, self.array]), less), "length"),
            lambda: ("StaticCall", self.own, "id", [self.small(less)]),
            lambda: ("StaticCall", self.own, "over", [self.exp(rng.choice(["I", "J", "B", OBJECT, self.type, TEXT]), less)]),
            lambda: ("Call", self.object(less), rng.choice(["member", "secret"]), [self.small(less)]),
            lambda: ("Call", ("Cast", COMPARABLE, self.object(less)), "compareTo", [self.fitting(OBJECT, less)]))

    def wide(self, depth):
        rng, less = self.rng, depth - 1

        def pair():
            return rng.choice([("J", "J"), ("J", "I"), ("I", "J"), ("J", "B"), ("C", "J")])

        return self.pick(
            lambda: ("Binary", rng.choice(ARITHMETIC + BITS), *(self.exp(kind, less) for kind in pair())),
            lambda: ("Binary", rng.choice(ARITHMETIC + BITS), *(self.exp(kind, less) for kind in pair())),
            lambda: ("Binary", rng.choice(SHIFTS), self.exp("J", less), self.exp(rng.choice(NUMBERS), less)),
            lambda: ("Negative", self.exp("J", less)),
            lambda: ("Cast", "J", self.exp(rng.choice(NUMBERS), less)),
            lambda: ("Element", self.exp("[J", less), self.index(less)),
            lambda: ("StaticCall", self.own, "wide", [self.exp(rng.choice(NUMBERS), less), self.small(less)]))

    def truth(self, depth):
        rng, less = self.rng, depth - 1
        references = [(OBJECT, OBJECT), (OBJECT, self.type), (self.type, self.type), ("[I", OBJECT), (TEXT, OBJECT), (TEXT, TEXT), ("[I", "[I")]
        tested = [self.type, "[I", "[J", TEXT, OBJECTS, self.array, "Ljava/lang/Cloneable;", COMPARABLE, "Ljava/lang/Throwable;"]
        makers = [lambda: ("SuperCall", None, "equals", [self.fitting(OBJECT, less)])] if self.this else []
        return self.pick(
            *makers,
            lambda: ("Binary", rng.choice(ORDERS + EQUALS), self.exp(rng.choice(NUMBERS), less), self.exp(rng.choice(NUMBERS), less)),
            lambda: ("Binary", rng.choice(ORDERS + EQUALS), self.exp(rng.choice(NUMBERS), less), self.exp(rng.choice(NUMBERS), less)),
            lambda: ("Binary", rng.choice(EQUALS), *(self.exp(kind, less) for kind in rng.choice(references))),
            lambda: ("Binary", rng.choice(EQUALS), self.exp(rng.choice([OBJECT, self.type, "[I", TEXT]), less), ("Null",)),
            lambda: ("Binary", rng.choice(EQUALS + BITS), self.exp("Z", less), self.exp("Z", less)),
            lambda: ("Binary", rng.choice(["&&", "||"]), self.exp("Z", less), self.exp("Z", less)),
            lambda: ("Binary", rng.choice(["&&", "||"]), self.exp("Z", less), self.exp("Z", less)),
            lambda: ("Not", self.exp("Z", less)),
            lambda: ("InstanceOf", self.exp(OBJECT, less), rng.choice(tested)),
            lambda: ("StaticCall", self.own, "flag", [self.exp("Z", less)]))

    # ---- references

    def object(self, depth):
        """An object of the class, or null by a cast: what may stand before a dot."""
        return ("Cast", self.type, ("Null",)) if self.chance(0.05) else self.exp(self.type, depth)

    def reference(self, kind, depth):
        if kind == self.type:
            return self.own_object(depth)
        if kind in (OBJECT, TEXT):
            return self.plain_object(kind, depth)
        if kind[0] == "[":
            return self.array_exp(kind, depth)
        return "New", kind[1:-1], []

    def own_object(self, depth):
        rng, less = self.rng, depth - 1
        makers = [lambda: ("New", self.own, []), lambda: ("New", self.own, [("Int", rng.choice(INTS))])]
        if self.this:
            makers.append(lambda: ("This",))
        if depth > 0:
            makers += [lambda: ("New", self.own, [self.exp(rng.choice(["I", "J", "B"]), less)]),
                       lambda: ("Field", self.object(less), "next"),
                       lambda: self.cast_back(self.type, less)]
        if depth > 0 and self.chance(0.2):
            makers.append(lambda: ("Element", self.exp(self.array, less), self.index(less)))
        return self.pick(*makers)

    def cast_back(self, kind, depth):
        """An object that is cast to a type that it mostly has."""
        return "Cast", kind, ("Cast", OBJECT, self.exp(kind, depth)) if self.chance(0.8) else self.exp(OBJECT, depth)

    def plain_object(self, kind, depth):
        less = depth - 1
        makers = [lambda: ("Text", [97 + self.rng.randrange(2)])]
        if kind == OBJECT:
            makers += [lambda: ("New", "java/lang/Object", []), lambda: ("Cast", OBJECT, ("Text", [97]))]
            makers = [lambda maker=maker: ("Cast", OBJECT, maker()) for maker in makers]
        if depth > 0:
            makers += [lambda: self.cast_back(kind, less)]
        if depth > 0 and kind == OBJECT:
            makers += [lambda: ("Cast", kind, self.exp(self.rng.choice([self.type, "[I", "[J", OBJECTS, self.array, TEXT]), less)),
                       lambda: ("Element", self.exp(OBJECTS, less), self.index(less)), lambda: ("Cast", kind, ("ClassOf", self.rng.choice(["[I", self.type])))]
        return self.pick(*makers)

    def array_exp(self, kind, depth):
        less, element = depth - 1, kind.lstrip("[")
        pairs = len(kind) - len(element)
        size = ("Int", self.rng.choice([0, 1, 2, -1] + [3, 4] * 8))
        makers = [lambda: ("NewArray", element, [size], pairs - 1), lambda: ("NewArray", element, [("Int", 3)] * pairs, 0)]
        if depth > 0:
            makers += [lambda: ("NewArray", element, [("Binary", "|", self.index(less), ("Int", 2))] * pairs, 0), lambda: ("Call", self.exp(kind, less), "clone", [])]
            if kind == "[I":
                makers.append(lambda: ("Element", self.exp("[[I", less), self.index(less)))
            if kind == OBJECTS:
                makers.append(lambda: ("Cast", kind, self.exp(self.rng.choice([self.array, "[[I"]), less)))
            if kind in ("[I", OBJECTS, self.array):
                makers.append(lambda: self.cast_back(kind, less))
        return self.pick(*makers)

    def fitting(self, kind, depth):
        """An expression of a type that goes where this one is wanted."""
        if kind[0] in "L[" and self.chance(0.1):
            return ("Null",)
        above = {"J": NUMBERS, "I": ["I", "B", "S", "C"], "S": ["S", "B"], OBJECT: [OBJECT, self.type, "[I", TEXT, OBJECTS], OBJECTS: [OBJECTS, self.array, "[[I"]}
        return self.exp(self.rng.choice([kind, *above.get(kind, [])]), depth)

    def called(self, name, depth):
        return "StaticCall", self.own, name, [self.fitting(kind, depth - 1) for kind in self.callees[name][0]]

    # ---- statements: each is told with whether it can complete normally

    def fresh(self, letter):
        """A variable that isn't in scope, mostly one that was before."""
        numbers = [int(name[1:]) for name in [*self.scope, *self.hidden] if name[0] == letter]
        return f"{letter}{max(numbers, default=-1) + 1 + (self.rng.randrange(9) == 0)}"

    def value(self, kind):
        return self.fitting(kind, self.rng.randrange(DEPTH + 1))

    def some_type(self):
        return self.rng.choice(["I", "I", "I", "J", "J", "Z", *NARROW, "[I", "[J", "[[I", self.type, OBJECT, OBJECTS, self.array, TEXT])

    def block(self, depth, count=None):
        """Statements with a scope of their own."""
        outer = dict(self.scope)
        made = self.statements(depth, self.rng.choice([1, 1, 2, 2, 3]) if count is None else count)
        self.scope = outer
        return made

    def statements(self, depth, count):
        """Statements in the scope that is open, up to one that can't complete."""
        made = []
        for _ in range(count):
            more, completes = self.statement(depth)
            made += more
            if not completes:
                return made, False
        return made, True

    def statement(self, depth):
        """Some statements, most often one."""
        if depth <= 0 or self.chance(0.45):
            return self.simple()
        makers = [self.if_stm, self.if_stm, self.if_stm, self.switch_stm, self.labelled_block, self.try_stm, self.try_stm, self.finally_stm,
                  self.finally_stm, self.synchronized_stm, self.plain_block]
        if self.loops < 2:
            makers += [self.while_stm, self.do_stm, self.for_stm]
        return self.rng.choice(makers)(depth - 1)

    def simple(self):
        kind = self.rng.randrange(20)
        if kind < 5:
            return [log(self.value(self.rng.choice(["I", "I", "J", "B", "C", OBJECT, self.type])))], True
        if kind < 9:
            return self.declare(), True
        if kind < 12:
            return self.set_variable(), True
        if kind < 17:
            return [self.store()], True
        if kind < 18:
            return [("Run", self.run_call())], True
        return self.leave()

    def declare(self):
        kind, name = self.some_type(), self.fresh("v")
        new = self.value(kind)
        if self.chance(0.7):
            made = [("Declare", name, kind, new)]
        elif self.chance(0.5):
            made = [("Declare", name, kind, None), ("Set", name, new)]
        else:
            made = [("Declare", name, kind, None), ("If", self.value("Z"), [("Set", name, new)], [("Set", name, self.value(kind))])]
        self.scope[name] = kind
        return made

    def set_variable(self):
        held = self.variables(list(self.scope.values()), True)
        if not held:
            return self.declare()
        name = self.rng.choice(held)
        return [("Set", name, self.value(self.scope[name]))]

    def store(self):
        rng = self.rng

        def field():
            kind = rng.choice([*FIELDS, self.type])
            return "SetField", self.object(1), rng.choice(FIELDS.get(kind, ["next"])), self.value(kind)

        def static():
            kind = rng.choice(list(STATICS))
            return "SetStatic", self.own, rng.choice([name for name in STATICS[kind] if name not in CONSTANTS]), self.value(kind)

        def element():
            kind = rng.choice(["I", "J", OBJECT, self.type, "[I", OBJECT])
            return "SetElement", self.exp(f"[{kind}", rng.randrange(DEPTH)), self.index(1), self.value(kind)

        return self.pick(field, static, element)

    def run_call(self):
        rng = self.rng
        return self.pick(
            lambda: ("StaticCall", self.own, "id", [self.value("I")]), lambda: ("StaticCall", self.own, "bad", [self.value("I")]),
            lambda: ("Call", self.object(1), rng.choice(["member", "secret"]), [self.value("I")]), lambda: ("New", self.own, [self.value(rng.choice(["I", "J"]))]),
            lambda: self.called(rng.choice(list(self.callees)), 2) if self.callees and not self.loops else ("New", self.own, []))

    def leave(self):
        """A statement that doesn't complete."""
        jumps = [(word, label) for label, loops in self.labels.items() for word in (["Break", "Continue"] if loops else ["Break"])]
        if jumps and self.chance(0.7):
            word, label = self.rng.choice(jumps)
            self.taken.add((word, label))
            return [(word, label)], False
        caught = [name for name in self.scope if name[0] == "e"]
        if caught and self.chance(0.5):
            name = self.rng.choice(caught)
            return [("Throw", ("Var", name)) if self.chance(0.6) else ("Rethrow", name, self.own, "rethrow$0")], False
        if self.chance(0.5):
            thrown = ("New", self.rng.choice(self.thrown), []) if self.chance(0.9) else ("Cast", "Ljava/lang/Error;", ("Null",))
            return [("Throw", thrown)], False
        return [self.returned()], False

    def returned(self):
        return "Return", None if self.result == "V" else self.value(self.result)

    # ---- statements with parts

    def labelled(self, loops, make):
        """A statement with a label, made where the label may be jumped to, and whether it can complete."""
        label = len(self.labels)
        self.labels[label] = loops
        self.loops += loops
        made, completes = make(label)
        self.loops -= loops
        del self.labels[label]
        completes = completes or ("Break", label) in self.taken
        self.taken -= {("Break", label), ("Continue", label)}
        return [("Labelled", label, made)], completes

    def going_on(self):
        """A test of a loop, which is false in the end."""
        return self.pick(lambda: MORE, lambda: ("Binary", "&&", MORE, self.value("Z")), lambda: ("Binary", "&&", self.value("Z"), MORE))

    def if_stm(self, depth):
        test = self.value("Z")
        first, one = self.block(depth)
        second, other = self.block(depth) if self.chance(0.6) else ([], True)
        return [("If", test, first, second)], one or other

    def while_stm(self, depth):
        def make(label):
            test = self.going_on()
            body, _ = self.block(depth)
            return ("While", test, body), True
        return self.labelled(True, make)

    def do_stm(self, depth):
        def make(label):
            body, completes = self.block(depth)
            return ("Do", body, self.going_on()), completes or ("Continue", label) in self.taken
        return self.labelled(True, make)

    def for_stm(self, depth):
        outer, name = dict(self.scope), self.fresh("v")
        self.scope[name] = "I"
        self.frozen.add(name)

        def make(label):
            test = ("Binary", "<", ("Var", name), ("Int", self.rng.randrange(4)))
            test = test if self.chance(0.7) else ("Binary", "&&", self.exp("Z", 1), test)
            body, _ = self.block(depth)
            return ("For", test, name, ("Binary", "+", ("Var", name), ("Int", 1)), body), True

        made, completes = self.labelled(True, make)
        self.scope = outer
        self.frozen.discard(name)
        return [("Block", [("Declare", name, "I", ("Int", 0)), *made])], completes

    def switch_stm(self, depth):
        numbers = self.rng.sample([0, 1, 2, 3, 127], self.rng.randrange(1, 5))
        kind = self.rng.choice(self.switched)
        if kind == "I":
            numbers += self.rng.sample([-1, 128, 2**31 - 1, -2**31], self.rng.randrange(3))
        wanted = self.exp(kind, 1) if kind != "I" or self.chance(0.3) else ("Binary", "&", self.value("I"), ("Int", 3))
        labels = [[number] for number in numbers] + ([[None]] if self.chance(0.7) else [])
        self.rng.shuffle(labels)
        while len(labels) > 1 and self.chance(0.3):
            first, second, *rest = labels
            labels = [first + second, *rest]

        def make(label):
            groups, completes = self.groups(labels, depth)
            return ("Switch", wanted, groups), completes or not any(None in each for each in labels)
        return self.labelled(False, make)

    def groups(self, labels, depth):
        """The groups of a switch: what one declares is in the scope of those behind it, where it has no value."""
        groups, outer, hidden, completes = [], self.scope, len(self.hidden), True
        for each in labels:
            self.scope = dict(outer)
            least = 0 if each is labels[-1] else 1
            body, completes = self.statements(depth, self.rng.randrange(least, least + 3))
            self.hidden += [name for name in self.scope if name not in outer]
            groups.append((each, body))
        self.scope = outer
        del self.hidden[hidden:]
        return groups, completes

    def labelled_block(self, depth):
        def make(label):
            body, completes = self.block(depth)
            return ("Block", body), completes
        return self.labelled(False, make)

    def plain_block(self, depth):
        body, completes = self.block(depth)
        return [("Block", body)], completes

    def try_stm(self, depth):
        body, completes = self.block(depth)
        names = sorted(self.rng.sample(self.caught, self.rng.choice([1, 1, 2, 3])), key=self.caught.index)
        body, clauses = self.throwing(names) + body, []
        for name in names:
            outer, variable = dict(self.scope), self.fresh("e")
            self.scope[variable] = f"L{name};"
            caught, other = self.block(depth)
            self.scope = outer
            clauses.append((name, variable, [log(("Var", variable)), *caught] if self.chance(0.5) else caught))
            completes = completes or other
        return [("Try", body, clauses)], completes

    def throwing(self, names):
        """Statements that throw what these clauses can't take else."""
        return []

    def finally_stm(self, depth):
        last, ends = self.block(depth)
        before = set(self.taken)
        body, completes = self.block(depth)
        if not ends:
            self.taken = before
        return [("Finally", body, last)], completes and ends

    def synchronized_stm(self, depth):
        monitor = self.exp(self.rng.choice([self.type, OBJECT, "[I"]), 1)
        body, completes = self.block(depth)
        return [("Synchronized", monitor, body)], completes

    # ---- bodies

    def body(self, parameters, result):
        self.result = result
        self.scope = {f"p{number}": kind for number, kind in enumerate(parameters)}
        made, completes = self.statements(DEPTH, self.rng.randrange(2, 9))
        made = ([("Run", ("StaticCall", self.own, "begin", []))] if self.chance(0.8) else []) + made
        return made + ([self.returned()] if completes and (result != "V" or self.chance(0.3)) else [])


def method(name, parameters, result, body, flags=8):
    return {"flags": flags, "name": name, "parameters": parameters, "result": result, "thrown": ["java/lang/Throwable"], "body": body}


def array(element):
    return "NewArray", element, [("Int", 4)], 0


def fixed_methods(own):
    """Constructors, and the methods that random bodies call."""
    first, field = ("Var", "p0"), ("Field", ("This",), "f")
    throws = ("Throw", ("New", "java/lang/IllegalArgumentException", []))
    held = [("SetField", ("This",), "q", array("J")), ("SetField", ("This",), "next", ("This",))]
    made = [method("<init>", [], "V", [("Construct", False, [])], 0),
            method("<init>", ["I"], "V", [("Construct", False, []), ("SetField", ("This",), "f", first), *held], 0),
            method("<init>", ["J"], "V", [("Construct", True, [("Cast", "I", first)]), ("SetField", ("This",), "g", first)], 0),
            method("begin", [], "V", [("SetStatic", own, "a", array("I")), ("SetStatic", own, "o", ("New", own, [("Int", 3)])), ("SetStatic", own, "s", ("Int", 6))]),
            method("id", ["I"], "I", [log(first), ("Return", first)]),
            method("wide", ["J", "I"], "J", [log(first), ("Return", ("Binary", "-", first, ("Var", "p1")))]),
            method("flag", ["Z"], "Z", [("If", first, [log(("Int", 1))], [log(("Int", 0))]), ("Return", first)]),
            method("bad", ["I"], "I", [("If", ("Binary", ">", first, ("Int", 2)), [throws], []), ("Return", first)]),
            method("member", ["I"], "I", [("SetField", ("This",), "f", ("Binary", "+", field, first)), ("Return", field)], 0),
            method("secret", ["I"], "I", [log(field), ("Return", ("Binary", "*", field, first))], 2)]
    made.append({**method("compareTo", [OBJECT], "I", [log(first), ("Return", field)], 1), "thrown": []})
    for place, kind in enumerate(["I", "J", OBJECT, f"L{own};"]):
        made.append(method("over", [kind], "I", [log(("Int", place)), ("Return", ("Int", place))]))
    return made


def field(flags, kind, name, value=None):
    return {"flags": flags, "kind": kind, "name": name, "value": value}


def fields(own):
    made = [field(24, "I", "K", ("Int", 7)), field(24, "J", "Q", ("Long", -(2**40)))]
    made += [field(8, kind, name) for kind, names in STATICS.items() for name in names if name not in CONSTANTS]
    return made + [field(0, kind, name) for kind, names in FIELDS.items() for name in names] + [field(0, f"L{own};", "next")]


def random_unit(rng, own, count):
    """A unit with so many random methods, t0 and on."""
    methods, callees = fixed_methods(own), {}
    for number in range(count):
        parameters = [rng.choice(["I", "I", "J", "Z", *NARROW]) for _ in range(rng.randrange(4))]
        result, static = rng.choice(["I", "I", "J", "Z", "V", "[I", OBJECT, OBJECTS, *NARROW]), rng.random() < 0.7
        body = BodyMaker(rng, own, dict(callees), not static).body(parameters, result)
        methods.append(method(f"t{number}", parameters, result, body, 8 if static else 0))
        if static and len(callees) < 3:
            callees[f"t{number}"] = parameters, result
    return {"package": None, "flags": 0, "name": own, "superclass": None, "interfaces": ["java/lang/Comparable"],
            "fields": fields(own), "helper": "rethrow$0", "methods": methods}
