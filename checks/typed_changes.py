"""Changes of random bodies that may break a rule of types: something in a body becomes another, or a statement comes in that may break a rule."""
from random_bodies import ARITHMETIC, BITS, EQUALS, MORE, OBJECT, ORDERS, SHIFTS
from flow_bodies import LEAVES, Changer, Unchanged, all_lists, bare, relabelled, trees_in
from typed_worlds import FACE_NAMES, FIELD_NAMES, INTERFACE, METHOD_NAMES, PRIMITIVES, SHADED, STATIC, named
from typed_bodies import TypedMaker

EXPRESSIONS = {"Int", "Long", "Text", "Bool", "Null", "This", "Var", "ClassOf", "Field", "Static", "Element", "Call", "StaticCall", "SuperCall", "New", "NewArray", "Cast",
               "InstanceOf", "Negative", "Not", "Binary", "Choice", "Assign"}
CALLS = ["Call", "StaticCall", "SuperCall", "New", "Construct"]


def paths(tree, path=()):
    """Each tuple within a tree, with where it stands."""
    if isinstance(tree, tuple):
        yield path, tree
    if isinstance(tree, (tuple, list)):
        for at, part in enumerate(tree):
            yield from paths(part, (*path, at))


def replaced(tree, path, new):
    if not path:
        return new
    return type(tree)(replaced(part, path[1:], new) if at == path[0] else part for at, part in enumerate(tree))


class TypeChanger(Changer):
    """Changes a method's body so that it may break a rule of types."""

    def __init__(self, rng, world, changed):
        super().__init__(rng, world.own, changed)
        self.world, self.maker = world, TypedMaker(rng, world, {}, not changed["flags"] & STATIC)
        self.scope, self.labels = {}, {}

    # ---- what stands in the body

    def put(self, path, new):
        self.body[:] = replaced(self.body, path, new)

    def expressions(self, *words):
        """Each expression that begins with one of these words, with where it stands."""
        return [(path, tree) for path, tree in paths(self.body) if tree and isinstance(tree[0], str) and tree[0] in (words or EXPRESSIONS)]

    def expression(self, *words):
        return self.pick(self.expressions(*words))

    def kind(self):
        return self.rng.choice(self.world.kinds)

    def near(self, kind):
        """This type, or one of those that go where it is wanted or where they are, or another."""
        rng, world = self.rng, self.world
        wide = {"B": "BSIJ", "S": "BSI", "C": "CI", "I": "IBSCJ", "J": "JIBC"}
        found = [*wide.get(kind, []), *world.below(kind), *[named(name) for name in (world.above(kind[1:-1]) if kind[0] == "L" else [])]]
        return rng.choice([*found, kind]) if rng.random() < 0.6 else self.kind()

    def some(self, kind, depth=1):
        """An expression of this type where the change stands."""
        if kind is None:
            return ("Null",)
        return self.maker.given(kind, self.scope, depth)

    def any(self, depth=1):
        return self.some(self.kind() if self.rng.random() < 0.95 else None, depth)

    def insert(self, make):
        """A statement comes somewhere, made where it stands."""
        made, at, self.scope, self.labels = self.pick(spot for spot in self.spots() if not (spot[1] == len(spot[0]) and spot[0] and spot[0][-1][0] in LEAVES))
        made.insert(at, make())

    def declare(self, kind, value):
        return "Declare", self.fresh("v"), kind, value

    # ---- statements that come

    def assign_other(self):
        def make():
            kind = self.kind()
            name = self.rng.choice([name for name in self.scope if name[0] != "e"] or [None])
            if name is None or self.rng.random() < 0.5:
                return self.declare(kind, self.some(self.near(kind)))
            return "Set", name, self.some(self.near(self.scope[name][0]))
        self.insert(make)

    def cast_other(self):
        def make():
            kind = self.kind()
            return self.rng.choice([lambda: self.declare(kind, ("Cast", kind, self.any())), lambda: self.declare("Z", ("InstanceOf", self.any(), kind)),
                                    lambda: self.declare(kind, ("Cast", kind, self.some(self.near(kind))))])()
        self.insert(make)

    def operate(self):
        def make():
            first = self.kind()
            second, word = self.near(first), self.rng.choice([*ARITHMETIC, *BITS, *SHIFTS, *ORDERS, *EQUALS, *EQUALS, *EQUALS, *EQUALS, "&&", "||"])
            new = ("Binary", word, self.some(first), self.some(second))
            if word in [*ORDERS, *EQUALS, "&&", "||"] or first == "Z":
                return self.declare("Z", new)
            return self.declare("J" if first == "J" or second == "J" and word not in SHIFTS else "I", new)
        self.insert(make)

    def operate_alone(self):
        def make():
            kind = self.kind()
            return self.rng.choice([lambda: self.declare("J" if kind == "J" else "I", ("Negative", self.some(kind))), lambda: self.declare("Z", ("Not", self.some(kind)))])()
        self.insert(make)

    def test_other(self):
        def make():
            test = self.some(self.rng.choice(["Z", self.kind(), self.kind()]))
            variables = [name for name in self.scope if name[0] != "e"]
            if variables and self.rng.random() < 0.3:
                name = self.rng.choice(variables)
                return "For", self.rng.choice([MORE, test]), name, self.some(self.near(self.scope[name][0])), []
            return self.rng.choice([("If", test, [], []), ("While", test, []), ("Do", [], test), ("Synchronized", test, []), ("Throw", test),
                                    ("Switch", test, [([1], [("Block", [])]), ([None], [])])])
        self.insert(make)

    def index_other(self):
        def make():
            kind = self.rng.choice(["[I", "[J", self.kind()])
            spot = ("Element", self.some(kind), self.some(self.rng.choice(["I", *PRIMITIVES, self.kind()])))
            element = kind[1:] if kind[0] == "[" else "I"
            if self.rng.random() < 0.5:
                return "SetElement", spot[1], spot[2], self.some(self.near(element))
            return self.declare(element, spot)
        self.insert(make)

    def size_other(self):
        self.insert(lambda: self.declare("[[I", ("NewArray", "I", [self.some(self.rng.choice(["I", *PRIMITIVES, self.kind()])) for _ in range(self.rng.choice([1, 2, 2, 3]))],
                                                 self.rng.choice([0, 1]))))

    def choose(self):
        def make():
            kind = self.kind()
            return self.declare(kind, ("Choice", self.some(self.rng.choice(["Z", "Z", self.kind()])), self.some(self.rng.choice([kind, None])), self.some(self.rng.choice([kind, kind, None, self.near(kind)]))))
        self.insert(make)

    def some_call(self):
        """A call of some method, as it was declared or not quite."""
        rng, world = self.rng, self.world
        name, shape = rng.choice([*world.signatures, ("me", ()), *((one["name"], tuple(one["parameters"])) for one in world.classes[self.own]["methods"] if one["name"] != "<init>")])
        receiver = rng.choice([*[name for name, one in world.classes.items() if any(each["name"] == name for each in one["methods"])], *world.classes])
        given = [self.some(self.near(kind) if rng.random() < 0.5 else kind) for kind in shape]
        if rng.random() < 0.1:
            given = given[1:] if given and rng.random() < 0.5 else [*given, self.any()]
        word = rng.random()
        if word < 0.45:
            return "Call", self.some(named(receiver) if rng.random() < 0.9 else self.kind()), name, given
        if word < 0.85:
            return "StaticCall", receiver, name, given
        return "SuperCall", rng.choice([None, None, *(one for one, each in world.classes.items() if each["flags"] & INTERFACE)]), name, given

    def call_other(self):
        self.insert(lambda: ("Run", self.some_call()))

    def value_of_call(self):
        def make():
            one = self.some_call()
            results = [each["result"] for key, each in self.world.signatures.items() if key[0] == one[2]]
            return self.declare(self.rng.choice([kind for kind in results if kind != "V"] or ["I"]), one)
        self.insert(make)

    def new_other(self):
        def make():
            name = self.rng.choice([*self.world.classes, "Ea", "java/lang/Object"])
            shapes = [one["parameters"] for one in self.world.classes.get(name, {"methods": []})["methods"] if one["name"] == "<init>"] or [[]]
            given = [self.some(self.near(kind) if self.rng.random() < 0.5 else kind) for kind in self.rng.choice(shapes)]
            return "Run", ("New", name, given if self.rng.random() < 0.9 else [self.any()])
        self.insert(make)

    def some_field(self):
        """A field that may be none, and a type that it may have."""
        rng, world = self.rng, self.world
        receiver = rng.choice(list(world.classes))
        one = rng.choice([each for upper in world.above(receiver) for each in world.classes.get(upper, {"fields": []})["fields"]] or [{"name": rng.choice(FIELD_NAMES), "kind": "I", "flags": 0}])
        by_name = rng.random() < (0.8 if one["flags"] & STATIC else 0.2)
        if by_name:
            return ("Static", receiver, one["name"]), one["kind"]
        return ("Field", self.some(named(receiver) if rng.random() < 0.9 else self.kind()), rng.choice([one["name"]] * 9 + ["length"])), one["kind"]

    def field_other(self):
        def make():
            (word, *parts), kind = self.some_field()
            if self.rng.random() < 0.5:
                return f"Set{word}", *parts, self.some(self.near(kind) if self.rng.random() < 0.5 else kind)
            return self.declare(kind, (word, *parts))
        self.insert(make)

    def return_other(self):
        def make():
            result = self.method["result"]
            return "Return", None if self.rng.random() < 0.2 else self.any() if result == "V" else self.some(self.near(result))
        self.insert(make)

    def construct(self):
        self.insert(lambda: ("Construct", self.rng.random() < 0.5, [self.any() for _ in range(self.rng.choice([0, 1]))]))

    def this_anywhere(self):
        self.insert(lambda: self.declare(named(self.own), ("This",)))

    def catch_any(self):
        def make():
            name = self.rng.choice([*self.world.classes, "java/lang/Object", "Er", "java/lang/RuntimeException", "Nowhere"])
            return "Try", [], [(name, self.rng.choice([self.fresh("e"), self.fresh("e"), *self.scope]), [])]
        self.insert(make)

    def throw_again_any(self):
        def make():
            name = self.rng.choice([*self.scope, *self.scope, "v77"])
            return "Rethrow", name, self.own, "rethrow$0"
        self.insert(make)

    def name_none(self):
        def make():
            nowhere = self.rng.choice(["Nowhere", "Nowhere", "pack/Nowhere", self.world.hidden, SHADED])
            kind = named(nowhere)
            return self.rng.choice([("Run", ("New", nowhere, [])), self.declare(kind, ("Null",)), self.declare("Z", ("InstanceOf", ("Null",), kind)), ("Run", ("StaticCall", nowhere, "of", [])),
                                    self.declare("I", ("Static", nowhere, "fa")), self.declare(OBJECT, ("ClassOf", kind)), self.declare(OBJECT, ("Cast", kind, ("Null",))),
                                    self.declare(OBJECT, ("NewArray", kind, [("Int", 1)], 0)), ("SetStatic", nowhere, "fa", ("Int", 1)), ("Run", ("StaticCall", self.own, "nothing", [])),
                                    self.declare("I", ("Var", "v88")), ("Set", "v88", ("Int", 1)), self.declare("I", ("Static", self.own, "nothing")),
                                    self.declare("I", ("Field", ("New", self.own, []), "nothing")), ("Run", ("Call", ("New", self.own, []), "nothing", []))])
        self.insert(make)

    def declare_again(self):
        self.insert(lambda: ("Declare", self.rng.choice([*self.scope, self.fresh("v")]), self.kind(), None))

    # ---- what becomes another

    def drop_cast(self):
        path, tree = self.expression("Cast")
        self.put(path, tree[2])

    def become_other(self):
        """An expression that isn't a statement of its own becomes a value of any type."""
        path, _ = self.pick((path, tree) for path, tree in self.expressions() if not self.is_run(path))
        self.put(path, self.any())

    def is_run(self, path):
        tree = self.body
        for at in path[:-1]:
            tree = tree[at]
        return tree[0] == "Run"

    def arguments_other(self):
        path, tree = self.expression(*CALLS)
        given = list(tree[-1])
        if given and self.rng.random() < 0.5:
            del given[self.rng.randrange(len(given))]
        else:
            given.insert(self.rng.randrange(len(given) + 1), self.any())
        self.put(path, (*tree[:-1], given))

    def name_other(self):
        """A method, field or class is called by another name."""
        path, tree = self.expression("Call", "StaticCall", "SuperCall", "Field", "Static", "New")
        if tree[0] in ("StaticCall", "Static", "New") and self.rng.random() < 0.6:
            self.put(path, (tree[0], self.rng.choice(list(self.world.classes)), *tree[2:]))
        elif tree[0] != "New":
            names = [*FIELD_NAMES, "length", "f", "s"] if tree[0] in ("Field", "Static") else [*METHOD_NAMES, *FACE_NAMES, "member", "id", "clone", "equals", "hashCode", "toString"]
            self.put(path, (*tree[:2], self.rng.choice(names), *tree[3:]))
        else:
            raise Unchanged

    def by_other_way(self):
        """What is called or selected by a class is so by an object, or the other way round."""
        path, tree = self.expression("Call", "StaticCall", "SuperCall", "Field", "Static")
        if tree[0] in ("StaticCall", "Static"):
            self.put(path, ("Call" if tree[0] == "StaticCall" else "Field", self.some(named(tree[1]) if tree[1] in self.world.classes else OBJECT), *tree[2:]))
        else:
            self.put(path, ("Static" if tree[0] == "Field" else "StaticCall", self.rng.choice([self.own, *self.world.classes]), *tree[2:]))

    def declare_other(self):
        made, at, one = self.slot("Declare")
        made[at] = ("Declare", one[1], self.near(one[2]), one[3])

    def move_declaration(self):
        """A declaration goes, is doubled, or comes later."""
        made, at, one = self.slot("Declare")
        later = self.rng.randrange(at + 1, len(made) + 1)
        made.insert(later, one)
        if self.rng.random() < 0.7:
            del made[at]

    def return_none(self):
        made, at, _ = self.slot("Return")
        made[at] = ("Return", self.rng.choice([None, self.any(), self.any()]))

    def jump_any(self):
        made, at, one = self.slot("Break", "Continue")
        made[at] = relabelled(made[at], (self.rng.choice(["Break", "Continue"]), self.rng.randrange(4)))

    def label_other(self):
        made, at = self.pick((made, at) for made in all_lists(self.body) for at, one in enumerate(made) if bare(one)[0] != "Declare")
        one, label = made[at], self.rng.randrange(3)
        made[at] = ("Labelled", label, one[2]) if one[0] == "Labelled" and self.rng.random() < 0.5 else ("Labelled", label, one)

    def case_again(self):
        made, at, one = self.slot("Switch")
        groups = [(list(labels), body) for labels, body in one[2]]
        self.rng.choice(groups)[0].append(self.rng.choice([0, 1, 127, None]))
        made[at] = relabelled(made[at], ("Switch", one[1], groups))

    def static_now(self):
        if self.method["flags"] & STATIC or self.method["name"] == "<init>":
            raise Unchanged
        self.method["flags"] |= STATIC

    def construct_other(self):
        if self.method["name"] != "<init>":
            raise Unchanged
        own = self.body[0]
        self.scope = {"p0": (self.method["parameters"][0], None)}
        given = [self.rng.choice([("This",), ("Field", ("This",), "f"), ("Call", ("This",), "member", [("Int", 1)]), ("SuperCall", None, "hashCode", []), self.any(), self.any()])]
        self.body[:1] = self.rng.choice([[], [own, own], [("Construct", not own[1], [])], [("Construct", own[1], given)], [("Block", [own])], [("Run", ("StaticCall", self.own, "begin", [])), own]])


def is_reference(exp):
    """Whether an expression is a reference by its form."""
    return exp[0] in ("New", "NewArray", "This", "Text", "ClassOf", "Null") or exp[0] == "Cast" and exp[1][0] in "L["


def stops_javac(body):
    """Whether a `synchronized` is on what may be a condition by its form, behind which javac's look at flow ends by an error of its own."""
    locks = [tree[1] for tree in trees_in(body) if isinstance(tree, tuple) and tree[:1] == ("Synchronized",)]
    return any(lock[0] in ("Not", "Binary") or lock[0] == "Choice" and not any(map(is_reference, lock[2:])) for lock in locks)


BASES = [Changer.throws, Changer.jump_elsewhere, Changer.catch_other]
COMING = [TypeChanger.assign_other, TypeChanger.cast_other, TypeChanger.operate, TypeChanger.operate_alone, TypeChanger.test_other, TypeChanger.index_other, TypeChanger.size_other,
          TypeChanger.choose, TypeChanger.call_other, TypeChanger.value_of_call, TypeChanger.new_other, TypeChanger.field_other, TypeChanger.return_other, TypeChanger.construct,
          TypeChanger.this_anywhere, TypeChanger.catch_any, TypeChanger.throw_again_any, TypeChanger.name_none, TypeChanger.declare_again]
BECOMING = [TypeChanger.drop_cast, TypeChanger.become_other, TypeChanger.arguments_other, TypeChanger.name_other, TypeChanger.by_other_way, TypeChanger.declare_other,
            TypeChanger.move_declaration, TypeChanger.return_none, TypeChanger.jump_any, TypeChanger.label_other, TypeChanger.case_again, TypeChanger.static_now, TypeChanger.construct_other]
TYPE_CHANGES = [*BASES, *COMING, *BECOMING, TypeChanger.cast_other, TypeChanger.call_other, TypeChanger.call_other, TypeChanger.value_of_call, TypeChanger.field_other,
                TypeChanger.new_other, TypeChanger.become_other, TypeChanger.construct_other, TypeChanger.jump_any, TypeChanger.jump_any, TypeChanger.label_other]
