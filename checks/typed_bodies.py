"""Random bodies in small worlds of classes (`typed_worlds.py`): those of `flow_bodies.py`, with calls of the methods of these classes, their fields and their constructors."""
from random_bodies import OBJECT, TEXT
from flow_bodies import FlowMaker
from typed_worlds import ABSTRACT, FINAL, INTERFACE, STATIC, named


class TypedMaker(FlowMaker):
    """Makes a body that uses the classes of a world."""

    def __init__(self, rng, world, callees, this):
        super().__init__(rng, world.own, callees, this)
        self.world, self.result = world, "V"

    def some_type(self):
        return self.rng.choice(self.world.types) if self.chance(0.3) else super().some_type()

    def fitting(self, kind, depth):
        below = self.world.below(kind)
        return self.exp(self.rng.choice(below), depth) if below and self.chance(0.5) else super().fitting(kind, depth)

    def reference(self, kind, depth):
        if kind == named(self.world.hidden):
            return "StaticCall", self.world.far, "hid", []
        if kind == "Ljava/lang/Class;":
            return "ClassOf", self.rng.choice(["[I", self.type, self.type, TEXT, named(self.world.upper)])
        if kind == self.type or kind not in self.world.types:
            return self.other_object(kind) if kind[1:-1] in ("java/lang/Cloneable", "java/io/Serializable", "java/lang/Comparable") else super().reference(kind, depth)
        name, less = kind[1:-1], depth - 1
        makers = [lambda: ("Cast", kind, ("Null",))]
        if not self.world.classes[name]["flags"] & (ABSTRACT | INTERFACE):
            makers += [lambda shape=shape: ("New", name, [self.exp(each, less) for each in shape]) for shape in self.world.constructors(name)]
        if depth > 0:
            makers += [lambda: ("Cast", kind, self.exp(self.rng.choice([*self.world.below(kind), OBJECT]), less))]
        return self.pick(*makers)

    def other_object(self, kind):
        return "Cast", kind, self.rng.choice([("Null",), ("Cast", OBJECT, ("Text", [97]))])

    def shared(self, kind, depth):
        found = [one for one in self.world.methods if one[1]["result"] == kind] + [one for one in self.world.fields if one[1]["kind"] == kind]
        return self.member(*self.rng.choice(found), depth) if found and self.chance(0.5) else super().shared(kind, depth)

    def member(self, receiver, one, depth):
        """A call of a method, or a field."""
        static, face = one["flags"] & STATIC, self.world.classes[receiver]["flags"] & INTERFACE
        by_name = static and (face or self.chance(0.7))
        if "parameters" not in one:
            return ("Static", receiver, one["name"]) if by_name else ("Field", self.exp(named(receiver), depth - 1), one["name"])
        given = [self.exp(kind, depth - 1) for kind in one["parameters"]]
        if self.this and not face and receiver == self.world.classes[self.own]["superclass"] and not one["flags"] & ABSTRACT and self.chance(0.3):
            return "SuperCall", None, one["name"], given
        return ("StaticCall", receiver, one["name"], given) if by_name else ("Call", self.exp(named(receiver), depth - 1), one["name"], given)

    def store(self):
        found = [one for one in self.world.fields if not one[1]["flags"] & FINAL]
        if not found or self.chance(0.6):
            return super().store()
        receiver, one = self.rng.choice(found)
        word, *parts = self.member(receiver, one, 2)
        return f"Set{word}", *parts, self.value(one["kind"])

    def run_call(self):
        return self.member(*self.rng.choice(self.world.methods), 2) if self.world.methods and self.chance(0.5) else super().run_call()

    def given(self, kind, scope, depth=1):
        """An expression of this type where these variables are."""
        self.scope = {name: held for name, (held, _) in scope.items()}
        return self.exp(kind, self.rng.randrange(depth + 1))
