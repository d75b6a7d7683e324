"""Small random worlds of classes around a unit: classes above and below it, an abstract and a final class, interfaces, and classes of a package.

A method of one name and parameters has one result and one set of flags wherever it is declared, so that what overrides it may.
Fields of one name are of any types, so that they hide each other, or are found twice.
"""
from random_bodies import COMPARABLE, OBJECT, OBJECTS, TEXT, field, fields, method
from flow_bodies import CHECKED
from unit_texts import shown_modifiers, type_text
from javac_verdicts import plain_text

PRIMITIVES = ["I", "J", "Z", "B", "S", "C"]
VALUES = {"I": ("Int", 7), "J": ("Long", 8), "Z": ("Bool", True), "B": ("Int", 9), "C": ("Int", 97), "S": ("Int", 10), TEXT: ("Text", [97])}
METHOD_NAMES, FIELD_NAMES, FACE_NAMES = ["ma", "mb", "mc"], ["fa", "fb", "fc", "ka"], ["na", "nb", "nc"]
PUBLIC, PRIVATE, PROTECTED, STATIC, FINAL, INTERFACE, ABSTRACT = 0x1, 0x2, 0x4, 0x8, 0x10, 0x200, 0x400
NULL_THROWN = [("Throw", ("Null",))]
# A class of a package that is named like one of java.lang which isn't among the classes that the program has.
SHADED = "Integer/Z"


def named(name):
    return f"L{name};"


class World:
    """The classes around the unit C of a number. `classes` has each as a unit, the unit itself without its random bodies."""

    def __init__(self, rng, number, fixed):
        self.rng, self.own = rng, f"C{number}"
        self.abstract, self.final, self.upper, self.lower, self.face, self.other = (f"{letter}{number}" for letter in "AFPSNM")
        self.far, self.hidden = f"pack/Q{number}", f"pack/H{number}"
        self.types = [named(name) for name in (self.own, self.abstract, self.final, self.upper, self.lower, self.face, self.other, self.far)]
        self.kinds = [*PRIMITIVES, *PRIMITIVES, *self.types, OBJECT, TEXT, COMPARABLE, "Ljava/lang/Cloneable;", "Ljava/io/Serializable;", "Ljava/lang/Throwable;", "LEa;", "LEr;", "Ljava/lang/Class;",
                      "[I", "[J", "[B", "[[I", OBJECTS, named(self.hidden), f"[{named(self.own)}", f"[{named(self.upper)}", f"[{named(self.face)}", f"[{named(self.final)}"]
        self.signatures, self.classes, self.uppers, self.simple = {}, {}, {}, True
        pick = rng.choice
        self.add(self.hidden, 0, None, [], self.some_methods())
        self.add(self.far, PUBLIC | pick([0, 0, ABSTRACT]), pick([None, self.hidden]), [], self.some_methods())
        self.classes[self.hidden]["methods"] += [method("of", [], named(self.hidden), NULL_THROWN, PUBLIC | STATIC)]
        self.classes[self.far]["methods"] += [method("hid", [], named(self.hidden), NULL_THROWN, PUBLIC | STATIC)]
        self.simple = False
        self.add(self.face, PUBLIC | INTERFACE | ABSTRACT, None, [], self.of_face())
        self.add(self.other, pick([0, PUBLIC]) | INTERFACE | ABSTRACT, None, pick([[], [self.face]]), self.of_face())
        self.add(self.upper, pick([0, 0, PUBLIC, ABSTRACT]), pick([None, self.far]), pick([[], [], [self.face], [self.face, self.other]]), self.some_methods(), True)
        self.add(self.own, 0, pick([None, self.upper, self.upper]), ["java/lang/Comparable", *pick([[], [self.face], [self.other], [self.face, self.other]])], fixed + self.some_methods(), own=True)
        self.add(self.lower, pick([0, FINAL]), self.own, pick([[], [self.face]]), self.some_methods())
        self.add(self.abstract, ABSTRACT, pick([None, self.upper, self.own]), pick([[], [self.other]]), self.some_methods(), True)
        self.add(self.final, FINAL, pick([None, self.upper]), pick([[], [self.face]]), self.some_methods())
        for name in (self.upper, self.own, self.lower):
            self.classes[name]["methods"].append(method("me", [], named(name), NULL_THROWN, PUBLIC))
            self.classes[name]["methods"][-1]["thrown"] = []
        self.methods = [(receiver, one) for receiver in self.classes for one in self.callable(receiver)]
        self.fields = [(receiver, one) for receiver in self.classes for one in self.selectable(receiver)]

    # ---- members

    def some_type(self):
        return self.rng.choice(["I", "I", "J", "Z", "B", "C", OBJECT, TEXT, "[I", *([named(self.far)] if self.simple else self.types)])

    def signature(self, name, parameters, flags, thrown=0.1):
        """The method of this name and parameters."""
        key = name, tuple(parameters)
        if key not in self.signatures:
            result = self.rng.choice(["V", self.some_type(), self.some_type(), self.some_type()])
            made = method(name, list(parameters), result, NULL_THROWN, flags)
            self.signatures[key] = {**made, "thrown": [self.rng.choice(CHECKED[:5])] if self.rng.random() < thrown and not self.simple else []}
        return dict(self.signatures[key])

    def some_methods(self):
        """Some methods of a class."""
        rng, made = self.rng, {}
        for _ in range(rng.randrange(2, 6)):
            name, parameters = rng.choice(METHOD_NAMES), tuple(self.some_type() for _ in range(rng.choice([0, 1, 1, 1, 2])))
            if self.signatures and rng.random() < 0.5:
                name, parameters = rng.choice([key for key in self.signatures if key[0] in METHOD_NAMES] or [(name, parameters)])
            made[name, parameters] = self.signature(name, parameters, rng.choice([0, 0, 1, 1, 2, 4, 4]) | rng.choice([0, 0, STATIC]))
        return list(made.values())

    def of_face(self):
        """The methods of an interface: an abstract one, one with a body and a static one, or some of them."""
        made = []
        for name, flags in zip(FACE_NAMES, (PUBLIC | ABSTRACT, PUBLIC, PUBLIC | STATIC)):
            if self.rng.random() < 0.8:
                one = self.signature(name, self.rng.choice([[], ["I"], ["J"]]), flags, 0)
                again = ABSTRACT if name == "nb" and self.face in self.classes and self.rng.random() < 0.3 else 0
                made.append({**one, "flags": one["flags"] | again, "body": None if (flags | again) & ABSTRACT else NULL_THROWN})
        return made

    def add(self, name, flags, superclass, interfaces, methods, bare=False, own=False):
        """Adds a class with random fields and constructors, and with the abstract methods that it has to have."""
        rng, made = self.rng, []
        for one in FIELD_NAMES:
            if rng.random() < 0.4:
                bits, kind = rng.choice([0, 0, 1, 2, 4, 4]) | rng.choice([0, STATIC]) | rng.choice([0, 0, FINAL]), self.some_type()
                value = VALUES.get(kind) if flags & INTERFACE or bits & FINAL and rng.random() < 0.5 else None
                bits = PUBLIC | STATIC | FINAL if flags & INTERFACE else bits & ~FINAL if own and value is None or kind[0] == "[" else bits
                if value is not None or not flags & INTERFACE:
                    made.append(field(bits, kind, one, value if bits & FINAL else None))
        if not flags & INTERFACE:
            shapes = rng.sample([["I"], ["J"], ["B"], [OBJECT], [TEXT], [OBJECT if self.simple else named(self.own)], ["I", "Z"], ["I", "J"], ["J", "I"]], rng.randrange(4))
            shapes = [shape for at, shape in enumerate(shapes) if shape not in shapes[:at]]
            if not own:
                methods = [method("<init>", [], "V", [("Construct", False, [])], rng.choice([0, PUBLIC, PROTECTED]) if "/" not in name else rng.choice([PUBLIC, PROTECTED]))] + methods
                methods += [method("<init>", shape, "V", [("Construct", False, [])], rng.choice([0, 0, 1, 2, 4])) for shape in shapes]
            for one in methods:
                if one["name"] == "<init>" and not own:
                    one["thrown"] = self.constructor_throws(superclass)
        self.classes[name] = {"package": name.rpartition("/")[0] or None, "flags": flags, "name": name.rpartition("/")[2], "superclass": superclass, "interfaces": interfaces,
                              "fields": made, "helper": None, "methods": methods}
        held = {(one["name"], tuple(one["parameters"])) for one in methods}
        if bare and flags & ABSTRACT:
            self.classes[name]["methods"].append({**self.signature("pa", ["I"], PUBLIC | ABSTRACT, 0), "body": None})
        elif not flags & (INTERFACE | ABSTRACT):
            above = [one for upper in self.above(name) if upper in self.classes for one in self.classes[upper]["methods"]]
            for key in dict.fromkeys((one["name"], tuple(one["parameters"])) for one in above if one["body"] is None):
                if key not in held:
                    self.classes[name]["methods"].append({**self.signatures[key], "flags": PUBLIC, "body": NULL_THROWN})
        self.default(name)

    def default(self, name):
        """A class that has one method with a body of two interfaces has one of its own."""
        faces = [upper for upper in self.above(name)[1:] if upper in self.classes and self.classes[upper]["flags"] & INTERFACE]
        held = {(one["name"], tuple(one["parameters"])) for one in self.classes[name]["methods"]}
        for key, one in self.signatures.items():
            twice = [face for face in faces if any((each["name"], tuple(each["parameters"])) == key and not each["flags"] & STATIC for each in self.classes[face]["methods"])]
            if len(twice) > 1 and key not in held and not self.classes[name]["flags"] & INTERFACE:
                self.classes[name]["methods"].append({**one, "flags": PUBLIC, "body": NULL_THROWN})

    def constructor_throws(self, superclass):
        above = self.classes.get(superclass, {"methods": []})["methods"]
        return [name for one in above if one["name"] == "<init>" and not one["parameters"] for name in one["thrown"]]

    # ---- what is above what, and what may be used in the unit

    def above(self, name):
        """A class and all above it, each once."""
        if name not in self.classes:
            return [name]
        if name not in self.uppers:
            one = self.classes[name]
            uppers = [upper for each in [*([one["superclass"]] if one["superclass"] else []), *one["interfaces"]] for upper in self.above(each)]
            self.uppers[name] = list(dict.fromkeys([name, *uppers]))
        return self.uppers[name]

    def below(self, kind):
        """The types of the world that go to this class, itself too."""
        return [named(name) for name in self.classes if kind[1:-1] in self.above(name) and "pack/H" not in name]

    def may_use(self, receiver, owner, flags):
        if flags & PRIVATE:
            return owner == receiver == self.own
        if flags & PUBLIC or "/" not in owner:
            return True
        return bool(flags & PROTECTED) and owner in self.above(self.own) and bool(flags & STATIC or self.own in self.above(receiver))

    def callable(self, receiver):
        """The methods that can be called of this class."""
        seen = set()
        for owner in self.above(receiver):
            for one in self.classes.get(owner, {"methods": []})["methods"]:
                key = one["name"], tuple(one["parameters"])
                if key in seen:
                    continue
                seen.add(key)
                hidden = self.classes[owner]["flags"] & INTERFACE and owner != receiver and one["flags"] & STATIC
                if one["name"] != "<init>" and self.may_use(receiver, owner, one["flags"]) and not hidden and receiver != self.hidden:
                    yield one

    def selectable(self, receiver):
        """The fields that can be named of this class, each with the class that declares it."""
        found = [(owner, one) for owner in self.above(receiver) for one in self.classes.get(owner, {"fields": []})["fields"]]
        for owner, one in found:
            alone = owner == receiver or sum(one["name"] == other["name"] for _, other in found) == 1
            if alone and self.may_use(receiver, owner, one["flags"]) and receiver != self.hidden:
                yield {**one, "owner": owner}

    def constructors(self, name):
        """The parameters of each constructor that may be called."""
        for one in self.classes[name]["methods"]:
            if one["name"] == "<init>" and (one["flags"] & PUBLIC or name == self.own or "/" not in name and not one["flags"] & PRIVATE):
                yield one["parameters"]

    # ---- texts

    def texts(self):
        """The text of each class but the unit, by its name; final fields without a constant have a value that is none."""
        return {SHADED: "package Integer;\npublic class Z {\n}\n", **{name: with_finals(one) for name, one in self.classes.items() if name != self.own}}


def with_finals(one):
    made = plain_text(one)
    for each in one["fields"]:
        if each["flags"] & FINAL and each["value"] is None:
            words = " ".join([*shown_modifiers(each["flags"], one, "field", each), type_text(each["kind"]), each["name"]])
            made = made.replace(f"    {words};", f"    final {words} = (new {type_text(each['kind'])}[1])[0];")
    return made


def own_fields(world):
    return fields(world.own) + world.classes[world.own]["fields"]
