"""Random families of classes and interfaces, as class files (JVMS 4), with callers of their methods as class files and as Java sources."""
import collections, struct

PUBLIC, PRIVATE, PROTECTED, STATIC, BRIDGE, INTERFACE, ABSTRACT, SYNTHETIC = 1, 2, 4, 8, 0x40, 0x200, 0x400, 0x1000
OBJECT = "java/lang/Object"
PACKAGES = ["p/", "q/", "q/s/"]
ABOVE_ARRAYS = [f"L{OBJECT};", "Ljava/lang/Cloneable;", "Ljava/io/Serializable;"]
WIDER = {"B": "SIJ", "S": "IJ", "C": "IJ", "I": "J"}
WORDS = {"I": "int", "J": "long", "S": "short", "B": "byte", "C": "char", "Z": "boolean"}

Member = collections.namedtuple("Member", "flags name descriptor")
METHODS_OF_OBJECT = [
    Member(PUBLIC, "toString", "()Ljava/lang/String;"), Member(PROTECTED, "clone", "()Ljava/lang/Object;"),
    Member(PUBLIC, "hashCode", "()I"), Member(PROTECTED, "finalize", "()V"),
]
Call = collections.namedtuple("Call", "way caller number receiver name arguments")


class Pool:
    def __init__(self):
        self.entries, self.places = [], {}

    def add(self, entry):
        if entry not in self.places:
            self.entries.append(entry)
            self.places[entry] = len(self.entries)
        return self.places[entry]

    def utf8(self, text):
        return self.add(b"\x01" + struct.pack(">H", len(text)) + text.encode())

    def named(self, name):
        return self.add(b"\x07" + struct.pack(">H", self.utf8(name)))


def parameters(descriptor):
    """The types of a method's parameters."""
    types, at = [], 1
    while descriptor[at] != ")":
        end = at
        while descriptor[end] == "[":
            end += 1
        end = descriptor.index(";", end) + 1 if descriptor[end] == "L" else end + 1
        types.append(descriptor[at:end])
        at = end
    return types


class Class:
    def __init__(self, name, superclass, interfaces, flags):
        self.name, self.superclass, self.interfaces, self.flags = name, superclass, interfaces, flags
        self.fields, self.methods = [], []

    @property
    def type(self):
        return f"L{self.name};"

    @property
    def package(self):
        return self.name.rpartition("/")[0]

    def is_interface(self):
        return bool(self.flags & INTERFACE)

    def file(self):
        """The class file, in which each method with a body throws null."""
        pool = Pool()
        head = struct.pack(">HHHH", self.flags, pool.named(self.name), pool.named(self.superclass), len(self.interfaces))
        head += b"".join(struct.pack(">H", pool.named(name)) for name in self.interfaces)
        parts = [struct.pack(">H", len(self.fields))]
        for field in self.fields:
            parts.append(struct.pack(">HHHH", field.flags, pool.utf8(field.name), pool.utf8(field.descriptor), 0))
        parts.append(struct.pack(">H", len(self.methods)))
        for method in self.methods:
            body = not method.flags & ABSTRACT
            parts.append(struct.pack(">HHHH", method.flags, pool.utf8(method.name), pool.utf8(method.descriptor), int(body)))
            if body:
                words = 1 + sum(2 if kind in "JD" else 1 for kind in parameters(method.descriptor))
                parts.append(struct.pack(">HIHHI", pool.utf8("Code"), 14, 1, words, 2) + b"\x01\xbf" + bytes(4))
        start = b"\xca\xfe\xba\xbe" + struct.pack(">HHH", 0, 52, len(pool.entries) + 1)
        return start + b"".join(pool.entries) + head + b"".join(parts) + bytes(2)


class Family:
    """Classes of which each stands behind those above it, and callers of their methods."""

    def __init__(self, rng):
        self.rng, self.classes, self.callers, self.calls = rng, [], [], []
        for number in range(rng.randrange(2, 13)):
            self.classes.append(self.some_class(number))
        for one in self.classes:
            self.fill(one)
        for one in self.classes:
            if not one.is_interface() and self.leaves_open(one):
                one.flags |= ABSTRACT
        for number in range(3):
            self.callers.append(self.some_caller(number))
        for caller in self.callers:
            for number in range(10):
                self.calls.append(self.some_call(caller, number))

    # ---- classes

    def above(self, interface):
        """A superclass, and some interfaces, of those that are there."""
        rng = self.rng
        classes = [one.name for one in self.classes if not one.is_interface()]
        interfaces = [one.name for one in self.classes if one.is_interface()]
        superclass = rng.choice(classes[-4:]) if classes and not interface and rng.random() < 0.8 else OBJECT
        return superclass, rng.sample(interfaces, min(len(interfaces), rng.choice([0, 0, 1, 1, 2, 3])))

    def some_class(self, number):
        interface = self.rng.random() < 0.35
        superclass, interfaces = self.above(interface)
        flags = 0x0601 if interface else 0x0421 if self.rng.random() < 0.15 else 0x0021
        return Class(f"{self.rng.choice(PACKAGES)}{'I' if interface else 'C'}{number}", superclass, interfaces, flags)

    def some_type(self, reference=False):
        rng = self.rng
        kind = rng.randrange(3 if reference else 0, 12)
        if kind < 3:
            return rng.choice("IJSBCZ")
        if kind < 5:
            return f"L{OBJECT};"
        if kind < 6:
            return "[" + self.some_type()
        return rng.choice(self.classes).type

    def some_name(self):
        return self.rng.choice(["m", "m", "m", "n", "n", "clone", "toString"])

    def access(self):
        return self.rng.choice([PUBLIC, PUBLIC, PUBLIC, PROTECTED, PROTECTED, 0, 0, PRIVATE])

    def method_flags(self, one):
        rng = self.rng
        if one.is_interface():
            return rng.choice([PUBLIC | ABSTRACT] * 4 + [PUBLIC] * 2 + [PUBLIC | STATIC, PRIVATE])
        access = self.access()
        if one.flags & ABSTRACT and access != PRIVATE and rng.random() < 0.3:
            return access | ABSTRACT
        return access | (STATIC if rng.random() < 0.2 else 0)

    def descriptor(self):
        rng = self.rng
        kinds = "".join(self.some_type() for _ in range(rng.choice([0, 0, 1, 1, 1, 1, 2])))
        return f"({kinds}){rng.choice(['V', 'V', 'I', f'L{OBJECT};', self.some_type(True)])}"

    def fill(self, one):
        """Gives a class its members; now and then with a bridge before or behind the method that it bridges to."""
        rng, taken = self.rng, set()
        known = [method for other in self.classes for method in other.methods if method.name != "<init>"]
        for _ in range(rng.randrange(6)):
            again = rng.choice(known) if known and rng.random() < 0.5 else None
            name, descriptor = (again.name, again.descriptor) if again else (self.some_name(), self.descriptor())
            if (name, tuple(parameters(descriptor))) in taken:
                continue
            taken.add((name, tuple(parameters(descriptor))))
            methods = [Member(self.method_flags(one), name, descriptor)]
            if not one.is_interface() and not methods[0].flags & (STATIC | ABSTRACT | PRIVATE) and descriptor[-1] == ";" and OBJECT not in descriptor.split(")")[1] and rng.random() < 0.5:
                methods.append(Member(methods[0].flags | BRIDGE | SYNTHETIC, name, f"{descriptor.split(')')[0]})L{OBJECT};"))
                rng.shuffle(methods)
            one.methods += methods
        if not one.is_interface():
            kinds = {"()V", *(f"({self.some_type()})V" for _ in range(rng.randrange(3)))}
            one.methods += [Member(PUBLIC if kind == "()V" else self.access(), "<init>", kind) for kind in sorted(kinds)]
        fields = {(rng.choice("xy"), self.some_type()) for _ in range(rng.randrange(4))}
        one.fields = [Member(0x19 if one.is_interface() else self.access() | rng.choice([0, STATIC]), *field) for field in sorted(fields)]

    def class_of(self, name):
        """The class or interface of this name, or None."""
        return next((one for one in self.classes + self.callers if one.name == name), None)

    def declared(self, owner, name, descriptor):
        """The method that a class of the family declares, or None."""
        methods = METHODS_OF_OBJECT if owner == OBJECT else getattr(self.class_of(owner), "methods", [])
        return next((method for method in methods if method[1:] == (name, descriptor)), None)

    def goes(self, kind, wanted):
        """Whether a value of a type goes where another is wanted, without boxing (JLS 4.10, 5.1.2)."""
        if kind == wanted or kind == "null" and wanted[0] in "L[" or wanted in WIDER.get(kind, ""):
            return True
        if kind[0] == "[":
            return wanted in ABOVE_ARRAYS or wanted[0] == "[" and kind[1] in "L[" and self.goes(kind[1:], wanted[1:])
        return kind[0] == "L" and (wanted == f"L{OBJECT};" or wanted[1:-1] in self.order(kind[1:-1]))

    def takes(self, arguments, method):
        """Whether a method takes arguments of these types as they are."""
        kinds = parameters(method.descriptor)
        return len(kinds) == len(arguments) and all(map(self.goes, arguments, kinds))

    def order(self, name):
        """The names of a class and its superclasses upward, and then of the interfaces of these, depth first."""
        upward = []
        while name:
            upward.append(name)
            one = self.class_of(name)
            name = one.superclass if one else None
        return upward + [each for name in upward for each in self.interfaces_above(name)]

    def interfaces_above(self, name):
        one = self.class_of(name)
        return [each for interface in (one.interfaces if one else []) for each in [interface, *self.interfaces_above(interface)]]

    def like(self, receiver, name, kinds):
        """The methods of this name and these parameters in the order of search, each with its class."""
        found = []
        for owner in dict.fromkeys(self.order(receiver)):
            one = self.class_of(owner)
            methods = one.methods if one else [method for method in METHODS_OF_OBJECT if owner == OBJECT]
            found += [(owner, method) for method in methods if method.name == name and parameters(method.descriptor) == kinds]
        return found

    def leaves_open(self, one):
        """Whether a method is abstract in a class, its own or one from above."""
        methods = {(method.name, tuple(parameters(method.descriptor))) for upper in self.all_above(one.name) for method in upper.methods}
        return any(self.like(one.name, name, list(kinds))[0][1].flags & ABSTRACT for name, kinds in methods)

    # ---- callers

    def some_caller(self, number):
        interface = self.rng.random() < 0.25
        superclass, interfaces = self.above(interface)
        caller = Class(f"{self.rng.choice(PACKAGES)}K{number}", superclass, interfaces, 0x0601 if interface else 0x0421)
        if not interface:
            caller.methods = [Member(PUBLIC, "<init>", "()V")]
        return caller

    def some_call(self, caller, number):
        rng = self.rng
        ways = ["through"] * 7 + ["static", "new"] + (["super"] if not caller.is_interface() else [])
        way, owner = rng.choice(ways), rng.choice(self.classes + [caller])
        if way == "new" and (owner.flags & ABSTRACT or rng.random() < 0.5):
            way = "through"
        if way == "super":
            receiver = f"L{caller.superclass};"
        else:
            receiver = owner.type if way != "through" or rng.random() < 0.93 else "[" + self.some_type()
        above = self.all_above(receiver[1:-1]) if rng.random() < 0.85 else self.classes
        known = [method for one in above for method in one.methods if (method.name == "<init>") == (way == "new")]
        meant = rng.choice(known) if known else Member(0, "<init>" if way == "new" else rng.choice(["clone", "toString"]), "()V")
        arguments = [self.some_argument(kind) for kind in parameters(meant.descriptor)]
        return Call(way, caller, number, receiver, meant.name, arguments)

    def all_above(self, name):
        """The class or interface and those above it, as far as they are of the family."""
        found = [one for one in self.classes + self.callers if one.name == name]
        return found + [upper for one in found for each in (one.superclass, *one.interfaces) for upper in self.all_above(each)]

    def some_argument(self, kind):
        """A type that goes where this one is wanted, most of the time."""
        rng = self.rng
        if kind[0] in "L[" and rng.random() < 0.1:
            return "null"
        if kind in "IJ" and rng.random() < 0.5:
            return rng.choice("BSCI")
        if rng.random() < 0.4:
            return kind
        below = [one.type for one in self.classes if kind[1:-1] in [OBJECT, *(upper.name for upper in self.all_above(one.name))]]
        return rng.choice(below) if below and rng.random() < 0.8 else self.some_type(kind[0] in "L[")

    # ---- sources

    def source(self, caller):
        """The Java source of a caller, with each call in a line and a method of its own."""
        word, extends, implements = "abstract class", [caller.superclass], caller.interfaces
        if caller.is_interface():
            word, extends, implements = "interface", caller.interfaces, []
        lines = [f"package {caller.package.replace('/', '.')};", f"public {word} {caller.name.rpartition('/')[2]}"]
        lines += [f"    {key} {', '.join(map(dotted, names))}" for key, names in (("extends", extends), ("implements", implements)) if names]
        lines.append("{")
        for call in self.calls:
            if call.caller is caller:
                lines.append(line_of(call))
        return "\n".join([*lines, "}", ""])


def dotted(name):
    return name.replace("/", ".")


def java_type(kind):
    if kind[0] == "[":
        return java_type(kind[1:]) + "[]"
    return WORDS[kind] if kind in WORDS else dotted(kind[1:-1])


def line_of(call):
    formal = [(java_type(kind), f"a{at}") for at, kind in enumerate(call.arguments) if kind != "null"]
    actual = ", ".join("null" if kind == "null" else f"a{at}" for at, kind in enumerate(call.arguments))
    if call.way == "through":
        formal.insert(0, (java_type(call.receiver), "r"))
    starts = {"through": f"r.{call.name}", "static": f"{java_type(call.receiver)}.{call.name}", "super": f"super.{call.name}", "new": f"new {java_type(call.receiver)}"}
    default = "default " if call.caller.is_interface() else ""
    return f"    {default}void c{call.number}({', '.join(map(' '.join, formal))}) throws Throwable {{ {starts[call.way]}({actual}); }}"
