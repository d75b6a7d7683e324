"""Worlds of classes for `causes.py`: what stands above a class, what goes where, which member is found or meant, which names can be said.

It is written from the standards and from the rules that this project chose (JVMS 5.4.3; JLS 4.10, 6.5, 6.6, 8.2, 15.11, 15.12), and
from nothing of the program. Types are descriptors, names are those of class files, both as texts of UTF-16 units.
"""
import dataclasses, re
from class_file_format import EACH, class_text, parts_of, text

PUBLIC, PRIVATE, PROTECTED, STATIC, FINAL, BRIDGE, INTERFACE, ABSTRACT = 1, 2, 4, 8, 16, 0x40, 0x200, 0x400
OBJECT = "java/lang/Object"
ABOVE_ARRAYS = {OBJECT, "java/lang/Cloneable", "java/io/Serializable"}
IDENTIFIER = re.compile(r"[A-Za-z_$][A-Za-z_$0-9]*")
VARIABLE = re.compile(r"[pves][0-9]+")
WORDS = set("""abstract assert boolean break byte case catch char class const continue default do double else enum extends final finally float
for goto if implements import instanceof int interface long native new package private protected public return short static strictfp super
switch synchronized this throw throws transient try void volatile while true false null""".split())


def is_identifier(name):
    return IDENTIFIER.fullmatch(name) is not None and name not in WORDS


def package_of(name):
    """The package of a class, with its last slash; nothing where it has none."""
    return name[:name.rfind("/") + 1]


def parameters_of(descriptor):
    return EACH.findall(descriptor[1:descriptor.rindex(")")])


def result_of(descriptor):
    return descriptor[descriptor.rindex(")") + 1:]


def is_reference(kind):
    return kind[0] == "[" or kind[-1] == ";" or kind == "Null"


@dataclasses.dataclass
class Member:
    """A field or a method, with its place in the file; a constant is what ConstantValue names, `code` the content of Code."""

    flags: int
    name: str
    descriptor: str
    thrown: list
    has_constant: bool
    code: bytes | None

    def has(self, flag):
        return self.flags & flag != 0


class Class:
    """A class file, read whole."""

    def __init__(self, data, oldest=45):
        self.pool, (flags, this, above, interfaces, fields, methods, _) = parts_of(data, oldest)
        self.flags, self.name = flags[1], class_text(self.pool, this[1])
        self.superclass = class_text(self.pool, above[1]) if above[1] else None
        self.interfaces = [class_text(self.pool, index) for _, index in interfaces]
        self.fields = [self.member(each) for each in fields]
        self.methods = [self.member(each) for each in methods]

    def member(self, parts):
        flags, name, descriptor, (_, attributes) = parts
        found = {text(self.pool, word[1]): content for word, content in reversed(attributes)}
        thrown = found.get("Exceptions", b"\0\0")
        numbers = [int.from_bytes(thrown[at:at + 2], "big") for at in range(2, len(thrown), 2)]
        return Member(flags[1], text(self.pool, name[1]), text(self.pool, descriptor[1]), [class_text(self.pool, it) for it in numbers],
                      "ConstantValue" in found, found.get("Code"))

    def is_interface(self):
        return self.flags & INTERFACE != 0


class World:
    """Classes by their names. What is asked often is kept."""

    def __init__(self, classes):
        self.classes = {one.name: one for one in classes}
        self.kept = {}

    def once(self, *question):
        """The answer of a method to a question, which is asked once."""
        if question not in self.kept:
            self.kept[question] = getattr(self, question[0])(*question[1:])
        return self.kept[question]

    def is_interface(self, name):
        return name in self.classes and self.classes[name].is_interface()

    # ---- what stands above

    def parents(self, name):
        one = self.classes.get(name)
        return [] if one is None else [*([one.superclass] if one.superclass else []), *one.interfaces]

    def upward(self, name):
        """A class and its superclasses, in order."""
        found = []
        while name is not None and name not in found:
            found.append(name)
            name = self.classes[name].superclass if name in self.classes else None
        return found

    def at_or_above(self, name):
        """A class with all classes and interfaces above it, those too that the world doesn't have."""
        found, left = set(), [name]
        while left:
            one = left.pop()
            if one not in found:
                found.add(one)
                left += self.parents(one)
        return frozenset(found)

    def is_below(self, name, upper):
        """Whether a class is another one, or a subclass of it."""
        return upper in self.once("upward", name)

    def goes(self, kind, wanted):
        """Whether a reference of a type may stand where another type is wanted (JLS 4.10)."""
        if kind == wanted or kind == "Null":
            return kind == wanted or is_reference(wanted)
        if kind[0] == "L" and wanted[0] == "L":
            return wanted[1:-1] == OBJECT or wanted[1:-1] in self.once("at_or_above", kind[1:-1])
        if kind[0] == "[" and wanted[0] == "L":
            return wanted[1:-1] in ABOVE_ARRAYS
        if kind[0] == "[" and wanted[0] == "[" and is_reference(kind[1:]) and is_reference(wanted[1:]):
            return self.goes(kind[1:], wanted[1:])
        return False

    def is_checked(self, name):
        """Whether an exception has to be declared (JLS 11.1.1)."""
        above = self.once("upward", name)
        return "java/lang/Throwable" in above and "java/lang/RuntimeException" not in above and "java/lang/Error" not in above

    # ---- the order of search

    def interfaces_in_order(self, names):
        """Interfaces, each followed by those that it lists, depth first."""
        found = []
        for name in names:
            found += [name, *(self.interfaces_in_order(self.classes[name].interfaces) if name in self.classes else [])]
        return list(dict.fromkeys(found))

    def method_order(self, start):
        """The classes in which a method is searched for: superclasses first, then the interfaces of all of them."""
        classes = self.upward(start)
        listed = [each for name in classes if name in self.classes for each in self.classes[name].interfaces]
        return list(dict.fromkeys(classes + self.interfaces_in_order(listed)))

    def field_order(self, start):
        """The classes in which a field is searched for: each class, then its interfaces, then its superclass likewise."""
        found = []
        for name in self.upward(start):
            found += [name, *(self.interfaces_in_order(self.classes[name].interfaces) if name in self.classes else [])]
        return list(dict.fromkeys(found))

    def is_seen(self, start, owner, method):
        """Whether a search from a class sees a method: an interface's own statics and privates from itself alone, of Object an interface sees what is public."""
        if method.name == "<init>" and result_of(method.descriptor) != "V":
            return False
        if self.is_interface(owner):
            return owner == start or not method.has(STATIC | PRIVATE)
        return not self.is_interface(start) or method.has(PUBLIC) and not method.has(STATIC)

    def seen(self, start, name):
        """The methods of a name that a search from a class sees, each with its owner, in the order of search."""
        order = [start] if name == "<init>" else self.once("method_order", start)
        declared = [(owner, method) for owner in order if owner in self.classes for method in self.classes[owner].methods]
        return [(owner, method) for owner, method in declared if method.name == name and self.is_seen(start, owner, method)]

    def find_method(self, start, name, descriptor):
        """The owner and the method that the JVM finds by name and descriptor, or None."""
        return next((one for one in self.once("seen", start, name) if one[1].descriptor == descriptor), None)

    def find_field(self, start, name, kind):
        """The owner and the field that the JVM finds by name and type, or None."""
        declared = ((owner, field) for owner in self.once("field_order", start) if owner in self.classes for field in self.classes[owner].fields)
        return next((one for one in declared if (one[1].name, one[1].descriptor) == (name, kind)), None)

    # ---- access and inheritance

    def may_use(self, here, owner, member, through):
        """Whether a class may use a member of a class, through an expression of a type, or None for none (JLS 6.6)."""
        if member.has(PUBLIC):
            return True
        if member.has(PRIVATE):
            return here == owner
        if package_of(here) == package_of(owner):
            return True
        if not member.has(PROTECTED) or not self.is_below(here, owner) or self.is_interface(here):
            return False
        return member.has(STATIC) or through is None or self.is_below(OBJECT if through[0] == "[" else through[1:-1], here)

    def is_clone(self, owner, member, through):
        """Whether this is `clone` of an array, which is public (JLS 10.7)."""
        return through is not None and through[0] == "[" and (owner, member.name) == (OBJECT, "clone") and member.descriptor.startswith("()")

    def is_inherited(self, name, owner, member):
        """Whether a class has a member that stands in its own or in a class above it (JLS 8.2, 8.4.8)."""
        if name == owner or member.has(PUBLIC):
            return True
        if member.has(PRIVATE) or not self.is_below(name, owner):
            return False
        classes = self.once("upward", name)
        return member.has(PROTECTED) or all(package_of(each) == package_of(owner) for each in classes[:classes.index(owner)])

    # ---- what Java means

    def meant_method(self, here, start, name, parameters, through):
        """The owner and the method that a call with arguments of just these types means (JLS 15.12.2), or None."""
        like = [one for one in self.once("seen", start, name) if parameters_of(one[1].descriptor) == parameters]
        like = [one for one in like if one[0] == like[0][0]]
        if not like:
            return None
        owner, method = next((one for one in like if not one[1].has(BRIDGE)), like[0])
        usable = self.may_use(here, owner, method, through) or self.is_clone(owner, method, through)
        return (owner, method) if usable and self.is_inherited(start, owner, method) else None

    def field_owners(self, name, field):
        """The classes whose field of a name a class has or would have, but for access: one of its own hides those above (JLS 8.3)."""
        if name in self.classes and any(each.name == field for each in self.classes[name].fields):
            return {name}
        return set().union(*(self.field_owners(each, field) for each in self.parents(name)))

    def meant_field(self, here, start, name, through):
        """The owner and the field that a name means in a class (JLS 15.11.1), or None."""
        found = [(owner, next(each for each in self.classes[owner].fields if each.name == name)) for owner in self.once("field_owners", start, name)]
        found = [one for one in found if self.is_inherited(start, *one)]
        return found[0] if len(found) == 1 and self.may_use(here, *found[0], through) else None

    # ---- names

    def fields_in_scope(self, here):
        return {field.name for name in self.once("at_or_above", here) if name in self.classes for field in self.classes[name].fields}

    def can_say(self, here, name):
        """Whether the name of a class can be said in another class (JLS 6.4.2, 6.5.2, 7.4.2)."""
        segments = name.split("/")
        if not all(map(is_identifier, segments)) or VARIABLE.fullmatch(segments[0]) or segments[0] in self.once("fields_in_scope", here):
            return False
        if len(segments) == 1:
            return package_of(here) == ""
        if package_of(here) + segments[0] in self.classes or "java/lang/" + segments[0] in self.classes:
            return False
        return not any("/".join(segments[:count]) in self.classes for count in range(2, len(segments)))


def innermost(kind):
    """The class that a type is of, or whose arrays it is of, or None."""
    last = kind.lstrip("[")
    return last[1:-1] if last[0] == "L" else None


def classes_of(kinds):
    return {innermost(kind) for kind in kinds} - {None}
