"""Why the program's verdict on types may be another than javac's: the stated rules of ours that are stricter or looser, each by a test of the body."""
import re
from flow_bodies import LEAVES, all_lists, bare, lists_in, trees_in
from flows import KINDS, never
from random_bodies import COMPARABLE, NARROW, NUMBERS, OBJECT, TEXT
from typed_worlds import FINAL, INTERFACE, PRIMITIVES, PUBLIC, SHADED, STATIC, named

BOXES = [OBJECT, COMPARABLE, "Ljava/io/Serializable;"]
STORES = {"Declare": 3, "Set": 2, "Assign": 2, "SetField": 3, "SetStatic": 3, "SetElement": 3, "Return": 1, "For": 3}
# Expressions that have a type here whatever faults they have, by what javac finds in them.
TYPED_ANYHOW = [("abstract.cant.be.instantiated|cant.apply.symbol|cant.resolve.location.args|report.access|not.def", ["New"]),
                ("cant.resolve.location|doesnt.exist|not.def", ["New", "Cast", "ClassOf", "InstanceOf", "NewArray"]), ("non-static|cant.ref.before|not.encl.class", ["This", "SuperCall"]),
                ("prob.found.req|type.found.req|unexpected.type", ["Cast", "InstanceOf", "NewArray", "Assign", "Choice"]), ("operator.cant.be.applied|incomparable", ["Not", "Binary"])]
CHOICE = "the results of a choice have one type"
CLASS_OBJECT = ["Ljava/io/Serializable;", "Ljava/lang/Class;"]
CALLS = ("Call", "StaticCall", "SuperCall", "New", "Construct")


# ---- reasons of what is refused here and taken by javac

def narrows(typing):
    """A constant goes into a narrower type without a cast in Java (JLS 5.2)."""
    word = typing.tree[0]
    if word not in STORES or typing.target() not in NARROW:
        return False
    new = typing.tree[STORES[word]]
    return new is not None and typing.of(new) in ("I", *NARROW) and typing.is_constant(new)


def boxes_between(first, second):
    return first in [*PRIMITIVES, *NUMBERS] and second in BOXES


def boxes(typing):
    """A value of a primitive type goes into a reference, or is cast to or from one, by boxing (JLS 5.1.7, 5.2, 5.3, 5.5)."""
    word, *parts = typing.tree
    if word in STORES and typing.tree[STORES[word]] is not None:
        return boxes_between(typing.of(typing.tree[STORES[word]]), typing.target())
    if word == "Cast":
        return boxes_between(parts[0], typing.of(parts[1])) or boxes_between(typing.of(parts[1]), parts[0])
    if word not in CALLS:
        return False
    given, held = list(map(typing.of, parts[-1])), [one["parameters"] for one in typing.candidates(typing.tree)]
    held += [[OBJECT]] * (len(given) == 1 and (word in ("Call", "SuperCall") and parts[1] in ("equals", "compareTo") or parts[:2] == ["L", "log"]))
    return any(boxes_between(kind, to) for shape in held for kind, to in zip(given, shape))


def joins_texts(typing):
    """One operand of a sum is a text (JLS 15.18.1)."""
    return typing.tree[:2] == ("Binary", "+") and TEXT in map(typing.of, typing.tree[2:])


def chooses_two(typing):
    """The results of a choice here or in a part have two types."""
    for each in trees_in(typing.tree):
        kinds = list(map(typing.of, each[2:])) if isinstance(each, tuple) and each[:1] == ("Choice",) else []
        if kinds and kinds[0] != kinds[1] and (None not in kinds or any(kind in PRIMITIVES for kind in kinds)):
            return True
    return False


def switches_otherwise(typing):
    return bare(typing.tree)[0] == "Switch" and typing.of(bare(typing.tree)[1]) in [*NARROW, TEXT]


def takes_class_object(typing):
    """A class object goes to an interface of Class, which has none among the classes that are known."""
    word, *parts = typing.tree
    kinds = {"Cast": lambda: [typing.of(parts[1]), parts[0]], "InstanceOf": lambda: [typing.of(parts[0]), parts[1]], "Binary": lambda: list(map(typing.of, parts[1:]))}
    if word in STORES and typing.tree[STORES[word]] is not None:
        return [typing.target(), typing.of(typing.tree[STORES[word]])] == CLASS_OBJECT
    return word in kinds and sorted(map(str, kinds[word]())) == CLASS_OBJECT


def casts_boolean(typing):
    return typing.tree[:2] == ("Cast", "Z") and typing.of(typing.tree[2]) == "Z"


# Each with the kinds of its faults.
STRICTER = [
    ("WrongType", narrows, "a constant goes into a narrower type by a cast alone, which the program writes (JLS 5.2)"),
    ("WrongType Call", boxes, "no value is boxed or unboxed (strict invocation, JLS 5.3)"),
    ("WrongType", joins_texts, "a sum is one of numbers (JLS 15.18.2), and no text is joined"),
    ("WrongType", chooses_two, CHOICE),
    ("WrongType", switches_otherwise, "a switch is on int itself"),
    ("WrongType", takes_class_object, "Class has no interfaces among the classes that are known without a file"),
    ("WrongType", casts_boolean, "a cast from boolean to boolean is refused"),
]


def is_stricter(typing, kind):
    return next((why for kinds, test, why in STRICTER if kind in kinds.split() and test(typing)), None)


def is_around(told, verdict, error):
    """Whether javac finds that a call, which means none here, has another type than what it stands in wants."""
    return verdict[1] == "Call" and error[1] == "prob.found.req" and told.part(error) == verdict[0]


# ---- reasons of other places and kinds

def is_start(method, verdict):
    """Whether the fault is that a constructor doesn't begin with a call of another."""
    return verdict == (0, "Call") and method["name"] == "<init>" and (not method["body"] or method["body"][0][0] != "Construct")


def is_typed_anyhow(told, place, errors):
    """Whether a part that javac names with one of these errors has a type here whatever faults it has, so that more can be found around it."""
    for error in errors:
        inner = told.part(error)
        forms = [form for pattern, found in TYPED_ANYHOW if re.match(pattern, error[1]) for form in found]
        if place != inner and told.is_within(place, inner) and any(tree[0] in forms for tree, _ in told.around(inner)):
            return True
    return False


def is_declared_again(typing, errors):
    """Whether a variable here is one that javac finds declared twice."""
    return typing.tree[0] == "Var" and any(key == "already.defined" and words.startswith(f"kindname.variable, {typing.tree[1]},") for _, key, words, _ in errors)


def ends(own, tree):
    """Whether a statement, or a list of them, can't complete, by its form."""
    if isinstance(tree, list):
        return any(ends(own, one) for one in tree)
    if tree[0] == "Labelled":
        jumps = [("Break", tree[1])] + [("Continue", tree[1])] * (tree[2][0] == "Do")
        return ends(own, tree[2]) and not any(each in jumps for each in trees_in(tree[2]))
    if tree[0] in ("While", "For"):
        return never(own, False, tree[1])
    if tree[0] == "Do":
        return never(own, False, tree[2]) or ends(own, tree[1])
    inner = [ends(own, body) for body in lists_in(tree)]
    return tree[0] in LEAVES or bool(inner) and {"Finally": any, "Block": all, "Synchronized": all, "If": all, "Try": all}.get(tree[0], lambda _: False)(inner)


def is_unreached(told, error):
    """Whether an error stands just where javac would tell that a statement can't be reached, which is behind one that can't complete."""
    one = told.items[told.lines.at.get(error[0], 0)][0]
    return told.is_at(one, error) and any(one is each and ends(told.unit["name"], made[:at]) for made in all_lists(told.method["body"]) for at, each in enumerate(made))


def escapes_anyhow(told, error, unreached):
    """Whether javac tells that an exception leaves a `try` whose last list can't end, since there it goes on behind a statement that can't be reached."""
    if not error[1].startswith("unreported.exception"):
        return False
    own = told.items[told.lines.at[error[0]]][0]
    tries = [tree for tree in trees_in(told.method["body"]) if tree and tree[0] == "Finally"]
    return any(any(each is own for each in trees_in(one[1])) and any(each is behind for each in trees_in(one[2]) for behind in unreached) for one in tries)


def as_reached(told, errors):
    """What javac finds, with the statements that can't be reached of which it tells nothing since it has an error at their position, and
    without what it finds since it goes on behind such a statement as if it could be reached: a return that is missing, an exception that leaves."""
    found = errors + [(line, "unreachable.stmt", "", column) for line, key, words, column in errors if is_unreached(told, (line, key, words, column))]
    unreached = [told.items[told.lines.at[line]][0] for line, key, *_ in found if key == "unreachable.stmt"]
    return [error for error in found if error[1] != "missing.ret.stmt" and not escapes_anyhow(told, error, unreached)] if unreached else errors


def throws_faultily(told, one, errors):
    """Whether a throw in the list of a `try` has a fault of another kind than those of flow."""
    faulty = [told.items[told.lines.at[line]][0] for line, key, *_ in errors if key not in KINDS]
    return one[0] == "Try" and any(each is throw for each in trees_in(one[1]) for throw in faulty if throw[0] in ("Throw", "Rethrow"))


def is_thrown_nowhere(told, error, errors):
    """Whether javac tells that a clause takes what nothing throws, where a throw in its list has a fault."""
    return error[1] == "except.never.thrown.in.try" and throws_faultily(told, bare(told.items[told.lines.at[error[0]]][0]), errors)


def is_constant_test(told, error):
    """Whether the test of a loop has this error of javac's, and is constant but no boolean."""
    one = told.items[told.lines.at[error[0]]][0] if error[1] != "missing.ret.stmt" else ("None",)
    loops = [place for place, line in told.lines.tests.items() if line == error[0]]
    typing = told.typing(loops[0] if loops else told.lines.at[error[0]]) if loops or bare(one)[0] in ("While", "For") else None
    loop = bare(typing.tree) if typing else ()
    return bool(loop) and re.match("prob.found.req|operator.cant.be.applied", error[1]) is not None and typing.is_constant(loop[2 if loop[0] == "Do" else 1])


def is_found_twice(typing, kind):
    """Whether a class has two fields of the name that is selected here, by inheritance."""
    word, *parts = typing.tree
    if kind != "Access" or word not in ("Static", "Field", "SetStatic", "SetField"):
        return False
    above = typing.of(parts[0]) if word.endswith("Field") else named(parts[0])
    uppers = typing.world.above(above[1:-1]) if above and above[0] == "L" else []
    return sum(one["name"] == parts[1] for upper in uppers for one in typing.world.classes.get(upper, {"fields": []})["fields"]) > 1


# ---- reasons of what javac refuses and may be accepted here: each by a test of what is told of a body, and of the error

def sets_own_final(told, error):
    if not error[1].startswith("cant.assign.val"):
        return False
    tree = bare(told.items[told.lines.at[error[0]]][0])
    return tree[0] in ("SetField", "SetStatic") and tree[2] in [one["name"] for one in told.unit["fields"] if one["flags"] & FINAL and not one["flags"] & STATIC]


def is_hidden(told, name):
    """Whether a class of the world is not public and of another package."""
    one = told.unit["world"].classes.get(name.replace(".", "/"))
    return one is not None and one["package"] is not None and not one["flags"] & PUBLIC


def uses_hidden(told, error):
    """The class that javac names is hidden; where it names the one that has the member, that of what it is a member of."""
    _, key, words, _ = error
    if key in ("not.def.public.cant.access", "doesnt.exist"):
        return is_hidden(told, words.split(", ")[0])
    inner = re.search(r"misc.not.def.access.class.intf.cant.access(?:.reason)?: .*?, ([\w.]+)", words)
    if not key.startswith("not.def.access.class") and inner is None:
        return False
    if is_hidden(told, inner[1] if inner else words.split(", ")[-1]):
        return True
    typing = told.typing(told.part(error))
    kind = typing.receiver(typing.tree) if typing.tree[0] in ("Call", "Field", "SetField") else None
    return kind is not None and is_hidden(told, kind.strip("[L;"))


def is_abstract_of_face(told, error):
    _, key, words, _ = error
    return key == "abstract.cant.be.accessed.directly" and told.unit["world"].classes.get(words.split(", ")[-1], {"flags": 0})["flags"] & INTERFACE != 0


def is_behind_interface(told, error):
    matched = re.match(r"(\w+), \(compiler.misc.(redundant.supertype|overridden.default)", error[2])
    return error[1] == "illegal.default.super.call" and matched is not None and matched[1] in told.unit["interfaces"]


def is_of_generic(told, error):
    """Two class objects of different classes are compared, or a class of Java's library takes no other object than its own."""
    _, key, words, _ = error
    if key == "incomparable.types":
        return re.fullmatch(r"java.lang.Class<.*>, java.lang.Class<.*>", words) is not None
    return key == "cant.apply.symbol" and re.match(r"kindname.method, compareTo, (java[\w.]+), .*, kindname.class, \1, ", words) is not None


def is_in_circle(told, error):
    return error[1] == "recursive.ctor.invocation"


def is_behind_shade(told, error):
    package, _, name = SHADED.partition("/")
    return error[1] == "cant.resolve.location" and re.fullmatch(rf"kindname.(class|variable), {name}, .*java.lang.{package}, null\)", error[2]) is not None


LOOSER = [
    (sets_own_final, "a final field is assigned anywhere in its own class"),
    (uses_hidden, "whether a class may be used isn't looked at, and of a member's class the package alone"),
    (is_abstract_of_face, "interfaces are searched depth first, and not for the most specific method (JLS 8.4.8)"),
    (is_behind_interface, "behind the name of an interface the class has only to list it (JLS 15.12.1, 15.12.3)"),
    (is_of_generic, "types are erased: those of Java's library that are generic are compared as their erasures"),
    (is_in_circle, "whether constructors call each other in a circle is no rule on one body (JLS 8.8.7)"),
    (is_behind_shade, "a name is taken for a package where no class that is there has it"),
]


def holds_untyped(told, place):
    """Whether a variable is named here whose class javac takes none from, so that it has no type for javac."""
    typing = told.typing(place)
    names = [each[1] for each in trees_in(typing.tree) if isinstance(each, tuple) and each[:1] in (("Var",), ("Set",), ("Assign",))]
    classes = [typing.scope.get(name, "").strip("[L;") for name in names]
    return any(one == SHADED or is_hidden(told, one) for one in classes)
