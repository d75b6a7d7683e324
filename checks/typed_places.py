"""What stands at the places of a body: its statements and expressions with the variables in scope, their types, and which of them javac names."""
from unittest import mock
import unit_texts
from flow_bodies import lists_in, trees_in
from javac_verdicts import weight
from random_bodies import OBJECT, TEXT
from typed_worlds import FINAL, PRIMITIVES, PRIVATE, PROTECTED, PUBLIC, named

CONSTANTS = {"Int", "Long", "Bool", "Text", "Static", "Cast", "Negative", "Not", "Binary", "Choice"}
WIDER = {"B": "SIJFD", "S": "IJFD", "C": "IJFD", "I": "JFD", "J": "FD"}
# Which parts of a statement with lists of statements are its own expressions, right behind it.
OWN = {"Block": [], "If": [0], "While": [0], "Synchronized": [0], "Do": [], "For": [0, 2], "Finally": [], "Switch": [0], "Try": [], "Labelled": []}
UNKNOWN, CORE = "?", {"equals": "Z", "more": "Z", "hashCode": "I", "compareTo": "I", "toString": TEXT, "clone": OBJECT}


# ---- statements and expressions

def expressions_in(tree, scope):
    """Each expression within this one, itself first, with the variables in scope."""
    yield tree, scope
    for part in tree[1:]:
        for each in part if isinstance(part, list) else [part]:
            if isinstance(each, tuple):
                yield from expressions_in(each, scope)


def items(statements, scope):
    """The statements and expressions of a list in the order of their places, each with the variables in scope."""
    for one in statements:
        yield from items_of(one, scope)
        if one[0] == "Declare":
            scope[one[1]] = one[2]


def items_of(one, scope):
    word, *parts = one
    yield one, {**scope, parts[0]: parts[1]} if word == "Declare" else dict(scope)
    if word == "Labelled":
        yield from items_of(parts[1], scope)
    elif word == "Try":
        yield from items(parts[0], dict(scope))
        for name, variable, body in parts[1]:
            yield from items(body, {**scope, variable: named(name)})
    elif word == "Switch":
        yield from expressions_in(parts[0], dict(scope))
        inner = dict(scope)
        for _, body in parts[1]:
            yield from items(body, inner)
    else:
        bodies = [id(body) for body in lists_in(one)]
        for part in parts:
            if isinstance(part, tuple):
                yield from expressions_in(part, {**scope, parts[0]: parts[1]} if word == "Declare" else dict(scope))
            elif isinstance(part, list) and id(part) in bodies:
                yield from items(part, dict(scope))
            elif isinstance(part, list):
                for each in part:
                    yield from expressions_in(each, dict(scope))


class Told:
    """A body, with what stands at each of its places, and the lines of its text, in which a mark stands where an expression begins and another where it ends."""

    def __init__(self, unit, method, lines):
        self.unit, self.method, self.lines = unit, method, lines
        self.items = list(items(method["body"], {f"p{n}": kind for n, kind in enumerate(method["parameters"])})) or [(("None",), {})]
        plain = unit_texts.expression
        with mock.patch.object(unit_texts, "expression", lambda exp: f"\1{plain(exp)}\2"):
            self.marked = unit_texts.method_text(unit, method).split("\n")

    def typing(self, place):
        return Typing(self.unit, self.method, *(self.items[place] if place < len(self.items) else (("None",), {})))

    def part(self, error):
        """The place of what javac names: of the innermost expression around its column, or else of the statement."""
        line, key, _, column = error
        starts = [place for place, at in self.lines.starts if at == line]
        if key == "missing.ret.stmt" or not starts:
            return 0 if key == "missing.ret.stmt" else self.lines.at[line]
        inner = innermost(self.marked[line - self.lines.starts[0][1]], column)
        first = 0 if line in self.lines.tests.values() or self.items[max(starts)][0][0] in ("SetField", "SetStatic", "SetElement") else 1
        return max(starts) if inner is None else max(starts) + first + inner

    def is_at(self, one, error):
        """Whether an error stands at the position of a statement on its line: that of the name that is declared, or where it begins."""
        text = self.marked[error[0] - self.lines.starts[0][1]].replace("\1", "").replace("\2", "")
        return error[3] == len(text) - len(text.lstrip()) + 1 + (len(unit_texts.type_text(one[2])) + 1 if one[0] == "Declare" else 0)

    def is_within(self, place, inner):
        """Whether a place is that of an expression or statement, or of an expression in it."""
        word, *parts = self.items[place][0] if place < len(self.items) else ("None",)
        return place <= inner <= place + sum(map(weight, [parts[at] for at in OWN[word]] if word in OWN else parts))

    def around(self, place):
        """The trees at a place and right around it."""
        uppers = [at for at in range(place) if self.is_within(at, place)]
        return [self.items[at] for at in [*uppers[-1:], place] if at < len(self.items)]


def innermost(marked, column):
    """Which of the expressions on a marked line is the innermost one around a column, or None."""
    around, count = [], 0
    for mark in marked:
        if mark == "\1":
            around.append(count)
            count += 1
        elif mark == "\2":
            around.pop()
        else:
            column -= 1
            if column == 0:
                break
    return around[-1] if around else None


class Typing:
    """The types of expressions, where they have one: None is that of null, and what isn't known is UNKNOWN."""

    def __init__(self, unit, method, tree, scope):
        self.unit, self.world, self.own, self.result = unit, unit["world"], unit["name"], method["result"]
        self.tree, self.scope = tree, scope

    def fields(self, owner, name):
        """The fields of this name that a class has, its own or those that it inherits."""
        one = self.world.classes.get(owner, {"fields": [], "superclass": None, "interfaces": []})
        own = [{**each, "owner": owner} for each in one["fields"] if each["name"] == name]
        uppers = [(upper, each) for upper in [one["superclass"], *one["interfaces"]] if upper for each in self.fields(upper, name)]
        return own or [each for upper, each in uppers if not each["flags"] & PRIVATE and (each["flags"] & (PUBLIC | PROTECTED) or "/" not in upper)]

    def field(self, kind, name):
        return (self.fields(kind[1:-1], name) or [{"kind": UNKNOWN, "flags": 0, "owner": None, "value": None}])[0]

    def goes(self, kind, to):
        """Whether an expression of this type goes to that one."""
        if kind in PRIMITIVES or to in PRIMITIVES or kind is None:
            return kind == to or to in WIDER.get(kind, "") if kind is not None else to not in PRIMITIVES
        if to == OBJECT or kind == to or kind[0] == "[" and to[1:-1] in ("java/lang/Cloneable", "java/io/Serializable"):
            return True
        if kind[0] == to[0] == "[":
            return kind[1] in "L[" and to[1] in "L[" and self.goes(kind[1:], to[1:])
        return kind[0] == "L" and to[1:-1] in [*self.world.above(kind[1:-1]), *("java/lang/Comparable", "java/io/Serializable") * (kind == TEXT)]

    def named(self, kind, name, count):
        """The methods of this name and so many parameters, of a class and those above it, each once."""
        found = {}
        for upper in self.world.above(kind[1:-1]) if kind and kind[0] == "L" else []:
            for one in self.world.classes.get(upper, {"methods": []})["methods"]:
                if one["name"] == name and len(one["parameters"]) == count and self.world.may_use(kind[1:-1], upper, one["flags"]):
                    found.setdefault(tuple(one["parameters"]), one)
            if name == "<init>":
                break
        return list(found.values())

    def candidates(self, tree):
        """The methods that a call may mean by its name and how many arguments it has."""
        word, *parts = tree
        if word in ("New", "Construct"):
            above = self.world.classes[self.own]["superclass"] or "java/lang/Object"
            return self.named(named(parts[0] if word == "New" else self.own if parts[0] else above), "<init>", len(parts[1]))
        return self.named(self.receiver(tree), parts[1], len(parts[2]))

    def receiver(self, tree):
        """The type by which a method or field is named."""
        word, *parts = tree
        if word in ("Call", "Field", "SetField"):
            return self.of(parts[0])
        return named(parts[0] or self.world.classes[self.own]["superclass"] or "java/lang/Object")

    def called(self, tree):
        """The type of a call."""
        _, _, name, given = tree
        if name in CORE:
            return CORE[name]
        kinds, held = tuple(map(self.of, given)), self.candidates(tree)
        if UNKNOWN not in kinds:
            fit = [one for one in held if all(map(self.goes, kinds, one["parameters"]))]
            best = [one for one in fit if all(all(map(self.goes, one["parameters"], other["parameters"])) for other in fit)]
            return best[0]["result"] if best else UNKNOWN
        results = {one["result"] for one in held}
        return results.pop() if len(results) == 1 else UNKNOWN

    def of(self, exp):
        word, *parts = exp
        plain = {"Int": "I", "Long": "J", "Bool": "Z", "Text": TEXT, "Null": None, "This": named(self.own), "InstanceOf": "Z", "Not": "Z", "ClassOf": "Ljava/lang/Class;"}
        if word in plain:
            return plain[word]
        if word in ("Var", "Assign"):
            return self.scope.get(parts[0], UNKNOWN)
        if word == "Cast":
            return parts[0]
        if word == "New":
            return named(parts[0])
        if word == "NewArray":
            return "[" * (len(parts[1]) + parts[2]) + parts[0]
        if word == "Static":
            return self.field(named(parts[0]), parts[1])["kind"]
        if word == "Field":
            above = self.of(parts[0])
            return UNKNOWN if above in (None, UNKNOWN) else "I" if above[0] == "[" else self.field(above, parts[1])["kind"]
        if word == "Element":
            return (self.of(parts[0]) or "")[1:] or UNKNOWN
        if word in ("Call", "StaticCall", "SuperCall"):
            above = self.receiver(exp)
            return above if above and above[0] == "[" and parts[1] == "clone" else self.called(exp)
        if word == "Choice":
            return self.of(parts[1]) or self.of(parts[2])
        kinds = [self.of(part) for part in parts if isinstance(part, tuple)]
        if word == "Binary" and parts[0] in ("<", "<=", ">", ">=", "==", "!=", "&&", "||") or kinds[0] == "Z":
            return "Z"
        return "J" if kinds[0] == "J" or kinds[-1] == "J" and parts[0] not in ("<<", ">>", ">>>") else "I"

    def target(self):
        """The type that a statement or expression here stores into."""
        word, *parts = self.tree
        if word in ("Declare", "Return"):
            return parts[1] if word == "Declare" else self.result
        if word in ("SetField", "SetStatic", "SetElement"):
            return self.of((word[3:], *parts[:2]))
        return self.scope.get(parts[1] if word == "For" else parts[0], UNKNOWN)

    def is_constant(self, exp):
        """Whether nothing but constants is in an expression."""
        statics = [self.field(named(each[1]), each[2]) for each in trees_in(exp) if isinstance(each, tuple) and each[:1] == ("Static",)]
        words = {each[0] for each in trees_in(exp) if isinstance(each, tuple)}
        return words <= CONSTANTS and all(one["flags"] & FINAL for one in statics if one["owner"])
