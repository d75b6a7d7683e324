"""Units of random bodies in which checked exceptions are thrown and caught and loops may be endless, and changes of bodies that may break a rule of flow.

The bodies are those of `random_bodies.py`, which javac takes; since none is run, none needs to end. Half of them are changed: a
change keeps names and types right, so that all that it can break are the rules on what can be reached, on what is assigned, and
on what is thrown. Lists of statements are changed where they stand, in a copy of the method.
"""
import copy
from random_bodies import CAUGHT, MADE, MORE, NARROW, OBJECT, BodyMaker, fields, fixed_methods, log, method

# Classes of exceptions that have files of their own, with their superclasses, which are told before them.
FILES = {"Ea": "java/lang/Exception", "Eb": "Ea", "Ec": "Ea", "Ed": "java/lang/Exception", "Er": "java/lang/RuntimeException", "Et": "java/lang/Throwable"}
# What has to be caught or declared; each class behind those that it is above. No class is above Throwable, which stands for all.
CHECKED = ["Eb", "Ec", "Ea", "Ed", "Et", "java/lang/Exception", "java/lang/Throwable"]
ALL_CAUGHT = ["Eb", "Ec", "Ea", "Ed", "Er", *CAUGHT[:-1], "Et", CAUGHT[-1]]
LEAVES, LOOPS = {"Return", "Throw", "Rethrow", "Break", "Continue"}, {"While", "Do", "For"}
LEAST, MOST = 5, 40


def is_below(lower, upper):
    """Whether a class of CHECKED is another or below it."""
    return lower == upper or lower in FILES and is_below(FILES[lower], upper) or lower == "java/lang/Exception" and upper == "java/lang/Throwable"


class FlowMaker(BodyMaker):
    """Makes a body that needn't end, with each `switch` on an int."""

    caught, thrown, switched = ALL_CAUGHT, [*MADE, *CHECKED, "Er"], ["I"]

    def always(self):
        """A test that is constant true."""
        return self.rng.choice(truths(self.own, True))

    def endless(self, make):
        return self.labelled(True, lambda label: (make(label), False))

    def while_stm(self, depth):
        if self.chance(0.7):
            return super().while_stm(depth)
        return self.endless(lambda label: ("While", self.always(), self.block(depth)[0]))

    def do_stm(self, depth):
        if self.chance(0.7):
            return super().do_stm(depth)
        return self.endless(lambda label: ("Do", self.block(depth)[0], self.always()))

    def throwing(self, names):
        made = []
        for name in names:
            if name in CHECKED[:5]:
                near = [one for one in CHECKED if is_below(one, name) or is_below(name, one)]
                made.append(("If", self.value("Z"), [("Throw", ("New", self.rng.choice([name, name, *near]), []))], []))
        return made


def truths(own, truth):
    """Tests that are constant and have this answer."""
    seven, known = ("Static", own, "K"), ("Bool", truth)
    return [known, known, known, ("Not", ("Bool", not truth)), ("Binary", "&&" if truth else "||", known, known), ("Choice", ("Bool", True), known, ("Bool", not truth)),
            ("Binary", ">" if truth else "<", seven, ("Int", 3)), ("Binary", "==", seven, ("Int", 7 if truth else 8)), ("Binary", "^", ("Bool", True), ("Bool", not truth)),
            ("Binary", "==" if truth else "!=", ("Text", [97]), ("Text", [97])), ("Binary", "==", ("Cast", "B", ("Int", 256)), ("Long", 0 if truth else 1)),
            ("Binary", "==", ("Negative", seven), ("Binary", "-", ("Int", 0 if truth else 1), seven))]


# ---- trees

def size(statements):
    """How many statements there are, inner ones too."""
    return sum(1 + (one[0] == "Labelled" and size([one[2]])) + sum(map(size, lists_in(one) if one[0] != "Labelled" else [])) for one in statements)


def lists_in(one):
    """The lists of statements of a statement, in order."""
    word, *parts = one
    if word == "Labelled":
        return lists_in(parts[1])
    if word == "Switch":
        return [body for _, body in parts[1]]
    if word == "Try":
        return [parts[0], *(body for _, _, body in parts[1])]
    places = {"Block": [0], "If": [1, 2], "While": [1], "Synchronized": [1], "Do": [0], "For": [3], "Finally": [0, 1]}
    return [parts[place] for place in places.get(word, [])]


def all_lists(statements):
    """Each list of statements, the whole one first."""
    yield statements
    for one in statements:
        for inner in lists_in(one):
            yield from all_lists(inner)


def bare(one):
    """A statement without its labels."""
    return bare(one[2]) if one[0] == "Labelled" else one


def relabelled(one, new):
    """A statement with its labels, and another behind them."""
    return ("Labelled", one[1], relabelled(one[2], new)) if one[0] == "Labelled" else new


def trees_in(tree):
    """Each tree within this one, itself first."""
    found, left = [], [tree]
    while left:
        if isinstance(one := left.pop(), (tuple, list)):
            found.append(one)
            left += one[::-1]
    return found


def spots(made, scope, labels):
    """Each place between statements: the list, where in it, the variables in scope, each with its type and where it is declared, and
    the labels around, each with whether it is a loop's. What the list declares is added to the scope."""
    for at, one in enumerate(made):
        yield made, at, dict(scope), labels
        yield from spots_in(one, scope, labels)
        if one[0] == "Declare":
            scope[one[1]] = one[2], (id(made), at)
    yield made, len(made), dict(scope), labels


def spots_in(one, scope, labels):
    word, *parts = one
    if word == "Labelled":
        yield from spots_in(parts[1], scope, {**labels, parts[0]: bare(parts[1])[0] in LOOPS})
        return
    own, clauses = dict(scope), {id(body): (variable, name) for name, variable, body in parts[1]} if word == "Try" else {}
    for body in lists_in(one):
        held = {variable: (f"L{name};", (id(body), -1)) for variable, name in [clauses[id(body)]]} if id(body) in clauses else {}
        yield from spots(body, own if word == "Switch" else {**scope, **held}, labels)


def may_throw(body, thrown):
    """Checked classes that a body may throw, or more, given what methods throw by their names."""
    variables = {}
    for tree in trees_in(body):
        if isinstance(tree, tuple) and len(tree) == 3 and isinstance(tree[1], str) and tree[1][0] == "e" and isinstance(tree[2], list):
            variables.setdefault(tree[1], []).append(tree[0])
    found = set()
    for tree in trees_in(body):
        if isinstance(tree, list) or not tree:
            continue
        if tree[0] in ("StaticCall", "Call"):
            found |= set(thrown.get(tree[2], []))
        elif tree[0] == "Construct" or tree[0] == "New" and tree[1] not in ALL_CAUGHT:
            found |= set(thrown.get("<init>", []))
        elif tree[0] == "Throw" and tree[1][0] == "New":
            found.add(tree[1][1])
        elif tree[0] == "Throw" and tree[1][0] == "Var":
            found |= set(variables.get(tree[1][1], []))
    return [name for name in CHECKED if name in found]


def plain(kind):
    """Some value of a type."""
    return {"I": ("Int", 1), "J": ("Long", 1), "Z": ("Bool", True)}.get(kind) or (("Null",) if kind[0] in "L[" else ("Cast", kind, ("Int", 1)))


# ---- changes

class Unchanged(Exception):
    """A change that can't be made of this body."""


class Changer:
    """Changes a method's body, or what it declares to throw."""

    def __init__(self, rng, own, changed):
        self.rng, self.own, self.method, self.body = rng, own, changed, changed["body"]

    def pick(self, found):
        found = list(found)
        if not found:
            raise Unchanged
        return self.rng.choice(found)

    def spots(self):
        return list(spots(self.body, {f"p{n}": (kind, None) for n, kind in enumerate(self.method["parameters"])}, {}))

    def slots(self, words):
        """Each statement that begins with one of these words, labels aside: its list and where it stands there."""
        return [(made, at) for made in all_lists(self.body) for at, one in enumerate(made) if bare(one)[0] in words]

    def slot(self, *words):
        """Such a statement, with its parts."""
        made, at = self.pick(self.slots(words))
        return made, at, bare(made[at])

    def fresh(self, letter):
        numbers = [int(tree[1:]) for each in trees_in(self.body) for tree in each if isinstance(tree, str) and tree[:1] == letter and tree[1:].isdigit()]
        return f"{letter}{max(numbers, default=-1) + 1}"

    def tests(self):
        """Each test: its list, where its statement stands, and which part of the statement it is."""
        return [(made, at, 2 if bare(made[at])[0] == "Do" else 1) for made, at in self.slots(LOOPS | {"If"})]

    def set_test(self, spot, new):
        made, at, part = spot
        one = bare(made[at])
        made[at] = relabelled(made[at], (*one[:part], new(one[part]), *one[part + 1:]))

    def some_test(self, held):
        """A test with what is constant in it, or a call."""
        either = ("Bool", self.rng.random() < 0.5)
        return self.rng.choice([MORE, ("Binary", self.rng.choice(["&&", "||"]), held, either), ("Binary", self.rng.choice(["&&", "||"]), either, held), ("Not", held),
                                ("Choice", held, either, ("Bool", self.rng.random() < 0.5)), ("Choice", either, held, ("Bool", self.rng.random() < 0.5))])

    def leaving(self, scope, labels):
        """A statement that doesn't complete."""
        words = [("Break", label) for label in labels] + [("Continue", label) for label, loops in labels.items() if loops]
        held = [("Throw", ("Var", name)) for name in scope if name[0] == "e"]
        back = ("Return", None if self.method["result"] == "V" else plain(self.method["result"]))
        return self.rng.choice([*words, *words, *held, back, back, ("Throw", ("New", self.rng.choice(FlowMaker.thrown), []))])

    # ---- statements that come, go and move

    def leave_earlier(self):
        made, at, scope, labels = self.pick(self.spots())
        made.insert(at, self.leaving(scope, labels))

    def leave_last(self):
        """What ends a list of a `finally`, a `switch` or a loop leaves it."""
        ends = [id(inner) for made in all_lists(self.body) for one in made if bare(one)[0] in {"Finally", "Switch", *LOOPS} for inner in lists_in(one)]
        made, at, scope, labels = self.pick(spot for spot in self.spots() if id(spot[0]) in ends and spot[1] == len(spot[0]))
        made.append(self.leaving(scope, labels))

    def go_on(self):
        """A statement that doesn't complete goes."""
        made, at, _ = self.slot(*LEAVES)
        del made[at]

    def fall_through(self):
        made = self.pick(body for each in all_lists(self.body) for one in each if bare(one)[0] == "Switch" for body in lists_in(one) if body and body[-1][0] in LEAVES)
        del made[-1]

    def drop_return(self):
        """The body's last statement goes."""
        if not self.body or self.body[-1][0] not in LEAVES:
            raise Unchanged
        del self.body[-1]

    def drop_statement(self):
        made, at = self.pick((made, at) for made in all_lists(self.body) for at, one in enumerate(made) if one[0] != "Declare")
        del made[at]

    def wrap(self):
        """A statement stands in another."""
        made, at = self.pick((made, at) for made in all_lists(self.body) for at, one in enumerate(made) if one[0] != "Declare")
        own, name = [made[at]], self.rng.choice(ALL_CAUGHT)
        back = ("Return", None if self.method["result"] == "V" else plain(self.method["result"]))
        variable = self.fresh("e")
        made[at] = self.rng.choice([
            ("Try", own, [(name, variable, self.rng.choice([[], [back], [("Throw", ("Var", variable))]]))]), ("Finally", own, self.rng.choice([[], [back], [log(("Int", 1))]])), ("Block", own),
            ("While", self.rng.choice([MORE, *truths(self.own, True)[:4]]), own), ("Do", own, self.rng.choice([MORE, ("Bool", False), ("Bool", True)])),
            ("If", self.rng.choice([MORE, ("Bool", False), ("Bool", True)]), own, [])])

    # ---- variables

    def drop_value(self):
        made, at, one = self.pick((made, at, made[at]) for made, at in self.slots({"Declare"}) if made[at][3] is not None)
        made[at] = (*one[:3], None)
        return made, at, one[1], one[2], one[3]

    def drop_set(self):
        made, at, _ = self.slot("Set")
        del made[at]

    def later(self, made, at, name):
        """Where the variable that is declared there is in scope."""
        return [spot for spot in self.spots() if spot[2].get(name, (None, None))[1] == (id(made), at)]

    def move_value(self):
        """What a variable is declared with is assigned later."""
        made, at, name, _, value = self.drop_value()
        found, place, _, _ = self.pick(self.later(made, at, name))
        found.insert(place, ("Set", name, value))

    def move_value_into_test(self):
        """What a variable is declared with is assigned in a test, mostly where that comes out one way."""
        made, at, name, kind, value = self.drop_value()
        within = {(id(found), place) for found, place, _, _ in self.later(made, at, name)}
        spot = self.pick(test for test in self.tests() if (id(test[0]), test[1]) in within)
        new = ("Assign", name, value)
        if kind != "Z":
            new = ("Binary", "==" if kind[0] in "L[" else ">", new, ("Null",) if kind[0] in "L[" else ("Int", 0))
        word, other = self.rng.choice(["&&", "||", "&", "=="]), self.rng.choice([("Bool", True), ("Bool", False), MORE])
        self.set_test(spot, lambda held: self.rng.choice([
            ("Binary", word, held, new), ("Binary", word, new, held), ("Not", ("Binary", word, held, new)), ("Choice", held, new, other), ("Choice", held, other, new), ("Choice", new, held, other)]))

    def read_earlier(self):
        """A variable is read, or assigned what it holds."""
        made, at, scope, _ = self.pick(spot for spot in self.spots() if spot[2])
        names = [name for name in scope if name[0] == "v"] or list(scope)
        name = self.rng.choice(names)
        if self.rng.random() < 0.5:
            place = scope[name][1]
            for found in all_lists(self.body):
                if place and id(found) == place[0] and place[1] >= 0:
                    found[place[1]] = (*found[place[1]][:3], None)
        made.insert(at, ("Set", name, ("Var", name)))

    # ---- tests and jumps

    def test_constant(self):
        self.set_test(self.pick(self.tests()), lambda held: self.rng.choice(truths(self.own, self.rng.random() < 0.6)))

    def test_other(self):
        self.set_test(self.pick(self.tests()), self.some_test)

    def jump_elsewhere(self):
        made, at, _, labels = self.pick((made, at, scope, labels) for made, at, scope, labels in self.spots() if at < len(made) and made[at][0] in ("Break", "Continue"))
        others = [("Break", label) for label in labels] + [("Continue", label) for label, loops in labels.items() if loops]
        made[at] = self.pick(jump for jump in others if jump != made[at])

    # ---- exceptions

    def throws(self):
        listed = self.method["thrown"]
        others = [[], [self.rng.choice(CHECKED)], self.rng.sample(CHECKED[:5], 2), [name for name in listed if name != "java/lang/Throwable"]]
        others += [listed[:at] + listed[at + 1:] for at in range(len(listed))] * 2
        others += [[*listed[:at], *(name for name in CHECKED if is_below(name, listed[at]) and name != listed[at]), *listed[at + 1:]] for at in range(len(listed))]
        self.method["thrown"] = self.pick(list(dict.fromkeys(each)) for each in others if each != listed)

    def throw_checked(self):
        """Something is thrown, or a method is called that may throw."""
        made, at, _, _ = self.pick(self.spots())
        new, value = ("Throw", ("New", self.rng.choice(CHECKED), [])), [("Int", 1)]
        calls = [("StaticCall", self.own, name, value) for name in ("id", "bad", "over")] + [("Call", ("New", self.own, []), name, value) for name in ("member", "secret")]
        made.insert(at, self.rng.choice([new, new, ("If", MORE, [new], []), ("If", MORE, [new], []), ("Run", self.rng.choice(calls))]))

    def catch_more(self):
        _, _, one = self.slot("Try")
        clauses, variable = one[2], self.fresh("e")
        held = ("Throw", ("Var", variable))
        body = self.rng.choice([[], [held], [log(("Var", variable))], [("Set", variable, ("Var", variable)), held], [("If", ("Bool", False), [("Set", variable, ("Var", variable))], []), held]])
        clauses.insert(self.rng.randrange(len(clauses) + 1), (self.rng.choice(ALL_CAUGHT), variable, body))

    def catch_other(self):
        """A clause takes another class."""
        _, _, one = self.slot("Try")
        at = self.rng.randrange(len(one[2]))
        one[2][at] = (self.rng.choice(ALL_CAUGHT), *one[2][at][1:])

    def catch_in_other_order(self):
        _, _, one = self.pick((made, at, bare(made[at])) for made, at in self.slots({"Try"}) if len(bare(made[at])[2]) > 1)
        self.rng.shuffle(one[2])

    def catch_less(self):
        _, _, one = self.pick((made, at, bare(made[at])) for made, at in self.slots({"Try"}) if len(bare(made[at])[2]) > 1)
        del one[2][self.rng.randrange(len(one[2]))]

    def throw_again(self):
        """A catch variable is thrown, and may be assigned on the way."""
        made, at, scope, _ = self.pick(spot for spot in self.spots() if any(name[0] == "e" for name in spot[2]))
        name = self.rng.choice([name for name in scope if name[0] == "e"])
        own = ("Set", name, ("Var", name))
        made[at:at] = self.rng.choice([[], [], [own], [("If", self.rng.choice([MORE, ("Bool", False)]), [own], [])]]) + [("Throw", ("Var", name))]


CHANGES = [Changer.leave_earlier, Changer.leave_last, Changer.go_on, Changer.fall_through, Changer.drop_return, Changer.drop_statement, Changer.wrap, Changer.drop_value,
           Changer.drop_set, Changer.move_value, Changer.move_value_into_test, Changer.read_earlier, Changer.test_constant, Changer.test_other, Changer.jump_elsewhere,
           Changer.throws, Changer.throw_checked, Changer.catch_more, Changer.catch_other, Changer.catch_in_other_order, Changer.catch_less, Changer.throw_again]


def is_printed(body):
    """Whether no group of a switch but the last is empty, whose labels would be those of the next one, and no int stands before a dot, which would be a part of it."""
    dotted = any(isinstance(tree, tuple) and tree[:1] in (("Call",), ("Field",), ("SetField",)) and tree[1][0] == "Int" for tree in trees_in(body))
    return not dotted and all(group for each in all_lists(body) for one in each if bare(one)[0] == "Switch" for group in lists_in(one)[:-1])


def change(rng, own, made, changer=Changer, changes=CHANGES, more=0.2):
    """The method with a change, and now and then with two, and the names of what was changed."""
    names = []
    while not names or rng.random() < more:
        changed, make = copy.deepcopy(made), rng.choice(changes)
        try:
            make(changer(rng, own, changed))
        except Unchanged:
            continue
        if is_printed(changed["body"]) and LEAST <= size(changed["body"]) <= MOST:
            made = changed
            names.append(make.__name__)
    return {**made, "changes": names}


# ---- units

def some_body(rng, own, callees, this, parameters, result):
    """A random body of so many statements as are wanted."""
    while True:
        body = FlowMaker(rng, own, callees, this).body(parameters, result)
        if LEAST <= size(body) <= MOST:
            return body


def declared(rng, needed):
    """What a method declares that throws this at most."""
    return ["java/lang/Throwable"] if rng.random() < 0.2 else list(dict.fromkeys(needed + ([rng.choice(CHECKED)] if rng.random() < 0.2 else [])))


def all_fixed(rng, own, thrown):
    """The methods that bodies call; what they throw is added by their names."""
    made = []
    for one in fixed_methods(own):
        listed = [rng.choice(CHECKED)] if rng.random() < (0.05 if one["name"] in ("<init>", "begin") else 0.3) else []
        if one["name"] != "compareTo":
            one = {**one, "thrown": list(dict.fromkeys(listed + may_throw(one["body"], thrown)))}
            thrown[one["name"]] = thrown.get(one["name"], []) + one["thrown"]
        made.append(one)
    return made


def flow_unit(rng, own, count):
    """A unit with so many random methods, t0 and on, half of which are changed."""
    thrown, callees = {}, {}
    methods = all_fixed(rng, own, thrown)
    for number in range(count):
        parameters = [rng.choice(["I", "I", "J", "Z", *NARROW]) for _ in range(rng.randrange(4))]
        result, static = rng.choice(["I", "I", "J", "Z", "V", "V", "[I", OBJECT]), rng.random() < 0.7
        body = some_body(rng, own, dict(callees), not static, parameters, result)
        made = {**method(f"t{number}", parameters, result, body, 8 if static else 0), "thrown": declared(rng, may_throw(body, thrown)), "changes": []}
        if number % 2:
            made = change(rng, own, made)
        methods.append(made)
        thrown[made["name"]] = made["thrown"]
        if static and len(callees) < 3:
            callees[made["name"]] = parameters, result
    return {"package": None, "flags": 0, "name": own, "superclass": None, "interfaces": ["java/lang/Comparable"],
            "fields": fields(own), "helper": "rethrow$0", "methods": methods}
