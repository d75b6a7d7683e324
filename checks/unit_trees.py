"""The unit that has a shape, the other way round than `unit_shapes.py`: as a tree of `unit_texts.py`, from the rules of the text alone."""
import re
from unit_texts import MODIFIERS, PRIMITIVES

PART = re.compile(r'"\S*"|[()]|[^\s()]+')
VARIABLE = re.compile(r"[pves]\d+")
LETTERS = {word: letter for letter, word in PRIMITIVES.items()}
BITS = dict(MODIFIERS)
LEAVES = {"true": ("Bool", True), "false": ("Bool", False), "null": ("Null",), "this": ("This",)}
ONE_OPERAND = {"neg": "Negative", "!": "Not"}
HEADED = {"while": "While", "synchronized": "Synchronized"}


def parts(shape):
    """The shape as lists of lists and words."""
    lists = [[]]
    for part in PART.findall(shape):
        if part == "(":
            lists.append([])
        elif part == ")":
            last = lists.pop()
            lists[-1].append(last)
        else:
            lists[-1].append(part)
    return lists[0][0]


def name(part):
    return part if isinstance(part, str) else f"{name(part[1])}/{part[2]}"


def optional(of, part):
    return None if part == "-" else of(part)


def kind(part):
    if isinstance(part, list) and part[0] == "array":
        return "[" + kind(part[1])
    return LETTERS.get(part if isinstance(part, str) else "") or f"L{name(part)};"


def is_class(part):
    """Whether what stands before a dot is the name of a class."""
    if isinstance(part, str):
        return part not in LEAVES and part != "super" and not VARIABLE.fullmatch(part)
    return part[0] == "." and part[2] not in ("class", "super") and is_class(part[1])


def units(quoted):
    return [int(one[2:], 16) if len(one) > 1 else ord(one) for one in re.findall(r"\\u....|.", quoted[1:-1])]


def expressions(several):
    return [expression(part) for part in several]


def call(function, arguments):
    _, before, called = function
    if before == "super":
        return "SuperCall", None, called, arguments
    if isinstance(before, list) and before[0] == "." and before[2] == "super":
        return "SuperCall", name(before[1]), called, arguments
    if is_class(before):
        return "StaticCall", name(before), called, arguments
    return "Call", expression(before), called, arguments


def member(before, named):
    if named == "class":
        return "ClassOf", kind(before)
    return ("Static", name(before), named) if is_class(before) else ("Field", expression(before), named)


def expression(part):
    if isinstance(part, str):
        return LEAVES.get(part) or ("Var", part)
    word, *rest = part
    if word == "paren":
        return expression(rest[0])
    if word in ("int", "long"):
        return word.title(), int(rest[0])
    if word == "text":
        return "Text", units(rest[0])
    if word == ".":
        return member(*rest)
    if word == "call":
        return call(rest[1], expressions(rest[2]))
    if word == "new":
        return "New", name(rest[0]), expressions(rest[1])
    if word == "newarray":
        element = kind(rest[0])
        return "NewArray", element.lstrip("["), expressions(rest[1]), element.count("[")
    if word == "cast":
        return "Cast", kind(rest[0]), expression(rest[1])
    if word == "instanceof":
        return "InstanceOf", expression(rest[0]), kind(rest[1])
    if word == "=":
        return "Assign", rest[0], expression(rest[1])
    if word in ONE_OPERAND:
        return ONE_OPERAND[word], expression(rest[0])
    if word in ("index", "?"):
        return {"index": "Element", "?": "Choice"}[word], *expressions(rest)
    return "Binary", word, *expressions(rest)


def block(part):
    return [statement(one) for one in part[1:]]


def run(part):
    """A statement that is an expression."""
    if part[0] == "=" and isinstance(part[1], str):
        return "Set", part[1], expression(part[2])
    if part[0] == "=":
        word, *place = expression(part[1])
        return "Set" + word, *place, expression(part[2])
    if part[0] == "call" and part[2] in ("this", "super"):
        return "Construct", part[2] == "this", expressions(part[3])
    return "Run", expression(part)


def throw(part):
    if part[0] == "call" and part[1]:
        return "Rethrow", part[3][0], name(part[2][1]), part[2][2]
    return "Throw", expression(part)


def groups(cases):
    """The groups of a switch: a case without statements is a label of the next one, unless it is the last."""
    made, labels = [], []
    for place, (_, label, *body) in enumerate(cases):
        labels.append(None if label == "default" else int(label[1]))
        if body or place == len(cases) - 1:
            made.append((labels, [statement(one) for one in body]))
            labels = []
    return made


def tried(body, catches, last):
    if last != "-":
        return "Finally", block(body), block(last)
    return "Try", block(body), [(name(variable[2]), variable[3], block(inner)) for _, variable, inner in catches]


def statement(part):
    word, *rest = part
    if word == "block":
        return "Block", block(part)
    if word == "label":
        return "Labelled", int(rest[0][1:]), statement(rest[1])
    if word == "var":
        return "Declare", rest[2], kind(rest[1]), optional(expression, rest[3])
    if word == "run":
        return run(rest[0])
    if word == "if":
        return "If", expression(rest[0]), block(rest[1]), optional(block, rest[2]) or []
    if word in HEADED:
        return HEADED[word], expression(rest[0]), block(rest[1])
    if word == "do":
        return "Do", block(rest[0]), expression(rest[1])
    if word == "for":
        return "For", expression(rest[1]), rest[2][0][1][1], expression(rest[2][0][1][2]), block(rest[3])
    if word == "switch":
        return "Switch", expression(rest[0]), groups(rest[1:])
    if word in ("break", "continue"):
        return word.title(), int(rest[0][1:])
    if word == "return":
        return "Return", optional(expression, rest[0])
    if word == "throw":
        return throw(rest[0])
    assert word == "try", word
    return tried(*rest[1:])


def bits(words):
    return sum(BITS[word] for word in words if word != "default")


def field(part, interface):
    _, words, type_part, named, value = part
    return {"flags": bits(words) | (0x0011 if interface else 0), "kind": kind(type_part), "name": named, "value": optional(expression, value)}


def method(part, interface):
    if part[0] == "static":
        return {"flags": 8, "name": "<clinit>", "parameters": [], "result": "V", "thrown": [], "body": block(part)}
    _, words, _, result, named, parameters, thrown, body = part
    implied = (0x0401 if body == "-" and "static" not in words else 0x0001) if interface else 0
    return {"flags": bits(words) | implied, "name": named, "parameters": [kind(one[2]) for one in parameters], "result": optional(kind, result) or "V",
            "thrown": [name(one) for one in thrown], "body": optional(block, body)}


def tree(shape):
    """The unit of a shape."""
    _, package, _, [declared] = parts(shape)
    word, words, named, superclass, interfaces, members = declared
    interface = word == "interface"
    helpers = [part[4] for part in members if part[0] == "method" and part[2]]
    return {"package": optional(name, package), "flags": bits(words) | (0x0600 if interface else 0), "name": named, "superclass": optional(name, superclass),
            "interfaces": [name(part) for part in interfaces], "helper": helpers[0] if helpers else None,
            "fields": [field(part, interface) for part in members if part[0] == "var"],
            "methods": [method(part, interface) for part in members if part[0] == "static" or part[0] == "method" and not part[2]]}
