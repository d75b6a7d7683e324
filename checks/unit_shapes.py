"""The shape that javac gives to the text of a unit, in the form of `texts.py`, written from the rules of the text alone."""
from unit_texts import PRIMITIVES, expression, is_atom, is_number, shown_modifiers


def node(word, *parts):
    return "(" + " ".join([word, *parts]) + ")"


def together(parts):
    return "(" + " ".join(parts) + ")"


def name_shape(name):
    first, *rest = name.split("/")
    for segment in rest:
        first = node(".", first, segment)
    return first


def type_shape(kind):
    if kind[0] == "[":
        return node("array", type_shape(kind[1:]))
    return PRIMITIVES.get(kind) or name_shape(kind[1:-1])


def operand_shape(exp, bare=True):
    return expression_shape(exp) if bare and is_atom(exp) else node("paren", expression_shape(exp))


def receiver_shape(exp):
    return operand_shape(exp, exp[0] != "Static")


def call_shape(function, exps):
    return node("call", "()", function, together(map(expression_shape, exps)))


def expression_shape(exp):
    word, *parts = exp
    if word in ("Int", "Long"):
        return node(word.lower(), str(parts[0]))
    if word == "Text":
        return node("text", '"' + "".join(chr(unit) if 33 <= unit <= 126 and unit != 92 else f"\\u{unit:04x}" for unit in parts[0]) + '"')
    if word in ("Bool", "Null", "This", "Var"):
        return expression(exp)
    if word == "ClassOf":
        return node(".", type_shape(parts[0]), "class")
    if word == "Field":
        return node(".", receiver_shape(parts[0]), parts[1])
    if word == "Static":
        return node(".", name_shape(parts[0]), parts[1])
    if word == "Element":
        return node("index", operand_shape(parts[0]), expression_shape(parts[1]))
    if word == "Call":
        return call_shape(node(".", receiver_shape(parts[0]), parts[1]), parts[2])
    if word == "StaticCall":
        return call_shape(node(".", name_shape(parts[0]), parts[1]), parts[2])
    if word == "SuperCall":
        above = "super" if parts[0] is None else node(".", name_shape(parts[0]), "super")
        return call_shape(node(".", above, parts[1]), parts[2])
    if word == "New":
        return node("new", name_shape(parts[0]), together(map(expression_shape, parts[1])))
    if word == "NewArray":
        return node("newarray", type_shape("[" * parts[2] + parts[0]), together(map(expression_shape, parts[1])))
    if word == "Cast":
        return node("cast", type_shape(parts[0]), operand_shape(parts[1]))
    if word == "InstanceOf":
        return node("instanceof", operand_shape(parts[0]), type_shape(parts[1]))
    if word == "Negative":
        return node("neg", operand_shape(parts[0], not is_number(parts[0])))
    if word == "Not":
        return node("!", operand_shape(parts[0]))
    if word == "Binary":
        return node(parts[0], operand_shape(parts[1]), operand_shape(parts[2]))
    if word == "Choice":
        return node("?", *map(operand_shape, parts))
    return node("=", parts[0], expression_shape(parts[1]))


def block_shape(statements):
    return node("block", *map(statement_shape, statements))


def paren_shape(exp):
    return node("paren", expression_shape(exp))


def optional_shape(exp):
    return "-" if exp is None else expression_shape(exp)


def variable_shape(kind, name, value="-"):
    return node("var", "()", kind, name, value)


def statement_shape(stm):
    word, *parts = stm
    if word == "Block":
        return block_shape(parts[0])
    if word == "Labelled":
        return node("label", f"l{parts[0]}", statement_shape(parts[1]))
    if word == "Declare":
        return variable_shape(type_shape(parts[1]), parts[0], optional_shape(parts[2]))
    if word == "Set":
        return node("run", node("=", parts[0], expression_shape(parts[1])))
    if word in ("SetField", "SetStatic", "SetElement"):
        return node("run", node("=", expression_shape((word[3:], *parts[:2])), expression_shape(parts[2])))
    if word == "Run":
        return node("run", expression_shape(parts[0]))
    if word == "If":
        return node("if", paren_shape(parts[0]), block_shape(parts[1]), block_shape(parts[2]) if parts[2] else "-")
    if word in ("While", "Synchronized"):
        return node(word.lower(), paren_shape(parts[0]), block_shape(parts[1]))
    if word == "Switch":
        return node("switch", paren_shape(parts[0]), *(case for labels, body in parts[1] for case in case_shapes(labels, body)))
    if word in ("Break", "Continue"):
        return node(word.lower(), f"l{parts[0]}")
    if word == "Return":
        return node("return", optional_shape(parts[0]))
    if word == "Throw":
        return node("throw", expression_shape(parts[0]))
    if word == "Rethrow":
        function = node(".", name_shape(parts[1]), parts[2])
        return node("throw", node("call", together([name_shape("java/lang/RuntimeException")]), function, together([parts[0]])))
    if word == "Try":
        return node("try", "()", block_shape(parts[0]), together(node("catch", variable_shape(name_shape(name), variable), block_shape(body)) for name, variable, body in parts[1]), "-")
    if word == "Construct":
        return node("run", call_shape("this" if parts[0] else "super", parts[1]))
    if word == "Do":
        return node("do", block_shape(parts[0]), paren_shape(parts[1]))
    if word == "For":
        return node("for", "()", expression_shape(parts[0]), together([node("run", node("=", parts[1], expression_shape(parts[2])))]), block_shape(parts[3]))
    return node("try", "()", block_shape(parts[0]), "()", block_shape(parts[1]))


def case_shapes(labels, body):
    """A case for each label of a group; the last one has its statements."""
    words = ["default" if label is None else node("int", str(label)) for label in labels]
    return [node("case", word) for word in words[:-1]] + [node("case", words[-1], *map(statement_shape, body))]


def method_shape(unit, method):
    body = "-" if method["body"] is None else block_shape(method["body"])
    if method["name"] == "<clinit>":
        return node("static", *map(statement_shape, method["body"]))
    result = "-" if method["name"] == "<init>" else type_shape(method["result"])
    parameters = together(variable_shape(type_shape(kind), f"p{n}") for n, kind in enumerate(method["parameters"]))
    words = together(shown_modifiers(method["flags"], unit, "method", method))
    return node("method", words, "()", result, method["name"], parameters, together(map(name_shape, method["thrown"])), body)


def helper_shape(name):
    throwable = name_shape("java/lang/Throwable")
    return node("method", "(static)", together([node("type", "T", throwable)]), name_shape("java/lang/RuntimeException"), name,
                together([variable_shape(throwable, "t")]), "(T)", node("block", node("throw", node("cast", "T", "t"))))


def shape(unit):
    members = [node("var", together(shown_modifiers(field["flags"], unit, "field", field)), type_shape(field["kind"]), field["name"],
                    optional_shape(field["value"])) for field in unit["fields"]]
    members += [helper_shape(unit["helper"])] if unit["helper"] else []
    members += [method_shape(unit, method) for method in unit["methods"]]
    above = name_shape(unit["superclass"]) if unit["superclass"] else "-"
    kind = "interface" if unit["flags"] & 0x200 else "class"
    words = together(shown_modifiers(unit["flags"], unit, "class", unit))
    declared = node(kind, words, unit["name"], above, together(map(name_shape, unit["interfaces"])), together(members))
    return node("unit", name_shape(unit["package"]) if unit["package"] else "-", "()", together([declared]))
