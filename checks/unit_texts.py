"""The text of a unit, written from the rules of the text and from nothing else.

Trees are tuples of a word and parts, as `random_units.py` makes them. A class's name has slashes, a type is a descriptor,
a variable is its name.
"""

MODIFIERS = [("public", 0x0001), ("protected", 0x0004), ("private", 0x0002), ("abstract", 0x0400), ("static", 0x0008), ("final", 0x0010),
             ("synchronized", 0x0020), ("native", 0x0100), ("transient", 0x0080), ("volatile", 0x0040)]
PRIMITIVES = {"Z": "boolean", "B": "byte", "C": "char", "S": "short", "I": "int", "J": "long", "F": "float", "D": "double", "V": "void"}
ATOMS = {"Text", "Bool", "Null", "This", "Var", "ClassOf", "Field", "Static", "Element", "Call", "StaticCall", "SuperCall"}
ESCAPES = {8: "\\b", 9: "\\t", 10: "\\n", 12: "\\f", 13: "\\r", 34: '\\"', 92: "\\\\"}

def type_text(kind):
    pairs = len(kind) - len(kind.lstrip("["))
    element = kind[pairs:]
    return PRIMITIVES.get(element, element[1:-1].replace("/", ".")) + "[]" * pairs


def quoted(units):
    return '"' + "".join(ESCAPES.get(unit) or (chr(unit) if 32 <= unit <= 126 else f"\\u{unit:04x}") for unit in units) + '"'


def is_number(exp):
    return exp[0] in ("Int", "Long")


def is_atom(exp):
    return exp[0] in ATOMS or is_number(exp) and exp[1] >= 0


def operand(exp, bare=True):
    return expression(exp) if bare and is_atom(exp) else f"({expression(exp)})"


def receiver(exp):
    return operand(exp, exp[0] != "Static")


def arguments(exps):
    return "(" + ", ".join(map(expression, exps)) + ")"


def expression(exp):
    word, *parts = exp
    if word in ("Int", "Long"):
        return f"{parts[0]}" + "L" * (word == "Long")
    if word == "Text":
        return quoted(parts[0])
    if word in ("Bool", "Null", "This"):
        return {"Bool": str(parts[:1] == [True]).lower(), "Null": "null", "This": "this"}[word]
    if word == "Var":
        return parts[0]
    if word == "ClassOf":
        return type_text(parts[0]) + ".class"
    if word == "Field":
        return f"{receiver(parts[0])}.{parts[1]}"
    if word == "Static":
        return f"{parts[0].replace('/', '.')}.{parts[1]}"
    if word == "Element":
        return f"{operand(parts[0])}[{expression(parts[1])}]"
    if word == "Call":
        return f"{receiver(parts[0])}.{parts[1]}{arguments(parts[2])}"
    if word == "StaticCall":
        return f"{parts[0].replace('/', '.')}.{parts[1]}{arguments(parts[2])}"
    if word == "SuperCall":
        above = "" if parts[0] is None else parts[0].replace("/", ".") + "."
        return f"{above}super.{parts[1]}{arguments(parts[2])}"
    if word == "New":
        return f"new {parts[0].replace('/', '.')}{arguments(parts[1])}"
    if word == "NewArray":
        return f"new {type_text(parts[0])}" + "".join(f"[{expression(size)}]" for size in parts[1]) + "[]" * parts[2]
    if word == "Cast":
        return f"({type_text(parts[0])}) {operand(parts[1])}"
    if word == "InstanceOf":
        return f"{operand(parts[0])} instanceof {type_text(parts[1])}"
    if word == "Negative":
        return "-" + operand(parts[0], not is_number(parts[0]))
    if word == "Not":
        return "!" + operand(parts[0])
    if word == "Binary":
        return f"{operand(parts[1])} {parts[0]} {operand(parts[2])}"
    if word == "Choice":
        return f"{operand(parts[0])} ? {operand(parts[1])} : {operand(parts[2])}"
    assert word == "Assign", word
    return f"{parts[0]} = {expression(parts[1])}"


def indented(depth):
    return "    " * min(depth, 20)


def braced(statements, depth):
    inner = "".join(f"{indented(depth + 1)}{statement(one, depth + 1)}\n" for one in statements)
    return "{\n" + inner + indented(depth) + "}"


def statement(stm, depth):
    """A statement from its first word on; its further lines stand at this level."""
    word, *parts = stm
    if word == "Block":
        return braced(parts[0], depth)
    if word == "Labelled":
        return f"l{parts[0]}: {statement(parts[1], depth)}"
    if word == "Declare":
        return f"{type_text(parts[1])} {parts[0]}" + ("" if parts[2] is None else f" = {expression(parts[2])}") + ";"
    if word == "Set":
        return f"{parts[0]} = {expression(parts[1])};"
    if word in ("SetField", "SetStatic", "SetElement"):
        return f"{expression((word[3:], *parts[:2]))} = {expression(parts[2])};"
    if word == "Run":
        return f"{expression(parts[0])};"
    if word == "If":
        return f"if ({expression(parts[0])}) {braced(parts[1], depth)}" + (f" else {braced(parts[2], depth)}" if parts[2] else "")
    if word in ("While", "Synchronized"):
        return f"{word.lower()} ({expression(parts[0])}) {braced(parts[1], depth)}"
    if word == "Switch":
        return f"switch ({expression(parts[0])}) {{\n{''.join(group(one, depth + 1) for one in parts[1])}{indented(depth)}}}"
    if word in ("Break", "Continue"):
        return f"{word.lower()} l{parts[0]};"
    if word == "Return":
        return "return;" if parts[0] is None else f"return {expression(parts[0])};"
    if word == "Throw":
        return f"throw {expression(parts[0])};"
    if word == "Rethrow":
        return f"throw {parts[1].replace('/', '.')}.<java.lang.RuntimeException>{parts[2]}({parts[0]});"
    if word == "Try":
        return f"try {braced(parts[0], depth)}" + "".join(f" catch ({name.replace('/', '.')} {variable}) {braced(body, depth)}" for name, variable, body in parts[1])
    if word == "Construct":
        return ("this" if parts[0] else "super") + arguments(parts[1]) + ";"
    if word == "Do":
        return f"do {braced(parts[0], depth)} while ({expression(parts[1])});"
    if word == "For":
        return f"for (; {expression(parts[0])}; {parts[1]} = {expression(parts[2])}) {braced(parts[3], depth)}"
    assert word == "Finally", word
    return f"try {braced(parts[0], depth)} finally {braced(parts[1], depth)}"


def group(one, depth):
    labels, body = one
    heads = "".join(indented(depth) + ("default:\n" if label is None else f"case {label}:\n") for label in labels)
    return heads + "".join(f"{indented(depth + 1)}{statement(each, depth + 1)}\n" for each in body)


def shown_modifiers(flags, unit, kind, extra):
    """The modifiers of a class, field or method that its text shows, in order."""
    interface, hidden = unit["flags"] & 0x200, set()
    if interface:
        hidden = {word for word, _ in MODIFIERS} - ({"public"} if kind == "class" else {"static"})
    if kind != "method":
        hidden |= {"synchronized", "native"}
    if kind != "field":
        hidden |= {"transient", "volatile"}
    if kind == "field" and extra["value"] is None:
        hidden.add("final")
    words = [word for word, bit in MODIFIERS if flags & bit and word not in hidden]
    if kind == "method" and interface and extra["body"] is not None and not flags & 0x0008:
        words.append("default")
    return words


def listed(word, names):
    return f" {word} " + ", ".join(name.replace("/", ".") for name in names) if names else ""


def method_text(unit, method):
    body = ";" if method["body"] is None else " " + braced(method["body"], 1)
    if method["name"] == "<clinit>":
        return "static" + body
    words = shown_modifiers(method["flags"], unit, "method", method)
    words += [unit["name"]] if method["name"] == "<init>" else [type_text(method["result"]), method["name"]]
    parameters = ", ".join(f"{type_text(kind)} p{n}" for n, kind in enumerate(method["parameters"]))
    return f"{' '.join(words)}({parameters}){listed('throws', method['thrown'])}{body}"


def text(unit):
    interface = unit["flags"] & 0x200
    head = f"package {unit['package'].replace('/', '.')};\n" if unit["package"] else ""
    words = shown_modifiers(unit["flags"], unit, "class", unit) + ["interface" if interface else "class", unit["name"]]
    above = listed("extends", [unit["superclass"]] if unit["superclass"] else []) + listed("extends" if interface else "implements", unit["interfaces"])
    lines = []
    for field in unit["fields"]:
        value = "" if field["value"] is None else f" = {expression(field['value'])}"
        lines.append(" ".join([*shown_modifiers(field["flags"], unit, "field", field), type_text(field["kind"]), field["name"]]) + value + ";")
    if unit["helper"]:
        lines += [f"static <T extends java.lang.Throwable> java.lang.RuntimeException {unit['helper']}(java.lang.Throwable t) throws T {{\n        throw (T) t;\n    }}"]
    lines += [method_text(unit, method) for method in unit["methods"]]
    return f"{head}{' '.join(words)}{above} {{\n" + "".join(f"    {line}\n" for line in lines) + "}\n"
