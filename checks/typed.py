"""Compares which rules of types bodies break with what javac finds in them, on random bodies.

usage: python3 checks/typed.py PROGRAM [BODIES [SEED]], with the built runs_check as PROGRAM.
Units of random methods and constructors, each unit in a small random world of classes (`typed_worlds.py`), BODIES in all (100,000),
are spelled as the printer spells them and given to javac; every second body is changed so that it may break a rule of types
(`typed_changes.py`). javac is told to look at the flow of classes whose types are wrong, too, so that its errors of both are there.
The program has the classes and the units. A body is accepted by both or by neither; where it is refused, the first statement at
which javac finds something is the one where the program does, and javac has an error there that is of the program's kind (`RULES`).
What differs for a reason that is known (`explained`) is counted. The exit status is 1 where something else differs.
"""
import sys
import flows
from asking import rule_for
from javac_verdicts import METHODS, compare, plain_text, thrown_by
from typed_places import Told
from typed_reasons import CHOICE, LOOSER, as_reached, holds_untyped, is_around, is_constant_test, is_declared_again, is_found_twice, is_start, is_stricter
from typed_reasons import is_thrown_nowhere, is_typed_anyhow, throws_faultily
from typed_units import typed_unit

# The kinds that an error may be of, by its key and what its message names.
RULES = [(rf"^{key}", kinds) for key, kinds in [
    (r"(unreachable.stmt|missing.ret.stmt|except.already.caught|ret.outside.meth|initializer.must)", "Reach"),
    (r"var.might.not.have.been.initialized", "Assigned"), (r"unreported.exception", "Thrown"), (r"except.never.thrown.in.try", "Catch"),
    (r"(undef.label|not.loop.label|label.already.in.use)", "Label"),
    (r"cant.apply.symbol: kindname.method, rethrow", "WrongType"),
    (r"(cant.resolve.location.args|cant.resolve.args|cant.apply.symbols?|abstract.cant.be.instantiated|abstract.cant.be.accessed.directly|call.must.be.first|illegal.static.intf.meth.call|recursive.ctor)", "Call"),
    (r"not.def.access.class", "Access Call"), (r"illegal.default.super.call", "Name Call"),
    (r"ref.ambiguous: [\w.]+, kindname.(method|constructor)", "Call"), (r"ref.ambiguous", "Access"),
    (r"report.access: [\w.]+\(", "Call"), (r"report.access", "Access"),
    (r"non-static.cant.be.ref: kindname.method", "Call"), (r"non-static.cant.be.ref: kindname.variable, (this|super)", "Name"), (r"non-static.cant.be.ref", "Access"),
    (r"cant.resolve(.location)?: kindname.variable, ([pves]\d+|Nowhere|pack|super|this)\b", "Name"), (r"cant.resolve(.location)?: kindname.variable", "Access"),
    (r"(cant.resolve|doesnt.exist|already.defined|cant.ref.before.ctor.called|not.encl.class)", "Name"),
    (r"not.def.public.cant.access: pack.[HN]\w+, ", "Name"), (r"not.def.public.cant.access: \w+\(", "Call"), (r"not.def.public.cant.access", "Access"),
    (r"cant.assign.val", "Access"), (r"cant.deref: void", "WrongType"), (r"cant.deref", "Access Call"),
    (r"(prob.found.req|type.found.req|operator.cant.be.applied|incomparable.types|unexpected.type|array.req.but.found|void.not.allowed|duplicate|preview.feature|not.exhaustive.statement|constant.label)", "WrongType"),
]]


def kinds_of(lines, error):
    """The kinds that an error may be of, none where its key isn't known; a clause's class that isn't one of exceptions is told by its type."""
    line, key, words, _ = error
    return ["Catch"] if line in lines.clauses and key == "prob.found.req" else (rule_for(RULES, f"{key}: {words}") or "").split()


def placed(lines, errors):
    """The place of the statement of each error, with each kind that it may be of."""
    return [(0 if error[1] == "missing.ret.stmt" else lines.at[error[0]], kind) for error in errors for kind in kinds_of(lines, error)]


def agrees(lines, verdict, errors):
    """Whether the program finds first what javac does."""
    if verdict is None or not errors:
        return verdict is None and not errors
    found = placed(lines, errors)
    return min(found)[0] == lines.statement_at(verdict[0]) and (min(found)[0], verdict[1]) in found


def is_looser(told, lines, verdict, left, rest):
    """Whether the verdict is as it has to be without some of javac's errors: that of the rest, or a fault around what has no type for javac."""
    if agrees(lines, verdict, rest):
        return True
    if verdict is None or rest and min(placed(lines, rest))[0] < lines.statement_at(verdict[0]):
        return False
    return any(told.is_within(verdict[0], told.part(error)) for error in left) or holds_untyped(told, verdict[0])


def explained(unit, method, lines, verdict, errors):
    """Why the verdict is another than javac's, or None."""
    told = Told(unit, method, lines)
    errors, all_errors = as_reached(told, errors), errors
    if errors != all_errors and agrees(lines, verdict, errors):
        return "javac goes on behind a statement that can't be reached as if it could, and finds more or less before"
    for test, why in LOOSER:
        left = [error for error in errors if test(told, error)]
        if left and is_looser(told, lines, verdict, left, [error for error in errors if error not in left]):
            return why
    if verdict is None:
        return None
    found, (place, kind) = placed(lines, errors), verdict
    typing, own = told.typing(place), lines.statement_at(place)
    thrown = [error for error in errors if not is_thrown_nowhere(told, error, errors)]
    if thrown != errors and agrees(lines, verdict, thrown) or kind == "Catch" and min(found, default=(0,))[0] > own and throws_faultily(told, typing.tree, errors):
        return "a throw with a fault throws anything or nothing for javac, so that clauses around it take more or less"
    returned = [error for error in errors if error[1] != "missing.ret.stmt"]
    tests = [error[0] for error in returned if is_constant_test(told, error)]
    if tests and returned != errors and (agrees(lines, verdict, returned) or kind == "WrongType" and lines.tests.get(place) in tests):
        return "a constant test that is no boolean is constant all the same, and for javac it isn't, behind which a return is missing"
    if is_start(method, verdict) and (not found or any(key == "call.must.be.first.stmt.in.ctor" for _, key, *_ in errors) or not method["body"]):
        return "that a constructor begins with a call of another is a rule at place 0, and javac calls one itself, or tells of the call"
    if kind == "Assigned" and is_declared_again(typing, errors):
        return "a variable that is declared twice is one variable, and for javac two"
    if found and min(found)[0] < own:
        return flow_reason(unit, lines, verdict, errors)
    here = [error for error in errors if error[1] != "missing.ret.stmt" and lines.at[error[0]] == own]
    why = is_stricter(typing, kind)
    if why and (why == CHOICE or all(error[1].startswith("cant.assign.val") or error[1] in flows.KINDS or is_around(told, verdict, error) for error in here)):
        return why
    if kind == "Reach" and typing.tree[0] == "Run" and any(told.is_at(typing.tree, error) for error in here):
        return "javac tells of one fault at one position, and a call that is a statement has that of its statement"
    if is_found_twice(typing, kind) and not here:
        return "a name by which a type inherits two fields is refused (JLS 15.11.1), and javac passes over one that may not be used"
    if typing.tree[0] == "Do" and kind == "WrongType" and any(line == lines.tests[place] for line, *_ in errors):
        return "the rule on the test of a do stands at the do, before its body"
    if is_typed_anyhow(told, place, here):
        return "javac tells nothing of what an expression with a fault is part of, and some have a type all the same"
    return flow_reason(unit, lines, verdict, errors)


def flow_reason(unit, lines, verdict, errors):
    """Why a verdict on flow is another, where javac finds faults of flow alone."""
    if all(key in flows.KINDS for _, key, *_ in errors):
        return flows.explained(lines, unit["name"], verdict, errors, thrown_by(unit))
    return None


def judge(unit, method, lines, verdict, errors):
    """The kind that javac finds first, whether the program agrees, and else why not."""
    if not all(kinds_of(lines, error) for error in errors):
        return "of no known kind", False, None
    first = min(placed(lines, errors))[1] if errors else None
    if agrees(lines, verdict, errors):
        return first, True, None
    return first, False, explained(unit, method, lines, verdict, errors)


def made(rng, count):
    """So many units of random bodies, and the texts of their classes."""
    units = [typed_unit(rng, number, METHODS) for number in range(count)]
    texts = {name: made for unit in units for name, made in unit["world"].texts().items()}
    return units, {**texts, **{unit["name"]: plain_text(unit) for unit in units}}


if __name__ == "__main__":
    sys.exit(compare(sys.argv[1:], made, judge))
