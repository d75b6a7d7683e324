"""Compares which rules of flow bodies break with what javac finds in them, on random bodies.

usage: python3 checks/flows.py PROGRAM [BODIES [SEED]], with the built runs_check as PROGRAM.
Units of random methods, half of which are changed (`flow_bodies.py`), BODIES in all (100,000), are spelled as the printer spells
them (`unit_texts.py`) and given to javac, whose errors are told apart by their lines. The program has the classes with other
bodies, which javac compiles, and the units. A body is accepted by both or by neither; where it is refused, the first statement
at which javac finds something is the one where the program does, and javac has an error of that kind there. What differs for a
reason that is known (`explained`) is counted. The exit status is 1 where something else differs.
"""
import sys
from flow_bodies import LEAVES, all_lists, flow_unit, is_below, lists_in, may_throw, trees_in, truths
from javac_verdicts import METHODS, compare, plain_text, thrown_by

KINDS = {"unreachable.stmt": "Reach", "missing.ret.stmt": "Reach", "except.already.caught": "Reach", "var.might.not.have.been.initialized": "Assigned",
         "unreported.exception.need.to.catch.or.throw": "Thrown", "except.never.thrown.in.try": "Catch"}


def placed(lines, errors):
    """The place of the statement and the kind of each error."""
    return [(0 if key == "missing.ret.stmt" else lines.at[line], KINDS[key]) for line, key, *_ in errors]


def agrees(lines, verdict, errors):
    """Whether the program finds first what javac does."""
    if verdict is None or not errors:
        return verdict is None and not errors
    found = placed(lines, errors)
    return min(found)[0] == lines.statement_at(verdict[0]) and (min(found)[0], verdict[1]) in found


def holds_above(one, clause, thrown):
    """Whether the list of a `try` may throw a class above the checked one that a clause takes."""
    return any(is_below(clause[0], name) and name != clause[0] for name in may_throw(one[1], thrown))


def is_held_above(lines, error, thrown):
    """Whether javac has a catch variable throw its clause's own class where the list of the `try` throws one above that."""
    line, key, words, _ = error
    held = lines.throws.get(line)
    return KINDS[key] == "Thrown" and held is not None and held[1][0] == words.replace(".", "/") and holds_above(*held, thrown)


def is_caught_above(lines, verdict, thrown):
    """Whether a clause takes what javac has such a variable throw in the list of its `try`."""
    inner = [each for each in trees_in(lines.tries.get(verdict[0], ((), ()))[1])]
    return verdict[1] == "Catch" and any(one is each for one, clause in lines.throws.values() if holds_above(one, clause, thrown) for each in inner)


def sets(variable, tree):
    """Whether a variable is assigned."""
    return any(isinstance(each, tuple) and each[:2] == ("Set", variable) for each in trees_in(tree))


def never(own, truth, test):
    """Whether what is constant in a test says that it never comes out so."""
    word, *parts = test
    if test in truths(own, not truth):
        return True
    if word == "Not":
        return never(own, not truth, parts[0])
    if word == "Choice":
        return all(never(own, way, parts[0]) or never(own, truth, part) for way, part in ((True, parts[1]), (False, parts[2])))
    if word == "Binary" and parts[0] in ("&&", "||"):
        return (any if truth == (parts[0] == "&&") else all)(never(own, truth, part) for part in parts[1:])
    return False


def reached(own, tree):
    """A tree without what stands behind statements that don't complete, or where a test never leads."""
    if isinstance(tree, list):
        ends = [at for at, one in enumerate(tree) if isinstance(one, tuple) and one[0] in list(LEAVES)]
        return [reached(own, part) for part in (tree[:ends[0] + 1] if ends else tree)]
    if not isinstance(tree, tuple):
        return tree
    if tree[:1] in (("If",), ("While",), ("For",)):
        gone = [part for part, way in zip(lists_in(tree), (True, False)) if never(own, way, tree[1])]
        tree = tuple([] if any(part is one for one in gone) else part for part in tree)
    return tuple(reached(own, part) for part in tree)


def is_set_in_vain(lines, own, verdict):
    """Whether the program has a catch variable throw its clause's class since it is assigned, where control never comes."""
    line = max(start for start in lines.starts if start[0] <= verdict[0])[1]
    if verdict[1] != "Thrown" or line not in lines.throws:
        return False
    variable, body = lines.throws[line][1][1:]
    return sets(variable, body) and not sets(variable, reached(own, body))


def is_step(lines, verdict, errors):
    """Whether the program finds a variable in the step of a `for` which javac finds in its body, and tells of once."""
    line = max(start for start in lines.starts if start[0] <= verdict[0])[1]
    if verdict[1] != "Assigned" or line not in lines.steps:
        return False
    step, last = lines.steps[line]
    return any(line < at <= last and KINDS[key] == "Assigned" and ("Var", words) in trees_in(step) for at, key, words, _ in errors)


def is_hidden(lines, verdict):
    """Whether a clause takes what a `finally` hides that ends behind a statement that can't be reached."""
    lasts = [each[2] for each in trees_in(lines.tries.get(verdict[0], ())) if isinstance(each, tuple) and each[:1] == ("Finally",)]
    return verdict[1] == "Catch" and any(one[0] in LEAVES for last in lasts for made in all_lists(last) for one in made[:-1])


def explained(lines, own, verdict, errors, thrown):
    """Why the verdict is another than javac's, or None."""
    rest = [error for error in errors if not is_held_above(lines, error, thrown)]
    if rest != errors and agrees(lines, verdict, rest) or verdict and is_caught_above(lines, verdict, thrown):
        return "a catch variable of a class below what its list throws throws nothing (JLS 11.2.2), and for javac that class"
    if verdict and is_set_in_vain(lines, own, verdict):
        return "a catch variable is assigned (JLS 4.12.4), and for javac it isn't where control never comes"
    if verdict and is_step(lines, verdict, errors):
        return "the step of a for stands before its body, and javac tells of a variable once, in the body"
    unreached = any(key == "unreachable.stmt" for _, key, *_ in errors)
    if verdict and unreached and ((lines.statement_at(verdict[0]), verdict[1]) in placed(lines, errors) or is_hidden(lines, verdict)):
        return "javac goes on behind a statement that can't be reached as if it could, and finds more or less before"
    return None


def made(rng, count):
    """So many units of random bodies, and the texts of their classes."""
    units = [flow_unit(rng, f"C{number}", METHODS) for number in range(count)]
    return units, {unit["name"]: plain_text(unit) for unit in units}


def judge(unit, method, lines, verdict, errors):
    """The kind that javac finds first, whether the program agrees, and else why not."""
    if not all(key in KINDS for _, key, *_ in errors):
        return "of no known kind", False, None
    first = min(placed(lines, errors))[1] if errors else None
    if agrees(lines, verdict, errors):
        return first, True, None
    return first, False, explained(lines, unit["name"], verdict, errors, thrown_by(unit))


if __name__ == "__main__":
    sys.exit(compare(sys.argv[1:], made, judge))
