"""Compares files_check with the JVM and javac on random families of classes.

usage: python3 checks/world.py PROGRAM [COUNT [SEED]], with the built files_check as PROGRAM.
Of each of COUNT families (2,000) of up to 12 classes and interfaces, with three callers, `Worlds.java` tells to which
method or field the JVM resolves a name and a descriptor, which types the JVM lets go where, and which method javac
chooses for a call. Where an answer differs, a rule named here must explain it; a difference without one is printed, and
the exit status is 1.
"""
import collections, pathlib, subprocess, sys, tempfile
from asking import ask_each, end, given
from class_families import ABOVE_ARRAYS, ABSTRACT, METHODS_OF_OBJECT, OBJECT, PROTECTED, STATIC, Family, parameters

FOLDER = pathlib.Path(__file__).parent
OPENED = ["--add-opens", "java.base/java.lang.invoke=ALL-UNNAMED", "-Xshare:auto"]
BATCH = 100


def questions(family):
    """What is asked of a family, in the words of files_check and in those of Worlds.java, and the call where it is one."""
    rng, asked = family.rng, []
    methods = [(method.name, method.descriptor) for one in family.classes for method in one.methods] + [method[1:] for method in METHODS_OF_OBJECT]
    fields = [(field.name, field.descriptor) for one in family.classes for field in one.fields]
    for kind, members, count in (("method", methods, 30), ("field", fields, 12)):
        for _ in range(count if members else 0):
            line = " ".join([kind, rng.choice(family.classes).name, *rng.choice(members)])
            asked.append((line, line, None))
    for _ in range(20):
        kinds = [rng.choice(["", "", "[", "[["]) + rng.choice([one.type for one in family.classes] + ABOVE_ARRAYS) for _ in range(2)]
        asked.append((" ".join(["assignable", *kinds]),) * 2 + (None,))
    for call in family.calls:
        through = call.receiver if call.way in ("through", "new") else "-"
        name = call.caller.name
        asked.append((" ".join(["choose", name, call.receiver, through, call.name, *call.arguments]), f"choose {name.rpartition('/')[2]} {call.number}", call))
    return asked


def write_files(family, folder):
    for one in family.classes:
        path = folder / f"{one.name}.class"
        path.parent.mkdir(parents=True, exist_ok=True)
        path.write_bytes(one.file())
    (folder / "sources").mkdir()
    for caller in family.callers:
        (folder / "sources" / f"{caller.name.rpartition('/')[2]}.java").write_text(family.source(caller))


def told(program, family, asked):
    files = [one.file().hex() for one in family.classes + family.callers]
    answers = ask_each([program], [*files, "fill", *(line for line, _, _ in asked)], "world")
    assert answers[:len(files)] == ["added"] * len(files), answers[:len(files)]
    return answers[len(files) + 1:]


# ---- rules by which answers may differ

def explains_resolution(family, question, our, their):
    """Why the JVM resolves a method otherwise (JVMS 5.4.3.3, 5.4.3.4), or None."""
    _, _, name, descriptor = question.split()
    mine = family.declared(our.split()[0], name, descriptor)
    if mine is None or not family.class_of(our.split()[0]).is_interface():
        return None
    if their == "none":
        return "the JVM finds no interface's method that is like a protected one of Object" if family.declared(OBJECT, name, descriptor) else None
    method = family.declared(their, name, descriptor)
    if method is None:
        return "the JVM makes a method that throws where no default method is the one to take, and here the first in order is found"
    if not family.class_of(their).is_interface():
        return None
    if method.flags & ABSTRACT:
        return "of the abstract methods of interfaces the JVM may take any"
    return "interfaces are searched depth first, and not for the most specific default method"


def explains_choice(family, call, our, their):
    """Why javac chooses another method, or None."""
    owner, name, descriptor = our.split() if our != "none" else (None, None, None)
    method = family.declared(owner, name, descriptor)
    if their == "none" and method:
        if call.way == "static" and not method.flags & STATIC:
            return "javac takes no instance method by a class's name; here that is asked of the call and not of the choice"
        if call.way == "super" and method.flags & ABSTRACT:
            return "javac takes no abstract method by super; here that is asked of the call and not of the choice"
        if call.way == "through" and method.flags & STATIC and family.class_of(owner).is_interface():
            return "javac takes no static method of an interface by an expression; here that is asked of the call and not of the choice"
    if method and method.flags & ABSTRACT and family.class_of(owner).is_interface() and not all(upper.flags & ABSTRACT for upper in family.all_above(call.receiver[1:-1])):
        return "javac looks for no abstract method of an interface from a class that isn't abstract"
    if their != "none" and not family.takes(call.arguments, family.declared(*their.split())):
        return "no conversion boxes (JLS 15.12.2.2 alone)"
    first = their != "none" and family.like(call.receiver[1:-1], call.name, parameters(their.split()[2]))[0]
    if first and (first[0], *first[1][1:]) != tuple(their.split()) or method and len(family.like(call.receiver[1:-1], call.name, parameters(descriptor))) > 1:
        return "of methods of one name and parameters the first in the order of search alone is looked at"
    others = [other for owner in family.order(call.receiver[1:-1]) for other in getattr(family.class_of(owner), "methods", []) if other.name == call.name]
    others = [other for other in others if family.takes(call.arguments, other)]
    if call.way == "static" and any(other.flags & PROTECTED and not other.flags & STATIC for other in others):
        return "a call by a class's name is asked as one by super, so that protected methods that aren't static are candidates"
    if any(len(family.like(call.receiver[1:-1], call.name, parameters(other.descriptor))) > 1 for other in others):
        return "the same of another method that takes the arguments"
    return None


def compare(family, question, call, our, their, tally, reasons, wrong):
    """Tallies an answer, and notes it where the rules don't explain a difference."""
    kind = question.split()[0]
    found = our.split()[0] if kind in ("method", "field") else our
    tally[kind, "none" if their in ("none", "no") else "found"] += 1
    if found != their.replace("Array clone", f"{OBJECT} clone"):
        rule = explains_resolution(family, question, our, their) if kind == "method" else explains_choice(family, call, our, their) if call else None
        reasons[rule] += 1
        if rule is None:
            wrong.append((question, call and call.way, "ours", our, "theirs", their))


def report(tally, reasons, wrong):
    for (kind, answer), count in sorted(tally.items()):
        print(f"{kind}: {count} {answer}")
    for rule, count in reasons.most_common():
        print(f"{count}: {rule}")
    return end("differ without a named rule", wrong)


def main(words):
    program, count, rng = given(words, 2_000)
    tally, reasons, wrong = collections.Counter(), collections.Counter(), []
    with tempfile.TemporaryDirectory() as room:
        subprocess.run(["javac", "-XDignore.symbol.file", "-d", room, str(FOLDER / "Worlds.java")], check=True)
        for start in range(0, count, BATCH):
            lines, rows = [], []
            for number in range(start, min(count, start + BATCH)):
                family, folder = Family(rng), pathlib.Path(room, f"family{number}")
                write_files(family, folder)
                asked = questions(family)
                ours = told(program, family, asked)
                lines += [f"folder {folder}", *(line for _, line, _ in asked)]
                rows += [(family, question, call, our) for (question, _, call), our in zip(asked, ours)]
            theirs = subprocess.run(["java", *OPENED, "-cp", room, "Worlds"], input="".join(line + "\n" for line in lines).encode(), stdout=subprocess.PIPE, check=True)
            theirs = theirs.stdout.decode().split("\n")[:-1]
            assert len(theirs) == len(rows), (len(theirs), len(rows))
            for (family, question, call, our), their in zip(rows, theirs):
                compare(family, question, call, our, their, tally, reasons, wrong)
    return report(tally, reasons, wrong)


if __name__ == "__main__":
    sys.exit(main(sys.argv[1:]))
