"""Compares what bodies show with what the JVM does, on random well typed bodies.

usage: python3 checks/source.py PROGRAM [RUNS [SEED [typing]]], with the built runs_check as PROGRAM.
Units of random methods (`random_bodies.py`) are spelled as the printer spells them (`unit_texts.py`), compiled by javac, and
read back by the program, which takes no other spelling; its methods are called, RUNS times in all (100,000), with numbers
mostly around the limits of their types. What a body asks is answered from a heap (`runs.py`); calls within the unit are runs
of their own. Results with the elements of arrays, exceptions, and what was logged on the way have to be those of the JVM. The
exit status is 1 where one isn't. With the word `typing` the verdict on each random method is asked, too, and the
last line tells how many it accepts: their runs, like all, have to end as in the JVM, and so none of them is stuck.
"""
import pathlib, subprocess, sys, tempfile
from asking import ask_each, end, given
from javac_verdicts import verdicts
from random_bodies import random_unit
from random_methods import letters
from runs import Program, number, word_of
from unit_texts import text

FOLDER = pathlib.Path(__file__).parent
BATCH, METHODS, CALLS, TURNS = 10, 50, 20, 40
# javac makes a few of the random bodies into code whose frames its own JVM refuses; what they do is compared all the same.
UNVERIFIED = ["-XX:+UnlockDiagnosticVMOptions", "-XX:-BytecodeVerificationRemote", "-XX:+DisplayVMOutputToStderr"]


def compile_in(folder, units):
    """Writes the units, and compiles them."""
    for unit in units:
        (folder / f"{unit['name']}.java").write_text(text(unit))
    words = ["javac", "-nowarn", "-Xlint:none", "--release", "8", "-d", ".", FOLDER / "Runs.java", *(f"{unit['name']}.java" for unit in units)]
    ran = subprocess.run(words, cwd=folder, capture_output=True, text=True)
    assert ran.returncode == 0, ran.stderr[:2000]


def loaded(path, folder, units):
    """The program with the classes and the methods of these units."""
    program = Program(path, "source", TURNS)
    for name in ["L", *(unit["name"] for unit in units)]:
        program.add("class", (folder / f"{name}.class").read_bytes(), f"L{name};")
    for unit in units:
        program.add("unit", text(unit).encode(), f"L{unit['name']};")
    return program


def some_calls(rng, units, places, count):
    """Calls of each random method in turn: the class, the method, its parameters' types, where the program has it, and the arguments."""
    static = {(f"L{unit['name']};", method["name"]): method["flags"] & 8 for unit in units for method in unit["methods"]}
    methods = [(owner, name, letters(descriptor)[0], place) for (owner, name, descriptor), place in places.items() if name[0] == "t"]
    for n in range(count):
        owner, name, kinds, place = methods[n % len(methods)]
        yield owner, name, kinds, place, static[owner, name], [number(rng, kind) for kind in kinds]


def verdicts_in(path, folder, units):
    """What the program says of the types of each random method: nothing, or the first rule that it breaks."""
    files = {name: (folder / f"{name}.class").read_bytes() for name in ["L", *(unit["name"] for unit in units)]}
    return [verdict for _, method, verdict in verdicts(path, files, units) if method["name"][0] == "t"]


def compare(path, rng, units, count, wrong, typing):
    """Compares so many calls, and tells how often the program was asked, and the verdicts on types where they are wanted."""
    with tempfile.TemporaryDirectory() as room:
        folder = pathlib.Path(room)
        compile_in(folder, units)
        found = verdicts_in(path, folder, units) if typing else []
        program = loaded(path, folder, units)
        calls = list(some_calls(rng, units, program.places, count))
        lines = [" ".join([f"{owner[1:-1]}.{name}", *map(str, values)]) for owner, name, *_, values in calls]
        for line, (owner, _, kinds, place, static, values), wanted in zip(lines, calls, ask_each(["java", *UNVERIFIED, "-Xshare:auto", "-cp", room, "Runs"], lines)):
            program.clear()
            this = [] if static else ["r" + program.made(owner)]
            ended = program.ended(place, this + [word_of(kind, value) for kind, value in zip(kinds, values)])
            if ended != wanted:
                wrong.append((line, wanted, ended))
    return program.asked, found


def main(words):
    path, count, rng = given(words, 100_000)
    asked, done, wrong, batch, told, typing = 0, 0, [], BATCH * METHODS * CALLS, [], words[3:4] == ["typing"]
    while done < count:
        units = [random_unit(rng, f"C{number}", METHODS) for number in range(BATCH)]
        more, found = compare(path, rng, units, min(batch, count - done), wrong, typing)
        asked, told = asked + more, told + found
        done += min(batch, count - done)
    print(f"{done} runs of {-(-done // batch) * BATCH * METHODS} bodies, asked {asked} times")
    status = end("runs that end otherwise than in the JVM", wrong)
    if typing:
        print(f"bodies whose types the program accepts: {told.count(None)} of {len(told)}")
    return status


if __name__ == "__main__":
    sys.exit(main(sys.argv[1:]))
