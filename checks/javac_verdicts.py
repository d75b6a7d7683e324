"""What javac finds in the bodies of units and what a program finds in them, side by side, and where the places of a body stand in its text.

The program is a built runs_check. It has the classes with bodies that break no rule, which javac compiles, and the texts of the
units, which are given to javac too, whose errors are told apart by their lines.
"""
import collections, pathlib, re, subprocess, tempfile
from asking import ask, end, given
from flow_bodies import FILES, lists_in
from unit_texts import method_text, text

FOLDER = pathlib.Path(__file__).parent
UNITS, METHODS = 40, 50
JAVAC = ["javac", "-J-XX:TieredStopAtLevel=1", "-J-XX:+UseSerialGC", "-nowarn", "-Xlint:none", "-proc:none", "--release", "8", "-d", "."]
# All that javac finds in all classes, also in those with wrong types what it finds in their flow, and nothing behind it.
ALL = ["-Xmaxerrs", "1000000", "-XDrawDiagnostics", "-XDshould-stop.ifError=FLOW", "-XDshould-stop.ifNoError=FLOW"]
ERROR = re.compile(r"([\w/]+)\.java:(\d+):(\d+): compiler\.err\.([\w.-]+)(?:: (.*))?")


# ---- where places and lines are

def weight(tree):
    """How many places an expression, or a list of expressions, takes."""
    if isinstance(tree, list):
        return sum(map(weight, tree))
    return 1 + sum(map(weight, tree[1:])) if isinstance(tree, tuple) else 0


class Lines:
    """The lines of a method's text. `starts` has the first place of each statement with its line, and that of a test of a `do`; `at`
    the place of the statement on a line, that of a `try` where a clause of it stands; `throws` each `throw` of a catch variable by
    its line, with its `try` and its clause, `tries` each `try` by its place, `steps` the step of each `for` by its line, with the last line,
    `clauses` the line of each clause, and `tests` that of the test of each `do` by its place."""

    def __init__(self, method, first):
        self.starts, self.at, self.throws, self.tries, self.steps, self.held = [(0, first)], {first: 0}, {}, {}, {}, {}
        self.clauses, self.tests = set(), {}
        self.place, self.line = 0, first
        self.list(method["body"])
        self.last = self.line

    def begin(self, places):
        """A statement stands on this line, with so many places."""
        self.at.setdefault(self.line, self.place)
        self.starts.append((self.place, self.line))
        self.place += places

    def list(self, statements, close=1):
        """Statements behind the line that opens them, up to the line that closes them."""
        for one in statements:
            self.line += 1
            self.statement(one)
        self.line += close

    def statement(self, one):
        word, *parts = one
        if word == "Labelled":
            self.begin(1)
            self.statement(parts[1])
        elif word == "Try":
            self.tried(one)
        elif word == "Switch":
            own = self.line
            self.begin(1 + weight(parts[0]))
            for labels, body in parts[1]:
                for _ in labels:
                    self.line += 1
                    self.at[self.line] = self.at[own]
                self.list(body, 0)
            self.line += 1
        elif word == "Do":
            own = self.place
            self.begin(1)
            self.list(parts[0])
            self.tests[own] = self.line
            self.begin(weight(parts[1]))
        else:
            if word == "Throw" and parts[0][0] == "Var" and parts[0][1] in self.held:
                self.throws[self.line] = self.held[parts[0][1]]
            line = self.line
            self.plain(parts, lists_in(one) if word != "If" or parts[2] else [parts[1]])
            if word == "For":
                self.steps[line] = parts[2], self.line

    def plain(self, parts, inner):
        """A statement whose expressions stand before its lists."""
        self.begin(1 + sum(weight(part) for part in parts if all(part is not body for body in inner)))
        for body in inner:
            self.list(body)

    def tried(self, one):
        self.tries[self.place], own = one, self.line
        self.begin(1)
        self.list(one[1])
        for clause in one[2]:
            self.at[self.line], self.held[clause[1]] = self.at[own], (one, clause)
            self.clauses.add(self.line)
            self.list(clause[2])

    def statement_at(self, place):
        """The place of the statement on whose line this place is."""
        return self.at[max(start for start in self.starts if start[0] <= place)[1]]


# ---- what javac finds, and what the program does

def plain_text(unit):
    """The text of a unit with bodies that break no rule."""
    plain = {"<init>": [("Construct", False, [])]}
    methods = [{**method, "body": None if method["body"] is None else plain.get(method["name"], [("Throw", ("Null",))])} for method in unit["methods"]]
    return text({**unit, "methods": methods})


def compiled(folder, texts, strange):
    """Compiles the exceptions, what logs, and classes of these texts; the class files by their names, or none where javac refuses one."""
    texts = {**{name: f"class {name} extends {above.replace('/', '.')} {{\n}}\n" for name, above in FILES.items()}, **texts}
    for name, made in texts.items():
        (folder / name).parent.mkdir(exist_ok=True)
        (folder / f"{name}.java").write_text(made)
    sources = [FOLDER / "Runs.java", *(f"{name}.java" for name in texts)]
    ran = subprocess.run([*JAVAC, *sources], cwd=folder, capture_output=True, text=True)
    if ran.returncode:
        strange.append(f"classes that javac refuses: {ran.stderr[:2000]}")
        return None
    return {name: (folder / f"{name}.class").read_bytes() for name in ["L", *texts]}


def javac_lines(folder, units):
    """What javac says of the texts of units, or None where it stops by an error of its own."""
    with tempfile.TemporaryDirectory(dir=folder) as texts:
        for unit in units:
            (pathlib.Path(texts) / f"{unit['name']}.java").write_text(text(unit))
        ran = subprocess.run([*JAVAC, *ALL, "-cp", folder, *(f"{unit['name']}.java" for unit in units)], cwd=texts, capture_output=True, text=True)
    said = (ran.stdout + ran.stderr).splitlines()
    return None if any(line.startswith("printing javac parameters to: ") for line in said) else said


def javac_errors(folder, units, strange):
    """What javac finds in the units whose texts it is given: a line, a key, what the message names, and a column, by the names of classes.
    Where it stops by an error of its own, it is given each unit alone, and those at which it stops then are left out."""
    said = {"": javac_lines(folder, units)}
    if said[""] is None:
        said = {unit["name"]: javac_lines(folder, [unit]) for unit in units}
    found = {unit["name"]: [] for unit in units if said.get(unit["name"], []) is not None}
    for line in [line for lines in said.values() for line in lines or []]:
        matched = ERROR.fullmatch(line)
        name, at, column, key, words = matched.groups() if matched else ("", 0, 0, "", "")
        if name in found:
            found[name].append((int(at), key, words or "", int(column)))
        elif not re.fullmatch(r"\d+ errors?|- compiler\.(note|warn)\..*", line):
            strange.append(line)
    return found


def verdicts(path, files, units):
    """What the program says of each method of each unit, where the classes are around that stand around the unit."""
    for unit in units:
        around = [name for name in ["L", *FILES, *unit.get("around", []), unit["name"]] if name in files]
        answers = iter(ask([path], [*(f"class {files[name].hex()}" for name in around), f"unit {text(unit).encode().hex()}"], "typing"))
        assert [next(answers) for _ in around] == ["end"] * len(around), unit["name"]
        for method in unit["methods"]:
            name, _, *verdict = next(answers).split()
            assert name == method["name"], (unit["name"], name, verdict)
            yield unit, method, None if verdict == ["kept"] else (int(verdict[0]), verdict[1])
        assert next(answers) == "end", unit["name"]


def head_lines(unit):
    """The first line of the first method, counted from 1."""
    return text({**unit, "methods": []}).count("\n")


def compared(path, units, texts, strange):
    """Each method of each unit, with its lines, the program's verdict and javac's errors, where classes of these texts are around. What javac says of
    something else than bodies is strange, and added there."""
    with tempfile.TemporaryDirectory() as room:
        folder = pathlib.Path(room)
        files = compiled(folder, texts, strange)
        errors = javac_errors(folder, units, strange) if files else {}
    units = [unit for unit in units if unit["name"] in errors]
    firsts = {unit["name"]: head_lines(unit) for unit in units}
    strange += [f"{unit['name']}: {error}" for unit in units for error in errors[unit["name"]] if error[0] < firsts[unit["name"]]]
    for unit, method, verdict in verdicts(path, files, units) if units else []:
        lines = Lines(method, firsts[unit["name"]])
        firsts[unit["name"]] = lines.last + 1
        yield unit, method, lines, verdict, [error for error in errors[unit["name"]] if lines.starts[0][1] <= error[0] <= lines.last]


def thrown_by(unit):
    """The classes that methods declare to throw, by the names of the methods."""
    thrown = {}
    for method in unit["methods"]:
        thrown[method["name"]] = thrown.get(method["name"], []) + method["thrown"]
    return thrown


def compare(words, make, judge):
    """Compares verdicts on as many bodies as these words of a command want, and gives the exit status. `make` has units, given a source of random
    numbers and how many, and the texts of the classes around them; `judge` is given what is told of a body, and has the kind of the first that
    javac finds in it, whether the program finds that, and if it doesn't, why it needn't."""
    path, count, rng = given(words, 100_000)
    told, wrong, strange, done = collections.Counter(), [], [], 0
    while done < count and len(strange) < 20:
        units, texts = make(rng, min(UNITS, -(-(count - done) // METHODS)))
        told["units", "made"] += len(units)
        for unit, method, lines, verdict, errors in compared(path, units, texts, strange):
            first, agreed, why = judge(unit, method, lines, verdict, errors)
            told["units", "compared"] += method is unit["methods"][0]
            if "changes" in method:
                done += 1
                told["bodies", "changed" if method["changes"] else "as made"] += 1
                told["bodies", "refused by both" if verdict and errors else "refused by one" if verdict or errors else "accepted by both"] += 1
                told["javac", first or "accepted"] += 1
                told["program", verdict[1] if verdict else "accepted"] += 1
            if not agreed and why:
                told["explained", why] += 1
            elif not agreed:
                told["other", errors[0][1] if errors else "accepted", verdict[1] if verdict else "accepted"] += 1
                wrong.append((unit, method, lines, verdict, errors))
    for row, number in sorted(told.items()):
        print(*row, number)
    print("units at which javac stops by an error of its own:", told["units", "made"] - told["units", "compared"])
    print("other verdicts than javac's:", len(wrong))
    for unit, method, lines, verdict, errors in wrong[:20]:
        print(unit["name"], lines.starts[0][1], verdict, errors, method.get("changes"))
        print(method_text(unit, method))
    return end("what else javac says", strange) or (1 if wrong else 0)
