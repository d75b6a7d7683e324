"""Compares files_check with the JVM's verifier: on whole packages, on damaged methods, and on random ones.

usage: python3 checks/verify.py PROGRAM [COUNT [SEED [cases]]], with the built files_check as PROGRAM; `cases` leaves out
the whole packages, so that a long run can be taken in parts, by seeds.
Each method of the packages of `code.py` and of classes that javac makes has to be verified, in the world of its package
with the core classes alone, and with the headers of the JDK's classes too. COUNT methods (50,000), half of them of
those classes with one thing damaged (`damaged_types.py`, and bytes), half of them random (`random_methods.py`) or such a
one damaged, have to be accepted or refused as by the JVM (`Verify.java`), or what they differ in has a name
(`verify_rules.py`): it stands at the instruction or frame that the difference is told at, and with that alone set right
both are asked again, until they agree. Each such name has a method made by hand that has to get it
(`verify_differences.py`). Where both refuse, the places that they tell have to be the same, or differ as
`compares_place` says. What has no name is printed, and the exit status is 1.

PROGRAM reads lines: `world` and a class file in hexadecimal, which is added to its world, or `fill`, which adds the core classes that are missing, and
each is answered by a line; `verify` and a class file is answered by a line for each method with code, and `end`:

    broken KIND OFFSET                          the bytes are no class file
    CLASS.METHODDESCRIPTOR verified             the method has a table of frames
    CLASS.METHODDESCRIPTOR unverified RULE PC   its first violation
    CLASS.METHODDESCRIPTOR bad KIND PC          the first fault of its Code
"""
import collections, pathlib, struct, subprocess, sys, tempfile
import java_sources
from asking import ask, ask_each, end, given
from class_file_format import CLASS, EACH, UTF8, Fault, class_text, lay_out, text
from code import PACKAGES, package_files
from damaged_codes import damage, damage_bytes, lone_methods
from damaged_types import Damage
from random_methods import Pool, RandomMethod, other_files
from verify_differences import methods
from verify_rules import INFERRED, LOADED, OTHER_PLACE, Case, compares_place, difference

FOLDER = pathlib.Path(__file__).parent
JAVA = ["java", "-Xverify:all", "-Xshare:auto", "-XX:+UseSerialGC", "-Xmx1g"]
SOURCES, LONES, BATCH, STEPS = 160, 2_500, 5_000, 6
UNASKED = " (nothing sets it right, so the code isn't compared)"
UNMADE = (struct.error, OverflowError, ValueError, IndexError, Fault)  # a damage that leaves no bytes


# ---- worlds

def names_in(data):
    """The names of classes that a class file speaks of."""
    pool, found = lay_out(data, 45)[0], set()
    for index, (tag, _) in pool.items():
        words = class_text(pool, index) if tag == CLASS else text(pool, index) if tag == UTF8 else ""
        if tag == CLASS and not words.startswith("["):
            found.add(words)
        elif words[:1] in ("L", "[", "("):
            found.update(kind.lstrip("[")[1:-1] for kind in EACH.findall(words))
    return found - {""}


def header_file(name, words):
    """A class file with a class's name and what stands right above it, told as `class SUPER INTERFACE..`."""
    kind, above, *faces = words
    pool = Pool()
    upper = "java/lang/Object" if kind == "interface" else above
    body = struct.pack(">HHH", 0x601 if kind == "interface" else 0x21, pool.type(name), 0 if upper == "-" else pool.type(upper))
    body += struct.pack(">H", len(faces)) + b"".join(struct.pack(">H", pool.type(face)) for face in faces) + bytes(6)
    return b"\xca\xfe\xba\xbe\x00\x00\x00\x34" + struct.pack(">H", pool.size) + b"".join(pool.entries) + body


def plain_file(name):
    """A class below Object with nothing in it."""
    return header_file(name, ["class", "java/lang/Object"])


def jdk_headers(java, names):
    """The headers of the JDK's classes among these and above them, as class files."""
    found, todo = {}, sorted(names)
    while todo:
        answers = ask_each(java, [f"header {name}" for name in todo])
        found.update({name: line.split() for name, line in zip(todo, answers)})
        todo = sorted({upper for line in answers for upper in line.split()[1:]} - {"-"} - set(found))
    return {name: header_file(name, words) for name, words in found.items() if words != ["none"]}


class World:
    """Some classes by their names, written into a folder, and the headers of the JDK's classes that they speak of."""

    def __init__(self, java, folder, name, files):
        self.name, self.files, self.folder = name, {class_text(*self.this(data)): data for data in files}, folder / name
        for each, data in self.files.items():
            path = self.folder / f"{each}.class"
            path.parent.mkdir(parents=True, exist_ok=True)
            path.write_bytes(data)
        wanted = set().union(*map(names_in, self.files.values())) | {"java/lang/Object", "java/lang/Throwable"}
        self.heads = jdk_headers(java, wanted - set(self.files))
        self.known = set(self.files) | set(self.heads)

    def this(self, data):
        pool, _, this, *_ = lay_out(data, 45)
        return pool, this[1]

    def told(self, program, files, with_heads=True, more=()):
        """The lines that the program tells of each class file, in a world with classes of these names besides."""
        world = [*self.heads.values(), *self.files.values()] if with_heads else list(self.files.values())
        world += [plain_file(name) for name in sorted(more)]
        lines = ask([program], [f"world {data.hex()}" for data in world] + ["world fill"] + [f"verify {data.hex()}" for data in files])
        assert lines[:len(world)] == ["added"] * len(world), collections.Counter(lines[:len(world)])
        parts = [[]]
        for line in lines[len(world) + 1:]:
            parts.append([]) if line == "end" else parts[-1].append(line)
        assert len(parts) == len(files) + 1, (len(parts), len(files))
        return parts[:-1]

    def judged(self, java, files, more=()):
        """What the JVM says of each, where it finds classes of these names besides."""
        found = [f"also {name.encode().hex()} {plain_file(name).hex()}" for name in sorted(more)]
        return ask_each(java, [f"folder {self.folder}", *found, *(data.hex() for data in files)])[1 + len(found):]


def made_files(rng, folder, release):
    """The class files that javac makes of random sources, of those without lambdas where the release has none."""
    sources = [(f"C{number}", java_sources.some_source(rng, number)) for number in range(SOURCES)] + [("Wide", java_sources.wide_source())]
    sources = [(name, source) for name, source in sources if release > 7 or "->" not in source and "::" not in source]
    place = folder / f"sources{release}"
    place.mkdir()
    for name, source in sources:
        (place / f"{name}.java").write_text(source)
    words = ["javac", "-nowarn", "-Xlint:none", "--release", str(release), "-d", "made", *(f"{name}.java" for name, _ in sources)]
    subprocess.run(words, check=True, cwd=place, stderr=subprocess.DEVNULL)
    return [path.read_bytes() for path in sorted((place / "made").rglob("*.class"))]


def compare_whole(program, world, wrong):
    """Whether each method is verified, in a world with the core classes alone and in one with the JDK's."""
    files = list(world.files.values())
    for with_heads in (False, True):
        tally = collections.Counter()
        for lines in world.told(program, files, with_heads):
            for line in lines:
                tally[line.split(" ")[1]] += 1
                if not line.endswith(" verified"):
                    wrong.append((world.name, with_heads, line))
        print(f"{world.name}, {len(files)} class files, {len(world.heads) if with_heads else 0} headers beside:", dict(tally))


# ---- damaged and random methods

def head_of(data):
    pool, flags, this, above, faces, *_ = lay_out(data, 45)
    return [class_text(pool, index) for _, index in [this, above, *faces]], flags[1] & 0x200


def damaged(rng, lone):
    """A copy of a class file with one method in which one thing is damaged; the version and the class's header stay."""
    kind = rng.random()
    if kind < 0.86:
        return Damage(rng, lone).file()
    if kind < 0.93:
        return lone.file(damage(rng, lone))
    whole = lone.file(lone.content)
    data = bytearray(whole)
    damage_bytes(rng, data)
    if data[4:8] != whole[4:8] or head_of(data) != head_of(whole):
        raise Fault
    return bytes(data)


def with_version(rng, data):
    return data[:7] + bytes([rng.choice([50, 51, 52, 52])]) + data[8:] if data[7:8] in (b"\x32", b"\x33", b"\x34") else data


def some_damaged(rng, lones, count):
    made = []
    while len(made) < count:
        try:
            made.append(with_version(rng, damaged(rng, rng.choice(lones))))
        except UNMADE:
            continue
    return made


def some_random(rng, count):
    """Random methods, each followed by three damaged copies."""
    made = []
    while len(made) < count:
        try:
            made.append(RandomMethod(rng).file())
            made += some_damaged(rng, list(lone_methods(made[-1])), 3)
        except UNMADE:
            continue
    return made[:count]


def lones_of(rng, files):
    lones = []
    for data in rng.sample(files, len(files)):
        if len(lones) < LONES and len(data) < 30_000:
            lones += [lone for lone in lone_methods(data) if 25 < len(lone.content) < 3_000]
    return lones


class Tally:
    def __init__(self):
        self.answers, self.reasons, self.places, self.wrong = collections.Counter(), collections.Counter(), collections.Counter(), []

    def take(self, world, case):
        """Counts an answer; True where the two differ."""
        words = ("both accept", "the JVM refuses") if case.accepted else ("the program refuses", "both refuse")
        self.answers[words[0] if case.fine else words[1]] += 1
        if not case.accepted and not case.fine and " unverified " in case.ours:
            place = compares_place(case)
            self.places[place] += 1
            if place == OTHER_PLACE:
                self.wrong.append((world.name, OTHER_PLACE, case.ours, case.theirs[:300], case.data.hex()))
        return case.accepted != case.fine

    def explain(self, world, case, names):
        self.reasons["; ".join(names) if names else None] += 1
        if not names:
            self.wrong.append((world.name, case.ours, case.theirs[:300], case.data.hex()))


def reasons_of(program, java, world, cases):
    """The names of what the two differ in on each method, set right one after another until they agree; none where something has no name."""
    told, todo, lacking = [()] * len(cases), [(n, case, ()) for n, case in enumerate(cases)], set()
    for _ in range(STEPS):
        asked = []
        for n, case, names in todo:
            found = None if told[n] else difference(case, world)
            if found and not found.files:
                told[n] = (*names, found.name + UNASKED)
            elif found:
                lacking |= found.lacking
                asked += [(n, case, (*names, found.name), data) for data in found.files if data != case.data or found.lacking]
        todo = []
        if not asked:
            break
        files = [data for *_, data in asked]
        for (n, case, names, data), ours, theirs in zip(asked, world.told(program, files, more=lacking), world.judged(java, files, lacking)):
            next_case = Case(data, ours, theirs)
            if next_case.agrees_behind(names[-1]):
                told[n] = told[n] or names
            elif next_case.accepted != next_case.fine and (next_case.accepted == case.accepted or names[-1] == LOADED):
                todo.append((n, next_case, names[:-1] if names[-1] == INFERRED else names))
    return told


def compare_cases(program, java, world, cases, tally):
    for at in range(0, len(cases), BATCH):
        files = cases[at:at + BATCH]
        rows = [Case(*row) for row in zip(files, world.told(program, files), world.judged(java, files))]
        differing = [case for case in rows if tally.take(world, case)]
        for case, names in zip(differing, reasons_of(program, java, world, differing)):
            tally.explain(world, case, names)


def compare_differences(program, java, world, wrong):
    """Whether each method that was made to differ does, for its one reason."""
    named = methods()
    files = [data for _, data in named]
    cases = [Case(*row) for row in zip(files, world.told(program, files), world.judged(java, files))]
    for case, (name, _), names in zip(cases, named, reasons_of(program, java, world, cases)):
        if case.accepted == case.fine or names != (name,):
            wrong.append((name, names, case.ours, case.theirs[:300], case.data.hex()))
    print(f"{len(named)} methods made to differ")


def main(words):
    program, count, rng = given(words, 50_000)
    tally = Tally()
    with tempfile.TemporaryDirectory() as room:
        folder = pathlib.Path(room)
        subprocess.run(["javac", "-d", folder, str(FOLDER / "Verify.java")], check=True)
        java = [*JAVA, "-cp", room, "Verify"]
        sets = [(name, [data for data in package_files(folder, name) if data[7] <= 52]) for name in PACKAGES]
        sets += [(f"release{release}", made_files(rng, folder, release)) for release in (8, 7)]
        sets.append(("release7 as version 50", [data[:7] + b"\x32" + data[8:] for data in sets[-1][1]]))
        for name, files in sets:
            world = World(java, folder, name, files)
            if words[3:] != ["cases"]:
                compare_whole(program, world, tally.wrong)
            if "version" not in name:
                compare_cases(program, java, world, some_damaged(rng, lones_of(rng, files), count // 10), tally)
        world = World(java, folder, "random", list(other_files().values()))
        compare_differences(program, java, world, tally.wrong)
        compare_cases(program, java, world, some_random(rng, count // 2), tally)
    for counts in (tally.answers, tally.reasons, tally.places):
        for word, number in counts.most_common():
            print(f"{number}: {word}")
    return end("differ without a named rule", tally.wrong)


if __name__ == "__main__":
    sys.exit(main(sys.argv[1:]))
