"""Compares the causes for which methods with code are refused with a second reading of them, on whole packages.

usage: python3 checks/causes.py PROGRAM [PACKAGE-OR-JAR..]
       python3 checks/causes.py PROGRAM changed SEED [PACKAGE-OR-JAR..]
       python3 checks/causes.py PROGRAM families [COUNT [SEED]]

PROGRAM is the built decompile, or - for the second reading alone.
The class files of each Debian package, which apt-get downloads, or of each jar (libcommons-lang3-java, libguava-java and
libguice-java where none is named) are printed together, in a world of the stubs that `tools/class_worlds.py` makes of the
JDK's classes; what neither has is missing. For each method with code that is verified, in a class that isn't refused as a whole,
the report has to tell the first cause that `cause_rules.py` finds, with its pc, class, name or count, or to have no such line where
it finds none. What stands above classes, what is found, meant and may be used, and which names can be said, says
`cause_worlds.py`; frames, the strict check of types and ways of control `cause_codes.py`: all from the standards and this project's
own rules, none from the program. Of a method with an instruction on monitors Float to Interface alone are compared, since
monitors aren't paired here. Methods that the program finds bad or unverified are counted and passed over. With the word `changed` the
same is asked of packages in which some members may be used elsewhere, and some code names other members (`cause_damages.py`); with
`families` of COUNT (300) random families of classes (`cause_families.py`). Each method that differs is printed, the shortest first,
and the exit status is 1.
"""
import collections, pathlib, random, struct, subprocess, sys, tempfile, zipfile

FOLDER = pathlib.Path(__file__).resolve().parent
sys.dont_write_bytecode = True
sys.path.insert(1, str(FOLDER.parent / "tools"))
import class_stubs
from asking import end
from cause_codes import Code
from cause_damages import changed
from cause_families import some_family
from cause_rules import Method, first_cause
from cause_worlds import Class, World
from class_file_format import fault
from class_sources import jdk_source
from class_worlds import Library, world_of, write_world
from code import package_files
from instruction_format import shown

PACKAGES = ["libcommons-lang3-java", "libguava-java", "libguice-java"]
SKIPPED = ("bad", "unverified")


def class_files(folder, name):
    """The class files of a package or a jar that the program reads, one for each class."""
    if name.endswith(".jar"):
        with zipfile.ZipFile(name) as jar:
            files = [jar.read(each) for each in jar.namelist() if each.endswith(".class") and not each.startswith("META-INF/")]
    else:
        files = list(package_files(folder, name))
    found = {}
    for data in files:
        if 50 <= struct.unpack(">H", data[6:8])[0] <= 52 and fault(data) is None:
            found.setdefault(class_stubs.read(data).name, data)
    return found


def report_of(program, folder, files, library):
    """The report of the program on these class files, in their world, and the bytes of the stubs."""
    needed, missing = world_of({name: class_stubs.read(data).names() for name, data in files.items()}, library)
    room = pathlib.Path(folder)
    write_world(needed, folder, "")
    words = [f"{place}.class" for place in range(len(files))]
    for word, data in zip(words, files.values()):
        (room / word).write_bytes(data)
    lines = []
    if program != "-":
        ran = subprocess.run([program, *words, "--world", "LIST"], cwd=folder, stdout=subprocess.DEVNULL, stderr=subprocess.PIPE)
        assert ran.returncode in (0, 1), (ran.returncode, ran.stderr[-300:])
        lines = ran.stderr.decode().splitlines()
    return lines, [it.content for it in needed.values()], missing


def told_by(lines):
    """What the report tells, by what it is told of: the rest of each line."""
    found = collections.defaultdict(list)
    for line in lines:
        subject, _, rest = line.partition(" ")
        assert not rest.startswith(("broken", "clash")), line
        found[subject].append(rest)
    return found


class Tally:
    """What was looked at, which causes were found, and which methods differ."""

    def __init__(self):
        self.counts, self.causes, self.wrong = collections.Counter(), collections.Counter(), []

    def count(self, **more):
        self.counts.update(more)

    def compare(self, subject, one, theirs):
        """Compares the first cause of a method with what the report tells of it."""
        cause = first_cause(one)
        name, told = cause or ("none", "")
        self.causes[name] += 1
        ours = f"refused {name} {shown(str(told))}".rstrip() if name not in ("none", "Monitor") else name
        if ours != theirs if ours.startswith("refused") else theirs.startswith("refused"):
            self.wrong.append((len(one.head.code), subject, "second reading:", ours, "program:", theirs or "printed"))


def methods_of(owner):
    """The methods of a class with code: how the report names each, and its place."""
    for place, head in enumerate(owner.methods):
        if head.code is not None:
            yield f"{shown(owner.name)}.{shown(head.name)}{shown(head.descriptor)}", place


def compare(program, files, library, tally):
    """Compares the methods of classes of one world."""
    with tempfile.TemporaryDirectory() as folder:
        lines, stubs, missing = report_of(program, folder, files, library)
    named = [Class(data, 50) for data in files.values()]
    world, told = World(named + [Class(data) for data in stubs]), told_by(lines)
    tally.count(classes=len(named), stubs=len(stubs), missing=len(missing))
    for owner in named:
        if told.get(shown(owner.name)):
            tally.count(refused=1)
            continue
        for subject, place in methods_of(owner):
            tally.count(methods=1)
            theirs = told[subject].pop(0) if told.get(subject) else ""
            if theirs.startswith(SKIPPED):
                tally.causes[theirs.split(" ")[0]] += 1
            else:
                tally.compare(subject, Method(world, owner, place, Code(owner.name, owner.methods[place], owner.pool)), theirs)


def compare_all(program, name, worlds):
    """Compares the methods of several worlds, tells what was looked at, and answers the differences."""
    library, tally = Library([jdk_source(None)]), Tally()
    for files in worlds:
        compare(program, files, library, tally)
    print(f"{name}: " + ", ".join(f"{word} {count}" for word, count in tally.counts.items()))
    print("  " + ", ".join(f"{cause} {count}" for cause, count in tally.causes.most_common()))
    return [] if program == "-" else tally.wrong


def families(words):
    """The class files of random families."""
    count, seed = (int(words[at]) if len(words) > at else more for at, more in ((0, 300), (1, 1)))
    for number in range(count):
        made = some_family(random.Random(f"{seed} {number}"))
        yield {name.encode(): data for name, data in made.items()}


def main(words):
    program, wrong = words[0] if words[0] == "-" else str(pathlib.Path(words[0]).resolve()), []
    if words[1:2] == ["families"]:
        wrong = compare_all(program, "families", families(words[2:]))
    else:
        rng, rest = (random.Random(int(words[2])), words[3:]) if words[1:2] == ["changed"] else (None, words[1:])
        for name in rest or PACKAGES:
            with tempfile.TemporaryDirectory() as folder:
                files = class_files(folder, name)
                worlds = [{each: changed(rng, data) if rng else data for each, data in files.items()}]
                wrong += compare_all(program, name, worlds)
    return end("methods whose cause differs", sorted(wrong))


if __name__ == "__main__":
    sys.exit(main(sys.argv[1:]))
