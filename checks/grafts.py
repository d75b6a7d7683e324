"""Puts the code that javac makes of printed methods into the class files they come from, and compares what these do with what they did.

usage: python3 checks/grafts.py PROGRAM [CALLS [SEED]] [JAR..] [--lib JAR..], with the built decompile as PROGRAM.

Of each jar (those of PACKAGES, which apt-get downloads, where none is named) all classes are printed together, with the
classes of the other jars and of the JDK on the PATH as their world (tools/world). What isn't printed of a class gets a stub, and javac has to
take all of it, against erased stubs of the world. Where it refuses a class for a bridge method that is printed, that one
is left out, and javac is asked again (Bridges in docs/DEVIATIONS.md). `Grafts.java` puts the code of the printed methods
in place of their own. All classes have to load and be verified as before, and CALLS (2,000) random calls of static methods
and of constructors to give the same results or exceptions. What differs is printed, and the exit status is 1.

The class files as they were and the grafted ones run in turn, each time in a JVM and an empty folder of their own. Compared
is what came to the same in all runs as they were. It differs where it came to something else in each run that was grafted;
before that is said, each is run ROUNDS times. A call that crashes the JVM as it was, as one that reads raw memory, is left
out of all runs. Calls may not write outside their folder, start programs, open sockets or exit, and all objects have one
identity hash code.
"""
import collections, itertools, pathlib, re, shutil, subprocess, sys, tempfile, time, zipfile

FOLDER = pathlib.Path(__file__).resolve().parent
sys.dont_write_bytecode = True
sys.path.insert(0, str(FOLDER.parent / "tools"))
import class_stubs

PACKAGES = ["libcommons-lang3-java", "libcommons-io-java", "libguava-java"]
EXPORTS = [f"--add-exports=java.base/jdk.internal.org.objectweb.asm{part}=ALL-UNNAMED" for part in ("", ".tree")]
JAVAC = ["javac", "-J-Xss64m", "-nowarn", "-Xlint:none", "-proc:none", "-source", "8", "-target", "8", "-encoding", "utf-8", "-Xmaxerrs", "100000"]
JAVA = ["java", "-Xverify:all", "-Xmx2g", "-Djava.security.manager=allow", "-XX:+UnlockExperimentalVMOptions", "-XX:hashCode=2", *EXPORTS]
ROUNDS, MOST_SKIPPED = 5, 20
PUBLIC, PRIVATE, PROTECTED, STATIC, BRIDGE, NATIVE, INTERFACE, ABSTRACT, SYNTHETIC, ENUM = 1, 2, 4, 8, 0x40, 0x100, 0x200, 0x400, 0x1000, 0x4000
WORDS = {PUBLIC: "public", PRIVATE: "private", PROTECTED: "protected", STATIC: "static", NATIVE: "native", ABSTRACT: "abstract"}
TYPES = {"Z": "boolean", "B": "byte", "C": "char", "S": "short", "I": "int", "J": "long", "F": "float", "D": "double", "V": "void"}
ZEROS = {"boolean": "false", "float": "0f", "double": "0.0"} | {word: f"({word}) 0" for word in ("byte", "char", "short", "int", "long")}
TYPE = re.compile(r"(\[*)(?:L([^;]+);|(.))")
MEMBER = re.compile(r"(\S+?)\.([^.(:/]+|<init>|<clinit>)(\(\S*\)\S+|:\S+) (notyet|refused|unverified|bad) (.*)")
AT = re.compile(r"\\u([0-9a-f]{4})")
REFUSED = re.compile(r".*/sources/(.+)\.java:\d+: error: (?:.* does not override abstract method )?([^\s(]+)\(.*")


def plain(name):
    """A name of the report as it is."""
    return AT.sub(lambda found: chr(int(found.group(1), 16)), name)


def types(descriptors):
    """The types of descriptors, one after another, as Java writes them."""
    return [(name.replace("/", ".") if name else TYPES[letter]) + "[]" * len(arrays) for arrays, name, letter in TYPE.findall(descriptors)]


def signature(method):
    """A method's name and what it takes."""
    return method.name, method.descriptor.rpartition(b")")[0]


def result_of(method):
    """The descriptor of a method's result."""
    return method.descriptor.rpartition(b")")[2]


def zero(kind):
    """A value of a type."""
    return ZEROS.get(kind, f"({kind}) null")


class Jar:
    """The classes of a jar, unpacked in a folder with the world that they need, and what the program prints of them."""

    def __init__(self, program, folder, path, libraries):
        self.folder, self.path = folder, path
        with zipfile.ZipFile(path) as opened:
            for name in opened.namelist():
                if name.endswith(".class") and not name.startswith("META-INF/") and "module-info" not in name:
                    opened.extract(name, folder / "files")
        words = [word for each in libraries for word in ("--lib", each)]
        subprocess.run([FOLDER.parent / "tools/world", folder / "files", "-o", folder / "world", *words], check=True, stderr=subprocess.DEVNULL)
        self.own = self.classes(folder / "files")
        self.all = {**self.classes(folder / "world/classes"), **self.own}
        names = sorted(f"{name}.class" for name in self.own)
        ran = subprocess.run([program, *names, "--world", folder / "world/LIST"], cwd=folder / "files", capture_output=True)
        self.texts = self.texts_of(ran.stdout.decode())
        self.absent = collections.defaultdict(set)
        for line in ran.stderr.decode().splitlines():
            if found := MEMBER.fullmatch(line):
                self.absent[plain(found[1])].add((plain(found[2]), plain(found[3]), found[4] + " " + found[5]))

    @staticmethod
    def classes(folder):
        """The classes of the files below a folder, by their names."""
        read = (class_stubs.read(path.read_bytes()) for path in sorted(folder.rglob("*.class")))
        return {found.name.decode(): found for found in read}

    @staticmethod
    def texts_of(printed):
        """The lines of each class's text, by the name in the line before it."""
        found, name = {}, None
        for line in printed.split("\n"):
            if line.startswith("// ") and line.endswith(".java"):
                name = line[3:-5]
                found[name] = []
            elif name:
                found[name].append(line)
        return found

    def in_text(self, name):
        """The methods of a class that its text has, in file order."""
        absent = {(member + told).encode() for member, told, _ in self.absent[name]}
        return [it for it in self.own[name].methods if it.name + it.descriptor not in absent]

    def printed(self):
        """Each printed method with code: its class, and its name and descriptor."""
        for name in self.texts:
            for method in self.in_text(name):
                if not method.flags & (ABSTRACT | NATIVE):
                    yield name, (method.name + method.descriptor).decode()

    # ---- bridges

    def above(self, name):
        """The names of a class and of all above it."""
        found = [name]
        for each in found:
            names = [it.decode() for it in self.all[each].above()] if each in self.all else []
            found += [it for it in names if it in self.all and it not in found]
        return found

    def goes(self, kind, other):
        """Whether a method may give a type where one above it gives the other, by their descriptors (JLS 8.4.5)."""
        if kind == other:
            return True
        if kind[:1] == other[:1] == b"[":
            return self.goes(kind[1:], other[1:])
        if other == b"Ljava/lang/Object;":
            return kind[:1] in (b"L", b"[")
        return kind[:1] == other[:1] == b"L" and other[1:-1].decode() in self.above(kind[1:-1].decode())

    def can_stand(self, owner, bridge):
        """Whether a stub of a bridge can stand in its class: none of its signature is printed there, and it gives what all of them have to, there and above."""
        name = owner.name.decode()
        beside = any(signature(it) == signature(bridge) for it in self.in_text(name))
        alike = [it for each in self.above(name) for it in self.all[each].methods if signature(it) == signature(bridge) and not it.flags & (PRIVATE | STATIC)]
        return not beside and all(self.goes(result_of(bridge), result_of(it)) for it in alike)

    def parts(self, name):
        """The lines of a class's text before its members, and those of each member, of which its methods come last, in file order."""
        lines = self.texts[name]
        first = next(at for at, line in enumerate(lines) if line.endswith("{")) + 1
        members, ended = [], True
        for line in lines[first:max(at for at, line in enumerate(lines) if line == "}")]:
            members += [[]] if ended else []
            members[-1].append(line)
            ended = line == "    }" or len(members[-1]) == 1 and line.endswith(";")
        return lines[:first], members

    def leave_out(self, name, bridge):
        """Leaves a printed bridge out of its class's text."""
        (head, members), methods = self.parts(name), self.in_text(name)
        if f" {bridge.name.decode()}(" not in members.pop(methods.index(bridge) - len(methods))[0]:
            raise ValueError(f"{name} isn't printed in file order")
        self.texts[name] = [*head, *itertools.chain.from_iterable(members), "}"]
        self.absent[name].add((bridge.name.decode(), bridge.descriptor.decode(), "left out"))

    def refused_bridges(self, refused):
        """The printed bridges of the names for which javac refuses their classes, each with its class."""
        for name, member in sorted({found.groups() for line in refused if (found := REFUSED.fullmatch(line))}):
            for method in self.in_text(name):
                if method.flags & BRIDGE and method.name.decode() == member:
                    yield name, method

    # ---- what javac is given

    def called(self, owner, thrown):
        """The call of a constructor of a class's superclass, one that lists least and takes least."""
        above, best = self.all.get((owner.superclass or b"").decode()), None
        for method in above.methods if above else []:
            beside = owner.name.rpartition(b"/")[0] == above.name.rpartition(b"/")[0]
            if method.name == b"<init>" and not method.flags & PRIVATE and (beside or method.flags & (PUBLIC | PROTECTED)):
                kinds = types(method.descriptor.decode()[1:-2])
                cost = len(set(method.thrown) - set(thrown)), len(kinds)
                best = min(best or (cost, kinds), (cost, kinds))
        return f"super({', '.join(map(zero, best[1]))});" if best else ""

    def field_stub(self, owner, name, descriptor):
        """A field that isn't printed."""
        field = next(it for it in owner.fields if it.name.decode() == name and it.descriptor.decode() == descriptor)
        interface, kind = owner.flags & INTERFACE, types(descriptor)[0]
        words = [word for bit, word in WORDS.items() if field.flags & bit and not interface]
        return f"    {' '.join(words)} {kind} {name}{f' = {zero(kind)}' if interface else ''};"

    def method_stub(self, owner, name, descriptor, why):
        """A method that isn't printed, or nothing where it can't stand beside the others."""
        method = next(it for it in owner.methods if it.name.decode() == name and it.descriptor.decode() == descriptor)
        if name == "<clinit>" or not (self.can_stand(owner, method) if method.flags & BRIDGE else "Signature" not in why):
            return ""
        taken, result = descriptor[1:].split(")")
        arguments = ", ".join(f"{kind} p{at}" for at, kind in enumerate(types(taken)))
        thrown = " throws " + ", ".join(it.decode().replace("/", ".") for it in method.thrown) if method.thrown else ""
        if owner.flags & INTERFACE:
            words = ["static"] if method.flags & STATIC else ["private"] if method.flags & PRIVATE else ["default"]
        else:
            words = [word for bit, word in WORDS.items() if method.flags & bit]
        if name == "<init>":
            simple = owner.name.decode().rpartition("/")[2]
            return f"    {' '.join(words)} {simple}({arguments}){thrown} {{ {self.called(owner, method.thrown)} }}"
        end = ";" if method.flags & (ABSTRACT | NATIVE) else " { throw null; }"
        return f"    {' '.join(words)} {types(result)[0]} {name}({arguments}){thrown}{end}"

    def write_source(self, name):
        """The text of a class with stubs of what isn't printed."""
        owner, lines = self.own[name], self.texts[name]
        last = max(at for at, line in enumerate(lines) if line == "}")
        stubs = [self.field_stub(owner, member, told[1:]) if told[0] == ":" else self.method_stub(owner, member, told, why) for member, told, why in sorted(self.absent[name])]
        if not owner.flags & INTERFACE and not any(it.name == b"<init>" for it in owner.methods):
            stubs.append(f"    private {name.rpartition('/')[2]}() {{ {self.called(owner, [])} }}")
        path = self.folder / "sources" / f"{name}.java"
        path.parent.mkdir(parents=True, exist_ok=True)
        path.write_text("\n".join([*lines[:last], *stubs, "}"]) + "\n", encoding="utf-8")
        return path

    def write_stub(self, name, folder, hidden):
        """A stub that javac sees as another class of the program: neither synthetic nor an enum, without private members where these are hidden."""
        found = self.all[name]
        for members in (found.fields, found.methods):
            members[:] = [it for it in members if not it.flags & hidden]
            for it in members:
                it.flags &= ~SYNTHETIC
        found.flags &= ~(SYNTHETIC | ENUM)
        path = self.folder / folder / f"{name}.class"
        path.parent.mkdir(parents=True, exist_ok=True)
        path.write_bytes(class_stubs.stub(found))

    def refused(self):
        """What javac says against the texts."""
        sources = [self.write_source(name) for name in self.texts]
        (self.folder / "list").write_text("\n".join(map(str, sources)))
        words = ["-bootclasspath", self.folder / "below", "-cp", self.folder / "beside", "-d", self.folder / "compiled", f"@{self.folder}/list"]
        ran = subprocess.run([*JAVAC, *words], capture_output=True, text=True)
        return [line for line in ran.stderr.splitlines() if ": error: " in line]

    def compile(self):
        """Has javac take the texts; answers what it says against them, and in how many classes bridges were left out."""
        for name in self.all:
            if name not in self.texts:
                self.write_stub(name, "beside" if name in self.own else "below", 0 if name in self.own else PRIVATE)
        (self.folder / "beside").mkdir(exist_ok=True)
        treated = set()
        while found := list(self.refused_bridges(refused := self.refused())):
            for name, bridge in found:
                self.leave_out(name, bridge)
                treated.add(name)
        return refused, len(treated)


class Runs:
    """Runs of the class files of a jar as they were, and of the grafted ones: what each says, and what each call comes to."""

    def __init__(self, room, folder, libraries, calls, seed, skipped):
        self.room, self.folder, self.libraries, self.calls, self.seed, self.skipped = pathlib.Path(room), folder, libraries, calls, seed, skipped
        self.classes = sum(1 for _ in (folder / "files").rglob("*.class"))
        self.own, self.grafted = [self.run("files", calls * 5 // 4, calls * 20)], []
        self.tries = len(self.own[0]) - self.classes

    def run(self, which, calls, tries):
        """What the lines of one run say, in a JVM and an empty folder of its own."""
        here, told = self.room / "here", self.room / "told"
        shutil.rmtree(here, ignore_errors=True)
        told.unlink(missing_ok=True)
        here.mkdir()
        homes = [f"-D{name}={here}" for name in ("java.io.tmpdir", "user.home")]
        words = [*JAVA, *homes, "-cp", self.room, "Grafts", "run", told, str(calls), str(tries), str(self.seed), ",".join(map(str, self.skipped)), self.folder / which, *self.libraries]
        ran = subprocess.run(words, cwd=here, stdin=subprocess.DEVNULL, stdout=subprocess.DEVNULL, stderr=subprocess.DEVNULL)
        lines = told.read_text().splitlines() if told.exists() else []
        if lines[-1:] != ["end"]:
            raise Ended(which, ran.returncode, len(lines) - self.classes)
        return lines[:-1]

    def compared(self):
        """The places of the lines that all runs as they were have alike: those of classes, and of so many calls."""
        places = [at for at, lines in enumerate(zip(*self.own)) if lines[0] and len(set(lines)) == 1]
        return places[:sum(at < self.classes for at in places) + self.calls]

    def told(self, differing):
        """How many were compared, and how many calls before the last of these were not, since they came to several things."""
        places = self.compared()
        calls = [at for at in places if at >= self.classes]
        several = sum(self.own[0][at] != "" for at in range(self.classes, max(calls, default=0))) - len(calls[:-1])
        return f"{len(places) - len(calls)} classes and {len(calls)} calls compared, not {several} that vary and {len(self.skipped)} that end the JVM; {differing} differ"

    def differing(self):
        """The places of the lines that no grafted run has as all runs as they were have them."""
        while len(self.grafted) < ROUNDS:
            for which, runs in (("grafted", self.grafted), ("files", self.own)):
                time.sleep(2)
                runs.append(self.run(which, self.tries, self.tries))
            found = [at for at in self.compared() if all(lines[at] != self.own[0][at] for lines in self.grafted)]
            if not found:
                break
        return found


class Ended(Exception):
    """A JVM that ended before its run did: on which class files, with which status, and at which try of a call."""

    def __init__(self, which, status, tried):
        super().__init__(f"a JVM ended with status {status} on {which}, at try {tried}")
        self.which, self.tried = which, tried


def run_all(room, folder, libraries, calls, seed):
    """Runs the class files as they were and the grafted ones, without the calls that end the JVM as they were; answers the runs, and the places that differ."""
    skipped = []
    while True:
        try:
            runs = Runs(room, folder, libraries, calls, seed, skipped)
            return runs, runs.differing()
        except Ended as ended:
            if ended.which == "grafted" or ended.tried < 0 or len(skipped) == MOST_SKIPPED:
                raise
            skipped.append(ended.tried)


def compare(program, room, path, libraries, calls, seed):
    """What differs for one jar."""
    folder = pathlib.Path(tempfile.mkdtemp(dir=room))
    jar = Jar(program, folder, path, libraries)
    coded = sum(not it.flags & (ABSTRACT | NATIVE) for found in jar.own.values() for it in found.methods)
    count = len(list(jar.printed()))
    print(f"{pathlib.Path(path).name}: {len(jar.own)} classes, {count} of {coded} methods with code printed ({100 * count / max(coded, 1):.1f} %)", flush=True)
    refused, treated = jar.compile()
    if refused:
        return refused
    printed = sorted(jar.printed())
    print(f"  {count - len(printed)} bridges left out, in {treated} classes (Bridges in docs/DEVIATIONS.md), {len(printed)} methods grafted", flush=True)
    (folder / "methods").write_text("".join(f"{name} {told}\n" for name, told in printed))
    subprocess.run(["cp", "-a", folder / "files", folder / "grafted"], check=True)
    subprocess.run([*JAVA, "-cp", room, "Grafts", "graft", folder / "methods", folder / "files", folder / "compiled", folder / "grafted"], check=True, stdout=subprocess.DEVNULL)
    try:
        runs, found = run_all(room, folder, libraries, calls, seed)
    except Ended as ended:
        return [str(ended)]
    print(f"  {runs.told(len(found))}", flush=True)
    return [f"{runs.own[0][at]}\n  / {runs.grafted[0][at]}" for at in found]


def package_jars(room):
    """The jars of the packages."""
    for name in PACKAGES:
        subprocess.run(["apt-get", "-qq", "download", name], cwd=room, check=True, stderr=subprocess.DEVNULL)
        [archive] = pathlib.Path(room).glob(f"{name}_*.deb")
        subprocess.run(["dpkg-deb", "-x", archive, f"{room}/{name}"], check=True)
        yield from (str(jar) for jar in sorted(pathlib.Path(room, name, "usr/share/java").glob("*.jar")) if not jar.is_symlink())


def main(program, *words):
    numbers = [int(word) for word in words if word.isdigit()]
    calls, seed = (numbers + [2_000, 1][len(numbers):])[:2]
    wrong = []
    with tempfile.TemporaryDirectory() as room:
        subprocess.run(["javac", "-d", room, *EXPORTS, FOLDER / "Grafts.java"], check=True, stderr=subprocess.DEVNULL)
        named = [word for word in words if not word.isdigit()]
        at = named.index("--lib") if "--lib" in named else len(named)
        jars, libraries = named[:at] or list(package_jars(room)), named[at + 1:]
        for path in jars:
            wrong += compare(pathlib.Path(program).resolve(), room, path, [other for other in [*jars, *libraries] if other != path], calls, seed)
    print("\n".join(wrong[:40]))
    print("differences:", len(wrong))
    return 1 if wrong else 0


if __name__ == "__main__":
    sys.exit(main(*sys.argv[1:]))
