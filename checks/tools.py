"""Tries the scripts for people with a jar on good and on bad input: what they say, how they end, and what they leave.

usage: python3 checks/tools.py [PROGRAM]

PROGRAM is crates/decompile/out/decompile where none is given. Class files, jars and a JDK of class files are made here, so
that no Java is needed. Each case that differs has a line, the last line is 'N passed, M failed', and the exit status is 1
where one differs.
"""
import os, pathlib, re, resource, shutil, signal, struct, subprocess, sys, tempfile, time, zipfile

ROOT = pathlib.Path(__file__).resolve().parent.parent
TOOLS = ROOT / "tools"
PROGRAM = ROOT / "crates/decompile/out/decompile"
sys.dont_write_bytecode = True
sys.path.insert(0, str(TOOLS))
from class_sources import ImageSource
from class_stubs import CLASS_FLAGS, FIELD_FLAGS, METHOD_FLAGS, ClassFile, Member, read, stub
from class_worlds import CORE

PUBLIC, STATIC, FINAL, INTERFACE = 0x21, 0x9, 0x10, 0x601
INTERFACES = (b"Serializable", b"Cloneable", b"Comparable", b"CharSequence")
SECONDS = 60


def class_file(name, above=b"java/lang/Object", fields=(), methods=(), major=52, flags=PUBLIC, interfaces=()):
    """The bytes of a class with fields (each a name and a descriptor) and methods, whose code throws."""
    fields = [Member(STATIC, name, descriptor, None, []) for name, descriptor in fields]
    methods = [Member(STATIC, name, descriptor, None, []) for name, descriptor in methods]
    made = bytearray(stub(ClassFile(min(major, 52), 0, flags, name, above, list(interfaces), fields, methods, [])))
    made[6:8] = struct.pack(">H", major)
    return bytes(made)


def make_jdk(folder):
    """A JDK of class files: the classes of the core, of version 61, and a class between two of them."""
    for name in [*CORE, b"java/lang/Between"]:
        above = {b"java/lang/Object": None, b"java/lang/StringBuilder": b"java/lang/Between"}.get(name, b"java/lang/Object")
        path = folder / f"{name.decode()}.class"
        path.parent.mkdir(parents=True, exist_ok=True)
        flags = INTERFACE if name.rpartition(b"/")[2] in INTERFACES else PUBLIC
        methods = [(b"other", b"()Lp/Behind;")] if above is None else ()
        path.write_bytes(class_file(name, above, methods=methods, major=61, flags=flags))
    return folder


def make_jar(path, entries):
    """A jar with these entries, each a name and its bytes."""
    with zipfile.ZipFile(path, "w", zipfile.ZIP_DEFLATED) as jar:
        for name, content in entries:
            jar.writestr(name, content)
    return path


def classes(count, package="p"):
    """Entries of so many classes, whose texts are longer than half their files."""
    fields = [(b"field%d" % at, b"I") for at in range(40)]
    return [(f"{package}/C{at}.class", class_file(f"{package}/C{at}".encode(), fields=fields)) for at in range(count)]


def full(size):
    """Lets a command write no file longer than this, as on a disk that is full."""
    return lambda: resource.setrlimit(resource.RLIMIT_FSIZE, (size, size))


class Case:
    """A folder of a case, with a JDK, and what a command did there."""

    def __init__(self, program, folder):
        self.program, self.folder = program, folder
        self.jdk = make_jdk(folder / "a jdk")

    def run(self, *words, **how):
        """Runs a command; answers its status, and its output and errors as text."""
        ran = subprocess.run(words, cwd=self.folder, stdin=subprocess.DEVNULL, capture_output=True, timeout=SECONDS, **how)
        return ran.returncode, ran.stdout.decode(), ran.stderr.decode()

    def all(self, *words, program=None, jdk=None, **how):
        program = ["--program", str(program or self.program)]
        return self.run(TOOLS / "decompile-all", *words, "--jdk", str(jdk or self.jdk), *program, **how)

    def refused(self, *words, says, **how):
        """Asks that decompile-all ends with status 1 and one line that has these words, and leaves nothing new."""
        before = sorted(os.listdir(self.folder))
        status, output, errors = self.all(*words, **how)
        expect(status == 1, f"status {status}: {errors}")
        expect(says in errors and "Traceback" not in errors, f"it says {errors!r}, without {says!r}")
        expect(sorted(os.listdir(self.folder)) == before, f"it leaves {sorted(os.listdir(self.folder))}")


def expect(holds, why):
    if not holds:
        raise AssertionError(why)


def texts_below(folder):
    return {str(it.relative_to(folder)): it.read_bytes() for it in folder.rglob("*") if it.is_file()}


def two_runs_are_the_same(case):
    make_jar(case.folder / "two words.jar", [*classes(3), ("p/C9.class", b"no class"), ("a/readme", b"text")])
    (case.folder / "more").mkdir()
    (case.folder / "more/C1.class").write_bytes(classes(2)[1][1])
    words = ("two words.jar", "more", "-o")
    status, output, errors = case.all(*words, "out one")
    expect(status == 0 and "classes: 5, printed 3" in output, f"status {status}: {output}{errors}")
    first = texts_below(case.folder / "out one")
    expect({"p/C0.java", "p/C1.java", "p/C2.java", "report.txt"} <= {*first}, f"there are {[*first]}")
    expect(b"more/C1.class clash Twice\n" in first["report.txt"], f"the report is {first['report.txt']!r}")
    expect(b"words.jar/p/C9.class broken Magic 0\n" in first["report.txt"], f"the report is {first['report.txt']!r}")
    expect(b"Behind" in first["missing.txt"], "the missing class isn't told")
    case.all(*words, "two", "--jobs", "2")
    expect(texts_below(case.folder / "two") == first, "two runs differ")


def a_folder_that_is_there_stays(case):
    make_jar(case.folder / "a.jar", classes(1))
    (case.folder / "out").mkdir()
    case.refused("a.jar", "-o", "out", says="is there already")


def jars_that_are_none(case):
    (case.folder / "text.jar").write_text("no jar")
    case.refused("text.jar", "-o", "out", says="no jar that can be read")
    whole = make_jar(case.folder / "whole.jar", classes(5)).read_bytes()
    (case.folder / "cut.jar").write_bytes(whole[:len(whole) // 2])
    case.refused("cut.jar", "-o", "out", says="no jar that can be read")
    case.refused("nothing.jar", "-o", "out", says="No such file")
    case.refused("whole.jar", "-o", "out", "--lib", "text.jar", says="no jar that can be read")
    status, _, errors = case.all("text.jar", "whole.jar", "-o", "out", "--keep-going")
    expect(status == 1 and "passed over: text.jar" in errors, f"--keep-going: status {status}: {errors}")
    expect((case.folder / "out/p/C4.java").is_file(), "the whole jar isn't printed")


def a_jdk_that_is_none(case):
    make_jar(case.folder / "a.jar", classes(1))
    case.refused("a.jar", "-o", "out", jdk=case.folder / "nowhere", says="is no JDK")
    case.refused("a.jar", "-o", "out", "--release", "8", says="ct.sym")


def names_that_leave_the_folder(case):
    for at, name in enumerate(("../x.class", "/x.class", "a/../../x", "..")):
        make_jar(case.folder / f"{at}.jar", [*classes(1), (name, b"x")])
        case.refused(f"{at}.jar", "-o", "out", says="leaves the folder")
    text = b"// ../x.java\nclass x {\n}\n"
    ran = subprocess.run([TOOLS / "split", "cut"], cwd=case.folder, input=text, capture_output=True)
    expect(ran.returncode == 1 and b"leaves the folder" in ran.stderr, f"split says {ran.stderr}")


def bombs(case):
    make_jar(case.folder / "zeros.jar", [*classes(1), ("zeros", bytes(8 << 20))])
    case.refused("zeros.jar", "-o", "out", says="200 times its size")
    content = make_jar(case.folder / "many.jar", [("a", b"")]).read_bytes()
    start, end = content.index(b"PK\1\2"), content.index(b"PK\5\6")
    entries = content[start:end] * 100_001
    ending = content[end:end + 12] + struct.pack("<II", len(entries), start) + b"\0\0"
    (case.folder / "many.jar").write_bytes(content[:start] + entries + ending)
    case.refused("many.jar", "-o", "out", says="more than 100,000 entries")
    large = bytearray(make_jar(case.folder / "large.jar", classes(1)).read_bytes())
    at = large.index(b"PK\1\2")
    large[at + 24:at + 28] = struct.pack("<I", (1 << 30) + 1)
    (case.folder / "large.jar").write_bytes(large)
    case.refused("large.jar", "-o", "out", says="bytes unpacked")


def a_damaged_entry(case):
    path = make_jar(case.folder / "a.jar", classes(2))
    content = bytearray(path.read_bytes())
    at = content.index(b"p/C1.class") + 40
    content[at:at + 8] = b"\xff" * 8
    path.write_bytes(content)
    case.refused("a.jar", "-o", "out", says="p/C1.class can't be unpacked")
    status, output, errors = case.all("a.jar", "-o", "out", "--keep-going")
    expect(status == 1 and "passed over" in errors, f"status {status}: {errors}")
    expect((case.folder / "out/p/C0.java").is_file(), "the other class isn't there")


def a_full_disk(case):
    make_jar(case.folder / "a.jar", classes(40))
    case.refused("a.jar", "-o", "out", preexec_fn=full(1_000), says="File too large")
    case.refused("a.jar", "-o", "out", preexec_fn=full(16_000), says="the program failed")
    before = sorted(os.listdir(case.folder))
    (case.folder / "C.class").write_bytes(classes(1)[0][1])
    status, _, errors = case.run(TOOLS / "world", "C.class", "-o", "w", "--jdk", "a jdk", preexec_fn=full(20))
    expect(status == 1 and "File too large" in errors, f"world: status {status}: {errors}")
    expect(sorted(os.listdir(case.folder)) == sorted([*before, "C.class"]), f"world leaves {os.listdir(case.folder)}")


def stand_in(case, rest):
    """A program in place of ours, which answers at once to --make."""
    path = case.folder / "stand in"
    path.write_text(f'#!/bin/sh\ncase $1 in --make) exit 0 ;; esac\n{rest}\n')
    path.chmod(0o755)
    return path


def an_interrupt(case):
    make_jar(case.folder / "a.jar", classes(2))
    program = stand_in(case, "echo $$ >../../started; exec sleep 60")
    before = sorted(os.listdir(case.folder))
    for number in (signal.SIGINT, signal.SIGTERM):
        words = [TOOLS / "decompile-all", "a.jar", "-o", "out", "--jdk", "a jdk", "--program", program]
        ran = subprocess.Popen(words, cwd=case.folder, stdin=subprocess.DEVNULL, stderr=subprocess.PIPE)
        started, limit = case.folder / "started", time.monotonic() + SECONDS
        while not (started.exists() and started.read_text().endswith("\n")) and time.monotonic() < limit:
            time.sleep(0.02)
        child = int(started.read_text())
        started.unlink()
        ran.send_signal(number)
        ran.communicate(timeout=SECONDS)
        expect(ran.returncode == 128 + number, f"status {ran.returncode} after signal {number}")
        expect(not pathlib.Path(f"/proc/{child}").exists(), "the program still runs")
        expect(sorted(os.listdir(case.folder)) == before, f"it leaves {sorted(os.listdir(case.folder))}")


def a_program_that_fails(case):
    make_jar(case.folder / "a.jar", classes(3))
    program = stand_in(case, 'case "$*" in *C1*) exit 7 ;; esac')
    case.refused("a.jar", "-o", "out", program=program, says="memory couldn't be had")
    case.refused("a.jar", "-o", "out", program=case.folder / "nowhere", says="can't be run")
    status, _, errors = case.all("a.jar", "-o", "out", "--keep-going", program=program)
    report = (case.folder / "out/report.txt").read_bytes()
    expect(status == 1 and report == b"a.jar/p/C1.class failed 7\n", f"status {status}: {report} {errors}")


def a_library_that_clashes(case):
    make_jar(case.folder / "a.jar", [("p/A.class", class_file(b"p/A", b"lib/B"))])
    of_library = (("lib/B.class", class_file(b"lib/B", b"lib/F")), ("lib/F.class", class_file(b"lib/F", flags=PUBLIC | FINAL)))
    make_jar(case.folder / "lib.jar", of_library)
    status, output, errors = case.all("a.jar", "-o", "out", "--lib", "lib.jar")
    report = (case.folder / "out/report.txt").read_text()
    expect(report.startswith("../worlds/") and report.endswith(" clash SuperIsFinal\n"), f"the report is {report}")
    told = ["classes: 1, printed 1 (100.0 %)", "methods: 0, printed 0", "files of libraries that aren't of the world: 1"]
    expect(status == 0 and output.splitlines()[:3] == told, f"status {status}: {output}{errors}")


def words_that_are_wrong(case):
    for words in ([], ["a.jar"], ["-o", "out"], ["a.jar", "-o", "out", "--jobs", "0"], ["a.jar", "-o", "out", "--bogus"]):
        status, _, errors = case.run(TOOLS / "decompile-all", *words)
        expect(status == 2 and "usage" in errors, f"{words}: status {status}: {errors}")
    for tool in ("decompile-all", "world"):
        status, output, _ = case.run(TOOLS / tool, "--help")
        expect(status == 0 and "usage" in output, f"{tool} --help ends with {status}")


def a_world(case):
    rows = (ROOT / "crates/dj_core/src/rows.rt").read_text()
    core = re.findall(r'name: "(java/[^"]+)",\s+flags', rows)
    expect(sorted(core) == sorted(it.decode() for it in CORE), f"the core classes are {core}")
    folder = case.folder / "named files"
    folder.mkdir()
    (folder / "A.class").write_bytes(class_file(b"A", b"lib/B", methods=[(b"m", b"(Llib/Nowhere;)V")]))
    below = class_file(b"lib/B", major=61, interfaces=[b"lib/I"])
    of_library = (below, class_file(b"lib/I", flags=INTERFACE), class_file(b"lib/Z"))
    make_jar(case.folder / "lib.jar", zip(("lib/B.class", "lib/I.class", "lib/Z.class"), of_library))
    status, _, errors = case.run(TOOLS / "world", "named files", "-o", "a world", "--lib", "lib.jar", "--jdk", "a jdk")
    expect(status == 0 and "missing lib/Nowhere" in errors and "missing p/Behind" in errors, f"status {status}: {errors}")
    listed = (case.folder / "a world/LIST").read_text().splitlines()
    names = {read(pathlib.Path(it).read_bytes()).name for it in listed}
    expect(names == {*CORE, b"java/lang/Between", b"lib/B", b"lib/I"}, f"the world is {names}")
    status, text, report = case.run(case.program, "named files/A.class", "--world", "a world/LIST")
    expect(status == 1 and text.startswith("// A.java\n"), f"status {status}: {text}{report}")
    expect(report == "A.m(Llib/Nowhere;)V refused Missing lib/Nowhere\n", f"the report is {report}")


def words_of_the_script(case):
    for word, says in (("--help", "usage: decompile"), ("--version", "Tavgonk")):
        began = time.monotonic()
        status, output, _ = case.run(ROOT / "decompile", word)
        expect(status == 0 and says in output, f"{word}: status {status}: {output}")
        expect(time.monotonic() - began < 10, f"{word} took {time.monotonic() - began:.1f} s")
    status, _, errors = case.run(sys.executable, TOOLS / "rt", "version", env={"PATH": "/nowhere"})
    expect(status == 2 and "there is no rt" in errors, f"tools/rt: status {status}: {errors}")


KIT = """#!/bin/sh
# In place of the kit's rt: of a program that prints the files named, lib proves, run builds, and try runs it from a folder.
case $1 in
run) mkdir -p out && printf '#!/bin/sh\\necho proved; cat "$@"\\n' >out/decompile && chmod 755 out/decompile && exit ;;
lib) mkdir -p out/rlib && exit ;;
try) shift 2 ;;
*) exit 2 ;;
esac
room=$(mktemp -d -p "${KEPT:-$TMPDIR}") && mkdir "$room/native" && cd "$room/native" || exit 2
printf '#!/bin/sh\\ncat "$@"\\n' >program && chmod 755 program && ./program "$@"
echo "run=ended status=$? proved=no" >&2
rm -r "$room"
"""


def make_checkout(case):
    """A checkout with the scripts and a program of one file, and the environment with a stand-in for the kit."""
    root, kit = case.folder / "a checkout", case.folder / "kit"
    shutil.copytree(TOOLS, root / "tools", ignore=shutil.ignore_patterns("__pycache__"))
    shutil.copytree(ROOT / "docs", root / "docs")
    shutil.copy(ROOT / "decompile", root)
    (root / "crates/decompile/src").mkdir(parents=True)
    (root / "crates/decompile/src/main.rt").write_text("")
    (root / "crates/low/src").mkdir(parents=True)
    (root / "crates.txt").write_text("decompile: low\nlow:\n")
    kit.mkdir()
    (kit / "rt").write_text(KIT)
    (kit / "rt").chmod(0o755)
    (case.folder / "a file").write_text("text of a file\n")
    return root, {**os.environ, "PATH": f"{kit}:{os.environ['PATH']}"}


def a_first_text(case):
    root, environment = make_checkout(case)
    line = "decompile: not proved yet, see --build"

    def prints(text, errors, more=()):
        ran = case.run(root / "decompile", "a file", env={**environment, **dict(more)})
        expect(ran == (0, text, errors), f"it ends with {ran}")

    kept = case.folder / "kept"
    kept.mkdir()
    status, text, errors = case.run(root / "decompile", "a file", env={**environment, "KEPT": str(kept)})
    is_well = status == 0 and text == "text of a file\n" and errors.startswith(line)
    expect(is_well, f"without an executable: {status} {text} {errors}")
    prints("text of a file\n", f"{line}; compiling it unproved takes a minute or two\n")
    prints("text of a file\n", f"{line}\n")
    time.sleep(0.02)
    (root / "crates/low/src/lib.rt").write_text("")
    prints("text of a file\n", f"{line}; compiling it unproved takes a minute or two\n")
    status, text, errors = case.run(root / "decompile", "--build", env=environment)
    expect(status == 0 and "proved 2 of 2 crates" in errors, f"--build ends with {status}: {errors}")
    prints("proved\ntext of a file\n", "")
    (root / "crates/low/src/lib.rt").write_text("more")
    prints("text of a file\n", f"{line}; compiling it unproved takes a minute or two\n")
    case.run("rm", "-r", root / "crates/decompile/out/unproved", kept)
    (case.folder / "kit/rt").write_text("#!/bin/sh\necho no >&2\nexit 1\n")
    status, text, errors = case.run(root / "decompile", "a file", env=environment)
    expect(status == 9 and "can't be compiled" in errors, f"a kit that fails: {status}: {errors}")


def the_program_that_was_built(case):
    if case.program != PROGRAM or not PROGRAM.with_name("built").is_file():
        print("skipped: ./decompile by the program that was proved and built, since there is none, or another one is tried")
        return
    status, version, _ = case.run(ROOT / "decompile", "--version")
    expect(status == 0 and version.endswith(", proved\n"), f"--version ends with {status}: {version!r}")
    wanted = 0, (ROOT / "crates/decompile/stdout").read_text(), ""
    ran = case.run(ROOT / "decompile", ROOT / "crates/decompile/data/C.class")
    expect(ran == wanted, f"it ends with {ran}")


def jdks_of_each_form(case):
    (case.folder / "C.class").write_bytes(class_file(b"C", b"java/lang/StringBuilder"))
    files = [(str(it.relative_to(case.jdk)), it.read_bytes()) for it in case.jdk.rglob("*.class")]
    homes = {"eight/jre/lib/rt.jar": "", "seventeen/lib/ct.sym": "879A/java.base/", "nine/lib/ct.sym": "879/"}
    for path, below in homes.items():
        (case.folder / path).parent.mkdir(parents=True)
        ending = ".sig" if below else ".class"
        make_jar(case.folder / path, [(below + name.replace(".class", ending), content) for name, content in files])
    worlds = {}
    for home, more in (("a jdk", []), ("eight", []), ("seventeen", ["--release", "8"]), ("nine", ["--release", "8"])):
        words = ["C.class", "-o", f"world of {home}", "--jdk", home, *more]
        status, _, errors = case.run(TOOLS / "world", *words)
        expect(status == 0, f"{home}: status {status}: {errors}")
        worlds[home] = {name: it for name, it in texts_below(case.folder / f"world of {home}").items() if name != "LIST"}
    expect(all(it == worlds["a jdk"] and it for it in worlds.values()), "the worlds differ")


def image_of_java():
    """The runtime image of the java on the PATH, or None, with a line that says so."""
    java = shutil.which("java")
    image = java and pathlib.Path(os.path.realpath(java)).parent.parent / "lib/modules"
    if image and image.is_file():
        return ImageSource(image)
    print("skipped: a JDK's lib/modules, since there is no java on the PATH, or it has none")
    return None


def told_by(found):
    """What a stub keeps of a class."""
    members = [[(it.flags & mask, it.name, it.descriptor, it.thrown, it.constant) for it in kept]
               for mask, kept in ((FIELD_FLAGS, found.fields), (METHOD_FLAGS, found.methods))]
    members[1] = [it for it in members[1] if it[1] != b"<clinit>"]
    return found.name, found.flags & CLASS_FLAGS, found.superclass, found.interfaces, members


def stubs_are_as_their_classes(case):
    image = image_of_java()
    if not image:
        return
    for at, name in enumerate(sorted(image.classes)[::100]):
        data = image.find(name)
        if name.endswith(b"module-info"):
            continue
        made = stub(read(data))
        expect(told_by(read(made)) == told_by(read(data)) and stub(read(made)) == made, f"the stub of {name} differs")
        (case.folder / f"{at}.class").write_bytes(made)
    status, text, report = case.run(case.program, *(it.name for it in case.folder.glob("*.class")))
    wrong = [it for it in report.splitlines() if it.split(" ")[1] not in ("notyet", "refused", "clash")]
    expect(status == 1 and not wrong, f"status {status}: {wrong[:3]}")


CASES = (
    a_first_text,
    the_program_that_was_built,
    jdks_of_each_form,
    stubs_are_as_their_classes,
    two_runs_are_the_same,
    a_folder_that_is_there_stays,
    jars_that_are_none,
    a_jdk_that_is_none,
    names_that_leave_the_folder,
    bombs,
    a_damaged_entry,
    a_full_disk,
    an_interrupt,
    a_program_that_fails,
    a_library_that_clashes,
    words_that_are_wrong,
    a_world,
    words_of_the_script,
)


def main(words):
    program = pathlib.Path(words[0] if words else PROGRAM).resolve()
    if not program.is_file():
        print(f"there is no program {program}")
        return 1
    failed = 0
    for case in CASES:
        with tempfile.TemporaryDirectory(prefix="tools of ") as folder:
            try:
                case(Case(program, pathlib.Path(folder)))
            except (AssertionError, OSError, ValueError, subprocess.TimeoutExpired) as error:
                failed += 1
                print(f"{case.__name__.replace('_', ' ')}: {error}")
    print(f"{len(CASES) - failed} passed, {failed} failed")
    return 1 if failed else 0


if __name__ == "__main__":
    sys.exit(main(sys.argv[1:]))
