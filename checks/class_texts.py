"""Compares printed classes with their class files, member by member, by javac's parser and by javap's reader.

usage: python3 checks/class_texts.py PROGRAM [PACKAGE..], with the built decompile as PROGRAM.
The class files of each Debian package (junit4, libbsf-java and ant where none is named) are printed together, some
thousands at once. Each text has to be taken by javac's parser. Of each class that is printed its modifiers, its name and
what stands right above it have to be those of its file; and each field and method of the file has either to be printed,
with the modifiers that a text shows, its type, its value and what it throws, in the order of the file, or to have its
line in the report. No other member is printed, and no other has a line. A difference is printed, and the exit status is 1.

`ClassTexts.java` reads lines, `file` or `unit` and the bytes in hexadecimal, and answers a line for each class, field and
method, and `end`; or of a text that javac's parser doesn't take a line `complaint` and its words:

    class FLAGS NAME SUPER,INTERFACE.. -        (`interface` for one in a text)
    field FLAGS CLASS.NAME:TYPE - VALUE
    method FLAGS CLASS.NAMEDESCRIPTOR THROWN,.. BODY

FLAGS are a number for a file and words for a text, BODY is `body` or `-`, as is each other part that isn't there.
"""
import collections, pathlib, struct, subprocess, sys, tempfile
from asking import ask
from code import package_files

FOLDER = pathlib.Path(__file__).parent
PACKAGES = ["junit4", "libbsf-java", "ant"]
JDK = ["--add-modules", "jdk.jdeps", "--add-exports", "jdk.jdeps/com.sun.tools.classfile=ALL-UNNAMED"]
AT_ONCE = 2_000
BITS = {"public": 1, "private": 2, "protected": 4, "static": 8, "final": 0x10, "synchronized": 0x20, "volatile": 0x40, "transient": 0x80,
        "native": 0x100, "abstract": 0x400, "default": 0}
INTERFACE, STATIC, FINAL, ABSTRACT, PUBLIC = 0x200, 8, 0x10, 0x400, 1
CLASS_BITS, FIELD_BITS, METHOD_BITS = 0x411, 0xCF, 0x53F


Member = collections.namedtuple("Member", "kind flags subject names value")


def listed(java, kind, items):
    """What the Java program lists of each item."""
    parts = [[]]
    for line in ask(java, [f"{kind} {item.hex()}" for item in items]):
        if line == "end":
            parts.append([])
        else:
            parts[-1].append(Member(*line.split(" ")) if not line.startswith("complaint") else line)
    return parts[:-1]


def texts_of(printed):
    """The text of each class, by the name in the line before it."""
    found, name = {}, None
    for line in printed.splitlines(keepends=True):
        if line.startswith(b"// ") and line.endswith(b".java\n"):
            name = line[3:-6].decode()
            found[name] = b""
        else:
            found[name] += line
    return found


# ---- what a text has to show

def bits(words):
    return sum(BITS[word] for word in words.split(",")) if words != "-" else 0


def of_class(member):
    """A class of a file, as its text has to show it."""
    flags = int(member.flags)
    if flags & INTERFACE:
        above = ",".join(["java/lang/Object", *member.names.split(",")[1:]])
        return Member("interface", flags & PUBLIC, member.subject, above, "-")
    return Member("class", flags & CLASS_BITS, member.subject, member.names, "-")


def of_field(member, is_interface):
    flags, valued = int(member.flags), int(member.flags) & STATIC and member.value != "-"
    shown = flags & (FIELD_BITS | (FINAL if valued else 0))
    if is_interface:
        shown = flags & STATIC | PUBLIC | (FINAL if valued else 0)
    return Member("field", shown, member.subject, "-", member.value if valued else "-")


def of_method(member, is_interface):
    flags = int(member.flags)
    if ".<clinit>" in member.subject:
        return Member("method", STATIC, member.subject, "-", member.value)
    shown = flags & METHOD_BITS
    if is_interface:
        shown = flags & STATIC | PUBLIC | (ABSTRACT if member.value == "-" and not flags & STATIC else 0)
    return Member("method", shown, member.subject, member.names, member.value)


def of_text(member, is_interface):
    """A field or method of a text, with what an interface implies."""
    flags = bits(member.flags)
    if is_interface and member.kind == "field":
        flags |= PUBLIC | (FINAL if member.value != "-" else 0)
    if is_interface and member.kind == "method":
        flags |= PUBLIC | (ABSTRACT if member.value == "-" and not flags & STATIC else 0)
    return member._replace(flags=flags)


def differences(file, shown, lines):
    """What differs between a class file, what is printed of it, if anything, and the subjects of the lines on it."""
    head, members = file[0], file[1:]
    if shown is None:
        return [] if lines == [head.subject] else [f"{head.subject}: not printed, and lines on {lines}"]
    if shown and isinstance(shown[0], str):
        return [f"{head.subject}: {shown[0]}"]
    is_interface = bool(int(head.flags) & INTERFACE)
    wanted = [of_field(it, is_interface) if it.kind == "field" else of_method(it, is_interface) for it in members]
    printed = [of_text(it, is_interface) for it in shown[1:]]
    told = collections.Counter(lines)
    kept = []
    for member in wanted:
        if told[member.subject] and member not in printed:
            told[member.subject] -= 1
        else:
            kept.append(member)
    found = [f"{head.subject}: a line on {subject}" for subject, left in told.items() if left]
    if shown[0]._replace(flags=bits(shown[0].flags)) != of_class(head):
        found.append(f"{head.subject}: {shown[0]} and not {of_class(head)}")
    found += [f"{one} and not {other}" for one, other in zip(printed, kept) if one != other][:3]
    return found + ([f"{head.subject}: {len(printed)} members printed of {len(kept)}"] if len(printed) != len(kept) else [])


# ---- runs

def subject_of(line):
    """What a line of the report is about."""
    return line.split(" ")[0]


def owner_of(subject):
    """The name of the class that a subject is about, or that a member of it is."""
    return subject.split(".")[0]


def run(program, java, files):
    """The differences of the classes of these files, printed together, and how many classes and members were printed, and lines told."""
    with tempfile.TemporaryDirectory() as folder:
        names = [f"{place}.class" for place in range(len(files))]
        for name, data in zip(names, files):
            pathlib.Path(folder, name).write_bytes(data)
        ran = subprocess.run([program, *names], cwd=folder, capture_output=True)
    report = ran.stderr.decode().splitlines()
    assert ran.returncode == (1 if report else 0), (ran.returncode, report[-1:])
    texts, about = texts_of(ran.stdout), collections.defaultdict(list)
    for line in report:
        about[owner_of(subject_of(line))].append(subject_of(line))
    units = dict(zip(texts, listed(java, "unit", texts.values())))
    found, printed, wanted = [], 0, listed(java, "file", files)
    for file in wanted:
        name = file[0].subject
        shown = units.get(name)
        printed += len(shown) if shown else 0
        found += differences(file, shown, about.pop(name, []))
    return found + [f"a line on {subjects[0]}" for subjects in about.values()], len(units), printed, len(report)


def is_read(data):
    """Whether the program reads class files of this version."""
    return 50 <= struct.unpack(">H", data[6:8])[0] <= 52


def main(words):
    program, wrong = str(pathlib.Path(words[0]).resolve()), []
    with tempfile.TemporaryDirectory() as room:
        subprocess.run(["javac", "-d", room, *JDK, str(FOLDER / "ClassTexts.java")], check=True)
        java = ["java", *JDK, "-cp", room, "ClassTexts"]
        for package in words[1:] or PACKAGES:
            files, names = [], set()
            for data in package_files(room, package):
                if is_read(data) and data not in names:
                    names.add(data)
                    files.append(data)
            for at in range(0, len(files), AT_ONCE):
                found, classes, printed, lines = run(program, java, files[at:at + AT_ONCE])
                print(f"{package}: {len(files[at:at + AT_ONCE])} classes, {classes} printed, with {printed - classes} members; {lines} lines")
                wrong += found
    print(f"differences: {len(wrong)}")
    for each in wrong[:40]:
        print(" ", each)
    return 1 if wrong else 0


if __name__ == "__main__":
    sys.exit(main(sys.argv[1:]))
