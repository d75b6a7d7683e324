"""Compares files_check with javap's reader and ASM on whole class files, and with a second reading on damaged Codes.

usage: python3 checks/code.py PROGRAM [COUNT [SEED]], with the built files_check as PROGRAM, or - for the second reading alone.
Whole class files are those of the PACKAGES, which apt-get downloads, and some hundreds that javac makes: every line has
to be that of `CodeListing.java`, which asks javap's reader and ASM. Of COUNT damaged Codes (100,000), each in a class
file with this one method, every line has to be that of `code_format.py`; and where that tells a Code bad, the JVM has
to refuse it, or a rule named here must explain it. A difference is printed, and the exit status is 1.

PROGRAM reads lines, each `code` and a class file in hexadecimal, and tells lines of each, the last of which is `end`:

    broken KIND OFFSET                      the bytes are no class file, and nothing else is told
    method NAME DESCRIPTOR                  each method with code, in file order; then either
    bad KIND PC                             the kind and place of the first fault of its Code, or
    limits STACK LOCALS                     the words of its stack and its locals,
    PC INSTRUCTION                          its instructions in order,
    handler START END TARGET [CLASS]        its entries of exceptions in order, without a class where they take everything,
    frame PC UNBORN LOCAL.. / ITEM..        its frames in order; UNBORN is `true` where a local is UnbornThis, else `false`
    end

Parts are parted by one space; a part may be empty. A name, a class's name, a descriptor and a text are written by their
UTF-16 units, each as it is from 33 to 126 but for the backslash, else as `\\u` and four digits in lower case. A TYPE and
an OWNER are descriptors (`I`, `[Lq/C;`), a CLASS is a name (`q/C`). Numbers are decimal, FLOAT and DOUBLE 8 and 16
hexadecimal digits in lower case. An INSTRUCTION is one of

    Nop, PushNull, Pop, Pop2, Dup, DupX1, DupX2, Dup2, Dup2X1, Dup2X2, Swap, ArrayLength, Throw, MonitorEnter, MonitorExit
    Push Int N, Push Long N, Push Float FLOAT, Push Double DOUBLE, Push Text "TEXT", PushClass TYPE,
    PushHandle N INTERFACE OWNER NAME DESCRIPTOR, PushMethodType DESCRIPTOR, Load KIND SLOT, Store KIND SLOT, Iinc SLOT N,
    ArrayLoad ELEMENT, ArrayStore ELEMENT, Calc CALC KIND, Convert KIND TYPE, Compare KIND BOOL, IfZero TEST PC, IfInts TEST PC,
    IfRefs BOOL PC, IfNull BOOL PC, Goto PC, TableSwitch LOW OTHER PC.., LookupSwitch OTHER KEY:PC.., Return [KIND],
    GetStatic, PutStatic, GetField or PutField OWNER NAME TYPE, InvokeDynamic BOOTSTRAP NAME DESCRIPTOR,
    InvokeVirtual, InvokeSpecial, InvokeStatic or InvokeInterface OWNER INTERFACE NAME DESCRIPTOR,
    New CLASS, NewArray TYPE, MultiNewArray TYPE N, CheckCast TYPE, InstanceOf TYPE

where KIND, ELEMENT, CALC and TEST are the names of the variants, and INTERFACE and BOOL `true` or `false`. A LOCAL or an
ITEM is Top, Int, Float, Double, Long, Null, UnbornThis, `Unborn:PC`, or a TYPE; a Long or Double is followed by a Top
among locals alone.
"""
import collections, pathlib, re, subprocess, sys, tempfile, zipfile
import java_sources
from asking import ask, ask_each, end, given, rule_for
from code_format import answer, lines_of
from damaged_codes import damage, lone_methods

FOLDER = pathlib.Path(__file__).parent
PACKAGES = ["libcommons-math3-java", "libguava-java", "libxerces2-java"]
ASM, JAVAP = "java.base/jdk.internal.org.objectweb.asm=ALL-UNNAMED", "jdk.jdeps/com.sun.tools.classfile=ALL-UNNAMED"
JDK = ["--add-modules", "jdk.jdeps", "--add-exports", ASM, "--add-exports", JAVAP]
SOURCES = 160
BATCH = 4_000


def told(command, files, word=""):
    """The lines that a program tells of each class file."""
    parts = [[]]
    for line in ask(command, [data.hex() for data in files], word):
        parts[-1].append(line)
        if line == "end":
            parts.append([])
    assert len(parts) == len(files) + 1 and parts[-1] == [], (command, len(parts), len(files))
    return parts[:-1]


def first_difference(one, other):
    place = next((n for n, pair in enumerate(zip(one, other)) if pair[0] != pair[1]), min(len(one), len(other)))
    return place, one[place:place + 1], other[place:place + 1]


# ---- whole files

def package_files(folder, name):
    """The class files of the jars of a Debian package."""
    subprocess.run(["apt-get", "-qq", "download", name], cwd=folder, check=True, stderr=subprocess.DEVNULL)
    [archive] = pathlib.Path(folder).glob(f"{name}_*.deb")
    subprocess.run(["dpkg-deb", "-x", archive, f"{folder}/{name}"], check=True)
    for jar in sorted(pathlib.Path(folder, name).rglob("*.jar")):
        if not jar.is_symlink():
            with zipfile.ZipFile(jar) as opened:
                yield from (opened.read(each) for each in opened.namelist() if each.endswith(".class"))


def made_files(rng, folder):
    """The class files that javac makes of random sources."""
    sources = [f"C{number}" for number in range(SOURCES)] + ["Wide"]
    for number, name in enumerate(sources):
        source = java_sources.some_source(rng, number) if name != "Wide" else java_sources.wide_source()
        pathlib.Path(folder, f"{name}.java").write_text(source)
    words = ["javac", "-nowarn", "-Xlint:none", "--release", "8", "-d", f"{folder}/made", *(f"{name}.java" for name in sources)]
    subprocess.run(words, check=True, cwd=folder, stderr=subprocess.DEVNULL)
    files = [path.read_bytes() for path in sorted(pathlib.Path(folder, "made").rglob("*.class"))]
    return [data[:7] + bytes([rng.choice([51, 52])]) + data[8:] for data in files]


def compare_whole(program, folder, name, files, wrong):
    """Each line of whole class files, by the program, by the second reading and by the JDK."""
    theirs = told(["java", *JDK, "-Xss64m", "-cp", folder, "CodeListing"], files)
    mine = [answer(data) for data in files]
    ours = told([program], files, "code") if program != "-" else mine
    tally = collections.Counter("instruction" if line[0].isdigit() else line.split()[0] for lines in mine for line in lines)
    print(f"{name}: {len(files)} class files,", ", ".join(f"{tally[word]} {word}s" for word in ("method", "instruction", "handler", "frame")))
    for data, *answers in zip(files, ours, mine, theirs):
        for kind, lines in zip(("program", "second reading"), answers):
            if lines != answers[-1]:
                wrong.append((name, kind, data[:8].hex(), first_difference(lines, answers[-1])))


# ---- damaged Codes

# What the JVM's parser and verifier say of the format itself, as it is read here.
FORMAT = re.compile(
    r"Bad instruction|Bad lookupswitch|Bad tableswitch|Illegal (constant pool|type at|newarray|new instr|call to internal|dimension|exception table)"
    r"|StackMapTable (format )?error(?!: bad type array size)|bad constant type|Truncated|Code (length|segment)|Multiple StackMapTable")
# The other words in which they refuse what is whole here.
BEYOND = [
    (r"stack ?map frame|Stack map does not|does not match stack map|Inconsistent", "whether the frames fit the code (JVMS 4.10.1)"),
    (r"^VerifyError", "whether the code fits its types (JVMS 4.10.1)"),
    (r"StackMapTable format error: bad type array size|fit into locals", "whether frames and parameters have room (JVMS 4.10.1)"),
    (r"LineNumberTable|LocalVariable|code attribute name", "an attribute of a Code that is passed over here (JVMS 4.7.3)"),
    (r"^NoClassDefFoundError", "other classes, asked by the verifier"),
]


def explains(mine, theirs):
    """The rule by which the JVM and the second reading differ, or None."""
    if mine != "whole" or FORMAT.search(theirs):
        return None
    return rule_for(BEYOND, theirs)


def compare_damaged(program, folder, files, count, rng, wrong):
    lones = [lone for data in files if len(data) < 9_000 for lone in lone_methods(data) if 40 < len(lone.content) < 1_500]
    tally, reasons = collections.Counter(), collections.Counter()
    for done in range(0, count, BATCH):
        chosen = [(lone, damage(rng, lone)) for lone in rng.choices(lones, k=min(BATCH, count - done))]
        copies = [lone.file(content) for lone, content in chosen]
        mine = [[*lines_of(lone.pool, *lone.method, content), "end"] for lone, content in chosen]
        ours = told([program], copies, "code") if program != "-" else mine
        java = ask_each(["java", "-Xshare:auto", "-cp", folder, "ClassFiles", "link"], [data.hex() for data in copies])
        for data, lines, second, theirs in zip(copies, ours, mine, java):
            found = second[1] if second[1].startswith("bad") else "whole"
            tally[" ".join(found.split()[:2])] += 1
            if lines != second:
                wrong.append((data.hex(), first_difference(lines, second)))
            if (found == "whole") != (theirs == "whole"):
                rule = explains(found, theirs)
                reasons[rule] += 1
                if rule is None:
                    wrong.append((data.hex(), found, theirs))
    print(f"{count} damaged Codes of {len(lones)} methods:", ", ".join(f"{kind} {n}" for kind, n in sorted(tally.items())))
    for rule, n in reasons.most_common():
        print(f"the JVM refuses {n} that are whole: {rule}")


def main(words):
    program, count, rng = given(words, 100_000)
    wrong = []
    with tempfile.TemporaryDirectory() as folder:
        for name in ("CodeListing", "ClassFiles"):
            subprocess.run(["javac", *JDK, "-d", folder, str(FOLDER / f"{name}.java")], check=True)
        for name in PACKAGES:
            compare_whole(program, folder, name, list(package_files(folder, name)), wrong)
        files = made_files(rng, folder)
        compare_whole(program, folder, "made by javac", files, wrong)
        compare_whole(program, folder, "the same in version 50", [data[:7] + b"\x32" + data[8:] for data in files[::5]], wrong)
        compare_damaged(program, folder, files, count, rng, wrong)
    return end("differ without a named rule, or from another reading", wrong)


if __name__ == "__main__":
    sys.exit(main(sys.argv[1:]))
