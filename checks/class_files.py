"""Compares files_check with the JVM's own parser and with a second reading, on damaged copies of class files.

usage: python3 checks/class_files.py PROGRAM [COUNT [SEED]], with the built files_check as PROGRAM, or - for the second reading alone.
A few hundred class files are made by javac, with every kind of entry, member and attribute that it writes. Of COUNT
damaged copies (200,000), kind and offset must be those of `class_file_format.py`. Whether a copy is whole is compared
with what `defineClass` of the JVM says; where they differ, a rule named here must explain it. A difference without
one is printed, and the exit status is 1.
"""
import collections, pathlib, re, subprocess, sys, tempfile
from asking import ask_each, end, given, rule_for
from class_file_format import PARTS, UTF8, LONG, DOUBLE, Reader, fault

FOLDER = pathlib.Path(__file__).parent
BATCH = 4_000
MEMBERS = [
    "static int f{n}(int a, int b) {{ return a - b * {n}; }}",
    "long g{n} = {n}00000000{n}L;",
    "static final int I{n} = {n}70000;",
    "static final long J{n} = -{n}L << 40;",
    "static final float F{n} = {n}.5f;",
    "static final double D{n} = {n}.25;",
    "static final String S{n} = \"text\\u0000 \\u00e9 \\u20ac \\ud83d\\ude00 {n}\";",
    "protected transient volatile char[][] c{n};",
    "private final boolean[] z{n} = {{ true, false }};",
    "native void n{n}(byte a, short b, float c, double d);",
    "abstract Object a{n}(String a, int[] b) throws java.io.IOException, InterruptedException;",
    "synchronized Object o{n}(Object a) {{ try {{ return (String[]) a; }} catch (ClassCastException e) {{ return null; }} finally {{ g(a); }} }}",
    "static Object g(Object a) {{ return a == null ? Integer.class : int[].class; }}",
    "Runnable r{n}() {{ return () -> System.out.println(\"r{n}\"); }}",
    "java.util.function.Supplier<String> s{n}(Object a) {{ return a::toString; }}",
    "@Deprecated <T extends Comparable<T>> T t{n}(java.util.List<? super T> a) {{ return null; }}",
    "String u{n}(String a) {{ switch (a) {{ case \"x\": return \"y\"; default: return a + {n} + 'c' + 2.5; }} }}",
    "int w{n}(java.util.Collection<Integer> a) {{ int s = 0; for (int i : a) s += i; return s; }}",
    "double d{n}(float a, long b, double c) {{ return a * b % c - {n}.75; }}",
    "class In{n} {{ int x = hashCode(); }}",
    "enum En{n} {{ ONE, TWO {{ int v() {{ return 2; }} }}; int v() {{ return 1; }} }}",
    "interface If{n} extends Runnable {{ int K = {n}; String L = \"k{n}\"; int v(int[][] a); default void run() {{ }} static int w() {{ return 3; }} }}",
    "@interface An{n} {{ int value() default {n}; Class<?>[] types() default {{}}; }}",
]


def some_source(rng, number):
    """A class of random members; where one is abstract, so is the class."""
    chosen = [(rng.randrange(len(MEMBERS)), n) for n in range(rng.randrange(1, 6))]
    lines = [MEMBERS[kind].format(n=n) for kind, n in chosen]
    if not any("g(Object a)" in line for line in lines):
        lines.append(MEMBERS[12].format())
    lines = list(dict.fromkeys(lines))
    head = "abstract class" if any(line.startswith("abstract") for line in lines) else rng.choice(["class", "final class", "public class"])
    above = rng.choice(["", "", " extends java.util.ArrayList<String>", " implements Cloneable, java.io.Serializable"])
    return f"package p{number % 3}.q;\n{head} C{number}{above} {{\n    " + "\n    ".join(lines) + "\n}\n"


def make_files(rng, folder):
    """The bytes of a few hundred class files, each at most 3,000 long."""
    for release in ("7", "8"):
        sources = []
        for number in range(120):
            path = pathlib.Path(folder, release, f"C{number}.java")
            path.parent.mkdir(exist_ok=True)
            source = some_source(rng, number)
            if release == "7":
                source = "\n".join(line for line in source.split("\n") if not re.search(r"->|::|default void|En\d|static int w", line))
            path.write_text(source, encoding="utf-8")
            sources.append(str(path))
        words = ["javac", "-nowarn", "-Xlint:none", "-encoding", "utf-8", "--release", release, "-d", f"{folder}/{release}", *sources]
        subprocess.run(words, check=True, stdout=subprocess.DEVNULL, stderr=subprocess.DEVNULL)
    files = [path.read_bytes() for path in sorted(pathlib.Path(folder).rglob("*.class"))]
    files = [data for data in files if len(data) <= 3_000]
    return files + [data[:7] + b"\x32" + data[8:] for data in rng.sample(files, 40)]


def marks(data):
    """Offsets where numbers of two bytes stand in the pool and behind it: where damage tells most."""
    read, found, index = Reader(data), [6, 8], 1
    read.at = 8
    count = read.number(2)
    while index < count:
        found.append(read.at)
        tag = read.number(1)
        if tag == UTF8:
            found.append(read.at)
            read.run(read.number(2))
        else:
            for size in PARTS[tag]:
                found.append(read.at)
                read.run(size)
        index += 2 if tag in (LONG, DOUBLE) else 1
    return found + list(range(read.at, min(len(data) - 1, read.at + 60)))


def damage(rng, files):
    """A copy with one to three of: a byte or a number changed, bytes cut out, doubled, shifted, the end cut or longer."""
    data = bytearray(rng.choice(files))
    places = marks(data)
    for _ in range(rng.choice([1, 1, 1, 2, 3])):
        kind = rng.randrange(10)
        at = min(rng.choice(places) if rng.random() < 0.6 else rng.randrange(len(data)), max(len(data) - 2, 0))
        if kind < 3:
            data[at] = rng.choice([0, 1, data[at] ^ 1 << rng.randrange(8), rng.randrange(256)])
        elif kind < 7 and at + 2 <= len(data):
            number = int.from_bytes(data[at:at + 2], "big")
            number = rng.choice([number + 1, number - 1, 0, rng.randrange(80), rng.randrange(65_536)]) & 65_535
            data[at:at + 2] = number.to_bytes(2, "big")
        elif kind == 7:
            del data[at:at + rng.choice([1, 2, 3, 8])]
        elif kind == 8:
            size = rng.choice([1, 2, 4, 10])
            data[at:at] = data[at:at + size]
        elif rng.random() < 0.5:
            del data[at:]
        else:
            data.extend(rng.randbytes(rng.choice([1, 2, 9])))
        if len(data) < 2:
            break
    return bytes(data)


# What the JVM asks of a class beyond the format's own text as it is read here, by the words that it says.
BEYOND = [
    (r"^(NoClassDefFoundError|IncompatibleClassChangeError|IllegalAccessError|SecurityException|ClassCircularityError|VerifyError)", "asked once the file is read: other classes, the package"),
    (r"Illegal (field|method|class) name|Illegal name|illegal name", "the spelling of a member's or a class's name (JVMS 4.2.2)"),
    (r"Duplicate (field|method|interface)", "two members or interfaces alike (JVMS 4.5, 4.6, 4.1)"),
    (r"(Illegal|illegal) .*modifiers|is not static", "flags beyond those that are asked here (JVMS 4.1, 4.5, 4.6)"),
    (r"Invalid (pc|max|code|length|exception|start|end|handler)|Code_attribute|code length|Code length|exception table|LineNumber|LocalVariable|StackMap|stack|fit into locals|Code segment", "inside a Code (JVMS 4.7.3)"),
    (r"InnerClasses|inner_class|EnclosingMethod|SourceFile|Signature|BootstrapMethods|bootstrap|Deprecated|Synthetic|MethodParameters|AnnotationDefault|Annotations|SourceDebugExtension|NestHost|NestMembers|Record|PermittedSubclasses|inner class|argument_index|(outer_class_info|inner_class_info|inner_name)_index|Truncated class file|attribute length|Wrong size", "an attribute that is passed over here (JVMS 4.7)"),
    (r"[Mm]ethod [Hh]andle|method handle|reference_kind|reference kind|\(not a", "what a MethodHandle refers to (JVMS 4.4.8)"),
    (r"does not support constant tag", "kinds of entry that came with version 51 (JVMS 4.4)"),
    (r"Object cannot implement", "the interfaces of java/lang/Object"),
    (r"has illegal signature", "the descriptor of <init> or <clinit> (JVMS 4.6)"),
    (r"Bad (method|field) name|Bad name|bad method name", "the name in a NameAndType (JVMS 4.4.2)"),
]


def explains(mine, theirs):
    """The rule by which the two answers differ, or None."""
    if mine == "whole":
        return rule_for(BEYOND, theirs)
    if mine.startswith("Version") and theirs == "whole":
        return "the JVM takes versions 45 to its own"
    return None


def main():
    program, count, rng = given(sys.argv[1:], 200_000)
    tally, reasons, wrong = collections.Counter(), collections.Counter(), []
    with tempfile.TemporaryDirectory() as folder:
        subprocess.run(["javac", "-d", folder, str(FOLDER / "ClassFiles.java")], check=True)
        files = make_files(rng, folder)
        print(len(files), "class files")
        done = 0
        while done < count:
            copies = (files if done == 0 else []) + [damage(rng, files) for _ in range(min(BATCH, count - done))]
            done += min(BATCH, count - done)
            lines = [data.hex() for data in copies]
            java = ask_each(["java", "-Xshare:auto", "-cp", folder, "ClassFiles"], lines)
            ours = ask_each([program], lines, "class") if program != "-" else [None] * len(lines)
            for data, mine, theirs in zip(copies, ours, java):
                found = fault(data)
                second = "whole" if found is None else f"{found[0]} {found[1]}"
                mine = second if mine is None else mine
                tally[second.split()[0]] += 1
                if mine != second:
                    wrong.append((data.hex(), mine, second))
                if (mine == "whole") != (theirs == "whole"):
                    rule = explains(mine, theirs)
                    reasons[rule] += 1
                    if rule is None:
                        wrong.append((data.hex(), mine, theirs))
    print(count, "copies:", ", ".join(f"{kind} {n}" for kind, n in sorted(tally.items())))
    for rule, n in reasons.most_common(60):
        print(f"differ from the JVM {n}: {rule}")
    return end("differ without a named rule, or from the second reading", wrong)


sys.exit(main())
