"""Compares printed classes with their class files in the JVM, on random straight methods.

usage: python3 checks/java.py PROGRAM [CLASSES [SEED]], with the built decompile as PROGRAM.
Each class has 40 methods of random sums, differences and products over random parameters and constants. Its text is
compiled by javac, and each method is called in both classes with random arguments. The exit status is 1 where a text
isn't taken by javac, or two results differ.
"""
import pathlib, random, struct, subprocess, sys, tempfile

METHODS = 40
CALLS = 25
HARNESS = """
import java.io.File;
import java.lang.reflect.Method;
import java.net.URL;
import java.net.URLClassLoader;
import java.util.Random;

public class Compare {
    static Class<?> load(String folder) throws Exception {
        return new URLClassLoader(new URL[] {new File(folder).toURI().toURL()}, null).loadClass("C");
    }

    public static void main(String[] words) throws Exception {
        Random random = new Random(Long.parseLong(words[2]));
        Class<?> printed = load(words[1]);
        int calls = 0;
        for (Method original : load(words[0]).getDeclaredMethods()) {
            Method again = printed.getDeclaredMethod(original.getName(), original.getParameterTypes());
            original.setAccessible(true);
            again.setAccessible(true);
            for (int call = 0; call < %d; call++) {
                Object[] arguments = new Object[original.getParameterCount()];
                for (int i = 0; i < arguments.length; i++) {
                    arguments[i] = random.nextInt(4) == 0 ? Integer.MIN_VALUE >> random.nextInt(32) : random.nextInt();
                }
                if (!original.invoke(null, arguments).equals(again.invoke(null, arguments))) {
                    System.out.println("differs " + original.getName());
                    System.exit(1);
                }
                calls++;
            }
        }
        System.out.println(calls);
    }
}
""" % CALLS


def utf8(text):
    return b"\x01" + struct.pack(">H", len(text)) + text.encode()


def leaf(rng, parameters):
    """A constant or a parameter, in one of its instructions."""
    kind = rng.randrange(4 if parameters else 3)
    if kind == 0:
        return bytes([rng.randrange(2, 9)])
    if kind == 1:
        return b"\x10" + struct.pack(">b", rng.randrange(-128, 128))
    if kind == 2:
        return b"\x11" + struct.pack(">h", rng.randrange(-32768, 32768))
    slot = rng.randrange(parameters)
    return bytes([0x1A + slot]) if slot < 4 and rng.randrange(2) else bytes([0x15, slot])


def expression(rng, parameters, levels):
    """Instructions that leave one value, and the most values that stand at once."""
    if levels == 1 or rng.randrange(5) == 0:
        return leaf(rng, parameters), 1
    left, high = expression(rng, parameters, levels - 1)
    right, other = expression(rng, parameters, levels - 1)
    return left + right + bytes([rng.choice([0x60, 0x64, 0x68])]), max(high, other + 1)


def random_class(rng):
    pool = [utf8("C"), b"\x07\x00\x01", utf8("java/lang/Object"), b"\x07\x00\x03", utf8("Code")]
    methods = []
    for place in range(METHODS):
        parameters = rng.choice([0, 1, 2, 3, 4, 5, 200])
        code, high = expression(rng, parameters, rng.randrange(1, 10))
        content = struct.pack(">HHI", high, parameters, len(code) + 1) + code + b"\xac\x00\x00\x00\x00"
        pool += [utf8(f"m{place}"), utf8("(" + "I" * parameters + ")I")]
        methods.append(struct.pack(">HHHHHI", rng.choice([8, 9]), len(pool) - 1, len(pool), 1, 5, len(content)) + content)
    head = struct.pack(">IHHH", 0xCAFEBABE, 0, rng.choice([50, 51, 52]), len(pool) + 1) + b"".join(pool)
    return head + struct.pack(">HHHHHH", 0x21, 2, 4, 0, 0, len(methods)) + b"".join(methods) + b"\x00\x00"


def main():
    program = str(pathlib.Path(sys.argv[1]).resolve())
    classes = int(sys.argv[2]) if len(sys.argv) > 2 else 20
    seed = int(sys.argv[3]) if len(sys.argv) > 3 else 1
    rng = random.Random(seed)
    calls = 0
    with tempfile.TemporaryDirectory() as name:
        folder = pathlib.Path(name)
        (folder / "Compare.java").write_text(HARNESS)
        subprocess.run(["javac", "-d", name, "Compare.java"], cwd=name, check=True)
        for place in range(classes):
            first, second = folder / f"original{place}", folder / f"printed{place}"
            first.mkdir()
            second.mkdir()
            (first / "C.class").write_bytes(random_class(rng))
            printed = subprocess.run([program, "C.class"], cwd=first, capture_output=True)
            if printed.returncode != 0 or printed.stderr:
                sys.exit(f"class {place} isn't printed whole: {printed.stderr.decode()}")
            (second / "C.java").write_bytes(printed.stdout)
            subprocess.run(["javac", "-d", ".", "C.java"], cwd=second, check=True)
            told = subprocess.run(["java", "-cp", name, "Compare", str(first), str(second), str(seed + place)], capture_output=True, text=True)
            if told.returncode != 0:
                sys.exit(f"class {place}: {told.stdout}{told.stderr}")
            calls += int(told.stdout)
    print(f"{classes} classes, {classes * METHODS} methods, {calls} calls, none differs")


main()
