"""Random Java sources whose code has many shapes: every kind of value, jump, switch, handler, monitor and call that javac makes."""

NUMBERS = {"int": ["0", "-1", "5", "-77", "300", "70000", "Integer.MIN_VALUE"], "long": ["0L", "1L", "-9L", "1L << 40"],
           "float": ["0f", "1f", "2f", "-0f", "0.3f", "Float.NaN"], "double": ["0d", "1d", "2.5d", "-0d", "1e300"],
           "byte": ["(byte) 3"], "short": ["(short) -300"], "char": ["'a'", "'\\uffff'"]}
WIDE = ["int", "long", "float", "double"]
TYPES = [*NUMBERS, "boolean", "String", "Object", "int[]", "long[]", "float[]", "double[]", "byte[]", "char[]", "short[]", "boolean[]",
         "String[]", "Object[]", "int[][]", "Object[][][]"]
TEXTS = ['""', '"text"', '"\\u0000\\u00e9\\u20ac\\ud83d\\ude00"', '"a b\\\\\\"c"']


class Method:
    """Makes the body of one method; `variables` has those in scope, by type."""

    def __init__(self, rng, static, returns=True):
        self.rng, self.static, self.returns, self.count, self.labels = rng, static, returns, 0, []
        self.scopes = [[("int", "F0"), ("long", "F1"), ("double", "F2"), ("Object", "F3"), ("int[]", "F4")]]

    def fresh(self, kind):
        self.count += 1
        name = f"v{self.count}"
        self.scopes[-1].append((kind, name))
        return name

    def named(self, kind):
        return [name for scope in self.scopes for each, name in scope if each == kind]

    # ---- expressions

    def value(self, kind, depth):
        rng = self.rng
        names = self.named(kind)
        if names and rng.random() < (0.6 if depth <= 0 else 0.2):
            return rng.choice(names)
        if kind in NUMBERS:
            return self.number(kind, depth)
        if kind == "boolean":
            return self.test(depth)
        if kind == "String":
            return self.string(depth)
        if kind == "Object":
            return f"(Object) ({self.object(depth)})"
        return self.array(kind, depth)

    def number(self, kind, depth):
        rng = self.rng
        if depth <= 0:
            return rng.choice(NUMBERS[kind])
        if kind not in WIDE:
            return rng.choice([f"({kind}) {self.part(rng.choice(WIDE), depth)}", f"{self.part(kind + '[]', depth)}[{self.value('int', depth - 1)}]"])
        ways = [lambda: f"{self.part(kind, depth)} {rng.choice('+-*/%')} {self.part(kind, depth)}",
                lambda: f"-{self.part(kind, depth)}",
                lambda: f"({kind}) {self.part(rng.choice([*NUMBERS]), depth)}",
                lambda: f"({self.test(depth - 1)} ? {self.part(kind, depth)} : {self.part(kind, depth)})",
                lambda: f"{self.part(kind + '[]', depth)}[{self.value('int', depth - 1)}]",
                lambda: f"g({self.part(kind, depth)})"]
        if self.named(kind):
            name = rng.choice(self.named(kind))
            ways += [lambda: f"({name} = {self.value(kind, depth - 1)})", lambda: f"{name}++", lambda: f"({name} -= {self.value(kind, depth - 1)})"]
        if kind in ("int", "long"):
            ways += [lambda: f"{self.part(kind, depth)} {rng.choice(['&', '|', '^', '<<', '>>', '>>>'])} {self.part(kind, depth)}", lambda: f"~{self.part(kind, depth)}"]
        ways += [lambda: f"F5.{kind[0]}++", lambda: f"(F5.{kind[0]} *= {self.value(kind, depth - 1)})",
                 lambda: f"{self.part(kind + '[]', depth)}[{self.value('int', depth - 1)}]++",
                 lambda: f"({self.part(kind + '[]', depth)}[{self.value('int', depth - 1)}] = {self.value(kind, depth - 1)})"]
        if kind == "int":
            ways += [lambda: f"((java.util.List<?>) {self.part('Object', depth)}).size()", lambda: f"{self.part('String', depth)}.length()", lambda: f"{self.part('int[]', depth)}.length", lambda: f"{self.part('int[][]', depth)}[0][{self.value('int', depth - 1)}]"]
        return rng.choice(ways)()

    def part(self, kind, depth):
        return "(" + self.value(kind, depth - 1) + ")"

    def test(self, depth):
        rng = self.rng
        if depth <= 0:
            return rng.choice(["true", "false", "F0 > 0", "F3 == null", "F3 instanceof String"])
        kind = rng.choice(WIDE)
        return rng.choice([
            lambda: f"{self.part(kind, depth)} {rng.choice(['<', '<=', '>', '>=', '==', '!='])} {self.part(kind, depth)}",
            lambda: f"{self.part('int', depth)} {rng.choice(['<', '!='])} 0",
            lambda: f"{self.part('boolean', depth)} {rng.choice(['&&', '||', '&', '|', '^'])} {self.part('boolean', depth)}",
            lambda: f"!{self.part('boolean', depth)}",
            lambda: f"{self.part('Object', depth)} {rng.choice(['==', '!='])} {rng.choice(['null', 'F3', 'F4'])}",
            lambda: f"{self.part('Object', depth)} instanceof {rng.choice(['String', 'int[]', 'java.util.List', 'Object[][]'])}",
            lambda: f"{self.part('boolean[]', depth)}[{self.value('int', depth - 1)}]"])()

    def one_of(self, depth, plain, ways):
        """One of the plain values where no depth is left, else what one of the ways makes."""
        return self.rng.choice(plain) if depth <= 0 else self.rng.choice(ways)()

    def string(self, depth):
        return self.one_of(depth, TEXTS, [
            lambda: f"{self.part('String', depth)} + {self.part(self.rng.choice(TYPES[:9]), depth)}",
            lambda: f"(String) {self.part('Object', depth)}",
            lambda: f"String.valueOf({self.value(self.rng.choice(WIDE), depth - 1)})",
            lambda: f"({self.test(depth - 1)} ? {self.part('String', depth)} : (String) null)"])

    def object(self, depth):
        plain = ["null", "F3", "String.class", "int[].class", "new Object()"] + ([] if self.static else ["this"])
        return self.one_of(depth, plain, [
            lambda: self.part(self.rng.choice(TYPES), depth),
            lambda: f"new StringBuilder({self.value('String', depth - 1)})",
            lambda: f"new StringBuilder({self.test(depth - 1)} ? {self.part('int', depth)} : 3)",
            lambda: f"new Object[] {{ {self.value('Object', depth - 1)}, {self.value('int', depth - 1)} }}",
            lambda: f"new Object() {{ int m() {{ return F0 + {self.rng.randrange(9)}; }} }}",
            lambda: "(Runnable) () -> g(F0)", lambda: "(java.util.function.Supplier<Object>) Object::new",
            lambda: f"{self.part('Object[]', depth)}[{self.value('int', depth - 1)}]"])

    def array(self, kind, depth):
        rng = self.rng
        element, pairs = kind[:kind.index("[")], kind.count("[]")
        if depth <= 0 or pairs == 1 and rng.random() < 0.4:
            return f"new {element}[{self.value('int', 0)}]" + "[]" * (pairs - 1)
        if pairs > 1:
            return f"new {element}" + "".join(f"[{self.value('int', depth - 1)}]" for _ in range(pairs - 1)) + rng.choice(["[]", "[2]"])
        return f"new {kind} {{ {', '.join(self.value(element, depth - 2) for _ in range(rng.randrange(4)))} }}"

    # ---- statements

    def block(self, depth, size=3):
        self.scopes.append([])
        lines = [self.statement(depth - 1) for _ in range(self.rng.randrange(1, size + 1))]
        self.scopes.pop()
        return "{ " + " ".join(lines) + " }"

    def loop(self, head, depth, tail=""):
        label = f"l{len(self.labels)}"
        self.labels.append(label)
        text = f"{label}: {head} {self.block(depth)}{tail}"
        self.labels.pop()
        return text

    def statement(self, depth):
        rng = self.rng
        if depth <= 0 or rng.random() < 0.3:
            return self.simple(depth)
        test = self.test(2)
        return rng.choice([
            lambda: f"if ({test}) {self.block(depth)}",
            lambda: f"if ({test}) {self.block(depth)} else {self.block(depth)}",
            lambda: self.loop(f"while ({self.loop_test()})", depth),
            lambda: self.loop("do", depth, f" while ({self.loop_test()});"),
            lambda: self.loop(f"for (int i{depth} = 0; i{depth} < F0; i{depth} += {rng.choice([1, 7, 1000])})", depth),
            lambda: self.loop(f"for (Object o{depth} : {self.value('Object[]', 1)})", depth),
            lambda: self.switch(depth),
            lambda: f"try {self.block(depth)} catch (ClassCastException | NullPointerException e{depth}) {self.block(depth)} catch (Exception e{depth}) {self.block(depth)}",
            lambda: f"try {self.block(depth)} finally {self.block(1, 1)}",
            lambda: f"try {self.block(depth)} catch (Throwable e{depth}) {self.block(depth)} finally {self.block(1, 1)}",
            lambda: f"synchronized (K) {self.block(depth)}"])()

    def loop_test(self):
        return f"F0 {self.rng.choice(['<', '>', '!='])} {self.part('int', 2)}"

    def switch(self, depth):
        rng = self.rng
        if rng.random() < 0.2:
            return f"switch ({self.value('String', 1)}) {{ case \"Aa\": {self.block(depth)} case \"BB\": break; default: {self.block(depth)} }}"
        keys = rng.sample(rng.choice([range(6), range(-1000, 100000), [-2147483648, 2147483647, 0]]), 3)
        cases = []
        for key in keys + ["default"] * rng.randrange(2):
            self.scopes.append([])
            word = "default" if key == "default" else f"case {key}"
            cases.append(f"{word}: {{ {self.statement(depth - 1)} }}" + rng.choice([" break;", ""]))
            self.scopes.pop()
        return f"switch ({self.value('int', 1)}) {{ {' '.join(cases)} }}"

    def simple(self, depth):
        rng = self.rng
        kind = rng.choice(TYPES)
        ways = [lambda: f"F0 = {self.value('int', 2)};", lambda: f"F3 = {self.value('Object', 2)};",
                lambda: f"{self.part(rng.choice(WIDE) + '[]', 1)}[{self.value('int', 1)}] += {self.value('int', 1)};",
                lambda: f"F4[{self.value('int', 1)}]++;", lambda: f"g({self.value(rng.choice(WIDE), 2)});",
                lambda: f"if ({self.test(2)}) throw new RuntimeException({self.part('String', 2)} + 1);",
                lambda: f"if ({self.test(2)}) return" + (f" {self.value('Object', 2)};" if self.returns else ";"), lambda: f"assert {self.test(1)};"]
        if self.labels:
            ways += 2 * [lambda: f"if ({self.test(1)}) {rng.choice(['break', 'continue'])} {rng.choice(self.labels)};"]
        if depth >= 0:
            ways += 4 * [lambda: self.declared(kind)]
        return rng.choice(ways)()

    def declared(self, kind):
        value = self.value(kind, 3)
        return f"{kind} {self.fresh(kind)} = {value};"


def method(rng, number):
    static = rng.random() < 0.5
    made = Method(rng, static)
    parameters = [rng.choice(TYPES) for _ in range(rng.choice([0, 1, 2, 3, 6]))]
    head = ", ".join(f"{kind} {made.fresh(kind)}" for kind in parameters)
    lines = [made.statement(rng.choice([1, 2, 3, 4])) for _ in range(rng.randrange(1, 6))]
    words = rng.choice(["", "public ", "synchronized "]) + ("static " if static else "")
    return f"{words}Object m{number}({head}) {{\n        " + "\n        ".join(lines) + f"\n        return {made.value('Object', 2)};\n    }}"


def constructor(rng, number):
    made = Method(rng, True)
    head = ", ".join(f"{kind} {made.fresh(kind)}" for kind in (rng.choice(TYPES) for _ in range(3)))
    super_call = f"super({made.test(2)} ? {made.value('int', 2)} : {made.value('int', 1)});"
    made.static, made.returns = False, False
    return f"C{number}(byte[][][] w, {head}) {{ {super_call} {made.block(2)} }}"


SHARED = """    static int F0; static long F1; static double F2; static Object F3; static int[] F4; static Fields F5; static final Object K = new Object();
    static class Fields { int i; long l; float f; double d; }
    static int g(int a) { return a; } static long g(long a) { return a; } static float g(float a) { return a; } static double g(double a) { return a; }
"""


def some_source(rng, number):
    """A class of some random methods and perhaps a constructor that calls that of its superclass with a choice."""
    members = [method(rng, n) for n in range(rng.randrange(1, 6))]
    above = rng.choice(["", " extends java.util.ArrayList<Object>"])
    if above:
        members.append(constructor(rng, number))
    return f"class C{number}{above} {{\n{SHARED}\n    " + "\n\n    ".join(members) + "\n}\n"


def wide_source():
    """A class with a local past 255, an increment past 127, and a method of more than 32,767 bytes, whose jumps are wide."""
    locals_ = " ".join(f"long a{n} = n;" for n in range(140))
    stores = " ".join(f"a[{n}] = n * {n + 70_000};" for n in range(3_500))
    return ("class Wide { static long f(int n) { " + locals_ + " int i = n; i++; i += 1000; double d = i; Object o = null; float x = n; return o == null ? i + (long) d + a139 : (long) x; }"
            " static void g(int n, int[] a) { while (n > 0) { " + stores + " n--; } } }")
