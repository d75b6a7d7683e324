"""The texts of units with each kind of expression, statement, modifier, field and member, and their shapes, written by hand.

usage: python3 checks/text_table.py          writes the stored run of texts_check, the files stdin and stdout of its crate
       python3 checks/text_table.py --javac  compares the shapes with javac's parser, and the texts with what the rules give

A shape is of the form of `texts.py`. Each text is laid out as a unit's one text has to be, so texts_check has to read it.
"""
import pathlib, subprocess, sys, tempfile, textwrap
from unit_texts import text as text_of
from unit_trees import tree

FOLDER = pathlib.Path(__file__).resolve().parent
CRATE = FOLDER.parent / "crates/texts_check"

EXPRESSIONS = [
    ("0", "(int 0)"),
    ("2147483647", "(int 2147483647)"),
    ("-5", "(int -5)"),
    ("-2147483648", "(int -2147483648)"),
    ("0L", "(long 0)"),
    ("9223372036854775807L", "(long 9223372036854775807)"),
    ("-9223372036854775808L", "(long -9223372036854775808)"),
    ('""', '(text "")'),
    ('"a b~"', r'(text "a\u0020b~")'),
    (r'"\b\t\n\f\r\"\\"', r'(text "\u0008\u0009\u000a\u000c\u000d"\u005c")'),
    (r'"\\u0041\u00e9"', r'(text "\u005cu0041\u00e9")'),
    (r'"\u0000\u000b\u001f\u007f\u0080\u20ac\ud800\udfff\uffff"', r'(text "\u0000\u000b\u001f\u007f\u0080\u20ac\ud800\udfff\uffff")'),
    (r'"\\\\u0041"', r'(text "\u005c\u005cu0041")'),
    (r'"\\\u0001"', r'(text "\u005c\u0001")'),
    ("true", "true"),
    ("false", "false"),
    ("null", "null"),
    ("this", "this"),
    ("p0", "p0"),
    ("v17", "v17"),
    ("e1", "e1"),
    ("s4294967295", "s4294967295"),
    ("int.class", "(. int class)"),
    ("boolean[].class", "(. (array boolean) class)"),
    ("a.b.C[][].class", "(. (array (array (. (. a b) C))) class)"),
    ("p0.f", "(. p0 f)"),
    ("this.p0", "(. this p0)"),
    ("p0.f.g", "(. (. p0 f) g)"),
    ("C.f", "(. C f)"),
    ("a.b.C.f", "(. (. (. a b) C) f)"),
    ("(C.f).g", "(. (paren (. C f)) g)"),
    ("(-5).f", "(. (paren (int -5)) f)"),
    ("(new C()).f", "(. (paren (new C ())) f)"),
    ("p0[0]", "(index p0 (int 0))"),
    ("C.f[p1 = 5]", "(index (. C f) (= p1 (int 5)))"),
    ("(p0 + p1)[-1]", "(index (paren (+ p0 p1)) (int -1))"),
    ("p0.f()", "(call () (. p0 f) ())"),
    ("p0.f(1, -2L)", "(call () (. p0 f) ((int 1) (long -2)))"),
    ("(C.f).g(p0 = null)", "(call () (. (paren (. C f)) g) ((= p0 null)))"),
    ('"a".f().g()', '(call () (. (call () (. (text "a") f) ()) g) ())'),
    ("C.f()", "(call () (. C f) ())"),
    ("a.C.f(true)", "(call () (. (. a C) f) (true))"),
    ("super.f()", "(call () (. super f) ())"),
    ("a.I.super.f(this, p0)", "(call () (. (. (. a I) super) f) (this p0))"),
    ("new C()", "(new C ())"),
    ("new a.C(p0 + p1, new D())", "(new (. a C) ((+ p0 p1) (new D ())))"),
    ("new int[5]", "(newarray int ((int 5)))"),
    ("new a.C[p0][p1][][]", "(newarray (array (array (. a C))) (p0 p1))"),
    ("new char[p0 - 1]", "(newarray char ((- p0 (int 1))))"),
    ("(int) p0", "(cast int p0)"),
    ("(a.C[]) (p0 + p1)", "(cast (array (. a C)) (paren (+ p0 p1)))"),
    ("(long) (-5)", "(cast long (paren (int -5)))"),
    ("p0 instanceof C", "(instanceof p0 C)"),
    ("(p0 = p1) instanceof a.C[]", "(instanceof (paren (= p0 p1)) (array (. a C)))"),
    ("-p0", "(neg p0)"),
    ("-(5)", "(neg (paren (int 5)))"),
    ("-(0L)", "(neg (paren (long 0)))"),
    ("-(-5)", "(neg (paren (int -5)))"),
    ("-(-p0)", "(neg (paren (neg p0)))"),
    ("-C.f", "(neg (. C f))"),
    ("!p0", "(! p0)"),
    ("!(!p0)", "(! (paren (! p0)))"),
    *[(f"p0 {op} p1", f"({op} p0 p1)") for op in "* / % + - << >> >>> < <= > >= == != & ^ | && ||".split()],
    ("1 + 2", "(+ (int 1) (int 2))"),
    ("(p0 + p1) - (-5)", "(- (paren (+ p0 p1)) (paren (int -5)))"),
    ("p0 - (p1 - p2)", "(- p0 (paren (- p1 p2)))"),
    ("p0 ? 1 : C.f", "(? p0 (int 1) (. C f))"),
    ("(p0 < 5) ? (-1) : (p0 ? p1 : p2)", "(? (paren (< p0 (int 5))) (paren (int -1)) (paren (? p0 p1 p2)))"),
    ("v1 = v2 = p0 + 1", "(= v1 (= v2 (+ p0 (int 1))))"),
    ("(v1 = p0) == null", "(== (paren (= v1 p0)) null)"),
]

STATEMENTS = [
    ("{\n}", "(block)"),
    ("{\n    return;\n    {\n    }\n}", "(block (return -) (block))"),
    ("l0: {\n}", "(label l0 (block))"),
    ("l0: l4294967295: while (true) {\n}", "(label l0 (label l4294967295 (while (paren true) (block))))"),
    ("int v0;", "(var () int v0 -)"),
    ("a.C[] e1 = null;", "(var () (array (. a C)) e1 null)"),
    ("v0 = p0 - 1;", "(run (= v0 (- p0 (int 1))))"),
    ("p0.f = 5;", "(run (= (. p0 f) (int 5)))"),
    ("(C.f).g = p0;", "(run (= (. (paren (. C f)) g) p0))"),
    ("a.C.f = -5;", "(run (= (. (. a C) f) (int -5)))"),
    ("p0[p1 + 1] = p1 = 5;", "(run (= (index p0 (+ p1 (int 1))) (= p1 (int 5))))"),
    ("(new int[2])[0] = 5;", "(run (= (index (paren (newarray int ((int 2)))) (int 0)) (int 5)))"),
    ("p0.f();", "(run (call () (. p0 f) ()))"),
    ("C.f(p0);", "(run (call () (. C f) (p0)))"),
    ("super.f();", "(run (call () (. super f) ()))"),
    ("new C(5);", "(run (new C ((int 5))))"),
    ("if (p0 == 5) {\n    break l0;\n}", "(if (paren (== p0 (int 5))) (block (break l0)) -)"),
    ("if (p0) {\n} else {\n    v0 = 1;\n}", "(if (paren p0) (block) (block (run (= v0 (int 1)))))"),
    ("if (p0) {\n} else {\n    if (p1) {\n    }\n}", "(if (paren p0) (block) (block (if (paren p1) (block) -)))"),
    ("while (!p0) {\n    continue l1;\n}", "(while (paren (! p0)) (block (continue l1)))"),
    ("switch (p0) {\n    case 5:\n}", "(switch (paren p0) (case (int 5)))"),
    ("switch (p0 + 1) {\n    case -5:\n    case 0:\n        v0 = 1;\n        break l0;\n    default:\n        return;\n}",
     "(switch (paren (+ p0 (int 1))) (case (int -5)) (case (int 0) (run (= v0 (int 1))) (break l0)) (case default (return -)))"),
    ("switch (p0) {\n    default:\n    case 1:\n        {\n        }\n    case 2:\n}", "(switch (paren p0) (case default) (case (int 1) (block)) (case (int 2)))"),
    ("return;", "(return -)"),
    ("return -5;", "(return (int -5))"),
    ('return "\\\\u0041\\u00e9";', r'(return (text "\u005cu0041\u00e9"))'),
    ("throw e0;", "(throw e0)"),
    ("throw new a.C();", "(throw (new (. a C) ()))"),
    ("try {\n    return;\n} catch (a.C e0) {\n    throw e0;\n}",
     "(try () (block (return -)) ((catch (var () (. a C) e0 -) (block (throw e0)))) -)"),
    ("try {\n} catch (C e0) {\n} catch (D v1) {\n}", "(try () (block) ((catch (var () C e0 -) (block)) (catch (var () D v1 -) (block))) -)"),
    ("try {\n    v0 = 1;\n} finally {\n    v0 = 2;\n}", "(try () (block (run (= v0 (int 1)))) () (block (run (= v0 (int 2)))))"),
    ("synchronized (this) {\n    return;\n}", "(synchronized (paren this) (block (return -)))"),
    ("this();", "(run (call () this ()))"),
    ("super(p0, 5);", "(run (call () super (p0 (int 5))))"),
    ("do {\n    v0 = 1;\n} while (v0 < p0);", "(do (block (run (= v0 (int 1)))) (paren (< v0 p0)))"),
    ("for (; v0 < 5; v0 = v0 + 1) {\n    p0.f();\n}",
     "(for () (< v0 (int 5)) ((run (= v0 (+ v0 (int 1))))) (block (run (call () (. p0 f) ()))))"),
]

MEMBERS = [
    ("int a;", "(var () int a -)"),
    *[(f"{word} int a;", f"(var ({word}) int a -)") for word in "public protected private static transient volatile".split()],
    ("final int a = 5;", "(var (final) int a (int 5))"),
    ("public protected private static final transient volatile long a = -5L;", "(var (public protected private static final transient volatile) long a (long -5))"),
    ("boolean a = true;", "(var () boolean a true)"),
    ("java.lang.String a = \"\\n\";", '(var () (. (. java lang) String) a (text "\\u000a"))'),
    ("a.C[][] a = null;", "(var () (array (array (. a C))) a null)"),
    ("char a = (char) (-1);", "(var () char a (cast char (paren (int -1))))"),
    ("byte a;\nshort b;\nfloat[] c;\ndouble d;", "(var () byte a -) (var () short b -) (var () (array float) c -) (var () double d -)"),
    ("void f() {\n}", "(method () () void f () () (block))"),
    ("void f();", "(method () () void f () () -)"),
    *[(f"{word} void f();", f"(method ({word}) () void f () () -)") for word in "public protected private abstract static final synchronized native".split()],
    ("public protected private abstract static final synchronized native int[] f();",
     "(method (public protected private abstract static final synchronized native) () (array int) f () () -)"),
    ("int f(long p0, a.C[] p1) throws a.E, F {\n    return;\n}",
     "(method () () int f ((var () long p0 -) (var () (array (. a C)) p1 -)) ((. a E) F) (block (return -)))"),
    ("C(int p0) {\n    this();\n}", "(method () () - <init> ((var () int p0 -)) () (block (run (call () this ()))))"),
    ("private C() throws E {\n}", "(method (private) () - <init> () (E) (block))"),
    ("static {\n    C.f = 5;\n}", "(static (run (= (. C f) (int 5))))"),
    ("static {\n}\nvoid f();\nC() {\n}", "(static) (method () () void f () () -) (method () () - <init> () () (block))"),
]

HELPER = ("static <T extends java.lang.Throwable> java.lang.RuntimeException rethrow$10(java.lang.Throwable t) throws T {\n    throw (T) t;\n}",
          "(method (static) ((type T (. (. java lang) Throwable))) (. (. java lang) RuntimeException) rethrow$10 ((var () (. (. java lang) Throwable) t -)) (T) (block (throw (cast T t))))")

INTERFACE_MEMBERS = [
    ("int a = 5;", "(var () int a (int 5))"),
    ("static int a = 5;", "(var (static) int a (int 5))"),
    ("void f();", "(method () () void f () () -)"),
    ("default void f() {\n}", "(method (default) () void f () () (block))"),
    ("static void f() {\n}", "(method (static) () void f () () (block))"),
]

UNITS = [
    ("class C {\n}\n", "(unit - () ((class () C - () ())))"),
    ("package a;\nclass C {\n}\n", "(unit a () ((class () C - () ())))"),
    ("package a.b.c;\npublic abstract final class C extends a.B implements I, a.J {\n}\n",
     "(unit (. (. a b) c) () ((class (public abstract final) C (. a B) (I (. a J)) ())))"),
    ("class $_9 implements p0.v1 {\n}\n", "(unit - () ((class () $_9 - ((. p0 v1)) ())))"),
    ("interface I {\n}\n", "(unit - () ((interface () I - () ())))"),
    ("public interface I extends a.J, K {\n}\n", "(unit - () ((interface (public) I - ((. a J) K) ())))"),
    ("public class C {\n    static int f(int p0, int p1) {\n        return p0 - p1;\n    }\n}\n",
     "(unit - () ((class (public) C - () ((method (static) () int f ((var () int p0 -) (var () int p1 -)) () (block (return (- p0 p1))))))))"),
]

DIFFERENCE = UNITS[-1][0]
NO_TEXTS = [
    "",
    DIFFERENCE.replace("return ", "return  "),
    DIFFERENCE[:-1],
    DIFFERENCE + "\n",
    DIFFERENCE.replace("p0 - p1", "(p0) - p1"),
    DIFFERENCE.replace("p0 - p1", "p0 - -1"),
    DIFFERENCE.replace("p0 - p1", "p0 - 01"),
    DIFFERENCE.replace("p0 - p1", "p0 ? -1 : p1"),
    DIFFERENCE.replace("p0 - p1", "(int) -1"),
    DIFFERENCE.replace("p0 - p1", r'"\u0041"'),
    DIFFERENCE.replace("p0 - p1", r'"\u000a"'),
    DIFFERENCE.replace("p0 - p1", r'"\u00E9"'),
    DIFFERENCE.replace("p0 - p1", "(p0.f).g"),
    DIFFERENCE.replace("return p0 - p1;", "if (p0) {\n        } else {\n        }"),
    DIFFERENCE.replace("return p0 - p1;", "switch (p0) {\n        case 1:\n        }"),
    DIFFERENCE.replace("return p0 - p1;", "throw C.<java.lang.RuntimeException>rethrow$0(p0);"),
    "interface I {\n    void f() {\n    }\n}\n",
    "class C extends java.lang.Object {\n}\n",
]


def placed(lines, level):
    return textwrap.indent(lines, "    " * level) + "\n"


def unit(kind, name, members, shapes):
    return f"{kind} {name} {{\n{members}}}\n", f"(unit - () (({kind} () {name} - () ({shapes}))))"


def method(lines, shapes):
    return unit("class", "C", f"    void m() {{\n{placed(lines, 2)}    }}\n", f"(method () () void m () () (block {shapes}))")


def rethrown():
    """A unit with the helper, through which a method throws."""
    throw = "throw C.<java.lang.RuntimeException>rethrow$10(e0);"
    shape = "(throw (call ((. (. java lang) RuntimeException)) (. C rethrow$10) (e0)))"
    members = placed(HELPER[0], 1) + f"    void m() {{\n{placed(throw, 2)}    }}\n"
    return unit("class", "C", members, f"{HELPER[1]} (method () () void m () () (block {shape}))")


def units():
    """Each text with its shape."""
    return [
        *UNITS,
        *[method(f"v0 = {text};", f"(run (= v0 {shape}))") for text, shape in EXPRESSIONS],
        *[method(*row) for row in STATEMENTS],
        *[unit("class", "C", placed(text, 1), shape) for text, shape in MEMBERS],
        *[unit("interface", "I", placed(text, 1), shape) for text, shape in INTERFACE_MEMBERS],
        unit("class", "C", placed(HELPER[0], 1), HELPER[1]),
        rethrown(),
    ]


def javac(texts):
    """The shapes that javac's parser gives to texts."""
    with tempfile.TemporaryDirectory() as folder:
        subprocess.run(["javac", "-d", folder, str(FOLDER / "Texts.java")], check=True)
        given = "".join(text.encode().hex() + "\n" for text in texts).encode()
        return subprocess.run(["java", "-cp", folder, "Texts"], input=given, stdout=subprocess.PIPE, check=True).stdout.decode().splitlines()


def compare():
    texts, shapes = zip(*units())
    wrong = [(text, wanted, given) for text, wanted, given in zip(texts, shapes, javac(texts), strict=True) if given != wanted]
    wrong += [(text, text, text_of(tree(shape))) for text, shape in zip(texts, shapes) if text_of(tree(shape)) != text]
    for text, wanted, given in wrong:
        print(f"{given}, and not {wanted}, of\n{text}")
    print(len(texts) - len(wrong), "as wanted,", len(wrong), "not")
    return 1 if wrong else 0


def write():
    rows = [(f"read {text.encode().hex()}", f"unit {shape}") for text, shape in units()]
    rows += [(f"read {text.encode().hex()}", "misread") for text in NO_TEXTS]
    rows += [("make x", "unknown"), ("write 1", "unknown"), ("print x", "no text"), ("read", "unknown")]
    rows += [("file C.java", "read"), ("file NoLastLineEnd.java", "misread"), ("file NoLine.java", "misread"), ("file NoFile.java", "no text")]
    rows += [("print C.java", str(len((CRATE / "data/C.java").read_text().split("\n", 1)[1]))), ("print NoLine.java", "misread")]
    for name, lines in zip(("stdin", "stdout"), zip(*rows)):
        (CRATE / name).write_text("".join(line + "\n" for line in lines))
    return 0


if __name__ == "__main__":
    sys.exit(compare() if sys.argv[1:] == ["--javac"] else write())
