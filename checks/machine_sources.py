"""Methods in Java for checks/machine.py: every kind of instruction that works on ints, longs, arrays, objects and exceptions."""

OPERATORS = {"add": "+", "sub": "-", "mul": "*", "div": "/", "rem": "%", "and": "&", "or": "|", "xor": "^"}
SHIFTS = {"shl": "<<", "shr": ">>", "ushr": ">>>"}
TESTS = {"eq": "==", "ne": "!=", "lt": "<", "ge": ">=", "gt": ">", "le": "<="}
NARROW = ["byte", "short", "char", "int", "long"]
FIXED = """
    static int s; static long w; static boolean z; static byte y; static M kept;
    int f; long g; char c; M next;
    M() {}
    M(int a) { f = a; g = a * 3L; }
    int member(int a) { f += a; return f; }
    private int secret(int a) { f -= a; return f * 2; }
    public int compareTo(Object other) { return f - ((M) other).f; }
    public boolean equals(Object other) { return f == 3 || super.equals(other); }
    long both(long a, int b) { g += a; c = (char) b; return g - c; }
    static int t_while(int a) { int n = a & 31, r = 1; while (n-- > 0) r = r * 3 + n; return r; }
    static long t_for(long a, int b) { long r = a; for (int i = 0; i < (b & 15); i++) { if (i == 5) continue; if (i == 11) break; r = r * 7 + i; } return r; }
    static int t_wide_inc(int a) { a += 1000; a -= 30000; a++; return a; }
    static int t_table(int a) { switch (a & 15) { case 3: return 1; case 4: a += 2; case 5: a *= 3; break; case 7: return a; case 9: a--; break; default: a ^= 77; } return a; }
    static int t_lookup(int a) { switch (a) { case -2147483648: return 1; case -1: return 2; case 0: return 3; case 127: return 4; case 65536: return 5; case 2147483647: return 6; default: return 7; } }
    static int t_around(int a) { switch (a) { case 2147483645: return 1; case 2147483646: return 2; case 2147483647: return 3; default: return 4; } }
    static int t_choice(int a, int b) { return a > b ? a < 0 ? 1 : 2 : a == b ? 3 : 4; }
    static boolean t_logic(int a, int b, long d) { return a > 0 && b < 5 || !(d == 3L) && a != b; }
    static int t_catch(int a, int b) { try { return a / b; } catch (ArithmeticException e) { return -7; } }
    static int t_two(int a, int b) { try { int[] x = new int[a % 20]; return x[b]; } catch (NegativeArraySizeException e) { return -1; } catch (ArrayIndexOutOfBoundsException e) { return -2; } }
    static int t_above(int a, int b) { try { return new int[2][b & 3][a & 3].length + new int[b & 3][1][a & 3].length; } catch (RuntimeException e) { return 9; } }
    static int t_nested(int a, int b) { int r = 0; try { try { r = a / b; int[] x = new int[2]; r += x[b & 3] == 0 ? 1 : 2; } catch (ArrayIndexOutOfBoundsException e) { r = 5; } finally { r += 100; } } catch (ArithmeticException e) { r += 1000; } return r; }
    static int t_finally(int a, int b) { int r = a; try { r = a % b; if (r == 1) return r; } finally { r++; s = r; } return r + s; }
    static int t_finally_returns(int a, int b) { try { return a / b; } finally { if (a == 3) return 33; } }
    static int t_thrown(int a) { try { if (a > 5) throw new IllegalArgumentException(); if (a < -5) throw new Error(); return a; } catch (RuntimeException e) { return -1; } }
    static int t_rethrown(int a) { try { if (a > 5) throw new IllegalArgumentException(); return a; } catch (RuntimeException e) { if (a > 100) throw e; return -1; } }
    static int t_null_thrown(int a) { RuntimeException e = a > 0 ? new RuntimeException() : null; throw e; }
    static int t_null_array(int a, int b) { int[] x = a > 0 ? new int[3] : null; return x[b & 3] + x.length; }
    static int t_null_field(int a) { M m = a > 0 ? new M(a) : null; return m.f + m.member(2); }
    static int t_order(int a, int b) { int[] x = a > 0 ? new int[2] : null; x[b] = a / (b - 1); return x[b]; }
    static int t_store(int a, int b) { Object[] o = a > 0 ? new String[2] : new Object[2]; o[b & 3] = new M(); return o.length; }
    static int t_store_null(int a, int b) { Object[] o = new String[2]; o[b & 3] = null; o[0] = "x"; return o[0] == "x" ? 1 : 0; }
    static int t_store_array(int a, int b) { Object[] o = a > 0 ? new int[2][] : new long[2][]; o[b & 1] = new int[1]; return 4; }
    static int t_cast(int a) { Object o = a > 3 ? new int[1] : a > 0 ? "s" : a < -3 ? new M(a) : null; int r = 0; if (o instanceof int[]) r += 1; if (o instanceof String) r += 2; if (o instanceof M) r += 4; if (o instanceof Object) r += 8; if (o instanceof Comparable) r += 16; if (o instanceof Cloneable) r += 32; return r; }
    static int t_cast_array(int a) { Object o = a > 3 ? new int[1] : a > 0 ? "s" : a < -3 ? new long[1] : null; int[] x = (int[]) o; return x == null ? 1 : x.length + 5; }
    static int t_cast_class(int a) { Object o = a > 3 ? new int[1] : a > 0 ? new M(a) : a < -3 ? "s" : null; M m = (M) o; return m == null ? 1 : m.f; }
    static boolean t_same(int a) { M m = new M(1), n = a > 0 ? m : new M(1); return m == n; }
    static boolean t_text(int a) { String m = "abc", n = a > 0 ? "abc" : "abd"; return m == n; }
    static int t_locked(int a, int b) { Object o = new Object(); synchronized (o) { synchronized (o) { s = a; } return s / b; } }
    static int t_locked_null(int a) { Object o = a > 0 ? new Object() : null; synchronized (o) { return 3; } }
    static int t_statics(int a, long b) { s = a; w = b; z = a > 0; y = (byte) a; s++; w--; ++w; y += 3; return s + (int) w + (z ? 1 : 0) + y; }
    static int t_static_old(int a) { s = a; int r = s++ * 3; r += ++s; w = a; long q = w++; return r + (int) (q ^ w); }
    static long t_fields(int a, long b) { M m = new M(a); m.f++; m.g += b; int r = m.f++; long q = m.g--; m.c = (char) a; m.c += 2; return r + q + m.f + m.g + m.c; }
    static long t_chain(int a, long b) { M m = new M(a); m.next = new M(5); m.next.next = m; kept = m; kept.next.f = m.f = a + 1; kept.next.g = m.g = b; return m.next.f + kept.next.next.f + m.next.g; }
    static int t_member(int a, int b) { M m = new M(a); return m.member(b) * 3 + m.member(1); }
    static long t_both(long a, int b) { return new M(b).both(a, b) - new M(1).both(3, 4); }
    static int t_array_old(int a, int b) { int[] x = new int[4]; int i = b & 3; x[i] = a; int r = x[i]++; x[i] += b; x[i] <<= 3; long[] q = new long[4]; q[i] = a; long p = q[i]--; q[i] *= 5; p += ++q[i]; return r + x[i] + (int) p; }
    static int t_all_arrays(int a, int b) { int i = b & 7; byte[] x = new byte[5]; char[] d = new char[6]; short[] h = new short[7]; boolean[] o = new boolean[8]; h[i] = (short) a; d[i] = (char) a; x[i] = (byte) a; o[i] = a > 3; x[i]++; d[i]--; h[i] += 5; return x[i] + d[i] + h[i] + (o[i] ? 1 : 0); }
    static int t_grid(int a, int b) { int[][] x = new int[a & 3][b & 3]; x[a & 1][b & 1] = 7; int[][][] q = new int[2][3][]; q[1][2] = x[0]; return x.length + x[0].length + q[1][2][0] + (q[0][0] == null ? 1 : 0); }
    static int t_sizes(int a, int b) { return new long[a % 20][b % 20].length; }
    static int t_clone(int a) { int[] x = {a, 2, a + 3}; int[] q = x.clone(); q[1] = 9; return x[1] + q[1] + q[2] + q.length; }
    static int t_fill(int a) { int[] x = {5, 4, 3, 2, 1, a}; for (int i = 0; i < x.length; i++) for (int j = i + 1; j < x.length; j++) if (x[j] < x[i]) { int h = x[i]; x[i] = x[j]; x[j] = h; } return x[0] * 100 + x[3]; }
    static int fib(int a) { return a < 2 ? a : fib(a - 1) + fib(a - 2); }
    static int t_calls(int a) { return fib(a & 7); }
    static long mix(int a, long b, int d, long e) { return a * 3L + b * 5 + d * 7 + e; }
    static long t_mix(int a, long b) { return mix(a, b, (int) b, a) ^ mix((int) b, a, a, b); }
    static int deep(int a, int b) { if (a == 0) return 10 / b; return deep(a - 1, b) + 1; }
    static int t_deep(int a, int b) { try { return deep(a & 3, b); } catch (ArithmeticException e) { return -3; } }
    static int t_uncaught(int a, int b) { try { return deep(a & 3, b); } catch (NullPointerException e) { return -3; } }
    static byte narrow(byte a, short b, char d, boolean e) { return (byte) (a + b + d + (e ? 1 : 0)); }
    static int t_narrow(int a, int b) { return narrow((byte) a, (short) b, (char) (a + b), a > b); }
    static void t_nothing(int a) { s = a; if (a > 4) return; s /= a; }
    static int t_secret(int a, int b) { M m = new M(a); return m.secret(b) ^ m.secret(1); }
    static int t_interface(int a, int b) { Comparable<Object> m = a > 6 ? null : new M(a); return m.compareTo(b > 3 ? new M(b) : b > 0 ? null : "s"); }
    static boolean t_super(int a, int b) { M m = new M(a), n = b > 3 ? m : new M(b); return m.equals(n); }
    static int t_dropped(int a, long b) { fib(a & 3); mix(a, b, 2, b); new M(a).member(3); new M(a).both(b, a); return s; }
    static int[] t_elements(int a, int b) { int[] x = {a, b, a + b, a * b}; x[b & 3] >>>= a; return x; }
    static Object[] t_objects(int a, int b) { Object[] x = {null, "s", new M(a), new int[1], new Object()}; x[b & 3] = x[a & 3]; return x; }
    static boolean t_classes(int a, int b) { Class<?> x = a > 0 ? M.class : int[].class, y = b > 0 ? M.class : int[].class; return x == y; }
    static int t_references(int a, int b) { Object o = a > 0 ? null : "s", p = b > 0 ? null : new M(a); return (o != null ? 1 : 0) + (o != p ? 2 : 0) + (o == p ? 4 : 0) + (p == null ? 8 : 0); }
    static Object t_object(int a) { return a > 3 ? new M(a) : a > 0 ? new int[2] : a < -3 ? new Object[1][1] : null; }
    static Class<?> t_class(int a) { return a > 0 ? M.class : int[].class; }
"""


def generated():
    """A method for each operator, conversion and test, on ints and on longs."""
    methods = []
    for name, sign in OPERATORS.items():
        methods.append(f"static int t_i{name}(int a, int b) {{ return a {sign} b; }}")
        methods.append(f"static long t_l{name}(long a, long b) {{ return a {sign} b; }}")
        methods.append(f"static long t_m{name}(int a, long b) {{ long r = a; r {sign}= b; return r; }}")
    for name, sign in SHIFTS.items():
        methods.append(f"static int t_i{name}(int a, int b) {{ return a {sign} b; }}")
        methods.append(f"static long t_l{name}(long a, int b) {{ return a {sign} b; }}")
        methods.append(f"static long t_ll{name}(long a, long b) {{ return a {sign} b; }}")
    for name, sign in TESTS.items():
        methods.append(f"static boolean t_i{name}(int a, int b) {{ return a {sign} b; }}")
        methods.append(f"static boolean t_z{name}(int a) {{ return a {sign} 0; }}")
        methods.append(f"static boolean t_l{name}(long a, long b) {{ return a {sign} b; }}")
        methods.append(f"static int t_w{name}(int a, int b) {{ int r = 0; while (a {sign} b && r < 4) {{ r++; a++; b += 2; }} return r; }}")
    for first in NARROW:
        for second in NARROW:
            for wide in "int", "long":
                methods.append(f"static {second} t_{wide}_{first}_{second}({wide} a) {{ {first} x = ({first}) a; return ({second}) x; }}")
        methods.append(f"static int t_param_{first}({first} a, int b) {{ {first}[] x = new {first}[3]; x[b & 3] = a; return (int) x[b & 1]; }}")
    cases = " ".join(f"case {n}: a += {n * n};{' break;' * (n % 3 == 0)}" for n in range(-130, 200))
    methods.append(f"static int t_long_table(int a) {{ switch ((short) a) {{ {cases} default: a--; }} return a; }}")
    cases = " ".join(f"case {n * n * n * (1 - n % 2 * 2)}: a ^= {n * 1001};{' break;' * (n % 4 == 0)}" for n in range(1, 200))
    methods.append(f"static int t_long_lookup(int a) {{ switch (a * 8) {{ default: a++; {cases} }} return a; }}")
    locals = " ".join(f"int x{n} = a + {n * 77}; long y{n} = x{n}; Object z{n} = null;" for n in range(80))
    methods.append(f"static long t_wide(int a) {{ {locals} x79 += 5; x78 += 700; z79 = z78; x77 = x79; y79 += y78; return x79 + x78 + x77 + y79 + (z79 == null ? 1 : 0); }}")
    for wide in "int", "long":
        methods.append(f"static {wide} t_{wide}_signs({wide} a) {{ return -a ^ ~a; }}")
    return methods


def source():
    return "class M implements Comparable<Object> {" + FIXED + "\n".join("    " + method for method in generated()) + "\n}\n"
