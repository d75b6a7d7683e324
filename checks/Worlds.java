import com.sun.source.tree.CompilationUnitTree;
import com.sun.source.tree.MethodInvocationTree;
import com.sun.source.tree.MethodTree;
import com.sun.source.tree.NewClassTree;
import com.sun.source.tree.Tree;
import com.sun.source.util.JavacTask;
import com.sun.source.util.TreePathScanner;
import com.sun.source.util.Trees;
import java.io.BufferedReader;
import java.io.File;
import java.io.InputStreamReader;
import java.lang.invoke.MethodHandles.Lookup;
import java.lang.invoke.MethodType;
import java.lang.reflect.AccessibleObject;
import java.lang.reflect.Field;
import java.lang.reflect.InvocationTargetException;
import java.lang.reflect.Method;
import java.net.URL;
import java.net.URLClassLoader;
import java.util.ArrayList;
import java.util.HashMap;
import java.util.List;
import java.util.Map;
import java.util.Set;
import java.util.TreeSet;
import javax.lang.model.element.Element;
import javax.lang.model.element.ExecutableElement;
import javax.lang.model.element.TypeElement;
import javax.lang.model.element.VariableElement;
import javax.lang.model.type.ArrayType;
import javax.lang.model.type.DeclaredType;
import javax.lang.model.type.TypeKind;
import javax.lang.model.type.TypeMirror;
import javax.tools.Diagnostic;
import javax.tools.DiagnosticCollector;
import javax.tools.JavaCompiler;
import javax.tools.JavaFileObject;
import javax.tools.StandardJavaFileManager;
import javax.tools.ToolProvider;
import sun.misc.Unsafe;

/**
 * Answers questions about the class files of a folder, a line each. `folder PATH` begins with a new one and has no answer.
 *
 *     method CLASS NAME DESCRIPTOR    the class that declares the method to which the JVM resolves this, whatever the access
 *     field CLASS NAME DESCRIPTOR     the same of a field
 *     assignable FROM TO              whether the JVM lets the class FROM go where TO is wanted, both descriptors
 *     choose SOURCE NUMBER            the method that javac chooses for the call in the method `cNUMBER` of a source file
 *
 * Answered are `yes`, `no`, `none`, a class's name, and for a choice the class, the name and the descriptor.
 */
public class Worlds {
    static final JavaCompiler JAVAC = ToolProvider.getSystemJavaCompiler();

    /** The kinds of references by JVMS table 5.4.3.5-A. */
    static final byte GET_FIELD = 1, GET_STATIC = 2, INVOKE_VIRTUAL = 5, INVOKE_STATIC = 6, NEW_INVOKE_SPECIAL = 8, INVOKE_INTERFACE = 9;

    /** A look-up to which all is open, and how it resolves a method and a field. */
    static final Object ALL;
    static final Method RESOLVE_METHOD, RESOLVE_FIELD, DECLARING_CLASS;

    /** What a name of a method is resolved to; there the JVM keeps the class that holds the method, which Java doesn't see. */
    static final Field TARGET;
    static final Unsafe UNSAFE;
    static final long HOLDER = 12;

    static {
        try {
            Field everything = Lookup.class.getDeclaredField("IMPL_LOOKUP");
            everything.setAccessible(true);
            ALL = everything.get(null);
            RESOLVE_METHOD = Lookup.class.getDeclaredMethod("resolveOrFail", byte.class, Class.class, String.class, MethodType.class);
            RESOLVE_FIELD = Lookup.class.getDeclaredMethod("resolveOrFail", byte.class, Class.class, String.class, Class.class);
            DECLARING_CLASS = Class.forName("java.lang.invoke.MemberName").getMethod("getDeclaringClass");
            TARGET = Class.forName("java.lang.invoke.MemberName").getDeclaredField("method");
            Field unsafe = Unsafe.class.getDeclaredField("theUnsafe");
            for (AccessibleObject one : List.of(RESOLVE_METHOD, RESOLVE_FIELD, DECLARING_CLASS, TARGET, unsafe)) {
                one.setAccessible(true);
            }
            UNSAFE = (Unsafe) unsafe.get(null);
        } catch (ReflectiveOperationException error) {
            throw new AssertionError(error);
        }
    }

    final File folder;
    final ClassLoader loader;
    Map<String, String> choices;

    Worlds(String path) throws Exception {
        folder = new File(path);
        loader = new URLClassLoader(new URL[] {folder.toURI().toURL()}, null);
    }

    // ---- the JVM

    Class<?> named(String name) throws ClassNotFoundException {
        return Class.forName(name.replace('/', '.'), false, loader);
    }

    Class<?> typed(String descriptor) throws Exception {
        return MethodType.fromMethodDescriptorString("(" + descriptor + ")V", loader).parameterType(0);
    }

    /** The class that declares what is found by one of two kinds of references. */
    static String resolved(Method resolve, byte first, byte second, Object... words) throws Exception {
        String why = "";
        for (byte kind : new byte[] {first, second}) {
            try {
                Object member = resolve.invoke(ALL, kind, words[0], words[1], words[2]);
                Object target = TARGET.get(member);
                Object declared = target == null ? DECLARING_CLASS.invoke(member) : UNSAFE.getObject(target, HOLDER);
                return ((Class<?>) declared).getName().replace('.', '/');
            } catch (InvocationTargetException error) {
                why += error.getCause();
            }
        }
        return why.contains("Conflicting default methods") ? "conflict" : "none";
    }

    String method(String owner, String name, String descriptor) throws Exception {
        Class<?> from = named(owner);
        MethodType type = MethodType.fromMethodDescriptorString(descriptor, loader);
        if (name.equals("<init>")) {
            return resolved(RESOLVE_METHOD, NEW_INVOKE_SPECIAL, NEW_INVOKE_SPECIAL, from, name, type);
        }
        return resolved(RESOLVE_METHOD, from.isInterface() ? INVOKE_INTERFACE : INVOKE_VIRTUAL, INVOKE_STATIC, from, name, type);
    }

    String field(String owner, String name, String descriptor) throws Exception {
        return resolved(RESOLVE_FIELD, GET_FIELD, GET_STATIC, named(owner), name, typed(descriptor));
    }

    // ---- javac

    static String spelled(TypeMirror type) {
        if (type.getKind() == TypeKind.ARRAY) {
            return "[" + spelled(((ArrayType) type).getComponentType());
        }
        if (type.getKind() == TypeKind.DECLARED) {
            TypeElement element = (TypeElement) ((DeclaredType) type).asElement();
            return "L" + element.getQualifiedName().toString().replace('.', '/') + ";";
        }
        return switch (type.getKind()) {
            case BOOLEAN -> "Z";
            case BYTE -> "B";
            case CHAR -> "C";
            case SHORT -> "S";
            case INT -> "I";
            case LONG -> "J";
            case VOID -> "V";
            default -> "?";
        };
    }

    static String spelled(Element chosen) {
        if (!(chosen instanceof ExecutableElement) || !(chosen.getEnclosingElement() instanceof TypeElement)) {
            return "none";
        }
        ExecutableElement method = (ExecutableElement) chosen;
        StringBuilder descriptor = new StringBuilder("(");
        for (VariableElement parameter : method.getParameters()) {
            descriptor.append(spelled(parameter.asType()));
        }
        descriptor.append(")").append(spelled(method.getReturnType()));
        String owner = ((TypeElement) chosen.getEnclosingElement()).getQualifiedName().toString().replace('.', '/');
        return owner + " " + method.getSimpleName() + " " + descriptor;
    }

    /** What javac chooses for each call of the source files, by file and method. */
    void compile() throws Exception {
        choices = new HashMap<>();
        StandardJavaFileManager files = JAVAC.getStandardFileManager(null, null, null);
        List<File> sources = new ArrayList<>();
        for (File file : new File(folder, "sources").listFiles()) {
            sources.add(file);
        }
        DiagnosticCollector<JavaFileObject> faults = new DiagnosticCollector<>();
        List<String> words = List.of("-proc:none", "-Xlint:none", "-XDshould-stop.ifError=FLOW", "-Xmaxerrs", "100000", "-cp", folder.getPath());
        JavacTask task = (JavacTask) JAVAC.getTask(null, files, faults, words, null, files.getJavaFileObjectsFromFiles(sources));
        Trees trees = Trees.instance(task);
        List<CompilationUnitTree> units = new ArrayList<>();
        task.parse().forEach(units::add);
        task.analyze();
        Set<String> wrong = new TreeSet<>();
        for (Diagnostic<? extends JavaFileObject> fault : faults.getDiagnostics()) {
            if (fault.getKind() == Diagnostic.Kind.ERROR && fault.getSource() != null) {
                wrong.add(fault.getSource().getName() + ":" + fault.getLineNumber());
            }
        }
        for (CompilationUnitTree unit : units) {
            String file = unit.getSourceFile().getName();
            String name = new File(file).getName().replace(".java", "");
            new TreePathScanner<Void, String>() {
                @Override
                public Void visitMethod(MethodTree method, String outer) {
                    return super.visitMethod(method, method.getName().toString());
                }

                @Override
                public Void visitMethodInvocation(MethodInvocationTree call, String method) {
                    note(call, method);
                    return super.visitMethodInvocation(call, method);
                }

                @Override
                public Void visitNewClass(NewClassTree call, String method) {
                    note(call, method);
                    return super.visitNewClass(call, method);
                }

                void note(Tree call, String method) {
                    if (method != null && method.startsWith("c")) {
                        long line = unit.getLineMap().getLineNumber(trees.getSourcePositions().getStartPosition(unit, call));
                        boolean bad = wrong.contains(file + ":" + line);
                        choices.put(name + " " + method.substring(1), bad ? "none" : spelled(trees.getElement(getCurrentPath())));
                    }
                }
            }.scan(unit, null);
        }
        files.close();
    }

    // ---- questions

    String answer(String[] words) throws Exception {
        switch (words[0]) {
            case "method":
                return method(words[1], words[2], words[3]);
            case "field":
                return field(words[1], words[2], words[3]);
            case "assignable":
                return typed(words[2]).isAssignableFrom(typed(words[1])) ? "yes" : "no";
            default:
                if (choices == null) {
                    compile();
                }
                return choices.get(words[1] + " " + words[2]);
        }
    }

    public static void main(String[] none) throws Exception {
        if (!new Worlds(".").method("java/lang/String", "getClass", "()Ljava/lang/Class;").equals("java/lang/Object")) {
            throw new AssertionError("the JVM keeps the class that holds a method elsewhere");
        }
        BufferedReader lines = new BufferedReader(new InputStreamReader(System.in));
        StringBuilder out = new StringBuilder();
        Worlds worlds = null;
        for (String line = lines.readLine(); line != null; line = lines.readLine()) {
            String[] words = line.split(" ");
            if (words[0].equals("folder")) {
                worlds = new Worlds(words[1]);
            } else {
                out.append(worlds.answer(words)).append('\n');
            }
        }
        System.out.print(out);
    }
}
