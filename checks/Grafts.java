import java.io.File;
import java.io.FilePermission;
import java.io.IOException;
import java.io.PrintWriter;
import java.lang.reflect.Array;
import java.lang.reflect.Constructor;
import java.lang.reflect.Executable;
import java.lang.reflect.Field;
import java.lang.reflect.InvocationTargetException;
import java.lang.reflect.Method;
import java.lang.reflect.Modifier;
import java.net.SocketPermission;
import java.net.URL;
import java.net.URLClassLoader;
import java.nio.file.Files;
import java.nio.file.InvalidPathException;
import java.nio.file.Path;
import java.security.Permission;
import java.util.ArrayList;
import java.util.Arrays;
import java.util.Comparator;
import java.util.HashMap;
import java.util.HashSet;
import java.util.List;
import java.util.Map;
import java.util.Random;
import java.util.Set;
import java.util.concurrent.FutureTask;
import java.util.concurrent.TimeUnit;
import java.util.concurrent.TimeoutException;
import jdk.internal.org.objectweb.asm.ClassReader;
import jdk.internal.org.objectweb.asm.ClassWriter;
import jdk.internal.org.objectweb.asm.tree.ClassNode;
import jdk.internal.org.objectweb.asm.tree.MethodNode;

/** What `grafts.py` asks of the JDK: `graft METHODS FILES COMPILED OUT`, and `run OUT CALLS TRIES SEED SKIPPED CLASSES PATH..`. */
public class Grafts {
    public static void main(String[] words) throws Exception {
        if (words[0].equals("graft")) {
            graft(Path.of(words[1]), Path.of(words[2]), Path.of(words[3]), Path.of(words[4]));
        } else {
            List<String> skipped = List.of(words[5].split(","));
            run(Path.of(words[1]), Integer.parseInt(words[2]), Integer.parseInt(words[3]), Long.parseLong(words[4]), skipped, Path.of(words[6]), Arrays.copyOfRange(words, 7, words.length));
        }
    }

    // ---- code of printed methods in place of their own

    static ClassNode read(Path file) throws IOException {
        ClassNode node = new ClassNode();
        new ClassReader(Files.readAllBytes(file)).accept(node, ClassReader.SKIP_DEBUG);
        return node;
    }

    /** Lines `CLASS NAMEDESCRIPTOR` tell which methods are printed. */
    static void graft(Path methods, Path files, Path compiled, Path out) throws IOException {
        Map<String, Set<String>> printed = new HashMap<>();
        for (String line : Files.readAllLines(methods)) {
            String[] parts = line.split(" ");
            printed.computeIfAbsent(parts[0], key -> new HashSet<>()).add(parts[1]);
        }
        int count = 0;
        for (Map.Entry<String, Set<String>> each : printed.entrySet()) {
            Path file = files.resolve(each.getKey() + ".class");
            ClassNode own = read(file);
            ClassNode made = read(compiled.resolve(each.getKey() + ".class"));
            for (MethodNode method : own.methods) {
                if (each.getValue().contains(method.name + method.desc)) {
                    MethodNode other = made.methods.stream().filter(one -> one.name.equals(method.name) && one.desc.equals(method.desc)).findFirst().orElseThrow();
                    method.instructions = other.instructions;
                    method.tryCatchBlocks = other.tryCatchBlocks;
                    method.maxStack = other.maxStack;
                    method.maxLocals = other.maxLocals;
                    count++;
                }
            }
            own.version = Math.max(own.version & 0xffff, made.version & 0xffff);
            ClassWriter writer = new ClassWriter(0);
            own.accept(writer);
            Path target = out.resolve(each.getKey() + ".class");
            Files.createDirectories(target.getParent());
            Files.write(target, writer.toByteArray());
        }
        System.out.println("grafted " + count);
    }

    // ---- calls

    static final int DEPTH = 3;

    static ClassLoader loader(Path classes, String[] path) throws IOException {
        List<URL> urls = new ArrayList<>();
        urls.add(classes.toUri().toURL());
        for (String each : path) {
            urls.add(new File(each).toURI().toURL());
        }
        return new URLClassLoader(urls.toArray(new URL[0]), ClassLoader.getPlatformClassLoader());
    }

    static List<String> names(Path classes) throws IOException {
        try (var walk = Files.walk(classes)) {
            return walk.map(Path::toString).filter(it -> it.endsWith(".class"))
                .map(it -> classes.relativize(Path.of(it)).toString()).map(it -> it.substring(0, it.length() - 6).replace('/', '.')).sorted().toList();
        }
    }

    /** What a class says as it is loaded, verified and initialised. */
    static String state(String name, ClassLoader loader) {
        try {
            Class.forName(name, true, loader);
            return "";
        } catch (VerifyError | ClassFormatError error) {
            return "unverified " + error;
        } catch (Throwable thrown) {
            return "initialised " + thrown.getClass().getName();
        }
    }

    static List<Executable> entries(Class<?> owner) {
        List<Executable> found = new ArrayList<>();
        try {
            for (Method method : owner.getDeclaredMethods()) {
                if (Modifier.isStatic(method.getModifiers()) && !method.isSynthetic()) {
                    found.add(method);
                }
            }
            if (!Modifier.isAbstract(owner.getModifiers())) {
                found.addAll(Arrays.asList(owner.getDeclaredConstructors()));
            }
        } catch (Throwable thrown) {
            return List.of();
        }
        found.sort(Comparator.comparing(Executable::toString));
        return found;
    }

    static Object argument(Class<?> type, Random random, ClassLoader loader, int depth) {
        int which = random.nextInt(6);
        int number = which == 0 ? 0 : which == 1 ? -1 : which == 2 ? Integer.MIN_VALUE >> random.nextInt(32) : random.nextInt(20) - 4;
        if (type == boolean.class || type == Boolean.class) return random.nextBoolean();
        if (type == byte.class || type == Byte.class) return (byte) number;
        if (type == char.class || type == Character.class) return (char) (which < 3 ? 'a' + random.nextInt(26) : number);
        if (type == short.class || type == Short.class) return (short) number;
        if (type == int.class || type == Integer.class) return number;
        if (type == long.class || type == Long.class) return (long) number << random.nextInt(33);
        if (type == float.class || type == Float.class) return (float) number;
        if (type == double.class || type == Double.class) return number / 2.0;
        if (which == 5) return null;
        if (type.isArray()) {
            Object array = Array.newInstance(type.getComponentType(), random.nextInt(4));
            for (int at = 0; at < Array.getLength(array); at++) {
                Array.set(array, at, argument(type.getComponentType(), random, loader, depth));
            }
            return array;
        }
        if (type.isAssignableFrom(String.class)) return new String[] {"", "a", "abc", " x ", "A,b;c", "\u00e4\ud83d\ude00", "12", "-3L"}[random.nextInt(8)];
        if (type == Class.class) return new Class<?>[] {int.class, String.class, Object[].class, Runnable.class}[random.nextInt(4)];
        if (type.isAssignableFrom(ArrayList.class)) return new ArrayList<>(List.of("b", "a").subList(0, random.nextInt(3)));
        if (type.isAssignableFrom(HashMap.class)) return new HashMap<>(Map.of("k", 1));
        if (type.isAssignableFrom(HashSet.class)) return new HashSet<>(List.of(1));
        if (type == Throwable.class || type == Exception.class) return new IllegalStateException("given");
        if (depth > 0) {
            List<Executable> makers = entries(type).stream().filter(it -> it instanceof Constructor || type.isAssignableFrom(((Method) it).getReturnType())).toList();
            if (!makers.isEmpty()) {
                try {
                    return called(makers.get(random.nextInt(makers.size())), random, loader, depth - 1);
                } catch (Throwable thrown) {
                    return null;
                }
            }
        }
        return null;
    }

    static Object called(Executable entry, Random random, ClassLoader loader, int depth) throws Throwable {
        Object[] arguments = Arrays.stream(entry.getParameterTypes()).map(type -> argument(type, random, loader, depth)).toArray();
        entry.setAccessible(true);
        try {
            return entry instanceof Method method ? method.invoke(null, arguments) : ((Constructor<?>) entry).newInstance(arguments);
        } catch (InvocationTargetException thrown) {
            throw thrown.getCause();
        }
    }

    /** What is seen of a value: of an object its class and its fields, to some depth. */
    static String seen(Object value, int depth) {
        if (value == null || value instanceof Number || value instanceof Boolean || value instanceof Character || value instanceof String || value instanceof Class) {
            return String.valueOf(value);
        }
        Class<?> type = value.getClass();
        if (type.isArray()) {
            StringBuilder all = new StringBuilder(type.getName()).append(Array.getLength(value));
            for (int at = 0; depth > 0 && at < Math.min(20, Array.getLength(value)); at++) {
                all.append(' ').append(seen(Array.get(value, at), depth - 1));
            }
            return all.toString();
        }
        String name = type.getName().replaceAll("/0x[0-9a-f]+|\\$\\$Lambda.*", "");
        if (depth == 0 || type.getClassLoader() == null) {
            return value instanceof java.util.Collection<?> || value instanceof Map<?, ?> || value instanceof CharSequence ? name + value.toString().replaceAll("@[0-9a-f]+", "@") : name;
        }
        StringBuilder all = new StringBuilder(name).append('{');
        for (Class<?> owner = type; owner != null && owner.getClassLoader() != null; owner = owner.getSuperclass()) {
            for (Field field : owner.getDeclaredFields()) {
                if (!Modifier.isStatic(field.getModifiers()) && !field.isSynthetic()) {
                    try {
                        field.setAccessible(true);
                        all.append(field.getName()).append('=').append(seen(field.get(value), depth - 1)).append(' ');
                    } catch (Throwable thrown) {
                        all.append('?');
                    }
                }
            }
        }
        return all.append('}').toString();
    }

    static String outcome(String owner, int which, long seed, ClassLoader loader) throws Exception {
        var task = new FutureTask<String>(() -> {
            try {
                Class<?> type = Class.forName(owner, true, loader);
                List<Executable> all = entries(type);
                if (all.isEmpty()) {
                    return null;
                }
                Executable entry = all.get(Math.floorMod(which, all.size()));
                try {
                    return entry + " gives " + seen(called(entry, new Random(seed), loader, 2), DEPTH);
                } catch (Throwable thrown) {
                    String message = String.valueOf(thrown.getMessage()).replaceAll("@[0-9a-f]+", "@");
                    return entry + " throws " + thrown.getClass().getName() + (thrown instanceof NullPointerException || thrown instanceof ClassCastException ? "" : " " + message);
                }
            } catch (Throwable thrown) {
                return null;
            }
        });
        // Each call has a thread of its own, so that none sees what another left there.
        Thread thread = new Thread(task);
        thread.setDaemon(true);
        thread.start();
        try {
            return task.get(5, TimeUnit.SECONDS);
        } catch (TimeoutException late) {
            task.cancel(true);
            return null;
        }
    }

    /** Keeps calls from writing outside the folder that they run in, from other programs and sockets, and from ending the JVM. */
    static class Keeper extends SecurityManager {
        private final Path folder = Path.of("").toAbsolutePath();
        private volatile boolean open;

        @Override
        public void checkPermission(Permission asked) {
            if (!open && (asked instanceof FilePermission ? !reads(asked) && !isInside(asked.getName()) : isRefused(asked))) {
                throw new SecurityException("kept from " + asked.getClass().getName());
            }
        }

        private static boolean reads(Permission asked) {
            return asked.getActions().equals("read") || asked.getActions().equals("readlink");
        }

        private static boolean isRefused(Permission asked) {
            return asked instanceof SocketPermission || asked.getName().startsWith("exitVM") || asked.getName().equals("setIO") || asked.getName().equals("setSecurityManager");
        }

        private boolean isInside(String name) {
            try {
                return Path.of(name).toAbsolutePath().normalize().startsWith(folder);
            } catch (InvalidPathException bad) {
                return false;
            }
        }
    }

    /** A text on one line of ASCII. */
    static String line(String text) {
        StringBuilder all = new StringBuilder();
        for (char unit : text.toCharArray()) {
            all.append(unit >= ' ' && unit <= '~' ? String.valueOf(unit) : String.format("\\u%04x", (int) unit));
        }
        return all.toString();
    }

    /** Tells in lines what each class says, and what each try of a call came to, till so many calls are made; an empty line where none was, as where the try is to be skipped. */
    static void run(Path out, int calls, int tries, long seed, List<String> skipped, Path classes, String[] path) throws Exception {
        PrintWriter told = new PrintWriter(Files.newBufferedWriter(out), true);
        ClassLoader loader = loader(classes, path);
        List<String> names = names(classes);
        Keeper keeper = new Keeper();
        System.setSecurityManager(keeper);
        for (String name : names) {
            told.println("class " + name + " " + line(state(name, loader)));
        }
        Random random = new Random(seed);
        for (int tried = 0, made = 0; tried < tries && made < calls; tried++) {
            String name = names.get(random.nextInt(names.size()));
            int which = random.nextInt(1 << 20);
            long arguments = random.nextLong();
            String outcome = skipped.contains(String.valueOf(tried)) ? null : outcome(name, which, arguments, loader);
            told.println(outcome == null ? "" : line(outcome));
            made += outcome == null ? 0 : 1;
        }
        told.println("end");
        keeper.open = true;
        Runtime.getRuntime().halt(0);
    }
}
