import java.io.BufferedReader;
import java.io.IOException;
import java.io.InputStreamReader;
import java.io.PrintStream;
import java.io.UncheckedIOException;
import java.nio.charset.StandardCharsets;
import java.nio.file.Files;
import java.nio.file.Path;
import java.util.HashMap;
import java.util.HexFormat;
import java.util.Map;
import java.util.regex.Pattern;

/**
 * Answers each line with what the JVM's verifier says of a class file in hexadecimal, `ok` or the error, where a class loader of its
 * own finds the other classes in the folder that the last line `folder PATH` named, and those of lines `also HEX HEX` since, of a name and a file. To `header NAME` the answer is the superclass and
 * the interfaces of a class of the JDK, `interface` in front where it is one, or `none`.
 */
public final class Verify extends ClassLoader {
    private static final Map<String, byte[]> FILES = new HashMap<>();

    private Verify() {
        super(ClassLoader.getPlatformClassLoader());
    }

    @Override
    protected Class<?> loadClass(String name, boolean resolve) throws ClassNotFoundException {
        Class<?> made = findLoadedClass(name);
        if (made != null) {
            return made;
        }
        byte[] bytes = FILES.get(name.replace('.', '/'));
        return bytes == null ? super.loadClass(name, resolve) : defineClass(name, bytes, 0, bytes.length);
    }

    private static String openFolder(String path) throws IOException {
        FILES.clear();
        Path top = Path.of(path);
        try (var files = Files.walk(top)) {
            files.filter(file -> file.toString().endsWith(".class")).forEach(file -> {
                try {
                    String name = top.relativize(file).toString();
                    FILES.put(name.substring(0, name.length() - 6), Files.readAllBytes(file));
                } catch (IOException error) {
                    throw new UncheckedIOException(error);
                }
            });
        }
        return FILES.size() + " files";
    }

    private static String header(String name) {
        try {
            Class<?> made = Class.forName(name.replace('/', '.'), false, ClassLoader.getPlatformClassLoader());
            StringBuilder words = new StringBuilder(made.isInterface() ? "interface" : "class");
            words.append(' ').append(made.getSuperclass() == null ? "-" : made.getSuperclass().getName().replace('.', '/'));
            for (Class<?> each : made.getInterfaces()) {
                words.append(' ').append(each.getName().replace('.', '/'));
            }
            return words.toString();
        } catch (ClassNotFoundException | LinkageError missing) {
            return "none";
        }
    }

    /** Has the class linked, which each list of members does first (that of an interface's constructors doesn't); then it loads the types that the members name. */
    private static void link(Class<?> made) {
        try {
            if (made.isInterface()) {
                made.getDeclaredFields();
            } else {
                made.getDeclaredConstructors();
            }
        } catch (NoClassDefFoundError missing) {
            made.getDeclaredMethods();
        }
    }

    private static String verified(byte[] bytes) {
        try {
            link(new Verify().defineClass(null, bytes, 0, bytes.length));
            return "ok";
        } catch (LinkageError | SecurityException fault) {
            String message = fault instanceof NoClassDefFoundError ? fault.getMessage() : String.valueOf(fault.getMessage()).replaceAll("\\s+", " ");
            String words = Pattern.compile("[^ -~]").matcher(message).replaceAll(found -> String.format("\\\\u%04x", (int) found.group().charAt(0)));
            return fault.getClass().getSimpleName() + " " + words.replaceFirst(" Current Frame: bci: (@[0-9]+) .*", " frame of $1").replaceFirst(" Bytecode: .*", "");
        }
    }

    private static String answer(String line) throws IOException {
        if (line.startsWith("folder ")) {
            return openFolder(line.substring(7));
        }
        if (line.startsWith("also ")) {
            String[] parts = line.split(" ");
            FILES.put(new String(HexFormat.of().parseHex(parts[1]), StandardCharsets.UTF_8), HexFormat.of().parseHex(parts[2]));
            return "added";
        }
        return line.startsWith("header ") ? header(line.substring(7)) : verified(HexFormat.of().parseHex(line));
    }

    public static void main(String[] words) throws IOException {
        BufferedReader in = new BufferedReader(new InputStreamReader(System.in, "US-ASCII"), 1 << 20);
        PrintStream out = new PrintStream(System.out, false, "US-ASCII");
        for (String line = in.readLine(); line != null; line = in.readLine()) {
            out.println(answer(line));
        }
        out.flush();
    }
}
