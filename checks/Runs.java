import java.io.*;
import java.lang.reflect.*;
import java.util.*;

/** What methods that are run tell of themselves, and for how long they go on. */
class L {
    static final int MOST = 8;
    static int left;
    static StringBuilder told = new StringBuilder();

    static void begin() {
        left = MOST;
        told.setLength(0);
    }

    static boolean more() {
        return left-- > 0;
    }

    static void log(int value) {
        told.append(" i").append(value);
    }

    static void log(long value) {
        told.append(" l").append(value);
    }

    static void log(Object value) {
        told.append(' ').append(value == null ? "n" : Runs.type(value));
    }
}

/** Calls methods: each line is CLASS.METHOD and its numbers, and is answered by how the call ends and what it logged. */
public class Runs {
    static String type(Object value) {
        String name = value.getClass().getName().replace('.', '/');
        return value.getClass().isArray() ? name : "L" + name + ";";
    }

    static Object read(Class<?> kind, String word) {
        long number = Long.parseLong(word);
        return kind == byte.class ? (Object) (byte) number : kind == short.class ? (Object) (short) number
            : kind == char.class ? (Object) (char) number : kind == int.class ? (Object) (int) number
            : kind == boolean.class ? (Object) (number != 0) : (Object) number;
    }

    static String told(Object value) {
        if (value == null) return "n";
        if (value instanceof Long) return "l" + value;
        if (value instanceof Boolean) return "i" + ((Boolean) value ? 1 : 0);
        if (value instanceof Character) return "i" + (int) (Character) value;
        if (value instanceof Number) return "i" + value;
        if (!value.getClass().isArray()) return type(value);
        StringBuilder words = new StringBuilder(type(value)).append(" of");
        for (int i = 0; i < Array.getLength(value); i++) {
            Object element = Array.get(value, i);
            words.append(' ').append(element == null || element.getClass().getName().startsWith("java.lang.") ? told(element) : type(element));
        }
        return words.toString();
    }

    /** Gives the static fields of a class what they hold at first, but for constants. */
    static void clear(Class<?> owner) throws Exception {
        for (Field field : owner.getDeclaredFields()) {
            if (Modifier.isStatic(field.getModifiers()) && !Modifier.isFinal(field.getModifiers())) {
                field.setAccessible(true);
                field.set(null, Array.get(Array.newInstance(field.getType(), 1), 0));
            }
        }
    }

    static String ended(Method method, Object[] arguments) throws Exception {
        Object receiver = null;
        clear(method.getDeclaringClass());
        if (!Modifier.isStatic(method.getModifiers())) {
            Constructor<?> constructor = method.getDeclaringClass().getDeclaredConstructor();
            constructor.setAccessible(true);
            receiver = constructor.newInstance();
        }
        L.begin();
        try {
            Object value = method.invoke(receiver, arguments);
            return method.getReturnType() == void.class ? "return" : "return " + told(value);
        } catch (InvocationTargetException e) {
            return "throw " + type(e.getCause());
        }
    }

    static Method found(Map<String, Method> methods, String name) throws Exception {
        if (!methods.containsKey(name)) {
            String owner = name.substring(0, name.indexOf('.'));
            for (Method method : Class.forName(owner).getDeclaredMethods()) {
                method.setAccessible(true);
                methods.put(owner + "." + method.getName(), method);
            }
        }
        return methods.get(name);
    }

    public static void main(String[] words) throws Exception {
        BufferedReader lines = new BufferedReader(new InputStreamReader(System.in));
        PrintStream out = new PrintStream(new BufferedOutputStream(System.out));
        Map<String, Method> methods = new HashMap<>();
        for (String line; (line = lines.readLine()) != null; ) {
            String[] parts = line.split(" ");
            Method method = found(methods, parts[0]);
            Object[] arguments = new Object[parts.length - 1];
            for (int i = 0; i < arguments.length; i++) arguments[i] = read(method.getParameterTypes()[i], parts[i + 1]);
            out.println(ended(method, arguments) + " |" + L.told);
        }
        out.flush();
    }
}
