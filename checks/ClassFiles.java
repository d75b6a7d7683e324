import java.io.BufferedReader;
import java.io.InputStreamReader;
import java.io.PrintStream;

/** Answers each line of hexadecimal bytes with what the JVM's own parser says of them as a class file; given a word, with what its verifier says too. */
public final class ClassFiles extends ClassLoader {
    private ClassFiles() {
        super(ClassLoader.getPlatformClassLoader());
    }

    private static byte[] bytesOf(String line) {
        byte[] bytes = new byte[line.length() / 2];
        for (int i = 0; i < bytes.length; i++) {
            bytes[i] = (byte) (Character.digit(line.charAt(2 * i), 16) << 4 | Character.digit(line.charAt(2 * i + 1), 16));
        }
        return bytes;
    }

    private static String answer(byte[] bytes, boolean links) {
        try {
            Class<?> made = new ClassFiles().defineClass(null, bytes, 0, bytes.length);
            if (links) {
                made.getDeclaredMethods();
            }
            return "whole";
        } catch (LinkageError | SecurityException fault) {
            return fault.getClass().getSimpleName() + " " + String.valueOf(fault.getMessage()).replaceAll("[^ -~]", "?");
        }
    }

    public static void main(String[] words) throws Exception {
        BufferedReader in = new BufferedReader(new InputStreamReader(System.in, "US-ASCII"), 1 << 20);
        PrintStream out = new PrintStream(System.out, false, "US-ASCII");
        for (String line = in.readLine(); line != null; line = in.readLine()) {
            out.println(answer(bytesOf(line), words.length == 1));
        }
        out.flush();
    }
}
