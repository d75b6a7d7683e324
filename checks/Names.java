import java.io.*;
import java.lang.invoke.MethodType;
import java.nio.charset.StandardCharsets;
import java.util.HexFormat;
import javax.lang.model.SourceVersion;

// Answers the questions of names.py by Java's own classes, a line each.
public class Names {
    static String text(byte[] bytes) {
        StringBuilder text = new StringBuilder();
        for (int i = 0; i + 1 < bytes.length; i += 2) text.append((char) ((bytes[i] & 255) << 8 | bytes[i + 1] & 255));
        return text.toString();
    }

    static String units(byte[] bytes) throws IOException {
        ByteArrayOutputStream out = new ByteArrayOutputStream();
        new DataOutputStream(out).writeShort(bytes.length);
        out.write(bytes);
        try {
            String read = new DataInputStream(new ByteArrayInputStream(out.toByteArray())).readUTF();
            StringBuilder shown = new StringBuilder("ok");
            for (char unit : read.toCharArray()) shown.append(String.format(" %04x", (int) unit));
            return shown.toString();
        } catch (UTFDataFormatException fault) {
            return "bad";
        }
    }

    // Each name is some class's, made when it is asked for, so that a descriptor is read to its end.
    static final ClassLoader ANY = new ClassLoader() {
        @Override
        protected Class<?> findClass(String name) throws ClassNotFoundException {
            try {
                ByteArrayOutputStream bytes = new ByteArrayOutputStream();
                DataOutputStream out = new DataOutputStream(bytes);
                out.writeInt(0xcafebabe);
                out.writeInt(52);
                out.writeShort(5);
                out.writeByte(1);
                out.writeUTF(name.replace('.', '/'));
                out.writeByte(7);
                out.writeShort(1);
                out.writeByte(1);
                out.writeUTF("java/lang/Object");
                out.writeByte(7);
                out.writeShort(3);
                for (int part : new int[] {0x21, 2, 4, 0, 0, 0, 0}) out.writeShort(part);
                return defineClass(null, bytes.toByteArray(), 0, bytes.size());
            } catch (IOException | LinkageError fault) {
                throw new ClassNotFoundException(name);
            }
        }
    };

    static String descriptor(String text) {
        if (text.equals("V")) return "bad";
        try {
            MethodType.fromMethodDescriptorString(text.startsWith("(") ? text : "()" + text, ANY);
            return "ok";
        } catch (RuntimeException fault) {
            return "bad";
        }
    }

    static String identifier(String text) {
        return "" + (SourceVersion.isIdentifier(text) && !SourceVersion.isKeyword(text, SourceVersion.RELEASE_8));
    }

    public static void main(String[] arguments) throws IOException {
        BufferedReader in = new BufferedReader(new InputStreamReader(System.in, StandardCharsets.US_ASCII));
        PrintWriter out = new PrintWriter(new OutputStreamWriter(System.out, StandardCharsets.US_ASCII));
        for (String line; (line = in.readLine()) != null; ) {
            byte[] bytes = HexFormat.of().parseHex(line.substring(2));
            switch (line.charAt(0)) {
                case 'u' -> out.println(units(bytes));
                case 'd' -> out.println(descriptor(text(bytes)));
                default -> out.println(identifier(text(bytes)));
            }
        }
        out.flush();
    }
}
