import com.sun.source.tree.*;
import com.sun.source.util.JavacTask;
import com.sun.tools.classfile.Attribute;
import com.sun.tools.classfile.ClassFile;
import com.sun.tools.classfile.ConstantPool;
import com.sun.tools.classfile.ConstantValue_attribute;
import com.sun.tools.classfile.Exceptions_attribute;
import com.sun.tools.classfile.Field;
import com.sun.tools.classfile.Method;
import java.io.BufferedReader;
import java.io.ByteArrayInputStream;
import java.io.InputStreamReader;
import java.io.PrintStream;
import java.net.URI;
import java.nio.charset.StandardCharsets;
import java.util.ArrayList;
import java.util.HexFormat;
import java.util.List;
import java.util.Map;
import java.util.stream.Collectors;
import javax.lang.model.type.TypeKind;
import javax.tools.Diagnostic;
import javax.tools.SimpleJavaFileObject;
import javax.tools.ToolProvider;

/** Lists the members of class files by javap's reader, and those of texts by javac's parser: what is asked and answered says `class_texts.py`. */
public final class ClassTexts {
    static final List<String> OPTIONS = List.of("-source", "8", "-proc:none", "-Xlint:none");
    static final Map<TypeKind, String> LETTERS = Map.of(TypeKind.BOOLEAN, "Z", TypeKind.BYTE, "B", TypeKind.CHAR, "C", TypeKind.SHORT, "S",
        TypeKind.INT, "I", TypeKind.LONG, "J", TypeKind.FLOAT, "F", TypeKind.DOUBLE, "D", TypeKind.VOID, "V");

    final List<String> lines = new ArrayList<>();

    static String shown(String text) {
        StringBuilder out = new StringBuilder();
        for (char unit : text.toCharArray()) {
            out.append(unit >= 33 && unit <= 126 && unit != '\\' ? String.valueOf(unit) : String.format("\\u%04x", (int) unit));
        }
        return out.toString();
    }

    private void line(String kind, Object flags, String subject, List<String> names, String value) {
        lines.add(String.join(" ", kind, flags.toString(), shown(subject), names.isEmpty() ? "-" : shown(String.join(",", names)), value));
    }

    // ---- class files

    private static final class File {
        final ClassFile file;
        final String name;

        File(byte[] bytes) throws Exception {
            file = ClassFile.read(new ByteArrayInputStream(bytes));
            name = file.getName();
        }

        String value(Field field) throws Exception {
            Attribute found = field.attributes.get(Attribute.ConstantValue);
            if (found == null) {
                return "-";
            }
            ConstantPool.CPInfo constant = file.constant_pool.get(((ConstantValue_attribute) found).constantvalue_index);
            if (constant instanceof ConstantPool.CONSTANT_String_info text) {
                return "\"" + shown(text.getString()) + "\"";
            }
            if (constant instanceof ConstantPool.CONSTANT_Integer_info number) {
                return String.valueOf(number.value);
            }
            return constant instanceof ConstantPool.CONSTANT_Long_info number ? number.value + "L" : "floating";
        }

        List<String> thrown(Method method) throws Exception {
            Attribute found = method.attributes.get(Attribute.Exceptions);
            List<String> names = new ArrayList<>();
            if (found instanceof Exceptions_attribute exceptions) {
                for (int index : exceptions.exception_index_table) {
                    names.add(file.constant_pool.getClassInfo(index).getName());
                }
            }
            return names;
        }
    }

    private void list(File of) throws Exception {
        ClassFile file = of.file;
        List<String> above = new ArrayList<>();
        above.add(file.super_class == 0 ? "-" : file.getSuperclassName());
        for (int i = 0; i < file.interfaces.length; i++) {
            above.add(file.getInterfaceName(i));
        }
        line("class", file.access_flags.flags, of.name, above, "-");
        for (Field field : file.fields) {
            String subject = of.name + "." + field.getName(file.constant_pool) + ":" + field.descriptor.getValue(file.constant_pool);
            line("field", field.access_flags.flags, subject, List.of(), of.value(field));
        }
        for (Method method : file.methods) {
            String subject = of.name + "." + method.getName(file.constant_pool) + method.descriptor.getValue(file.constant_pool);
            line("method", method.access_flags.flags, subject, of.thrown(method), method.attributes.get(Attribute.Code) == null ? "-" : "body");
        }
    }

    // ---- texts

    private static final class Source extends SimpleJavaFileObject {
        final String text;

        Source(String text) {
            super(URI.create("string:///U.java"), Kind.SOURCE);
            this.text = text;
        }

        @Override
        public CharSequence getCharContent(boolean ignoreErrors) {
            return text;
        }
    }

    private static String internal(Tree name) {
        return name.toString().replace('.', '/');
    }

    private static String descriptor(Tree type) {
        if (type == null) {
            return "V";
        }
        if (type instanceof ArrayTypeTree array) {
            return "[" + descriptor(array.getType());
        }
        return type instanceof PrimitiveTypeTree primitive ? LETTERS.get(primitive.getPrimitiveTypeKind()) : "L" + internal(type) + ";";
    }

    private static String flags(ModifiersTree modifiers) {
        String words = modifiers.getFlags().stream().map(Object::toString).sorted().collect(Collectors.joining(","));
        return words.isEmpty() ? "-" : words;
    }

    private static String value(Tree value) {
        if (value == null) {
            return "-";
        }
        if (value instanceof LiteralTree literal) {
            return switch (literal.getKind()) {
                case STRING_LITERAL -> "\"" + shown((String) literal.getValue()) + "\"";
                case LONG_LITERAL -> literal.getValue() + "L";
                case BOOLEAN_LITERAL -> (Boolean) literal.getValue() ? "1" : "0";
                case CHAR_LITERAL -> String.valueOf((int) (Character) literal.getValue());
                case INT_LITERAL -> String.valueOf(literal.getValue());
                default -> "other";
            };
        }
        if (value instanceof UnaryTree unary && unary.getKind() == Tree.Kind.UNARY_MINUS) {
            String less = value(unary.getExpression());
            return less.startsWith("-") ? less : "-" + less;
        }
        return "other";
    }

    private void list(CompilationUnitTree unit) {
        String prefix = unit.getPackageName() == null ? "" : internal(unit.getPackageName()) + "/";
        for (Tree declared : unit.getTypeDecls()) {
            ClassTree type = (ClassTree) declared;
            String name = prefix + type.getSimpleName();
            boolean isInterface = type.getKind() == Tree.Kind.INTERFACE;
            List<String> above = new ArrayList<>();
            above.add(type.getExtendsClause() == null ? "java/lang/Object" : internal(type.getExtendsClause()));
            type.getImplementsClause().forEach(each -> above.add(internal(each)));
            line(isInterface ? "interface" : "class", flags(type.getModifiers()), name, above, "-");
            type.getMembers().forEach(member -> list(name, member));
        }
    }

    private void list(String owner, Tree member) {
        if (member instanceof VariableTree field) {
            line("field", flags(field.getModifiers()), owner + "." + field.getName() + ":" + descriptor(field.getType()), List.of(), value(field.getInitializer()));
        } else if (member instanceof MethodTree method) {
            String parameters = method.getParameters().stream().map(each -> descriptor(each.getType())).collect(Collectors.joining());
            String subject = owner + "." + method.getName() + "(" + parameters + ")" + descriptor(method.getReturnType());
            line("method", flags(method.getModifiers()), subject, method.getThrows().stream().map(ClassTexts::internal).toList(), method.getBody() == null ? "-" : "body");
        } else if (member instanceof BlockTree block && block.isStatic()) {
            line("method", "static", owner + ".<clinit>()V", List.of(), "body");
        } else {
            line("other", "-", owner, List.of(), "-");
        }
    }

    private void parse(String text) throws Exception {
        List<String> complaints = new ArrayList<>();
        JavacTask task = (JavacTask) ToolProvider.getSystemJavaCompiler().getTask(null, null,
            said -> { if (said.getKind() == Diagnostic.Kind.ERROR) { complaints.add("complaint " + said.getMessage(null).replace('\n', ' ')); } },
            OPTIONS, null, List.of(new Source(text)));
        for (CompilationUnitTree unit : task.parse()) {
            list(unit);
        }
        if (!complaints.isEmpty()) {
            lines.clear();
            lines.addAll(complaints);
        }
    }

    public static void main(String[] words) throws Exception {
        BufferedReader in = new BufferedReader(new InputStreamReader(System.in, StandardCharsets.US_ASCII));
        PrintStream out = new PrintStream(System.out, false, StandardCharsets.US_ASCII);
        for (String line = in.readLine(); line != null; line = in.readLine()) {
            ClassTexts listing = new ClassTexts();
            byte[] bytes = HexFormat.of().parseHex(line.substring(line.indexOf(' ') + 1));
            if (line.startsWith("file ")) {
                listing.list(new File(bytes));
            } else {
                listing.parse(new String(bytes, StandardCharsets.UTF_8));
            }
            listing.lines.forEach(each -> out.print(each + "\n"));
            out.print("end\n");
        }
        out.flush();
    }
}
