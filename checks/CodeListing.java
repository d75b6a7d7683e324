import com.sun.tools.classfile.Attribute;
import com.sun.tools.classfile.ClassFile;
import com.sun.tools.classfile.Code_attribute;
import com.sun.tools.classfile.ConstantPool;
import com.sun.tools.classfile.Instruction;
import com.sun.tools.classfile.Method;
import java.io.BufferedReader;
import java.io.ByteArrayInputStream;
import java.io.InputStreamReader;
import java.io.PrintStream;
import java.util.ArrayList;
import java.util.HexFormat;
import java.util.IdentityHashMap;
import java.util.List;
import java.util.Map;
import jdk.internal.org.objectweb.asm.ClassReader;
import jdk.internal.org.objectweb.asm.ClassVisitor;
import jdk.internal.org.objectweb.asm.Handle;
import jdk.internal.org.objectweb.asm.Label;
import jdk.internal.org.objectweb.asm.MethodVisitor;
import jdk.internal.org.objectweb.asm.Opcodes;
import jdk.internal.org.objectweb.asm.Type;

/** Lists the code of each class file, a line of hexadecimal bytes, by javap's reader (pcs, limits, numbers of bootstrap methods) and by ASM (instructions, handlers, frames). */
public final class CodeListing {
    static final String[] KINDS = {"Int", "Long", "Float", "Double", "Ref"};
    static final String[] ELEMENTS = {"Int", "Long", "Float", "Double", "Ref", "Byte", "Char", "Short"};
    static final String[] TESTS = {"Eq", "Ne", "Lt", "Ge", "Gt", "Le"};
    static final String[] STACK = {"Pop", "Pop2", "Dup", "DupX1", "DupX2", "Dup2", "Dup2X1", "Dup2X2", "Swap"};
    static final String[] CALCS = {"Add", "Sub", "Mul", "Div", "Rem", "Neg"};
    static final String[] BITS = {"Shl", "Shr", "Ushr", "And", "Or", "Xor"};
    static final String[] CONVERSIONS = {"Int J", "Int F", "Int D", "Long I", "Long F", "Long D", "Float I", "Float J", "Float D",
        "Double I", "Double J", "Double F", "Int B", "Int C", "Int S"};
    static final String[] COMPARES = {"Long false", "Float false", "Float true", "Double false", "Double true"};
    static final String[] ARRAYS = {"Z", "C", "F", "D", "B", "S", "I", "J"};
    static final String[] TAGS = {"Top", "Int", "Float", "Double", "Long", "Null", "UnbornThis"};

    static String shown(String text) {
        StringBuilder out = new StringBuilder();
        for (char unit : text.toCharArray()) {
            out.append(unit >= 33 && unit <= 126 && unit != '\\' ? String.valueOf(unit) : String.format("\\u%04x", (int) unit));
        }
        return out.toString();
    }

    static String type(String name) {
        return shown(name.startsWith("[") ? name : "L" + name + ";");
    }

    /** Offsets of the labels that ASM makes. */
    static final class Reader extends ClassReader {
        final Map<Label, Integer> offsets = new IdentityHashMap<>();

        Reader(byte[] bytes) {
            super(bytes);
        }

        @Override
        protected Label readLabel(int offset, Label[] labels) {
            Label label = super.readLabel(offset, labels);
            offsets.put(label, offset);
            return label;
        }
    }

    static final class Lines extends MethodVisitor {
        final Reader reader;
        final List<String> words = new ArrayList<>();
        final List<String> handlers = new ArrayList<>();
        final List<String> frames = new ArrayList<>();
        int place;

        Lines(Reader reader) {
            super(Opcodes.ASM8);
            this.reader = reader;
        }

        int at(Label label) {
            return reader.offsets.get(label);
        }

        @Override
        public void visitLabel(Label label) {
            place = at(label);
        }

        @Override
        public void visitInsn(int op) {
            words.add(plain(op));
        }

        private static String plain(int op) {
            if (op >= Opcodes.ICONST_M1 && op <= Opcodes.ICONST_5) {
                return "Push Int " + (op - Opcodes.ICONST_0);
            } else if (op == Opcodes.LCONST_0 || op == Opcodes.LCONST_1) {
                return "Push Long " + (op - Opcodes.LCONST_0);
            } else if (op >= Opcodes.FCONST_0 && op <= Opcodes.FCONST_2) {
                return constant((float) (op - Opcodes.FCONST_0));
            } else if (op == Opcodes.DCONST_0 || op == Opcodes.DCONST_1) {
                return constant((double) (op - Opcodes.DCONST_0));
            } else if (op >= Opcodes.IALOAD && op <= Opcodes.SALOAD) {
                return "ArrayLoad " + ELEMENTS[op - Opcodes.IALOAD];
            } else if (op >= Opcodes.IASTORE && op <= Opcodes.SASTORE) {
                return "ArrayStore " + ELEMENTS[op - Opcodes.IASTORE];
            } else if (op >= Opcodes.POP && op <= Opcodes.SWAP) {
                return STACK[op - Opcodes.POP];
            } else if (op >= Opcodes.IADD && op <= Opcodes.DNEG) {
                return "Calc " + CALCS[(op - Opcodes.IADD) / 4] + " " + KINDS[(op - Opcodes.IADD) % 4];
            } else if (op >= Opcodes.ISHL && op <= Opcodes.LXOR) {
                return "Calc " + BITS[(op - Opcodes.ISHL) / 2] + " " + KINDS[(op - Opcodes.ISHL) % 2];
            } else if (op >= Opcodes.I2L && op <= Opcodes.I2S) {
                return "Convert " + CONVERSIONS[op - Opcodes.I2L];
            } else if (op >= Opcodes.LCMP && op <= Opcodes.DCMPG) {
                return "Compare " + COMPARES[op - Opcodes.LCMP];
            } else if (op >= Opcodes.IRETURN && op <= Opcodes.ARETURN) {
                return "Return " + KINDS[op - Opcodes.IRETURN];
            }
            return switch (op) {
                case Opcodes.NOP -> "Nop";
                case Opcodes.ACONST_NULL -> "PushNull";
                case Opcodes.RETURN -> "Return";
                case Opcodes.ARRAYLENGTH -> "ArrayLength";
                case Opcodes.ATHROW -> "Throw";
                case Opcodes.MONITORENTER -> "MonitorEnter";
                case Opcodes.MONITOREXIT -> "MonitorExit";
                default -> throw new IllegalArgumentException("opcode " + op);
            };
        }

        @Override
        public void visitIntInsn(int op, int operand) {
            words.add(op == Opcodes.NEWARRAY ? "NewArray " + ARRAYS[operand - 4] : "Push Int " + operand);
        }

        @Override
        public void visitVarInsn(int op, int slot) {
            words.add(op >= Opcodes.ISTORE ? "Store " + KINDS[op - Opcodes.ISTORE] + " " + slot : "Load " + KINDS[op - Opcodes.ILOAD] + " " + slot);
        }

        @Override
        public void visitTypeInsn(int op, String name) {
            words.add(switch (op) {
                case Opcodes.NEW -> "New " + shown(name);
                case Opcodes.ANEWARRAY -> "NewArray " + type(name);
                case Opcodes.CHECKCAST -> "CheckCast " + type(name);
                default -> "InstanceOf " + type(name);
            });
        }

        @Override
        public void visitFieldInsn(int op, String owner, String name, String kind) {
            String word = List.of("GetStatic", "PutStatic", "GetField", "PutField").get(op - Opcodes.GETSTATIC);
            words.add(word + " " + type(owner) + " " + shown(name) + " " + shown(kind));
        }

        @Override
        public void visitMethodInsn(int op, String owner, String name, String descriptor, boolean isInterface) {
            String word = List.of("InvokeVirtual", "InvokeSpecial", "InvokeStatic", "InvokeInterface").get(op - Opcodes.INVOKEVIRTUAL);
            words.add(word + " " + type(owner) + " " + isInterface + " " + shown(name) + " " + shown(descriptor));
        }

        @Override
        public void visitInvokeDynamicInsn(String name, String descriptor, Handle bootstrap, Object... arguments) {
            words.add("InvokeDynamic # " + shown(name) + " " + shown(descriptor));
        }

        @Override
        public void visitJumpInsn(int op, Label label) {
            int target = at(label);
            if (op >= Opcodes.IFEQ && op <= Opcodes.IFLE) {
                words.add("IfZero " + TESTS[op - Opcodes.IFEQ] + " " + target);
            } else if (op >= Opcodes.IF_ICMPEQ && op <= Opcodes.IF_ICMPLE) {
                words.add("IfInts " + TESTS[op - Opcodes.IF_ICMPEQ] + " " + target);
            } else if (op == Opcodes.IF_ACMPEQ || op == Opcodes.IF_ACMPNE) {
                words.add("IfRefs " + (op == Opcodes.IF_ACMPEQ) + " " + target);
            } else if (op == Opcodes.IFNULL || op == Opcodes.IFNONNULL) {
                words.add("IfNull " + (op == Opcodes.IFNULL) + " " + target);
            } else {
                words.add("Goto " + target);
            }
        }

        private static String constant(Object value) {
            if (value instanceof Integer) {
                return "Push Int " + value;
            } else if (value instanceof Long) {
                return "Push Long " + value;
            } else if (value instanceof Float number) {
                return String.format("Push Float %08x", Float.floatToRawIntBits(number));
            } else if (value instanceof Double number) {
                return String.format("Push Double %016x", Double.doubleToRawLongBits(number));
            } else if (value instanceof String text) {
                return "Push Text \"" + shown(text) + "\"";
            } else if (value instanceof Type kind) {
                return (kind.getSort() == Type.METHOD ? "PushMethodType " : "PushClass ") + shown(kind.getDescriptor());
            }
            Handle handle = (Handle) value;
            return "PushHandle " + handle.getTag() + " " + handle.isInterface() + " " + type(handle.getOwner()) + " " + shown(handle.getName())
                + " " + shown(handle.getDesc());
        }

        @Override
        public void visitLdcInsn(Object value) {
            words.add(constant(value));
        }

        @Override
        public void visitIincInsn(int slot, int by) {
            words.add("Iinc " + slot + " " + by);
        }

        @Override
        public void visitTableSwitchInsn(int low, int high, Label other, Label... labels) {
            StringBuilder line = new StringBuilder("TableSwitch " + low + " " + at(other));
            for (Label label : labels) {
                line.append(" ").append(at(label));
            }
            words.add(line.toString());
        }

        @Override
        public void visitLookupSwitchInsn(Label other, int[] keys, Label[] labels) {
            StringBuilder line = new StringBuilder("LookupSwitch " + at(other));
            for (int i = 0; i < keys.length; i++) {
                line.append(" ").append(keys[i]).append(":").append(at(labels[i]));
            }
            words.add(line.toString());
        }

        @Override
        public void visitMultiANewArrayInsn(String name, int sizes) {
            words.add("MultiNewArray " + type(name) + " " + sizes);
        }

        @Override
        public void visitTryCatchBlock(Label start, Label end, Label handler, String name) {
            handlers.add("handler " + at(start) + " " + at(end) + " " + at(handler) + (name == null ? "" : " " + shown(name)));
        }

        private String tag(Object value) {
            if (value instanceof Integer number) {
                return TAGS[number];
            }
            return value instanceof Label label ? "Unborn:" + at(label) : type((String) value);
        }

        @Override
        public void visitFrame(int form, int locals, Object[] local, int items, Object[] item) {
            StringBuilder line = new StringBuilder();
            boolean unborn = false;
            for (int i = 0; i < locals; i++) {
                unborn |= local[i] == Opcodes.UNINITIALIZED_THIS;
                line.append(" ").append(tag(local[i])).append(local[i] == Opcodes.LONG || local[i] == Opcodes.DOUBLE ? " Top" : "");
            }
            line.append(" /");
            for (int i = 0; i < items; i++) {
                line.append(" ").append(tag(item[i]));
            }
            frames.add("frame " + place + " " + unborn + line);
        }
    }

    /** The words of ASM at the pcs of javap's reader, which knows the numbers of bootstrap methods too. */
    static void list(Code_attribute code, ConstantPool pool, Lines lines, PrintStream out) throws Exception {
        out.println("limits " + code.max_stack + " " + code.max_locals);
        int count = 0;
        for (Instruction instruction : code.getInstructions()) {
            String words = lines.words.get(count++);
            if (words.startsWith("InvokeDynamic # ")) {
                var entry = (ConstantPool.CONSTANT_InvokeDynamic_info) pool.get(instruction.getUnsignedShort(1));
                words = words.replaceFirst("#", "" + entry.bootstrap_method_attr_index);
            }
            out.println(instruction.getPC() + " " + words);
        }
        if (count != lines.words.size()) {
            throw new IllegalStateException("the two readers differ");
        }
        lines.handlers.forEach(out::println);
        lines.frames.forEach(out::println);
    }

    static void listAll(byte[] bytes, PrintStream out) throws Exception {
        ClassFile file = ClassFile.read(new ByteArrayInputStream(bytes));
        List<Lines> all = new ArrayList<>();
        Reader reader = new Reader(bytes);
        reader.accept(new ClassVisitor(Opcodes.ASM8) {
            @Override
            public MethodVisitor visitMethod(int flags, String name, String descriptor, String signature, String[] thrown) {
                all.add(new Lines(reader));
                return all.get(all.size() - 1);
            }
        }, ClassReader.EXPAND_FRAMES | ClassReader.SKIP_DEBUG);
        int place = 0;
        for (Method method : file.methods) {
            Lines lines = all.get(place++);
            Code_attribute code = (Code_attribute) method.attributes.get(Attribute.Code);
            if (code != null) {
                out.println("method " + shown(method.getName(file.constant_pool)) + " " + shown(method.descriptor.getValue(file.constant_pool)));
                list(code, file.constant_pool, lines, out);
            }
        }
        out.println("end");
    }

    public static void main(String[] words) throws Exception {
        BufferedReader in = new BufferedReader(new InputStreamReader(System.in, "US-ASCII"), 1 << 20);
        PrintStream out = new PrintStream(new java.io.BufferedOutputStream(System.out, 1 << 20), false, "US-ASCII");
        for (String line = in.readLine(); line != null; line = in.readLine()) {
            listAll(HexFormat.of().parseHex(line), out);
        }
        out.flush();
    }
}
