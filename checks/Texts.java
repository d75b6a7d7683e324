import com.sun.source.tree.*;
import com.sun.source.util.JavacTask;
import java.io.BufferedReader;
import java.io.InputStreamReader;
import java.io.PrintStream;
import java.net.URI;
import java.nio.charset.StandardCharsets;
import java.util.ArrayList;
import java.util.HashMap;
import java.util.HexFormat;
import java.util.List;
import java.util.Map;
import javax.lang.model.element.Modifier;
import javax.tools.Diagnostic;
import javax.tools.SimpleJavaFileObject;
import javax.tools.ToolProvider;

/** Answers each line, the text of a unit in hexadecimal, with the shape of the tree that javac's parser makes of it, or with its first complaint. */
public final class Texts {
    static final List<String> OPTIONS = List.of("-source", "8", "-proc:none", "-Xlint:none", "-Xmaxerrs", "1000000", "-XDallowStringFolding=false");
    static final int BATCH = 500;

    static final class Source extends SimpleJavaFileObject {
        final String text;

        Source(int number, String text) {
            super(URI.create("string:///U" + number + ".java"), Kind.SOURCE);
            this.text = text;
        }

        @Override
        public CharSequence getCharContent(boolean ignoreErrors) {
            return text;
        }
    }

    final StringBuilder out = new StringBuilder();

    /** A node of this kind, with its parts behind one space each; a part is a tree, a list, a word, or none. */
    private void node(String kind, Object... parts) {
        out.append("(").append(kind);
        for (Object part : parts) {
            out.append(" ");
            part(part);
        }
        out.append(")");
    }

    private void part(Object part) {
        if (part == null) {
            out.append("-");
        } else if (part instanceof Tree tree) {
            shape(tree);
        } else if (part instanceof List<?> list) {
            out.append("(");
            for (int i = 0; i < list.size(); i++) {
                out.append(i == 0 ? "" : " ");
                part(list.get(i));
            }
            out.append(")");
        } else {
            out.append(part);
        }
    }

    /** A node whose last parts are those of a list. */
    private void spread(String kind, List<?> rest, Object... first) {
        List<Object> parts = new ArrayList<>(List.of(first));
        parts.addAll(rest);
        node(kind, parts.toArray());
    }

    private static String shown(String text) {
        StringBuilder shown = new StringBuilder();
        for (char unit : text.toCharArray()) {
            shown.append(unit >= 33 && unit <= 126 && unit != '\\' ? String.valueOf(unit) : String.format("\\u%04x", (int) unit));
        }
        return shown.toString();
    }

    private static final List<Modifier> ORDER = List.of(Modifier.PUBLIC, Modifier.PROTECTED, Modifier.PRIVATE, Modifier.ABSTRACT, Modifier.STATIC,
        Modifier.FINAL, Modifier.SYNCHRONIZED, Modifier.NATIVE, Modifier.TRANSIENT, Modifier.VOLATILE, Modifier.DEFAULT, Modifier.STRICTFP);

    private static List<Modifier> flags(ModifiersTree modifiers) {
        return ORDER.stream().filter(modifiers.getFlags()::contains).toList();
    }

    private void shape(Tree tree) {
        if (tree instanceof PrimitiveTypeTree type) {
            out.append(type.getPrimitiveTypeKind().toString().toLowerCase());
        } else if (tree instanceof ArrayTypeTree array) {
            node("array", array.getType());
        } else if (tree instanceof CaseTree one) {
            spread("case", one.getStatements(), one.getExpressions().isEmpty() ? "default" : one.getExpressions().get(0));
        } else if (tree instanceof MethodTree method) {
            node("method", flags(method.getModifiers()), method.getTypeParameters(), method.getReturnType(), method.getName(), method.getParameters(),
                method.getThrows(), method.getBody());
        } else if (tree instanceof TypeParameterTree parameter) {
            spread("type", parameter.getBounds(), parameter.getName());
        } else if (tree instanceof CatchTree one) {
            node("catch", one.getParameter(), one.getBlock());
        } else if (tree instanceof StatementTree) {
            statement(tree);
        } else {
            expression(tree);
        }
    }

    private void statement(Tree tree) {
        if (tree instanceof ClassTree type) {
            node(type.getKind() == Tree.Kind.INTERFACE ? "interface" : "class", flags(type.getModifiers()), type.getSimpleName(), type.getExtendsClause(),
                type.getImplementsClause(), type.getMembers());
        } else if (tree instanceof BlockTree block) {
            spread(block.isStatic() ? "static" : "block", block.getStatements());
        } else if (tree instanceof VariableTree variable) {
            node("var", flags(variable.getModifiers()), variable.getType(), variable.getName(), variable.getInitializer());
        } else if (tree instanceof LabeledStatementTree label) {
            node("label", label.getLabel(), label.getStatement());
        } else if (tree instanceof ExpressionStatementTree run) {
            node("run", run.getExpression());
        } else if (tree instanceof IfTree one) {
            node("if", one.getCondition(), one.getThenStatement(), one.getElseStatement());
        } else if (tree instanceof WhileLoopTree loop) {
            node("while", loop.getCondition(), loop.getStatement());
        } else if (tree instanceof DoWhileLoopTree loop) {
            node("do", loop.getStatement(), loop.getCondition());
        } else if (tree instanceof ForLoopTree loop) {
            node("for", loop.getInitializer(), loop.getCondition(), loop.getUpdate(), loop.getStatement());
        } else if (tree instanceof SwitchTree choice) {
            spread("switch", choice.getCases(), choice.getExpression());
        } else if (tree instanceof BreakTree jump) {
            node("break", jump.getLabel());
        } else if (tree instanceof ContinueTree jump) {
            node("continue", jump.getLabel());
        } else if (tree instanceof ReturnTree jump) {
            node("return", jump.getExpression());
        } else if (tree instanceof ThrowTree jump) {
            node("throw", jump.getExpression());
        } else if (tree instanceof TryTree guarded) {
            node("try", guarded.getResources(), guarded.getBlock(), guarded.getCatches(), guarded.getFinallyBlock());
        } else if (tree instanceof SynchronizedTree guarded) {
            node("synchronized", guarded.getExpression(), guarded.getBlock());
        } else {
            node("other", tree.getKind());
        }
    }

    private void expression(Tree tree) {
        if (tree instanceof IdentifierTree name) {
            out.append(name.getName());
        } else if (tree instanceof MemberSelectTree select) {
            node(".", select.getExpression(), select.getIdentifier());
        } else if (tree instanceof LiteralTree literal) {
            literal(literal);
        } else if (tree instanceof ParenthesizedTree inner) {
            node("paren", inner.getExpression());
        } else if (tree instanceof ArrayAccessTree access) {
            node("index", access.getExpression(), access.getIndex());
        } else if (tree instanceof MethodInvocationTree call) {
            node("call", call.getTypeArguments(), call.getMethodSelect(), call.getArguments());
        } else if (tree instanceof NewClassTree made && made.getEnclosingExpression() == null && made.getTypeArguments().isEmpty() && made.getClassBody() == null) {
            node("new", made.getIdentifier(), made.getArguments());
        } else if (tree instanceof NewArrayTree made && made.getInitializers() == null) {
            node("newarray", made.getType(), made.getDimensions());
        } else if (tree instanceof TypeCastTree cast) {
            node("cast", cast.getType(), cast.getExpression());
        } else if (tree instanceof InstanceOfTree test && test.getPattern() == null) {
            node("instanceof", test.getExpression(), test.getType());
        } else if (tree instanceof ConditionalExpressionTree choice) {
            node("?", choice.getCondition(), choice.getTrueExpression(), choice.getFalseExpression());
        } else if (tree instanceof AssignmentTree store) {
            node("=", store.getVariable(), store.getExpression());
        } else if (tree instanceof UnaryTree unary) {
            node(UNARY.getOrDefault(unary.getKind(), "other"), unary.getExpression());
        } else if (tree instanceof BinaryTree binary) {
            node(BINARY.get(binary.getKind()), binary.getLeftOperand(), binary.getRightOperand());
        } else {
            node("other", tree.getKind());
        }
    }

    private static final Map<Tree.Kind, String> UNARY = Map.of(Tree.Kind.UNARY_MINUS, "neg", Tree.Kind.LOGICAL_COMPLEMENT, "!");
    private static final Map<Tree.Kind, String> BINARY = new HashMap<>();

    static {
        Tree.Kind[] kinds = {Tree.Kind.MULTIPLY, Tree.Kind.DIVIDE, Tree.Kind.REMAINDER, Tree.Kind.PLUS, Tree.Kind.MINUS, Tree.Kind.LEFT_SHIFT,
            Tree.Kind.RIGHT_SHIFT, Tree.Kind.UNSIGNED_RIGHT_SHIFT, Tree.Kind.LESS_THAN, Tree.Kind.LESS_THAN_EQUAL, Tree.Kind.GREATER_THAN,
            Tree.Kind.GREATER_THAN_EQUAL, Tree.Kind.EQUAL_TO, Tree.Kind.NOT_EQUAL_TO, Tree.Kind.AND, Tree.Kind.XOR, Tree.Kind.OR,
            Tree.Kind.CONDITIONAL_AND, Tree.Kind.CONDITIONAL_OR};
        String[] words = "* / % + - << >> >>> < <= > >= == != & ^ | && ||".split(" ");
        for (int i = 0; i < kinds.length; i++) {
            BINARY.put(kinds[i], words[i]);
        }
    }

    private void literal(LiteralTree literal) {
        switch (literal.getKind()) {
            case INT_LITERAL -> node("int", literal.getValue());
            case LONG_LITERAL -> node("long", literal.getValue());
            case STRING_LITERAL -> node("text", "\"" + shown((String) literal.getValue()) + "\"");
            case BOOLEAN_LITERAL, NULL_LITERAL -> out.append(literal.getValue());
            default -> node("other", literal.getKind());
        }
    }

    static String shape(CompilationUnitTree unit) {
        Texts texts = new Texts();
        texts.node("unit", unit.getPackageName(), unit.getImports(), unit.getTypeDecls());
        return texts.out.toString();
    }

    static void answer(List<Source> sources, PrintStream out) throws Exception {
        Map<URI, String> complaints = new HashMap<>();
        JavacTask task = (JavacTask) ToolProvider.getSystemJavaCompiler().getTask(null, null, found -> {
            if (found.getKind() == Diagnostic.Kind.ERROR) {
                complaints.putIfAbsent(found.getSource().toUri(), found.getLineNumber() + ":" + found.getColumnNumber() + " " + found.getMessage(null));
            }
        }, OPTIONS, null, sources);
        var units = task.parse().iterator();
        for (Source source : sources) {
            CompilationUnitTree unit = units.next();
            String complaint = complaints.get(source.toUri());
            out.println(complaint == null ? shape(unit) : "refused " + complaint.replaceAll("[^ -~]", "?"));
        }
    }

    public static void main(String[] words) throws Exception {
        BufferedReader in = new BufferedReader(new InputStreamReader(System.in, "US-ASCII"), 1 << 20);
        PrintStream out = new PrintStream(new java.io.BufferedOutputStream(System.out, 1 << 20), false, "US-ASCII");
        List<Source> sources = new ArrayList<>();
        for (String line = in.readLine(); line != null; line = in.readLine()) {
            sources.add(new Source(sources.size(), new String(HexFormat.of().parseHex(line), StandardCharsets.ISO_8859_1)));
            if (sources.size() == BATCH) {
                answer(sources, out);
                sources.clear();
            }
        }
        if (!sources.isEmpty()) {
            answer(sources, out);
        }
        out.flush();
    }
}
