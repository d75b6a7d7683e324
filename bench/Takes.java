import java.io.BufferedReader;
import java.io.File;
import java.io.InputStreamReader;
import java.io.Writer;
import java.nio.charset.StandardCharsets;
import java.nio.file.Path;
import java.util.List;
import javax.tools.JavaCompiler;
import javax.tools.StandardJavaFileManager;
import javax.tools.ToolProvider;

/** Tells of each source file whose path stands on a line of the standard input whether javac takes it by itself, among the classes of a class path. */
public class Takes {
    public static void main(String[] words) throws Exception {
        JavaCompiler compiler = ToolProvider.getSystemJavaCompiler();
        List<String> options = List.of("-classpath", words[0], "-sourcepath", words[1], "-d", words[1], "-proc:none", "-nowarn", "-implicit:none");
        BufferedReader paths = new BufferedReader(new InputStreamReader(System.in, StandardCharsets.UTF_8));
        for (String path = paths.readLine(); path != null; path = paths.readLine()) {
            try (StandardJavaFileManager files = compiler.getStandardFileManager(null, null, StandardCharsets.UTF_8)) {
                boolean takes = false;
                try {
                    takes = compiler.getTask(Writer.nullWriter(), files, diagnostic -> { }, options, null, files.getJavaFileObjects(new File(path))).call();
                } catch (RuntimeException error) {
                    // javac itself failed at the text
                }
                System.out.println((takes ? "yes " : "no ") + Path.of(path));
            }
        }
    }
}
