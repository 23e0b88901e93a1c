import java.io.BufferedReader;
import java.io.ByteArrayOutputStream;
import java.io.IOException;
import java.io.InputStreamReader;
import java.io.PrintStream;
import java.lang.reflect.InvocationTargetException;
import java.nio.charset.StandardCharsets;
import java.nio.file.Files;
import java.nio.file.Path;

/**
 * Runs programs of class files, each in a class loader and a thread of its own. A line of standard input is a folder and a class:
 * with a static method run()V of the class Start$ in the folder, which calls the class's main, or else the class is initialized
 * alone. What the program prints goes to the file `stdout` in the folder, and the answer is one line: `ended: ` and the class of what ended
 * the thread, or `none`.
 */
final class Oracle {
    private static final class Loader extends ClassLoader {
        private final Path folder;

        Loader(Path folder) {
            super(null);
            this.folder = folder;
        }

        @Override
        protected Class<?> findClass(String name) throws ClassNotFoundException {
            try {
                byte[] data = Files.readAllBytes(folder.resolve(name.replace('.', '/') + ".class"));
                return defineClass(name, data, 0, data.length);
            } catch (IOException error) {
                throw new ClassNotFoundException(name);
            }
        }
    }

    private static void run(Path folder, String name, boolean hasStart) throws Throwable {
        Loader loader = new Loader(folder);
        if (!hasStart) {
            Class.forName(name, true, loader);
            return;
        }
        try {
            Class.forName("Start$", true, loader).getMethod("run").invoke(null);
        } catch (InvocationTargetException error) {
            throw error.getCause();
        }
    }

    public static void main(String[] words) throws Exception {
        PrintStream answers = System.out;
        BufferedReader lines = new BufferedReader(new InputStreamReader(System.in, StandardCharsets.UTF_8));
        int count = 0;
        for (String line = lines.readLine(); line != null; line = lines.readLine()) {
            int at = line.indexOf(' ');
            Path folder = Path.of(line.substring(0, at));
            String name = line.substring(at + 1).replace('/', '.');
            boolean hasStart = Files.exists(folder.resolve("Start$.class"));
            ByteArrayOutputStream output = new ByteArrayOutputStream();
            String[] ended = {"none"};
            System.setOut(new PrintStream(output, false, "UTF-8"));
            Thread thread = new Thread(null, () -> {
                try {
                    run(folder, name, hasStart);
                } catch (Throwable error) {
                    ended[0] = error.getClass().getName().replace('.', '/');
                }
            }, "t0", 16 << 20);
            thread.start();
            thread.join();
            System.out.flush();
            Files.write(folder.resolve("stdout"), output.toByteArray());
            answers.println("ended: " + ended[0]);
            answers.flush();
            if (++count % 100 == 0) {
                System.gc();
            }
        }
    }
}
