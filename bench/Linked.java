import java.nio.file.*;

/** Seconds in which the JVM links the last of the given class files, the others being defined before: the least of five loads. */
public class Linked {
    static class Loader extends ClassLoader {
        Class<?> define(byte[] file) { return defineClass(null, file, 0, file.length); }
    }

    public static void main(String[] words) throws Exception {
        byte[][] files = new byte[words.length][];
        for (int i = 0; i < words.length; i++) files[i] = Files.readAllBytes(Paths.get(words[i]));
        double best = Double.MAX_VALUE;
        for (int turn = 0; turn < 5; turn++) {
            long began = System.nanoTime();
            Loader loader = new Loader();
            Class<?> last = null;
            for (byte[] file : files) last = loader.define(file);
            Class.forName(last.getName(), true, loader);
            best = Math.min(best, (System.nanoTime() - began) / 1e9);
        }
        System.out.printf("%.3f%n", best);
    }
}
