import java.io.IOException;
import java.net.URI;
import java.nio.file.FileSystem;
import java.nio.file.FileSystems;
import java.nio.file.Files;
import java.nio.file.Path;
import java.nio.file.Paths;
import java.util.ArrayList;
import java.util.List;
import java.util.stream.Collectors;
import java.util.stream.Stream;
import jdk.internal.org.objectweb.asm.ClassReader;
import jdk.internal.org.objectweb.asm.ClassWriter;

/**
 * What reading.sh needs of java. With the words `write FOLDER` it writes the class files of java.base into a folder, each as one of
 * version 52. With `read TIMES ROUNDS FOLDER NAMES` it reads and writes the files whose names stand in the file NAMES, each so many
 * times in a row, in so many rounds, and prints the nanoseconds of the best round.
 */
public class Reading {
    public static void main(String[] words) throws IOException {
        if (words[0].equals("write")) {
            write(Paths.get(words[1]));
        } else {
            int times = Integer.parseInt(words[1]);
            int rounds = Integer.parseInt(words[2]);
            System.out.println(best(times, rounds, files(Paths.get(words[3]), Paths.get(words[4]))));
        }
    }

    private static void write(Path folder) throws IOException {
        FileSystem runtime = FileSystems.getFileSystem(URI.create("jrt:/"));
        List<Path> found;
        try (Stream<Path> all = Files.walk(runtime.getPath("/modules/java.base"))) {
            found = all.filter(path -> path.toString().endsWith(".class")).sorted().collect(Collectors.toList());
        }
        for (int i = 0; i < found.size(); i++) {
            byte[] bytes = Files.readAllBytes(found.get(i));
            bytes[4] = 0;
            bytes[5] = 0;
            bytes[6] = 0;
            bytes[7] = 52;
            Files.write(folder.resolve(String.format("%05d.class", i)), bytes);
        }
    }

    private static List<byte[]> files(Path folder, Path names) throws IOException {
        List<byte[]> files = new ArrayList<>();
        for (String name : Files.readAllLines(names)) {
            files.add(Files.readAllBytes(folder.resolve(name)));
        }
        return files;
    }

    private static long best(int times, int rounds, List<byte[]> files) {
        long best = Long.MAX_VALUE;
        for (int round = 0; round < rounds; round++) {
            long began = System.nanoTime();
            read(times, files);
            best = Math.min(best, System.nanoTime() - began);
        }
        return best;
    }

    private static void read(int times, List<byte[]> files) {
        long written = 0;
        for (byte[] bytes : files) {
            for (int turn = 0; turn < times; turn++) {
                ClassWriter writer = new ClassWriter(0);
                new ClassReader(bytes).accept(writer, 0);
                written += writer.toByteArray().length;
            }
        }
        if (written == 0) {
            throw new IllegalStateException("nothing was written");
        }
    }
}
