"""What `java` says of the methods of bench/type_cases.txt, beside what the table says: python3 verifying_java.py [--all].

It has `java` link a class file with each method of the table alone, and each class file of javac, with the classes beside it that are known in its
request. It prints each of which the table and `java` don't agree on whether it passes, with `--all` each one, and how many agree. The program type_check
is not asked: what it prints is compared with the table by the gate. This runs outside the gate, and is skipped where java or javac is missing.

`java` 17 passes some that the table has fail: a `new` finds what it made itself on its stack, or in a local variable that is used afterwards. The
specification refuses the one and makes the variable unusable (4.10.1.9, `new`). It doesn't link a class that is its own superclass, or whose superclass
is wanting. Of those that fail, `java` names another offset where states are compared: that of the target, the handler or the next
instruction, in place of the instruction that leads there. What it refuses before it looks at instructions has no offset."""

import pathlib
import re
import shutil
import subprocess
import sys
import tempfile

sys.dont_write_bytecode = True
import type_cases

# links a class, whose loader finds those of a folder beside it; each line of the list has the folder, the name and the file
LINKS = """
import java.io.File;
import java.io.PrintStream;
import java.net.URL;
import java.net.URLClassLoader;
import java.nio.file.Files;

public class Links extends ClassLoader {
    private final byte[] bytes;

    private Links(byte[] bytes, ClassLoader beside) {
        super(beside);
        this.bytes = bytes;
    }

    @Override
    protected Class<?> findClass(String name) throws ClassNotFoundException {
        if (bytes == null) {
            throw new ClassNotFoundException(name);
        }
        return defineClass(null, bytes, 0, bytes.length);
    }

    private static String said(String[] words) throws Exception {
        URL[] folder = {new File(words[0]).toURI().toURL()};
        byte[] bytes = Files.readAllBytes(new File(words[2]).toPath());
        try {
            Class.forName(words[1], true, new Links(bytes, new URLClassLoader(folder)));
            return "passes";
        } catch (ExceptionInInitializerError fault) {
            return "passes";
        } catch (Throwable fault) {
            String text = String.valueOf(fault.getMessage()).replaceAll("\\\\s+", " ");
            return fault.getClass().getSimpleName() + ": " + text;
        }
    }

    public static void main(String[] args) throws Exception {
        PrintStream out = System.out;
        System.setOut(new PrintStream(new File("printed")));
        for (String line : Files.readAllLines(new File("list").toPath())) {
            out.println(said(line.split(" ")));
        }
        out.flush();
    }
}
"""


def class_name(content):
    """The name of the class of a file (4.1 and 4.4)."""
    texts, classes, at, place = {}, {}, 10, 1
    while place < int.from_bytes(content[8:10], "big"):
        tag, two = content[at], int.from_bytes(content[at + 1 : at + 3], "big")
        if tag == 1:
            texts[place] = content[at + 3 : at + 3 + two].decode("ascii")
        if tag == 7:
            classes[place] = two
        at += 3 + two if tag == 1 else {7: 3, 8: 3, 15: 4, 16: 3, 5: 9, 6: 9}.get(tag, 5)
        place += 2 if tag in (5, 6) else 1
    return texts[classes[int.from_bytes(content[at + 2 : at + 4], "big")]]


def asked_of(table):
    """What is asked: a label, the class file, what is to come of it, and the class files that are known beside it."""
    data = type_cases.CRATE / "data"
    for request in table.requests:
        known = [(data / f"{stem}.class").read_bytes() for stem in request["known"]]
        for file in request["files"]:
            if isinstance(file, type_cases.Given):
                yield f"{file.stem}.class", file.content, file.lines(False)[-1].partition(" ")[2], known
            elif isinstance(file, type_cases.Group):
                for case in file.cases:
                    yield f"{file.stem}.class {case.key()}", type_cases.class_file([case])[0], case.verdict, known


def answers(asked):
    """What `java` says of each."""
    with tempfile.TemporaryDirectory() as folder:
        folder = pathlib.Path(folder)
        lines = []
        for place, (_, content, _, known) in enumerate(asked):
            name, beside = class_name(content), folder / f"beside_{place}"
            beside.mkdir()
            for other in reversed(known):
                if class_name(other) != name:
                    (beside / f"{class_name(other)}.class").write_bytes(other)
            (folder / f"{place}.class").write_bytes(content)
            lines.append(f"{beside.name}/ {name} {place}.class\n")
        (folder / "list").write_text("".join(lines))
        (folder / "Links.java").write_text(LINKS)
        subprocess.run(["javac", "-nowarn", "Links.java"], cwd=folder, check=True)
        run = subprocess.run(["java", "-cp", ".", "Links"], cwd=folder, check=True, capture_output=True, text=True)
        return run.stdout.splitlines()


def main():
    if not shutil.which("java") or not shutil.which("javac"):
        print("verifying_java.py: skipped, since java or javac is missing")
        return
    asked = list(asked_of(type_cases.read_table()))
    agree = offsets = failing = 0
    for (label, _, wanted, _), answer in zip(asked, answers(asked)):
        same = (wanted == "passes") == (answer == "passes")
        agree += same
        found = re.search(r"@(\d+):", answer)
        if same and wanted.startswith("fails") and found:
            failing += 1
            offsets += wanted.split()[-1] == found.group(1)
        if not same or "--all" in sys.argv:
            print(f"{label}: {wanted}; java {answer}")
    print(f"{len(asked)} classes, {agree} of which pass, or not, for both; of {failing} with an offset by java, {offsets} have the same")


if __name__ == "__main__":
    main()
