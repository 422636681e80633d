#!/bin/sh
# What `java` answers of the class files in crates/run_cases/data: which class's method a call runs, which class's field is read,
# which casts pass, and what three methods answer. It prints these as lines of crates/run_cases/stdout, and then those that do
# not stand there. Each class is compiled apart, so that one may change after those that name it were compiled. With the word
# `data` it writes the class files instead. It runs outside the gate, and is skipped where there is no javac.
set -eu
if ! command -v javac >/dev/null 2>&1; then
    echo "linking.sh: skipped, since javac is missing"
    exit 0
fi
crate=$(cd "$(dirname "$0")/../crates/run_cases" && pwd)
folder=$(mktemp -d)
trap 'rm -rf "$folder"' EXIT
cd "$folder"
mkdir named made

# compiles a file for version 8, against the classes of a folder, into a folder
compile() {
    javac -nowarn -g:none -source 8 -target 8 -cp "$2" -d "$3" "$1" >messages.txt 2>&1 || {
        cat messages.txt
        exit 1
    }
}

# compiles the classes of one text, against those that were compiled before into the same folder
made() {
    printf '%s\n' "$2" >Text.java
    compile Text.java "$1" "$1"
}

# the classes as those that call them see them: each declares all that is named
interface='char x = Show.of(0), y = x, z = x; char m(); char d(); char a(); char none(); void finalize();'
class='public static char x, y, z; public char m() { return 0; } public char d() { return 0; } public char a() { return 0; } public char none() { return 0; }'
names='class Show { static char of(int c) { return (char) c; } }'
for name in I J K L; do
    names="$names interface $name { $interface }"
done
for name in A B C D E F G H P Q S T U X; do
    names="$names class $name { $class }"
done
made named "$names"

# the classes as they are at first
made made 'class Show { static char of(int c) { return (char) c; } }
interface I { char x = Show.of(73), y = x; default char m() { return 73; } default char d() { return 73; } char a(); }
interface J extends I { char x = Show.of(74); default char m() { return 74; } }
interface K { }
interface L { }
class A implements I, J { public char a() { return 65; } }
class B implements J, K { public char a() { return 66; } }
class C { public static char x = 67, z = x; }
class D extends C implements J { public static int z; public char a() { return 68; } }
class E implements L, K { }
class F implements L { }
abstract class G extends C { }
class H extends G { }
class P extends C { public static char x = 80; private char m() { return 80; } static char call(P p) { return p.m(); } }
class Q extends P { }
class S extends C { }
class T extends S { }
class U extends S { public char m() { return 85; } }
class X extends A implements K { }'

# what changes afterwards
made made 'interface K { default char m() { return 75; } }'
made made 'interface L { char m(); }'
made made 'class S extends C { public static char m() { return 83; } }'
made made 'abstract class G extends C { public abstract char m(); }'
made made 'class C { public static char x = 67, z = x; public char m() { return 67; } }'

# writes the class files into the data
write_data() {
    cp "$crate/data/Numbers.java" .
    compile Numbers.java . made
    rm made/Show.class
    cp made/*.class "$crate/data"
}
if [ "${1-}" = data ]; then
    write_data
    exit 0
fi

# the calls, as CLASS.METHOD on RECEIVER
{
    echo 'public class Calls { interface Call { Object run() throws Throwable; }'
    echo 'static String answer(Throwable t) { switch (t.getClass().getSimpleName()) { case "NoSuchMethodError": return "no such method"; case "NoSuchFieldError": return "no such field"; case "AbstractMethodError": return "an abstract method"; case "IncompatibleClassChangeError": return "several methods to choose from"; default: return t.toString(); } }'
    echo 'static void show(String what, Call call) { Object found; try { found = call.run(); } catch (Throwable t) { found = answer(t); } System.out.println(what + " -> " + found); }'
    echo 'public static void main(String[] args) throws Exception {'
    for call in A.m.A I.m.A J.m.A A.d.A I.a.A A.none.A B.m.B J.m.B I.m.B K.m.B D.m.D J.m.D I.m.D C.m.D E.m.E L.m.E K.m.E F.m.F L.m.F \
        H.m.H C.m.H C.m.P C.m.Q C.m.S C.m.T C.m.U X.m.X A.m.X K.m.X X.d.X; do
        class=${call%%.*} receiver=${call##*.} method=${call#*.} method=${method%.*}
        echo "show(\"call $class $method ()C $receiver\", () -> (($class) (Object) Class.forName(\"$receiver\").getDeclaredConstructor().newInstance()).$method());"
    done
    echo 'Object a = Class.forName("A").getDeclaredConstructor().newInstance();'
    echo 'show("call I hashCode ()I A", () -> ((I) a).hashCode() == System.identityHashCode(a) ? "java/lang/Object" : "other");'
    echo 'show("call I finalize ()V A", () -> { ((I) a).finalize(); return "found"; });'
    for field in I.x J.x J.y A.x A.y B.x C.x C.y D.x D.y D.z H.z Q.x Q.z X.x K.x; do
        echo "show(\"resolve_field ${field%.*} ${field#*.} C\", () -> $field);"
    done
    echo '} }'
} >Calls.java
compile Calls.java named .
java -cp made:. Calls >answers.txt
made made 'class Private { public static void main(String[] args) { System.out.println("call P m ()C Q -> " + P.call(new Q())); } }'
java -cp made Private >>answers.txt

# the casts: of a value of each class to each class
{
    echo 'public class Casts { public static void main(String[] args) { Object[] arrays = {'
    echo 'new int[0], new boolean[0], new int[0][], new Object[0], new String[0], new A[0], new I[0], new J[0], new Cloneable[0], new Object[0][], new A[0][] };'
    echo 'Class<?>[] others = { Object.class, Cloneable.class, java.io.Serializable.class, String.class, I.class, J.class, A.class };'
    echo 'java.util.List<Object> values = new java.util.ArrayList<>(java.util.Arrays.asList(arrays)); values.add(new Object()); values.add(""); values.add(new A());'
    echo 'java.util.List<Class<?>> all = new java.util.ArrayList<>(java.util.Arrays.asList(others)); for (Object v : arrays) all.add(v.getClass());'
    echo 'for (Object v : values) { StringBuilder line = new StringBuilder("casts " + v.getClass().getName() + " ->"); for (Class<?> c : all) { try { c.cast(v); line.append(" " + c.getName()); } catch (ClassCastException e) { } } System.out.println(line.toString().replace(".", "/")); } } }'
} >Casts.java
compile Casts.java made .
java -cp made:. Casts >>answers.txt
java -cp "$crate/data" Numbers >>answers.txt
cat answers.txt
echo "linking.sh: lines that crates/run_cases/stdout has otherwise:"
grep -Fxv -f "$crate/stdout" answers.txt || true
