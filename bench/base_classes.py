"""Writes what base_listing must print, crates/base_listing/stdout: python3 bench/base_classes.py.

The table says which classes, and which of their fields and methods, stand ready in the machine. Their flags and superclasses are
those that `javap` of the JDK at hand lists, and it must list each member and interface; the local variables are counted by the
descriptor. The program is not asked. Four things differ from a JDK. A superclass that isn't in the table is passed over, as
AbstractStringBuilder. Interfaces are only those that the table names. Of the flags of members, native, synchronized, varargs and
bridge are left out. And VirtualMachineError, which is abstract there, isn't.
"""

import re
import subprocess
from pathlib import Path

STDOUT = Path(__file__).resolve().parent.parent / "crates" / "base_listing" / "stdout"

# A class, the interfaces that are named, and its members. Those of an error class are its two constructors.
CLASSES = [
    (
        "java/lang/Object",
        [],
        """<init> ()V
        getClass ()Ljava/lang/Class;
        equals (Ljava/lang/Object;)Z
        hashCode ()I
        wait ()V
        notify ()V
        notifyAll ()V""",
    ),
    ("java/lang/Cloneable", [], ""),
    ("java/io/Serializable", [], ""),
    (
        "java/lang/String",
        ["java/io/Serializable"],
        """length ()I
        charAt (I)C
        equals (Ljava/lang/Object;)Z""",
    ),
    (
        "java/lang/StringBuilder",
        [],
        """<init> ()V
        append (I)Ljava/lang/StringBuilder;
        append (J)Ljava/lang/StringBuilder;
        append (C)Ljava/lang/StringBuilder;
        append (Z)Ljava/lang/StringBuilder;
        append (Ljava/lang/String;)Ljava/lang/StringBuilder;
        toString ()Ljava/lang/String;""",
    ),
    ("java/lang/Class", [], ""),
    ("java/lang/Runnable", [], "run ()V"),
    (
        "java/lang/Thread",
        ["java/lang/Runnable"],
        """<init> ()V
        <init> (Ljava/lang/Runnable;)V
        start ()V
        run ()V
        join ()V
        currentThread ()Ljava/lang/Thread;""",
    ),
    (
        "java/io/PrintStream",
        [],
        """println (I)V
        println (J)V
        println (C)V
        println (Z)V
        println (Ljava/lang/String;)V
        print (I)V
        print (J)V
        print (C)V
        print (Z)V
        print (Ljava/lang/String;)V
        println ()V""",
    ),
    ("java/lang/System", [], "out Ljava/io/PrintStream;"),
    (
        "java/lang/Throwable",
        ["java/io/Serializable"],
        """<init> ()V
        <init> (Ljava/lang/String;)V
        getMessage ()Ljava/lang/String;""",
    ),
]
ERRORS = """Exception RuntimeException Error LinkageError VirtualMachineError NoClassDefFoundError ClassFormatError
    ClassCircularityError VerifyError ExceptionInInitializerError IncompatibleClassChangeError NoSuchFieldError NoSuchMethodError
    AbstractMethodError InstantiationError InternalError OutOfMemoryError StackOverflowError ArithmeticException
    NullPointerException ClassCastException IndexOutOfBoundsException NegativeArraySizeException ArrayStoreException
    IllegalMonitorStateException IllegalArgumentException ArrayIndexOutOfBoundsException StringIndexOutOfBoundsException
    IllegalThreadStateException InterruptedException"""
CONSTRUCTORS = "<init> ()V\n<init> (Ljava/lang/String;)V"
TABLE = CLASSES + [(f"java/lang/{name}", [], CONSTRUCTORS) for name in ERRORS.split()]

CLASS_WORDS = [(0x0001, "public"), (0x0010, "final"), (0x0020, "super"), (0x0200, "interface"), (0x0400, "abstract")]
MEMBER_WORDS = [
    (0x0001, "public"),
    (0x0002, "private"),
    (0x0004, "protected"),
    (0x0008, "static"),
    (0x0010, "final"),
    (0x0400, "abstract"),
]
MEMBER_BITS = sum(bit for bit, _ in MEMBER_WORDS)


class Listed:
    """What `javap -v -p` lists of a class."""

    def __init__(self, name):
        words = ["javap", "-v", "-p", name.replace("/", ".")]
        text = subprocess.run(words, check=True, capture_output=True, text=True).stdout
        head, _, rest = text.partition("\n{\n")
        self.flags = int(re.search(r"^  flags: \(0x(\w+)\)", head, re.M)[1], 16)
        self.superclass = (re.findall(r"^  super_class: #\d+ +// (\S+)", head, re.M) or [None])[0]
        self.interfaces = set(re.findall(r"(?:java/\w+/\w+)", interfaces_of(head)))
        self.members = {}
        pattern = r"^  \S.*?(<clinit>|[\w$.]+)(?:\(.*\))?(?: throws .*)?;\n    descriptor: (\S+)\n    flags: \(0x(\w+)\)"
        for declared, desc, flags in re.findall(pattern, rest, re.M):
            is_constructor = declared == name.replace("/", ".")
            self.members["<init>" if is_constructor else declared, desc] = int(flags, 16)


def interfaces_of(head):
    """The line that declares a class, from its interfaces on, with slashes and without type arguments."""
    line = re.search(r"^(?:public |final |abstract |class |interface )+.*$", head, re.M)[0]
    while "<" in line:
        line = re.sub(r"<[^<>]*>", "", line)
    return (line.partition(" implements ")[2] or line.partition(" extends ")[2]).replace(".", "/")


def told(flags, words):
    return " ".join([f"0x{flags:04x}"] + [word for bit, word in words if flags & bit])


def locals_of(flags, desc):
    """4.3.3: a long takes two local variables, and `this` the first one."""
    params = re.findall(r"\[*(?:L[^;]*;|[ZBCSIJ])", desc[1 : desc.index(")")])
    return sum(2 if param == "J" else 1 for param in params) + (0 if flags & 0x0008 else 1)


def member_line(listed, member):
    name, desc = member.split()
    flags = listed.members[name, desc] & MEMBER_BITS
    if not desc.startswith("("):
        return f"  field {name} {desc} {told(flags, MEMBER_WORDS)}"
    code = "" if flags & 0x0400 else f" locals {locals_of(flags, desc)}"
    return f"  method {name} {desc} {told(flags, MEMBER_WORDS)}{code}"


def superclass_of(name, table):
    above = Listed(name).superclass
    while above is not None and above not in table:
        above = Listed(above).superclass
    return above


def lines_of(name, interfaces, members, table):
    listed = Listed(name)
    assert set(interfaces) <= listed.interfaces, f"{name} hasn't {interfaces}"
    flags = listed.flags & ~0x0400 if name == "java/lang/VirtualMachineError" else listed.flags
    line = f"class {name} {told(flags, CLASS_WORDS)}"
    above = superclass_of(name, table)
    line += f" extends {above}" if above else ""
    line += "".join(f" implements {interface}" for interface in interfaces)
    return [line] + [member_line(listed, member) for member in members.splitlines()]


def main():
    table = {name for name, _, _ in TABLE}
    lines = [line for row in TABLE for line in lines_of(*row, table)]
    STDOUT.write_text("".join(f"{line}\n" for line in lines))
    print(f"{len(TABLE)} classes, {len(lines) - len(TABLE)} members")


if __name__ == "__main__":
    main()
