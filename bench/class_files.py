"""Writes the class files that the gate runs classfile_check on, and its args and its stdout: python3 bench/class_files.py.

The tables below are the source. A case is a file's name in crates/classfile_check/data, its bytes, what the program must say
of it, and why, by the section of the Java Virtual Machine Specification, SE 8. `accepted` stands for `accepted` and the file's
length. An offset is that of the first fault, counted by hand: the program is not asked. A file that is `cut` ends with what the
case shows, and any other goes on to the end of a class. The files of KEPT are not made here.
"""

from pathlib import Path

PROGRAM = Path(__file__).resolve().parent.parent / "crates" / "classfile_check"
DATA = PROGRAM / "data"

# Made by javac, or by hand of those: the classes of worked examples, and changed ones. Add is the one of examples/.
KEPT = [
    ("A", "accepted"),
    ("Add", "accepted"),
    ("Add_cut", "truncated 40"),
    ("Add_fadd", "floating 233"),
    ("Add_isub", "accepted"),
    ("Add_long", "trailing 244"),
    ("Add_stack2", "accepted"),
    ("B", "accepted"),
    ("Count", "accepted"),
    ("D", "accepted"),
    ("Five", "accepted"),
    ("Hook", "accepted"),
    ("Loop", "accepted"),
    ("Loop_g", "accepted"),
    ("Loop_g_private", "accepted"),
    ("Named", "accepted"),
    ("P", "accepted"),
    ("P_donor", "accepted"),
    ("Pop", "accepted"),
    ("Q", "accepted"),
    ("Q_donor", "accepted"),
    ("Shape", "accepted"),
    ("Spin", "accepted"),
    ("Two", "accepted"),
    ("Z", "accepted"),
    ("empty", "truncated 0"),
]

# What stands behind the files: a name that no file has, and a folder, which can't be read.
NO_FILES = [("Absent.class", "absent"), (".", "unreadable")]


# ---- Numbers (4), of the lowest byte last.


def u2(number):
    return number.to_bytes(2, "big")


def u4(number):
    return number.to_bytes(4, "big")


# ---- Entries of a constant pool (4.4).


def utf8(text):
    content = text if isinstance(text, bytes) else text.encode("ascii")
    return b"\x01" + u2(len(content)) + content


def integer(value):
    return b"\x03" + value.to_bytes(4, "big", signed=True)


def long(value):
    return b"\x05" + value.to_bytes(8, "big", signed=True)


def class_info(name):
    return b"\x07" + u2(name)


def string(text):
    return b"\x08" + u2(text)


def field_ref(owner, name_type):
    return b"\x09" + u2(owner) + u2(name_type)


def method_ref(owner, name_type):
    return b"\x0a" + u2(owner) + u2(name_type)


def interface_method_ref(owner, name_type):
    return b"\x0b" + u2(owner) + u2(name_type)


def name_and_type(name, desc):
    return b"\x0c" + u2(name) + u2(desc)


def entries(count, *listed):
    """A pool of this constant_pool_count."""
    return u2(count) + b"".join(listed)


# ---- Files (4.1).


def cut(pool, version=52):
    """A file that ends with its pool, or within it."""
    return bytes.fromhex("cafebabe") + u2(0) + u2(version) + pool


def whole(pool, this=2, superclass=4, fields=u2(0), methods=u2(0), attributes=u2(0), version=52):
    """A public class without interfaces. Its fields, methods and attributes come with their numbers in front."""
    return cut(pool, version) + u2(0x0021) + u2(this) + u2(superclass) + u2(0) + fields + methods + attributes


# ---- Pools. A pool's first entry stands at 10, behind the magic number, the version and the count.

POOLS = [
    ("pool_missing", cut(b""), "truncated 8", "4.1: constant_pool_count has two bytes"),
    ("pool_count_cut", cut(b"\0"), "truncated 9", "4.1: constant_pool_count has two bytes"),
    ("pool_entry_missing", cut(entries(2)), "truncated 10", "4.1: a count of 2 asks one entry"),
    ("pool_integer_cut", cut(entries(2, integer(0)[:4])), "truncated 14", "4.4.4: an Integer has four bytes"),
    ("pool_tag_0", whole(entries(2, b"\x00")), "bad-tag 10", "4.4: no entry has this tag"),
    ("pool_tag_2", whole(entries(2, b"\x02")), "bad-tag 10", "4.4: no entry has this tag"),
    ("pool_tag_13", whole(entries(2, b"\x0d")), "bad-tag 10", "4.4: no entry has this tag"),
    ("pool_tag_17", whole(entries(2, b"\x11")), "bad-tag 10", "4.4: no entry has this tag"),
    ("pool_float", whole(entries(2, b"\x04" + u4(0))), "floating 10", "4.4.4: a Float, which the profile leaves out"),
    (
        "pool_double",
        whole(entries(3, b"\x06" + u4(0) * 2)),
        "floating 10",
        "4.4.5: a Double, which the profile leaves out",
    ),
    (
        "pool_method_handle",
        whole(entries(2, b"\x0f\x01" + u2(1))),
        "unsupported 10",
        "4.4.8: a MethodHandle, which the profile leaves out",
    ),
    (
        "pool_method_type",
        whole(entries(2, b"\x10" + u2(1))),
        "unsupported 10",
        "4.4.9: a MethodType, which the profile leaves out",
    ),
    (
        "pool_invoke_dynamic",
        whole(entries(2, b"\x12" + u2(0) + u2(1))),
        "unsupported 10",
        "4.4.10: an InvokeDynamic, which the profile leaves out",
    ),
    # Texts (4.4.7): the tag stands at 10, the length at 11 and the first byte at 13.
    ("text_cut", cut(entries(2, b"\x01" + u2(3) + b"a")), "truncated 14", "4.4.7: one of three bytes is there"),
    (
        "text_bad_byte_before_the_cut",
        cut(entries(2, b"\x01" + u2(3) + b"a\x80")),
        "bad-text 14",
        "4.4.7: no character begins with 80, which comes before the file's end",
    ),
    (
        "text_no_room_for_a_character",
        whole(entries(2, b"\x01" + u2(2) + b"a\xc3\xa9")),
        "bad-text 14",
        "4.4.7: c3 begins a character of two bytes, of which the text has one",
    ),
    (
        "text_half_a_character",
        whole(entries(2, b"\x01" + u2(1) + b"\xc3")),
        "bad-text 13",
        "4.4.7: c3 begins a character of two bytes, of which the text has one",
    ),
    (
        "text_cut_in_a_character",
        cut(entries(2, b"\x01" + u2(2) + b"\xc3")),
        "truncated 14",
        "4.4.7: the text has room for the character, and the file ends in it",
    ),
    (
        "text_cut_behind_a_bad_byte",
        cut(entries(2, b"\x01" + u2(2) + b"\xc1")),
        "bad-text 13",
        "4.4.7: no character begins with c1, which comes before the file's end",
    ),
    (
        "text_wrong_second_byte",
        whole(entries(2, utf8(b"\xc3\x28"))),
        "bad-text 13",
        "4.4.7: the second byte of a character is from 80 to bf",
    ),
    ("text_byte_0", whole(entries(2, utf8(b"\0"))), "bad-text 13", "4.4.7: no byte is 0"),
    # Indices (4.4), of no entry, of nothing and of another kind. The first index stands at 11, a second one at 13.
    (
        "pool_long_at_the_last_index",
        whole(entries(2, long(1))),
        "bad-index 10",
        "4.4.5: a Long takes two places, and the count leaves it one",
    ),
    (
        "pool_second_place_of_a_long",
        whole(entries(4, long(1), string(2))),
        "bad-index 20",
        "4.4.5: the second place of a Long can't be used",
    ),
    (
        "pool_class_of_index_0",
        whole(entries(2, class_info(0))),
        "bad-index 11",
        "4.4.1: name_index is that of an entry, from 1 on",
    ),
    (
        "pool_class_of_no_entry",
        whole(entries(2, class_info(2))),
        "bad-index 11",
        "4.4.1: name_index is less than the count",
    ),
    ("pool_class_of_a_class", whole(entries(2, class_info(1))), "bad-index 11", "4.4.1: name_index names a Utf8"),
    ("pool_string_of_a_string", whole(entries(2, string(1))), "bad-index 11", "4.4.3: string_index names a Utf8"),
    (
        "pool_field_of_no_class",
        whole(entries(2, field_ref(1, 1))),
        "bad-index 11",
        "4.4.2: class_index names a Class",
    ),
    (
        "pool_method_of_no_pair",
        whole(entries(4, method_ref(2, 2), class_info(3), utf8("A"))),
        "bad-index 13",
        "4.4.2: name_and_type_index names a NameAndType",
    ),
    (
        "pool_field_with_a_descriptor_of_methods",
        whole(entries(7, class_info(2), utf8("A"), name_and_type(2, 4), utf8("()V"), utf8("I"), field_ref(1, 3))),
        "bad-index 35",
        "4.4.2: a Fieldref's descriptor is that of a field",
    ),
    (
        "pool_method_with_a_descriptor_of_fields",
        whole(entries(6, class_info(2), utf8("I"), name_and_type(2, 2), method_ref(1, 3), interface_method_ref(1, 3))),
        "bad-index 25",
        "4.4.2: a Methodref's descriptor is that of a method",
    ),
    (
        "pool_interface_method_with_a_descriptor_of_fields",
        whole(entries(5, class_info(2), utf8("I"), name_and_type(2, 2), interface_method_ref(1, 3))),
        "bad-index 25",
        "4.4.2: an InterfaceMethodref's descriptor is that of a method",
    ),
    (
        "pool_name_of_index_0",
        whole(entries(2, name_and_type(0, 0))),
        "bad-index 11",
        "4.4.6: name_index names a Utf8",
    ),
    (
        "pool_descriptor_of_index_0",
        whole(entries(3, name_and_type(2, 0), utf8("x"))),
        "bad-index 13",
        "4.4.6: descriptor_index names a Utf8",
    ),
    (
        "pool_read_before_its_indices",
        whole(entries(3, class_info(0), b"\x02")),
        "bad-tag 13",
        "4.4: all entries are read before what they name is looked at",
    ),
    # Texts of classes (4.4.1), names (4.2) and descriptors (4.3).
    (
        "class_text_with_a_dot",
        whole(entries(3, class_info(2), utf8("a.b"))),
        "bad-text 11",
        "4.2.1: the names' parts stand between slashes",
    ),
    (
        "class_text_array_of_nothing",
        whole(entries(3, class_info(2), utf8("["))),
        "bad-text 11",
        "4.3.2: an array has a component type",
    ),
    (
        "class_text_array_of_floats",
        whole(entries(4, utf8(b"\xc0\x80"), class_info(3), utf8("[F"))),
        "floating 16",
        "4.3.2: F is float, which the profile leaves out; a text of two bytes, which is one character, stands before it",
    ),
    (
        "name_in_angle_brackets",
        whole(entries(4, name_and_type(2, 3), utf8("<x>"), utf8("()V"))),
        "bad-text 11",
        "4.2.2: no method but <init> and <clinit> has < or > in its name",
    ),
    (
        "name_with_a_semicolon",
        whole(entries(4, name_and_type(2, 3), utf8(";"), utf8("I"))),
        "bad-text 11",
        "4.2.2: no name has a semicolon",
    ),
    (
        "descriptor_float",
        whole(entries(4, name_and_type(2, 3), utf8("x"), utf8("F"))),
        "floating 13",
        "4.3.2: F is float, which the profile leaves out",
    ),
    (
        "descriptor_float_parameter",
        whole(entries(4, name_and_type(2, 3), utf8("m"), utf8("(F)V"))),
        "floating 13",
        "4.3.3: F is float, which the profile leaves out",
    ),
    (
        "descriptor_without_a_result",
        whole(entries(4, name_and_type(2, 3), utf8("m"), utf8("(F)"))),
        "bad-text 13",
        "4.3.3: a method's descriptor ends with its result, so this is none, of floats or not",
    ),
    (
        "pool_each_tag",
        whole(
            entries(
                22,
                utf8("A"),
                class_info(1),
                utf8("x"),
                utf8("I"),
                name_and_type(3, 4),
                field_ref(2, 5),
                utf8("m"),
                utf8("()V"),
                name_and_type(7, 8),
                method_ref(2, 9),
                interface_method_ref(2, 9),
                integer(-7),
                long(1 << 40),  # and 14
                string(3),
                utf8(b"\xc0\x80"),
                class_info(18),
                utf8("[I"),
                utf8("x"),
                class_info(21),
                utf8("java/lang/Object"),
            ),
            superclass=20,
        ),
        "accepted",
        "4.4: an entry of each tag of the profile, a text with the character of 0, an array's class and a text that stands twice",
    ),
    (
        "pool_indices_of_two_bytes",
        whole(
            entries(
                307,
                utf8("Add"),
                integer(-7),
                long(1 << 40),  # and 4
                class_info(1),
                string(1),
                field_ref(5, 300),
                method_ref(5, 301),
                interface_method_ref(5, 301),
                integer(-2),
                long(-8_589_934_336),  # and 12
                *[integer(-1 << 31)] * 287,  # 13 to 299
                name_and_type(302, 303),
                name_and_type(302, 304),
                utf8("x"),
                utf8("I"),
                utf8("()V"),
                class_info(306),
                utf8("java/lang/Object"),
            ),
            this=5,
            superclass=305,
        ),
        "accepted",
        "4.4: an index has two bytes, and a number of four or eight bytes a sign",
    ),
]


# ---- Add.class with other bytes. `javap -v` lists it: the pool stands up to 193, the access flags at 194, this_class at 196,
# super_class at 198, and the number of methods at 204; then main: its flags at 206, its name at 208, its descriptor at 210,
# the number of its attributes at 212; its Code: its name at 214, its length at 216, the length of the code at 224, the code
# at 228; and the number of the class's attributes at 242.

ADD = (DATA / "Add.class").read_bytes()


def add(at, byte):
    """Add.class with this byte at this place."""
    return ADD[:at] + bytes([byte]) + ADD[at + 1 :]


def add_with_field(flags, desc, length):
    """Add.class with a field and its ConstantValue of 2 bytes, which says 5 and whose attribute_length, at 239, is this."""
    pool = ADD[:9] + bytes([23]) + ADD[10:194] + utf8("ConstantValue") + utf8("I") + integer(5)
    field = u2(flags) + u2(10) + u2(desc) + u2(1) + u2(20) + u4(length) + u2(22)
    return pool + ADD[194:202] + u2(1) + field + ADD[204:]


def add_with_method(desc):
    """Add.class with a second method main, of the descriptor at this index. The first one's is at 6."""
    return ADD[:204] + u2(2) + ADD[206:242] + u2(9) + u2(5) + u2(desc) + ADD[212:]


CHANGED = [
    ("magic_wrong", add(0, 0x00), "magic 0", "4.1: the magic number is cafebabe"),
    ("version_53", add(7, 53), "version 6", "4.1: SE 8 has versions up to 52, and the profile those from 50 on"),
    ("pool_tag_2_of_a_class", add(10, 2), "bad-tag 10", "4.4: no entry has this tag"),
    ("text_byte_0_of_a_name", add(13, 0x00), "bad-text 13", "4.4.7: no byte is 0"),
    (
        "pool_class_of_itself",
        add(18, 2),
        "bad-index 17",
        "4.4.1: name_index names a Utf8, and this Class names itself",
    ),
    ("this_class_is_a_text", add(197, 1), "bad-index 196", "4.1: this_class names a Class"),
    (
        "this_class_is_an_array",
        ADD[:13] + b"[[I" + ADD[16:],
        "bad-text 196",
        "4.1: this_class names a class or an interface, no array",
    ),
    ("superclass_of_index_0", add(199, 0), "bad-index 198", "4.1: Object alone has no superclass, and is in no file"),
    ("native_method", add(206, 0x01), "unsupported 206", "4.6: ACC_NATIVE, which the profile leaves out"),
    ("abstract_method_with_code", add(206, 0x04), "bad-member 206", "4.7.3: an abstract method has no Code"),
    (
        "method_without_code",
        add(215, 5),
        "bad-member 206",
        "4.7.3: any other method has one; its only attribute is `main`",
    ),
    (
        "method_with_two_codes",
        ADD[:212] + u2(2) + ADD[214:242] + ADD[214:],
        "bad-member 206",
        "4.7.3: a method has one Code at most",
    ),
    ("name_is_a_class", add(209, 2), "bad-index 208", "4.6: name_index names a Utf8"),
    ("name_with_slashes", add(209, 3), "bad-text 208", "4.2.2: no method's name has a slash"),
    ("descriptor_is_a_name", add(211, 1), "bad-text 210", "4.6: descriptor_index names a method's descriptor"),
    (
        "two_methods_of_one_descriptor",
        add_with_method(6),
        "duplicate 242",
        "4.6: no two methods have one name and descriptor",
    ),
    ("two_methods_of_one_name", add_with_method(17), "accepted", "4.6: methods of one name have other descriptors"),
    ("code_attribute_too_long", add(219, 23), "bad-length 216", "4.7: the Code has 22 bytes"),
    ("code_length_0", add(227, 0), "bad-length 224", "4.7.3: code_length is greater than zero"),
    ("invokedynamic", add(233, 0xBA), "unsupported 233", "6.5: invokedynamic, which the profile leaves out"),
    (
        "invokevirtual_cut_by_the_code",
        add(237, 0xB6),
        "bad-code 237",
        "4.9.1: the last instruction's operands are within the code",
    ),
    ("class_attribute_missing", add(243, 1), "truncated 244", "4.1: an attributes_count of 1 asks one"),
    ("constant_value", add_with_field(8, 21, 2), "accepted", "4.7.2: a static field of int with an Integer"),
    ("constant_value_too_long", add_with_field(8, 21, 3), "bad-length 239", "4.7.2: a ConstantValue has 2 bytes"),
    (
        "constant_value_of_a_reference",
        add_with_field(8, 11, 2),
        "bad-index 243",
        "4.7.2: a field of PrintStream has no constant",
    ),
    (
        "constant_value_of_no_static_field",
        add_with_field(0, 11, 2),
        "accepted",
        "4.7.2: it is ignored where the field isn't static",
    ),
]

# Fronts of Add.class, in each item once; all others are said by `class_file_laws` of classfile_read, clause `cut`.
FRONTS = [
    (3, "4.1: in the magic number"),
    (5, "4.1: in the minor version"),
    (7, "4.1: in the major version"),
    (8, "4.1: before constant_pool_count"),
    (12, "4.4.7: in the length of a text"),
    (13, "4.4.7: before a text's bytes"),
    (17, "4.4.1: in an index"),
    (193, "4.4.2: in the pool's last entry"),
    (194, "4.1: before the access flags"),
    (197, "4.1: in this_class"),
    (199, "4.1: in super_class"),
    (201, "4.1: in the number of interfaces"),
    (203, "4.1: in the number of fields"),
    (205, "4.1: in the number of methods"),
    (207, "4.6: in a method's flags"),
    (209, "4.6: in its name"),
    (211, "4.6: in its descriptor"),
    (213, "4.6: in the number of its attributes"),
    (215, "4.7: in an attribute's name"),
    (219, "4.7: in its length"),
    (221, "4.7.3: in max_stack"),
    (223, "4.7.3: in max_locals"),
    (227, "4.7.3: in code_length"),
    (229, "4.7.3: in an instruction"),
    (239, "4.7.3: in the number of handlers"),
    (241, "4.7.3: in the number of the code's attributes"),
    (243, "4.1: in the number of the class's attributes"),
]
CUT = [(f"Add_cut_at_{end}", ADD[:end], f"truncated {end}", reason) for end, reason in FRONTS]


# ---- Classes of one method, `public static void main(String[])`, whose Code stands at a round place.


def method_at(place, listed, indices, code, version=52, end=u2(0)):
    """A class of this method. The content of its Code stands at `place`: a text behind the listed entries makes room for it.
    `indices` are those of the class, its superclass, and the texts of main, of its descriptor and of Code."""
    this, superclass, name, desc, code_name = indices
    count = 2 + len(listed) + sum(entry[0] == 5 for entry in listed)
    method = u2(1) + u2(9) + u2(name) + u2(desc) + u2(1) + u2(code_name) + u4(len(code))
    plain = whole(entries(count, *listed, utf8("")), this, superclass, methods=method, attributes=b"", version=version)
    room = utf8("." * (place - len(plain)))
    return whole(entries(count, *listed, room), this, superclass, methods=method, attributes=code + end, version=version)


# The pool of Add, as `javap -v` lists it, and six entries more.
CODE_POOL = [
    utf8("Add"),
    class_info(1),
    utf8("java/lang/Object"),
    class_info(3),
    utf8("main"),
    utf8("([Ljava/lang/String;)V"),
    utf8("Code"),
    utf8("java/lang/System"),
    class_info(8),
    utf8("out"),
    utf8("Ljava/io/PrintStream;"),
    name_and_type(10, 11),
    field_ref(9, 12),  # 13: System.out
    utf8("java/io/PrintStream"),
    class_info(14),
    utf8("println"),
    utf8("(I)V"),
    name_and_type(16, 17),
    method_ref(15, 18),  # 19: PrintStream.println(I)V
    utf8("StackMapTable"),
    interface_method_ref(15, 18),  # 21
    utf8("LineNumberTable"),
    integer(-7),  # 23
    long(1 << 40),  # 24 and 25
]


def with_code(code, version=52, end=u2(0)):
    """A class whose Code has this content, from 300 on."""
    return method_at(300, CODE_POOL, (2, 4, 5, 6, 7), code, version, end)


def code_of(code, length=None, then=u2(0) + u2(0)):
    """The content of a Code (4.7.3): max_stack and max_locals of 1, the code, no handler and no attribute."""
    return u2(1) + u2(1) + u4(len(code) if length is None else length) + code + then


def body(code, length=None, then=u2(0) + u2(0)):
    """A class with this code, from 308 on."""
    return with_code(code_of(code, length, then))


def cut_body(code, length):
    """A file that ends with this code, whose code_length is this."""
    return with_code(code_of(code, length, b""), end=b"")


# ---- Instructions (6.5).

NOP = b"\x00"
BIPUSH_5 = b"\x10\x05"
FADD = b"\x62"
RETURN = b"\xb1"
INVOKEDYNAMIC = b"\xba"


def ldc(index):
    return b"\x12" + bytes([index])


def ldc2_w(index):
    return b"\x14" + u2(index)


def goto(branch):
    return b"\xa7" + u2(branch)


def jsr(branch):
    return b"\xa8" + u2(branch)


def lookupswitch(pad, default, count, *pairs):
    return b"\xab" + b"\0" * pad + u4(default) + u4(count) + b"".join(u4(key) + u4(branch) for key, branch in pairs)


def getstatic(index):
    return b"\xb2" + u2(index)


def invokevirtual(index):
    return b"\xb6" + u2(index)


def invokestatic(index):
    return b"\xb8" + u2(index)


def invokeinterface(index, count, last):
    return b"\xb9" + u2(index) + bytes([count, last])


def new(index):
    return b"\xbb" + u2(index)


# ---- Codes. max_stack stands at 300, max_locals at 302, code_length at 304 and the code at 308.

CODES = [
    ("code_of_no_bytes", body(b""), "bad-length 304", "4.7.3: code_length is greater than zero"),
    ("code_of_65536_bytes", body(RETURN, 65536), "bad-length 304", "4.7.3: code_length is less than 65536"),
    (
        "code_length_cut",
        with_code(u2(1) + u2(1) + b"\0\0\0", end=b""),
        "truncated 307",
        "4.7.3: code_length has four bytes",
    ),
    (
        "code_calls_a_field_before_a_float",
        body(invokevirtual(13) + FADD + RETURN),
        "bad-index 309",
        "4.9.1: invokevirtual names a Methodref; the fadd behind it shows later",
    ),
    ("code_float", body(FADD + RETURN), "floating 308", "6.5: fadd, which the profile leaves out"),
    (
        "code_jsr",
        body(RETURN + jsr(0)),
        "unsupported 309",
        "4.9.1: no jsr from version 51 on, and the profile has none",
    ),
    ("code_ldc_of_a_long", body(ldc(24)), "bad-index 309", "4.9.1: ldc loads no Long"),
    (
        "code_invokevirtual_of_an_interface_method",
        body(invokevirtual(21) + RETURN),
        "bad-index 309",
        "4.9.1: invokevirtual names a Methodref",
    ),
    (
        "code_ldc2_w_of_the_second_place",
        body(ldc2_w(25) + RETURN),
        "bad-index 309",
        "4.9.1: ldc2_w loads a Long, and 25 is its second place",
    ),
    (
        "code_invokeinterface_of_a_method",
        body(invokeinterface(19, 1, 1) + RETURN),
        "bad-index 309",
        "4.9.1: invokeinterface names an InterfaceMethodref; its last byte shows later",
    ),
    (
        "code_invokeinterface_last_byte",
        body(invokeinterface(21, 1, 1) + RETURN),
        "bad-code 308",
        "4.9.1: the fourth operand byte of invokeinterface is 0",
    ),
    (
        "code_cuts_an_instruction",
        body(NOP + getstatic(13)[:2], then=b"\x0d" + u4(0)),
        "bad-code 309",
        "4.9.1: the last instruction's operands are within the code, though the file goes on",
    ),
    (
        "code_cut_before_its_end_in_an_instruction",
        cut_body(NOP + getstatic(13)[:1], 3),
        "truncated 310",
        "4.7.3: the file ends before the code does, and both cut the getstatic",
    ),
    (
        "code_cut_at_its_end_in_an_instruction",
        cut_body(NOP + getstatic(13)[:1], 2),
        "bad-code 309",
        "4.9.1: the code ends where the file does, so the instruction is wrong",
    ),
    (
        "code_cut_behind_an_instruction",
        cut_body(goto(9), 5),
        "truncated 311",
        "4.7.3: two of five bytes are missing, and the branch leads nowhere",
    ),
    (
        "code_wrong_index_before_the_cut",
        cut_body(invokeinterface(19, 0, 0)[:3], 9),
        "bad-index 309",
        "4.9.1: invokeinterface names an InterfaceMethodref, and the index stands before the file's end",
    ),
    (
        "code_switch_keys_before_the_cut",
        cut_body(lookupswitch(3, 0, 3, (2, 0), (1, 0))[:24], 99),
        "bad-code 308",
        "4.9.1: the keys 2 and 1 don't rise, and stand before the file's end",
    ),
    (
        "code_switch_cut",
        cut_body(lookupswitch(3, 0, 3, (2, 0), (3, 0))[:24], 99),
        "truncated 332",
        "4.9.1: the keys 2 and 3 rise, and the file ends behind them",
    ),
    (
        "code_branch_into_an_operand",
        body(NOP + goto(4) + BIPUSH_5 + RETURN),
        "bad-code 309",
        "4.9.1: a branch leads to an instruction, and none begins at 5",
    ),
    (
        "code_branch_before_what_is_not_supported",
        body(NOP + goto(4) + BIPUSH_5 + INVOKEDYNAMIC),
        "unsupported 314",
        "4.9.1: where branches lead is looked at when all instructions have been read",
    ),
]

# What each kind of entry of the pool is used for, handlers up to the code's end and of all that is thrown, a stack map and
# an attribute that is kept as its bytes.
EACH_USE = (
    u2(4)
    + u2(2)
    + u4(25)
    + (ldc(23) + b"\x57" + ldc2_w(24) + b"\x58" + getstatic(13) + new(9) + b"\x59")
    + (invokestatic(21) + invokeinterface(21, 1, 0) + invokevirtual(19))
    + (u2(2) + u2(0) + u2(25) + u2(22) + u2(9) + u2(2) + u2(3) + u2(0) + u2(0))
    + (u2(2) + u2(20) + u4(3) + u2(1) + bytes([63]) + u2(22) + u4(3) + bytes([7, 8, 9]))
)
CODES += [
    (
        "code_of_each_use",
        with_code(EACH_USE),
        "accepted",
        "4.7.3: instructions of each kind of entry, handlers and attributes",
    ),
    (
        "code_of_each_use_in_version_51",
        with_code(EACH_USE, version=51),
        "bad-index 323",
        "4.9.1: invokestatic calls no interface's method before version 52",
    ),
]


# ---- Handlers of the instructions at 0, 1 and 3. Their number stands at 312, and the numbers of the first one from 314 on.


def handled(count, *numbers):
    return body(NOP + BIPUSH_5 + RETURN, then=u2(count) + b"".join(u2(number) for number in numbers) + u2(0))


HANDLERS = [
    (
        "handler_begins_inside_an_instruction",
        handled(1, 2, 2, 2, 13),
        "bad-code 314",
        "4.7.3: start_pc is that of an instruction; the numbers behind it are wrong too",
    ),
    (
        "handler_begins_at_the_end",
        handled(1, 4, 4, 3, 9),
        "bad-code 314",
        "4.7.3: start_pc is that of an instruction",
    ),
    ("handler_of_an_empty_range", handled(1, 1, 1, 3, 9), "bad-code 316", "4.7.3: start_pc is less than end_pc"),
    (
        "handler_ends_inside_an_instruction",
        handled(1, 0, 2, 3, 9),
        "bad-code 316",
        "4.7.3: end_pc is that of an instruction, or code_length",
    ),
    (
        "handler_ends_behind_the_code",
        handled(1, 0, 5, 3, 9),
        "bad-code 316",
        "4.7.3: end_pc is that of an instruction, or code_length",
    ),
    (
        "handler_inside_an_instruction",
        handled(1, 0, 4, 2, 9),
        "bad-code 318",
        "4.7.3: handler_pc is that of an instruction",
    ),
    ("handler_at_the_end", handled(1, 0, 4, 4, 9), "bad-code 318", "4.7.3: handler_pc is that of an instruction"),
    ("handler_catches_a_field", handled(1, 0, 4, 3, 13), "bad-index 320", "4.7.3: catch_type is 0 or names a Class"),
    (
        "handler_cut",
        with_code(code_of(NOP + BIPUSH_5 + RETURN, then=u2(2) + u2(0) + u2(4) + u2(3) + u2(9) + b"\0"), end=b""),
        "truncated 323",
        "4.7.3: the second of two handlers has one byte",
    ),
]


# ---- Attributes of a code of one `return`. Their number stands at 311, the first one's name at 313, its length at 315 and its
# content at 319.


def attributed(attributes, end=u2(0)):
    return with_code(code_of(RETURN, then=u2(0) + attributes), end=end)


ATTRIBUTES = [
    (
        "attribute_named_by_a_class",
        attributed(u2(1) + u2(9) + u4(0)),
        "bad-index 313",
        "4.7: attribute_name_index names a Utf8",
    ),
    (
        "frames_too_long",
        attributed(u2(1) + u2(20) + u4(3) + u2(0) + b"\0"),
        "bad-length 315",
        "4.7: the StackMapTable has 2 bytes",
    ),
    (
        "frames_too_short",
        attributed(u2(1) + u2(20) + u4(1) + u2(0)),
        "bad-length 315",
        "4.7: the StackMapTable has 2 bytes",
    ),
    (
        "frames_unknown_before_their_length",
        attributed(u2(1) + u2(20) + u4(9) + u2(1) + bytes([200])),
        "bad-tag 321",
        "4.7.4: no frame has this tag; the length is looked at behind the frames",
    ),
    (
        "attribute_cut",
        attributed(u2(1) + u2(22) + u4(3) + bytes([7, 7]), end=b""),
        "truncated 321",
        "4.7: one of three bytes is missing",
    ),
    ("attribute_missing", attributed(u2(1), end=b""), "truncated 313", "4.7.3: an attributes_count of 1 asks one"),
]


# ---- Stack maps (4.7.4). The number of frames stands at 300 and the first frame at 302.

# Classes stand at 4, 13, 20 and 29, and no entry at 33.
FRAME_POOL = [
    integer(1),
    utf8("Frames"),
    utf8("java/lang/Object"),
    class_info(3),
    utf8("main"),
    utf8("([Ljava/lang/String;)V"),
    utf8("Code"),
    utf8("StackMapTable"),
    utf8("java/lang/String"),
    integer(10),
    integer(11),
    integer(12),
    class_info(2),
    *[integer(index) for index in range(14, 20)],
    class_info(9),
    *[integer(index) for index in range(21, 29)],
    class_info(9),
    integer(30),
    integer(31),
]


def with_frames(frames, end=u2(0)):
    """A class whose Code is one `return` and a StackMapTable of this content, from 300 on."""
    code = code_of(RETURN, then=u2(0) + u2(1) + u2(8) + u4(len(frames)) + frames)
    return method_at(300 - (len(code) - len(frames)), FRAME_POOL, (13, 4, 5, 6, 7), code, end=end)


def frames(*numbers):
    return with_frames(bytes(numbers))


def cut_frames(*numbers):
    return with_frames(bytes(numbers), end=b"")


# What javac 17 made of a method at release 8, with classes at 13, 20 and 29.
JAVAC_FRAMES = bytes.fromhex(
    "000c"
    "fc0002 01"  # append, 2: int
    "fd0015 04 07001d"  # append, 21: long, 29
    "f90010"  # chop two, 16
    "fa0005"  # chop one, 5
    "07"  # same, 7
    "40 01"  # one on the stack, 0: int
    "fc0008 01"  # append, 8: int
    "41 070014"  # one on the stack, 1: 20
    "ff000b 0005 070014 01 01 01 070014 0001 07000d"  # full, 11
    "04"  # same, 4
    "ff000b 0005 070014 01 01 01 070014 0002 080054 080054"  # full, 11: made by the new at 84, twice
    "ff0000 0005 070014 01 01 01 070014 0003 080054 080054 01"  # full, 0
)

# The kinds of frames and types that it has none of.
OTHER_FRAMES = bytes.fromhex(
    "0006"
    "3f"  # same, 63
    "7f 05"  # one on the stack, 63: null
    "f70100 06"  # one on the stack, 256: this before its constructor
    "f80007"  # chop three, 7
    "fb0040"  # same, 64
    "fe0203 00 07000d 04"  # append, 515: top, 13, long
)

# A frame of each kind, with offsets and indices of two bytes.
EACH_FRAME = bytes.fromhex(
    "0007"
    "09"  # same, 9
    "49 08012c"  # one on the stack, 9: made by the new at 300
    "f70009 070004"  # one on the stack, 9: 4
    "f90009"  # chop two, 9
    "fb0009"  # same, 9
    "fd0009 01 05"  # append, 9: int, null
    "ff0009 0001 06 0002 00 04"  # full, 9: this before its constructor; top, long
)

FRAMES = [
    ("frames_by_javac", with_frames(JAVAC_FRAMES), "accepted", "4.7.4: as `javap -v` lists them"),
    (
        "frames_of_other_kinds",
        with_frames(OTHER_FRAMES),
        "accepted",
        "4.7.4: the kinds and types that javac's has none of",
    ),
    (
        "frames_of_each_kind",
        with_frames(EACH_FRAME),
        "accepted",
        "4.7.4: each kind; where they lie in the code is not looked at here",
    ),
    ("frames_missing", cut_frames(), "truncated 300", "4.7.4: number_of_entries has two bytes"),
    ("frames_count_cut", cut_frames(0), "truncated 301", "4.7.4: number_of_entries has two bytes"),
    ("frame_missing", cut_frames(0, 1), "truncated 302", "4.7.4: one frame is there"),
    ("frame_missing_behind_one", cut_frames(0, 2, 0), "truncated 303", "4.7.4: two frames are there"),
    ("frame_tag_128", frames(0, 1, 128), "bad-tag 302", "4.7.4: the tags from 128 to 246 are reserved"),
    ("frame_tag_246", frames(0, 1, 246, 0), "bad-tag 302", "4.7.4: the tags from 128 to 246 are reserved"),
    ("frame_tag_200_behind_one", frames(0, 2, 0, 200), "bad-tag 303", "4.7.4: the tags from 128 to 246 are reserved"),
    ("frame_type_missing", cut_frames(0, 1, 64), "truncated 303", "4.7.4: tag 64 has a type on the stack"),
    ("frame_float", frames(0, 1, 64, 2), "floating 303", "4.7.4: 2 is float, which the profile leaves out"),
    ("frame_double", frames(0, 1, 127, 3), "floating 303", "4.7.4: 3 is double, which the profile leaves out"),
    ("frame_type_9", frames(0, 1, 64, 9), "bad-tag 303", "4.7.4: no type has this tag"),
    ("frame_class_cut", cut_frames(0, 1, 64, 7, 0), "truncated 305", "4.7.4: cpool_index has two bytes"),
    ("frame_class_of_index_0", frames(0, 1, 64, 7, 0, 0), "bad-index 304", "4.7.4: cpool_index names a Class"),
    ("frame_class_is_an_integer", frames(0, 1, 64, 7, 0, 1), "bad-index 304", "4.7.4: cpool_index names a Class"),
    ("frame_class_of_no_entry", frames(0, 1, 64, 7, 0, 33), "bad-index 304", "4.7.4: cpool_index names a Class"),
    ("frame_new_cut", cut_frames(0, 1, 64, 8, 0), "truncated 305", "4.7.4: the offset of a `new` has two bytes"),
    ("frame_chop_cut", cut_frames(0, 1, 248, 0), "truncated 304", "4.7.4: offset_delta has two bytes"),
    (
        "frame_appends_a_float",
        frames(0, 1, 253, 0, 0, 1, 2),
        "floating 306",
        "4.7.4: the second of two locals is a float",
    ),
    (
        "frame_full_with_a_float",
        frames(0, 1, 255, 0, 0, 0, 1, 1, 0, 1, 2),
        "floating 310",
        "4.7.4: behind a local of int a float is on the stack",
    ),
]


# ---- The greatest sizes. The host reads no file of more than 1,048,576 bytes.

def large(count, listed, fields=u2(0), attributes=u2(0)):
    """A class A, with a pool of this count: the classes at 1 and 3 with their names, and these entries."""
    front = [class_info(2), utf8("A"), class_info(4), utf8("java/lang/Object")]
    return whole(entries(count, *front, *listed), 1, 3, fields=fields, attributes=attributes)


def most_fields():
    """65,535 fields: 256 names of two letters, and the descriptors of int and of its arrays of 1 to 255 dimensions."""
    names = [utf8(bytes([97 + number // 16, 97 + number % 16])) for number in range(256)]
    descs = [utf8("[" * number + "I") for number in range(256)]
    members = [u2(0) + u2(5 + number // 256) + u2(261 + number % 256) + u2(0) for number in range(65535)]
    return large(517, names + descs, fields=u2(65535) + b"".join(members))


def with_attribute(length):
    """An attribute `A` of so many bytes."""
    return large(5, [], attributes=u2(1) + u2(2) + u4(length) + b"\x07" * length)


LARGE = [
    ("most_fields", most_fields(), "accepted", "4.1: fields_count has two bytes, and so has constant_pool_count"),
    (
        "most_pool_entries",
        large(65535, [integer(5)] * 65530),
        "accepted",
        "4.1: constant_pool_count is at most 65535",
    ),
    (
        "mebibyte",
        with_attribute(1_048_517),
        "accepted",
        "4.7: an attribute of 1,048,517 bytes, in a file of 1,048,576",
    ),
    (
        "mebibyte_and_a_byte",
        with_attribute(1_048_518),
        "too-large",
        "the host's limit: a class file too, but of 1,048,577 bytes",
    ),
    (
        "mebibyte_trailing",
        ADD + b"\0" * 1_048_332,
        "trailing 244",
        "4.1: zeros behind Add.class, in a file of 1,048,576 bytes",
    ),
]


# What no line shows is said by clauses that are exact: which tree is read and which bytes it is (`found` and `only` of read_class,
# `one_tree` and `one_spelling` of class_file_laws); what stands in a pool, and what its texts may serve as (each clause of Pool in
# classfile_pool); the numbers at the front of bytes (u1 to raw in classfile_items); flags, members, codes and constants of a tree
# (`has` of Flags; `first`, `found` and `absent` of method_at and field_at; `code` and `constant` of Member); that two trees are one
# (`same` of Same) and that a copy is equal (`clone_in` of CloneIn).
CASES = POOLS + CHANGED + CUT + CODES + HANDLERS + ATTRIBUTES + FRAMES + LARGE


def line_of(name, line, length):
    return f"{name} accepted {length}" if line == "accepted" else f"{name} {line}"


def main():
    names = [name for name, _ in KEPT] + [case[0] for case in CASES]
    assert len(names) == len(set(names)), "two files of one name"
    for file in DATA.glob("*.class"):
        if file.stem not in names:
            file.unlink()
    lines = [line_of(f"{name}.class", line, (DATA / f"{name}.class").stat().st_size) for name, line in KEPT]
    for name, content, line, _reason in CASES:
        (DATA / f"{name}.class").write_bytes(content)
        lines.append(line_of(f"{name}.class", line, len(content)))
    lines += [line_of(name, line, 0) for name, line in NO_FILES]
    words = [line.split(" ")[0] for line in lines]
    (PROGRAM / "args").write_text("".join(f"{word}\n" for word in words))
    (PROGRAM / "stdout").write_text("".join(f"{line}\n" for line in lines))
    print(f"{len(KEPT)} files kept, {len(CASES)} written")


if __name__ == "__main__":
    main()
