"""Writes a class file of about a mebibyte, with many methods, texts and stack maps: python3 large_class.py METHODS FILE."""

import sys


def u2(number):
    return number.to_bytes(2, "big")


def u4(number):
    return number.to_bytes(4, "big")


def text(value):
    return b"\x01" + u2(len(value)) + value.encode("ascii")


def attribute(name, content):
    return u2(name) + u4(len(content)) + content


# for (int i = 0, sum = 0; i < n; i++) { if (i < 1000) { sum += i; } } return sum; in a static method of an int
CODE = bytes([
    0x03, 0x3C, 0x03, 0x3D,              # 0: iconst_0, istore_1, iconst_0, istore_2
    0x1B, 0x1A, 0xA2, 0x00, 0x14,        # 4: iload_1, iload_0, if_icmpge 26
    0x1B, 0x11, 0x03, 0xE8, 0xA2, 0x00, 0x07,  # 9: iload_1, sipush 1000, if_icmpge 20
    0x1C, 0x1B, 0x60, 0x3D,              # 16: iload_2, iload_1, iadd, istore_2
    0x84, 0x01, 0x01, 0xA7, 0xFF, 0xED,  # 20: iinc 1 1, goto 4
    0x1C, 0xAC,                          # 26: iload_2, ireturn
])
# append of two ints at 4, same at 20, same at 26
FRAMES = u2(3) + bytes([253, 0, 4, 1, 1, 15, 5])


def class_file(methods):
    names = [f"method_with_a_long_name_number_{number}" for number in range(methods)]
    # 1 to 7, and then the methods' names
    pool = [text("Large"), b"\x07\x00\x01", text("java/lang/Object"), b"\x07\x00\x03", text("(I)I"), text("Code"), text("StackMapTable")]
    pool += [text(name) for name in names]
    head = bytes.fromhex("cafebabe00000034") + u2(len(pool) + 1) + b"".join(pool) + bytes.fromhex("0021000200040000") + u2(0)
    body = u2(2) + u2(3) + u4(len(CODE)) + CODE + u2(0) + u2(1) + attribute(7, FRAMES)
    members = b"".join(u2(9) + u2(8 + number) + u2(5) + u2(1) + attribute(6, body) for number in range(methods))
    return head + u2(methods) + members + u2(0)


if __name__ == "__main__":
    with open(sys.argv[2], "wb") as file:
        file.write(class_file(int(sys.argv[1])))
