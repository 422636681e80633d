"""Writes a class file whose main prints 5 so many times: python3 long_main.py REPEATS FILE."""

import sys


def text(value):
    return b"\x01" + len(value).to_bytes(2, "big") + value.encode("ascii")


def class_file(repeats):
    # getstatic 13, iconst_2, iconst_3, iadd, invokevirtual 19; and at the end return
    code = bytes([0xB2, 0, 13, 5, 6, 0x60, 0xB6, 0, 19]) * repeats + b"\xb1"
    pool = [
        text("Long"), b"\x07\x00\x01", text("java/lang/Object"), b"\x07\x00\x03", text("main"),
        text("([Ljava/lang/String;)V"), text("Code"), text("java/lang/System"), b"\x07\x00\x08", text("out"),
        text("Ljava/io/PrintStream;"), b"\x0c\x00\x0a\x00\x0b", b"\x09\x00\x09\x00\x0c", text("java/io/PrintStream"),
        b"\x07\x00\x0e", text("println"), text("(I)V"), b"\x0c\x00\x10\x00\x11", b"\x0a\x00\x0f\x00\x12",
    ]
    head = bytes.fromhex("cafebabe00000034") + (len(pool) + 1).to_bytes(2, "big") + b"".join(pool)
    method = bytes.fromhex("0021000200040000000000010009000500060001") + b"\x00\x07" + (len(code) + 12).to_bytes(4, "big")
    body = bytes.fromhex("00030001") + len(code).to_bytes(4, "big") + code + b"\x00\x00\x00\x00"
    return head + method + body + b"\x00\x00"


if __name__ == "__main__":
    with open(sys.argv[2], "wb") as file:
        file.write(class_file(int(sys.argv[1])))
