#!/usr/bin/env python3
"""Writes the rows of rule_edit: classes by javac, and what each rule makes of them, made here a second way, on the bytes themselves.

    edit_rows.py > ../crates/rule_edit/specs/EditFiles.antt

Skipped where there is no javac."""
import os
import shutil
import struct
import subprocess
import sys
import tempfile

HERE = os.path.dirname(os.path.realpath(__file__))


def u2(n):
    return struct.pack(">H", n)


def u4(n):
    return struct.pack(">I", n)


class Class:
    def __init__(self, data):
        self.at, self.data = 0, data
        self.head = self.take(8)
        count = self.n2()
        self.pool = [None]
        while len(self.pool) < count:
            tag = self.take(1)[0]
            if tag == 1:
                self.pool.append((1, self.take(self.n2())))
            elif tag in (3,):
                self.pool.append((tag, self.take(4)))
            elif tag in (5,):
                self.pool += [(tag, self.take(8)), (0,)]
            elif tag in (7, 8):
                self.pool.append((tag, self.n2()))
            else:
                self.pool.append((tag, self.n2(), self.n2()))
        self.middle = self.take(6)
        self.interfaces = [self.n2() for _ in range(self.n2())]
        self.fields = self.members()
        self.methods = self.members()
        self.attrs = self.attributes()

    def take(self, n):
        self.at += n
        return self.data[self.at - n : self.at]

    def n2(self):
        return struct.unpack(">H", self.take(2))[0]

    def attributes(self):
        found = []
        for _ in range(self.n2()):
            name = self.n2()
            found.append([name, self.take(struct.unpack(">I", self.take(4))[0])])
        return found

    def members(self):
        return [[self.n2(), self.n2(), self.n2(), self.attributes()] for _ in range(self.n2())]

    def meaning(self, index):
        """What an entry stands for."""
        entry = self.pool[index]
        if entry[0] in (1, 3, 5):
            return entry
        if entry[0] in (7, 8):
            return (entry[0], self.pool[entry[1]][1])
        if entry[0] == 12:
            return (12, self.pool[entry[1]][1], self.pool[entry[2]][1])
        return (entry[0], self.meaning(entry[1])[1], *self.meaning(entry[2])[1:])

    def need(self, wanted):
        """The index of what stands for this, which is put behind all others where there is none."""
        for index in range(1, len(self.pool)):
            if self.pool[index][0] and self.meaning(index) == wanted:
                return index
        tag = wanted[0]
        if tag in (1, 3, 5):
            made = wanted
        elif tag in (7, 8):
            made = (tag, self.need((1, wanted[1])))
        elif tag == 12:
            made = (12, self.need((1, wanted[1])), self.need((1, wanted[2])))
        else:
            made = (tag, self.need((7, wanted[1])), self.need((12, *wanted[2:])))
        self.pool.append(made)
        if tag == 5:
            self.pool.append((0,))
            return len(self.pool) - 2
        return len(self.pool) - 1

    def bytes(self):
        out = self.head + u2(len(self.pool))
        for entry in self.pool[1:]:
            if entry[0] == 1:
                out += bytes([1]) + u2(len(entry[1])) + entry[1]
            elif entry[0] in (3, 5):
                out += bytes([entry[0]]) + entry[1]
            elif entry[0]:
                out += bytes([entry[0]]) + b"".join(u2(n) for n in entry[1:])
        out += self.middle + u2(len(self.interfaces)) + b"".join(map(u2, self.interfaces))
        for members in (self.fields, self.methods):
            out += u2(len(members))
            for flags, name, desc, attrs in members:
                out += u2(flags) + u2(name) + u2(desc) + self.spelled(attrs)
        return out + self.spelled(self.attrs)

    def spelled(self, attrs):
        return u2(len(attrs)) + b"".join(u2(name) + u4(len(content)) + content for name, content in attrs)

    def method(self, name, desc):
        return next((m for m in self.methods if self.pool[m[1]][1] == name and self.pool[m[2]][1] == desc), None)

    def code(self, method):
        return next((a for a in method[3] if self.pool[a[0]][1] == b"Code"), None)


class Code:
    def __init__(self, owner, content):
        self.owner = owner
        self.limits = content[:4]
        size = struct.unpack(">I", content[4:8])[0]
        self.bytes = bytearray(content[8 : 8 + size])
        at = 8 + size
        count = struct.unpack(">H", content[at : at + 2])[0]
        at += 2
        self.handlers = [list(struct.unpack(">4H", content[at + 8 * i : at + 8 * i + 8])) for i in range(count)]
        at += 8 * count
        rest, self.map = content[at + 2 :], None
        while rest:
            name, size = struct.unpack(">HI", rest[:6])
            if owner.pool[name][1] == b"StackMapTable":
                self.map = [name, rest[6 : 6 + size]]
            rest = rest[6 + size :]

    def content(self):
        out = self.limits + u4(len(self.bytes)) + bytes(self.bytes) + u2(len(self.handlers))
        for handler in self.handlers:
            out += struct.pack(">4H", *handler)
        return out + (u2(1) + u2(self.map[0]) + u4(len(self.map[1])) + self.map[1] if self.map else u2(0))

    def offsets(self):
        """Where instructions begin, with their opcodes; only those that the classes here have."""
        sizes = {0x10: 2, 0x11: 3, 0x12: 2, 0x13: 3, 0x14: 3, 0x15: 2, 0x36: 2, 0x3A: 2, 0xBC: 2}
        at = 0
        while at < len(self.bytes):
            op = self.bytes[at]
            yield at, op
            three = 0x99 <= op <= 0xA7 or 0xB2 <= op <= 0xB8 or op in (0xBB, 0xBD, 0xC0, 0xC1, 0xC6, 0xC7)
            at += 3 if three else sizes.get(op, 1)

    def frames(self, on_type, shift=0):
        """The stack map with its first offset moved, and each type made anew."""
        data, out, at = self.map[1][2:], self.map[1][:2], 0

        def type_at():
            nonlocal at
            tag = data[at]
            size = 3 if tag in (7, 8) else 1
            made = on_type(tag, data[at : at + size])
            at += size
            return made

        first = True
        while at < len(data):
            tag = data[at]
            at += 1
            by, first = (shift if first else 0), False
            if tag < 64:
                out += bytes([tag + by]) if tag + by < 64 else bytes([251]) + u2(tag + by)
            elif tag < 128:
                delta = tag - 64 + by
                out += (bytes([64 + delta]) if delta < 64 else bytes([247]) + u2(delta)) + type_at()
            else:
                delta = struct.unpack(">H", data[at : at + 2])[0] + by
                at += 2
                out += bytes([tag]) + u2(delta)
                if tag == 247:
                    out += type_at()
                elif 252 <= tag <= 254:
                    out += b"".join(type_at() for _ in range(tag - 251))
                elif tag == 255:
                    for _ in range(2):
                        count = struct.unpack(">H", data[at : at + 2])[0]
                        at += 2
                        out += u2(count) + b"".join(type_at() for _ in range(count))
        return out


def index_at(code, at):
    return struct.unpack(">H", code.bytes[at + 1 : at + 3])[0]


def imported(into, donor, code):
    """The content of a Code attribute over another pool. Its name was needed before."""
    index = lambda n: into.need(donor.meaning(n))
    for at, op in list(code.offsets()):
        if op == 0x12:
            code.bytes[at + 1] = index(code.bytes[at + 1])
        elif op in (0x13, 0x14) or 0xB2 <= op <= 0xB8 or op in (0xBB, 0xBD, 0xC0, 0xC1):
            code.bytes[at + 1 : at + 3] = u2(index(index_at(code, at)))
    for handler in code.handlers:
        handler[3] = handler[3] and index(handler[3])
    if code.map:
        name = into.need((1, b"StackMapTable"))
        on_type = lambda tag, spelled: bytes([7]) + u2(index(struct.unpack(">H", spelled[1:])[0])) if tag == 7 else spelled
        code.map = [name, code.frames(on_type)]
    return code.content()


def constant(c, name, desc, old, new):
    attr = c.code(c.method(name, desc))
    code, changed = Code(c, attr[1]), False
    for at, op in list(code.offsets()):
        is_ldc = op == 0x12 and c.pool[code.bytes[at + 1]] == (3, struct.pack(">i", old))
        if 2 <= op <= 8 and op - 3 == old:
            if not -1 <= new <= 5:
                return None
            code.bytes[at], changed = new + 3, True
        elif op == 0x10 and struct.unpack("b", code.bytes[at + 1 : at + 2])[0] == old:
            if not -128 <= new < 128:
                return None
            code.bytes[at + 1], changed = new % 256, True
        elif is_ldc:
            code.bytes[at + 1], changed = c.need((3, struct.pack(">i", new))), True
    if changed:
        attr[1] = code.content()
    return c.bytes()


def entry(c, name, desc, to_class, to_method):
    attr = c.code(c.method(name, desc))
    code = Code(c, attr[1])
    index = c.need((10, to_class, to_method, b"()V"))
    code.bytes[:0] = b"\xb8" + u2(index) + b"\0"
    for handler in code.handlers:
        handler[:3] = [n + 4 for n in handler[:3]]
    if code.map:
        on_type = lambda tag, spelled: bytes([8]) + u2(struct.unpack(">H", spelled[1:])[0] + 4) if tag == 8 else spelled
        code.map[1] = code.frames(on_type, 4)
    attr[1] = code.content()
    return c.bytes()


def redirect(c, from_class, from_method, desc, to_class, to_method):
    for method in c.methods:
        attr = c.code(method)
        if not attr:
            continue
        code, changed = Code(c, attr[1]), False
        for at, op in list(code.offsets()):
            if op == 0xB8 and c.meaning(index_at(code, at))[1:] == (from_class, from_method, desc):
                code.bytes[at + 1 : at + 3], changed = u2(c.need((10, to_class, to_method, desc))), True
        if changed:
            attr[1] = code.content()
    return c.bytes()


def body(c, name, desc, donor):
    attr = c.code(c.method(name, desc))
    attr[0] = c.need((1, b"Code"))
    attr[1] = imported(c, donor, Code(donor, donor.code(donor.method(name, desc))[1]))
    return c.bytes()


def add(c, name, desc, donor):
    found = donor.method(name, desc)
    n, d = c.need((1, name)), c.need((1, desc))
    a = c.need((1, b"Code"))
    c.methods.append([found[0], n, d, [[a, imported(c, donor, Code(donor, donor.code(found)[1]))]]])
    return c.bytes()


def listed(data):
    words = [f"{b} ∷" for b in data] + ["[]"]
    lines = [""]
    for word in words:
        if len(lines[-1]) + len(word) > 140:
            lines.append("")
        lines[-1] += (" " if lines[-1] else "") + word
    return "\n".join("    " + line for line in lines)


def compiled(source, into):
    subprocess.run(["javac", "-g:none", "--release", "8", "-Xlint:-options", "-d", into, source], check=True)
    with open(f"{into}/Edited.class", "rb") as it:
        return it.read()


def main():
    if not shutil.which("javac"):
        sys.exit("skipped: no javac")
    with tempfile.TemporaryDirectory() as into:
        given = compiled(f"{HERE}/edit_rows/Edited.java", into)
        donor = compiled(f"{HERE}/edit_rows/donor/Edited.java", into)
    rows = {
        "given": given,
        "donor": donor,
        "with_nine": constant(Class(given), b"f", b"(I)I", 7, 9),
        "with_great": constant(Class(given), b"f", b"(I)I", 100000, 70000),
        "entered_f": entry(Class(given), b"f", b"(I)I", b"Watch", b"seen"),
        "redirected": redirect(Class(given), b"Edited", b"h", b"()V", b"Watch", b"h"),
        "with_body": body(Class(given), b"f", b"(I)I", Class(donor)),
        "with_added": add(Class(given), b"k", b"()J", Class(donor)),
        "with_both": entry(Class(constant(Class(given), b"f", b"(I)I", 7, 9)), b"f", b"(I)I", b"Watch", b"seen"),
    }
    assert Class(given).bytes() == given and Class(donor).bytes() == donor
    print("-- Classes by `javac`, and what each kind of rule makes of them. bench/edit_rows.py writes this file, and makes the bytes a second way.")
    print("use Rattle.std.specs.Prelude.{ℕ, List, [], ◌∷◌}")
    for name, data in rows.items():
        print(f"\nabbrev pub {name} : List ℕ\n{name} =\n{listed(data)}")


if __name__ == "__main__":
    main()
