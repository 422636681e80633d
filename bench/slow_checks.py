"""Writes class files of at most 1,048,576 bytes whose type check (JVM specification 4.10.1) takes more than linear time where it is made
carelessly, one for each kind, into a folder: python3 slow_checks.py FOLDER. It prints the kinds, each with its files: the class that is
checked comes last.
"""

import sys
from pathlib import Path

LONGEST = 65535


def u2(number):
    return number.to_bytes(2, "big")


def u4(number):
    return number.to_bytes(4, "big")


class Pool:
    """The entries of a constant pool (4.4), of which equal ones are one."""

    def __init__(self):
        self.entries, self.places = [], {}

    def add(self, entry):
        if entry not in self.places:
            self.entries.append(entry)
            self.places[entry] = len(self.entries)
        return self.places[entry]

    def text(self, value):
        return self.add(b"\x01" + u2(len(value)) + value.encode("ascii"))

    def class_of(self, name):
        return self.add(b"\x07" + u2(self.text(name)))

    def member(self, tag, owner, name, desc):
        pair = self.add(b"\x0c" + u2(self.text(name)) + u2(self.text(desc)))
        return self.add(tag + u2(self.class_of(owner)) + u2(pair))

    def field(self, owner, name, desc):
        return self.member(b"\x09", owner, name, desc)

    def method(self, owner, name, desc):
        return self.member(b"\x0a", owner, name, desc)


def attribute(pool, name, content):
    return u2(pool.text(name)) + u4(len(content)) + content


def body(pool, code, stack, local_count, handlers=(), frames=b"", frame_count=0):
    """A Code attribute (4.7.3), with a StackMapTable (4.7.4) where there are frames."""
    content = u2(stack) + u2(local_count) + u4(len(code)) + code + u2(len(handlers)) + b"".join(handlers)
    if frame_count:
        content += u2(1) + attribute(pool, "StackMapTable", u2(frame_count) + frames)
    else:
        content += u2(0)
    return attribute(pool, "Code", content)


def method(pool, flags, name, desc, code=None):
    listed = [code] if code else []
    return u2(flags) + u2(pool.text(name)) + u2(pool.text(desc)) + u2(len(listed)) + b"".join(listed)


def whole(pool, name, superclass, methods, fields=(), flags=0x0021):
    this, above = pool.class_of(name), pool.class_of(superclass)
    count = u2(len(pool.entries) + 1)
    file = bytes.fromhex("cafebabe00000034") + count + b"".join(pool.entries) + u2(flags) + u2(this) + u2(above) + u2(0)
    file += u2(len(fields)) + b"".join(fields) + u2(len(methods)) + b"".join(methods) + u2(0)
    assert len(file) <= 1048576, (name, len(file))
    return file


STATIC = 0x0009
NOP, RETURN, ICONST_0, POP, DUP = b"\x00", b"\xb1", b"\x03", b"\x57", b"\x59"


def nops_with_an_entry_each(pool, name):
    """An entry of the stack map at each instruction, over as many local variables as there may be."""
    code = NOP * (LONGEST - 1) + RETURN
    return method(pool, STATIC, name, "()V", body(pool, code, 0, LONGEST, (), b"\x00" * (LONGEST - 1), LONGEST - 1))


def maps():
    pool = Pool()
    return [("Maps", whole(pool, "Maps", "java/lang/Object", [nops_with_an_entry_each(pool, f"m{n}") for n in range(7)]))]


def news():
    pool = Pool()
    made = b"\xbb" + u2(pool.class_of("java/lang/Object")) + DUP + b"\xb7" + u2(pool.method("java/lang/Object", "<init>", "()V")) + POP
    code = made * ((LONGEST - 1) // len(made)) + RETURN
    methods = [method(pool, STATIC, f"m{n}", "()V", body(pool, code, 2, LONGEST)) for n in range(15)]
    return [("News", whole(pool, "News", "java/lang/Object", methods))]


def covered(pool, name, parameters):
    """A thousand handlers of one target, each over the whole method but the target."""
    target = LONGEST - 2
    code = NOP * (target - 1) + RETURN + POP + RETURN
    handler = u2(0) + u2(target) + u2(target) + u2(0)
    caught = b"\x07" + u2(pool.class_of("java/lang/Throwable"))
    frame = b"\xf7" + u2(target) + caught
    return method(pool, STATIC, name, "(" + "I" * parameters + ")V", body(pool, code, 1, 255, [handler] * 1000, frame, 1))


def handlers():
    pool = Pool()
    return [("Handlers", whole(pool, "Handlers", "java/lang/Object", [covered(pool, "m", 50)]))]


def finals():
    above = Pool()
    code = body(above, RETURN, 0, 1)
    final = [method(above, 0x0011, f"f{n:x}", "()V", code) for n in range(29000)]
    below = Pool()
    abstract = [method(below, 0x0401, f"m{n:x}", "()V") for n in range(40000)]
    return [
        ("Above", whole(above, "Above", "java/lang/Object", final)),
        ("Finals", whole(below, "Finals", "Above", abstract, (), 0x0421)),
    ]


def puts():
    pool = Pool()
    name = "Puts" + "x" * 60000
    field = u2(0x0009) + u2(pool.text("f")) + u2(pool.text("L" + name + ";")) + u2(0)
    index = u2(pool.field(name, "f", "L" + name + ";"))
    code = (b"\xb2" + index + b"\xb3" + index) * 10900 + RETURN
    methods = [method(pool, STATIC, f"m{n}", "()V", body(pool, code, 1, 0)) for n in range(12)]
    return [(name, whole(pool, name, "java/lang/Object", methods, [field]))]


def descriptors():
    pool = Pool()
    desc = "()L" + "d" * 60000 + ";"
    call = b"\xb8" + u2(pool.method("Descriptors", "call", desc)) + POP
    code = call * 16000 + RETURN
    called = method(pool, STATIC, "call", desc, body(pool, b"\x01\xb0", 1, 0))
    methods = [called] + [method(pool, STATIC, f"m{n}", "()V", body(pool, code, 1, 0)) for n in range(12)]
    return [("Descriptors", whole(pool, "Descriptors", "java/lang/Object", methods))]


def switched(pool, name):
    """A switch with many equal targets, at which many local variables are listed."""
    listed, cases = 3000, 12000
    code = b"".join(ICONST_0 + b"\xc4\x36" + u2(place) for place in range(listed)) + ICONST_0
    at = len(code)
    pad = b"\x00" * ((3 - at) % 4)
    target = at + 1 + len(pad) + 12 + 4 * cases
    code += b"\xaa" + pad + u4(target - at) + u4(0) + u4(cases - 1) + u4(target - at) * cases + RETURN
    frame = b"\xff" + u2(target) + u2(listed) + b"\x01" * listed + u2(0)
    return method(pool, STATIC, name, "()V", body(pool, code, 1, listed, (), frame, 1))


def switches():
    pool = Pool()
    return [("Switches", whole(pool, "Switches", "java/lang/Object", [switched(pool, f"m{n}") for n in range(14)]))]


KINDS = [maps, news, handlers, finals, puts, descriptors, switches]


def main():
    folder = Path(sys.argv[1])
    for kind in KINDS:
        names = []
        for place, (name, file) in enumerate(kind()):
            path = folder / f"{kind.__name__}{place}.class"
            path.write_bytes(file)
            names.append(path.name)
        print(kind.__name__, *names)


if __name__ == "__main__":
    main()
