#!/usr/bin/env python3
"""Assembles bench/type_cases.txt, whose head says how it is written, into the data of crates/type_check: class files with the methods of the
table, args with the words of its requests, and stdout with the verdicts and type states that the table expects. Nothing is asked of the program.

python3 type_cases.py            writes crates/type_check/data, args and stdout anew; the class files of javac in data stay as they are
python3 type_cases.py --check    says which of these files differ from the table, and has status 1 where one does
"""

import pathlib
import re
import sys

TOP = pathlib.Path(__file__).resolve().parent.parent
TABLE = TOP / "bench" / "type_cases.txt"
CRATE = TOP / "crates" / "type_check"

ACCESS = dict(public=1, private=2, static=8, final=0x10, abstract=0x400)
ARRAYS = dict(boolean=4, char=5, byte=8, short=9, int=10, long=11)

# the opcodes that the table uses, by their operands (6.5)
PLAIN = """nop=0 aconst_null=1 iconst_m1=2 iconst_0=3 iconst_1=4 lconst_0=9 lconst_1=10 iload_0=26 iload_1=27 iload_2=28 iload_3=29 lload_0=30
lload_1=31 lload_2=32 lload_3=33 aload_0=42 aload_1=43 aload_2=44 aload_3=45 iaload=46 laload=47 aaload=50 baload=51 caload=52 saload=53
istore_0=59 istore_1=60 istore_2=61 istore_3=62 lstore_0=63 lstore_1=64 lstore_2=65 lstore_3=66 astore_0=75 astore_1=76 astore_2=77 astore_3=78
iastore=79 lastore=80 aastore=83 bastore=84 castore=85 sastore=86 pop=87 pop2=88 dup=89 dup_x1=90 dup_x2=91 dup2=92 dup2_x1=93 dup2_x2=94
swap=95 iadd=96 ladd=97 idiv=108 ineg=116 lneg=117 ishl=120 lshl=121 lshr=123 i2l=133 l2i=136 lcmp=148 ireturn=172 lreturn=173 areturn=176
return=177 arraylength=190 athrow=191 monitorenter=194 monitorexit=195"""
LOCAL = "iload=21 lload=22 aload=25 istore=54 lstore=55 astore=58"
JUMP = "ifeq=153 ifne=154 if_icmplt=161 if_icmpge=162 if_acmpeq=165 if_acmpne=166 goto=167 ifnull=198 ifnonnull=199"
POOL = """ldc_w=19/ ldc2_w=20/ getstatic=178/field putstatic=179/field getfield=180/field putfield=181/field invokevirtual=182/method
invokespecial=183/method invokestatic=184/method new=187/class anewarray=189/class checkcast=192/class instanceof=193/class"""


def opcodes(text):
    return {name: code for name, code in (pair.split("=") for pair in text.split())}


PLAIN, LOCAL, JUMP, POOL = opcodes(PLAIN), opcodes(LOCAL), opcodes(JUMP), opcodes(POOL)


def u2(number):
    return (number & 0xFFFF).to_bytes(2, "big")


def u4(number):
    return (number & 0xFFFFFFFF).to_bytes(4, "big")


class Pool:
    """A constant pool that grows as constants are asked for (4.4)."""

    def __init__(self):
        self.entries, self.places, self.count = [], {}, 1

    def add(self, content, words=1):
        if content not in self.places:
            self.places[content] = self.count
            self.entries.append(content)
            self.count += words
        return self.places[content]

    def text(self, text):
        return self.add(b"\x01" + u2(len(text)) + text.encode("ascii"))

    def of_class(self, name):
        return self.add(b"\x07" + u2(self.text(name)))

    def member(self, tag, text, cut):
        """`A.go()V` or `A.f:I`: its name ends where `cut` stands."""
        owner, rest = text.split(".", 1) if "<" not in text else text.split(".<", 1)
        rest = rest if "<" not in text else "<" + rest
        at = rest.index(cut)
        pair = b"\x0c" + u2(self.text(rest[:at])) + u2(self.text(rest[at:].lstrip(":")))
        return self.add(bytes([tag]) + u2(self.of_class(owner)) + u2(self.add(pair)))

    def constant(self, word, default):
        """A constant as the table writes it, with its kind in front or of the default kind."""
        found = re.match(r"(int|long|string|class|field|method|interface):(.*)", word)
        kind, text = found.groups() if found else (default, word)
        if kind == "int":
            return self.add(b"\x03" + u4(int(text)))
        if kind == "long":
            return self.add(b"\x05" + int(text).to_bytes(8, "big", signed=True), 2)
        if kind == "string":
            return self.add(b"\x08" + u2(self.text(text)))
        if kind == "class":
            return self.of_class(text)
        return self.member(dict(field=9, method=10, interface=11)[kind], text, ":" if kind == "field" else "(")

    def bytes(self):
        return u2(self.count) + b"".join(self.entries)


def switch(pool, at, word):
    """A switch: `tableswitch(0:24,1:26,default:28)`, with the offsets to which it leads."""
    name, listed = word[:-1].split("(")
    pairs = dict(pair.split(":") for pair in listed.split(","))
    default = u4(int(pairs.pop("default")) - at)
    padding = bytes(-(at + 1) % 4)
    cases = [(int(key), u4(int(target) - at)) for key, target in pairs.items()]
    if name == "tableswitch":
        low, high = cases[0][0], cases[-1][0]
        return b"\xaa" + padding + default + u4(low) + u4(high) + b"".join(target for _, target in cases)
    return b"\xab" + padding + default + u4(len(cases)) + b"".join(u4(key) + target for key, target in cases)


def instruction(pool, at, words):
    """The bytes of the instruction at an offset, whose words are taken from the list."""
    name = words.pop(0)
    if name in PLAIN:
        return bytes([int(PLAIN[name])])
    if name in LOCAL:
        return bytes([int(LOCAL[name]), int(words.pop(0))])
    if name.endswith("_w") and name[:-2] in LOCAL:
        return b"\xc4" + bytes([int(LOCAL[name[:-2]])]) + u2(int(words.pop(0)))
    if name in JUMP:
        return bytes([int(JUMP[name])]) + u2(int(words.pop(0)) - at)
    if name in POOL:
        code, kind = POOL[name].split("/")
        return bytes([int(code)]) + u2(pool.constant(words.pop(0), kind))
    if name.startswith(("tableswitch(", "lookupswitch(")):
        return switch(pool, at, name)
    if name == "goto_w":
        return b"\xc8" + u4(int(words.pop(0)) - at)
    if name == "bipush":
        return b"\x10" + bytes([int(words.pop(0)) & 0xFF])
    if name == "sipush":
        return b"\x11" + u2(int(words.pop(0)))
    if name == "ldc":
        return b"\x12" + bytes([pool.constant(words.pop(0), "")])
    if name == "iinc":
        return b"\x84" + bytes([int(words.pop(0)), int(words.pop(0)) & 0xFF])
    if name == "iinc_w":
        return b"\xc4\x84" + u2(int(words.pop(0))) + u2(int(words.pop(0)))
    if name == "newarray":
        return b"\xbc" + bytes([ARRAYS[words.pop(0)]])
    if name == "multianewarray":
        return b"\xc5" + u2(pool.constant(words.pop(0), "class")) + bytes([int(words.pop(0))])
    if name == "invokeinterface":
        return b"\xb9" + u2(pool.constant(words.pop(0), "interface")) + bytes([int(words.pop(0)), 0])
    raise SystemExit(f"type_cases.py: no instruction {name}")


def assembled(pool, text):
    """The bytes of a code, and the types that stand in front of its instructions: pairs of an offset and a word in brackets or braces."""
    words, code, states = text.split(), b"", []
    while words:
        many = re.fullmatch(r"nop\*(\d+)", words[0])
        if many:
            words[:1] = ["nop"] * int(many.group(1))
        if words[0][0] in "[{" and words[0][-1] in "]}":
            states.append((len(code), words.pop(0)))
        else:
            code += instruction(pool, len(code), words)
    return code, states


def listed(word):
    """The types of a list in brackets or braces, without spaces."""
    return [entry for entry in word[1:-1].split(",") if entry]


def verification_type(pool, entry):
    """A verification type of a stack map (4.7.4)."""
    simple = dict(top=0, int=1, long=4, null=5, uninitialized_this=6)
    if entry in simple:
        return bytes([simple[entry]])
    found = re.fullmatch(r"uninitialized\((\d+)\)", entry)
    if found:
        return b"\x08" + u2(int(found.group(1)))
    return b"\x07" + u2(pool.of_class(entry))


def types(pool, word):
    return b"".join(verification_type(pool, entry) for entry in listed(word))


def frame(pool, text):
    """An entry of a stack map, as `same 4`, `same_locals_1 4 [int]`, `chop_1 4`, `append_1 4 [int]` or `full 4 [int] []`, with its offset delta (4.7.4)."""
    kind, delta, *lists = text.split()
    delta = int(delta)
    if kind == "same":
        return bytes([delta])
    if kind == "same_extended":
        return b"\xfb" + u2(delta)
    if kind == "same_locals_1":
        return bytes([64 + delta]) + types(pool, lists[0])
    if kind.startswith("chop_"):
        return bytes([251 - int(kind[5:])]) + u2(delta)
    if kind.startswith("append_"):
        return bytes([251 + int(kind[7:])]) + u2(delta) + types(pool, lists[0])
    both = [u2(len(listed(word))) + types(pool, word) for word in lists]
    return b"\xff" + u2(delta) + both[0] + both[1]


def descriptor_types(desc):
    """The verification types of a method's parameters (4.3.3 and 4.10.1.6)."""
    found = re.findall(r"\[*(?:L[^;]*;|[A-Z])", desc[1 : desc.rindex(")")])
    plain = dict(I="int", Z="int", B="int", C="int", S="int", J="long")
    return [plain.get(entry) or (entry[1:-1] if entry[0] == "L" else entry) for entry in found]


class Case:
    """A method of the table, and what is expected of it."""

    def __init__(self, file, of_class, method, number, verdict, code):
        self.file, self.of_class, self.number, self.verdict, self.code = file, of_class, number, verdict, code.strip()
        self.flags, self.room, self.handlers, self.frames = method["flags"], method["room"], method["handlers"], method["frames"]
        self.name = method["name"].replace("*", str(number))
        self.desc = method["desc"].replace("*", str(number))
        self.alone = verdict.startswith("bad-")

    def key(self):
        return self.name + self.desc

    def stem(self):
        """The name of its class file, which it has for itself where other methods can't stand beside it."""
        return f"{self.file}_{self.number}" if self.alone else self.file

    def method(self, pool):
        """The method's bytes, and where in them the code begins (4.6)."""
        head = u2(sum(ACCESS[word] for word in self.flags)) + u2(pool.text(self.name)) + u2(pool.text(self.desc))
        if not self.code:
            return head + u2(0), 0
        code = self.code_bytes(pool)
        handlers = [u2(a) + u2(b) + u2(c) + u2(0 if kind == "any" else pool.of_class(kind)) for a, b, c, kind in self.handlers]
        entries = [frame(pool, text) for text, _ in self.frames]
        attributes = u2(0)
        if entries:
            content = u2(len(entries)) + b"".join(entries)
            attributes = u2(1) + u2(pool.text("StackMapTable")) + u4(len(content)) + content
        content = u2(self.room[0]) + u2(self.room[1]) + u4(len(code)) + code + u2(len(handlers)) + b"".join(handlers) + attributes
        head += u2(1) + u2(pool.text("Code")) + u4(len(content))
        return head + content, len(head) + 8

    def code_bytes(self, pool):
        return assembled(pool, self.code)[0]

    def this_types(self):
        if "static" in self.flags:
            return []
        return ["uninitialized_this"] if self.name == "<init>" else [self.of_class["name"]]

    def first_locals(self):
        """The local variables with which it begins (4.10.1.6)."""
        words = []
        for entry in self.this_types() + descriptor_types(self.desc):
            words += [entry, "top"] if entry == "long" else [entry]
        return words + ["top"] * (self.room[1] - len(words))

    def state_lines(self, pool):
        """The lines of the type states before its instructions, as the table writes them in its code."""
        locals_ = self.first_locals()
        lines = []
        for at, word in assembled(pool, self.code)[1]:
            if word[0] == "{":
                locals_ = listed(word)
            else:
                lines.append(f"at {at}: {shown(locals_, listed(word))}")
        return lines

    def lines(self, pool, states):
        """What is to be said of it."""
        said = []
        if states:
            for place, (_, gives) in enumerate(self.frames):
                if gives == "bad":
                    said = [f"map entry {place} is bad"]
                    break
                at, locals_, stack = gives.split()
                said.append(f"map at {at}: {shown(listed(locals_), listed(stack))}")
        if states and self.verdict == "passes":
            said += self.state_lines(pool)
        return [f"{self.key()} {line}" for line in said + [self.verdict]]


def shown(locals_, stack):
    """A type state as the program prints it. In the table's methods `this` is still there where it is not initialized."""
    flag = " flagThisUninit" if "uninitialized_this" in locals_ + stack else ""
    text = [", ".join(re.sub(r"\((\d+)\)", r" \1", entry) for entry in entries) for entries in (locals_, stack)]
    return f"locals [{text[0]}] stack [{text[1]}]{flag}"


class LargeCase(Case):
    """A method of 65,535 bytes. Its code is, 9,999 times, `iload_0`, `ifeq` to what stands behind two `nop`, and these; `return` at 59,994; `pop`,
    where 1,000 handlers lead that each cover ten of the units; `nop`, and at 65,534 the instruction of the table. Its stack map has the same local
    variables behind each unit, and at the `pop` what is caught."""

    def __init__(self, *given):
        super().__init__(*given)
        starts = [place * 54 for place in range(1000)]
        self.handlers = [(start, start + 60, 59995, "any") for start in starts]
        self.frames = [("same 6", "")] + [("same 5", "")] * 9998 + [("same_locals_1 0 [java/lang/Throwable]", "")]

    def code_bytes(self, pool):
        unit, middle = bytes([26, 153, 0, 5, 0, 0]), bytes([177, 87])
        return (unit * 9999 + middle).ljust(65534, b"\0") + super().code_bytes(pool)


def class_file(cases):
    """The class file with these methods, and where the code of each begins."""
    of_class, pool = cases[0].of_class, Pool()
    methods = [case.method(pool) for case in cases]
    names = u2(pool.of_class(of_class["name"])) + u2(pool.of_class(of_class["super"]))
    interfaces = [u2(pool.of_class(name)) for name in of_class["interfaces"]]
    fields = [u2(1) + u2(pool.text(name)) + u2(pool.text(desc)) + u2(0) for name, desc in of_class["fields"]]
    head = bytes.fromhex("cafebabe00000034") + pool.bytes() + u2(of_class["flags"]) + names
    head += u2(len(interfaces)) + b"".join(interfaces) + u2(len(fields)) + b"".join(fields) + u2(len(methods))
    begins, at = [], len(head)
    for content, begin in methods:
        begins.append(at + begin)
        at += len(content)
    return head + b"".join(content for content, _ in methods) + u2(0), begins, pool


class Group:
    """A class file of the table, with the lines that are expected of it."""

    def __init__(self, stem, cases):
        self.stem, self.cases = stem, cases
        self.content, self.begins, self.pool = class_file(cases)

    def lines(self, states):
        case = self.cases[0]
        if case.verdict.startswith("bad-"):
            fault, offset = case.verdict.split()
            return [f"{fault} {self.begins[0] + int(offset)}"]
        lines = [line for case in self.cases for line in case.lines(self.pool, states)]
        return lines + [class_line([(case.key(), case.verdict) for case in self.cases])]


def class_line(verdicts):
    """What is said of the class with these methods: its first one that fails."""
    for name, verdict in verdicts:
        if verdict.startswith("fails "):
            return f"class fails {name} {verdict.split()[1]}"
    return "class passes"


class Given:
    """A class file of javac, maybe with one byte changed, and the lines that the table expects of it."""

    def __init__(self, stem, content, said):
        self.stem, self.content, self.said = stem, content, said

    def verdicts(self):
        return [(name, verdict) for name, verdict in (line.split(" ", 1) for line in self.said) if re.match(r"passes$|fails \d+$", verdict)]

    def lines(self, states):
        return self.said + [class_line(self.verdicts())]


class Base:
    """The base classes."""

    def __init__(self, names):
        self.names = names


class Table:
    """The requests of the table, each with its files."""

    def __init__(self, text):
        self.requests, self.given, self.cases = [], {}, []
        joined = re.sub(r"\n    +", " ", re.sub(r"(?m)(^|\s)#.*", "", text))
        for line in joined.split("\n"):
            line = line.strip()
            word, _, rest = line.partition(" ")
            if word:
                try:
                    self.read(word.rstrip(":"), rest)
                except (KeyError, ValueError, IndexError, AttributeError) as fault:
                    raise SystemExit(f"type_cases.txt: {line}: {fault!r}")
        self.close()

    def read(self, word, rest):
        if word in ("passes", "fails", "bad-index", "large-passes", "large-fails"):
            self.read_case(word, rest)
        elif word == "request":
            self.close()
            states, _, known = rest.partition("known")
            self.requests.append(dict(states=states.strip() == "states", known=known.split(), files=[]))
        elif word == "file":
            self.close()
            self.read_file(rest)
        elif word == "field":
            self.of_class["fields"].append(tuple(rest.split()))
        elif word == "method":
            self.read_method(rest)
        elif word == "handler":
            start, end, target, kind = rest.split()
            self.method["handlers"].append((int(start), int(end), int(target), kind))
        elif word == "frame":
            entry, _, gives = rest.partition("=")
            self.method["frames"].append((entry.strip(), gives.strip()))
        elif word == "given":
            self.close()
            self.read_given(rest)
        elif word == "base":
            self.close()
            self.requests[-1]["files"].append(Base(rest.split()))
        elif word == "changed":
            self.close()
            self.read_changed(rest)
        elif word == "says":
            self.said.append(rest)
        else:
            raise ValueError(word)

    def read_file(self, rest):
        found = re.fullmatch(r"(\w+): (.*)(class|interface) (\S+) extends (\S+)(?: implements (.*))?", rest)
        stem, flags, kind, name, parent, interfaces = found.groups()
        bits = sum(ACCESS[word] for word in flags.split()) + (0x20 if kind == "class" else 0x200)
        self.stem, self.number, self.fresh = stem, 0, []
        self.of_class = dict(name=name, super=parent, interfaces=(interfaces or "").split(), flags=bits, fields=[])

    def read_method(self, rest):
        found = re.fullmatch(r"((?:\w+ )*)(\S+?)(\(\S*\)\S+) stack (\d+) locals (\d+)", rest)
        flags, name, desc, stack, locals_ = found.groups()
        self.method = dict(flags=flags.split(), name=name, desc=desc, room=(int(stack), int(locals_)), handlers=[], frames=[])

    def read_case(self, word, rest):
        self.number += 1
        number, _, code = rest.rpartition(": ") if rest.startswith(tuple("0123456789")) else ("", "", rest)
        kind, word = (LargeCase, word[6:]) if word.startswith("large-") else (Case, word)
        case = kind(self.stem, self.of_class, self.method, self.number, f"{word} {number}".strip(), code)
        case.alone = case.alone or any(case.key() == other.key() and not other.alone for other in self.fresh)
        self.fresh.append(case)
        self.cases.append(case)

    def read_given(self, stem):
        content = (CRATE / "data" / f"{stem}.class").read_bytes()
        self.said = []
        self.given[stem] = Given(stem, content, self.said)
        self.requests[-1]["files"].append(self.given[stem])

    def read_changed(self, rest):
        """`changed Count 749 10`, a byte of the file, and, where a method fails then, what is said of it: `: run()V fails 2`."""
        change, _, failing = rest.partition(": ")
        stem, at, byte = change.split()
        content = bytearray(self.given[stem].content)
        content[int(at)] = int(byte, 16)
        said = list(self.given[stem].said)
        if failing:
            name, lines = failing.split()[0], failing.split("; ")
            kept = r" map entry" if " map entry" in failing else r" map at "
            passes = said.index(f"{name} passes")
            others = [line for line in said[:passes] if line.split()[0] != name or re.search(kept, line)]
            said = others + lines + said[passes + 1 :]
        self.requests[-1]["files"].append(Given(f"{stem}_{at}_{byte}", bytes(content), said))

    def close(self):
        """Ends a file: its methods are laid into class files."""
        stems = {}
        for case in getattr(self, "fresh", []):
            stems.setdefault(case.stem(), []).append(case)
        for stem, cases in stems.items():
            self.requests[-1]["files"].append(Group(stem, cases))
        self.fresh = []

    def words(self):
        """The words of the program."""
        words = []
        for request in self.requests:
            words += ["--next"] if words else []
            words += ["--states"] if request["states"] else []
            words += ["--base" if isinstance(file, Base) else f"{file.stem}.class" for file in request["files"]]
            words += ["--known"] + [f"{stem}.class" for stem in request["known"]] if request["known"] else []
        return words

    def lines(self):
        """What the program is to print."""
        lines = []
        for file, states in ((file, request["states"]) for request in self.requests for file in request["files"]):
            if isinstance(file, Base):
                lines += [f"{name} passes" for name in file.names]
            else:
                lines += [f"{file.stem}.class {line}" for line in file.lines(states)]
        return lines

    def files(self):
        """The files of the crate, by their names."""
        made = [file for request in self.requests for file in request["files"] if not isinstance(file, Base)]
        files = {f"data/{file.stem}.class": file.content for file in made}
        files["args"] = "".join(f"{word}\n" for word in self.words()).encode()
        files["stdout"] = "".join(f"{line}\n" for line in self.lines()).encode()
        return files


def read_table():
    return Table(TABLE.read_text())


def main():
    differing = []
    for name, content in read_table().files().items():
        path = CRATE / name
        if not path.is_file() or path.read_bytes() != content:
            differing.append(name)
            if "--check" not in sys.argv:
                path.write_bytes(content)
    print(f"type_cases.py: {len(differing)} files " + ("differ: " + " ".join(differing) if "--check" in sys.argv else "written"))
    sys.exit(1 if differing and "--check" in sys.argv else 0)


if __name__ == "__main__":
    main()
