"""An assembler of class files (JVMS 4) whose classes are written in words.

A class has its name, `:` and its superclass where that is not java/lang/Object, each direct superinterface behind another `:`, `@` and
its major version where that is not 52, and its flags where they are not `public`, joined by `+`; behind each ` | ` stands a member. Behind
` ~ ` stand bytes in hexadecimal and, behind `>`, those that take their place in the file, for what no assembler writes. A whole file may
also stand in hexadecimal, behind `hex `.

A member has flags, a name and a descriptor; a method with code also max_stack and max_locals, behind ` : ` its code, and behind another
its handlers.

Code is instructions by name, each with its operands, and frames among them, with `,` between. An operand spells one byte, `7` or an
opcode by name; two bytes, `half:300`, `+3` or `-3` for a distance, or a constant (one byte for `ldc`); or four bytes, `quad:-3`. `align`
stands for the padding of a switch, and a number in place of a name for an opcode. A constant is its kind and what it names with `:`
between: `Class:A`, `String:abc`, `Integer:7`, `Long:7`, `Float:7`, `Fieldref:A:x:I`, `Methodref:A:m:()V`, `InterfaceMethodref:I:m:()V`.

A frame is `frame int long stack A`: its local entries, and behind `stack` those of its stack. A class or array type stands by its name,
what the `new` at offset 4 made as `new+4`. Each is written as a full frame (JVMS 4.7.4).

A handler is the offsets of its start, its end and its handler, and a constant or `any`; handlers have `,` between.
"""
import re
import struct

OPCODES = """
nop aconst_null iconst_m1 iconst_0 iconst_1 iconst_2 iconst_3 iconst_4 iconst_5 lconst_0 lconst_1 fconst_0 fconst_1 fconst_2 dconst_0
dconst_1 bipush sipush ldc ldc_w ldc2_w iload lload fload dload aload iload_0 iload_1 iload_2 iload_3 lload_0 lload_1 lload_2 lload_3
fload_0 fload_1 fload_2 fload_3 dload_0 dload_1 dload_2 dload_3 aload_0 aload_1 aload_2 aload_3 iaload laload faload daload aaload baload
caload saload istore lstore fstore dstore astore istore_0 istore_1 istore_2 istore_3 lstore_0 lstore_1 lstore_2 lstore_3 fstore_0 fstore_1
fstore_2 fstore_3 dstore_0 dstore_1 dstore_2 dstore_3 astore_0 astore_1 astore_2 astore_3 iastore lastore fastore dastore aastore bastore
castore sastore pop pop2 dup dup_x1 dup_x2 dup2 dup2_x1 dup2_x2 swap iadd ladd fadd dadd isub lsub fsub dsub imul lmul fmul dmul idiv ldiv
fdiv ddiv irem lrem frem drem ineg lneg fneg dneg ishl lshl ishr lshr iushr lushr iand land ior lor ixor lxor iinc i2l i2f i2d l2i l2f l2d
f2i f2l f2d d2i d2l d2f i2b i2c i2s lcmp fcmpl fcmpg dcmpl dcmpg ifeq ifne iflt ifge ifgt ifle if_icmpeq if_icmpne if_icmplt if_icmpge
if_icmpgt if_icmple if_acmpeq if_acmpne goto jsr ret tableswitch lookupswitch ireturn lreturn freturn dreturn areturn return getstatic
putstatic getfield putfield invokevirtual invokespecial invokestatic invokeinterface invokedynamic new newarray anewarray arraylength
athrow checkcast instanceof monitorenter monitorexit wide multianewarray ifnull ifnonnull goto_w jsr_w
""".split()
# access flags (JVMS tables 4.1-B, 4.5-A, 4.6-A); `package` is none
FLAGS = {
    "package": 0, "public": 0x0001, "private": 0x0002, "protected": 0x0004, "static": 0x0008, "final": 0x0010, "synchronized": 0x0020,
    "native": 0x0100, "interface": 0x0200, "abstract": 0x0400,
}
SUPER = 0x0020
# classes of the system by short names
CLASSES = {it.rpartition("/")[2]: it for it in (
    "java/lang/Object", "java/lang/String", "java/lang/Throwable", "java/lang/Exception", "java/lang/Cloneable", "java/io/Serializable")}
TYPES = {"top": 0, "int": 1, "long": 4, "null": 5, "uninitializedThis": 6}
TAGS = {"Fieldref": 9, "Methodref": 10, "InterfaceMethodref": 11}


def u1(number):
    return struct.pack(">B", number)


def u2(number):
    return struct.pack(">H", number)


def u4(number):
    return struct.pack(">I", number & 0xFFFFFFFF)


def class_name(word):
    return CLASSES.get(word, word)


def flags_of(word):
    return sum(FLAGS[it] for it in word.split("+"))


def opcode_of(word):
    """The opcode of a name or the one of a number, or None."""
    if re.fullmatch(r"\d+", word):
        return int(word)
    return OPCODES.index(word) if word in OPCODES else None


class Pool:
    """The constants of a class file (JVMS 4.4), each once."""

    def __init__(self):
        self.places, self.bytes, self.count = {}, b"", 1

    def add(self, body, slots=1):
        if body not in self.places:
            self.places[body] = self.count
            self.bytes += body
            self.count += slots
        return self.places[body]

    def utf8(self, text):
        text = text.encode()
        return self.add(u1(1) + u2(len(text)) + text)

    def of_class(self, word):
        return self.add(u1(7) + u2(self.utf8(class_name(word))))

    def member(self, kind, named):
        owner, name, descriptor = named.split(":", 2)
        owner = self.of_class(owner)
        name, descriptor = self.utf8(name), self.utf8(descriptor)
        return self.add(u1(TAGS[kind]) + u2(owner) + u2(self.add(u1(12) + u2(name) + u2(descriptor))))

    def constant(self, word):
        kind, named = word.split(":", 1)
        if kind in ("Integer", "Float"):
            return self.add(u1(3 if kind == "Integer" else 4) + u4(int(named)))
        if kind == "Long":
            return self.add(u1(5) + struct.pack(">q", int(named)), 2)
        if kind == "Class":
            return self.of_class(named)
        if kind == "String":
            return self.add(u1(8) + u2(self.utf8(named)))
        return self.member(kind, named)


class Code:
    """Instructions as they come, and the frames among them."""

    def __init__(self, pool):
        self.pool, self.bytes, self.frames = pool, b"", []

    def put_operand(self, name, word):
        if word == "align":
            self.bytes += bytes(-len(self.bytes) % 4)
        elif word.startswith("half:"):
            self.bytes += u2(int(word[5:]))
        elif word.startswith("quad:"):
            self.bytes += u4(int(word[5:]))
        elif word[0] in "+-":
            self.bytes += struct.pack(">h", int(word))
        elif opcode_of(word) is not None:
            self.bytes += u1(opcode_of(word))
        else:
            index = self.pool.constant(word)
            self.bytes += u1(index) if name == "ldc" else u2(index)

    def entry(self, word):
        if word in TYPES:
            return u1(TYPES[word])
        if word.startswith("new+"):
            return u1(8) + u2(int(word[4:]))
        return u1(7) + u2(self.pool.of_class(word))

    def put(self, text):
        if "frame" in text:
            parts = text.split("frame", 1)[1].split("stack", 1)
            entries = [[self.entry(word) for word in part.split()] for part in parts]
            self.frames.append((len(self.bytes), entries[0], entries[1] if len(parts) == 2 else []))
            return
        name, *operands = text.split()
        self.bytes += u1(opcode_of(name))
        for word in operands:
            self.put_operand(name, word)

    def stack_map(self):
        body, before = u2(len(self.frames)), -1
        for offset, *both in self.frames:
            body += u1(255) + u2(offset - before - 1)
            for entries in both:
                body += u2(len(entries)) + b"".join(entries)
            before = offset
        return body


def handlers_of(pool, text):
    table = b""
    for handler in text.split(",") if text else []:
        *offsets, caught = handler.split()
        table += b"".join(u2(int(it)) for it in offsets) + u2(0 if caught == "any" else pool.constant(caught))
    return u2(len(table) // 8) + table


def member_of(pool, text):
    """A member, and whether it is a method."""
    words, _, body = text.partition(" : ")
    flags, name, descriptor, *limits = words.split()
    head = u2(flags_of(flags)) + u2(pool.utf8(name)) + u2(pool.utf8(descriptor))
    if not body:
        return head + u2(0), descriptor.startswith("(")
    code_name, code = pool.utf8("Code"), Code(pool)
    steps, _, handlers = body.partition(" : ")
    for step in steps.split(","):
        code.put(step)
    handlers = handlers_of(pool, handlers)
    inner = u2(0)
    if code.frames:
        stack_map = code.stack_map()
        inner = u2(1) + u2(pool.utf8("StackMapTable")) + u4(len(stack_map)) + stack_map
    info = u2(int(limits[0])) + u2(int(limits[1])) + u4(len(code.bytes)) + code.bytes + handlers + inner
    return head + u2(1) + u2(code_name) + u4(len(info)) + info, True


def built(text):
    head, _, members = text.partition(" | ")
    names, *flags = head.split()
    flags = flags_of(flags[0]) if flags else FLAGS["public"]
    if not flags & FLAGS["interface"]:
        flags |= SUPER
    names, _, major = names.partition("@")
    name, above, *interfaces = [*names.split(":"), "Object"][:2] + names.split(":")[2:]
    pool = Pool()
    # (the class's own name is never short for another)
    this = pool.add(u1(7) + u2(pool.utf8(name)))
    above = pool.of_class(above)
    interfaces = [pool.of_class(it) for it in interfaces]
    made = [member_of(pool, it) for it in members.split("|")] if members else []
    body = u2(flags) + u2(this) + u2(above) + u2(len(interfaces)) + b"".join(map(u2, interfaces))
    for is_method in (False, True):
        part = [it for it, known in made if known == is_method]
        body += u2(len(part)) + b"".join(part)
    return b"\xca\xfe\xba\xbe" + u2(0) + u2(int(major or 52)) + u2(pool.count) + pool.bytes + body + u2(0)


def class_file(text):
    """The file of a class."""
    if text.startswith("hex "):
        return bytes.fromhex(text[4:])
    text, _, patch = text.partition(" ~ ")
    file = built(text)
    if patch:
        old, new = map(bytes.fromhex, patch.split(">"))
        if old not in file:
            raise ValueError("not in the file: " + patch)
        file = file.replace(old, new, 1)
    return file
