"""Writes lists of class files that a stranger could send to cost time or memory: a folder for each shape, with a class Main.

Use: shapes.py FOLDER SCALE [NAME..]

At scale 1 each shape is as large as the limits of class files, or some 4 MB, let it be; at 0.1 its counts are a tenth.
"""
import os
import struct
import sys


def u1(value):
    return struct.pack(">B", value)


def u2(value):
    return struct.pack(">H", value)


def u4(value):
    return struct.pack(">I", value)


class ClassFile:
    """A class whose constants are added as they are named."""

    def __init__(self, name, above="java/lang/Object", flags=0x21):
        self.name = name
        self.above = above
        self.flags = flags
        self.constants = []
        self.numbers = {}
        self.interfaces = []
        self.fields = []
        self.methods = []

    def constant(self, key, spelled):
        if key not in self.numbers:
            self.constants.append(spelled)
            self.numbers[key] = len(self.constants)
        return self.numbers[key]

    def text(self, text):
        spelled = text.encode()
        return self.constant(("text", text), u1(1) + u2(len(spelled)) + spelled)

    def named(self, name):
        index = self.text(name)
        return self.constant(("class", name), u1(7) + u2(index))

    def member(self, name, descriptor):
        both = u2(self.text(name)) + u2(self.text(descriptor))
        return self.constant(("member", name, descriptor), u1(12) + both)

    def called(self, owner, name, descriptor, tag=10, copy=0):
        both = u2(self.named(owner)) + u2(self.member(name, descriptor))
        return self.constant((tag, owner, name, descriptor, copy), u1(tag) + both)

    def field(self, flags, name, descriptor):
        self.fields.append(u2(flags) + u2(self.text(name)) + u2(self.text(descriptor)) + u2(0))

    def declare(self, flags, name, descriptor):
        """A method without code: abstract."""
        self.methods.append(u2(flags) + u2(self.text(name)) + u2(self.text(descriptor)) + u2(0))

    def method(self, flags, name, descriptor, max_stack, max_locals, code, handlers=b"", frames=None):
        attributes = b""
        if frames is not None:
            contents = u2(frames[0]) + frames[1]
            attributes = u2(self.text("StackMapTable")) + u4(len(contents)) + contents
        body = u2(max_stack) + u2(max_locals) + u4(len(code)) + code
        body += u2(len(handlers) // 8) + handlers
        body += u2(0 if frames is None else 1) + attributes
        head = u2(flags) + u2(self.text(name)) + u2(self.text(descriptor)) + u2(1)
        self.methods.append(head + u2(self.text("Code")) + u4(len(body)) + body)

    def main(self):
        self.method(9, "main", "([Ljava/lang/String;)V", 0, 1, bytes([177]))

    def write(self, folder):
        this, above = self.named(self.name), self.named(self.above)
        listed = b"".join(u2(self.named(name)) for name in self.interfaces)
        spelled = u4(0xCAFEBABE) + u2(0) + u2(52) + u2(len(self.constants) + 1)
        spelled += b"".join(self.constants) + u2(self.flags) + u2(this) + u2(above)
        spelled += u2(len(self.interfaces)) + listed
        spelled += u2(len(self.fields)) + b"".join(self.fields)
        spelled += u2(len(self.methods)) + b"".join(self.methods) + u2(0)
        assert len(self.constants) < 65535, len(self.constants)
        path = f"{folder}/{self.name}.class"
        if len(self.name) > 200:
            path = f"{folder}/Long{abs(hash(self.name)) % 1000000007}.class"
        os.makedirs(os.path.dirname(path), exist_ok=True)
        with open(path, "wb") as file:
            file.write(spelled)


INT = u1(1)


def full(delta, local_items, stack):
    return u1(255) + u2(delta) + u2(len(local_items)) + b"".join(local_items) + u2(len(stack)) + b"".join(stack)


def long_names(count, length=65535):
    """Names of that length that differ at their ends."""
    return ["n" * (length - 6) + f"{k:06d}" for k in range(count)]


def descriptors(count):
    """Descriptors of methods, no two alike."""
    made = []
    for k in range(count):
        made.append("(" + "".join("IJ"[k >> bit & 1] for bit in range(11)) + ")V")
    return made


def chain(folder, count, members=None):
    """Classes C0, C1, .., each below the one before; members(class, n) gives each what it declares."""
    for n in range(count):
        made = ClassFile(f"C{n}", f"C{n - 1}" if n else "java/lang/Object")
        if members:
            members(made, n)
        made.write(folder)


def scaled(scale, count):
    return max(1, int(scale * count))


def references(folder, scale, names):
    count = scaled(scale, 1000)
    chain(folder, count, lambda made, n: made.field(1, "f", "I"))
    made = ClassFile("Main", f"C{count - 1}")
    made.main()
    made.named("java/lang/Object")
    given = descriptors(40)
    for k in range(scaled(scale, 62000)):
        made.called(f"C{count - 1}", names[k % len(names)], given[k // len(names) % 40], 10, k)
    made.write(folder)


def long_references(folder, scale):
    """62,000 references to methods with names of 65,535 bytes, below a chain of 1,000 classes."""
    references(folder, scale, long_names(50))


def short_references(folder, scale):
    """long_references with short names."""
    references(folder, scale, [f"m{k}" for k in range(50)])


def used_references(folder, scale):
    """short_references, each used by an instruction."""
    count = scaled(scale, 1000)
    chain(folder, count, lambda made, n: made.field(1, "f", "I"))
    made = ClassFile("Main", f"C{count - 1}")
    made.main()
    made.named("java/lang/Object")
    code, methods = b"", 0
    for k in range(scaled(scale, 62000)):
        index = made.called(f"C{count - 1}", f"m{k % 50}", "()V", 10, k)
        code += bytes([42, 182]) + u2(index)
        if len(code) > 65000 or k == scaled(scale, 62000) - 1:
            made.method(1, f"u{methods}", "()V", 1, 1, code + bytes([177]))
            code, methods = b"", methods + 1
    made.write(folder)


def interface_often(folder, scale):
    """65,535 times one interface whose name has 65,535 bytes and that is not there; HotSpot ends where one is listed twice."""
    made = ClassFile("Main")
    made.main()
    made.interfaces = ["i" * 65535] * scaled(scale, 65535)
    made.write(folder)


def long_methods(folder, scale, final=False):
    """65,535 abstract methods over 50 names of 65,535 bytes."""
    above = "java/lang/Object"
    if final:
        for n in range(4):
            made = ClassFile(f"C{n}", above, 0x421)
            made.method(0x11, f"final{n}", "()V", 0, 1, bytes([177]))
            made.write(folder)
            above = f"C{n}"
    made = ClassFile("Main", above, 0x421)
    names, given = long_names(50), descriptors(1311)
    made.main()
    left = scaled(scale, 65534)
    for name in names:
        for descriptor in given:
            if left:
                made.declare(0x401, name, descriptor)
                left -= 1
    made.write(folder)


def long_methods_final(folder, scale):
    """long_methods below four classes with a final method."""
    long_methods(folder, scale, True)


def long_fields(folder, scale):
    """65,535 fields over 50 names of 65,535 bytes."""
    made = ClassFile("Main")
    made.main()
    left = scaled(scale, 65535)
    given = ["[" * d + b for d in range(255) for b in "IJBCSZ"]
    for name in long_names(50):
        for descriptor in given[:1311]:
            if left:
                made.field(1, name, descriptor)
                left -= 1
    made.write(folder)


def methods_below_final(folder, scale):
    """65,534 methods below 1,000 classes, the highest of which has a final method."""
    count = scaled(scale, 1000)

    def members(made, n):
        if n == 0:
            made.method(0x11, "last", "()V", 0, 1, bytes([177]))
        else:
            made.method(1, "other", "()V", 0, 1, bytes([177]))

    chain(folder, count, members)
    made = ClassFile("Main", f"C{count - 1}", 0x421)
    made.main()
    given = descriptors(1024)
    left = scaled(scale, 65534)
    for n in range(64):
        for descriptor in given:
            if left:
                made.declare(0x401, f"m{n}", descriptor)
                left -= 1
    made.write(folder)


def classes_below_final(folder, scale):
    """1,023 classes of 256 methods each in a chain below one with a final method."""
    count = scaled(scale, 1024)
    given = descriptors(256)
    for n in range(count):
        made = ClassFile(f"C{n}" if n < count - 1 else "Main", f"C{n - 1}" if n else "java/lang/Object")
        if n == 0:
            made.method(0x11, "last", "()V", 0, 1, bytes([177]))
        else:
            for k in range(256):
                made.method(1, f"m{n}", given[k], 0, 24, bytes([177]))
        if n == count - 1:
            made.main()
        made.write(folder)


def chain_of_methods(folder, count, prefix, last, kind):
    """A chain of so many classes of 256 methods each, whose flags and name kind(number) gives; the last class has a name of its own."""
    given = descriptors(256)
    for n in range(count):
        made = ClassFile(last if n == count - 1 else f"{prefix}{n}", f"{prefix}{n - 1}" if n else "java/lang/Object")
        flags, name = kind(n)
        for descriptor in given:
            made.method(flags, name, descriptor, 0, 24, bytes([177]))
        if last == "Main" and n == count - 1:
            made.main()
        made.write(folder)


def finals_in_each(folder, scale):
    """1,024 classes of 256 final methods each in a chain."""
    chain_of_methods(folder, scaled(scale, 1024), "C", "Main", lambda n: (0x11, f"m{n}"))


def finals_in_two_chains(folder, scale):
    """Two chains of 512 classes of 256 final methods each, of the same names."""
    for prefix, last in (("C", "Main"), ("D", "E")):
        chain_of_methods(folder, scaled(scale, 512), prefix, last, lambda n: (0x11, f"m{n}"))


def finals_private(folder, scale):
    """1,024 classes in a chain, by turns of 256 private final methods and of 256 public ones of the same names."""
    chain_of_methods(folder, scaled(scale, 1024), "C", "Main", lambda n: (0x12 if n % 2 == 0 else 1, f"m{n // 2}"))


def blank_frames(folder, scale):
    """Frames at each nop, over 65,535 local variables; in 31 methods 4 MB."""
    made = ClassFile("Main")
    made.main()
    code = bytes(65534) + bytes([177])
    spelled = u1(0) * 65534
    for n in range(scaled(scale, 31)):
        made.method(9, f"m{n}", "()V", 0, 65535, code, b"", (65534, spelled))
    made.write(folder)


def int_frames(folder, scale):
    """A frame of 65,535 ints, then the same 21,000 times, behind a branch to each."""
    made = ClassFile("Main")
    made.main()
    count = scaled(scale, 21000)
    # The frame of ints stands where nothing falls in, behind a return.
    code = bytes([177]) + bytes([0]) + bytes([167, 0, 3]) * count + bytes([177])
    spelled = full(1, [INT] * 65535, []) + u1(3) + u1(2) * (count - 1)
    made.method(9, "ints", "()V", 0, 65535, code, b"", (count + 1, spelled))
    made.write(folder)


def int_stores(folder, scale):
    """One handler over 32,000 stores, with 65,535 ints."""
    made = ClassFile("Main")
    made.main()
    count = scaled(scale, 32000)
    code = bytes([177]) + bytes([3, 59]) * count + bytes([177, 191])
    thrown = u1(7) + u2(made.named("java/lang/Throwable"))
    spelled = full(1, [INT] * 65535, []) + full(2 * count, [INT] * 65535, [thrown])
    handlers = u2(1) + u2(1 + 2 * count) + u2(2 * count + 2) + u2(0)
    made.method(9, "ints", "()V", 1, 65535, code, handlers, (2, spelled))
    made.write(folder)


def int_switch(folder, scale):
    """A tableswitch of 15,000 targets to a frame of 65,535 ints."""
    made = ClassFile("Main")
    made.main()
    targets = scaled(scale, 15000)
    # return; (frame) iconst_0; tableswitch at 2 with one byte of padding; return
    end = 16 + 4 * targets
    code = bytes([177, 3, 170, 0]) + u4(end - 2) + u4(0) + u4(targets - 1) + u4(end - 2) * targets + bytes([177])
    spelled = full(1, [INT] * 65535, []) + full(end - 2, [INT] * 65535, [])
    made.method(9, "ints", "()V", 1, 65535, code, b"", (2, spelled))
    made.write(folder)


def handlers_at_front(folder, scale):
    """65,535 handlers over the first of 65,530 nops."""
    made = ClassFile("Main")
    made.main()
    length = 65532
    code = bytes(length - 2) + bytes([177, 191])
    table = (u2(0) + u2(1) + u2(length - 1) + u2(0)) * scaled(scale, 65535)
    thrown = u1(7) + u2(made.named("java/lang/Throwable"))
    made.method(9, "covered", "()V", 1, 1, code, table, (1, full(length - 1, [], [thrown])))
    made.write(folder)


def handlers_over_all(folder, scale):
    """65,535 handlers over 65,530 nops."""
    made = ClassFile("Main")
    made.main()
    length = 65532
    code = bytes(length - 2) + bytes([177, 191])
    table = (u2(0) + u2(length - 2) + u2(length - 1) + u2(0)) * scaled(scale, 65535)
    thrown = u1(7) + u2(made.named("java/lang/Throwable"))
    made.method(9, "covered", "()V", 1, 1, code, table, (1, full(length - 1, [], [thrown])))
    made.write(folder)


def new_popped(folder, scale):
    """`new` and `pop` 16,000 times over 65,535 local variables, in 63 methods."""
    made = ClassFile("Main")
    made.main()
    code = (bytes([187]) + u2(made.named("Main")) + bytes([87])) * 16000 + bytes([177])
    for n in range(scaled(scale, 63)):
        made.method(9, f"m{n}", "()V", 1, 65535, code)
    made.write(folder)


def new_left(folder, scale):
    """21,000 times `new`, left on the stack, in 63 methods."""
    made = ClassFile("Main")
    made.main()
    code = (bytes([187]) + u2(made.named("Main"))) * 21000 + bytes([177])
    for n in range(scaled(scale, 63)):
        made.method(9, f"m{n}", "()V", 65535, 0, code)
    made.write(folder)


def new_made(folder, scale):
    """`new` and `<init>` 9,000 times over 65,535 local variables, in 63 methods."""
    made = ClassFile("Main")
    made.main()
    made.method(1, "<init>", "()V", 1, 1, bytes([42, 183]) + u2(made.called("java/lang/Object", "<init>", "()V")) + bytes([177]))
    one = bytes([187]) + u2(made.named("Main")) + bytes([183]) + u2(made.called("Main", "<init>", "()V"))
    for n in range(scaled(scale, 63)):
        made.method(9, f"m{n}", "()V", 1, 65535, one * 10000 + bytes([177]))
    made.write(folder)


def no_package(folder, scale):
    """References to a protected field of a class whose name has 65,535 bytes and no package."""
    name = "p" * 65535
    above = ClassFile(name)
    above.field(4, "f", "I")
    above.write(folder)
    made = ClassFile("q/" + "Q" * 65533, name)
    made.main()
    for k in range(scaled(scale, 62000)):
        made.called(name, "f", "I", 9, k)
    made.write(folder)
    made = ClassFile("Main")
    made.main()
    made.write(folder)


def interface_entries(folder, scale):
    """256 files of 65,535 interface entries each."""
    for n in range(scaled(scale, 256)):
        made = ClassFile(f"C{n}")
        made.interfaces = ["I0"] * 65535
        made.write(folder)
    made = ClassFile("Main")
    made.main()
    made.write(folder)


def handlers_apart(folder, scale):
    """As many handlers as nops, each over one."""
    made = ClassFile("Main")
    made.main()
    length = 65532
    code = bytes(length - 2) + bytes([177, 191])
    table = b"".join(u2(k) + u2(k + 1) + u2(length - 1) + u2(0) for k in range(scaled(scale, length - 2)))
    thrown = u1(7) + u2(made.named("java/lang/Throwable"))
    made.method(9, "covered", "()V", 1, 1, code, table, (1, full(length - 1, [], [thrown])))
    made.write(folder)


def handlers_and_stores(folder, scale):
    """65,535 handlers over 3,276 stores."""
    made = ClassFile("Main")
    made.main()
    code = bytes([3, 60]) * scaled(scale, 3276)
    length = len(code) + 2
    code += bytes([177, 191])
    table = (u2(0) + u2(length - 2) + u2(length - 1) + u2(0)) * scaled(scale, 65535)
    thrown = u1(7) + u2(made.named("java/lang/Throwable"))
    made.method(9, "covered", "()V", 1, 2, code, table, (1, full(length - 1, [], [thrown])))
    made.write(folder)


def handlers_and_frames(folder, scale):
    """65,535 handlers over the first of 65,530 nops, each with a frame."""
    made = ClassFile("Main")
    made.main()
    length = 65532
    code = bytes(length - 2) + bytes([177, 191])
    table = (u2(0) + u2(1) + u2(length - 1) + u2(0)) * scaled(scale, 65535)
    thrown = u1(7) + u2(made.named("java/lang/Throwable"))
    spelled = u1(1) + u1(0) * (length - 4) + full(1, [], [thrown])
    made.method(9, "covered", "()V", 1, 1, code, table, (length - 2, spelled))
    made.write(folder)


def int_frames_and_stores(folder, scale):
    """A frame of 65,535 ints, then the same 13,000 times, with a store before each."""
    made = ClassFile("Main")
    made.main()
    count = scaled(scale, 13000)
    code = bytes([177]) + bytes([0]) + bytes([3, 59, 167, 0, 3]) * count + bytes([177])
    spelled = full(1, [INT] * 65535, []) + u1(5) + u1(4) * (count - 1)
    made.method(9, "ints", "()V", 1, 65535, code, b"", (count + 1, spelled))
    made.write(folder)


def supers_chain(folder, scale):
    """A chain of 1,024 classes."""
    count = scaled(scale, 1023)
    chain(folder, count)
    made = ClassFile("Main", f"C{count - 1}")
    made.main()
    made.write(folder)


def interfaces(folder, count, above):
    """Interfaces, each below those that above gives by its number."""
    for n in range(count):
        made = ClassFile(f"I{n}", "java/lang/Object", 0x601)
        made.interfaces = [f"I{k}" for k in above(n)]
        made.write(folder)
    made = ClassFile("Main")
    made.interfaces = [f"I{count - 1}"]
    made.main()
    made.write(folder)


def supers_diamond(folder, scale):
    """A diamond of 998 interfaces, each below the two before it."""
    interfaces(folder, scaled(scale, 998), lambda n: [k for k in (n - 1, n - 2) if k >= 0])


def supers_dense(folder, scale):
    """512 interfaces, each below all before it."""
    interfaces(folder, scaled(scale, 512), lambda n: range(n))


def many_finals(folder, scale):
    """A class of 65,534 methods below one of as many finals, of other names."""
    given = descriptors(1024)
    left = scaled(scale, 65534)
    above = ClassFile("C0", "java/lang/Object", 0x421)
    made = ClassFile("Main", "C0", 0x421)
    made.main()
    for n in range(64):
        for descriptor in given:
            if left:
                above.method(0x11, f"f{n}", descriptor, 0, 24, bytes([177]))
                made.declare(0x401, f"m{n}", descriptor)
                left -= 1
    above.write(folder)
    made.write(folder)


TOP = u1(0)


def written_with(folder, add, methods=1):
    """A class Main with so many methods that add(class, name) gives it."""
    made = ClassFile("Main")
    made.main()
    for n in range(methods):
        add(made, f"m{n}")
    made.write(folder)


def branch(target, at):
    """iconst_0; ifeq, to a target, where the first stands at an offset."""
    return bytes([3, 153]) + struct.pack(">h", target - (at + 1))


def branching(folder, scale, frame, target, max_stack, max_locals, methods=1):
    """16,000 branches from one frame to another: 8,000 before the target, and 8,000 behind it; in so many methods."""
    count = scaled(scale, 8000)
    at = 1 + 4 * count

    def add(made, name):
        code = bytes([177]) + b"".join(branch(at, 1 + 4 * k) for k in range(count)) + bytes([177])
        code += b"".join(branch(at, at + 1 + 4 * k) for k in range(count)) + bytes([177])
        spelled = full(1, *frame) + full(at - 2, *target) + full(0, *frame)
        made.method(9, name, "()V", max_stack, max_locals, code, b"", (3, spelled))

    written_with(folder, add, methods)


def branches_apart(folder, scale):
    """16,000 branches from 65,535 ints to a frame that has all but the first of them."""
    branching(folder, scale, ([INT] * 65535, []), ([TOP] + [INT] * 65534, []), 1, 65535)


def branches_apart_often(folder, scale):
    """branches_apart in 15 methods: 4 MB."""
    branching(folder, scale, ([INT] * 65535, []), ([TOP] + [INT] * 65534, []), 1, 65535, scaled(scale, 15))


def stack_branches(folder, scale):
    """16,000 branches with 65,533 ints on the stack."""
    branching(folder, scale, ([], [INT] * 65533), ([], [INT] * 65533), 65535, 0)


def stack_branches_often(folder, scale):
    """stack_branches in 15 methods: 4 MB."""
    branching(folder, scale, ([], [INT] * 65533), ([], [INT] * 65533), 65535, 0, scaled(scale, 15))


def stack_pushed(folder, scale):
    """8,000 branches, with no frame before them, with 30,000 items that instructions have pushed; in 43 methods 4 MB."""
    count, depth = scaled(scale, 8000), scaled(scale, 30000)
    end = depth + 4 * count

    def add(made, name):
        code = bytes([3]) * depth + b"".join(branch(end, depth + 4 * k) for k in range(count)) + bytes([177])
        made.method(9, name, "()V", 65535, 0, code, b"", (1, full(end, [], [INT] * depth)))

    written_with(folder, add, scaled(scale, 43))


def stack_in_turn(folder, scale):
    """8,000 branches with 10,000 items on the stack to 350 frames in turn: more than are kept."""
    count, depth = scaled(scale, 8000), scaled(scale, 10000)
    at = 1 + 4 * count

    def add(made, name):
        code = bytes([177]) + b"".join(branch(at + k % 350, 1 + 4 * k) for k in range(count)) + bytes([177]) * 350
        spelled = full(1, [], [INT] * depth) + full(at - 2, [], [INT] * depth) + full(0, [], [INT] * depth) * 349
        made.method(9, name, "()V", 65535, 0, code, b"", (351, spelled))

    written_with(folder, add)


def stack_calls(folder, scale):
    """4,000 calls of a private method with 65,530 items on the stack, with a branch behind each; in 21 methods 3.4 MB."""
    count = scaled(scale, 4000)
    end = 1 + 8 * count
    made = ClassFile("Main")
    made.main()
    made.method(2, "p", "()V", 0, 1, bytes([177]))
    call = bytes([42, 183]) + u2(made.called("Main", "p", "()V"))
    code = bytes([177]) + b"".join(call + branch(end, 5 + 8 * k) for k in range(count)) + bytes([177])
    self = u1(7) + u2(made.named("Main"))
    spelled = full(1, [self], [INT] * 65530) + full(end - 2, [self], [INT] * 65530)
    for n in range(scaled(scale, 21)):
        made.method(1, f"m{n}", "()V", 65535, 1, code, b"", (2, spelled))
    made.write(folder)


def stack_constructs(folder, scale):
    """3,200 times `new` and `<init>` with 65,530 items on the stack, with a branch behind each; in 21 methods 3.4 MB."""
    count = scaled(scale, 3200)
    end = 1 + 10 * count
    made = ClassFile("Main")
    made.main()
    made.method(1, "<init>", "()V", 1, 1, bytes([42, 183]) + u2(made.called("java/lang/Object", "<init>", "()V")) + bytes([177]))
    one = bytes([187]) + u2(made.named("Main")) + bytes([183]) + u2(made.called("Main", "<init>", "()V"))
    code = bytes([177]) + b"".join(one + branch(end, 7 + 10 * k) for k in range(count)) + bytes([177])
    spelled = full(1, [], [INT] * 65530) + full(end - 2, [], [INT] * 65530)
    for n in range(scaled(scale, 21)):
        made.method(9, f"m{n}", "()V", 65535, 0, code, b"", (2, spelled))
    made.write(folder)


def stack_copies(folder, scale):
    """2,600 objects that are constructed one after the other, each with a copy at the bottom of a stack of 65,530 items and a branch behind
    it to a frame with top there; in 21 methods 3.9 MB."""
    made = ClassFile("Main")
    made.main()
    made.method(1, "<init>", "()V", 1, 1, bytes([42, 183]) + u2(made.called("java/lang/Object", "<init>", "()V")) + bytes([177]))
    count = scaled(scale, 2600)
    end = 1 + 11 * count
    called = u2(made.called("Main", "<init>", "()V"))
    code = bytes([177])
    for k in range(count):
        code += bytes([196, 25]) + u2(k) + bytes([183]) + called + branch(end, 8 + 11 * k)
    code += bytes([177]) + (bytes([187]) + u2(made.named("Main")) + bytes([87])) * count + bytes([177])
    objects = [u1(8) + u2(end + 1 + 4 * k) for k in range(count)]
    ints = [INT] * (65530 - count)
    spelled = full(1, objects, objects + ints) + full(end - 2, [], [TOP] * count + ints) + full(0, [], [])
    for n in range(scaled(scale, 21)):
        made.method(9, f"m{n}", "()V", 65535, count, code, b"", (3, spelled))
    made.write(folder)


def stack_to_objects(folder, scale):
    """8,000 branches with 65,533 items of a class on the stack, which flow to as many of Object."""
    made = ClassFile("Main")
    made.main()
    main, above = u1(7) + u2(made.named("Main")), u1(7) + u2(made.named("java/lang/Object"))
    count = scaled(scale, 8000)
    at = 1 + 4 * count
    code = bytes([177]) + b"".join(branch(at, 1 + 4 * k) for k in range(count)) + bytes([177])
    made.method(9, "m", "()V", 65535, 0, code, b"", (2, full(1, [], [main] * 65533) + full(at - 2, [], [above] * 65533)))
    made.write(folder)


def start_branches(folder, scale):
    """8,000 branches from the frame that a method begins with to one of 65,535 entries; in 40 methods 4 MB."""
    count = scaled(scale, 8000)
    end = 4 * count

    def add(made, name):
        code = b"".join(branch(end, 4 * k) for k in range(count)) + bytes([177])
        made.method(9, name, "()V", 1, 65535, code, b"", (1, full(end, [TOP] * 65535, [])))

    written_with(folder, add, scaled(scale, 40))


def switch_apart(folder, scale):
    """A tableswitch of 15,000 targets, from 65,535 ints to a frame that has all but the first of them."""
    made = ClassFile("Main")
    made.main()
    targets = scaled(scale, 15000)
    end = 16 + 4 * targets
    code = bytes([177, 3, 170, 0]) + u4(end - 2) + u4(0) + u4(targets - 1) + u4(end - 2) * targets + bytes([177])
    spelled = full(1, [INT] * 65535, []) + full(end - 2, [TOP] + [INT] * 65534, [])
    made.method(9, "ints", "()V", 1, 65535, code, b"", (2, spelled))
    made.write(folder)


def stores_apart(folder, scale):
    """One handler over 32,000 stores with 65,535 ints, whose frame has all but the first of them."""
    made = ClassFile("Main")
    made.main()
    count = scaled(scale, 32000)
    code = bytes([177]) + bytes([3, 59]) * count + bytes([177, 191])
    thrown = u1(7) + u2(made.named("java/lang/Throwable"))
    spelled = full(1, [INT] * 65535, []) + full(2 * count, [TOP] + [INT] * 65534, [thrown])
    handlers = u2(1) + u2(1 + 2 * count) + u2(2 * count + 2) + u2(0)
    made.method(9, "ints", "()V", 1, 65535, code, handlers, (2, spelled))
    made.write(folder)


def frames_in_turn(folder, scale):
    """5,900 times a frame of 65,535 ints and one of 65,534, with a store between."""
    made = ClassFile("Main")
    made.main()
    count = scaled(scale, 5900)
    code = bytes([177, 0]) + (bytes([167, 0, 3, 3, 196, 54]) + u2(65534) + bytes([167, 0, 3])) * count + bytes([177])
    spelled = full(1, [INT] * 65535, [])
    last = 1
    for k in range(count):
        spelled += u1(250) + u2(2 + 11 * k + 3 - last - 1)
        spelled += u1(252) + u2(7) + INT
        last = 2 + 11 * (k + 1)
    made.method(9, "ints", "()V", 1, 65535, code, b"", (1 + 2 * count, spelled))
    made.write(folder)


def branches_in_turn(folder, scale):
    """8,000 branches from 65,535 ints to 40 frames in turn, each with an entry less."""
    in_turn(folder, scale, 40, 1)


def branches_in_turn_often(folder, scale):
    """8,000 branches from 65,535 ints to 400 frames in turn, each with an entry less; in 39 methods 4 MB."""
    in_turn(folder, scale, 400, scaled(scale, 39))


def in_turn(folder, scale, targets, methods):
    count = scaled(scale, 8000)
    at = 1 + 4 * count

    def add(made, name):
        code = bytes([177]) + b"".join(branch(at + k % targets, 1 + 4 * k) for k in range(count)) + bytes([177]) * targets
        spelled = full(1, [INT] * 65535, []) + u1(250) + u2(at - 2) + (u1(250) + u2(0)) * (targets - 1)
        made.method(9, name, "()V", 1, 65535, code, b"", (targets + 1, spelled))

    written_with(folder, add, methods)


def stores_and_branches(folder, scale):
    """7,000 stores to as many local variables, then 7,000 branches; in 51 methods 4 MB."""
    count = scaled(scale, 7000)
    at = 1 + 5 * count
    end = at + 4 * count

    def add(made, name):
        code = bytes([177]) + b"".join(bytes([3, 196, 54]) + u2(k) for k in range(count))
        code += b"".join(branch(end, at + 4 * k) for k in range(count)) + bytes([177])
        spelled = full(1, [TOP] * count, []) + full(end - 2, [INT] * count, [])
        made.method(9, name, "()V", 1, count, code, b"", (2, spelled))

    written_with(folder, add, scaled(scale, 51))


def stores_below_handler(folder, scale):
    """One handler over 13,000 stores to as many local variables; in 43 methods 4 MB."""
    count = scaled(scale, 13000)
    size = 1 + 5 * count

    def add(made, name):
        code = bytes([177]) + b"".join(bytes([3, 196, 54]) + u2(k) for k in range(count)) + bytes([177, 191])
        thrown = u1(7) + u2(made.named("java/lang/Throwable"))
        spelled = full(1, [TOP] * count, []) + full(size - 1, [TOP] * count, [thrown])
        made.method(9, name, "()V", 1, count, code, u2(1) + u2(size) + u2(size + 1) + u2(0), (2, spelled))

    written_with(folder, add, scaled(scale, 43))


def new_held(folder, scale):
    """`new, pop` 16,000 times behind a frame of 65,535 ints; in 30 methods 4 MB."""
    count = scaled(scale, 16000)

    def add(made, name):
        code = bytes([177]) + (bytes([187]) + u2(made.named("Main")) + bytes([87])) * count + bytes([177])
        made.method(9, name, "()V", 1, 65535, code, b"", (1, full(1, [INT] * 65535, [])))

    written_with(folder, add, scaled(scale, 30))


def made_below_handler(folder, scale):
    """One handler over `new, <init>` 9,000 times, with 65,535 ints; in 20 methods 4 MB."""
    count = scaled(scale, 9000)
    size = 1 + 7 * count

    def add(made, name):
        one = bytes([187]) + u2(made.named("java/lang/Object")) + bytes([183]) + u2(made.called("java/lang/Object", "<init>", "()V"))
        code = bytes([177]) + (one + bytes([0])) * count + bytes([177, 191])
        thrown = u1(7) + u2(made.named("java/lang/Throwable"))
        spelled = full(1, [INT] * 65535, []) + full(size - 1, [INT] * 65535, [thrown])
        made.method(9, name, "()V", 1, 65535, code, u2(1) + u2(size) + u2(size + 1) + u2(0), (2, spelled))

    written_with(folder, add, scaled(scale, 20))


def frames_fall_in_turn(folder, scale):
    """16,000 frames one behind the other, each with an entry less than that before it, from 65,535 ints on; in 30 methods 4 MB."""
    count = scaled(scale, 16000)

    def add(made, name):
        code = bytes([177]) + bytes(count) + bytes([177])
        spelled = full(1, [INT] * 65535, []) + u1(250) + u2(0)
        spelled += (u1(250) + u2(0)) * (count - 2)
        made.method(9, name, "()V", 0, 65535, code, b"", (count, spelled))

    written_with(folder, add, scaled(scale, 30))


def start_in_turn(folder, scale):
    """8,000 branches from the frame that a method begins with to as many frames, each with an entry more; in 30 methods 4 MB."""
    count = scaled(scale, 8000)
    at = 4 * count

    def add(made, name):
        code = b"".join(branch(at + k, 4 * k) for k in range(count)) + bytes([177]) * count
        spelled = full(at, [TOP] * 57000, []) + (u1(252) + u2(0) + TOP) * (count - 1)
        made.method(9, name, "()V", 1, 65535, code, b"", (count, spelled))

    written_with(folder, add, scaled(scale, 30))


def few_in_turn(folder, scale):
    """65,000 frames of 16 entries each, over 65,535 local variables, of which no two that stand side by side share any; in two methods."""
    count = scaled(scale, 65000)

    def add(made, name):
        spelled = b"".join(full(1 if k == 0 else 0, [INT if k % 2 else TOP] * 16, []) for k in range(count))
        made.method(9, name, "()V", 0, 65535, bytes([177]) * (count + 1), b"", (count, spelled))

    written_with(folder, add, 2)


def pairs_in_turn(folder, scale):
    """Branches to 64 frames of 1,024 entries over 65,535 local variables, of two kinds in turn, each of which has an entry less than the
    one before of its kind; in 1,000 methods 2.7 MB."""
    def add(made, name):
        code = b"".join(branch(256 + k // 2 + 32 * (k % 2), 4 * k) for k in range(64)) + bytes([177]) * 64
        less = (u1(250) + u2(0)) * 31
        spelled = full(256, [INT] + [TOP] * 1063, []) + less + full(0, [TOP] * 1064, []) + less
        made.method(9, name, "(I)V", 1, 65535, code, b"", (64, spelled))

    written_with(folder, add, scaled(scale, 1000))


def apart_in_turn(folder, scale):
    """8,000 branches to 32 frames of 65,535 entries that share none, in turn; in one method 2.1 MB."""
    far_in_turn(folder, scale, 32, 65535, 65535, 1)


def short_in_turn(folder, scale):
    """8,000 branches to 32 frames of 255 entries that share none, in turn; in 90 methods 3.8 MB."""
    far_in_turn(folder, scale, 32, 255, 255, scaled(scale, 90))


def small_in_turn(folder, scale):
    """8,000 branches to 32 frames of 1,000 entries that share none, in turn, over 65,535 local variables; in 60 methods 3.9 MB."""
    far_in_turn(folder, scale, 32, 1000, 65535, scaled(scale, 60))


def far_in_turn(folder, scale, targets, entries, max_locals, methods):
    count = scaled(scale, 8000)
    at = 4 * count

    def add(made, name):
        code = b"".join(branch(at + k % targets, 4 * k) for k in range(count)) + bytes([177]) * targets
        spelled = b""
        for n in range(targets):
            # The first five entries say the frame's number, so that no other begins as it does.
            begin = [INT if n >> bit & 1 else TOP for bit in range(5)]
            spelled += full(at if n == 0 else 0, begin + [TOP] * (entries - 5), [])
        made.method(9, name, "(IIIII)V", 1, max_locals, code, b"", (targets, spelled))

    written_with(folder, add, methods)


def stacks_kept(folder, scale):
    """256 branches with 64 items on the stack to as many frames, then 28,000 instructions; in 85 methods 4 MB."""
    targets, idle = scaled(scale, 256), scaled(scale, 28000)
    at = 64 + 4 * targets + idle

    def add(made, name):
        code = bytes([3]) * 64 + b"".join(branch(at + k, 64 + 4 * k) for k in range(targets))
        code += bytes(at - len(code)) + bytes([177]) * targets
        spelled = b"".join(full(at if k == 0 else 0, [], [INT] * 64) for k in range(targets))
        made.method(9, name, "()V", 65, 0, code, b"", (targets, spelled))

    written_with(folder, add, scaled(scale, 85))


def stacks_named(folder, scale):
    """256 branches with 64 objects that are not initialized on the stack to as many frames, then 4,600 times `new, <init>`; in 50 methods 4
    MB."""
    targets, count = scaled(scale, 256), scaled(scale, 4600)
    at = 192 + 4 * targets + 6 * count

    def add(made, name):
        new = bytes([187]) + u2(made.named("java/lang/Object"))
        construct = bytes([183]) + u2(made.called("java/lang/Object", "<init>", "()V"))
        code = new * 64 + b"".join(branch(at + k, 192 + 4 * k) for k in range(targets)) + (new + construct) * count + bytes([177]) * targets
        objects = [u1(8) + u2(3 * k) for k in range(64)]
        spelled = b"".join(full(at if k == 0 else 0, [], objects) for k in range(targets))
        made.method(9, name, "()V", 65, 0, code, b"", (targets, spelled))

    written_with(folder, add, scaled(scale, 50))


def objects_in_turn(folder, scale):
    """120 frames of 1,000 objects that are not initialized on the stack, with branches behind each to 120 more of them in turn; in five
    methods 3.6 MB."""
    half, depth = scaled(scale, 60), scaled(scale, 1000)
    sides = 2 * half
    first = 3 * depth
    at = first + 4 * sides * half
    behind = at + sides

    def add(made, name):
        code = (bytes([187]) + u2(made.named("java/lang/Object"))) * depth
        code += b"".join(branch(at + k % sides, first + 4 * k) for k in range(sides * half)) + bytes([177]) * sides
        code += b"".join(branch(at + k % sides, behind + 4 * k) for k in range(sides * half)) + bytes([177])
        objects = [u1(8) + u2(3 * k) for k in range(depth)]
        again, next_one = full(4 * sides - 1, [], objects), full(0, [], objects)
        spelled = full(first, [], objects) + again * half + next_one * sides + again * (half - 1)
        made.method(9, name, "()V", depth + 1, 0, code, b"", (2 * sides, spelled))

    written_with(folder, add, scaled(scale, 5))


def copies_in_turn(folder, scale):
    """30 times an object 1,024 times on the stack, with branches behind it to 256 frames of as many tops, then its `<init>`; in 12 methods
    3.8 MB."""
    half, targets, pairs = scaled(scale, 15), scaled(scale, 256), scaled(scale, 511)
    size = 8 + 2 * pairs + 4 * targets
    at = size * half + 1

    def add(made, name):
        new = bytes([187]) + u2(made.named("java/lang/Object"))
        construct = bytes([183]) + u2(made.called("java/lang/Object", "<init>", "()V"))

        def times(begin):
            code = b""
            for k in range(half):
                before = begin + size * k + 4 + pairs
                code += new + bytes([89]) + bytes([92]) * pairs
                code += b"".join(branch(at + n, before + 4 * n) for n in range(targets)) + construct + bytes([88]) * pairs + bytes([87])
            return code

        code = times(0) + bytes([177]) * (1 + targets) + times(at + targets) + bytes([177])
        tops = [TOP] * (2 * pairs + 2)
        spelled = full(at, [], tops) + full(0, [], tops) * (targets - 1) + full(0, [], [])
        made.method(9, name, "()V", 2 * pairs + 3, 0, code, b"", (targets + 1, spelled))

    written_with(folder, add, scaled(scale, 12))


def stores_for_many(folder, scale):
    """Branches to 64 frames of 1,024 entries over 65,535 local variables, of two kinds in turn, then 15,000 stores, then the branches once
    more; in 115 methods 4 MB."""
    count = scaled(scale, 15000)
    at = 512 + 2 * count

    def add(made, name):
        order = [at + k // 2 + 32 * (k % 2) for k in range(64)]
        code = b"".join(branch(to, 4 * k) for k, to in enumerate(order)) + bytes([3, 60]) * count
        code += b"".join(branch(to, 256 + 2 * count + 4 * k) for k, to in enumerate(order)) + bytes([177]) * 64
        less = (u1(250) + u2(0)) * 31
        spelled = full(at, [INT] + [TOP] * 1063, []) + less + full(0, [TOP] * 1064, []) + less
        made.method(9, name, "(I)V", 1, 65535, code, b"", (64, spelled))

    written_with(folder, add, scaled(scale, 115))


def new_named(folder, scale):
    """`new, pop` 16,000 times behind a frame of 65,535 entries, of which one names the last `new`; in 30 methods 4 MB."""
    count = scaled(scale, 16000)

    def add(made, name):
        code = bytes([177]) + (bytes([187]) + u2(made.named("Main")) + bytes([87])) * count + bytes([177])
        last = u1(8) + u2(1 + 4 * (count - 1))
        made.method(9, name, "()V", 1, 65535, code, b"", (1, full(1, [INT] * 65534 + [last], [])))

    written_with(folder, add, scaled(scale, 30))


def many_named(folder, scale):
    """`new, pop` 16,000 times behind a frame of 65,535 entries that names each `new` twice, far apart; in 20 methods 4 MB."""
    count = scaled(scale, 16000)

    def add(made, name):
        code = bytes([177]) + (bytes([187]) + u2(made.named("Main")) + bytes([87])) * count + bytes([177])
        objects = [u1(8) + u2(1 + 4 * k) for k in range(count)]
        entries = objects + [INT] * (65535 - 2 * count) + objects
        made.method(9, name, "()V", 1, 65535, code, b"", (1, full(1, entries, [])))

    written_with(folder, add, scaled(scale, 20))


def one_named(folder, scale):
    """13,000 times a frame of an entry that names a `new`, which stands there, over 65,535 local variables; in 20 methods 4 MB."""
    count = scaled(scale, 13000)

    def add(made, name):
        code = bytes([177]) + (bytes([187]) + u2(made.named("Main")) + bytes([87, 177])) * count
        spelled = full(1, [u1(8) + u2(1)], []) + b"".join(full(4, [u1(8) + u2(1 + 5 * k)], []) for k in range(1, count))
        made.method(9, name, "()V", 1, 65535, code, b"", (count, spelled))

    written_with(folder, add, scaled(scale, 20))


def named_in_turn(folder, scale):
    """6,500 times a frame of 65,532 ints with three entries more that name the last `new`, and one without them; in 17 methods 3.9 MB."""
    count = scaled(scale, 6500)

    def add(made, name):
        piece = bytes([187]) + u2(made.named("Main")) + bytes([87, 177])
        last = u1(8) + u2(1 + 5 * (2 * count - 1))
        on, off = u1(254) + u2(4) + last * 3, u1(248) + u2(4)
        spelled = full(1, [INT] * 65532, []) + (on + off) * (count - 1) + on
        made.method(9, name, "()V", 1, 65535, bytes([177]) + piece * (2 * count), b"", (2 * count, spelled))

    written_with(folder, add, scaled(scale, 17))


def stack_named(folder, scale):
    """`new, pop` 16,000 times behind a frame with 65,533 ints and an object of a later `new` on the stack; in 30 methods 4 MB."""
    count = scaled(scale, 16000)

    def add(made, name):
        one = bytes([187]) + u2(made.named("Main")) + bytes([87])
        later = 2 + 4 * count
        code = bytes([177]) + one * count + bytes([177]) + one + bytes([177])
        spelled = full(1, [], [INT] * 65533 + [u1(8) + u2(later)]) + full(later - 2, [], [])
        made.method(9, name, "()V", 65535, 0, code, b"", (2, spelled))

    written_with(folder, add, scaled(scale, 30))


def named_and_made(folder, scale):
    """`new, <init>` 8,000 times behind a frame of 65,535 entries that names each `new` twice; in 20 methods 3.9 MB."""
    count = scaled(scale, 8000)

    def add(made, name):
        called = u2(made.called("java/lang/Object", "<init>", "()V"))
        one = bytes([187]) + u2(made.named("java/lang/Object")) + bytes([183]) + called
        objects = [u1(8) + u2(1 + 6 * k) for k in range(count)]
        entries = objects + [INT] * (65535 - 2 * count) + objects
        made.method(9, name, "()V", 1, 65535, bytes([177]) + one * count + bytes([177]), b"", (1, full(1, entries, [])))

    written_with(folder, add, scaled(scale, 20))


def this_made(folder, scale):
    """13,000 times `this` is constructed, behind a frame of 65,535 entries, the first of which it is; in 26 methods 3.8 MB."""
    count = scaled(scale, 13000)
    made = ClassFile("Main")
    made.main()
    piece = bytes([42, 183]) + u2(made.called("java/lang/Object", "<init>", "()V")) + bytes([177])
    spelled = full(2, [u1(6)] + [INT] * 65534, []) + u1(4) * (count - 1)
    for descriptor in descriptors(scaled(scale, 26)):
        made.method(1, "<init>", descriptor, 1, 65535, bytes([1, 191]) + piece * count, b"", (count, spelled))
    made.write(folder)


def new_branches(folder, scale):
    """8,000 objects that are not initialized on the stack, and 3,000 branches with them."""
    made = ClassFile("Main")
    made.main()
    count, branches = scaled(scale, 8000), scaled(scale, 3000)
    code = (bytes([187]) + u2(made.named("Main"))) * count
    end = len(code) + 4 * branches
    for k in range(branches):
        code += bytes([3, 153]) + struct.pack(">h", end - len(code) - 1)
    code += bytes([177])
    made.method(9, "objects", "()V", 65535, 0, code, b"", (1, full(end, [], [u1(8) + u2(3 * k) for k in range(count)])))
    made.write(folder)


def interfaces_long(folder, scale):
    """20 classes that each list a name of 65,535 bytes that is not there 65,535 times."""
    for n in range(scaled(scale, 20)):
        made = ClassFile(f"C{n}")
        made.interfaces = ["i" * 65530 + f"{n:05d}"] * 65535
        made.write(folder)
    made = ClassFile("Main")
    made.main()
    made.write(folder)


def interfaces_before(folder, scale):
    """256 interfaces, each with 65,535 entries that list those before it over and over."""
    count = scaled(scale, 256)
    for n in range(count):
        made = ClassFile(f"I{n}", "java/lang/Object", 0x601)
        made.interfaces = [f"I{k % n}" for k in range(65535)] if n else []
        made.write(folder)
    made = ClassFile("Main")
    made.interfaces = [f"I{count - 1}"]
    made.main()
    made.write(folder)


def catches_long(folder, scale):
    """60,000 handlers that catch one class that is not there, by as many constants over one name of 65,535 bytes."""
    made = ClassFile("Main")
    made.main()
    name = "x" * 65535
    text = made.text(name)
    caught = [made.constant(("class", name, k), u1(7) + u2(text)) for k in range(scaled(scale, 60000))]
    code = bytes(8) + bytes([177, 191])
    table = b"".join(u2(0) + u2(1) + u2(9) + u2(index) for index in caught)
    thrown = u1(7) + u2(made.named("java/lang/Throwable"))
    made.method(9, "covered", "()V", 1, 1, code, table, (1, full(9, [], [thrown])))
    made.write(folder)


def defaults_many(folder, scale):
    """1,000 interfaces with the same default method and one more with it below all of them, above a class; 10,000 references to it below
    that."""
    count = scaled(scale, 1000)
    names = [f"I{k}" for k in range(count)]

    def interface(name, above):
        made = ClassFile(name, flags=0x601)
        made.interfaces = above
        made.method(1, "m", "()V", 0, 1, bytes([177]))
        made.write(folder)

    for name in names:
        interface(name, [])
    interface("J", names)
    made = ClassFile("B")
    made.interfaces = names + ["J"]
    made.write(folder)
    made = ClassFile("Main", "B")
    made.main()
    for k in range(scaled(scale, 10000)):
        made.called("B", "m", "()V", 10, k)
    made.write(folder)


def references_often(folder, scale):
    """10 classes below a chain of 1,000 with 62,000 references each to methods that are not there."""
    count = scaled(scale, 1000)
    chain(folder, count, lambda made, n: made.field(1, "f", "I"))
    given = descriptors(40)
    for c in range(10):
        made = ClassFile("Main" if c == 0 else f"M{c}", f"C{count - 1}")
        made.main()
        for k in range(scaled(scale, 62000)):
            made.called(f"C{count - 1}", f"m{k % 50}", given[k // 50 % 40], 10, k)
        made.write(folder)


def names_alike(folder, scale):
    """9 classes with 62,000 references each to a field of a superclass whose name has 65,535 bytes, and whose descriptor too."""
    name, kind = "f" * 65535, "L" + "k" * 65533 + ";"
    top = ClassFile("A")
    top.field(1, name, kind)
    top.write(folder)
    for c in range(9):
        made = ClassFile("Main" if c == 0 else f"M{c}", "A")
        made.main()
        for k in range(scaled(scale, 62000)):
            made.called("A", name, kind, 9, k)
        made.write(folder)


def finals_apart(folder, scale):
    """A chain of 1,000 classes with the same 432 abstract methods below one with a final method; a class that is not above them declares
    each of these final."""
    given = descriptors(24)
    apart = ClassFile("Apart", flags=0x421)
    for n in range(18):
        for descriptor in given:
            apart.method(0x11, f"m{n}", descriptor, 0, 24, bytes([177]))
    apart.write(folder)
    top = ClassFile("C0", flags=0x421)
    top.method(0x11, "last", "()V", 0, 1, bytes([177]))
    top.write(folder)
    count = scaled(scale, 1000)
    for k in range(1, count):
        made = ClassFile(f"C{k}" if k < count - 1 else "Main", f"C{k - 1}", 0x421)
        for n in range(18):
            for descriptor in given:
                made.declare(0x401, f"m{n}", descriptor)
        if k == count - 1:
            made.main()
        made.write(folder)


def wide_tiny(folder, scale):
    """6,500 methods of two instructions with 16 parameters, 65,535 local variables and a frame of the map."""
    made = ClassFile("Main")
    made.main()
    given = ["(" + "".join("IJ"[k >> bit & 1] for bit in range(16)) + ")V" for k in range(250)]
    for n in range(scaled(scale, 6500)):
        made.method(9, f"m{n // 250}", given[n % 250], 0, 65535, bytes([177, 177]), b"", (1, u1(1)))
    made.write(folder)


def object_of(made, name):
    """An item of the stack map: an object of a class or an array."""
    return u1(7) + u2(made.named(name))


def switch(at, targets):
    """A tableswitch at an offset to these targets, the first of which is the default, too."""
    code = bytes([170]) + bytes(-(at + 1) % 4) + struct.pack(">iii", targets[0] - at, 0, len(targets) - 1)
    return code + b"".join(struct.pack(">i", target - at) for target in targets)


def asked_twice(count):
    """So many numbers, each twice, not far apart."""
    order = []
    for k in range(0, count, 32):
        order += list(range(k, min(k + 32, count))) * 2
    return order


def few_entries(number, item):
    """64 local entries, no two numbers' alike."""
    return [item if number >> bit & 1 else TOP for bit in range(8)] + [TOP] * 56


def nops_behind_many(folder, scale):
    """A tableswitch to 140 frames of 64 entries, twice to each, then 30,000 nops with a frame of 10,000 ints each; in four methods."""
    count = scaled(scale, 30000)
    order = asked_twice(140)
    end = 2 + len(switch(2, [0] * len(order)))

    def add(made, name):
        code = bytes([177, 3]) + switch(2, [end + k for k in order]) + bytes([177]) * 140 + bytes(count) + bytes([177])
        spelled = full(1, [INT] * 64, [])
        for k in range(140):
            spelled += full(end - 2 if k == 0 else 0, few_entries(k, INT), [])
        spelled += full(0, [INT] * 10000, []) + u1(0) * count
        made.method(9, name, "()V", 1, 10000, code, b"", (142 + count, spelled))

    written_with(folder, add, 4)


def behind_many(folder, scale, entries, item, target):
    """A tableswitch to 140 frames of 64 entries, twice to each, then 14,000 times to a frame of so many entries target(class), from as many
    item(class); in 20 methods."""
    order = asked_twice(140) + [140] * scaled(scale, 14000)
    end = 2 + len(switch(2, [0] * len(order)))

    def add(made, name):
        of, to = item(made), target(made)
        code = bytes([177, 3]) + switch(2, [end + k for k in order]) + bytes([177]) * 141
        spelled = full(1, [of] * entries, [])
        for k in range(140):
            spelled += full(end - 2 if k == 0 else 0, few_entries(k, to), [])
        spelled += full(0, [to] * entries, [])
        made.method(9, name, "()V", 1, entries, code, b"", (142, spelled))

    written_with(folder, add, scaled(scale, 20))


def switch_behind_many(folder, scale):
    """A tableswitch to 140 frames of 64 entries, twice to each, then 14,000 times to a frame of 10,000 ints; in 20 methods."""
    behind_many(folder, scale, 10000, lambda made: INT, lambda made: INT)


def objects_behind_many(folder, scale):
    """switch_behind_many to a frame of 1,000 entries of Object from as many arrays."""
    behind_many(folder, scale, 1000, lambda made: object_of(made, "[[I"), lambda made: object_of(made, "java/lang/Object"))


def objects_few(folder, scale):
    """A tableswitch of 16,000 targets to a frame of 63 local entries and 62 items of Object, from as many arrays; in 62 methods 4 MB."""
    count = scaled(scale, 16000)
    end = 2 + len(switch(2, [0] * count))

    def add(made, name):
        array, above = object_of(made, "[[I"), object_of(made, "java/lang/Object")
        code = bytes([177, 3]) + switch(2, [end] * count) + bytes([177])
        spelled = full(1, [array] * 63, [array] * 62) + full(end - 2, [above] * 63, [above] * 62)
        made.method(9, name, "()V", 63, 63, code, b"", (2, spelled))

    written_with(folder, add, scaled(scale, 62))


def handlers_many(folder, scale):
    """2,000 handlers over 4,000 stores, with 63 local variables: arrays, which flow to Object."""
    count = scaled(scale, 4000)
    made = ClassFile("Main")
    made.main()
    array, above = object_of(made, "[[I"), object_of(made, "java/lang/Object")
    code = bytes([177]) + bytes([3, 54, 63]) * count + bytes([177, 191])
    end = len(code) - 1
    spelled = full(1, [array] * 63, []) + full(end - 2, [above] * 63, [object_of(made, "java/lang/Throwable")])
    table = (u2(1) + u2(end - 1) + u2(end) + u2(0)) * scaled(scale, 2000)
    made.method(9, "m", "()V", 1, 64, code, table, (2, spelled))
    made.write(folder)


def abstract_methods(folder, scale):
    """A class of 65,000 abstract methods: 8 bytes each; in eight classes 4.2 MB."""
    given = descriptors(250)
    for c in range(8):
        made = ClassFile("Main" if c == 0 else f"M{c}", flags=0x421)
        made.main()
        for n in range(scaled(scale, 65000)):
            made.declare(0x401, f"m{n // 250}", given[n % 250])
        made.write(folder)


def class_constants(folder, scale):
    """40 classes of 65,000 Class constants each."""
    for c in range(40):
        made = ClassFile("Main" if c == 0 else f"M{c}")
        made.main()
        text = made.text("A")
        for k in range(scaled(scale, 65000)):
            made.constant(("class", k), u1(7) + u2(text))
        made.write(folder)


def finals_hidden(folder, scale):
    """A chain of 1,000 classes with the same 432 abstract methods below one of another package that declares each of these final for its
    package alone."""
    named = [(f"m{n}", descriptor) for n in range(18) for descriptor in descriptors(24)]
    top = ClassFile("b/Top", flags=0x421)
    for name, descriptor in named:
        top.method(0x10, name, descriptor, 0, 24, bytes([177]))
    top.write(folder)
    count = scaled(scale, 999)
    for k in range(count):
        made = ClassFile(f"C{k}" if k < count - 1 else "Main", f"C{k - 1}" if k else "b/Top", 0x421)
        for name, descriptor in named:
            made.declare(0x401, name, descriptor)
        if k == count - 1:
            made.main()
        made.write(folder)


def finals_of_packages(folder, scale):
    """A chain of 500 classes, each in a package of its own, with the same 200 final methods for it alone, below 500 of the same packages
    where these are public and abstract, below one of another package where they are final for it alone."""
    given = descriptors(200)

    def write(name, above, flags):
        made = ClassFile(name, above, 0x421)
        for descriptor in given:
            if flags == 0x401:
                made.declare(flags, "m", descriptor)
            else:
                made.method(flags, "m", descriptor, 0, 200, bytes([177]))
        made.write(folder)
        return name

    above = write("b/Top", "java/lang/Object", 0x10)
    for letter, flags in (("R", 0x401), ("Q", 0x10)):
        for k in range(scaled(scale, 500)):
            above = write(f"a{k}/{letter}", above, flags)
    made = ClassFile("Main", above)
    made.main()
    made.write(folder)


def finals_of_others(folder, scale):
    """4 classes of 65,000 abstract methods each below a chain of 1,000 classes with 200 methods each of other names, whose highest has
    12,000 final methods for its package alone, in which the chain is."""
    count = scaled(scale, 1000)
    given = descriptors(1024)
    for n in range(count):
        made = ClassFile(f"q/C{n}", f"q/C{n - 1}" if n else "java/lang/Object", 0x421)
        for k in range(scaled(scale, 12000) if n == 0 else 200):
            if n == 0:
                made.method(0x10, f"m{k // 1024}", given[k % 1024], 0, 255, bytes([177]))
            else:
                made.declare(0x401, f"x{n}", given[k])
        made.write(folder)
    for c in range(4):
        made = ClassFile("Main" if c == 0 else f"M{c}", f"q/C{count - 1}", 0x421)
        made.main()
        for k in range(scaled(scale, 65000)):
            made.declare(0x401, f"m{k // 1024}", given[k % 1024])
        made.write(folder)


def references_from(folder, scale, above, classes, given, tag):
    """Classes with 62,000 references each to these members of the class above, in turn."""
    for c in range(classes):
        made = ClassFile("Main" if c == 0 else f"M{c}", above)
        made.main()
        for k in range(scaled(scale, 62000)):
            name, descriptor = given[k % len(given)]
            made.called(above, name, descriptor, tag, k)
        made.write(folder)


def fields_in_each(folder, scale):
    """12 classes below a chain of 1,000 with a field each, with 62,000 references each to fields that are not there."""
    count = scaled(scale, 1000)
    chain(folder, count, lambda made, n: made.field(1, "f", "I"))
    references_from(folder, scale, f"C{count - 1}", 12, [(f"g{k}", "I") for k in range(40)], 9)


def fields_by_interfaces(folder, scale):
    """12 classes below one with 1,000 superinterfaces with a field each, with 62,000 references each to fields that are not there."""
    names = [f"I{n}" for n in range(scaled(scale, 1000))]
    for name in names:
        made = ClassFile(name, flags=0x601)
        made.field(0x19, "f", "I")
        made.write(folder)
    made = ClassFile("B")
    made.interfaces = names
    made.write(folder)
    references_from(folder, scale, "B", 12, [(f"g{k}", "I") for k in range(40)], 9)


def methods_in_each(folder, scale):
    """7 classes below a chain of 1,000 with 250 abstract methods each, with 62,000 references each to methods that are not there."""
    count = scaled(scale, 1000)

    def members(made, n):
        made.flags = 0x421
        for k in range(250):
            made.declare(0x401, f"d{n}x{k}", "()V")

    chain(folder, count, members)
    references_from(folder, scale, f"C{count - 1}", 7, [(f"g{k}", "()V") for k in range(1000)], 10)


def names_alike_by_many(folder, scale):
    """10 classes below a chain of 1,000, with 62,000 references each to 62 fields of the highest, of one name of 65,535 bytes, by way of
    each class of the chain."""
    name, count = "f" * 65535, scaled(scale, 1000)
    kinds = ["[" * k + "I" for k in range(62)]

    def members(made, n):
        if n == 0:
            for kind in kinds:
                made.field(1, name, kind)

    chain(folder, count, members)
    for c in range(10):
        made = ClassFile("Main" if c == 0 else f"M{c}", f"C{count - 1}")
        made.main()
        for k in range(scaled(scale, 62000)):
            made.called(f"C{k % count}", name, kinds[k // count % 62], 9, k)
        made.write(folder)


def package_above_chain(folder, scale):
    """9 classes with 64,000 references each to a protected method of the highest class of a chain of 1,000, in one package with that, whose
    name has 65,500 bytes."""
    package = "p" * 65500
    above = f"{package}/A"
    made = ClassFile(above, flags=0x421)
    made.declare(0x404, "f", "()V")
    made.write(folder)
    for n in range(scaled(scale, 1000)):
        made = ClassFile(f"C{n}", above, 0x421)
        made.write(folder)
        above = f"C{n}"
    for c in range(9):
        made = ClassFile(f"{package}/M{c}", above, 0x421)
        made.main()
        for k in range(scaled(scale, 64000)):
            made.called(above, "f", "()V", 10, k)
        made.write(folder)
    made = ClassFile("Main")
    made.main()
    made.write(folder)


SHAPES = [
    long_references, short_references, used_references, interface_often, long_methods, long_methods_final, long_fields,
    methods_below_final, classes_below_final, finals_in_each, finals_in_two_chains, finals_private, blank_frames, int_frames,
    int_frames_and_stores, int_stores, int_switch,
    handlers_at_front, handlers_and_frames, handlers_over_all, handlers_apart, handlers_and_stores, new_popped, new_left, new_made,
    no_package, interface_entries, supers_chain, supers_diamond, supers_dense, many_finals, branches_apart, branches_apart_often,
    stack_branches, stack_branches_often, stack_pushed, stack_in_turn, stack_calls, stack_constructs, stack_copies, stack_to_objects,
    start_branches, switch_apart, stores_apart, frames_in_turn, branches_in_turn, branches_in_turn_often, new_branches,
    interfaces_long, interfaces_before, catches_long, stores_and_branches, stores_below_handler, new_held, made_below_handler,
    frames_fall_in_turn, start_in_turn, few_in_turn, pairs_in_turn, apart_in_turn, short_in_turn, small_in_turn, stacks_kept, stacks_named,
    objects_in_turn, copies_in_turn, stores_for_many, new_named, many_named, one_named, named_in_turn, stack_named, named_and_made, this_made,
    defaults_many, references_often, names_alike, finals_apart, wide_tiny, nops_behind_many, switch_behind_many, objects_behind_many, objects_few,
    handlers_many, abstract_methods, class_constants, finals_hidden, finals_of_packages, finals_of_others, fields_in_each, fields_by_interfaces,
    methods_in_each, names_alike_by_many, package_above_chain,
]


def write(folder, scale, names, given=SHAPES):
    for shape in given:
        if names and shape.__name__ not in names:
            continue
        place = os.path.join(folder, shape.__name__)
        os.makedirs(place, exist_ok=True)
        shape(place, scale)


if __name__ == "__main__":
    write(sys.argv[1], float(sys.argv[2]), sys.argv[3:])
