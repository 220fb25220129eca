"""Still more lists of class files in shapes that a stranger could choose: what costs to read, and what costs to compare.

Use: scripts/check-hostile/reading_shapes.py FOLDER SCALE [NAME..]; or as shapes.py, by run.
"""
import sys

sys.dont_write_bytecode = True
from shapes import *

LONG = u1(4)


# ---- constants and members

def class_constants_long(folder, scale):
    """65,500 Class constants that name one text of 65,535 bytes."""
    made = ClassFile("Main")
    made.main()
    text = made.text("n" * 65535)
    for k in range(scaled(scale, 65500)):
        made.constant(("class", k), u1(7) + u2(text))
    made.write(folder)


def member_constants_long(folder, scale):
    """65,500 NameAndType constants with one descriptor of 65,535 bytes."""
    made = ClassFile("Main")
    made.main()
    both = u2(made.text("f")) + u2(made.text("L" + "n" * 65533 + ";"))
    for k in range(scaled(scale, 65500)):
        made.constant(("member", k), u1(12) + both)
    made.write(folder)


def names_and_descriptors(given, scale):
    """65,500 pairs of a name and one of these descriptors, no two alike."""
    pairs = [(f"m{k}", descriptor) for k in range(1300) for descriptor in given]
    return pairs[: scaled(scale, 65500)]


def methods_long_types(folder, scale):
    """65,500 abstract methods with 52 descriptors of 65,500 bytes."""
    made = ClassFile("Main", flags=0x421)
    made.main()
    start = "(" + ("[" * 255 + "I") * 253 + "L" + "n" * 722
    for name, descriptor in names_and_descriptors([f"{start}{k:05d};)V" for k in range(52)], scale):
        made.declare(0x401, name, descriptor)
    made.write(folder)


def fields_long_types(folder, scale):
    """65,500 fields with 52 descriptors of 65,500 bytes."""
    made = ClassFile("Main")
    made.main()
    for name, descriptor in names_and_descriptors(["L" + "n" * 65493 + f"{k:05d};" for k in range(52)], scale):
        made.field(1, name, descriptor)
    made.write(folder)


def texts_long(folder, scale):
    """63 texts of 65,535 bytes that differ at their ends."""
    made = ClassFile("Main")
    made.main()
    for text in long_names(scaled(scale, 63)):
        made.text(text)
    made.write(folder)


def texts_short(folder, scale):
    """65,500 texts of 61 bytes that differ at their ends."""
    made = ClassFile("Main")
    made.main()
    for text in long_names(scaled(scale, 65500), 61):
        made.text(text)
    made.write(folder)


def attributes_empty(folder, scale):
    """Ten fields with 65,535 empty attributes each."""
    made = ClassFile("Main")
    made.main()
    attributes = (u2(made.text("a")) + u4(0)) * 65535
    for k in range(scaled(scale, 10)):
        made.fields.append(u2(1) + u2(made.text(f"f{k}")) + u2(made.text("I")) + u2(65535) + attributes)
    made.write(folder)


def dimensions_described(folder, scale):
    """64 descriptors of 250 parameters with 255 dimensions each."""
    made = ClassFile("Main")
    made.main()
    for k in range(scaled(scale, 64)):
        made.text("(" + ("[" * 255 + "I") * 250 + "I" * k + ")V")
    made.write(folder)


def dimensions_cast(folder, scale):
    """Arrays of 255 dimensions that are cast, stored, loaded and handed on, 6,500 times in each of 64 methods; 3.7 MB."""
    made = ClassFile("Main")
    made.main()
    array = "[" * 255 + "I"
    one = bytes([192]) + u2(made.named(array)) + bytes([76, 43, 43, 184]) + u2(made.called("Main", "take", f"({array})V"))
    made.method(9, "take", f"({array})V", 0, 1, bytes([177]))
    for n in range(scaled(scale, 64)):
        made.method(9, f"m{n}", "()V", 2, 2, bytes([1]) + one * 6500 + bytes([87, 177]))
    made.write(folder)


# ---- stack maps

def full_frames(made, count, entries, items, most):
    """A method whose code is so many returns, each but the first with a frame of these local entries and items of the stack."""
    spelled = full(1, entries, items) + full(0, entries, items) * (count - 1)
    made.method(9, "m", "()V", most, 65535, bytes([177]) * (count + 1), b"", (count, spelled))


def objects_long_name(folder, scale):
    """20 frames of 65,535 objects of a class whose name has 65,535 bytes."""
    made = ClassFile("Main")
    made.main()
    full_frames(made, scaled(scale, 20), [u1(7) + u2(made.named("n" * 65535))] * 65535, [], 0)
    made.write(folder)


def longs_full(folder, scale):
    """63 frames of 32,767 longs as local variables and as many on the stack, a byte each."""
    made = ClassFile("Main")
    made.main()
    full_frames(made, scaled(scale, 63), [LONG] * 32767, [LONG] * 32767, 65535)
    made.write(folder)


# ---- classes

def supers_comb(folder, scale):
    """A chain of 511 classes, each with an interface of its own."""
    count = scaled(scale, 511)
    for n in range(count):
        ClassFile(f"I{n}", flags=0x601).write(folder)
        made = ClassFile(f"C{n}", f"C{n - 1}" if n else "java/lang/Object")
        made.interfaces = [f"I{n}"]
        made.write(folder)
    made = ClassFile("Main", f"C{count - 1}")
    made.main()
    made.write(folder)


def many_finals_same(folder, scale):
    """A class of 65,534 methods below one of as many finals, of the same names."""
    given = descriptors(1024)
    above, made = ClassFile("C0", flags=0x421), ClassFile("Main", "C0", 0x421)
    made.main()
    for k in range(scaled(scale, 65534)):
        above.method(0x11, f"m{k // 1024}", given[k % 1024], 0, 24, bytes([177]))
        made.declare(0x401, f"m{k // 1024}", given[k % 1024])
    above.write(folder)
    made.write(folder)


def handed_up_chain(folder, scale):
    """16,000 calls that hand the last of a chain of 1,000 classes to a method that takes the first, in each of 50 methods; 3.2 MB."""
    count = scaled(scale, 1000)
    chain(folder, count)
    made = ClassFile("Main")
    made.main()
    made.method(9, "take", "(LC0;)V", 0, 1, bytes([177]))
    code = (bytes([42, 184]) + u2(made.called("Main", "take", "(LC0;)V"))) * 16000 + bytes([177])
    for n in range(scaled(scale, 50)):
        made.method(9, f"m{n}", f"(LC{count - 1};)V", 1, 1, code)
    made.write(folder)


SHAPES = [
    class_constants_long, member_constants_long, methods_long_types, fields_long_types, texts_long, texts_short, attributes_empty,
    dimensions_described, dimensions_cast, objects_long_name, longs_full, supers_comb, many_finals_same, handed_up_chain,
]


if __name__ == "__main__":
    write(sys.argv[1], float(sys.argv[2]), sys.argv[3:], SHAPES)
