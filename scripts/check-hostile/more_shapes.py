"""More lists of class files in shapes that a stranger could choose: what a search against the other ones found.

Use: scripts/check-hostile/more_shapes.py FOLDER SCALE [NAME..]; or as shapes.py, by run.
"""
import random
import sys

sys.dont_write_bytecode = True
import shapes
from shapes import *


# ---- over in time

def new_high(folder, scale, methods=54):
    """7,200 times a store to the last of 65,535 local variables and `new, pop`, with a frame of the map behind each whose one entry names a
    later `new`; in 54 methods 4 MB."""
    made = ClassFile("Main")
    made.main()
    count = 7200
    named = u2(made.named("Main"))
    one = bytes([3, 196, 54]) + u2(65534) + bytes([187]) + named + bytes([87])
    end = 2 + 9 * count
    code = bytes([177]) + one * count + bytes([177]) + bytes([187]) + named + bytes([87, 177])
    entry = [u1(8) + u2(end)]
    spelled = full(1, entry, []) + u1(8) * count + full(0, [], [])
    for n in range(scaled(scale, methods)):
        made.method(9, f"m{n}", "()V", 1, 65535, code, b"", (count + 2, spelled))
    made.write(folder)


def stores_high(folder, scale, methods=50):
    """13,000 stores to the last of 65,535 local variables, with a frame of the map behind each that has none; in 50 methods 4 MB."""
    count = 13000

    def add(made, name):
        code = (bytes([3, 196, 54]) + u2(65534)) * count + bytes([177])
        made.method(9, name, "()V", 1, 65535, code, b"", (count, u1(5) + u1(4) * (count - 1)))

    written_with(folder, add, scaled(scale, methods))


def framed_stores(folder, scale, methods=65, kept=40):
    """16,000 stores to 40 local variables in turn, with a frame of the map before each, and a handler over all whose frame has all but the
    first of them; in 65 methods 4 MB."""
    count = 16000
    store = b"".join(bytes([3, 54, k % kept]) for k in range(count))
    code = bytes([177]) + store + bytes([177]) + bytes([177])
    end = 1 + len(store)

    def add(made, name):
        items = [INT] * kept
        handled = full(3, [TOP, *items[1:]], [object_of(made, "java/lang/Throwable")])
        frames = full(1, items, []) + u1(2) * (count - 1) + handled
        table = u2(1) + u2(end) + u2(end + 1) + u2(made.named("java/lang/Error"))
        made.method(9, name, "()V", 1, kept, code, table, (count + 1, frames))

    written_with(folder, add, scaled(scale, methods))


def locals_by_turns(folder, scale, classes=70, each=2000):
    """A chain of 70 classes of 2,000 methods of a return each, by turns with 65,535 and with 65,534 local variables."""
    kinds = ["(" + "[" * k + "I)V" for k in range(50)]
    for c in range(scaled(scale, classes)):
        last = c == scaled(scale, classes) - 1
        made = ClassFile("Main" if last else f"C{c}", f"C{c - 1}" if c else "java/lang/Object")
        if last:
            made.main()
        for n in range(each):
            made.method(9, f"m{n // 50}", kinds[n % 50], 0, 65535 - n % 2, bytes([177]))
        made.write(folder)


def copies_referred(made, folder, name, owners, copies):
    """References to an int field of this name by way of each of these classes, with so many copies of its descriptor."""
    text = made.text(name)
    numbers = [made.named(owner) for owner in owners]
    kinds = []
    for k in range(copies):
        copy = made.constant(("copy", k), u1(1) + u2(1) + b"I")
        kinds.append(made.constant(("kind", k), u1(12) + u2(text) + u2(copy)))
    for k in range(65480 - len(made.constants)):
        made.constant(("ref", k), u1(9) + u2(numbers[k % len(owners)]) + u2(kinds[k // len(owners) % copies]))
    made.write(folder)


def long_by_copies(folder, scale, classes=33, copies=1000, referring=96):
    """33 classes in a chain with a field each, of one name of 65,535 bytes; 96 classes below them with 63,000 references each to it by way
    of each of them, with 1,000 copies of its descriptor."""
    name = "f" * 65535
    for n in range(classes):
        made = ClassFile(f"C{n}", f"C{n - 1}" if n else "java/lang/Object")
        made.field(1, name, "I")
        made.write(folder)
    for c in range(scaled(scale, referring)):
        made = ClassFile("Main" if c == 0 else f"M{c}", f"C{classes - 1}")
        made.main()
        copies_referred(made, folder, name, [f"C{n}" for n in range(classes)], copies)


def long_by_interfaces(folder, scale, classes=33, copies=1000, referring=96):
    """33 classes in a chain with a field each, of one name of 65,535 bytes, with one below each of them that has 850 superinterfaces; 96
    classes below these with 63,000 references each to the field by way of each of those, with 1,000 copies of its descriptor."""
    name = "f" * 65535
    listed = [f"I{n}" for n in range(1024 - 2 * classes - referring - 10)]
    for one in listed:
        ClassFile(one, flags=0x601).write(folder)
    made = ClassFile("J", flags=0x601)
    made.interfaces = listed
    made.write(folder)
    above = "java/lang/Object"
    for n in range(classes):
        made = ClassFile(f"D{n}", above)
        made.field(1, name, "I")
        made.write(folder)
        made = ClassFile(f"P{n}", f"D{n}")
        made.interfaces = ["J"]
        made.write(folder)
        above = f"P{n}"
    for c in range(scaled(scale, referring)):
        made = ClassFile("Main" if c == 0 else f"M{c}", above)
        made.main()
        copies_referred(made, folder, name, [f"P{n}" for n in range(classes)], copies)


def long_by_many(folder, scale, classes=8, kinds=3875, referring=80):
    """8 classes in a chain with 3,875 fields each, of one name of 65,535 bytes; 80 classes below them with 57,000 references each to these
    by way of each of them: as many questions as fields, and no text twice."""
    name = "f" * 65535
    given = [("[" * (k % 40)) + "L" + chr(97 + k // 40 % 26) + chr(97 + k // 40 // 26 % 26) + ";" for k in range(kinds)]
    for n in range(classes):
        made = ClassFile(f"C{n}", f"C{n - 1}" if n else "java/lang/Object")
        for kind in given:
            made.field(1, name, kind)
        made.write(folder)
    for c in range(scaled(scale, referring)):
        made = ClassFile("Main" if c == 0 else f"M{c}", f"C{classes - 1}")
        made.main()
        for k in range(57000):
            made.called(f"C{k // kinds % classes}", name, given[k % kinds], 9, k)
        made.write(folder)


# ---- over where HotSpot refuses at once

def handlers_begin_in_turn(folder, scale):
    """65,520 handlers, each of which begins at a nop of its own and ends where all do."""
    made = ClassFile("Main")
    made.main()
    length = 65532
    code = bytes(length - 2) + bytes([177, 191])
    table = b"".join(u2(k) + u2(length - 2) + u2(length - 1) + u2(0) for k in range(scaled(scale, length - 12)))
    thrown = u1(7) + u2(made.named("java/lang/Throwable"))
    made.method(9, "covered", "()V", 1, 1, code, table, (1, full(length - 1, [], [thrown])))
    made.write(folder)


def below_refused(folder, shape, scale):
    """A shape whose class Main is below one that HotSpot refuses at once."""
    shape(folder, scale)
    made = ClassFile("B")
    made.method(9, "bad", "()V", 1, 0, bytes([87, 177]))
    made.write(folder)
    path = f"{folder}/Main.class"
    with open(path, "rb") as file:
        spelled = file.read()
    # The text java/lang/Object is that of the superclass alone.
    old, new = u2(16) + b"java/lang/Object", u2(1) + b"B"
    assert spelled.count(old) == 1
    with open(path, "wb") as file:
        file.write(spelled.replace(old, new))


def refused_handlers_and_stores(folder, scale):
    """handlers_and_stores below a class that HotSpot refuses at once."""
    below_refused(folder, shapes.handlers_and_stores, scale)


def refused_handlers_in_turn(folder, scale):
    """handlers_begin_in_turn below a class that HotSpot refuses at once."""
    below_refused(folder, handlers_begin_in_turn, scale)


def refused_start_in_turn(folder, scale):
    """start_in_turn below a class that HotSpot refuses at once."""
    below_refused(folder, shapes.start_in_turn, scale)


def start_at_random(folder, scale, methods=30, spread=1):
    """A tableswitch of 8,000 targets from the frame that a method begins with to as many frames, each with an entry more than another, in
    no order; in 30 methods 4 MB."""
    count = 8000
    end = 1 + len(switch(1, [0] * count))

    def add(made, name):
        order = list(range(count))
        random.Random(7).shuffle(order)
        code = bytes([3]) + switch(1, [end + k for k in order]) + bytes([177]) * count
        spelled = full(end, [TOP] * (65535 - spread * (count - 1)), []) + (u1(251 + spread) + u2(0) + TOP * spread) * (count - 1)
        made.method(9, name, "()V", 1, 65535, code, b"", (count, spelled))

    written_with(folder, add, scaled(scale, methods))


def start_at_random_far(folder, scale):
    """start_at_random with three entries more each, 41,500 to 65,535."""
    start_at_random(folder, scale, 25, 3)


def handlers_in_turn(folder, scale, handlers=2000, stores=5000, words=40):
    """2,000 handlers over 5,000 stores, each with a frame of 40 entries of its own: more frames than are kept."""
    made = ClassFile("Main")
    made.main()
    handlers = scaled(scale, handlers)
    code = bytes([177]) + bytes([3, 59]) * stores + bytes([177])
    first = len(code)
    code += bytes([191]) * handlers
    thrown = u1(7) + u2(made.named("java/lang/Throwable"))
    spelled, table, at = full(1, [INT] * words, []), b"", 1
    for k in range(handlers):
        entries = [TOP if k >> bit & 1 else INT for bit in range(16)] + [INT] * (words - 16)
        spelled += full(first + k - at - 1, entries, [thrown])
        at = first + k
        table += u2(1) + u2(first - 1) + u2(first + k) + u2(0)
    made.method(9, "m", "()V", 1, words, code, table, (1 + handlers, spelled))
    made.write(folder)


def covered_stores(folder, scale, catches, methods=7):
    """32,765 stores in each of seven methods, under 65,535 handlers that cover them all and lead to one frame; they catch these by turns."""
    made = ClassFile("Main")
    made.main()
    code = bytes([177]) + bytes([3, 59]) * scaled(scale, 32765) + bytes([177, 191])
    end = len(code) - 1
    caught = [u2(made.named(name)) if name else u2(0) for name in catches]
    table = b"".join(u2(1) + u2(end) + u2(end) + caught[k % len(caught)] for k in range(scaled(scale, 65535)))
    thrown = u1(7) + u2(made.named("java/lang/Throwable"))
    spelled = full(1, [INT], []) + full(end - 2, [INT], [thrown])
    for n in range(methods):
        made.method(9, f"m{n}", "()V", 1, 1, code, table, (2, spelled))
    made.write(folder)


def handlers_alike(folder, scale):
    """Seven methods of 65,535 identical handlers over 32,765 stores each."""
    covered_stores(folder, scale, [""])


def handlers_by_turns(folder, scale):
    """handlers_alike where they catch two types by turns."""
    covered_stores(folder, scale, ["java/lang/Exception", "java/lang/Error"])


# ---- over in memory

def arguments_many(folder, scale):
    """A class of 15,900 descriptors of methods with 255 ints each, which has a method with code: 4.2 MB."""
    made = ClassFile("Main")
    made.main()
    for k in range(scaled(scale, 15900)):
        made.constant(("d", k), u1(1) + u2(258) + b"(" + b"I" * 255 + b")V")
    made.write(folder)


def names_described(made, most):
    """So many bytes of descriptors of methods with 255 classes each, no two alike, of names of three letters."""
    letters = [bytes([c]) for c in range(33, 128) if chr(c) not in ".;[/"]
    letters += [bytes([c]) for c in range(1, 30)]
    names = (a + b + c for a in letters for b in letters for c in letters)
    size, k = 0, 0
    while True:
        text = b"(" + b"".join(b"L" + name + b";" for _, name in zip(range(255), names)) + b")V"
        if size + len(text) + 3 > most:
            return
        size += len(text) + 3
        k += 1
        made.constant(("d", k), u1(1) + u2(len(text)) + text)


def names_many(folder, scale, above="java/lang/Object"):
    """Descriptors of methods with 255 classes each, no two alike, of names of three letters: 830,000 names in one class of 4.2 MB, which
    has a method with code."""
    made = ClassFile("Main", above)
    made.main()
    names_described(made, scaled(scale, 4190000))
    made.write(folder)


def names_below_chain(folder, scale):
    """names_many below a chain of 1,023 classes."""
    chain(folder, 1023)
    names_many(folder, scale, "C1022")


def names_and_frames(folder, scale, above=None):
    """A chain of 1,000 classes, below which one has 1.95 MB of descriptors as in names_many, and a method of 8,000 branches to 33 frames of
    65,535 entries that share none, in turn."""
    if above is None:
        chain(folder, 1000)
    made = ClassFile("Main", above or "C999")
    made.main()
    names_described(made, scaled(scale, 1950000))
    count, targets, entries = 8000, 33, 65535
    at = 4 * count
    code = b"".join(branch(at + k % targets, 4 * k) for k in range(count)) + bytes([177]) * targets
    spelled = b""
    for n in range(targets):
        begin = [INT if n >> bit & 1 else TOP for bit in range(6)]
        spelled += full(at if n == 0 else 0, begin + [TOP] * (entries - 6), [])
    made.method(9, "m", "(IIIIII)V", 1, 65535, code, b"", (targets, spelled))
    made.write(folder)


def few_methods(made, count):
    kinds = ["(" + "[" * k + "I)V" for k in range(23)]
    made.flags = 0x421
    for k in range(count):
        made.declare(0x401, chr(65 + k // 23), kinds[k % 23])


def methods_and_names(folder, scale):
    """A chain of 1,023 classes of 540 abstract methods each, and the last class of names_and_frames below it."""
    chain(folder, 1023, lambda made, n: few_methods(made, 540))
    names_and_frames(folder, scale, "C1022")


def methods_at_powers(folder, scale):
    """1,024 classes of 529 abstract methods each: a little more than fills a table of marks of half the size."""
    for c in range(scaled(scale, 1024)):
        made = ClassFile("Main" if c == 0 else f"M{c}")
        made.main()
        few_methods(made, 529)
        made.write(folder)


def methods_short(folder, scale):
    """1,020 classes of 1,000 abstract methods each."""
    for c in range(scaled(scale, 1020)):
        made = ClassFile("Main" if c == 0 else f"M{c}", flags=0x421)
        made.main()
        for n in range(1000):
            made.declare(0x401, f"m{n % 32}", "(" + "[" * (n // 32) + "I)V")
        made.write(folder)


def texts_empty(folder, scale, classes=60):
    """60 classes of 65,000 empty Utf8 constants each."""
    for c in range(classes):
        made = ClassFile("Main" if c == 0 else f"M{c}")
        made.main()
        for k in range(scaled(scale, 65000)):
            made.constant(("d", k), u1(1) + u2(0))
        made.write(folder)


def texts_and_names(folder, scale):
    """A chain of 1,000 classes, 23 classes of 65,000 empty Utf8 constants each, and names_many below the chain."""
    chain(folder, 1000)
    for c in range(23):
        made = ClassFile(f"M{c}")
        for k in range(scaled(scale, 65000)):
            made.constant(("d", k), u1(1) + u2(0))
        made.write(folder)
    names_many(folder, scale, "C999")


# ---- under the goal, and near it

def below_finals(folder, scale, package, finals, classes):
    """So many classes of 65,000 abstract methods each below a chain of 1,000 classes of a package, of which the one with a number has final
    methods of names."""
    count, given = 1000, descriptors(1024)
    for n in range(count):
        made = ClassFile(f"{package}C{n}", f"{package}C{n - 1}" if n else "java/lang/Object", 0x421)
        for k, name in enumerate(finals(n)):
            made.method(0x10, name, given[k % 1024], 0, 24, bytes([177]))
        made.write(folder)
    for c in range(classes):
        made = ClassFile("Main" if c == 0 else f"M{c}", f"{package}C{count - 1}", 0x421)
        made.main()
        for k in range(scaled(scale, 65000)):
            made.declare(0x401, f"m{k // 1024}", given[k % 1024])
        made.write(folder)


def finals_of_empty(folder, scale):
    """14 classes of 65,000 abstract methods each below a chain of 1,000 classes without methods, whose highest has 12,000 final methods for
    its package alone, in which the chain is."""
    below_finals(folder, scale, "q/", lambda n: [f"m{k // 1024}" for k in range(12000 if n == 0 else 0)], 14)


def finals_of_same(folder, scale):
    """finals_of_empty where the highest class has 65,000 final methods, of the same names as the 14 classes."""
    below_finals(folder, scale, "q/", lambda n: [f"m{k // 1024}" for k in range(65000 if n == 0 else 0)], 14)


def finals_in_many(folder, scale):
    """8 classes of 65,000 abstract methods each below a chain of 1,000 classes in their package, of which 130 have 3,800 final methods
    each, of other names."""
    below_finals(folder, scale, "", lambda n: [f"f{n}n{k // 1024}" for k in range(3800 if n < 130 else 0)], 8)


def walked_plain(folder, scale):
    """references_often with 24 classes: 63,000 references each to methods that are not there, below a chain of 1,000."""
    given = descriptors(40)
    chain(folder, 1000)
    for c in range(scaled(scale, 24)):
        made = ClassFile("Main" if c == 0 else f"M{c}", "C999")
        made.main()
        for k in range(63000):
            made.called("C999", f"n{k % 50}", given[k // 50 % 40], 10, k)
        made.write(folder)


def walked_found(folder, scale):
    """24 classes below a chain of 1,000 with 65,000 references each to one protected method of its highest class, whose name has 300
    bytes."""
    for n in range(1000):
        made = ClassFile(f"C{n}", f"C{n - 1}" if n else "java/lang/Object", 0x421)
        if n == 0:
            made.declare(0x404, "f" * 300, "()V")
        made.write(folder)
    for c in range(scaled(scale, 24)):
        made = ClassFile("Main" if c == 0 else f"M{c}", "C999", 0x421)
        made.main()
        for k in range(65000):
            made.called("C999", "f" * 300, "()V", 10, k)
        made.write(folder)


def params_tiny(folder, scale):
    """Two classes of 65,000 methods of a branch and a return with 255 parameters, arrays, a frame of the map, and by turns 256 and 255
    local variables."""
    kinds = ["(" + "".join(("[I", "[[I")[k >> bit & 1] for bit in range(8)) + "[I" * 247 + ")V" for k in range(250)]
    for c in range(2):
        made = ClassFile("Main" if c == 0 else f"M{c}")
        made.main()
        for n in range(scaled(scale, 65000)):
            made.method(9, f"m{n // 250}", kinds[n % 250], 1, 256 - n % 2, bytes([3, 153, 0, 3, 177]), b"", (1, u1(4)))
        made.write(folder)


def classes_few(folder, scale, methods=45):
    """A tableswitch of 15,500 targets to 60 frames of 31 local entries and 31 items of classes far up a chain of 950, from as many of
    classes far down; in 45 methods."""
    chain(folder, 950)
    made = ClassFile("Main", "C949")
    made.main()
    count, targets = 15500, 60
    end = 2 + len(switch(2, [0] * count))
    code = bytes([177, 3]) + switch(2, [end + k % targets for k in range(count)]) + bytes([177]) * targets
    spelled = full(1, [object_of(made, f"C{949 - k}") for k in range(31)], [object_of(made, f"C{918 - k}") for k in range(31)])
    for k in range(targets):
        spelled += full(end - 2 if k == 0 else 0, [object_of(made, f"C{(k * 62 + n * 14) % 880}") for n in range(31)],
                        [object_of(made, f"C{(k * 31 + n * 14) % 880}") for n in range(31)])
    for n in range(scaled(scale, methods)):
        made.method(9, f"m{n}", "()V", 32, 31, code, b"", (1 + targets, spelled))
    made.write(folder)


def supers_all(folder, scale):
    """1,023 interfaces, each below all before it."""
    interfaces(folder, scaled(scale, 1023), lambda n: range(n))


def fields_short(folder, scale):
    """16 classes of 65,000 fields each."""
    for c in range(16):
        made = ClassFile("Main" if c == 0 else f"M{c}")
        made.main()
        for n in range(scaled(scale, 65000)):
            made.field(1, f"m{n // 250}", "[" * (n % 250) + "I")
        made.write(folder)


SHAPES = [
    new_high, stores_high, framed_stores, locals_by_turns, long_by_interfaces, long_by_copies, long_by_many, handlers_begin_in_turn,
    refused_handlers_and_stores,
    refused_handlers_in_turn, refused_start_in_turn, start_at_random, start_at_random_far, handlers_in_turn, handlers_alike, handlers_by_turns,
    arguments_many, names_many, names_below_chain, names_and_frames, methods_and_names, methods_at_powers, methods_short, texts_empty,
    texts_and_names, finals_of_empty, finals_of_same, finals_in_many, walked_plain, walked_found, params_tiny, classes_few, supers_all,
    fields_short,
]


if __name__ == "__main__":
    write(sys.argv[1], float(sys.argv[2]), sys.argv[3:], SHAPES)
