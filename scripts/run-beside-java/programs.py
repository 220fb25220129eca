"""Random programs in Java's integer profile: fields and arrays of every type, arithmetic, loops, switches, exceptions, constructors that
call what is overridden, default methods, and initializers that tell when they run. Each is a package with a class Main."""
import random

INTS = ["boolean", "byte", "char", "short", "int", "long"]
NUMBERS = ["byte", "char", "short", "int", "long"]
EDGES = [0, 1, -1, 2, 3, 7, 8, 31, 32, 33, 63, 64, 127, 128, 255, 256, -128, -129, 32767, 32768, -32768, 65535, 65536, 2147483647, -2147483648]
LONG_EDGES = EDGES + [2147483648, 4294967295, 4294967296, 9223372036854775807, -9223372036854775808, -4294967297]
CAUGHT = [
    "ArithmeticException", "ArrayIndexOutOfBoundsException", "NullPointerException", "ClassCastException", "NegativeArraySizeException",
    "ArrayStoreException", "RuntimeException", "Exception", "Throwable", "Own", "IllegalStateException", "IndexOutOfBoundsException",
    "StackOverflowError", "Error", "LinkageError",
]


NAMES = [
    "Own", "ArithmeticException", "ArrayIndexOutOfBoundsException", "IndexOutOfBoundsException", "NullPointerException", "ClassCastException",
    "NegativeArraySizeException", "ArrayStoreException", "IllegalStateException", "RuntimeException", "Exception", "StackOverflowError",
    "OutOfMemoryError", "ExceptionInInitializerError", "NoClassDefFoundError", "AbstractMethodError", "IncompatibleClassChangeError",
    "LinkageError", "Error",
]


def kept(text):
    """Statements, and what is thrown by them told."""
    return "try {\n%s} catch (Throwable caught) { outName(caught); }\n" % text


class Program:
    def __init__(self, seed, package):
        self.pick = random.Random(seed)
        self.package = package
        self.count = self.pick.randint(2, 5)
        self.interfaces = self.pick.randint(1, 4)

    # ---- expressions

    def constant(self, type):
        if type == "boolean":
            return self.pick.choice(["true", "false"])
        if type == "long":
            return "(%dL)" % self.pick.choice(LONG_EDGES + [self.pick.randint(-(1 << 63), (1 << 63) - 1)])
        number = self.pick.choice(EDGES + [self.pick.randint(-(1 << 31), (1 << 31) - 1)])
        return "(%d)" % number if type == "int" else "((%s) (%d))" % (type, number)

    def leaf(self, type, scope):
        own = [name for name, its in scope.items() if its == type]
        if own and self.pick.random() < 0.7:
            return self.pick.choice(own)
        return self.constant(type)

    def expression(self, type, scope, depth=3):
        pick = self.pick
        if depth == 0 or pick.random() < 0.15:
            return self.leaf(type, scope)
        deeper = lambda other: self.expression(other, scope, depth - 1)
        if type == "boolean":
            how = pick.randrange(6)
            if how == 0:
                return "(%s %s %s)" % (deeper("int"), pick.choice(["<", "<=", ">", ">=", "==", "!="]), deeper("int"))
            if how == 1:
                return "(%s %s %s)" % (deeper("long"), pick.choice(["<", "<=", ">", ">=", "==", "!="]), deeper("long"))
            if how == 2:
                return "(%s %s %s)" % (deeper("boolean"), pick.choice(["&&", "||", "&", "|", "^", "==", "!="]), deeper("boolean"))
            if how == 3:
                return "!%s" % deeper("boolean")
            if how == 4:
                return "(object(%s) instanceof %s)" % (deeper("int"), self.class_name())
            return "(%s ? %s : %s)" % (deeper("boolean"), deeper("boolean"), deeper("boolean"))
        if type in ("byte", "char", "short"):
            return "((%s) %s)" % (type, deeper(pick.choice(["int", "long", "int", "byte", "char", "short"])))
        wide = type
        how = pick.randrange(14)
        if how < 5:
            return "(%s %s %s)" % (deeper(wide), pick.choice(["+", "-", "*", "&", "|", "^"]), deeper(wide))
        if how == 5:
            return "(%s %s %s)" % (deeper(wide), pick.choice(["/", "%"]), deeper(wide))
        if how == 6:
            return "(%s %s %s)" % (deeper(wide), pick.choice(["<<", ">>", ">>>"]), deeper(pick.choice(["int", "long", "int"])))
        if how == 7:
            return "(%s(%s))" % (pick.choice(["-", "~", "+"]), deeper(wide))
        if how == 8:
            return "((%s) %s)" % (wide, deeper(pick.choice(NUMBERS)))
        if how == 9:
            return "(%s ? %s : %s)" % (deeper("boolean"), deeper(wide), deeper(wide))
        if how == 10:
            return "%s(%s, %s)" % ("callLong" if wide == "long" else "callInt", deeper("int"), deeper("long"))
        if how == 11 and wide == "int":
            return pick.choice(["text(%s).length()", "text(%s).charAt(%s & 3)", "text(%s).hashCode()"]).replace("%s", deeper("int"))
        if how == 12:
            return "object(%s).%s(%s)" % (deeper("int"), "far" if wide == "long" else "near", deeper("int"))
        if how == 13 and wide == "int":
            return "bits[%s & 7]" % deeper("int") if pick.random() < 0.8 else "bits[%s]" % deeper("int")
        return self.leaf(wide, scope)

    def class_name(self):
        return self.pick.choice(["C%d" % it for it in range(self.count)] + ["I%d" % it for it in range(self.interfaces)])

    # ---- statements

    def block(self, scope, depth, loop, returns):
        inner = dict(scope)
        return "{\n" + "".join(self.statement(inner, depth, loop, returns) for _ in range(self.pick.randint(1, 4))) + "}\n"

    def assigned(self, scope):
        return [name for name in scope if not name.startswith("k") and "." not in name and name != "a" and name != "b"]

    def statement(self, scope, depth, loop, returns):
        pick = self.pick
        how = pick.randrange(18)
        if how < 3 or depth == 0:
            type = pick.choice(INTS)
            name = "v%d" % len(scope)
            text = "%s %s = %s;\n" % (type, name, self.expression(type, scope))
            scope[name] = type
            return text
        if how < 6:
            name = pick.choice(self.assigned(scope) or ["sum"])
            type = scope.get(name, "int")
            if type == "boolean" or pick.random() < 0.4:
                return "%s = %s;\n" % (name, self.expression(type, scope))
            if pick.random() < 0.3:
                return pick.choice(["%s++;\n", "--%s;\n", "%s += 3;\n"]) % name
            operator = pick.choice(["+=", "-=", "*=", "&=", "|=", "^=", "<<=", ">>=", ">>>=", "/=", "%="])
            return "%s %s %s;\n" % (name, operator, self.expression(pick.choice(["int", "long"]), scope))
        if how == 6:
            return "out(%s);\n" % self.expression("int", scope)
        if how == 7:
            return "outLong(%s);\n" % self.expression("long", scope)
        if how == 8:
            text = "if (%s) %s" % (self.expression("boolean", scope), self.block(scope, depth - 1, loop, returns))
            return text + ("else " + self.block(scope, depth - 1, loop, returns) if pick.random() < 0.5 else "")
        if how == 9:
            name = "k%d" % len(scope)
            inner = dict(scope)
            inner[name] = "int"
            return "for (int %s = 0; %s < %d; %s++) %s" % (name, name, pick.randint(1, 4), name, self.block(inner, depth - 1, True, returns))
        if how == 10:
            keys = pick.sample(EDGES if pick.random() < 0.5 else list(range(-3, 9)), pick.randint(1, 6))
            arms = "".join("case %d: %s%s" % (key, self.block(scope, depth - 1, False, returns), pick.choice(["break;\n", "break;\n", ""]))
                           for key in keys)
            return "switch (%s) {\n%s%s}\n" % (self.expression("int", scope), arms, pick.choice(["", "default: out(9);\n"]))
        if how in (11, 12):
            caught = []
            for name in pick.sample(CAUGHT, pick.randint(1, 3)):
                if not caught:
                    caught.append(name)
            handlers = "".join("catch (%s caught) { out(%d); outName(caught); %s}\n" % (
                name, pick.randrange(256), "throw caught;\n" if pick.random() < 0.1 and name not in ("Exception", "Throwable") else "") for name in caught)
            last = "finally %s" % self.block(scope, depth - 1, False, False) if pick.random() < 0.4 else ""
            return "try %s%s%s" % (self.block(scope, depth - 1, loop, returns), handlers, last)
        if how == 13:
            thrown = pick.choice(["new Own(%s)" % self.expression("int", scope, 1), "new IllegalStateException()", "new ArithmeticException()",
                                  "null"])
            return "if (%s) throw %s;\n" % (self.expression("boolean", scope), "(RuntimeException) null" if thrown == "null" else thrown)
        if how == 14:
            return pick.choice([
                "out(((%s) object(%s)).near(%s));\n" % (self.class_name(), self.expression("int", scope, 1), self.expression("int", scope, 1)),
                "objects[%s & 3] = object(%s);\n" % (self.expression("int", scope, 1), self.expression("int", scope, 1)),
                "out(objects[%s & 3].near(2));\n" % self.expression("int", scope, 1),
                "store(objects, %s);\n" % self.expression("int", scope, 1),
            ])
        if how == 15:
            type = pick.choice(INTS)
            size, at = self.expression("int", scope, 1), self.expression("int", scope, 1)
            name = "v%d" % len(scope)
            shown = {"boolean": "out(%s ? 1 : 0)", "long": "outLong(%s)"}.get(type, "out(%s)")
            return "{ %s[] %s = new %s[%s & 7]; %s[%s & 7] = %s; %s; out(%s.length); }\n" % (
                type, name, type, size, name, at, self.expression(type, scope, 2), shown % ("%s[%s & 7]" % (name, at)), name)
        if how == 16:
            sizes = [self.expression("int", scope, 1) for _ in range(2)]
            return "{ %s[][] grid = new %s[%s & 3][%s & 3]; out(grid.length); %s out(grid[%s & 3].length); }\n" % (
                "int", "int", *sizes, pick.choice(["", "grid[0][0]++; ", "grid[1] = null; ", "grid = new int[2][]; "]), sizes[1])
        if loop and pick.random() < 0.5:
            return "if (%s) %s;\n" % (self.expression("boolean", scope, 1), pick.choice(["break", "continue"]))
        if returns and pick.random() < 0.6:
            return "if (%s) return %s;\n" % (self.expression("boolean", scope, 1), self.expression(returns, scope, 1))
        return "sum += %s;\n" % self.expression("int", scope)

    # ---- classes

    def body(self, scope, returns, depth=3):
        text = "".join(self.statement(scope, depth, False, returns) for _ in range(self.pick.randint(2, 6)))
        return text + ("return %s;\n" % self.expression(returns, scope) if returns else "")

    def class_text(self, at):
        pick = self.pick
        above = " extends C%d" % pick.randrange(at) if at and pick.random() < 0.7 else ""
        listed = pick.sample(range(self.interfaces), pick.randint(0, self.interfaces))
        interfaces = " implements " + ", ".join("I%d" % it for it in (listed or [0]))
        lines = ["class C%d%s%s {" % (at, above, interfaces)]
        scope = {"Main.sum": "int"}
        fields = {}
        for place in range(pick.randint(1, 5)):
            type = pick.choice(INTS)
            name = "f%d_%d" % (at, place)
            static = pick.random() < 0.4
            start = "" if pick.random() < 0.3 else " = %s" % (
                self.constant(type) if pick.random() < 0.4 else self.expression(type, {}, 2))
            final = "final " if static and start and pick.random() < 0.4 else ""
            lines.append("%s%s%s %s%s;" % ("static " if static else "", final, type, name, start))
            if static and not final:
                fields[name] = type
            elif not static:
                fields["this." + name] = type
        tail = lambda: "".join(self.statement(dict({n: t for n, t in fields.items() if "." not in n}), 1, False, None) for _ in range(pick.randint(0, 2)))
        if pick.random() < 0.7:
            lines.append("static { out(%d); %s }" % (100 + at, tail()))
        if pick.random() < 0.4:
            lines.append("{ out(%d); }" % (120 + at))
        lines.append("C%d(int given) { %sout(%d); out(near(given)); }" % (at, "super(given + 1); " if above else "", 140 + at))
        for name, type, returns in (("near", "int", "int"), ("far", "int", "long")):
            own = dict({n: t for n, t in fields.items()})
            own["a"] = "int"
            inner = "" if pick.random() < 0.5 else self.statement(dict({n: t for n, t in own.items() if "." not in n}), 2, False, returns)
            value = self.expression(returns, own, 2)
            more = " + super.%s(a)" % name if above and pick.random() < 0.5 else ""
            lines.append("public %s %s(int a) { if (++Main.depth > 40) { Main.depth -= 40; return a; }\n%sMain.depth--; return %s%s; }" % (
                returns, name, inner, value, more))
        lines.append("}")
        return "\n".join(lines) + "\n"

    def interface_text(self, at):
        pick = self.pick
        above = pick.sample(range(at), pick.randint(0, at))
        extends = " extends " + ", ".join("I%d" % it for it in above) if above else ""
        lines = ["interface I%d%s {" % (at, extends), "int near(int a);", "long far(int a);"]
        if pick.random() < 0.7:
            lines.append("int K%d = Main.told(%d);" % (at, 160 + at))
        lines.append("int L%d = %d;" % (at, pick.choice(EDGES)))
        if pick.random() < 0.7:
            lines.append("default int dflt%d(int a) { out(%d); return near(a) + L%d; }" % (at, 180 + at, at))
        if pick.random() < 0.5:
            lines.append("static int stat%d(int a) { out(%d); return a + 1; }" % (at, 190 + at))
        lines.append("static void out(int v) { Main.out(v); }")
        lines.append("}")
        return "\n".join(lines) + "\n"

    def text(self):
        pick = self.pick
        parts = ["package %s;\n" % self.package]
        interfaces = [self.interface_text(it) for it in range(self.interfaces)]
        classes = [self.class_text(it) for it in range(self.count)]
        scope = {"sum": "int", "far": "long", "small": "byte", "letter": "char", "half": "short", "flag": "boolean"}
        calls = []
        for at, interface in enumerate(interfaces):
            if "K%d" % at in interface and pick.random() < 0.5:
                calls.append("out(I%d.K%d);\n" % (at, at))
            if "stat%d" % at in interface and pick.random() < 0.5:
                calls.append("out(I%d.stat%d(3));\n" % (at, at))
            if "dflt%d" % at in interface:
                calls.append("{ Object o = object(%d); if (o instanceof I%d) out(((I%d) o).dflt%d(5)); }\n" % (pick.randrange(9), at, at, at))
        pick.shuffle(calls)
        calls = [kept(it) if pick.random() < 0.9 else it for it in calls]
        bodies = [self.body(dict(scope), None, 4) for _ in range(pick.randint(1, 4))]
        calls += [kept(it) if len(bodies) > 1 and pick.random() < 0.9 else "{\n" + it + "}\n" for it in bodies]
        makes = "".join("case %d: return new C%d(which);\n" % (it, it) for it in range(self.count))
        parts.append("""public class Main {
static int sum; static long far; static byte small; static char letter; static short half; static boolean flag;
static int depth; static int told; static int made;
static int[] bits = { 1, 2, -4, 8, 16, 0, 64, 128 };
static Both[] objects = new Both[4];
static void out(int v) { if (++told > 3000) throw new Own(1); host.Io.write(v >> 24); host.Io.write(v >> 16); host.Io.write(v >> 8); host.Io.write(v); }
static void outLong(long v) { out((int) (v >> 32)); out((int) v); }
static void outName(Throwable t) { out(%s 5); }
static int told(int v) { out(v); return v; }
static String text(int v) { switch (v & 3) { case 0: return "none"; case 1: return "a longer \\u00e9 text"; case 2: return "\\u0000zero"; default: return "four"; } }
static void store(Object[] into, int at) { into[at & 3] = at > 0 ? (Object) new Own(at) : object(at); }
static Both object(int which) { if (++made > 300) return null; switch ((which & 0x7fffffff) %% %d) {
%sdefault: return null; } }
static int callInt(int a, long b) { if (++depth > 30) { depth -= 30; return a; } int r = bodyInt(a, b); depth--; return r; }
static long callLong(int a, long b) { if (++depth > 30) { depth -= 30; return b; } long r = bodyLong(a, b); depth--; return r; }
static int bodyInt(int a, long b) {
%s}
static long bodyLong(int a, long b) {
%s}
public static void main(String[] arguments) {
%sout(sum); outLong(far); out(small); out(letter); out(half); out(flag ? 1 : 0);
}
}
class Own extends RuntimeException { int code; Own(int given) { code = given; } }
interface Both { int near(int a); long far(int a); }
""" % ("".join("t instanceof %s ? %d : " % (name, 10 + at) for at, name in enumerate(NAMES)), self.count + 1, makes, self.body(dict(scope, a="int", b="long"), "int"), self.body(dict(scope, a="int", b="long"), "long"),
            "".join(calls)))
        for text in interfaces:
            parts.append(text.replace(" {", (", Both {" if "extends" in text.split("{")[0] else " extends Both {"), 1))
        for text in classes:
            head, rest = text.split("\n", 1)
            parts.append(head + "\n" + "static void out(int v) { Main.out(v); }\nstatic void outLong(long v) { Main.outLong(v); }\n"
                         "static void outName(Throwable t) { Main.outName(t); }\nstatic Both object(int w) { return Main.object(w); }\n"
                         "static String text(int v) { return Main.text(v); }\nstatic int[] bits = { 3, 1, 4, 1, 5, 9, 2, 6 };\n"
                         "static Both[] objects = new Both[4];\nstatic int sum;\nstatic void store(Object[] o, int at) { Main.store(o, at); }\n"
                         "static int callInt(int a, long b) { return Main.callInt(a, b); }\n"
                         "static long callLong(int a, long b) { return Main.callLong(a, b); }\n" + rest)
        return "".join(parts)
