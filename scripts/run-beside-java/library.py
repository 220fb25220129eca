"""A program that calls each constructor and method of the system's classes, and writes what they answer: package `library`, class Main."""

TEXTS = ["", "a", "b", "ab", "aa", "hello, world", "hello, World", "\\uffff\\u8000x", "\\u0000", "\\ud83d\\ude00", "\\ude00\\ud83d"]
THROWABLES = [
    "Throwable", "Exception", "Error", "RuntimeException", "ArithmeticException", "ArrayStoreException", "ClassCastException",
    "IllegalArgumentException", "IllegalStateException", "IndexOutOfBoundsException", "NegativeArraySizeException", "NullPointerException",
    "UnsupportedOperationException", "ArrayIndexOutOfBoundsException", "LinkageError", "OutOfMemoryError", "StackOverflowError",
    "ClassCircularityError", "ExceptionInInitializerError", "IncompatibleClassChangeError", "NoClassDefFoundError", "VerifyError",
    "AbstractMethodError", "IllegalAccessError", "InstantiationError", "NoSuchFieldError", "NoSuchMethodError",
]
OTHERS = ["VirtualMachineError", "java.io.Serializable", "Cloneable", "String", "Object[]", "int[]", "java.io.Serializable[]", "Cloneable[]"]
TEXT = """package library;
class Main {
    static final String[] TEXTS = { %s };
    static void out(int v) { host.Io.write(v >> 24); host.Io.write(v >> 16); host.Io.write(v >> 8); host.Io.write(v); }
    static void text(String s) {
        out(s == null ? -1 : s.length());
        for (int i = 0; s != null && i < s.length(); i++) out(s.charAt(i));
    }
    static void strings() {
        for (int k = 0; k < TEXTS.length; k++) {
            text(TEXTS[k]);
            out(TEXTS[k].hashCode());
            for (int j = 0; j < TEXTS.length; j++) out(TEXTS[k].equals(TEXTS[j]) ? 1 : 0);
            out(TEXTS[k].equals(null) ? 1 : 0);
            out(TEXTS[k].equals(new int[1]) ? 1 : 0);
        }
    }
    static void objects() {
        Object[] all = { new Object(), new Object(), new int[1], new Object[1], new String[1][1], "a", new Error() };
        for (int k = 0; k < all.length; k++) {
            for (int j = 0; j < all.length; j++) out(all[k].equals(all[j]) ? 1 : 0);
            out(all[k].equals(null) ? 1 : 0);
            kind(all[k]);
        }
    }
    static void kind(Object o) {
%s    }
    static Throwable with(int k, String message) {
        switch (k) { %s default: return null; }
    }
    static Throwable without(int k) {
        switch (k) { %s default: return null; }
    }
    static void thrown(Throwable made) {
        try { throw made; }
        catch (RuntimeException e) { out(1); text(e.getMessage()); }
        catch (Exception e) { out(2); text(e.getMessage()); }
        catch (LinkageError e) { out(3); text(e.getMessage()); }
        catch (Error e) { out(4); text(e.getMessage()); }
        catch (Throwable e) { out(5); text(e.getMessage()); }
        kind(made);
    }
    public static void main(String[] arguments) {
        strings();
        objects();
        for (int k = 0; k < %d; k++) { thrown(with(k, "why")); thrown(with(k, null)); thrown(without(k)); }
    }
}
"""


def text():
    """The program's source."""
    kinds = "".join("        out(o instanceof %s ? 1 : 0);\n" % it for it in THROWABLES + OTHERS)
    with_message = " ".join("case %d: return new %s(message);" % it for it in enumerate(THROWABLES))
    without = " ".join("case %d: return new %s();" % it for it in enumerate(THROWABLES))
    return TEXT % (", ".join('"%s"' % it for it in TEXTS), kinds, with_message, without, len(THROWABLES))
