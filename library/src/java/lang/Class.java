package java.lang;

import host.Io;

/** A class by its name, one object for each. There are no literals of classes. */
public final class Class<T> implements java.io.Serializable {
    // The classes that were asked for, the last one first.
    private static Class<?> first;

    // The bytes of its name in internal form, none where it is of arrays.
    private final int[] bytes;
    private final String name;
    private Class<?> next;

    private Class(int[] bytes, String name, Class<?> next) {
        this.bytes = bytes;
        this.name = name;
        this.next = next;
    }

    public static Class<?> of(Object o) {
        Class<?> before = null;
        for (Class<?> c = first; c != null; c = c.next) {
            if (c.isOf(o)) {
                if (before != null) {
                    before.next = c.next;
                    c.next = first;
                    first = c;
                }
                return c;
            }
            before = c;
        }
        int[] bytes = ObjectMembers.nameBytes(o);
        first = new Class<Object>(bytes, ObjectMembers.className(o), first);
        return first;
    }

    // Names of one program begin alike more often than they end alike.
    private boolean isOf(Object o) {
        int[] bytes = this.bytes;
        int at = bytes.length;
        if (Io.className(o, at) >= 0) {
            return false;
        }
        while (--at >= 0) {
            if (Io.className(o, at) != bytes[at]) {
                return false;
            }
        }
        return bytes.length > 0 || name.equals(ObjectMembers.arrayName(o));
    }

    public String getName() {
        return name;
    }

    public String getSimpleName() {
        if (name.charAt(0) == '[') {
            return arrayName();
        }
        // Of a class in another what stands behind the last `$`, without the number of one that stands in a method.
        int start = Math.max(name.lastIndexOf('.'), name.lastIndexOf('$')) + 1;
        if (start > 0 && name.charAt(start - 1) == '$') {
            while (start < name.length() && name.charAt(start) >= '0' && name.charAt(start) <= '9') {
                start++;
            }
        }
        return name.substring(start);
    }

    public boolean isArray() {
        return name.charAt(0) == '[';
    }

    private String arrayName() {
        switch (name.charAt(1)) {
            case 'I':
                return "int[]";
            case 'J':
                return "long[]";
            case 'C':
                return "char[]";
            case 'B':
                return "byte[]";
            case 'S':
                return "short[]";
            case 'Z':
                return "boolean[]";
            default:
                return name.substring(name.lastIndexOf('.') + 1, name.length() - 1).concat("[]");
        }
    }

    public String toString() {
        return "class ".concat(name);
    }
}
