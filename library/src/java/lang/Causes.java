package java.lang;

/** The causes of what was thrown, and what was suppressed meanwhile: in lists, the last first. Public, since Throwable is elsewhere. */
public final class Causes {
    private static Causes causes;
    private static Causes suppressed;

    private final Throwable of;
    private final Throwable other;
    private final Causes next;

    private Causes(Throwable of, Throwable other, Causes next) {
        this.of = of;
        this.other = other;
        this.next = next;
    }

    public static void put(Throwable of, Throwable cause) {
        causes = new Causes(of, cause, causes);
    }

    private static Causes find(Throwable of) {
        Causes c = causes;
        while (c != null && c.of != of) {
            c = c.next;
        }
        return c;
    }

    /** A cause was given, if only null. */
    public static boolean has(Throwable of) {
        return find(of) != null;
    }

    public static Throwable of(Throwable t) {
        Causes c = find(t);
        return c == null ? null : c.other;
    }

    public static void suppress(Throwable of, Throwable other) {
        if (other == of) {
            throw new IllegalArgumentException("Self-suppression not permitted", of);
        }
        if (other == null) {
            throw new NullPointerException("Cannot suppress a null exception.");
        }
        suppressed = new Causes(of, other, suppressed);
    }

    public static Throwable[] suppressed(Throwable of) {
        int n = 0;
        for (Causes c = suppressed; c != null; c = c.next) {
            if (c.of == of) {
                n++;
            }
        }
        Throwable[] all = new Throwable[n];
        for (Causes c = suppressed; c != null; c = c.next) {
            if (c.of == of) {
                n--;
                all[n] = c.other;
            }
        }
        return all;
    }
}
