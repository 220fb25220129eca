package java.lang;

/** What can be thrown. It has one field here, so the cause stands in a list beside. Of the calls that led to it nothing is known. */
public class Throwable implements java.io.Serializable {
    private String message;

    public Throwable() {
    }

    public Throwable(String message) {
        this.message = message;
    }

    public Throwable(String message, Throwable cause) {
        this.message = message;
        Causes.put(this, cause);
    }

    protected Throwable(String message, Throwable cause, boolean suppresses, boolean hasTrace) {
        this(message, cause);
    }

    public Throwable(Throwable cause) {
        if (cause != null) {
            this.message = cause.toString();
        }
        Causes.put(this, cause);
    }

    public String getMessage() {
        return message;
    }

    public String getLocalizedMessage() {
        return getMessage();
    }

    public Throwable getCause() {
        return Causes.of(this);
    }

    public Throwable initCause(Throwable cause) {
        if (Causes.has(this)) {
            throw new IllegalStateException("Can't overwrite cause with ".concat(cause == null ? "a null" : cause.toString()), this);
        }
        if (cause == this) {
            throw new IllegalArgumentException("Self-causation not permitted", this);
        }
        Causes.put(this, cause);
        return this;
    }

    public String toString() {
        String name = ObjectMembers.className(this);
        String said = getLocalizedMessage();
        return said == null ? name : name.concat(": ").concat(said);
    }

    public void printStackTrace() {
        printStackTrace(System.err);
    }

    /** The class and the message, and so of each cause. */
    public void printStackTrace(java.io.PrintStream out) {
        out.println(this);
        for (Throwable t = getCause(); t != null; t = t.getCause()) {
            out.println("Caused by: ".concat(t.toString()));
        }
    }

    public final void addSuppressed(Throwable other) {
        Causes.suppress(this, other);
    }

    public final Throwable[] getSuppressed() {
        return Causes.suppressed(this);
    }

    public Throwable fillInStackTrace() {
        return this;
    }

    public void printStackTrace(java.io.PrintWriter out) {
        out.println(this);
        for (Throwable t = getCause(); t != null; t = t.getCause()) {
            out.println("Caused by: ".concat(t.toString()));
        }
    }

    /** Nothing is known of the calls: the array is empty. */
    public StackTraceElement[] getStackTrace() {
        return new StackTraceElement[0];
    }

    public void setStackTrace(StackTraceElement[] trace) {
    }
}
