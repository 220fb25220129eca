package java.lang;

/** A call that led to an exception. There is none of it: the machine doesn't tell them. */
public final class StackTraceElement implements java.io.Serializable {
    private StackTraceElement() {
    }

    public String getClassName() {
        return "";
    }

    public String getMethodName() {
        return "";
    }

    public int getLineNumber() {
        return -1;
    }
}
