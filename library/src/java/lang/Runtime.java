package java.lang;

/** The machine, of which a program is told nothing: one processor, and no memory that could be measured. */
public class Runtime {
    private static final Runtime RUNTIME = new Runtime();

    private Runtime() {
    }

    public static Runtime getRuntime() {
        return RUNTIME;
    }

    public int availableProcessors() {
        return 1;
    }

    public long freeMemory() {
        return 0;
    }

    public long totalMemory() {
        return 0;
    }

    public long maxMemory() {
        return Long.MAX_VALUE;
    }

    public void gc() {
    }

    public void runFinalization() {
    }

    public void exit(int status) {
        System.exit(status);
    }

    public void halt(int status) {
        System.exit(status);
    }
}
