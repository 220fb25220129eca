package java.io;

/** A writer of one char at a time, which keeps none back. */
abstract class CharWriter extends Writer {
    public abstract void write(int c) throws IOException;

    public void write(char[] chars, int at, int count) throws IOException {
        for (int i = 0; i < count; i++) {
            write(chars[at + i]);
        }
    }

    public void write(String text, int at, int count) throws IOException {
        for (int i = 0; i < count; i++) {
            write(text.charAt(at + i));
        }
    }
}
