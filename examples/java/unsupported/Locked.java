import host.Io;

/** Outside the profile: a synchronized method, and a block with its monitor instructions. */
public class Locked {
    private int count;

    public static void main(String[] arguments) {
        Locked locked = new Locked();
        locked.count();
        synchronized (locked) {
            Io.write('0' + locked.count);
        }
    }

    private synchronized void count() {
        count++;
    }
}
