/** Instance and static fields. */
public class Fields {
    static int rounds;
    int first;
    long second;

    public static void main(String[] arguments) {
        Fields own = new Fields();
        for (int i = 0; i < 30_000_000; i++) {
            own.first += i;
            own.second ^= own.first;
            rounds++;
        }
        host.Io.write(own.first + (int) own.second + rounds);
    }
}
