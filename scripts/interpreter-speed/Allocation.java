/** Objects and arrays that are made; no cell comes back, so there are as many as the largest budget allows. */
public class Allocation {
    Allocation next;
    int value;

    Allocation(Allocation next, int value) {
        this.next = next;
        this.value = value;
    }

    public static void main(String[] arguments) {
        Allocation list = null;
        for (int i = 0; i < 3_000_000; i++) {
            list = new Allocation(list, i);
        }
        int sum = 0;
        for (Allocation at = list; at != null; at = at.next) {
            sum += at.value;
        }
        host.Io.write(sum);
    }
}
