/** A heapsort of an array of longs. */
public class Heap {
    static void sink(long[] heap, int place, int count) {
        long value = heap[place];
        while (2 * place + 1 < count) {
            int child = 2 * place + 1;
            if (child + 1 < count && heap[child + 1] > heap[child]) {
                child++;
            }
            if (heap[child] <= value) {
                break;
            }
            heap[place] = heap[child];
            place = child;
        }
        heap[place] = value;
    }

    static void sort(long[] values) {
        for (int i = values.length / 2 - 1; i >= 0; i--) {
            sink(values, i, values.length);
        }
        for (int last = values.length - 1; last > 0; last--) {
            long greatest = values[0];
            values[0] = values[last];
            values[last] = greatest;
            sink(values, 0, last);
        }
    }

    public static void main(String[] arguments) {
        long[] values = new long[200_000];
        long sum = 0;
        for (int round = 0; round < 3; round++) {
            long seed = 88_172_645_463_325_252L + round;
            for (int i = 0; i < values.length; i++) {
                seed ^= seed << 13;
                seed ^= seed >>> 7;
                seed ^= seed << 17;
                values[i] = seed;
            }
            sort(values);
            sum = sum * 31 + values[100_000];
        }
        host.Io.write((int) sum);
        host.Io.write((int) (sum >>> 32));
    }
}
