import java.util.Arrays;
import java.util.Random;

/** The ways to sort that every course has, each over the same numbers, with what each of them compares and moves. */
public class Sorters {
    static abstract class Sorter {
        protected int compared;
        protected int moved;

        abstract String name();

        abstract void sort(int[] a);

        protected boolean less(int x, int y) {
            compared++;
            return x < y;
        }

        protected void swap(int[] a, int i, int j) {
            int kept = a[i];
            a[i] = a[j];
            a[j] = kept;
            moved += 2;
        }
    }

    static class Bubble extends Sorter {
        String name() { return "bubble"; }

        void sort(int[] a) {
            boolean swapped = true;
            for (int end = a.length - 1; swapped && end > 0; end--) {
                swapped = false;
                for (int i = 0; i < end; i++) {
                    if (less(a[i + 1], a[i])) {
                        swap(a, i, i + 1);
                        swapped = true;
                    }
                }
            }
        }
    }

    static class Selection extends Sorter {
        String name() { return "selection"; }

        void sort(int[] a) {
            for (int i = 0; i < a.length - 1; i++) {
                int least = i;
                for (int j = i + 1; j < a.length; j++) if (less(a[j], a[least])) least = j;
                if (least != i) swap(a, i, least);
            }
        }
    }

    static class Insertion extends Sorter {
        String name() { return "insertion"; }

        void sort(int[] a) {
            for (int i = 1; i < a.length; i++) {
                int x = a[i], j = i - 1;
                while (j >= 0 && less(x, a[j])) {
                    a[j + 1] = a[j--];
                    moved++;
                }
                a[j + 1] = x;
            }
        }
    }

    static class Shell extends Sorter {
        String name() { return "shell"; }

        void sort(int[] a) {
            for (int gap = a.length / 2; gap > 0; gap /= 2) {
                for (int i = gap; i < a.length; i++) {
                    for (int j = i; j >= gap && less(a[j], a[j - gap]); j -= gap) swap(a, j, j - gap);
                }
            }
        }
    }

    static class Merge extends Sorter {
        String name() { return "merge"; }

        void sort(int[] a) {
            sort(a, new int[a.length], 0, a.length);
        }

        private void sort(int[] a, int[] room, int from, int to) {
            if (to - from < 2) return;
            int middle = (from + to) >>> 1;
            sort(a, room, from, middle);
            sort(a, room, middle, to);
            System.arraycopy(a, from, room, from, to - from);
            for (int k = from, i = from, j = middle; k < to; k++) {
                a[k] = j == to || i < middle && !less(room[j], room[i]) ? room[i++] : room[j++];
                moved++;
            }
        }
    }

    static class Quick extends Sorter {
        String name() { return "quick"; }

        void sort(int[] a) { sort(a, 0, a.length - 1); }

        private void sort(int[] a, int low, int high) {
            if (low >= high) return;
            int pivot = a[(low + high) / 2], i = low, j = high;
            while (i <= j) {
                while (less(a[i], pivot)) i++;
                while (less(pivot, a[j])) j--;
                if (i <= j) swap(a, i++, j--);
            }
            sort(a, low, j);
            sort(a, i, high);
        }
    }

    static class Heap extends Sorter {
        String name() { return "heap"; }

        void sort(int[] a) {
            for (int i = a.length / 2 - 1; i >= 0; i--) sink(a, i, a.length);
            for (int end = a.length - 1; end > 0; end--) {
                swap(a, 0, end);
                sink(a, 0, end);
            }
        }

        private void sink(int[] a, int at, int end) {
            int child;
            while ((child = 2 * at + 1) < end) {
                if (child + 1 < end && less(a[child], a[child + 1])) child++;
                if (!less(a[at], a[child])) return;
                swap(a, at, child);
                at = child;
            }
        }
    }

    static class Radix extends Sorter {
        String name() { return "radix"; }

        void sort(int[] a) {
            int[] room = new int[a.length];
            for (int shift = 0; shift < 32; shift += 8) {
                int[] counts = new int[257];
                for (int x : a) counts[((x ^ 0x80000000) >>> shift & 0xFF) + 1]++;
                for (int i = 0; i < 256; i++) counts[i + 1] += counts[i];
                for (int x : a) room[counts[(x ^ 0x80000000) >>> shift & 0xFF]++] = x;
                System.arraycopy(room, 0, a, 0, a.length);
                moved += 2 * a.length;
            }
        }
    }

    public static void main(String[] args) {
        Random random = new Random(2024);
        int[] numbers = new int[120];
        for (int i = 0; i < numbers.length; i++) numbers[i] = random.nextInt(2000) - 1000;
        int[] wanted = numbers.clone();
        Arrays.sort(wanted);
        Sorter[] sorters = {new Bubble(), new Selection(), new Insertion(), new Shell(), new Merge(), new Quick(), new Heap(), new Radix()};
        System.out.printf("%-10s|%9s|%7s|%n", "sorter", "compared", "moved");
        System.out.println("----------+---------+-------+");
        for (Sorter sorter : sorters) {
            int[] a = Arrays.copyOf(numbers, numbers.length);
            sorter.sort(a);
            System.out.printf("%-10s|%9d|%7d| %s%n", sorter.name(), sorter.compared, sorter.moved, Arrays.equals(a, wanted) ? "sorted"
                : "WRONG");
        }
        System.out.println(Arrays.toString(Arrays.copyOfRange(wanted, 0, 8)) + " .. " + wanted[wanted.length - 1]);
        System.out.println("where 0 would stand: " + Arrays.binarySearch(wanted, 0) + ", hash " + Arrays.hashCode(wanted));
    }
}
