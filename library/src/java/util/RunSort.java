package java.util;

/**
 * Merges the runs that there are: equal elements keep their order, and few comparisons are made of what is nearly in order. The comparisons
 * are those of the JDK, so that an order that is none, as one that calls no two elements equal, has the same outcome.
 */
final class RunSort {
    private static final int SHORT = 32;
    private static final int GALLOP = 7;

    private final Object[] a;
    private final Comparator<Object> order;
    /** Where the runs that wait begin, and how long they are. */
    private final int[] starts = new int[48];
    private final int[] lengths = new int[48];
    private int runs;
    private int least = GALLOP;

    /** A merge goes up or down: the shorter run is taken aside, and both move to where there is room. */
    private int step;
    private Object[] aside = {};
    private int at;
    private int left;
    private int other;
    private int otherLeft;
    private int to;

    private RunSort(Object[] a, Comparator<Object> order) {
        this.a = a;
        this.order = order;
    }

    static void sort(Object[] a, int from, int to, Comparator<Object> order) {
        if (to - from > 1) {
            new RunSort(a, order).sort(from, to);
        }
    }

    private void sort(int from, int to) {
        int n = to - from;
        int odd = 0;
        while (n >= SHORT) {
            odd |= n & 1;
            n >>= 1;
        }
        int shortest = n + odd;
        int start = from;
        while (start < to) {
            int end = run(start, to);
            int wanted = Math.min(start + shortest, to);
            if (end < wanted) {
                insert(start, end, wanted);
                end = wanted;
            }
            starts[runs] = start;
            lengths[runs] = end - start;
            runs++;
            collapse(false);
            start = end;
        }
        collapse(true);
    }

    /** The end of the run that begins here; one that falls is turned round. */
    private int run(int from, int to) {
        int end = from + 1;
        if (end == to) {
            return end;
        }
        boolean falls = order.compare(a[end], a[from]) < 0;
        end++;
        while (end < to && order.compare(a[end], a[end - 1]) < 0 == falls) {
            end++;
        }
        for (int i = from, j = end - 1; falls && i < j; i++, j--) {
            Object x = a[i];
            a[i] = a[j];
            a[j] = x;
        }
        return end;
    }

    private void insert(int from, int sorted, int to) {
        for (int i = sorted; i < to; i++) {
            Object x = a[i];
            int low = from;
            int high = i;
            while (low < high) {
                int middle = low + high >>> 1;
                if (order.compare(x, a[middle]) < 0) {
                    high = middle;
                } else {
                    low = middle + 1;
                }
            }
            for (int j = i; j > low; j--) {
                a[j] = a[j - 1];
            }
            a[low] = x;
        }
    }

    /** Merges runs until each is longer than the next two, or all. */
    private void collapse(boolean all) {
        while (runs > 1) {
            int n = runs - 2;
            if (all || n > 0 && lengths[n - 1] <= lengths[n] + lengths[n + 1] || n > 1 && lengths[n - 2] <= lengths[n] + lengths[n - 1]) {
                if (n > 0 && lengths[n - 1] < lengths[n + 1]) {
                    n--;
                }
            } else if (lengths[n] > lengths[n + 1]) {
                return;
            }
            mergeAt(n);
        }
    }

    private void mergeAt(int n) {
        int first = starts[n];
        int count = lengths[n];
        int second = starts[n + 1];
        int more = lengths[n + 1];
        lengths[n] = count + more;
        for (int i = n + 1; i < runs - 1; i++) {
            starts[i] = starts[i + 1];
            lengths[i] = lengths[i + 1];
        }
        runs--;
        int there = gallop(a[second], a, first, count, 0, true);
        first += there;
        count -= there;
        if (count > 0) {
            more = gallop(a[first + count - 1], a, second, more, more - 1, false);
        }
        if (count == 0 || more == 0) {
            return;
        }
        boolean up = count <= more;
        step = up ? 1 : -1;
        left = up ? count : more;
        if (aside.length < left) {
            aside = new Object[Math.min(2 * left, a.length)];
        }
        System.arraycopy(a, up ? first : second, aside, 0, left);
        at = up ? 0 : left - 1;
        otherLeft = up ? more : count;
        other = up ? second : first + count - 1;
        to = up ? first : second + more - 1;
        merge(up);
    }

    /** How many of a run come before a key, or also those that are equal; it is sought from a place on, in growing steps. */
    private int gallop(Object key, Object[] of, int base, int count, int hint, boolean equals) {
        int most = equals ? -1 : 0;
        boolean up = order.compare(key, of[base + hint]) > most;
        int bound = up ? count - hint : hint + 1;
        int last = 0;
        int next = 1;
        while (next < bound && order.compare(key, of[base + (up ? hint + next : hint - next)]) > most == up) {
            last = next;
            next = 2 * next + 1;
        }
        next = Math.min(next, bound);
        int low = up ? hint + last + 1 : hint - next + 1;
        int high = up ? hint + next : hint - last;
        while (low < high) {
            int middle = low + (high - low >>> 1);
            if (order.compare(key, of[base + middle]) > most) {
                low = middle + 1;
            } else {
                high = middle;
            }
        }
        return high;
    }

    private int ahead(Object key, Object[] of, int at, int count, boolean equals) {
        return step > 0 ? gallop(key, of, at, count, 0, equals) : count - gallop(key, of, at - count + 1, count, count - 1, equals);
    }

    private void move(Object[] from, int at, int count) {
        if (count > 0) {
            System.arraycopy(from, step > 0 ? at : at - count + 1, a, step > 0 ? to : to - count + 1, count);
            to += step * count;
        }
    }

    private void takeAside(int count) {
        move(aside, at, count);
        at += step * count;
        left -= count;
    }

    private void takeOther(int count) {
        move(a, other, count);
        other += step * count;
        otherLeft -= count;
    }

    private void merge(boolean up) {
        takeOther(1);
        if (otherLeft > 0 && left > 1) {
            while (oneByOne(up) && galloping(up)) {
                least = Math.max(least, 0) + 2;
            }
            least = Math.max(least, 1);
        }
        if (left == 0) {
            throw new IllegalArgumentException("Comparison method violates its general contract!");
        }
        takeOther(otherLeft);
        takeAside(left);
    }

    /** Until one run has come first many times in a row; says whether both have more. */
    private boolean oneByOne(boolean up) {
        int streak = 0;
        boolean wasOther = false;
        Object mine = aside[at];
        Object its = a[other];
        do {
            boolean isOther = (up ? order.compare(its, mine) : order.compare(mine, its)) < 0;
            if (isOther) {
                a[to] = its;
                to += step;
                other += step;
                if (--otherLeft == 0) {
                    return false;
                }
                its = a[other];
            } else {
                a[to] = mine;
                to += step;
                at += step;
                if (--left == 1) {
                    return false;
                }
                mine = aside[at];
            }
            streak = isOther == wasOther ? streak + 1 : 1;
            wasOther = isOther;
        } while (streak < least);
        return true;
    }

    /** As long as many come at once; says whether both have more. */
    private boolean galloping(boolean up) {
        boolean many;
        do {
            many = false;
            for (int half = 0; half < 2; half++) {
                boolean equals = half == 0;
                int count;
                if (equals == up) {
                    count = ahead(a[other], aside, at, left, equals);
                    takeAside(count);
                    if (count > 0 && left <= 1) {
                        return false;
                    }
                    takeOther(1);
                    if (otherLeft == 0) {
                        return false;
                    }
                } else {
                    count = ahead(aside[at], a, other, otherLeft, equals);
                    takeOther(count);
                    if (count > 0 && otherLeft == 0) {
                        return false;
                    }
                    takeAside(1);
                    if (left == 1) {
                        return false;
                    }
                }
                many |= count >= GALLOP;
            }
            least--;
        } while (many);
        return true;
    }
}
