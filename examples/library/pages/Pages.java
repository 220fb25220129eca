import java.util.*;

/** Pages and windows of lists: parts of parts, what they may and what they refuse, long cuts. */
public class Pages {
    static <T> List<List<T>> pages(List<T> all, int size) {
        List<List<T>> out = new ArrayList<>();
        for (int i = 0; i < all.size(); i += size) out.add(all.subList(i, Math.min(i + size, all.size())));
        return out;
    }
    static void merge(List<Integer> l) {
        if (l.size() < 2) return;
        List<Integer> a = new LinkedList<>(l.subList(0, l.size() / 2)), b = new LinkedList<>(l.subList(l.size() / 2, l.size()));
        merge(a); merge(b);
        l.clear();
        while (!a.isEmpty() && !b.isEmpty()) l.add(a.get(0) <= b.get(0) ? a.remove(0) : b.remove(0));
        l.addAll(a); l.addAll(b);
    }
    static void told(String what, Runnable r) {
        try {
            r.run();
            System.out.println(what + ": done");
        } catch (ConcurrentModificationException e) {
            System.out.println(what + ": changed meanwhile");
        } catch (RuntimeException e) {
            System.out.println(what + ": " + e.getMessage());
        }
    }
    public static void main(String[] args) {
        final List<Integer> l = new ArrayList<>();
        for (int i = 0; i < 17; i++) l.add(i * 7 % 17);
        System.out.println(pages(l, 5));
        List<Integer> mid = l.subList(4, 12);
        merge(mid);
        System.out.println(l + " " + mid);
        Collections.reverse(mid.subList(2, 6));
        mid.subList(0, 2).addAll(Arrays.asList(100, 200, 300));
        System.out.println(mid + " " + mid.size() + " " + l.size());
        Iterator<Integer> it = mid.iterator();
        while (it.hasNext()) if (it.next() >= 100) it.remove();
        mid.addAll(1, Collections.nCopies(2, -1));
        mid.removeAll(Arrays.asList(-1, 3)); mid.retainAll(new HashSet<>(l));
        System.out.println(mid + " " + mid.indexOf(9) + " " + l.lastIndexOf(9) + " " + mid.equals(new ArrayList<>(mid)));
        final List<Integer> part = l.subList(1, 4);
        told("get", new Runnable() { public void run() { part.get(3); } });
        told("set", new Runnable() { public void run() { part.set(-1, 0); } });
        told("add", new Runnable() { public void run() { part.add(9, 0); } });
        told("part", new Runnable() { public void run() { part.subList(2, 1); } });
        l.add(99);
        told("size", new Runnable() { public void run() { part.size(); } });
        told("each", new Runnable() { public void run() { for (int x : part) System.out.println(x); } });
        told("fresh", new Runnable() { public void run() { l.subList(0, 3).clear(); } });
        System.out.println(l);
        List<Integer> big = new ArrayList<>(Collections.nCopies(4000, 1));
        big.subList(100, 3900).clear();
        big.subList(50, 60).addAll(Collections.nCopies(1000, 2));
        System.out.println(big.size() + " " + big.indexOf(2) + " " + big.lastIndexOf(2));
        ListIterator<Integer> li = big.subList(48, 62).listIterator(14);
        StringBuilder sb = new StringBuilder();
        while (li.hasPrevious()) {
            int k = li.previousIndex();
            sb.append(k).append(':').append(li.previous()).append(' ');
            if (k == 3) {
                li.set(7);
            }
        }
        System.out.println(sb + "" + big.get(51));
    }
}
