import java.util.*;

/** Events by time with observers: a source of EventObjects, listeners that leave, and a queue of one's own. */
public class Alarms {
    static class Alarm extends EventObject {
        final int time; final String text;
        Alarm(Object source, int time, String text) { super(source); this.time = time; this.text = text; }
    }
    interface AlarmListener extends EventListener { void rang(Alarm a); }
    static class Clock {
        private final String name;
        private final List<AlarmListener> listeners = new ArrayList<>();
        private final PriorityQueue<Alarm> waiting = new PriorityQueue<>(4, new Comparator<Alarm>() {
            @Override public int compare(Alarm a, Alarm b) { return a.time != b.time ? a.time - b.time : a.text.compareTo(b.text); }
        });
        Clock(String name) { this.name = name; }
        void add(AlarmListener l) { listeners.add(l); }
        void remove(AlarmListener l) { listeners.remove(l); }
        void set(int time, String text) { waiting.add(new Alarm(this, time, text)); }
        void runTo(int time) {
            while (!waiting.isEmpty() && waiting.element().time <= time) {
                Alarm a = waiting.remove();
                for (AlarmListener l : new ArrayList<>(listeners)) l.rang(a);
            }
        }
        @Override public String toString() { return "Clock " + name; }
    }
    /** The last few of what came. */
    static class Recent<E> extends AbstractQueue<E> {
        private final Object[] items; private int first, count;
        Recent(int most) { items = new Object[most]; }
        @Override public boolean offer(E e) {
            if (count == items.length) poll();
            items[(first + count) % items.length] = e;
            count++;
            return true;
        }
        @SuppressWarnings("unchecked") private E at(int i) { return (E) items[(first + i) % items.length]; }
        @Override public E peek() { return count == 0 ? null : at(0); }
        @Override public E poll() {
            E e = peek();
            if (count > 0) { first = (first + 1) % items.length; count--; }
            return e;
        }
        @Override public int size() { return count; }
        @Override public Iterator<E> iterator() {
            return new Iterator<E>() {
                private int next;
                @Override public boolean hasNext() { return next < count; }
                @Override public E next() { if (!hasNext()) throw new NoSuchElementException(); return at(next++); }
            };
        }
    }
    public static void main(String[] args) {
        final Clock clock = new Clock("kitchen");
        final Recent<String> recent = new Recent<>(3);
        clock.add(new AlarmListener() {
            @Override public void rang(Alarm a) { recent.add(a.time + ":" + a.text); }
        });
        clock.add(new AlarmListener() {
            private int left = 2;
            @Override public void rang(Alarm a) {
                System.out.println(a.getSource() + " rang at " + a.time + ": " + a.text);
                if (a.text.startsWith("snooze")) clock.set(a.time + 5, "again");
                if (--left == 0) clock.remove(this);
            }
        });
        for (String s : "30 tea,10 snooze,20 eggs,10 bread,99 bus".split(",")) {
            String[] p = s.split(" ");
            clock.set(Integer.parseInt(p[0]), p[1]);
        }
        clock.runTo(50);
        System.out.println(recent + " " + recent.size() + " " + recent.contains("20:eggs") + " " + recent.peek());
        clock.runTo(100);
        System.out.println(recent.remove() + " " + recent.element() + " " + recent);
        recent.clear();
        try { recent.remove(); } catch (NoSuchElementException e) { System.out.println("none is left, " + recent.poll()); }
        try { recent.addAll(recent); } catch (IllegalArgumentException e) { System.out.println("not itself"); }
        try { new Alarm(null, 1, "x"); } catch (IllegalArgumentException e) { System.out.println(e.getMessage()); }
    }
}
