import java.util.*;

/** A program that is told what to do, line by line: a list that can be changed, and each change taken back. */
public class Commands {
    interface Change {
        void make();

        void takeBack();
    }

    private final List<Integer> list = new ArrayList<>();
    private final Stack<Change> done = new Stack<>();
    private final Deque<Change> undone = new ArrayDeque<>();

    class Insert implements Change {
        private final int at, number;

        Insert(int at, int number) {
            if (at < 0 || at > list.size()) throw new IndexOutOfBoundsException("at " + at + " of " + list.size());
            this.at = at;
            this.number = number;
        }

        @Override public void make() { list.add(at, number); }
        @Override public void takeBack() { list.remove(at); }
        @Override public String toString() { return "insert " + number; }
    }

    class Delete implements Change {
        private final int at;
        private int number;

        Delete(int at) { this.at = at; }

        @Override public void make() { number = list.remove(at); }
        @Override public void takeBack() { list.add(at, number); }
        @Override public String toString() { return "delete " + number; }
    }

    abstract class Whole implements Change {
        private List<Integer> kept;
        private final String name;

        Whole(String name) { this.name = name; }

        abstract void work();

        @Override
        public void make() {
            kept = new ArrayList<>(list);
            work();
        }

        @Override
        public void takeBack() {
            list.clear();
            list.addAll(kept);
        }

        @Override public String toString() { return name; }
    }

    private void make(Change change) {
        change.make();
        done.push(change);
        undone.clear();
    }

    /** Does what a line says, and tells whether more is to come. */
    private boolean told(Scanner words) {
        String word = words.next();
        switch (word) {
            case "add":
                while (words.hasNextInt()) make(new Insert(list.size(), words.nextInt()));
                break;
            case "insert":
                make(new Insert(words.nextInt(), words.nextInt()));
                break;
            case "delete":
                make(new Delete(words.nextInt()));
                break;
            case "sort":
                final boolean isDown = words.hasNext("down");
                make(new Whole(isDown ? "sort down" : "sort") {
                    @Override
                    void work() {
                        if (isDown) Collections.sort(list, Collections.reverseOrder()); else Collections.sort(list);
                    }
                });
                break;
            case "turn":
                final int by = words.hasNextInt() ? words.nextInt() : 1;
                make(new Whole("turn " + by) {
                    @Override void work() { Collections.rotate(list, by); }
                });
                break;
            case "keep":
                final Set<Integer> kept = new HashSet<>();
                while (words.hasNextInt()) kept.add(words.nextInt());
                make(new Whole("keep") {
                    @Override void work() { list.retainAll(kept); }
                });
                break;
            case "back":
                for (int k = words.hasNextInt() ? words.nextInt() : 1; k > 0; k--) {
                    Change last = done.pop();
                    last.takeBack();
                    undone.push(last);
                }
                break;
            case "again":
                if (undone.isEmpty()) {
                    System.out.println("nothing was taken back");
                    break;
                }
                Change next = undone.pop();
                next.make();
                done.push(next);
                break;
            case "show":
                System.out.println(list + " by " + done + (undone.isEmpty() ? "" : ", taken back " + undone));
                break;
            case "count":
                Map<Integer, Integer> counts = new TreeMap<>();
                for (int n : list) counts.put(n, Collections.frequency(list, n));
                System.out.println(counts + (list.isEmpty() ? "" : " from " + Collections.min(list) + " to " + Collections.max(list)));
                break;
            case "quit":
                System.out.println("left " + words.nextLine().trim());
                return false;
            default:
                System.out.println("what is '" + word + "'?");
        }
        return true;
    }

    public static void main(String[] args) {
        Commands commands = new Commands();
        Scanner in = new Scanner(System.in);
        while (in.hasNextLine()) {
            String line = in.nextLine();
            Scanner words = new Scanner(line);
            if (!words.hasNext()) continue;
            try {
                if (!commands.told(words)) break;
            } catch (InputMismatchException e) {
                System.out.println("no number in '" + line + "'");
            } catch (EmptyStackException e) {
                System.out.println("nothing to take back " + e.getMessage());
            } catch (NoSuchElementException e) {
                System.out.println("a number lacks in '" + line + "'");
            } catch (IndexOutOfBoundsException e) {
                System.out.println(e.getMessage());
            }
        }
    }
}
