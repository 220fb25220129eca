import java.io.BufferedReader;
import java.io.IOException;
import java.io.InputStreamReader;
import java.util.*;

/** Jobs on one processor, by several rules for who is next, and what each rule costs. */
public class Scheduler {
    static class Job {
        final String name;
        final int arrives, needs;
        int left, ended;

        Job(String name, int arrives, int needs) {
            this.name = name;
            this.arrives = arrives;
            this.needs = left = needs;
        }

        Job fresh() { return new Job(name, arrives, needs); }

        int waited() { return ended - arrives - needs; }
    }

    interface Rule {
        void add(Job job);

        Job next();

        /** How long the job that is next runs before another is looked for. */
        int turn(Job job);
    }

    static class FirstCome implements Rule {
        protected final LinkedList<Job> waiting = new LinkedList<>();

        @Override public void add(Job job) { waiting.addLast(job); }
        @Override public Job next() { return waiting.pollFirst(); }
        @Override public int turn(Job job) { return job.left; }
        @Override public String toString() { return "first come"; }
    }

    static class ByTurns extends FirstCome {
        private final int length;

        ByTurns(int length) { this.length = length; }

        @Override public int turn(Job job) { return Math.min(length, job.left); }
        @Override public String toString() { return "turns of " + length; }
    }

    static class Shortest implements Rule {
        private final PriorityQueue<Job> waiting;
        private final boolean mayStop;

        Shortest(boolean mayStop) {
            this.mayStop = mayStop;
            waiting = new PriorityQueue<>(11, new Comparator<Job>() {
                @Override
                public int compare(Job a, Job b) {
                    return a.left != b.left ? a.left - b.left : a.name.compareTo(b.name);
                }
            });
        }

        @Override public void add(Job job) { waiting.add(job); }
        @Override public Job next() { return waiting.poll(); }
        @Override public int turn(Job job) { return mayStop ? 1 : job.left; }
        @Override public String toString() { return mayStop ? "shortest left" : "shortest"; }
    }

    static void run(Rule rule, List<Job> given) {
        Deque<Job> coming = new ArrayDeque<>();
        List<Job> jobs = new ArrayList<>();
        for (Job it : given) {
            Job job = it.fresh();
            jobs.add(job);
            coming.addLast(job);
        }
        StringBuilder chart = new StringBuilder();
        int time = 0, changes = -1;
        Job before = null, running = null;
        while (true) {
            while (!coming.isEmpty() && coming.peekFirst().arrives <= time) rule.add(coming.removeFirst());
            if (running != null && running.left > 0) rule.add(running);
            running = rule.next();
            if (running == null) {
                if (coming.isEmpty()) break;
                chart.append('.');
                time++;
                continue;
            }
            if (running != before) changes++;
            before = running;
            for (int k = rule.turn(running); k > 0; k--) {
                chart.append(running.name);
                running.left--;
                time++;
            }
            if (running.left == 0) running.ended = time;
        }
        int sum = 0, worst = 0;
        for (Job it : jobs) {
            sum += it.waited();
            worst = Math.max(worst, it.waited());
        }
        System.out.println(String.format("%-14s %s", rule, chart));
        System.out.println(String.format("%14s mean wait %d.%02d, longest %d, %d changes", "", sum / jobs.size(),
            sum * 100 / jobs.size() % 100, worst, changes));
    }

    public static void main(String[] args) throws IOException {
        BufferedReader in = new BufferedReader(new InputStreamReader(System.in));
        List<Job> jobs = new ArrayList<>();
        int count = Integer.parseInt(in.readLine().trim());
        while (count-- > 0) {
            String[] parts = in.readLine().split(" ");
            jobs.add(new Job(parts[0], Integer.parseInt(parts[1]), Integer.parseInt(parts[2])));
        }
        Collections.sort(jobs, new Comparator<Job>() {
            @Override
            public int compare(Job a, Job b) {
                return Integer.compare(a.arrives, b.arrives);
            }
        });
        Rule[] rules = {new FirstCome(), new ByTurns(2), new ByTurns(5), new Shortest(false), new Shortest(true)};
        for (Rule rule : rules) run(rule, jobs);
    }
}
