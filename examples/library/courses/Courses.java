import java.util.ArrayList;
import java.util.Arrays;
import java.util.Collection;
import java.util.LinkedHashMap;
import java.util.List;
import java.util.Map;
import java.util.Scanner;
import java.util.Set;
import java.util.TreeMap;
import java.util.TreeSet;

/** Courses that want others first: an order of them, or a circle. */
public class Courses {
    static class CircleException extends Exception {
        private final Collection<String> circle;

        CircleException(Collection<String> circle, Throwable cause) {
            super("a circle of " + circle.size(), cause);
            this.circle = circle;
        }

        Collection<String> circle() {
            return circle;
        }
    }

    private final Map<String, Set<String>> first = new TreeMap<>();

    void add(String course, Collection<String> wanted) {
        if (!first.containsKey(course)) {
            first.put(course, new TreeSet<String>());
        }
        first.get(course).addAll(wanted);
        for (String other : wanted) {
            if (!first.containsKey(other)) {
                first.put(other, new TreeSet<String>());
            }
        }
    }

    List<String> ordered() throws CircleException {
        Map<String, Set<String>> left = new LinkedHashMap<>();
        for (Map.Entry<String, Set<String>> e : first.entrySet()) {
            left.put(e.getKey(), new TreeSet<>(e.getValue()));
        }
        List<String> order = new ArrayList<>();
        while (!left.isEmpty()) {
            try {
                String next = free(left);
                order.add(next);
                left.remove(next);
                for (Set<String> wanted : left.values()) {
                    wanted.remove(next);
                }
            } catch (IllegalStateException e) {
                throw new CircleException(left.keySet(), e);
            }
        }
        return order;
    }

    private static String free(Map<String, Set<String>> left) {
        for (Map.Entry<String, Set<String>> e : left.entrySet()) {
            if (e.getValue().isEmpty()) {
                return e.getKey();
            }
        }
        throw new IllegalStateException("none is free of " + left);
    }

    public static void main(String[] args) {
        Scanner in = new Scanner(System.in);
        Courses courses = new Courses();
        while (in.hasNextLine()) {
            String line = in.nextLine().trim();
            if (!line.isEmpty()) {
                String[] parts = line.split("\\s*<-\\s*|\\s*,\\s*");
                courses.add(parts[0], Arrays.asList(parts).subList(1, parts.length));
                continue;
            }
            try {
                System.out.println(String.join(", ", courses.ordered()));
            } catch (CircleException e) {
                System.out.println(e.getMessage() + ": " + e.circle());
                System.out.println("since " + e.getCause().getMessage());
            } finally {
                courses = new Courses();
            }
        }
    }
}
