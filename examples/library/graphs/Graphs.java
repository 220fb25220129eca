import java.util.*;

/** A directed graph read from lines: ways, circles, two colours, strong components, and all distances. */
public class Graphs {
    private final Map<String, List<String>> out = new TreeMap<>();
    private final Map<String, Map<String, Integer>> weights = new HashMap<>();

    void edge(String from, String to, int weight) {
        for (String node : new String[] {from, to}) {
            if (!out.containsKey(node)) out.put(node, new ArrayList<String>());
        }
        out.get(from).add(to);
        Map<String, Integer> of = weights.get(from);
        if (of == null) weights.put(from, of = new HashMap<>());
        of.put(to, weight);
    }

    List<String> breadthFirst(String start) {
        List<String> order = new ArrayList<>();
        Set<String> seen = new HashSet<>(Collections.singleton(start));
        Queue<String> waiting = new LinkedList<>();
        waiting.add(start);
        while (!waiting.isEmpty()) {
            String node = waiting.remove();
            order.add(node);
            for (String next : out.get(node)) if (seen.add(next)) waiting.offer(next);
        }
        return order;
    }

    List<String> depthFirst(String start) {
        List<String> order = new ArrayList<>();
        Deque<String> stack = new ArrayDeque<>();
        stack.push(start);
        while (!stack.isEmpty()) {
            String node = stack.pop();
            if (order.contains(node)) continue;
            order.add(node);
            ListIterator<String> it = out.get(node).listIterator(out.get(node).size());
            while (it.hasPrevious()) stack.push(it.previous());
        }
        return order;
    }

    List<String> way(String from, String to) {
        Map<String, String> before = new HashMap<>();
        before.put(from, null);
        Deque<String> waiting = new ArrayDeque<>();
        waiting.addLast(from);
        while (!waiting.isEmpty() && !before.containsKey(to)) {
            String node = waiting.pollFirst();
            for (String next : out.get(node)) {
                if (!before.containsKey(next)) {
                    before.put(next, node);
                    waiting.addLast(next);
                }
            }
        }
        LinkedList<String> way = new LinkedList<>();
        if (!before.containsKey(to)) return way;
        for (String at = to; at != null; at = before.get(at)) way.addFirst(at);
        return way;
    }

    private static final int WHITE = 0, GREY = 1, BLACK = 2;

    boolean hasCircle() {
        Map<String, Integer> colours = new HashMap<>();
        for (String node : out.keySet()) if (hasCircle(node, colours)) return true;
        return false;
    }

    private boolean hasCircle(String node, Map<String, Integer> colours) {
        int colour = colours.getOrDefault(node, WHITE);
        if (colour != WHITE) return colour == GREY;
        colours.put(node, GREY);
        for (String next : out.get(node)) if (hasCircle(next, colours)) return true;
        colours.put(node, BLACK);
        return false;
    }

    /** The strong components, by Tarjan's way. */
    class Components {
        final Map<String, Integer> numbers = new HashMap<>();
        final Map<String, Integer> lows = new HashMap<>();
        final Stack<String> stack = new Stack<>();
        final List<SortedSet<String>> found = new ArrayList<>();

        Components() {
            for (String node : out.keySet()) if (!numbers.containsKey(node)) visit(node);
        }

        private void visit(String node) {
            numbers.put(node, numbers.size());
            lows.put(node, numbers.get(node));
            stack.push(node);
            for (String next : out.get(node)) {
                if (!numbers.containsKey(next)) {
                    visit(next);
                    lows.put(node, Math.min(lows.get(node), lows.get(next)));
                } else if (stack.contains(next)) {
                    lows.put(node, Math.min(lows.get(node), numbers.get(next)));
                }
            }
            if (!lows.get(node).equals(numbers.get(node))) return;
            SortedSet<String> component = new TreeSet<>();
            String top;
            do component.add(top = stack.pop()); while (!top.equals(node));
            found.add(component);
        }
    }

    boolean isTwoColoured() {
        Map<String, Boolean> sides = new HashMap<>();
        for (String start : out.keySet()) {
            if (sides.containsKey(start)) continue;
            sides.put(start, true);
            Queue<String> waiting = new ArrayDeque<>(Arrays.asList(start));
            while (!waiting.isEmpty()) {
                String node = waiting.poll();
                for (String next : out.keySet()) {
                    if (!out.get(node).contains(next) && !out.get(next).contains(node)) continue;
                    Boolean side = sides.get(next);
                    if (side == null) {
                        sides.put(next, !sides.get(node));
                        waiting.add(next);
                    } else if (side == sides.get(node)) {
                        return false;
                    }
                }
            }
        }
        return true;
    }

    /** All distances, by Floyd and Warshall's way, with -1 where there is no way. */
    int[][] distances() {
        List<String> nodes = new ArrayList<>(out.keySet());
        int n = nodes.size();
        int[][] far = new int[n][n];
        for (int i = 0; i < n; i++) {
            Arrays.fill(far[i], Integer.MAX_VALUE / 2);
            far[i][i] = 0;
            Map<String, Integer> of = weights.get(nodes.get(i));
            if (of == null) continue;
            for (Map.Entry<String, Integer> e : of.entrySet()) far[i][nodes.indexOf(e.getKey())] = e.getValue();
        }
        for (int k = 0; k < n; k++)
            for (int i = 0; i < n; i++)
                for (int j = 0; j < n; j++) far[i][j] = Math.min(far[i][j], far[i][k] + far[k][j]);
        for (int[] row : far) for (int j = 0; j < n; j++) if (row[j] >= Integer.MAX_VALUE / 2) row[j] = -1;
        return far;
    }

    public static void main(String[] args) {
        Scanner in = new Scanner(System.in);
        Graphs graph = new Graphs();
        int edges = in.nextInt();
        for (int i = 0; i < edges; i++) graph.edge(in.next(), in.next(), in.nextInt());
        System.out.println(graph.out);
        String start = in.next(), end = in.next();
        System.out.println("breadth first: " + graph.breadthFirst(start));
        System.out.println("depth first:   " + graph.depthFirst(start));
        System.out.println("way " + start + " to " + end + ": " + String.join(" > ", graph.way(start, end)));
        System.out.println("way " + end + " to " + start + ": " + graph.way(end, start));
        System.out.println("circle: " + graph.hasCircle() + ", two colours: " + graph.isTwoColoured());
        System.out.println("components: " + graph.new Components().found);
        for (int[] row : graph.distances()) {
            StringBuilder line = new StringBuilder();
            for (int far : row) line.append(String.format("%4s", far < 0 ? "." : Integer.toString(far)));
            System.out.println(line);
        }
    }
}
