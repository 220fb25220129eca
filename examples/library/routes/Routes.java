import java.io.BufferedReader;
import java.io.IOException;
import java.io.InputStreamReader;
import java.io.PrintWriter;
import java.util.ArrayList;
import java.util.Arrays;
import java.util.Collections;
import java.util.Comparator;
import java.util.List;
import java.util.PriorityQueue;
import java.util.StringTokenizer;

/** The shortest ways from a city to all others, by Dijkstra's algorithm. */
public class Routes {
    private static final long FAR = Long.MAX_VALUE;

    private final List<List<long[]>> roads = new ArrayList<>();
    private final long[] distance;
    private final int[] before;

    Routes(int cities) {
        for (int i = 0; i < cities; i++) {
            roads.add(new ArrayList<long[]>());
        }
        distance = new long[cities];
        before = new int[cities];
    }

    void addRoad(int from, int to, long length) {
        roads.get(from).add(new long[] {to, length});
        roads.get(to).add(new long[] {from, length});
    }

    void search(int start) {
        Arrays.fill(distance, FAR);
        Arrays.fill(before, -1);
        distance[start] = 0;
        PriorityQueue<long[]> open = new PriorityQueue<>(16, new Comparator<long[]>() {
            @Override
            public int compare(long[] a, long[] b) {
                return a[1] != b[1] ? Long.compare(a[1], b[1]) : Long.compare(a[0], b[0]);
            }
        });
        open.add(new long[] {start, 0});
        while (!open.isEmpty()) {
            long[] next = open.poll();
            int city = (int) next[0];
            if (next[1] > distance[city]) {
                continue;
            }
            for (long[] road : roads.get(city)) {
                int to = (int) road[0];
                long way = next[1] + road[1];
                if (way < distance[to]) {
                    distance[to] = way;
                    before[to] = city;
                    open.add(new long[] {to, way});
                }
            }
        }
    }

    List<Integer> wayTo(int city) {
        List<Integer> way = new ArrayList<>();
        for (int c = city; c >= 0; c = before[c]) {
            way.add(c);
        }
        Collections.reverse(way);
        return way;
    }

    public static void main(String[] args) throws IOException {
        BufferedReader in = new BufferedReader(new InputStreamReader(System.in));
        PrintWriter out = new PrintWriter(System.out);
        StringTokenizer numbers = new StringTokenizer(in.readLine());
        int cities = Integer.parseInt(numbers.nextToken());
        int count = Integer.parseInt(numbers.nextToken());
        Routes routes = new Routes(cities);
        for (int i = 0; i < count; i++) {
            numbers = new StringTokenizer(in.readLine());
            routes.addRoad(Integer.parseInt(numbers.nextToken()), Integer.parseInt(numbers.nextToken()),
                Long.parseLong(numbers.nextToken()));
        }
        routes.search(0);
        for (int city = 0; city < cities; city++) {
            if (routes.distance[city] == FAR) {
                out.println(city + ": no way");
            } else {
                out.printf("%d: %,d by %s%n", city, routes.distance[city], routes.wayTo(city));
            }
        }
        out.flush();
    }
}
