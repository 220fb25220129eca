import java.io.BufferedReader;
import java.io.IOException;
import java.io.InputStreamReader;
import java.util.ArrayList;
import java.util.Collections;
import java.util.Comparator;
import java.util.List;

/** A least spanning tree of a graph that BufferedReader reads. */
public class Spanning {
    static int[] parent, rank;
    static int find(int x) { return parent[x] == x ? x : (parent[x] = find(parent[x])); }
    static boolean union(int a, int b) {
        a = find(a); b = find(b);
        if (a == b) return false;
        if (rank[a] < rank[b]) { int t = a; a = b; b = t; }
        parent[b] = a;
        if (rank[a] == rank[b]) rank[a]++;
        return true;
    }
    public static void main(String[] args) throws IOException {
        BufferedReader br = new BufferedReader(new InputStreamReader(System.in));
        String line = br.readLine();
        String[] p = line.trim().split("\\s+");
        int n = Integer.parseInt(p[0]), m = Integer.parseInt(p[1]);
        parent = new int[n]; rank = new int[n];
        for (int i = 0; i < n; i++) parent[i] = i;
        List<int[]> edges = new ArrayList<int[]>();
        while ((line = br.readLine()) != null) {
            p = line.trim().split("\\s+");
            if (p.length < 3) continue;
            edges.add(new int[] {Integer.parseInt(p[0]), Integer.parseInt(p[1]), Integer.parseInt(p[2])});
        }
        Collections.sort(edges, new Comparator<int[]>() {
            public int compare(int[] a, int[] b) { return Integer.compare(a[2], b[2]); }
        });
        long total = 0;
        int used = 0;
        for (int[] e : edges) {
            if (union(e[0], e[1])) { total += e[2]; used++; System.out.println(e[0] + "-" + e[1] + ":" + e[2]); }
        }
        System.out.println(used == n - 1 ? "MST " + total : "not connected, " + (n - used) + " components");
    }
}
