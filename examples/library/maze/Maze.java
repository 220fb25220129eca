import java.util.*;

/** The shortest way through a grid, by a queue. */
public class Maze {
    static final int[] DX = {1, -1, 0, 0};
    static final int[] DY = {0, 0, 1, -1};

    public static void main(String[] args) {
        Scanner in = new Scanner(System.in);
        int h = in.nextInt(), w = in.nextInt();
        char[][] g = new char[h][];
        for (int i = 0; i < h; i++) g[i] = in.next().toCharArray();
        int[][] dist = new int[h][w];
        for (int[] row : dist) Arrays.fill(row, -1);
        Queue<int[]> q = new LinkedList<>();
        q.add(new int[] {0, 0});
        dist[0][0] = 0;
        while (!q.isEmpty()) {
            int[] cur = q.poll();
            for (int d = 0; d < 4; d++) {
                int x = cur[0] + DX[d], y = cur[1] + DY[d];
                if (x >= 0 && x < h && y >= 0 && y < w && g[x][y] != '#' && dist[x][y] < 0) {
                    dist[x][y] = dist[cur[0]][cur[1]] + 1;
                    q.add(new int[] {x, y});
                }
            }
        }
        System.out.println(dist[h - 1][w - 1] == -1 ? "impossible" : "shortest: " + dist[h - 1][w - 1]);
        for (int i = 0; i < h; i++) {
            StringBuilder line = new StringBuilder();
            for (int j = 0; j < w; j++) line.append(dist[i][j]).append(j + 1 < w ? "\t" : "");
            System.out.println(line.toString());
        }
    }
}
