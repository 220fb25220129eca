import java.io.*;
import java.util.*;

/** Commands, a line each, with a table of what is left: String.format, and try with resources. */
public class Inventory {
    static class Item {
        final String name; int qty; final int price;
        Item(String name, int qty, int price) { this.name = name; this.qty = qty; this.price = price; }
        int total() { return qty * price; }
    }
    public static void main(String[] args) throws IOException {
        try (BufferedReader in = new BufferedReader(new InputStreamReader(System.in))) {
            Map<String, Item> items = new LinkedHashMap<>();
            String line;
            int no = 0;
            while ((line = in.readLine()) != null) {
                no++;
                String[] f = line.split(";");
                try {
                    switch (f[0]) {
                        case "ADD":
                            items.put(f[1], new Item(f[1], Integer.parseInt(f[2]), Integer.parseInt(f[3])));
                            break;
                        case "REMOVE":
                            if (items.remove(f[1]) == null) throw new NoSuchElementException(f[1]);
                            break;
                        case "SELL":
                            Item it = items.get(f[1]);
                            int q = Integer.parseInt(f[2]);
                            if (it.qty < q) throw new IllegalStateException("only " + it.qty + " of " + it.name);
                            it.qty -= q;
                            break;
                        default:
                            System.out.println("line " + no + ": unknown command " + f[0]);
                    }
                } catch (NumberFormatException e) {
                    System.out.println("line " + no + ": bad number: " + e.getMessage());
                } catch (ArrayIndexOutOfBoundsException e) {
                    System.out.println("line " + no + ": too few fields");
                } catch (NoSuchElementException | IllegalStateException e) {
                    System.out.println("line " + no + ": " + e.getMessage());
                }
            }
            System.out.println(String.format("%-10s|%5s|%8s", "name", "qty", "total"));
            System.out.println("----------+-----+--------");
            int sum = 0;
            for (Item i : items.values()) {
                System.out.println(String.format("%-10s|%5d|%8d", i.name, i.qty, i.total()));
                sum += i.total();
            }
            System.out.printf("%-10s|%5s|%08d%n", "sum", "", sum);
        }
    }
}
