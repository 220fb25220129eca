/** Virtual and interface calls. */
public class Virtual {
    interface Shape {
        int area(int scale);
    }

    static class Square implements Shape {
        public int area(int scale) {
            return scale * scale;
        }

        int sides() {
            return 4;
        }
    }

    static class Triangle extends Square {
        public int area(int scale) {
            return scale * scale / 2;
        }

        int sides() {
            return 3;
        }
    }

    public static void main(String[] arguments) {
        Square[] all = {new Square(), new Triangle()};
        int sum = 0;
        for (int i = 0; i < 5_000_000; i++) {
            Square one = all[i & 1];
            Shape shape = one;
            sum += shape.area(i) + one.sides();
        }
        host.Io.write(sum);
    }
}
