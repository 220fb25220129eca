import java.util.*;

/** Interfaces, classes above classes, classes within classes and without a name, in whole lengths. */
public class Shapes {
    interface Shape {
        int area();

        int around();

        default String told() {
            return name() + " of area " + area() + " and " + around() + " around";
        }

        String name();

        static Shape larger(Shape a, Shape b) {
            return a.area() >= b.area() ? a : b;
        }
    }

    interface Movable {
        int UNIT = 10;

        void move(int right, int up);

        default void moveUnit() {
            move(UNIT, UNIT);
        }
    }

    static abstract class Figure implements Shape, Movable, Comparable<Shape> {
        private static int made;
        protected int x, y;
        private final int number;

        {
            number = ++made;
        }

        protected Figure() {
            this(0, 0);
        }

        protected Figure(int x, int y) {
            this.x = x;
            this.y = y;
        }

        @Override
        public void move(int right, int up) {
            x += right;
            y += up;
        }

        @Override
        public String name() {
            return "figure";
        }

        @Override
        public int compareTo(Shape other) {
            return area() - other.area();
        }

        @Override
        public String toString() {
            return "#" + number + " " + name() + " at (" + x + ", " + y + ")";
        }
    }

    static class Box extends Figure {
        final int width, height;

        Box(int width, int height) {
            super(1, 1);
            this.width = width;
            this.height = height;
        }

        @Override public int area() { return width * height; }
        @Override public int around() { return 2 * (width + height); }
        @Override public String name() { return "box"; }
    }

    static final class Square extends Box {
        Square(int side) { super(side, side); }

        @Override public String name() { return "square"; }
        @Override public String told() { return super.told() + ", with four sides of " + width; }
    }

    static class Triangle extends Figure {
        private final int a, b, c;

        Triangle(int a, int b, int c) {
            if (a + b <= c || b + c <= a || a + c <= b) {
                throw new IllegalArgumentException(String.format("no triangle has sides %d, %d and %d", a, b, c));
            }
            this.a = a;
            this.b = b;
            this.c = c;
        }

        @Override
        public int area() {
            long sixteen = (long) (a + b + c) * (-a + b + c) * (a - b + c) * (a + b - c);
            int found = 0;
            while (16L * (found + 1) * (found + 1) <= sixteen) found++;
            return found;
        }

        @Override public int around() { return a + b + c; }
        @Override public String name() {
            return a == b && b == c ? "regular triangle" : a == b || b == c || a == c ? "mirrored triangle" : "triangle";
        }
    }

    /** A group of shapes, whose members know it. */
    static class Group implements Shape {
        private final List<Member> members = new ArrayList<>();
        private final String name;

        class Member {
            final Shape shape;
            Member(Shape shape) { this.shape = shape; }
            String told() { return Group.this.name + "/" + members.indexOf(this) + ": " + shape.name(); }
        }

        Group(String name, Shape... shapes) {
            this.name = name;
            for (Shape shape : shapes) members.add(new Member(shape));
        }

        @Override
        public int area() {
            int sum = 0;
            for (Member it : members) sum += it.shape.area();
            return sum;
        }

        @Override
        public int around() {
            int sum = 0;
            for (Member it : members) sum += it.shape.around();
            return sum;
        }

        @Override public String name() { return "group " + name; }
    }

    static String kind(Object o) {
        if (o instanceof Square) return "square";
        if (o instanceof Box) return "box";
        if (o instanceof Movable && o instanceof Shape) return "movable shape";
        if (o instanceof Shape) return "shape";
        return o == null ? "nothing" : "other";
    }

    public static void main(String[] args) {
        final int[] told = {0};
        Shape line = new Shape() {
            private int asked;
            @Override public int area() { told[0]++; return 0; }
            @Override public int around() { return ++asked; }
            @Override public String name() { return "line"; }
        };
        List<Figure> figures = new ArrayList<>(Arrays.<Figure>asList(new Box(4, 6), new Square(5), new Triangle(3, 4, 5),
            new Triangle(7, 7, 7)));
        for (Figure it : figures) {
            it.moveUnit();
            if (it instanceof Box && !(it instanceof Square)) it.move(-3, 4);
            System.out.println(it + ": " + it.told());
        }
        Collections.sort(figures);
        System.out.println(figures);
        Group inner = new Group("inner", figures.get(0), line), outer = new Group("outer", inner, figures.get(3));
        for (Group.Member it : outer.members) System.out.println(it.told());
        System.out.println(outer.told() + "; " + line.told() + "; asked " + told[0]);
        System.out.println(Shape.larger(outer, figures.get(1)).name());
        for (Object o : new Object[] {figures.get(3), figures.get(2), figures.get(0), inner, "text", null, new int[0]}) {
            System.out.print(kind(o) + ", ");
        }
        System.out.println();
        try {
            figures.add(new Triangle(1, 2, 3));
        } catch (IllegalArgumentException e) {
            System.out.println(e.getMessage() + "; made " + Figure.made);
        }
        try {
            Object o = line;
            System.out.println(((Movable) o) == null);
        } catch (ClassCastException e) {
            System.out.println("a line isn't moved");
        }
    }
}
