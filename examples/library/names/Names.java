import java.util.ArrayList;
import java.util.Arrays;
import java.util.HashMap;
import java.util.List;
import java.util.Map;

/** What classes are called, which objects are of one, and arrays of a class of one's own that the library makes. */
public class Names {
    static class Place {
        final String name;
        final int height;

        Place(String name, int height) {
            this.name = name;
            this.height = height;
        }

        @Override
        public boolean equals(Object other) {
            if (other == null || getClass() != other.getClass()) {
                return false;
            }
            return name.equals(((Place) other).name) && height == ((Place) other).height;
        }

        @Override
        public int hashCode() {
            return name.hashCode() + height;
        }

        @Override
        public String toString() {
            return getClass().getSimpleName() + " " + name + " " + height;
        }
    }

    static class Peak extends Place {
        Peak(String name, int height) {
            super(name, height);
        }
    }

    static class TooHigh extends Exception {
        TooHigh(String message) {
            super(message);
        }
    }

    static class Lost extends RuntimeException {
        Lost(String message, Throwable cause) {
            super(message, cause);
        }
    }

    interface Guide {
        void lead() throws TooHigh;
    }

    static void climb(Place place) throws TooHigh {
        if (place.height > 4000) {
            throw new TooHigh(place.name);
        }
        System.out.println("up on " + place);
    }

    public static void main(String[] words) {
        Place[] places = {new Place("Pass", 2000), new Peak("Horn", 4478), new Peak("Pass", 2000), new Place("Pass", 2000)};
        for (Place one : places) {
            System.out.println(one + " is of " + one.getClass().getName() + ", equal to " + equals(places, one));
            try {
                climb(one);
            } catch (TooHigh e) {
                System.out.println(e);
                System.out.println(new Lost("on " + one, e) + " for " + new Lost(null, e).getCause());
            }
        }

        Guide anonymous = new Guide() {
            @Override
            public void lead() throws TooHigh {
                throw new TooHigh(getClass().getName() + " [" + getClass().getSimpleName() + "]");
            }
        };
        class Local implements Guide {
            @Override
            public void lead() throws TooHigh {
                throw new TooHigh(getClass().getName() + " [" + getClass().getSimpleName() + "]");
            }
        }
        for (Guide guide : new Guide[] {anonymous, new Local()}) {
            try {
                guide.lead();
            } catch (Exception e) {
                System.out.println(e + ", which is " + (e.getClass() == new TooHigh(null).getClass()));
            }
        }
        arrays(places);
    }

    static void arrays(Place[] places) {
        List<Place> list = new ArrayList<>(Arrays.asList(places));
        list.remove(2);
        Place[] fewer = list.toArray(new Place[0]);
        Place[] more = Arrays.copyOf(places, 6);
        Place[] same = places.clone();
        Place[] part = Arrays.copyOfRange(places, 1, 3);
        Place[][] grid = {places, fewer};
        Place[][] again = grid.clone();
        System.out.println(fewer.length + " " + more.length + " " + same.length + " " + part.length + " " + again[1].length);
        System.out.println(Arrays.toString(fewer) + " " + (more[5] == null) + " " + Arrays.equals(same, places) + " " + part[0]);
        Object[] peaks = new Peak[1];
        Object[] taken = peaks.clone();
        try {
            taken[0] = places[0];
            System.out.println("stored");
        } catch (ArrayStoreException e) {
            System.out.println("no place for " + places[0]);
        }
        Map<String, Integer> counts = new HashMap<>();
        for (Place one : more) {
            String name = one == null ? "nothing" : one.getClass().getName();
            counts.merge(name, 1, new java.util.function.BiFunction<Integer, Integer, Integer>() {
                @Override
                public Integer apply(Integer a, Integer b) {
                    return a + b;
                }
            });
        }
        System.out.println(counts);
        try {
            Arrays.copyOf(places, -1);
        } catch (NegativeArraySizeException e) {
            System.out.println("no copy of less than nothing");
        }
    }

    static int equals(Place[] places, Place to) {
        int count = 0;
        for (Place one : places) {
            if (one.equals(to)) {
                count++;
            }
        }
        return count;
    }
}
