import java.util.*;
import java.util.function.Function;
import java.util.function.Predicate;
import java.util.function.Supplier;

/** A lending library: maps of maps of lists, optional values, default methods, and orders that are put together. */
public class Lending {
    interface Named {
        String name();

        default String initials() {
            StringBuilder text = new StringBuilder();
            for (String part : name().split(" ")) text.append(part.charAt(0));
            return text.toString();
        }
    }

    interface Dated {
        int year();

        default boolean isOld() { return year() < 1950; }

        default String label() { return year() + (isOld() ? " (old)" : ""); }
    }

    static class Book implements Named, Dated {
        private final String name, author, kind;
        private final int year;
        private Reader lentTo;

        Book(String name, String author, String kind, int year) {
            this.name = name;
            this.author = author;
            this.kind = kind;
            this.year = year;
        }

        @Override public String name() { return name; }
        @Override public int year() { return year; }
        @Override public String label() { return name + ", " + Dated.super.label(); }
        Optional<Reader> lentTo() { return Optional.ofNullable(lentTo); }
        @Override public String toString() { return name; }
    }

    static class Reader implements Named {
        private final String name;
        private final List<Book> books = new LinkedList<>();

        Reader(String name) { this.name = name; }

        @Override public String name() { return name; }
    }

    static class LendingException extends Exception {
        LendingException(String format, Object... values) { super(String.format(format, values)); }
    }

    private final Map<String, Map<Integer, List<Book>>> shelves = new TreeMap<>();
    private final Map<String, Book> books = new LinkedHashMap<>();
    private final Map<String, Reader> readers = new HashMap<>();
    private final Map<Book, Deque<Reader>> wishes = new HashMap<>();

    void add(Book book) {
        books.put(book.name, book);
        Map<Integer, List<Book>> ofKind = shelves.get(book.kind);
        if (ofKind == null) shelves.put(book.kind, ofKind = new TreeMap<>(Collections.reverseOrder()));
        int decade = book.year / 10 * 10;
        if (!ofKind.containsKey(decade)) ofKind.put(decade, new ArrayList<Book>());
        ofKind.get(decade).add(book);
    }

    Book book(final String name) throws LendingException {
        Book found = books.get(name);
        if (found == null) throw new LendingException("there is no '%s'", name);
        return found;
    }

    Reader reader(String name) {
        Reader found = readers.get(name);
        if (found == null) readers.put(name, found = new Reader(name));
        return found;
    }

    void lend(String name, String to) throws LendingException {
        Book book = book(name);
        Reader reader = reader(to);
        if (reader.books.size() == 2) throw new LendingException("%s has %d books", to, reader.books.size());
        if (book.lentTo().isPresent()) {
            Deque<Reader> waiting = wishes.get(book);
            if (waiting == null) wishes.put(book, waiting = new ArrayDeque<>());
            if (!waiting.contains(reader)) waiting.offer(reader);
            throw new LendingException("%-10.8s is lent to %s, and %d wait", name, book.lentTo().get().initials(), waiting.size());
        }
        book.lentTo = reader;
        reader.books.add(book);
    }

    void bringBack(String name) throws LendingException {
        Book book = book(name);
        Reader reader = book.lentTo().orElseThrow(new Supplier<LendingException>() {
            @Override
            public LendingException get() { return new LendingException("nobody has '%s'", name); }
        });
        reader.books.remove(book);
        book.lentTo = null;
        Deque<Reader> waiting = wishes.getOrDefault(book, new ArrayDeque<Reader>());
        if (!waiting.isEmpty()) lend(name, waiting.poll().name());
    }

    List<Book> sorted(Predicate<? super Book> test, Comparator<? super Book> order) {
        List<Book> found = new ArrayList<>();
        for (Book it : books.values()) if (test.test(it)) found.add(it);
        Collections.sort(found, order);
        return found;
    }

    public static void main(String[] args) {
        Lending library = new Lending();
        library.add(new Book("Emma", "Austen", "novel", 1815));
        library.add(new Book("Dune", "Herbert", "novel", 1965));
        library.add(new Book("Persuasion", "Austen", "novel", 1817));
        library.add(new Book("Cosmos", "Sagan", "science", 1980));
        library.add(new Book("Relativity", "Einstein", "science", 1916));
        library.add(new Book("Contact", "Sagan", "novel", 1985));
        System.out.println(library.shelves);
        String[] deeds = {"Emma>Ann Lee", "Emma>Bob Ray", "Emma>Bob Ray", "Emma>Cid", "Dune>Ann Lee", "Cosmos>Ann Lee", "Ulysses>Cid",
            "<Dune", "<Dune", "<Emma", "<Emma", "Persuasion>Bob Ray"};
        for (String deed : deeds) {
            try {
                int at = deed.indexOf('>');
                if (at < 0) library.bringBack(deed.substring(1)); else library.lend(deed.substring(0, at), deed.substring(at + 1));
                System.out.print(deed + " ok; ");
            } catch (LendingException e) {
                System.out.println(deed + " " + e.getMessage());
            }
        }
        System.out.println();
        for (String name : new TreeSet<>(library.readers.keySet())) {
            System.out.println(library.reader(name).initials() + " " + library.reader(name).books);
        }
        Function<Book, String> author = new Function<Book, String>() {
            @Override public String apply(Book book) { return book.author; }
        };
        Function<Book, Integer> year = new Function<Book, Integer>() {
            @Override public Integer apply(Book book) { return book.year; }
        };
        Predicate<Book> isFree = new Predicate<Book>() {
            @Override public boolean test(Book book) { return !book.lentTo().isPresent(); }
        };
        Predicate<Dated> isOld = new Predicate<Dated>() {
            @Override public boolean test(Dated it) { return it.isOld(); }
        };
        System.out.println(library.sorted(isFree, Comparator.comparing(author).thenComparing(Comparator.comparing(year).reversed())));
        System.out.println(library.sorted(isFree.negate(), Comparator.comparing(year)) + " "
            + library.sorted(isOld, Comparator.comparing(author, Collections.<String>reverseOrder())));
        for (Book it : library.sorted(isFree.or(isOld), Comparator.comparing(year))) System.out.print(it.label() + "; ");
        System.out.println();
        Optional<Book> latest = Optional.of(Collections.max(library.books.values(), Comparator.comparing(year)));
        System.out.println(latest + " " + latest.map(year).get() + " " + latest.filter(isFree).isPresent() + " " + Optional.empty() + " "
            + Optional.<String>empty().orElse("nothing"));
    }
}
