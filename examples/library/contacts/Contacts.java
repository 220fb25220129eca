import java.util.*;

/** A book of contacts that is told what to do line by line, keeps itself in order and takes steps back. */
public class Contacts {
    static class Contact implements Comparable<Contact> {
        private final String name;
        private final String phone;
        private final Set<String> tags = new TreeSet<>();

        Contact(String name, String phone) {
            if (name.trim().isEmpty()) throw new IllegalArgumentException("a name is missing");
            if (!phone.matches("\\+?[0-9 -]{3,15}")) throw new IllegalArgumentException("no phone: '" + phone + "'");
            this.name = name.trim();
            this.phone = phone.replaceAll("[ -]", "");
        }

        @Override
        public int compareTo(Contact other) {
            int names = name.compareToIgnoreCase(other.name);
            return names != 0 ? names : phone.compareTo(other.phone);
        }

        @Override
        public boolean equals(Object o) {
            return o instanceof Contact && compareTo((Contact) o) == 0;
        }

        @Override
        public int hashCode() {
            return 31 * name.toLowerCase().hashCode() + phone.hashCode();
        }

        @Override
        public String toString() {
            return String.format("%-8s %12s %s", name, phone, tags);
        }
    }

    private final List<Contact> book = new ArrayList<>();
    private final Stack<Runnable> back = new Stack<>();

    void add(Scanner words) {
        String[] parts = words.nextLine().split(";");
        final Contact contact = new Contact(parts[0], parts[1].trim());
        int place = Collections.binarySearch(book, contact);
        if (place >= 0) {
            System.out.println("there already: " + book.get(place));
            return;
        }
        book.add(~place, contact);
        back.push(new Runnable() {
            @Override
            public void run() {
                book.remove(contact);
            }
        });
        System.out.println("added as " + (~place + 1));
    }

    void tag(Scanner words) {
        final Contact contact = book.get(words.nextInt() - 1);
        final List<String> added = new ArrayList<>();
        do {
            String tag = words.next();
            if (contact.tags.add(tag)) added.add(tag);
        } while (words.hasNext());
        back.push(new Runnable() {
            @Override
            public void run() {
                contact.tags.removeAll(added);
            }
        });
        System.out.println(added.size() + " new");
    }

    void delete(Scanner words) {
        final int place = words.nextInt() - 1;
        final Contact contact = book.remove(place);
        back.push(new Runnable() {
            @Override
            public void run() {
                book.add(place, contact);
            }
        });
        System.out.println("deleted " + contact.name);
    }

    void list(String part) {
        int found = 0;
        for (ListIterator<Contact> it = book.listIterator(); it.hasNext(); ) {
            int number = it.nextIndex() + 1;
            String line = it.next().toString();
            if (line.toLowerCase().contains(part)) {
                found++;
                System.out.printf("%2d. %s%n", number, line);
            }
        }
        System.out.println(found + " of " + book.size());
    }

    boolean told(String line) {
        try (Scanner words = new Scanner(line)) {
            String command = words.hasNext() ? words.next().toLowerCase() : "nothing";
            switch (command) {
                case "add":
                    add(words);
                    break;
                case "tag":
                    tag(words);
                    break;
                case "delete":
                    delete(words);
                    break;
                case "list":
                    list(words.hasNext() ? words.next().toLowerCase() : "");
                    break;
                case "undo":
                    back.pop().run();
                    System.out.println("undone, " + back.size() + " left");
                    break;
                case "quit":
                    return false;
                default:
                    System.out.println("what is " + command + "?");
            }
        } catch (InputMismatchException e) {
            System.out.println("a number is wanted");
        } catch (NoSuchElementException e) {
            System.out.println("something is missing");
        } catch (EmptyStackException e) {
            System.out.println("nothing to undo");
        } catch (ArrayIndexOutOfBoundsException e) {
            System.out.println("a ; is missing");
        } catch (IndexOutOfBoundsException | IllegalArgumentException e) {
            System.out.println(e.getMessage());
        }
        return true;
    }

    public static void main(String[] args) {
        Contacts contacts = new Contacts();
        Scanner in = new Scanner(System.in);
        int count = 0;
        while (in.hasNextLine() && contacts.told(in.nextLine())) count++;
        System.out.println(count + " lines, " + new HashSet<>(contacts.book).size() + " contacts, " + in.hasNextLine());
        in.close();
        new Scanner(System.in).nextLine();
    }
}
