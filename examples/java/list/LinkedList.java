/** A list of nodes, each with the next one. */
class LinkedList<T> implements Sequence<T> {
    /** An item, and the rest of the list. Its private members make javac write accessors. */
    private static class Node<T> {
        private final T item;
        private Node<T> next;

        private Node(T item) {
            this.item = item;
        }
    }

    /** Reads the list that it belongs to. */
    private class Walk implements Cursor<T> {
        private Node<T> rest = first;

        @Override
        public boolean hasNext() {
            return rest != null;
        }

        @Override
        public T next() {
            if (rest == null) {
                throw new IllegalStateException("no item is left");
            }
            T item = rest.item;
            rest = rest.next;
            steps++;
            return item;
        }
    }

    private Node<T> first;
    private Node<T> last;
    private long steps;

    @SafeVarargs
    LinkedList(T... items) {
        for (T item : items) {
            add(item);
        }
    }

    final void add(T item) {
        Node<T> node = new Node<T>(item);
        if (first == null) {
            first = node;
        } else {
            last.next = node;
        }
        last = node;
    }

    /** Turns the list around, in place. */
    void reverse() {
        Node<T> done = null;
        Node<T> rest = first;
        last = first;
        while (rest != null) {
            Node<T> next = rest.next;
            rest.next = done;
            done = rest;
            rest = next;
        }
        first = done;
    }

    /** How many steps cursors took on this list. */
    long steps() {
        return steps;
    }

    @Override
    public Cursor<T> cursor() {
        return new Walk();
    }
}
