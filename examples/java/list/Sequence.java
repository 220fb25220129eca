/** Items in an order. */
interface Sequence<T> {
    Cursor<T> cursor();

    default int size() {
        int size = 0;
        for (Cursor<T> cursor = cursor(); cursor.hasNext(); cursor.next()) {
            size++;
        }
        return size;
    }

    default boolean contains(Object wanted) {
        Cursor<T> cursor = cursor();
        while (cursor.hasNext()) {
            T item = cursor.next();
            if (item == null ? wanted == null : item.equals(wanted)) {
                return true;
            }
        }
        return false;
    }

    /** Whether both have equal items in the same order. */
    static boolean same(Sequence<?> first, Sequence<?> second) {
        Cursor<?> left = first.cursor();
        Cursor<?> right = second.cursor();
        while (left.hasNext() && right.hasNext()) {
            if (!left.next().equals(right.next())) {
                return false;
            }
        }
        return left.hasNext() == right.hasNext();
    }
}
