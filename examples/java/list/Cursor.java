/** Goes through items, one at a time. */
interface Cursor<T> {
    boolean hasNext();

    T next();
}
