/** Says of two items whether the first comes before the second. */
interface Order<T> {
    boolean before(T first, T second);

    /** The same order from the other end. */
    default Order<T> reversed() {
        return new Order<T>() {
            @Override
            public boolean before(T first, T second) {
                return Order.this.before(second, first);
            }

            @Override
            public Order<T> reversed() {
                return Order.this;
            }
        };
    }

    /** Sorts by insertion; equal items keep their places. */
    static <T> void sort(T[] items, Order<? super T> order) {
        for (int next = 1; next < items.length; next++) {
            T item = items[next];
            int place = next;
            while (place > 0 && order.before(item, items[place - 1])) {
                items[place] = items[--place];
            }
            items[place] = item;
        }
    }
}
