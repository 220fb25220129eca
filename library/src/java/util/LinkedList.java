package java.util;

public class LinkedList<E> extends AbstractSequentialList<E> implements Deque<E>, Cloneable, java.io.Serializable {
    private Node<E> first;
    private Node<E> last;
    private int count;

    private static final class Node<E> {
        E item;
        Node<E> previous;
        Node<E> next;

        Node() {
        }
    }

    public LinkedList() {
    }

    public LinkedList(Collection<? extends E> c) {
        addAll(c);
    }

    private Node<E> node(int index) {
        if (index < 0 || index >= count) {
            throw new IndexOutOfBoundsException("Index: " + index + ", Size: " + count);
        }
        Node<E> n;
        if (index < count >> 1) {
            n = first;
            for (int i = 0; i < index; i++) {
                n = n.next;
            }
        } else {
            n = last;
            for (int i = count - 1; i > index; i--) {
                n = n.previous;
            }
        }
        return n;
    }

    private void link(E e, Node<E> previous, Node<E> next) {
        Node<E> n = new Node<E>();
        n.item = e;
        n.previous = previous;
        n.next = next;
        if (previous == null) {
            first = n;
        } else {
            previous.next = n;
        }
        if (next == null) {
            last = n;
        } else {
            next.previous = n;
        }
        count++;
        modCount++;
    }

    private E unlink(Node<E> n) {
        if (n.previous == null) {
            first = n.next;
        } else {
            n.previous.next = n.next;
        }
        if (n.next == null) {
            last = n.previous;
        } else {
            n.next.previous = n.previous;
        }
        count--;
        modCount++;
        return n.item;
    }

    private static <E> Node<E> there(Node<E> n) {
        if (n == null) {
            throw new NoSuchElementException();
        }
        return n;
    }

    public int size() {
        return count;
    }

    public E get(int index) {
        return node(index).item;
    }

    public E set(int index, E e) {
        Node<E> n = node(index);
        E old = n.item;
        n.item = e;
        return old;
    }

    public boolean add(E e) {
        link(e, last, null);
        return true;
    }

    public void add(int index, E e) {
        if (index == count) {
            link(e, last, null);
        } else {
            Node<E> n = node(index);
            link(e, n.previous, n);
        }
    }

    public E remove(int index) {
        return unlink(node(index));
    }

    public boolean remove(Object o) {
        return removeFirstOccurrence(o);
    }

    public boolean removeFirstOccurrence(Object o) {
        for (Node<E> n = first; n != null; n = n.next) {
            if (o == null ? n.item == null : o.equals(n.item)) {
                unlink(n);
                return true;
            }
        }
        return false;
    }

    public boolean removeLastOccurrence(Object o) {
        for (Node<E> n = last; n != null; n = n.previous) {
            if (o == null ? n.item == null : o.equals(n.item)) {
                unlink(n);
                return true;
            }
        }
        return false;
    }

    public void clear() {
        first = null;
        last = null;
        count = 0;
        modCount++;
    }

    public void addFirst(E e) {
        link(e, null, first);
    }

    public void addLast(E e) {
        link(e, last, null);
    }

    public boolean offerFirst(E e) {
        addFirst(e);
        return true;
    }

    public boolean offerLast(E e) {
        addLast(e);
        return true;
    }

    public boolean offer(E e) {
        addLast(e);
        return true;
    }

    public void push(E e) {
        addFirst(e);
    }

    public E removeFirst() {
        return unlink(there(first));
    }

    public E removeLast() {
        return unlink(there(last));
    }

    public E remove() {
        return removeFirst();
    }

    public E pop() {
        return removeFirst();
    }

    public E pollFirst() {
        return first == null ? null : unlink(first);
    }

    public E pollLast() {
        return last == null ? null : unlink(last);
    }

    public E poll() {
        return pollFirst();
    }

    public E getFirst() {
        return there(first).item;
    }

    public E getLast() {
        return there(last).item;
    }

    public E element() {
        return getFirst();
    }

    public E peekFirst() {
        return first == null ? null : first.item;
    }

    public E peekLast() {
        return last == null ? null : last.item;
    }

    public E peek() {
        return peekFirst();
    }

    public boolean addAll(Collection<? extends E> c) {
        return addAll(count, c);
    }

    /** What is added may be the list itself. */
    public boolean addAll(int index, Collection<? extends E> c) {
        return super.addAll(index, (List<E>) Arrays.asList(c.toArray()));
    }

    public ListIterator<E> listIterator(int index) {
        return new Walk(index);
    }

    public Iterator<E> descendingIterator() {
        return new Back(new Walk(count));
    }

    public Object clone() {
        return new LinkedList<E>(this);
    }

    private static final class Back<E> implements Iterator<E> {
        private final ListIterator<E> of;

        Back(ListIterator<E> of) {
            this.of = of;
        }

        public boolean hasNext() {
            return of.hasPrevious();
        }

        public E next() {
            return of.previous();
        }

        public void remove() {
            of.remove();
        }
    }

    private final class Walk implements ListIterator<E> {
        private Node<E> next;
        private Node<E> given;
        private int at;
        private int expected = modCount;

        Walk(int index) {
            if (index < 0 || index > count) {
                throw new IndexOutOfBoundsException("Index: " + index + ", Size: " + count);
            }
            next = index == count ? null : node(index);
            at = index;
        }

        private void check() {
            if (modCount != expected) {
                throw new ConcurrentModificationException();
            }
        }

        public boolean hasNext() {
            return at < count;
        }

        public E next() {
            check();
            given = there(next);
            next = next.next;
            at++;
            return given.item;
        }

        public boolean hasPrevious() {
            return at > 0;
        }

        public E previous() {
            check();
            next = there(next == null ? last : next.previous);
            given = next;
            at--;
            return given.item;
        }

        public int nextIndex() {
            return at;
        }

        public int previousIndex() {
            return at - 1;
        }

        public void remove() {
            check();
            if (given == null) {
                throw new IllegalStateException();
            }
            if (next == given) {
                next = given.next;
            } else {
                at--;
            }
            unlink(given);
            given = null;
            expected = modCount;
        }

        public void set(E e) {
            if (given == null) {
                throw new IllegalStateException();
            }
            check();
            given.item = e;
        }

        public void add(E e) {
            check();
            link(e, next == null ? last : next.previous, next);
            given = null;
            at++;
            expected = modCount;
        }
    }
}
