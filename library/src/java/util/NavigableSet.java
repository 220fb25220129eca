package java.util;

public interface NavigableSet<E> extends SortedSet<E> {
    E floor(E e);

    E ceiling(E e);

    E lower(E e);

    E higher(E e);

    E pollFirst();

    E pollLast();

    NavigableSet<E> descendingSet();

    Iterator<E> descendingIterator();

    NavigableSet<E> headSet(E to, boolean withTo);

    NavigableSet<E> tailSet(E from, boolean withFrom);

    NavigableSet<E> subSet(E from, boolean withFrom, E to, boolean withTo);
}
