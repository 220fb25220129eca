package java.util;

public abstract class AbstractCollection<E> implements Collection<E> {
    protected AbstractCollection() {
    }

    public abstract Iterator<E> iterator();

    public abstract int size();

    public boolean isEmpty() {
        return size() == 0;
    }

    public boolean contains(Object o) {
        for (E e : this) {
            if (o == null ? e == null : o.equals(e)) {
                return true;
            }
        }
        return false;
    }

    public Object[] toArray() {
        Object[] all = new Object[size()];
        int i = 0;
        for (E e : this) {
            all[i] = e;
            i++;
        }
        return all;
    }

    public <T> T[] toArray(T[] a) {
        Object[] all = a.length < size() ? ObjectMembers.arrayLike(a, size()) : a;
        int i = 0;
        for (E e : this) {
            all[i] = e;
            i++;
        }
        if (i < all.length) {
            all[i] = null;
        }
        return (T[]) all;
    }

    public boolean add(E e) {
        throw new UnsupportedOperationException();
    }

    public boolean remove(Object o) {
        for (Iterator<E> i = iterator(); i.hasNext();) {
            E e = i.next();
            if (o == null ? e == null : o.equals(e)) {
                i.remove();
                return true;
            }
        }
        return false;
    }

    public boolean containsAll(Collection<?> c) {
        for (Object o : c) {
            if (!contains(o)) {
                return false;
            }
        }
        return true;
    }

    public boolean addAll(Collection<? extends E> c) {
        boolean changed = false;
        for (E e : c) {
            if (add(e)) {
                changed = true;
            }
        }
        return changed;
    }

    private boolean keep(Collection<?> c, boolean those) {
        boolean changed = false;
        for (Iterator<E> i = iterator(); i.hasNext();) {
            if (c.contains(i.next()) != those) {
                i.remove();
                changed = true;
            }
        }
        return changed;
    }

    public boolean removeAll(Collection<?> c) {
        return keep(c, false);
    }

    public boolean retainAll(Collection<?> c) {
        return keep(c, true);
    }

    public void clear() {
        for (Iterator<E> i = iterator(); i.hasNext();) {
            i.next();
            i.remove();
        }
    }

    public String toString() {
        StringBuilder out = new StringBuilder();
        out.append('[');
        boolean first = true;
        for (E e : this) {
            if (!first) {
                out.append(", ");
            }
            first = false;
            if (e == this) {
                out.append("(this Collection)");
            } else {
                out.append(e);
            }
        }
        return out.append(']').toString();
    }
}
