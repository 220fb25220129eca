package java.util;

public class Stack<E> extends Vector<E> {
    public Stack() {
    }

    public E push(E e) {
        add(e);
        return e;
    }

    public E pop() {
        E top = peek();
        remove(size() - 1);
        return top;
    }

    public E peek() {
        if (size() == 0) {
            throw new EmptyStackException();
        }
        return get(size() - 1);
    }

    public boolean empty() {
        return size() == 0;
    }

    public int search(Object o) {
        int i = lastIndexOf(o);
        return i >= 0 ? size() - i : -1;
    }

    public Object clone() {
        Stack<E> copy = new Stack<E>();
        copy.addAll(this);
        return copy;
    }
}
