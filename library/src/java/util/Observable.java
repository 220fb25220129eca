package java.util;

public class Observable {
    private final Vector<Observer> observers = new Vector<Observer>();
    private boolean changed;

    public Observable() {
    }

    public void addObserver(Observer observer) {
        if (observer == null) {
            throw new NullPointerException();
        }
        if (!observers.contains(observer)) {
            observers.add(observer);
        }
    }

    public void deleteObserver(Observer observer) {
        observers.remove(observer);
    }

    public void deleteObservers() {
        observers.clear();
    }

    public int countObservers() {
        return observers.size();
    }

    public void notifyObservers() {
        notifyObservers(null);
    }

    /** Tells those that are there now, the last one first. */
    public void notifyObservers(Object what) {
        if (changed) {
            clearChanged();
            Object[] now = observers.toArray();
            for (int i = now.length - 1; i >= 0; i--) {
                ((Observer) now[i]).update(this, what);
            }
        }
    }

    protected void setChanged() {
        changed = true;
    }

    protected void clearChanged() {
        changed = false;
    }

    public boolean hasChanged() {
        return changed;
    }
}
