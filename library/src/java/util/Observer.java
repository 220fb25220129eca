package java.util;

public interface Observer {
    void update(Observable from, Object what);
}
