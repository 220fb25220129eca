package java.lang.annotation;

/** What is above each annotation type, so that a program may declare its own. No annotation is ever made. */
public interface Annotation {
    boolean equals(Object o);

    int hashCode();

    String toString();

    Class<? extends Annotation> annotationType();
}
