package ledger;

import java.lang.annotation.ElementType;
import java.lang.annotation.Retention;
import java.lang.annotation.RetentionPolicy;
import java.lang.annotation.Target;

/** Says by whom something is looked at. Nothing asks for it at run time. */
@Retention(RetentionPolicy.RUNTIME)
@Target({
    ElementType.TYPE, ElementType.METHOD, ElementType.FIELD, ElementType.PARAMETER, ElementType.TYPE_USE,
})
public @interface Audited {
    String by() default "nobody";

    int times() default 1;

    long since() default 20000101L;

    char mark() default '*';

    String[] reasons() default {};
}
