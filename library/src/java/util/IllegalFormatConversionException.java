package java.util;

public class IllegalFormatConversionException extends IllegalFormatException {
    private final char conversion;
    private final Class<?> of;

    IllegalFormatConversionException(char conversion, Object value) {
        this.conversion = conversion;
        this.of = value.getClass();
    }

    public char getConversion() {
        return conversion;
    }

    public Class<?> getArgumentClass() {
        return of;
    }

    public String getMessage() {
        return conversion + " != " + of.getName();
    }
}
