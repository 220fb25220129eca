package java.lang;

/** The machine makes it for a division by zero alone, and runs no constructor: null in the field is the message of that. */
public class ArithmeticException extends RuntimeException {
    public ArithmeticException() {
        super(NoMessage.TEXT);
    }

    public ArithmeticException(String message) {
        super(message == null ? NoMessage.TEXT : message);
    }

    public String getMessage() {
        String message = super.getMessage();
        return message == null ? "/ by zero" : message == NoMessage.TEXT ? null : message;
    }
}
