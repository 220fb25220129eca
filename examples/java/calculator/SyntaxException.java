/** A line is no calculation. */
class SyntaxException extends Exception {
    private static final long serialVersionUID = 1L;

    private final int place;

    SyntaxException(String message, int place) {
        super(message);
        this.place = place;
    }

    int place() {
        return place;
    }
}
