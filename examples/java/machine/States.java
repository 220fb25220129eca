/** The states of the machine, and the signs that it knows. */
interface States {
    int CODE = 0;
    int SLASH = 1;
    int LINE = 2;
    int BLOCK = 3;
    int STAR = 4;
    int QUOTE = 5;
    int ESCAPE = 6;

    char STROKE = '/';

    /** How often each state is entered; making it is the interface's initialization. */
    int[] ENTERED = new int[ESCAPE + 1];

    static boolean isComment(int state) {
        switch (state) {
            case LINE:
            case BLOCK:
            case STAR:
                return true;
            default:
                return false;
        }
    }

    /** The state's name; a table with a hole, since SLASH has none. */
    default String name(int state) {
        switch (state) {
            case CODE:
                return "code";
            case LINE:
                return "line";
            case BLOCK:
            case STAR:
                return "block";
            case QUOTE:
                return "quote";
        }
        return "between";
    }
}
