package java.util;

/**
 * Texts by formats: d x X o s S c C b B h H n %, with flags, an argument's number or `<`, a width, and for texts a precision.
 * A format is judged before its values, so that nothing is written of a wrong one, and of wrong values what stands before them.
 */
public final class Formats {
    private final StringBuilder out;
    private final String format;
    private final Object[] values;
    private int at;
    private int ordinary;
    private int last = -1;
    private boolean judges;

    private Formats(StringBuilder out, String format, Object[] values) {
        this.out = out;
        this.format = format;
        this.values = values;
    }

    public static StringBuilder format(StringBuilder out, String format, Object[] values) {
        int before = out.length();
        Formats f = new Formats(out, format, values);
        boolean judged = false;
        try {
            f.all();
            judged = true;
        } finally {
            // What went wrong may have been the format, here or further on.
            if (!judged) {
                f.judge(before);
            }
        }
        return out;
    }

    private void judge(int before) {
        String done = out.substring(before);
        out.setLength(before);
        judges = true;
        at = 0;
        try {
            all();
        } finally {
            out.setLength(before);
        }
        out.append(done);
    }

    private void all() {
        int n = format.length();
        while (at < n) {
            char c = format.charAt(at);
            at++;
            if (c == '%') {
                specifier(at);
            } else {
                out.append(c);
            }
        }
    }

    private boolean isDigit() {
        return at < format.length() && format.charAt(at) >= '0' && format.charAt(at) <= '9';
    }

    private int number() {
        int number = 0;
        while (isDigit()) {
            number = 10 * number + format.charAt(at) - '0';
            at++;
        }
        return number;
    }

    /** `%[number$][flags][width][.precision]conversion`, from behind the `%`. */
    private void specifier(int begin) {
        int place = -1;
        if (isDigit()) {
            int number = number();
            if (at < format.length() && format.charAt(at) == '$') {
                place = number - 1;
                at++;
            } else {
                at = begin;
            }
        }
        int flagsAt = at;
        while (at < format.length() && "-#+ 0,(<".indexOf(format.charAt(at)) >= 0) {
            at++;
        }
        String flags = format.substring(flagsAt, at);
        int width = isDigit() ? number() : -1;
        int precision = -1;
        boolean ends = at < format.length();
        if (ends && format.charAt(at) == '.') {
            at++;
            ends = isDigit();
            precision = number();
        }
        char how = at < format.length() ? format.charAt(at) : '.';
        if (!ends || how != '%' && !Character.isLetter(how)) {
            throw new UnknownFormatConversionException(String.valueOf(format.charAt(begin < format.length() ? begin : begin - 1)));
        }
        at++;
        if ("dxXosScCbBhHn%".indexOf(how) < 0 && "eEfgGaAtT".indexOf(how) < 0) {
            throw new UnknownFormatConversionException(String.valueOf(how));
        }
        if (!flags.isEmpty() || precision >= 0) {
            check(how, flags, how == '%' ? -1 : place, width, precision);
        }
        if (how == 'n') {
            out.append('\n');
        } else if (how == '%') {
            pad("%", flags, width);
        } else if (!judges) {
            Object value = value(how, flags, place, width, precision);
            pad(text(value, how, flags, width, precision), flags, width);
        }
    }

    private static boolean has(String flags, char flag) {
        return flags.indexOf(flag) >= 0;
    }

    private static void refuse(String refused, String flags, char how) {
        for (int i = 0; i < refused.length(); i++) {
            if (has(flags, refused.charAt(i))) {
                throw new FormatFlagsConversionMismatchException(refused.substring(i, i + 1), Character.toLowerCase(how));
            }
        }
    }

    private static String sorted(String flags, boolean upper) {
        String all = upper ? "-^#+ 0,(<" : "-#+ 0,(<";
        String found = "";
        for (int i = 0; i < all.length(); i++) {
            if (all.charAt(i) == '^' || has(flags, all.charAt(i))) {
                found = found.concat(all.substring(i, i + 1));
            }
        }
        return found;
    }

    /** A specifier as exceptions tell it. */
    private static String told(char how, String flags, int place, int width, int precision) {
        return "%" + sorted(flags, false) + (place < 0 ? "" : place + 1 + "$") + (width < 0 ? "" : width)
            + (precision < 0 ? "" : "." + precision) + how;
    }

    /** What is wrong with a specifier, whatever its value. */
    private static void check(char how, String flags, int place, int width, int precision) {
        boolean isNumber = "dxXo".indexOf(how) >= 0;
        boolean isText = "sSbBhH".indexOf(how) >= 0;
        if ("bBhH".indexOf(how) >= 0) {
            refuse("#", flags, how);
        }
        if (how == '%' || how == 'n') {
            String others = flags.replace(how == '%' ? "-" : "", "");
            if (precision >= 0) {
                throw new IllegalFormatPrecisionException(precision);
            }
            if (!others.isEmpty()) {
                throw new IllegalFormatFlagsException(sorted(flags, false));
            }
        }
        if (how == 'c' || how == 'C') {
            if (precision >= 0) {
                throw new IllegalFormatPrecisionException(precision);
            }
            refuse("#+ 0,(", flags, how);
        }
        if (width < 0 && how != 'n' && (has(flags, '-') || isNumber && has(flags, '0'))) {
            throw new MissingFormatWidthException(told(how, flags, place, width, precision));
        }
        if (isText) {
            refuse("+ 0,(", flags, how);
        }
        if (isNumber) {
            boolean signs = has(flags, '+') && has(flags, ' ');
            if (signs || has(flags, '-') && has(flags, '0')) {
                throw new IllegalFormatFlagsException(sorted(flags, how == 'X'));
            }
            if (precision >= 0) {
                throw new IllegalFormatPrecisionException(precision);
            }
            refuse(how == 'd' ? "#" : ",", flags, how);
        }
    }

    private Object value(char how, String flags, int given, int width, int precision) {
        int place = given;
        if (flags.indexOf('<') >= 0) {
            place = last;
        } else if (place < 0) {
            place = ordinary;
            ordinary++;
        }
        if (place < 0 || values != null && place >= values.length) {
            throw new MissingFormatArgumentException(told(how, flags, given, width, precision));
        }
        last = place;
        return values == null ? null : values[place];
    }

    private void pad(String text, String flags, int width) {
        boolean left = flags.indexOf('-') >= 0;
        if (left) {
            out.append(text);
        }
        for (int k = text.length(); k < width; k++) {
            out.append(' ');
        }
        if (!left) {
            out.append(text);
        }
    }

    private static String cut(String text, int precision) {
        return precision >= 0 && precision < text.length() ? text.substring(0, precision) : text;
    }

    private static String text(Object value, char how, String flags, int width, int precision) {
        switch (how) {
            case 'd':
            case 'x':
            case 'X':
            case 'o':
                return value == null ? how == 'X' ? "NULL" : "null" : integer(value, how, flags, width);
            case 'c':
                return value == null ? "null" : character(value, how);
            case 'C':
                return value == null ? "NULL" : character(value, how).toUpperCase();
            case 'b':
                return cut(truth(value), precision);
            case 'B':
                return cut(truth(value).toUpperCase(), precision);
            case 'h':
                return cut(value == null ? "null" : Integer.toHexString(value.hashCode()), precision);
            case 'H':
                return cut(value == null ? "NULL" : Integer.toHexString(value.hashCode()).toUpperCase(), precision);
            case 's':
                refuse("#", flags, how);
                return cut(String.valueOf(value), precision);
            case 'S':
                refuse("#", flags, how);
                return cut(String.valueOf(value).toUpperCase(), precision);
            default:
                if (value == null) {
                    return cut("null", precision);
                }
                throw new IllegalFormatConversionException(Character.toLowerCase(how), value);
        }
    }

    private static String truth(Object value) {
        return value instanceof Boolean ? value.toString() : value == null ? "false" : "true";
    }

    private static String character(Object value, char how) {
        if (value instanceof Character) {
            return value.toString();
        }
        if (value instanceof Integer || value instanceof Short || value instanceof Byte) {
            return String.of(Character.toChars(((Number) value).intValue()));
        }
        throw new IllegalFormatConversionException(Character.toLowerCase(how), value);
    }

    private static String integer(Object value, char how, String flags, int width) {
        if (!(value instanceof Number)) {
            throw new IllegalFormatConversionException(Character.toLowerCase(how), value);
        }
        if (how == 'd') {
            return signed(value.toString(), "", flags, width);
        }
        if (!(value instanceof java.math.BigInteger)) {
            refuse("( +", flags, how);
        }
        int radix = how == 'o' ? 8 : 16;
        String front = flags.indexOf('#') < 0 ? "" : how == 'o' ? "0" : "0x";
        String text;
        if (value instanceof java.math.BigInteger) {
            text = signed(((java.math.BigInteger) value).toString(radix), front, flags, width);
        } else {
            long l = ((Number) value).longValue();
            long bits = value instanceof Long ? l
                : value instanceof Integer ? l & 0xffffffffL
                : value instanceof Short ? l & 0xffff : l & 0xff;
            String digits = radix == 8 ? Long.toOctalString(bits) : Long.toHexString(bits);
            text = front.concat(zeros(flags.indexOf('0') < 0 ? 0 : width - front.length() - digits.length())).concat(digits);
        }
        return how == 'X' ? text.toUpperCase() : text;
    }

    private static String zeros(int n) {
        StringBuilder zeros = new StringBuilder();
        for (int i = 0; i < n; i++) {
            zeros.append('0');
        }
        return zeros.toString();
    }

    private static String signed(String text, String prefix, String flags, int width) {
        boolean negative = text.charAt(0) == '-';
        String digits = negative ? text.substring(1) : text;
        boolean closes = negative && flags.indexOf('(') >= 0;
        String sign = closes ? "(" : negative ? "-" : flags.indexOf('+') >= 0 ? "+" : flags.indexOf(' ') >= 0 ? " " : "";
        String front = sign.concat(prefix);
        String behind = closes ? ")" : "";
        if (flags.indexOf(',') >= 0) {
            digits = grouped(digits);
        }
        if (flags.indexOf('0') >= 0) {
            digits = zeros(width - front.length() - digits.length() - behind.length()).concat(digits);
        }
        return front.concat(digits).concat(behind);
    }

    private static String grouped(String digits) {
        StringBuilder out = new StringBuilder();
        int n = digits.length();
        for (int i = 0; i < n; i++) {
            if (i > 0 && (n - i) % 3 == 0) {
                out.append(',');
            }
            out.append(digits.charAt(i));
        }
        return out.toString();
    }
}
