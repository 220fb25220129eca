package java.util.regex;

import java.util.ArrayList;
import java.util.HashMap;
import java.util.List;
import java.util.Map;

/**
 * Regular expressions: alternatives, groups, also with names, classes, what stands ahead or behind, back references, ^ $ \b \B \G,
 * repetitions of each kind, \Q..\E, and flags, also within: of letters those of ASCII, with UNICODE_CASE those of Latin-1. Matched by
 * going back. What a pattern has beyond that is a PatternSyntaxException.
 */
public final class Pattern implements java.io.Serializable {
    public static final int CASE_INSENSITIVE = 2;
    public static final int COMMENTS = 4;
    public static final int MULTILINE = 8;
    public static final int LITERAL = 16;
    public static final int DOTALL = 32;
    public static final int UNICODE_CASE = 64;

    private static final int KNOWN_FLAGS = 126;
    /** The letters of the flags, each at the number of its bit. */
    private static final String LETTERS = "?ixm?su";
    private static final int ENDLESS = Integer.MAX_VALUE;

    /** The last ones that the methods of java.lang.String asked for: no memory comes back. */
    private static final Pattern[] KEPT = new Pattern[8];
    private static int nextKept;

    private final String pattern;
    private int flags;
    private final Node root;
    private int at;
    int groups;
    /** The names of groups, each behind its group's number; null where there are none. */
    private Map<String, Integer> names;

    private Pattern(String pattern, int flags) {
        this.pattern = pattern;
        this.flags = flags;
        Part all = (flags & LITERAL) == 0 ? alternatives() : new Part(new Node(Node.JOIN), 0);
        while ((flags & LITERAL) != 0 && at < pattern.length()) {
            append(all, new Part(of(taken("")), 1));
        }
        if (at < pattern.length()) {
            throw new PatternSyntaxException("Unmatched closing ')'", pattern, at - 1);
        }
        all.last.next = new Node(Node.ACCEPT);
        this.root = all.first;
    }

    public static Pattern compile(String pattern) {
        return new Pattern(pattern, 0);
    }

    public static Pattern compile(String pattern, int flags) {
        if ((flags & ~KNOWN_FLAGS) != 0) {
            throw new IllegalArgumentException("Unknown flag 0x" + Integer.toHexString(flags & ~KNOWN_FLAGS));
        }
        return new Pattern(pattern, flags);
    }

    /** The pattern of a text, made once for a text that is used often. */
    public static Pattern kept(String pattern) {
        for (Pattern p : KEPT) {
            if (p != null && p.pattern.equals(pattern)) {
                return p;
            }
        }
        Pattern made = compile(pattern);
        KEPT[nextKept] = made;
        nextKept = nextKept + 1 & 7;
        return made;
    }

    public static boolean matches(String pattern, CharSequence text) {
        return compile(pattern).matcher(text).matches();
    }

    public static String quote(String text) {
        return text.contains("\\E") ? "\\Q" + text.replace("\\E", "\\E\\\\E\\Q") + "\\E" : "\\Q" + text + "\\E";
    }

    public Matcher matcher(CharSequence text) {
        return new Matcher(this, text.toString());
    }

    public String pattern() {
        return pattern;
    }

    public int flags() {
        return flags;
    }

    public String toString() {
        return pattern;
    }

    public String[] split(CharSequence text) {
        return split(text, 0);
    }

    public String[] split(CharSequence text, int limit) {
        String t = text.toString();
        List<String> parts = new ArrayList<String>();
        Matcher m = matcher(t);
        int from = 0;
        while ((limit <= 0 || parts.size() < limit - 1) && m.find()) {
            if (m.end() > 0) {
                parts.add(t.substring(from, m.start()));
                from = m.end();
            }
        }
        if (parts.isEmpty()) {
            return new String[] {t};
        }
        parts.add(t.substring(from));
        int n = parts.size();
        while (limit == 0 && n > 0 && parts.get(n - 1).isEmpty()) {
            n--;
        }
        return parts.subList(0, n).toArray(new String[n]);
    }

    boolean match(Run run, int from) {
        return root.match(run, from, null);
    }

    // ---- reading

    /** Nodes in a row, whose last has none behind it yet, and how many chars they match at most. */
    private static final class Part {
        final Node first;
        Node last;
        int longest;

        Part(Node first, Node last, int longest) {
            this.first = first;
            this.last = last;
            this.longest = longest;
        }

        Part(Node only, int longest) {
            this(only, only, longest);
        }
    }

    private static int capped(long length) {
        return (int) Math.min(length, ENDLESS);
    }

    /** With COMMENTS what stands between is skipped: white space, and from `#` to the line's end. */
    private void skip() {
        while ((flags & COMMENTS) != 0 && at < pattern.length()
                && (more('#') || pattern.charAt(at) <= ' ' && Character.isWhitespace(pattern.charAt(at)))) {
            boolean comment = more('#');
            at++;
            while (comment && at < pattern.length() && !more('\n')) {
                at++;
            }
        }
    }

    private PatternSyntaxException wrong(String why) {
        return new PatternSyntaxException(why, pattern, at);
    }

    private boolean more(char c) {
        return at < pattern.length() && pattern.charAt(at) == c;
    }

    private boolean take(String front) {
        if (pattern.startsWith(front, at)) {
            at += front.length();
            return true;
        }
        return false;
    }

    private char taken(String why) {
        if (at == pattern.length()) {
            throw wrong(why);
        }
        at++;
        return pattern.charAt(at - 1);
    }

    private Part alternatives() {
        Part one = sequence();
        if (!more('|')) {
            return one;
        }
        at++;
        Part rest = alternatives();
        Node either = new Node(Node.EITHER);
        Node join = new Node(Node.JOIN);
        either.next = one.first;
        either.other = rest.first;
        one.last.next = join;
        rest.last.next = join;
        return new Part(either, join, Math.max(one.longest, rest.longest));
    }

    private Part sequence() {
        Part all = new Part(new Node(Node.JOIN), 0);
        skip();
        while (at < pattern.length() && !more('|') && !more(')')) {
            if (take("\\Q")) {
                quoted(all);
            } else {
                append(all, repeated(atom()));
            }
            skip();
        }
        return all;
    }

    /** What is repeated behind `\E` is the last char. */
    private void quoted(Part all) {
        Part last = null;
        while (at < pattern.length() && !take("\\E")) {
            if (last != null) {
                append(all, last);
            }
            last = new Part(of(taken("")), 1);
        }
        if (last != null) {
            append(all, repeated(last));
        }
    }

    private static void append(Part all, Part more) {
        all.last.next = more.first;
        all.last = more.last;
        all.longest = capped((long) all.longest + more.longest);
    }

    private Part repeated(Part of) {
        skip();
        int least;
        int most;
        if (take("*")) {
            least = 0;
            most = Integer.MAX_VALUE;
        } else if (take("+")) {
            least = 1;
            most = Integer.MAX_VALUE;
        } else if (take("?")) {
            least = 0;
            most = 1;
        } else if (take("{")) {
            least = count();
            most = least;
            if (take(",")) {
                most = more('}') ? Integer.MAX_VALUE : count();
            }
            if (!take("}")) {
                throw wrong("Unclosed counted closure");
            }
            if (most < least) {
                throw wrong("Illegal repetition range");
            }
        } else {
            return of;
        }
        boolean reluctant = take("?");
        boolean possessive = !reluctant && take("+");
        Part loop = of.first == of.last && of.first.kind == Node.SET ? setLoop(of.first) : loop(of);
        loop.last.least = least;
        loop.last.most = most;
        loop.last.reluctant = reluctant;
        loop.longest = most == ENDLESS && loop.last.kind == Node.SETS ? ENDLESS - 1 : capped((long) of.longest * most);
        if (more('{')) {
            throw wrong("Repetition of a repetition, which this library lacks");
        }
        return possessive ? inside(Node.ATOMIC, loop) : loop;
    }

    private int count() {
        if (at == pattern.length() || !Character.isDigit(pattern.charAt(at))) {
            throw wrong("Illegal repetition");
        }
        int n = 0;
        while (at < pattern.length() && Character.isDigit(pattern.charAt(at))) {
            n = 10 * n + pattern.charAt(at) - '0';
            at++;
        }
        return n;
    }

    private static Part setLoop(Node of) {
        Node n = new Node(Node.SETS);
        n.set = of.set;
        return new Part(n, 1);
    }

    private static Part loop(Part of) {
        Node loop = new Node(Node.LOOP);
        Node enter = new Node(Node.ENTER);
        enter.next = loop;
        loop.body = of.first;
        of.last.next = loop;
        return new Part(enter, loop, of.longest);
    }

    /** What is matched by itself, from a place on. */
    private static Part inside(int kind, Part body) {
        Node n = new Node(kind);
        n.body = body.first;
        body.last.next = new Node(Node.STOP);
        return new Part(n, kind == Node.ATOMIC ? body.longest : 0);
    }

    /** What stands behind a place: from no place further off than is matched at most. */
    private Part behind(int kind, Part body) {
        if (body.longest == ENDLESS) {
            at--;
            throw wrong("Look-behind group does not have an obvious maximum length");
        }
        Node n = new Node(kind);
        n.body = body.first;
        n.most = body.longest;
        body.last.next = new Node(Node.STOP_THERE);
        return new Part(n, 0);
    }

    private CharSet set(boolean not) {
        return new CharSet(not, (flags & CASE_INSENSITIVE) == 0 ? 0 : (flags & UNICODE_CASE) == 0 ? 0x7f : 0xff);
    }

    private Node of(char c) {
        Node n = new Node(Node.SET);
        n.set = set(false);
        n.set.add(c, c);
        return n;
    }

    private Part atom() {
        char c = taken("");
        Node n;
        switch (c) {
            case '(':
                return group();
            case '[':
                n = new Node(Node.SET);
                n.set = set();
                break;
            case '.':
                n = new Node(Node.SET);
                n.set = new CharSet(true, 0);
                if ((flags & DOTALL) == 0) {
                    n.set.addAll("\n\n\r\r\u0085\u0085\u2028\u2029");
                }
                break;
            case '^':
                n = new Node((flags & MULTILINE) == 0 ? Node.BEGIN : Node.LINE_BEGIN);
                break;
            case '$':
                n = new Node((flags & MULTILINE) == 0 ? Node.END : Node.LINE_END);
                break;
            case '*':
            case '+':
            case '?':
                at--;
                throw wrong("Dangling meta character '" + c + "'");
            case '\\':
                if (take("R")) {
                    return lineBreak();
                }
                n = escaped();
                break;
            default:
                n = of(c);
        }
        return new Part(n, n.kind == Node.SET ? 1 : n.kind == Node.BACK ? ENDLESS : 0);
    }

    /** CR and LF, or one char that breaks lines. */
    private Part lineBreak() {
        Node either = new Node(Node.EITHER);
        Node join = new Node(Node.JOIN);
        either.next = of('\r');
        either.next.next = of('\n');
        either.next.next.next = join;
        either.other = of('\n');
        either.other.set.addAll(known('v'));
        either.other.next = join;
        return new Part(either, join, 2);
    }

    private Node escaped() {
        char c = taken("Unexpected internal error");
        Node n;
        if (c == 'b' || c == 'B') {
            n = new Node(c == 'b' ? Node.BOUNDARY : Node.NO_BOUNDARY);
        } else if (c == 'A' || c == 'z' || c == 'Z' || c == 'G') {
            n = new Node(c == 'A' ? Node.BEGIN : c == 'z' ? Node.END_OF_ALL : c == 'Z' ? Node.END : Node.AFTER_LAST);
        } else if (c >= '1' && c <= '9') {
            n = new Node(Node.BACK);
            int group = c - '0';
            while (at < pattern.length() && Character.isDigit(pattern.charAt(at)) && 10 * group + pattern.charAt(at) - '0' <= groups) {
                group = 10 * group + pattern.charAt(at) - '0';
                at++;
            }
            n.least = 2 * group;
            n.anyCase = (flags & CASE_INSENSITIVE) != 0;
        } else if (c == 'k') {
            if (!take("<")) {
                throw wrong("\\k is not followed by '<' for named capturing group");
            }
            String name = name();
            int group = groupOf(name);
            if (group < 0) {
                at--;
                throw wrong("named capturing group <" + name + "> does not exist");
            }
            n = new Node(Node.BACK);
            n.least = 2 * group;
            n.anyCase = (flags & CASE_INSENSITIVE) != 0;
        } else {
            at -= 2;
            n = new Node(Node.SET);
            n.set = set(false);
            int known = item(n.set);
            if (known >= 0) {
                n.set.add(known, known);
            }
        }
        return n;
    }

    /** Flags of a group or of what follows, from behind the `?`; whether a group follows. */
    private boolean inline() {
        boolean on = true;
        while (true) {
            char c = taken("Unknown inline modifier");
            int bit = LETTERS.indexOf(c, 1);
            if (c == ':' || c == ')') {
                return c == ':';
            } else if (c == '-' && on) {
                on = false;
            } else if (bit < 0 || c == '?') {
                at--;
                throw wrong("Unknown inline modifier");
            } else {
                flags = on ? flags | 1 << bit : flags & ~(1 << bit);
            }
        }
    }

    private Part group() {
        int before = flags;
        if (more('?') && at + 1 < pattern.length() && LETTERS.concat("-").indexOf(pattern.charAt(at + 1), 1) >= 0) {
            at++;
            if (!inline()) {
                return new Part(new Node(Node.JOIN), 0);
            }
            return closed(alternatives(), before);
        }
        return closed(opened(), before);
    }

    private Part closed(Part part, int before) {
        if (!take(")")) {
            throw wrong("Unclosed group");
        }
        flags = before;
        return part;
    }

    private Part opened() {
        Part part;
        if (take("?:")) {
            part = alternatives();
        } else if (take("?=")) {
            part = inside(Node.AHEAD, alternatives());
        } else if (take("?!")) {
            part = inside(Node.NOT_AHEAD, alternatives());
        } else if (take("?>")) {
            part = inside(Node.ATOMIC, alternatives());
        } else if (take("?<=")) {
            part = behind(Node.BEHIND, alternatives());
        } else if (take("?<!")) {
            part = behind(Node.NOT_BEHIND, alternatives());
        } else if (more('?') && !pattern.startsWith("?<", at)) {
            at++;
            throw wrong("Unknown inline modifier");
        } else {
            groups++;
            if (take("?<")) {
                String name = name();
                if (groupOf(name) >= 0) {
                    throw wrong("Named capturing group <" + name + "> is already defined");
                }
                if (names == null) {
                    names = new HashMap<String, Integer>();
                }
                names.put(name, groups);
            }
            Node open = new Node(Node.GROUP);
            Node close = new Node(Node.GROUP);
            open.least = 2 * groups;
            close.least = 2 * groups + 1;
            Part inner = alternatives();
            open.next = inner.first;
            inner.last.next = close;
            part = new Part(open, close, inner.longest);
        }
        return part;
    }

    /** The name of a group, from behind its bracket. */
    private String name() {
        int from = at;
        while (at < pattern.length() && Character.isLetterOrDigit(pattern.charAt(at)) && (at > from || !Character.isDigit(pattern.charAt(at)))) {
            at++;
        }
        if (at == from) {
            throw wrong("capturing group name does not start with a Latin letter");
        }
        if (!take(">")) {
            throw wrong("named capturing group is missing trailing '>'");
        }
        return pattern.substring(from, at - 1);
    }

    /** The number of a group with a name, or -1. */
    int groupOf(String name) {
        Integer group = names == null ? null : names.get(name);
        return group == null ? -1 : group;
    }

    /** A class, from behind its bracket. */
    private CharSet set() {
        CharSet all = set(take("^"));
        CharSet set = all;
        do {
            skip();
            if (at == pattern.length()) {
                at--;
                throw wrong("Unclosed character class");
            }
            if (take("[")) {
                set.join(set());
                continue;
            }
            if (take("&&")) {
                set.and = set(false);
                set = set.and;
                continue;
            }
            int low = item(set);
            if (low >= 0) {
                int high = low;
                if (more('-') && !pattern.startsWith("-]", at) && !pattern.startsWith("-[", at)) {
                    at++;
                    high = item(set);
                    if (high < low) {
                        at--;
                        throw wrong("Illegal character range");
                    }
                }
                set.add(low, high);
            }
            skip();
        } while (!take("]"));
        return all;
    }

    /** One char; or -1 where a class of several was added. */
    private int item(CharSet set) {
        char c = taken("Unclosed character class");
        if (c != '\\') {
            return c;
        }
        c = taken("Unexpected internal error");
        switch (c) {
            case 'd':
            case 'w':
            case 's':
            case 'h':
            case 'v':
                set.addAll(known(c));
                return -1;
            case 'D':
            case 'W':
            case 'S':
            case 'H':
            case 'V':
                set.addAllBut(known((char) (c + 'a' - 'A')));
                return -1;
            case 'p':
                set.addAll(named());
                return -1;
            case 'P':
                set.addAllBut(named());
                return -1;
            case 'a':
                return 7;
            case 'e':
                return 27;
            case 'x':
                return hex(2, "Illegal hexadecimal escape sequence");
            case 'n':
                return '\n';
            case 't':
                return '\t';
            case 'r':
                return '\r';
            case 'f':
                return '\f';
            case 'u':
                return hex(4, "Illegal Unicode escape sequence");
            case '0': {
                int n = 0;
                int from = at;
                while (at < from + 3 && at < pattern.length() && Character.digit(pattern.charAt(at), 8) >= 0 && n < 32) {
                    n = 8 * n + pattern.charAt(at) - '0';
                    at++;
                }
                if (at == from) {
                    throw wrong("Illegal octal escape sequence");
                }
                return n;
            }
            default:
                if (c >= 'a' && c <= 'z' || c >= 'A' && c <= 'Z' || c >= '0' && c <= '9') {
                    at--;
                    throw wrong("Escape of a kind that this library lacks");
                }
                return c;
        }
    }

    private int hex(int count, String wrong) {
        int n = 0;
        for (int i = 0; i < count; i++) {
            int digit = Character.digit(taken(wrong), 16);
            if (digit < 0) {
                throw wrong(wrong);
            }
            n = 16 * n + digit;
        }
        return n;
    }

    /** Pairs of a least and a greatest char, the least pair first. */
    private static String known(char c) {
        switch (c) {
            case 'd':
                return "09";
            case 'w':
                return "09AZ__az";
            case 's':
                return "\t\r  ";
            case 'h':
                return "\t\t  \u00a0\u00a0\u1680\u1680\u180e\u180e\u2000\u200a\u202f\u202f\u205f\u205f\u3000\u3000";
            default:
                return "\n\r\u0085\u0085\u2028\u2029";
        }
    }

    private String named() {
        String name = String.valueOf(taken("Illegal/unsupported escape sequence"));
        if (name.equals("{")) {
            int end = pattern.indexOf('}', at);
            if (end < 0) {
                throw wrong("Unclosed character family");
            }
            name = pattern.substring(at, end);
            at = end + 1;
        }
        switch (name) {
            case "Lower":
                return "az";
            case "Upper":
                return "AZ";
            case "ASCII":
                return "\0\u007f";
            case "Blank":
                return "\t\t  ";
            case "Graph":
                return "!~";
            case "Print":
                return " ~";
            case "javaWhitespace":
                return "\t\r\u001c ";
            case "Nd":
            case "javaDigit":
                return "09";
            case "Lu":
            case "IsUppercase":
            case "javaUpperCase":
                return "AZ\u00c0\u00d6\u00d8\u00de";
            case "Ll":
                return "az\u00b5\u00b5\u00df\u00f6\u00f8\u00ff";
            case "IsLowercase":
            case "javaLowerCase":
                return "az\u00aa\u00aa\u00b5\u00b5\u00ba\u00ba\u00df\u00f6\u00f8\u00ff";
            case "P":
            case "IsPunctuation":
                return "!#%*,/:;?@[]__{{}}\u00a1\u00a1\u00a7\u00a7\u00ab\u00ab\u00b6\u00b7\u00bb\u00bb\u00bf\u00bf";
            case "Alpha":
                return "AZaz";
            case "Digit":
                return "09";
            case "Alnum":
                return "09AZaz";
            case "Punct":
                return "!/:@[`{~";
            case "Space":
                return "\t\r  ";
            case "XDigit":
                return "09AFaf";
            case "L":
            case "IsLetter":
            case "javaLetter":
            case "IsAlphabetic":
                return "AZaz\u00aa\u00aa\u00b5\u00b5\u00ba\u00ba\u00c0\u00d6\u00d8\u00f6\u00f8\u00ff";
            default:
                at--;
                throw wrong("Unknown character property name {" + name + "}");
        }
    }

    /** Chars by pairs, with those of other classes, and of these the ones that are in another, too. */
    private static final class CharSet {
        private final boolean not;
        /** Up to which char letters stand for those of the other case, too: 0 for none. */
        private final int anyCase;
        private String pairs = "";
        private CharSet joined;
        private CharSet nextJoined;
        CharSet and;

        CharSet(boolean not, int anyCase) {
            this.not = not;
            this.anyCase = anyCase;
        }

        void add(int low, int high) {
            pairs = pairs.concat(String.valueOf((char) low)).concat(String.valueOf((char) high));
        }

        void addAll(String more) {
            pairs = pairs.concat(more);
        }

        void addAllBut(String others) {
            int low = 0;
            for (int i = 0; i < others.length(); i += 2) {
                if (others.charAt(i) > low) {
                    add(low, others.charAt(i) - 1);
                }
                low = others.charAt(i + 1) + 1;
            }
            add(low, 0xffff);
        }

        void join(CharSet other) {
            other.nextJoined = joined;
            joined = other;
        }

        private boolean hasPair(char c) {
            for (int i = 0; i < pairs.length(); i += 2) {
                if (c >= pairs.charAt(i) && c <= pairs.charAt(i + 1)) {
                    return true;
                }
            }
            return false;
        }

        boolean has(char c) {
            boolean there = hasPair(c)
                || c <= anyCase && (hasPair(Character.toUpperCase(c)) || hasPair(Character.toLowerCase(c)));
            for (CharSet other = joined; other != null && !there; other = other.nextJoined) {
                there = other.has(c);
            }
            return (there && (and == null || and.has(c))) != not;
        }
    }

    // ---- matching

    /** What a match is made of: the text, its part that is looked at, where the groups stand, and whether all of that part is wanted. */
    static final class Run {
        final String text;
        final int from;
        final int to;
        final int last;
        final boolean whole;
        final int[] places;
        /** Whether a char behind the end was asked for. */
        boolean hitEnd;
        private int stopped;
        private int stop;

        Run(String text, int from, int to, int last, boolean whole, int[] places) {
            this.text = text;
            this.from = from;
            this.to = to;
            this.last = last;
            this.whole = whole;
            this.places = places;
        }
    }

    /** How often a loop has gone round, and where it began last. */
    private static final class Rounds {
        final int count;
        final int began;
        final Rounds outer;

        Rounds(int count, int began, Rounds outer) {
            this.count = count;
            this.began = began;
            this.outer = outer;
        }
    }

    private static final class Node {
        static final int ACCEPT = 0;
        static final int STOP = 1;
        static final int JOIN = 2;
        static final int SET = 3;
        static final int SETS = 4;
        static final int EITHER = 5;
        static final int LOOP = 6;
        static final int ENTER = 7;
        static final int GROUP = 8;
        static final int BACK = 9;
        static final int BEGIN = 10;
        static final int END = 11;
        static final int END_OF_ALL = 12;
        static final int BOUNDARY = 13;
        static final int NO_BOUNDARY = 14;
        static final int AHEAD = 15;
        static final int NOT_AHEAD = 16;
        static final int ATOMIC = 17;
        static final int LINE_BEGIN = 18;
        static final int LINE_END = 19;
        static final int BEHIND = 20;
        static final int NOT_BEHIND = 21;
        static final int STOP_THERE = 22;
        static final int AFTER_LAST = 23;

        final int kind;
        Node next;
        Node other;
        Node body;
        CharSet set;
        int least;
        int most;
        boolean reluctant;
        boolean anyCase;

        Node(int kind) {
            this.kind = kind;
        }

        boolean match(Run run, int i, Rounds rounds) {
            switch (kind) {
                case ACCEPT:
                    if (run.whole && i < run.to) {
                        return false;
                    }
                    run.places[1] = i;
                    return true;
                case STOP:
                    run.stopped = i;
                    return true;
                case JOIN:
                    return next.match(run, i, rounds);
                case SET:
                    return has(run, i) && next.match(run, i + 1, rounds);
                case SETS:
                    return reluctant ? few(run, i, rounds) : many(run, i, rounds);
                case EITHER:
                    return next.match(run, i, rounds) || other.match(run, i, rounds);
                case LOOP:
                    return again(run, i, rounds);
                case ENTER:
                    return next.match(run, i, new Rounds(0, -1, rounds));
                case GROUP:
                    return at(run, i, rounds);
                case BACK:
                    return back(run, i, rounds);
                case BEGIN:
                    return i == run.from && next.match(run, i, rounds);
                case END:
                    return isEnd(run, i) && next.match(run, i, rounds);
                case END_OF_ALL:
                    return isLast(run, i) && next.match(run, i, rounds);
                case LINE_BEGIN:
                    return i < run.to && (i == run.from || isBreak(run.text, i - 1, i)) && next.match(run, i, rounds);
                case LINE_END:
                    return (isLast(run, i) || isBreak(run.text, i, i)) && next.match(run, i, rounds);
                case BOUNDARY:
                    return isBoundary(run, i) && next.match(run, i, rounds);
                case NO_BOUNDARY:
                    return !isBoundary(run, i) && next.match(run, i, rounds);
                case AFTER_LAST:
                    return i == run.last && next.match(run, i, rounds);
                case STOP_THERE:
                    return i == run.stop;
                case BEHIND:
                    return isBehind(run, i) && next.match(run, i, rounds);
                case NOT_BEHIND:
                    return !isBehind(run, i) && next.match(run, i, rounds);
                case AHEAD:
                    return body.match(run, i, null) && next.match(run, i, rounds);
                case NOT_AHEAD:
                    return !body.match(run, i, null) && next.match(run, i, rounds);
                default:
                    return body.match(run, i, null) && next.match(run, run.stopped, rounds);
            }
        }

        private boolean has(Run run, int i) {
            if (i >= run.to) {
                run.hitEnd = true;
                return false;
            }
            return set.has(run.text.charAt(i));
        }

        private static boolean isLast(Run run, int i) {
            if (i == run.to) {
                run.hitEnd = true;
            }
            return i == run.to;
        }

        private boolean isBehind(Run run, int i) {
            int outer = run.stop;
            run.stop = i;
            boolean found = false;
            for (int from = i; !found && from >= run.from && i - from <= most; from--) {
                found = body.match(run, from, null);
            }
            run.stop = outer;
            return found;
        }

        private boolean many(Run run, int i, Rounds rounds) {
            int n = 0;
            while (n < most && has(run, i + n)) {
                n++;
            }
            while (n >= least) {
                if (next.match(run, i + n, rounds)) {
                    return true;
                }
                n--;
            }
            return false;
        }

        private boolean few(Run run, int i, Rounds rounds) {
            int n = 0;
            while (n < least) {
                if (!has(run, i + n)) {
                    return false;
                }
                n++;
            }
            while (!next.match(run, i + n, rounds)) {
                if (n == most || !has(run, i + n)) {
                    return false;
                }
                n++;
            }
            return true;
        }

        private boolean again(Run run, int i, Rounds rounds) {
            boolean may = rounds.count < most && (rounds.count < least || rounds.began != i);
            Rounds more = new Rounds(rounds.count + 1, i, rounds.outer);
            if (rounds.count < least) {
                return body.match(run, i, more);
            }
            if (reluctant) {
                return next.match(run, i, rounds.outer) || may && body.match(run, i, more);
            }
            return may && body.match(run, i, more) || next.match(run, i, rounds.outer);
        }

        private boolean at(Run run, int i, Rounds rounds) {
            int old = run.places[least];
            run.places[least] = i;
            if (next.match(run, i, rounds)) {
                return true;
            }
            run.places[least] = old;
            return false;
        }

        private boolean back(Run run, int i, Rounds rounds) {
            if (least + 1 >= run.places.length || run.places[least + 1] < 0) {
                return false;
            }
            int n = run.places[least + 1] - run.places[least];
            return i + n <= run.to && run.text.regionMatches(anyCase, i, run.text, run.places[least], n) && next.match(run, i + n, rounds);
        }

        /** The end of the text, or of what stands before its last line's end. */
        private static boolean isEnd(Run run, int i) {
            String text = run.text;
            int left = run.to - i;
            return isLast(run, i) || left == 1 && (text.charAt(i) == '\n' && (i == 0 || text.charAt(i - 1) != '\r') || text.charAt(i) == '\r')
                || left == 2 && text.charAt(i) == '\r' && text.charAt(i + 1) == '\n';
        }

        /** Whether a char breaks lines, and the place isn't between CR and LF. */
        private static boolean isBreak(String text, int i, int place) {
            char c = text.charAt(i);
            return (c == '\n' || c == '\r' || c == 0x85 || (c | 1) == 0x2029)
                && !(place > 0 && text.charAt(place) == '\n' && text.charAt(place - 1) == '\r');
        }

        private static boolean isWord(Run run, int i) {
            return i >= run.from && i < run.to && (Character.isLetterOrDigit(run.text.charAt(i)) || run.text.charAt(i) == '_');
        }

        private static boolean isBoundary(Run run, int i) {
            return isWord(run, i - 1) != isWord(run, i);
        }
    }
}
