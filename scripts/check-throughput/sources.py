"""Java source files: classes in ten packages, each with the statements that Java programs are made of (loops, switches, arrays,
exceptions, calls to one another), all within the profile that this host reads. It has nothing to run; ./run calls `write`."""
import os
import random

PACKAGES = 10


def place(number):
    """The package and the name of the class with a number."""
    return f"p{number % PACKAGES}", f"C{number}"


def loop_method(rng, name):
    return f"""
    public int {name}(int n, int[] values) {{
        int sum = {rng.randrange(100)};
        for (int i = 0; i < n; i++) {{
            if (values[i] > {rng.randrange(50)} && i % {rng.randrange(2, 9)} != 0) {{
                sum += values[i] * {rng.randrange(2, 99)};
            }} else {{
                int rest = n - i;
                while (rest > {rng.randrange(1, 5)}) {{
                    rest = rest / 2;
                    sum ^= rest;
                }}
            }}
        }}
        return sum;
    }}
"""


def switch_method(rng, name):
    cases = "".join(
        f"            case {key}: total += by << {rng.randrange(31)}; {'break;' if rng.random() < 0.7 else ''}\n"
        for key in sorted(rng.sample(range(40 if rng.random() < 0.5 else 4000), 12))
    )
    return f"""
    public static long {name}(int kind, long by) {{
        long total = by;
        switch (kind & {rng.randrange(1, 4096)}) {{
{cases}            default: total -= kind;
        }}
        return total >= 0L ? total : -total;
    }}
"""


def array_method(rng, name):
    return f"""
    static long[][] {name}(int rows, int columns) {{
        long[][] table = new long[rows][columns];
        for (int r = 0; r < rows; r++) {{
            long[] row = table[r];
            for (int c = 0; c < columns; c++) {{
                row[c] = (long) r * columns + (c % {rng.randrange(2, 9)} == 0 ? {rng.randrange(1 << 40)}L : (byte) c);
                if (r > 0) {{
                    row[c] += table[r - 1][c] >>> {rng.randrange(63)};
                }}
            }}
        }}
        return table;
    }}
"""


def text_method(rng, name):
    return f"""
    protected boolean {name}(String text, char wanted) {{
        char[] found = new char[text.length()];
        int count = 0;
        for (int i = 0; i < text.length(); i++) {{
            char c = text.charAt(i);
            if (c >= 'a' && c <= 'z' || c == wanted) {{
                found[count++] = (char) (c + {rng.randrange(9)});
            }}
        }}
        return count > 0 && found[count - 1] == wanted && !text.equals("{rng.randrange(10 ** 9)}");
    }}
"""


def throw_method(rng, name):
    kinds = ["IllegalArgumentException", "ArithmeticException", "IndexOutOfBoundsException", "NullPointerException"]
    return f"""
    int {name}(Object[] items, int at) {{
        int tries = 0;
        try {{
            Object item = items[at];
            if (item instanceof String) {{
                tries = ((String) item).length() / (at - {rng.randrange(9)});
            }} else if (item == null) {{
                throw new {rng.choice(kinds)}();
            }}
        }} catch ({kinds[1]} e) {{
            tries = -1;
        }} catch (RuntimeException e) {{
            tries = tries + at;
            items = null;
        }} finally {{
            count++;
        }}
        return tries + (items == null ? 0 : items.length);
    }}
"""


def call_method(rng, name, count):
    package, of = place(rng.randrange(count))
    return f"""
    public {package}.{of} {name}(int depth, int[] values) {{
        {package}.{of} made = new {package}.{of}(depth, this);
        made.next = depth > 0 ? made.{rng.choice(['link', 'same'])}(depth - 1) : null;
        long got = {package}.{of}.kinds(depth, (long) values.length);
        if (got > {rng.randrange(10 ** 6)}L) {{
            made.count += (int) got;
        }}
        return made;
    }}
"""


def source(number, count):
    """The text of the class with a number, of so many."""
    rng = random.Random(number)
    package, name = place(number)
    above = number // 3 if number else None
    extends = ""
    if above is not None:
        extends = " extends {}.{}".format(*place(above))
    makers = [loop_method, switch_method, array_method, text_method, throw_method]
    methods = "".join(rng.choice(makers)(rng, f"m{number}_{k}") for k in range(rng.randrange(4, 16)))
    methods += "".join(call_method(rng, f"call{number}_{k}", count) for k in range(rng.randrange(1, 4)))
    fields = ""
    if above is None:
        fields = """
    public int count;
    public Object owner;
    public p0.C0 next;

    public p0.C0 link(int depth) {
        return depth == 0 ? this : next.link(depth - 1);
    }

    public p0.C0 same(int depth) {
        return this;
    }

    public static long kinds(int kind, long by) {
        return kind * by;
    }
"""
    start = "this.owner = owner;\n        this.count = count;" if above is None else "super(count + 1, owner);"
    return f"""package {package};

public class {name}{extends} implements java.io.Serializable {{
    private static final int LIMIT = {rng.randrange(10 ** 6)};
    private final int[] values = new int[] {{ {', '.join(str(rng.randrange(99)) for _ in range(8))} }};
{fields}
    public {name}(int count, Object owner) {{
        {start}
        for (int i = 0; i < values.length; i++) {{
            values[i] += LIMIT;
        }}
    }}
{methods}}}
"""


def write(folder, count):
    """Writes the sources of so many classes below a folder, and answers their paths."""
    paths = []
    for number in range(count):
        package, name = place(number)
        os.makedirs(os.path.join(folder, package), exist_ok=True)
        paths.append(os.path.join(folder, package, name + ".java"))
        with open(paths[-1], "w", encoding="utf-8") as file:
            file.write(source(number, count))
    return paths
