import host.Io;

/** Writes texts in UTF-8, and numbers. */
final class Utf8 {
    private Utf8() {
    }

    static void write(String text) {
        for (int place = 0; place < text.length(); place++) {
            int unit = text.charAt(place);
            if (unit >= '\uD800' && unit < '\uDC00' && place + 1 < text.length()) {
                point(0x10000 + (unit - 0xD800 << 10) + (text.charAt(++place) - 0xDC00));
            } else {
                point(unit);
            }
        }
    }

    static void write(int number) {
        if (number >= 10) {
            write(number / 10);
        }
        Io.write('0' + number % 10);
    }

    private static void point(int point) {
        if (point < 0x80) {
            Io.write(point);
            return;
        }
        if (point < 0x800) {
            Io.write(0xC0 | point >> 6);
        } else {
            if (point < 0x10000) {
                Io.write(0xE0 | point >> 12);
            } else {
                Io.write(0xF0 | point >> 18);
                follow(point >> 12);
            }
            follow(point >> 6);
        }
        follow(point);
    }

    private static void follow(int bits) {
        Io.write(0x80 | bits & 0x3F);
    }
}
