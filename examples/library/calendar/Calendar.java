import java.util.Scanner;

/** Days and months by hand: the day of the week, pages of a calendar, and days between two dates. */
public class Calendar {
    private static final String[] MONTHS = {"January", "February", "March", "April", "May", "June", "July", "August", "September",
        "October", "November", "December"};
    private static final String[] DAYS = {"Monday", "Tuesday", "Wednesday", "Thursday", "Friday", "Saturday", "Sunday"};
    private static final int[] LENGTHS = {31, 28, 31, 30, 31, 30, 31, 31, 30, 31, 30, 31};

    static final class Date implements Comparable<Date> {
        final int year, month, day;

        Date(int year, int month, int day) {
            if (month < 1 || month > 12) throw new IllegalArgumentException("no month " + month);
            if (day < 1 || day > daysIn(year, month)) {
                throw new IllegalArgumentException(MONTHS[month - 1] + " " + year + " has no day " + day);
            }
            this.year = year;
            this.month = month;
            this.day = day;
        }

        static Date of(String text) {
            String[] parts = text.split("-");
            if (parts.length != 3) throw new IllegalArgumentException("'" + text + "' is no date");
            return new Date(Integer.parseInt(parts[0]), Integer.parseInt(parts[1]), Integer.parseInt(parts[2]));
        }

        static Date of(int number) {
            int year = 1;
            while (number >= (isLeap(year) ? 366 : 365)) number -= isLeap(year++) ? 366 : 365;
            int month = 1;
            while (number >= daysIn(year, month)) number -= daysIn(year, month++);
            return new Date(year, month, number + 1);
        }

        /** The days since the first of January of the year 1. */
        int number() {
            int before = year - 1, days = 365 * before + before / 4 - before / 100 + before / 400;
            for (int m = 1; m < month; m++) days += daysIn(year, m);
            return days + day - 1;
        }

        int dayOfWeek() { return number() % 7; }

        Date plus(int days) { return of(number() + days); }

        @Override public int compareTo(Date o) { return year != o.year ? year - o.year : month != o.month ? month - o.month : day - o.day; }
        @Override public boolean equals(Object o) { return o instanceof Date && compareTo((Date) o) == 0; }
        @Override public int hashCode() { return (year * 16 + month) * 32 + day; }
        @Override public String toString() { return String.format("%04d-%02d-%02d", year, month, day); }
    }

    static boolean isLeap(int year) { return year % 4 == 0 && year % 100 != 0 || year % 400 == 0; }

    static int daysIn(int year, int month) { return month == 2 && isLeap(year) ? 29 : LENGTHS[month - 1]; }

    static void page(int year, int month) {
        String head = MONTHS[month - 1] + " " + year;
        System.out.printf("%" + (10 + head.length() / 2) + "s%n", head);
        for (String day : DAYS) System.out.print(day.substring(0, 2) + " ");
        System.out.println();
        int at = new Date(year, month, 1).dayOfWeek();
        for (int i = 0; i < at; i++) System.out.print("   ");
        for (int day = 1; day <= daysIn(year, month); day++) {
            System.out.printf("%2d%s", day, ++at % 7 == 0 || day == daysIn(year, month) ? "\n" : " ");
        }
    }

    static String ending(int n) {
        if (n % 100 / 10 == 1) return "th";
        switch (n % 10) {
            case 1: return "st";
            case 2: return "nd";
            case 3: return "rd";
            default: return "th";
        }
    }

    public static void main(String[] args) {
        Scanner in = new Scanner(System.in);
        while (in.hasNext()) {
            String word = in.next();
            try {
                switch (word) {
                    case "page":
                        page(in.nextInt(), in.nextInt());
                        break;
                    case "between":
                        Date a = Date.of(in.next()), b = Date.of(in.next());
                        System.out.println(a + (a.compareTo(b) <= 0 ? " to " : " back to ") + b + ": "
                            + Math.abs(b.number() - a.number()) + " days");
                        break;
                    case "plus":
                        Date start = Date.of(in.next());
                        Date end = start.plus(in.nextInt());
                        System.out.println(start + " > " + end + " " + DAYS[end.dayOfWeek()] + " the " + end.day + ending(end.day));
                        break;
                    case "unlucky":
                        int year = in.nextInt(), found = 0;
                        for (int month = 1; month <= 12; month++) if (new Date(year, month, 13).dayOfWeek() == 4) found |= 1 << month;
                        System.out.println(year + ": " + Integer.bitCount(found) + ", the first in "
                            + MONTHS[Integer.numberOfTrailingZeros(found) - 1]);
                        break;
                    default:
                        throw new UnsupportedOperationException("what is " + word + "?");
                }
            } catch (NumberFormatException e) {
                System.out.println("no number: " + e.getMessage());
            } catch (IllegalArgumentException | UnsupportedOperationException e) {
                System.out.println(e.getMessage());
            }
        }
        System.out.println(Date.of("2000-02-29").equals(new Date(2000, 2, 29)) + " " + Date.of("1999-12-31").hashCode());
    }
}
