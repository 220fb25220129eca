import java.util.*;

/** A deck that is shuffled by a seed, hands that are dealt and ranked, and a game of two. */
public class Cards {
    static final class Card implements Comparable<Card> {
        static final String RANKS = "23456789TJQKA", SUITS = "CDHS";
        final int rank, suit;

        Card(int rank, int suit) {
            this.rank = rank;
            this.suit = suit;
        }

        static Card of(String text) {
            int rank = RANKS.indexOf(text.charAt(0)), suit = SUITS.indexOf(text.charAt(1));
            if (text.length() != 2 || rank < 0 || suit < 0) throw new IllegalArgumentException("no card: " + text);
            return new Card(rank, suit);
        }

        @Override public int compareTo(Card o) { return rank != o.rank ? Integer.compare(o.rank, rank) : Integer.compare(suit, o.suit); }
        @Override public boolean equals(Object o) { return o instanceof Card && compareTo((Card) o) == 0; }
        @Override public int hashCode() { return 4 * rank + suit; }
        @Override public String toString() { return "" + RANKS.charAt(rank) + SUITS.charAt(suit); }
    }

    static class Deck implements Iterable<Card> {
        private final List<Card> cards = new ArrayList<>(52);
        private final Random random;

        Deck(long seed) {
            random = new Random(seed);
            for (int suit = 0; suit < 4; suit++) for (int rank = 0; rank < 13; rank++) cards.add(new Card(rank, suit));
        }

        void shuffle() {
            Collections.shuffle(cards, random);
        }

        Hand deal(int count) {
            List<Card> top = cards.subList(cards.size() - count, cards.size());
            Hand hand = new Hand(top);
            top.clear();
            return hand;
        }

        @Override
        public Iterator<Card> iterator() {
            return Collections.unmodifiableList(cards).iterator();
        }
    }

    static final String[] NAMES = {"high card", "pair", "two pairs", "three of a kind", "straight", "flush", "full house",
        "four of a kind", "straight flush"};

    static class Hand implements Comparable<Hand> {
        private final SortedSet<Card> cards;
        private final int[] worth;

        Hand(Collection<Card> cards) {
            this.cards = new TreeSet<>(cards);
            if (this.cards.size() != cards.size()) throw new IllegalArgumentException("a card is there twice: " + cards);
            worth = worth();
        }

        private int[] worth() {
            Map<Integer, Integer> counts = new HashMap<>();
            Set<Integer> suits = new HashSet<>();
            for (Card it : cards) {
                counts.put(it.rank, counts.getOrDefault(it.rank, 0) + 1);
                suits.add(it.suit);
            }
            List<Map.Entry<Integer, Integer>> groups = new ArrayList<>(counts.entrySet());
            Collections.sort(groups, new Comparator<Map.Entry<Integer, Integer>>() {
                @Override
                public int compare(Map.Entry<Integer, Integer> a, Map.Entry<Integer, Integer> b) {
                    int order = b.getValue().compareTo(a.getValue());
                    return order == 0 ? b.getKey().compareTo(a.getKey()) : order;
                }
            });
            boolean isFlush = suits.size() == 1;
            boolean isLow = counts.keySet().equals(new HashSet<>(Arrays.asList(12, 0, 1, 2, 3)));
            boolean isStraight = groups.size() == 5 && (isLow || cards.first().rank - cards.last().rank == 4);
            int first = groups.get(0).getValue(), second = groups.size() > 1 ? groups.get(1).getValue() : 0, kind;
            if (isStraight && isFlush) kind = 8;
            else if (first == 4) kind = 7;
            else if (first == 3 && second == 2) kind = 6;
            else if (isFlush) kind = 5;
            else if (isStraight) kind = 4;
            else if (first == 3) kind = 3;
            else kind = first == 2 ? second == 2 ? 2 : 1 : 0;
            int[] worth = new int[1 + groups.size()];
            worth[0] = kind;
            for (int i = 0; i < groups.size(); i++) worth[i + 1] = groups.get(i).getKey();
            if (isStraight) worth[1] = isLow ? 3 : cards.first().rank;
            return worth;
        }

        String name() { return NAMES[worth[0]]; }

        @Override
        public int compareTo(Hand other) {
            for (int i = 0; i < Math.min(worth.length, other.worth.length); i++) {
                if (worth[i] != other.worth[i]) return worth[i] < other.worth[i] ? -1 : 1;
            }
            return 0;
        }

        @Override public String toString() { return cards + " " + name(); }
    }

    static Hand hand(String text) {
        List<Card> cards = new ArrayList<>();
        for (String it : text.split(" ")) cards.add(Card.of(it));
        return new Hand(cards);
    }

    public static void main(String[] args) {
        String[] texts = {"AS KS QS JS TS", "5H 4H 3H 2H AH", "9C 9D 9H 9S 2C", "KC KD KH 2S 2C", "2D 5D 9D JD KD", "6C 5D 4H 3S 2C",
            "AC 5D 4H 3S 2C",
            "7C 7D 7H 3S 2C", "8C 8D 3H 3S AC", "8H 8S 3C 3D KC", "JC JD 4H 3S 2C", "AC QD 9H 5S 3C"};
        List<Hand> hands = new ArrayList<>();
        for (String it : texts) hands.add(hand(it));
        Collections.shuffle(hands, new Random(5));
        Collections.sort(hands, Collections.reverseOrder());
        for (Hand it : hands) System.out.println(it);
        System.out.println(hand("2C 2D 5H 6S 7C").compareTo(hand("2H 2S 5C 6D 7H")));
        for (String wrong : new String[] {"AS AS 2C 3C 4C", "1S 2C 3C 4C 5C"}) {
            try {
                hand(wrong);
            } catch (IllegalArgumentException e) {
                System.out.println(e.getMessage());
            }
        }
        int[] won = new int[3];
        Map<String, Integer> kinds = new TreeMap<>();
        Deck deck = null;
        for (int game = 0; game < 12; game++) {
            deck = new Deck(1000 + game);
            deck.shuffle();
            Hand a = deck.deal(5), b = deck.deal(5);
            won[1 + Integer.signum(a.compareTo(b))]++;
            for (Hand it : Arrays.asList(a, b)) kinds.put(it.name(), 1 + (kinds.containsKey(it.name()) ? kinds.get(it.name()) : 0));
            if (game < 3) System.out.println(a + (a.compareTo(b) < 0 ? " loses to " : " beats ") + b);
        }
        System.out.println(Arrays.toString(won) + " " + kinds);
        int left = 0;
        for (Card it : deck) left += it.suit == 3 ? 1 : 0;
        try {
            Iterator<Card> it = deck.iterator();
            it.next();
            it.remove();
        } catch (UnsupportedOperationException e) {
            System.out.println(left + " spades are left, and stay");
        }
    }
}
