import java.util.*;

/** Lists, sets, maps and queues, sorted by orders of one's own. */
public class Students {
    static class Student implements Comparable<Student> {
        String name;
        int grade;
        Student(String name, int grade) { this.name = name; this.grade = grade; }
        public int compareTo(Student o) { return name.compareTo(o.name); }
        @Override public boolean equals(Object o) { return o instanceof Student && ((Student) o).name.equals(name); }
        @Override public int hashCode() { return Objects.hash(name); }
        @Override public String toString() { return name + "(" + grade + ")"; }
    }

    static class ByGrade implements Comparator<Student> {
        @Override public int compare(Student a, Student b) { return Integer.compare(b.grade, a.grade); }
    }

    public static void main(String[] args) {
        List<Student> all = new ArrayList<>(Arrays.asList(new Student("Zoe", 3), new Student("Adam", 5), new Student("Mia", 4),
            new Student("Ben", 5)));
        Collections.sort(all);
        System.out.println(all);
        Collections.sort(all, new ByGrade());
        System.out.println(all);
        Set<String> seen = new TreeSet<>();
        for (Student s : all) seen.add(s.name);
        System.out.println(seen + " first " + ((TreeSet<String>) seen).first());
        Deque<Integer> stack = new ArrayDeque<>();
        for (int i = 0; i < 5; i++) stack.push(i * i);
        while (!stack.isEmpty()) System.out.print(stack.pop() + " ");
        System.out.println();
        Map<Integer, List<Student>> byGrade = new TreeMap<>();
        for (Student s : all) {
            if (!byGrade.containsKey(s.grade)) byGrade.put(s.grade, new ArrayList<Student>());
            byGrade.get(s.grade).add(s);
        }
        for (Integer g : byGrade.keySet()) System.out.println(g + " -> " + byGrade.get(g));
        Iterator<Student> it = all.iterator();
        while (it.hasNext()) if (it.next().grade < 5) it.remove();
        System.out.println(all.size() + " " + all);
        LinkedList<Integer> ll = new LinkedList<>();
        for (int i = 0; i < 6; i++) { ll.addFirst(i); ll.addLast(-i); }
        ll.remove(Integer.valueOf(3));
        ll.remove(0);
        System.out.println(ll + " max " + Collections.max(ll) + " min " + Collections.min(ll));
        Collections.reverse(ll);
        System.out.println(ll.getFirst() + " " + ll.getLast() + " " + ll.subList(2, 5));
        Integer[] arr = {5, 3, 9, 1};
        Arrays.sort(arr, Collections.reverseOrder());
        System.out.println(Arrays.toString(arr) + Arrays.asList(arr).contains(9));
        Set<Character> letters = new HashSet<>();
        for (char c : "programming".toCharArray()) letters.add(c);
        System.out.println(letters.size() + " " + letters);
        Map<String, Integer> order = new LinkedHashMap<>();
        order.put("z", 1); order.put("a", 2); order.put("m", 3); order.put("z", 9);
        System.out.println(order + " " + order.keySet() + " " + order.values());
        String[] names = new String[all.size()];
        int k = 0;
        for (Student s : all) names[k++] = s.name;
        System.out.println(String.join(",", names));
        List<String> copy = new ArrayList<>(seen);
        String[] asArray = copy.toArray(new String[0]);
        System.out.println(asArray.length + asArray[0]);
        try {
            for (String s : copy) if (s.startsWith("A")) copy.remove(s);
        } catch (ConcurrentModificationException e) {
            System.out.println("CME " + e.getMessage());
        }
        List<Integer> nums = new ArrayList<>();
        for (int i = 0; i < 10; i++) nums.add((i * 7) % 10);
        int sum = 0;
        for (int x : nums) sum += x;
        System.out.println(sum + " " + nums.indexOf(4) + " " + Collections.frequency(nums, 3) + nums);
    }
}
