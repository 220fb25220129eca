import java.util.*;

/** Vectors with their capacities, stacks, hashtables and enumerations, as older course books have them. */
public class Vectors {
    static void grow(Vector<Integer> v, int n) {
        StringBuilder out = new StringBuilder();
        int before = -1;
        for (int i = 0; i < n; i++) {
            if (v.capacity() != before) {
                before = v.capacity();
                out.append(v.size()).append('/').append(before).append(' ');
            }
            v.addElement(i);
        }
        System.out.println(out.toString() + v.capacity());
    }

    static int shunt(String words) {
        Stack<Integer> stack = new Stack<>();
        for (String w : words.split(" ")) {
            switch (w) {
                case "+": stack.push(stack.pop() + stack.pop()); break;
                case "*": stack.push(stack.pop() * stack.pop()); break;
                case "-": { int b = stack.pop(); stack.push(stack.pop() - b); break; }
                default: stack.push(Integer.valueOf(w));
            }
        }
        int answer = stack.pop();
        if (!stack.empty()) throw new IllegalStateException("left: " + stack);
        return answer;
    }

    public static void main(String[] args) {
        grow(new Vector<Integer>(), 50);
        grow(new Vector<Integer>(2, 3), 15);
        grow(new Vector<Integer>(1), 20);
        grow(new Vector<Integer>(Arrays.asList(1, 2, 3)), 4);
        Vector<String> v = new Vector<>(Arrays.asList("b", "c", "d"));
        v.insertElementAt("a", 0);
        v.removeElement("c");
        v.setElementAt("z", 2);
        System.out.println(v + " " + v.firstElement() + v.lastElement() + v.elementAt(1) + v.indexOf("z") + " " + v.capacity());
        v.setSize(4);
        System.out.println(v + " " + v.contains(null));
        StringBuilder text = new StringBuilder("ab");
        for (int i = 0; i < 4; i++) {
            System.out.print(text.length() + "/" + text.capacity() + " ");
            text.append(text).append(text);
        }
        System.out.println(new StringBuffer("xy").capacity());
        Hashtable<String, Integer> table = new Hashtable<>();
        for (String s : "zeta alpha mid beta omega psi chi rho tau eta nu xi".split(" ")) table.put(s, s.length());
        System.out.println(table + " " + table.contains(3) + " " + table.containsKey("nu"));
        int sum = 0;
        for (Enumeration<Integer> e = table.elements(); e.hasMoreElements();) sum += e.nextElement();
        Enumeration<String> keys = table.keys();
        System.out.println(sum + " " + keys.nextElement() + " " + table.remove("mid") + " " + table.get("mid"));
        try { table.put("x", null); } catch (NullPointerException e) { System.out.println("no null in it"); }
        System.out.println(shunt("3 4 + 2 * 7 -"));
        try { shunt("1 +"); } catch (EmptyStackException e) { System.out.println("too few, " + e.getMessage()); }
        try { shunt("1 2"); } catch (IllegalStateException e) { System.out.println(e.getMessage()); }
        try { v.elementAt(50); } catch (ArrayIndexOutOfBoundsException e) { System.out.println(e.getMessage()); }
        try { new Vector<Integer>().lastElement(); } catch (NoSuchElementException e) { System.out.println("nothing, " + e.getMessage()); }
    }
}
