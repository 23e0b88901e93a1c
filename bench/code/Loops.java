import java.util.function.IntSupplier;

/**
 * The loops of bench/code: `java -Xint Loops NAME TURNS`; and its programs: `java -Xint Loops NAME TIMES`. Each loop is one method, so that
 * javac makes the instructions of `run`'s Jasmin files of it, and those of Sort.j, Primes.j and List.j of the programs.
 */
final class Loops {
    static int total;
    int x;

    int more(int a) {
        return a + 1;
    }

    static int next(int a) {
        return a + 1;
    }

    static int ints(int turns) {
        int sum = 0;
        int i = 0;
        do {
            sum = sum + i;
            i++;
        } while (i < turns);
        return sum;
    }

    static int calls(int turns) {
        int sum = 0;
        int i = 0;
        do {
            sum = next(sum);
            i++;
        } while (i < turns);
        return sum;
    }

    static int uses(int turns) {
        int i = 0;
        do {
            total = total + i;
            i++;
        } while (i < turns);
        return total;
    }

    static int fields(int turns) {
        Loops o = new Loops();
        int i = 0;
        do {
            o.x = o.x + i;
            i++;
        } while (i < turns);
        return o.x;
    }

    static int arrays(int turns) {
        int[] a = new int[2];
        int i = 0;
        do {
            a[1] = a[1] + i;
            i++;
        } while (i < turns);
        return a[1];
    }

    static int virtuals(int turns) {
        Loops o = new Loops();
        int sum = 0;
        int i = 0;
        do {
            sum = o.more(sum);
            i++;
        } while (i < turns);
        return sum;
    }

    static void sort(int[] a, int from, int to) {
        while (from < to) {
            int middle = a[(from + to) >>> 1];
            int i = from;
            int j = to;
            do {
                while (a[i] < middle) {
                    i++;
                }
                while (middle < a[j]) {
                    j--;
                }
                if (i <= j) {
                    int kept = a[i];
                    a[i] = a[j];
                    a[j] = kept;
                    i++;
                    j--;
                }
            } while (i <= j);
            sort(a, from, j);
            from = i;
        }
    }

    static int sort() {
        int[] a = new int[10000];
        int random = 1;
        for (int i = 0; i < 10000; i++) {
            random = random * 1103515245 + 12345;
            a[i] = random;
        }
        sort(a, 0, 9999);
        int sum = 0;
        for (int i = 0; i < 10000; i++) {
            sum = sum * 31 + a[i];
        }
        return sum;
    }

    static int primes() {
        boolean[] isComposite = new boolean[500000]; // of the odd numbers: 2 i + 1 is at i
        int sum = 2;
        for (int i = 1; i < 500000; i++) {
            if (!isComposite[i]) {
                int prime = i * 2 + 1;
                sum += prime;
                if (prime < 1000) {
                    for (int j = prime * prime / 2; j < 500000; j += prime) {
                        isComposite[j] = true;
                    }
                }
            }
        }
        return sum;
    }

    static final class Node {
        final int number;
        final Node next;

        Node(int number, Node next) {
            this.number = number;
            this.next = next;
        }
    }

    static int list() {
        Node first = null;
        for (int i = 0; i < 100000; i++) {
            first = new Node(i, first);
        }
        int sum = 0;
        for (Node at = first; at != null; at = at.next) {
            sum = sum * 31 + at.number;
        }
        return sum;
    }

    static int last(int times, IntSupplier program) {
        int result = 0;
        for (int i = 0; i < times; i++) {
            result = program.getAsInt();
        }
        return result;
    }

    public static void main(String[] words) {
        if (words.length < 2) {
            return;
        }
        int turns = Integer.parseInt(words[1]);
        switch (words[0]) {
            case "ints" -> System.out.println(ints(turns));
            case "calls" -> System.out.println(calls(turns));
            case "fields" -> System.out.println(fields(turns));
            case "arrays" -> System.out.println(arrays(turns));
            case "virtuals" -> System.out.println(virtuals(turns));
            case "Sort" -> System.out.println(last(turns, Loops::sort));
            case "Primes" -> System.out.println(last(turns, Loops::primes));
            case "List" -> System.out.println(last(turns, Loops::list));
            default -> System.out.println(uses(turns));
        }
    }
}
