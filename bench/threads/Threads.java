/**
 * Starts the threads of bench/threads/code, those of the classes T0, T1, ..: `java -Xint Threads LOOP THREADS TURNS` prints the nanoseconds
 * from the start of the first to the end of the last.
 */
abstract class Threads extends Thread {
    String loop;
    int turns;

    public static void main(String[] words) throws Exception {
        Threads[] threads = new Threads[Integer.parseInt(words[1])];
        for (int i = 0; i < threads.length; i++) {
            threads[i] = (Threads) Class.forName("T" + i).getDeclaredConstructor().newInstance();
            threads[i].loop = words[0];
            threads[i].turns = Integer.parseInt(words[2]);
        }
        long began = System.nanoTime();
        for (Threads it : threads) {
            it.start();
        }
        for (Threads it : threads) {
            it.join();
        }
        System.out.println(System.nanoTime() - began);
    }
}

final class Shared {
    static int total;

    static int next(int a) {
        return a + 1;
    }
}
