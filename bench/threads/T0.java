/**
 * The loops of the first thread; `code` writes such a class for each other. javac makes the instructions of `code`'s Jasmin files of
 * them.
 */
final class T0 extends Threads {
    static int total;

    static int next(int a) {
        return a + 1;
    }

    static void ownFields(int turns) {
        int i = 0;
        do {
            T0.total = T0.total + i;
            i++;
        } while (i < turns);
    }

    static void sharedFields(int turns) {
        int i = 0;
        do {
            Shared.total = Shared.total + i;
            i++;
        } while (i < turns);
    }

    static void ownCalls(int turns) {
        int sum = 0;
        int i = 0;
        do {
            sum = T0.next(sum);
            i++;
        } while (i < turns);
    }

    static void sharedCalls(int turns) {
        int sum = 0;
        int i = 0;
        do {
            sum = Shared.next(sum);
            i++;
        } while (i < turns);
    }

    @Override
    public void run() {
        switch (loop) {
            case "ownFields" -> ownFields(turns);
            case "sharedFields" -> sharedFields(turns);
            case "ownCalls" -> ownCalls(turns);
            default -> sharedCalls(turns);
        }
    }
}
