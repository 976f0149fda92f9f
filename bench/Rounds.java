import java.util.ArrayDeque;
import java.util.Collections;
import java.util.Deque;

/**
 * Rounds of one work on the JVM. The first is cold: nothing is compiled yet. The others go on until the last ten of them agree within
 * 3 %, or eight seconds have passed. By then the compiler has done its work.
 */
final class Rounds {
    static final int AGREEING = 10;
    static final double WITHIN = 1.03;
    static final double MOST_NANOS = 8e9;

    /** A round, of which the nanoseconds are returned. */
    interface Round {
        double made(boolean isCold) throws Exception;
    }

    private Rounds() {}

    /** Makes the rounds: `least` of them behind the cold one, which are ten but for a run that only shows that it works. */
    static void make(int least, Round round) throws Exception {
        Deque<Double> last = new ArrayDeque<>();
        round.made(true);
        long begun = System.nanoTime();
        do {
            last.add(round.made(false));
            if (last.size() > AGREEING) last.remove();
        } while (last.size() < least || least == AGREEING && !agree(last) && System.nanoTime() - begun < MOST_NANOS);
    }

    private static boolean agree(Deque<Double> last) {
        return Collections.max(last) <= WITHIN * Collections.min(last);
    }
}
