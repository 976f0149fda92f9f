import com.github.benmanes.caffeine.cache.Caffeine;
import com.google.common.cache.CacheBuilder;
import com.sun.management.OperatingSystemMXBean;
import java.lang.management.ManagementFactory;
import java.util.concurrent.atomic.AtomicLong;
import java.util.concurrent.atomic.LongAdder;

/**
 * Through caffeine|guava skewed|held|puts-N THREADS CALLS MULTIPLICATIONS LEAST: what the harness does, on Caffeine or Guava, again and
 * again on one cache, in LEAST rounds or more behind the first (see Rounds); each goes on in the threads' streams. Prints a line for each
 * round: its nanoseconds, how many loads began, the sum of all values, and the nanoseconds of processor.
 */
class Through {
    interface Cache {
        long get(long key) throws Exception;

        void put(long key, long value);
    }

    static final int ENTRIES = 4096;

    /** The stream of a thread: splitmix64. */
    static final class Keys {
        private long state;

        Keys(long thread) { state = thread * 0x5851F42D4C957F2DL; }

        private long draw() {
            state += 0x9E3779B97F4A7C15L;
            long z = state;
            z = (z ^ (z >>> 30)) * 0xBF58476D1CE4E5B9L;
            z = (z ^ (z >>> 27)) * 0x94D049BB133111EBL;
            return z ^ (z >>> 31);
        }

        long held() { return draw() & 0x7FF; }

        long skewed() {
            long z = draw();
            return z & (z >>> 32) & 0x1FFFF;
        }
    }

    static long value(long key, int multiplications) {
        long z = key;
        for (int i = 0; i < multiplications; i++) z = (z ^ (z >>> 30)) * 0xBF58476D1CE4E5B9L + 1;
        return z;
    }

    static long load(long key, int multiplications, LongAdder loads) {
        loads.increment();
        return value(key, multiplications);
    }

    static Cache made(String name, int multiplications, LongAdder loads) {
        if (name.equals("caffeine")) {
            com.github.benmanes.caffeine.cache.Cache<Long, Long> cache = Caffeine.newBuilder().maximumSize(ENTRIES).build();
            return new Cache() {
                public long get(long key) { return cache.get(key, k -> load(k, multiplications, loads)); }

                public void put(long key, long value) { cache.put(key, value); }
            };
        }
        com.google.common.cache.Cache<Long, Long> cache = CacheBuilder.newBuilder().maximumSize(ENTRIES).build();
        return new Cache() {
            public long get(long key) throws Exception { return cache.get(key, () -> load(key, multiplications, loads)); }

            public void put(long key, long value) { cache.put(key, value); }
        };
    }

    /** All threads' gets: the sum of the values. Each call of a number is a put, if the number isn't 0. */
    static long gets(Cache cache, Keys[] streams, boolean held, int every, int multiplications, int calls) throws Exception {
        AtomicLong sum = new AtomicLong();
        Thread[] running = new Thread[streams.length];
        for (int t = 0; t < streams.length; t++) {
            Keys keys = streams[t];
            running[t] = new Thread(() -> {
                long values = 0;
                try {
                    for (int i = 0; i < calls; i++) {
                        long key = held ? keys.held() : keys.skewed();
                        if (every > 0 && i % every == 0) cache.put(key, value(key, multiplications));
                        else values += cache.get(key);
                    }
                } catch (Exception fault) {
                    throw new RuntimeException(fault);
                }
                sum.addAndGet(values);
            });
            running[t].start();
        }
        for (Thread thread : running) thread.join();
        return sum.get();
    }

    public static void main(String[] given) throws Exception {
        boolean held = !given[1].equals("skewed");
        int every = given[1].startsWith("puts-") ? Integer.parseInt(given[1].substring("puts-".length())) : 0;
        int threads = Integer.parseInt(given[2]), calls = Integer.parseInt(given[3]), multiplications = Integer.parseInt(given[4]);
        OperatingSystemMXBean system = (OperatingSystemMXBean) ManagementFactory.getOperatingSystemMXBean();
        LongAdder loads = new LongAdder();
        Cache cache = made(given[0], multiplications, loads);
        Keys[] streams = new Keys[threads];
        for (int t = 0; t < threads; t++) streams[t] = new Keys(t);
        Rounds.make(Integer.parseInt(given[5]), isCold -> {
            long processor = system.getProcessCpuTime(), begun = System.nanoTime();
            long values = gets(cache, streams, held, every, multiplications, calls);
            long nanos = System.nanoTime() - begun;
            processor = system.getProcessCpuTime() - processor;
            System.out.printf("%d %d %s %d%n", nanos, loads.sumThenReset(), Long.toUnsignedString(values), processor);
            return nanos;
        });
        System.exit(0);
    }
}
