import com.github.benmanes.caffeine.cache.Caffeine;
import com.google.common.cache.CacheBuilder;
import java.nio.ByteBuffer;
import java.nio.ByteOrder;
import java.nio.file.Files;
import java.nio.file.Paths;
import java.util.Arrays;
import java.util.concurrent.atomic.LongAdder;

/**
 * Caches CACHE KEYS LEAST THREADS WORK: a work of main.rs, on Caffeine or Guava, in LEAST rounds or more behind the first (see Rounds). The
 * first goes once through the keys, and each other ten times, on the same cache. Each round of a read-through has a cache of its own, and
 * goes once.
 */
class Caches {
    interface Work {
        boolean look(long key);
        void put(long key);
        boolean readThrough(long key) throws Exception;
    }

    interface Call {
        boolean make(Work cache, long key, int place) throws Exception;
    }

    static final int ENTRIES = 4096, HELD = 2048, PASSES = 10;

    static Work caffeine() {
        com.github.benmanes.caffeine.cache.Cache<Long, Long> cache = Caffeine.newBuilder().maximumSize(ENTRIES).build();
        return new Work() {
            public boolean look(long key) { return cache.getIfPresent(key) != null; }
            public void put(long key) { cache.put(key, key); }
            public boolean readThrough(long key) {
                boolean[] there = {true};
                cache.get(key, k -> { there[0] = false; return k; });
                return there[0];
            }
        };
    }

    static Work guava() {
        com.google.common.cache.Cache<Long, Long> cache = CacheBuilder.newBuilder().maximumSize(ENTRIES).build();
        return new Work() {
            public boolean look(long key) { return cache.getIfPresent(key) != null; }
            public void put(long key) { cache.put(key, key); }
            public boolean readThrough(long key) throws Exception {
                boolean[] there = {true};
                cache.get(key, () -> { there[0] = false; return key; });
                return there[0];
            }
        };
    }

    /** The nanoseconds of a call, of all threads together. */
    static double timed(Work cache, long[] keys, int passes, int threads, Call call, LongAdder missed) throws Exception {
        Thread[] running = new Thread[threads];
        long begun = System.nanoTime();
        for (int t = 0; t < threads; t++) {
            int from = (int) ((long) t * keys.length / threads);
            running[t] = new Thread(() -> {
                long mine = 0;
                try {
                    for (int pass = 0; pass < passes; pass++) {
                        for (int i = 0; i < keys.length; i++) {
                            if (!call.make(cache, keys[(from + i) % keys.length], i)) mine++;
                        }
                    }
                } catch (Exception fault) {
                    throw new RuntimeException(fault);
                }
                missed.add(mine);
            });
            running[t].start();
        }
        for (Thread thread : running) thread.join();
        return (System.nanoTime() - begun) / ((double) passes * keys.length * threads);
    }

    /** A cache that holds the keys that are to be held. */
    static Work opened(String name, boolean isHeld) {
        Work cache = name.equals("caffeine") ? caffeine() : guava();
        for (long key = 0; isHeld && key < HELD; key++) cache.put(key);
        return cache;
    }

    public static void main(String[] given) throws Exception {
        ByteBuffer bytes = ByteBuffer.wrap(Files.readAllBytes(Paths.get(given[1]))).order(ByteOrder.LITTLE_ENDIAN);
        long[] keys = new long[bytes.remaining() / 8];
        bytes.asLongBuffer().get(keys);
        int least = Integer.parseInt(given[2]), threads = Integer.parseInt(given[3]);
        String[] names = {"hit", "put", "mixed", "read-through"};
        Call[] calls = {
            (cache, key, i) -> cache.look(key % HELD),
            (cache, key, i) -> { cache.put(key % HELD); return true; },
            (cache, key, i) -> {
                if (i % 32 != 31) return cache.look(key % HELD);
                cache.put(key % HELD);
                return true;
            },
            (cache, key, i) -> cache.readThrough(key)};
        int w = Arrays.asList(names).indexOf(given[4]);
        boolean isHeld = w < 3;
        Work kept = opened(given[0], isHeld);
        Rounds.make(least, isCold -> {
            LongAdder missed = new LongAdder();
            double each = timed(isHeld ? kept : opened(given[0], false), keys, isHeld && !isCold ? PASSES : 1, threads, calls[w], missed);
            if (isHeld && missed.sum() > 0) throw new AssertionError("all of them are held");
            System.out.printf("%s %d %.2f %d%n", names[w], threads, each, missed.sum());
            return each;
        });
        System.exit(0);
    }
}
