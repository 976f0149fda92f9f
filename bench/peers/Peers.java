// Replays lines of letter G on Caffeine or Guava: java Peers caffeine|guava ENTRIES < trace
import com.github.benmanes.caffeine.cache.Caffeine;
import com.google.common.cache.CacheBuilder;
import java.nio.charset.StandardCharsets;

public final class Peers {
    private static boolean loaded;

    /** Answers the version under a key, which is the number of its line where it is loaded. */
    private interface Cache {
        long get(long key, long line) throws Exception;
    }

    private static Cache cacheOf(String name, long entries) {
        if (name.equals("caffeine")) {
            com.github.benmanes.caffeine.cache.Cache<Long, Long> cache =
                Caffeine.newBuilder().maximumSize(entries).executor(Runnable::run).build();
            return (key, line) -> cache.get(key, k -> load(line));
        }
        com.google.common.cache.Cache<Long, Long> cache = CacheBuilder.newBuilder().maximumSize(entries).concurrencyLevel(1).build();
        return (key, line) -> cache.get(key, () -> load(line));
    }

    private static Long load(long line) {
        loaded = true;
        return line;
    }

    public static void main(String[] words) throws Exception {
        Cache cache = cacheOf(words[0], Long.parseLong(words[1]));
        byte[] trace = System.in.readAllBytes();
        StringBuilder out = new StringBuilder();
        long line = 0;
        long hits = 0;
        for (int at = 0; at < trace.length; at++) {
            while (trace[at] != 'G') {
                at++;
            }
            long key = 0;
            for (at += 2; trace[at] != '\n'; at++) {
                key = 10 * key + trace[at] - '0';
            }
            line++;
            loaded = false;
            long version = cache.get(key, line);
            out.append(line);
            if (loaded) {
                out.append(" load\n");
            } else {
                hits++;
                out.append(" hit ").append(version).append('\n');
            }
        }
        out.append("hits ").append(hits).append('\n');
        System.out.write(out.toString().getBytes(StandardCharsets.US_ASCII));
        System.out.flush();
    }
}
