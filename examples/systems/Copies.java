import java.util.*;
import java.util.concurrent.*;
import java.util.function.*;
import java.util.stream.*;

/** Threads share a map and copy it. Each line it reads, a way and a seed, is answered by a run's history; copies.py asks it. */
public final class Copies {
    static final int THREADS = 4, COMPONENTS = 64, CALLS = 200;
    static final Supplier<Map<Integer, Long>> LOCKED = () -> Collections.synchronizedMap(new TreeMap<>());

    record Way(String name, Supplier<Map<Integer, Long>> map, UnaryOperator<Map<Integer, Long>> copy) {
        long[] view(Map<Integer, Long> shared) {
            long[] values = new long[COMPONENTS];
            for (Map.Entry<Integer, Long> entry : copy.apply(shared).entrySet()) values[entry.getKey()] = entry.getValue();
            return values;
        }
    }

    static final List<Way> WAYS = List.of(
        new Way("new TreeMap(synchronizedMap), its lock held", LOCKED,
            map -> { synchronized (map) { return new TreeMap<>(map); } }),
        new Way("new TreeMap(synchronizedMap)", LOCKED, TreeMap::new),
        new Way("ConcurrentSkipListMap.clone()", ConcurrentSkipListMap::new,
            map -> ((ConcurrentSkipListMap<Integer, Long>) map).clone()),
        new Way("ConcurrentHashMap, iterated", ConcurrentHashMap::new, map -> map));

    static void work(Way way, Map<Integer, Long> map, SnapRecorder.Log log, int own, Random choice) {
        for (int i = 0; i < CALLS; i++) {
            if (choice.nextBoolean()) {
                int component = (own + i * THREADS) % COMPONENTS, value = (own + 1) * 1000000 + i; // each value once
                if (log.beginUpdate(component, value) == 0) return;
                map.put(component, (long) value);
                log.endUpdate();
            } else {
                if (!log.beginView()) return;
                long[] values = way.view(map);
                log.endViewValues(values);
            }
        }
    }

    static String history(Way way, int seed) {
        Map<Integer, Long> map = way.map.get();
        for (int k = 0; k < COMPONENTS; k++) map.put(k, 0L);
        SnapRecorder recorder = new SnapRecorder(THREADS, COMPONENTS, CALLS);
        Phaser start = new Phaser(THREADS);
        CompletableFuture.allOf(IntStream.range(0, THREADS).mapToObj(own -> CompletableFuture.runAsync(() -> {
            start.arriveAndAwaitAdvance();
            work(way, map, recorder.log(own), own, new Random(seed * THREADS + own));
        }, task -> new Thread(task).start())).toArray(CompletableFuture<?>[]::new)).join();
        return recorder.text();
    }

    public static void main(String[] words) {
        WAYS.forEach(way -> System.out.println(way.name));
        System.out.println(); // an empty line ends an answer
        Scanner asked = new Scanner(System.in);
        while (asked.hasNextInt()) System.out.println(history(WAYS.get(asked.nextInt()), asked.nextInt()));
    }
}
