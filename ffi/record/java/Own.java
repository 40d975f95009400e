import java.util.Arrays;
import java.util.Map;
import java.util.concurrent.atomic.AtomicLongArray;

/**
 * Tests two boards: "naive" collects once, which is not atomic; "double" collects until two collects are equal, which is.
 *
 * <pre>
 * javac Own.java SnapDriver.java SnapRecorder.java
 * java Own naive --runs 20
 * </pre>
 *
 * SPDX-License-Identifier: 0BSD
 */
public final class Own {
    static class Naive implements SnapDriver.Board {
        final AtomicLongArray words;

        Naive(int components) { words = new AtomicLongArray(components); }

        public void update(int thread, int component, long value) { words.set(component, value); }

        public long[] view(int thread) {
            long[] values = new long[words.length()];
            for (int k = 0; k < values.length; k++) {
                values[k] = words.get(k);
                SnapDriver.pause();
            }
            return values;
        }
    }

    static final class Double extends Naive {
        Double(int components) { super(components); }

        @Override
        public long[] view(int thread) {
            long[] values, again = super.view(thread);
            do {
                values = again;
                again = super.view(thread);
            } while (!Arrays.equals(values, again));
            return values;
        }
    }

    public static void main(String[] words) {
        SnapDriver.main(words, Map.of("naive", Naive::new, "double", Double::new));
    }
}
