import java.util.Arrays;
import java.util.concurrent.CyclicBarrier;

/**
 * Prints the nanoseconds that recording one call, its begin and its end, takes with this many threads: the quartiles of
 * some rounds. usage: Cost THREADS
 */
public final class Cost {
    static final int ROUNDS = 101; // the first ones are not compiled yet

    static double round(int threads) throws InterruptedException {
        int calls = 32768 / threads;
        SnapRecorder recorder = new SnapRecorder(threads, threads, calls);
        CyclicBarrier start = new CyclicBarrier(threads);
        double[] took = new double[threads];
        Thread[] all = new Thread[threads];
        for (int t = 0; t < threads; t++) {
            int own = t;
            all[t] = new Thread(() -> {
                SnapRecorder.Log log = recorder.log(own);
                try {
                    start.await();
                } catch (Exception error) {
                    throw new IllegalStateException(error);
                }
                long begun = System.nanoTime();
                for (int i = 1; i <= calls && log.beginUpdate(own, i) != 0; i++) log.endUpdate();
                took[own] = (double) (System.nanoTime() - begun) / calls;
            });
            all[t].start();
        }
        double sum = 0;
        for (int t = 0; t < threads; t++) {
            all[t].join();
            sum += took[t];
        }
        return sum / threads;
    }

    public static void main(String[] words) throws InterruptedException {
        double[] found = new double[ROUNDS];
        for (int i = 0; i < ROUNDS; i++) found[i] = round(Integer.parseInt(words[0]));
        Arrays.sort(found);
        System.out.printf("%.0f to %.0f%n", found[ROUNDS / 4], found[ROUNDS * 3 / 4]);
    }
}
