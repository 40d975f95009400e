import java.util.Arrays;
import java.util.HashMap;
import java.util.List;
import java.util.Map;
import java.util.concurrent.atomic.AtomicInteger;
import java.util.concurrent.atomic.AtomicLong;
import java.util.function.IntFunction;

/**
 * Objects that test the answers of a driver: usage as that of Own. "stale" shows nothing but the initial values, "gives-up" never has a
 * view, and a view of "hangs" does not end. A view of "short" lacks a component, an update of "dies" throws, and one of "odd" throws an
 * error. "unmade" can't be made. "second" is stale from its second run on, and gives up before. "slow" pauses around what it does, and
 * is right with one component. "fails" is stale; of its updates the first had no effect, and of the third it is not known. "retries" is
 * slow, and right with one component: of five updates one has no effect, one is tried again, and the 13th comes late.
 *
 * <p>For runs that are judged in batches: "numbered" gives up in three runs, shows the number of the run in the next two, and throws
 * after them. "slows" gives up, and from its second run on a view takes more than half a second.
 */
public final class Faulty implements SnapDriver.Board {
    final String name;
    final int components;
    final int begun;
    final AtomicInteger updates = new AtomicInteger();
    final AtomicLong late = new AtomicLong();
    volatile long word;
    static int made;

    Faulty(String name, int components) {
        this.name = name;
        this.components = components;
        begun = ++made;
        if (name.equals("unmade")) throw new IllegalStateException("no connection");
    }

    public void update(int thread, int component, long value) throws Exception {
        if (name.equals("dies")) throw new Exception("no connection");
        if (name.equals("odd")) throw new AssertionError("no connection");
        int number = updates.incrementAndGet();
        if (name.equals("fails") && number == 1) throw new SnapDriver.NoEffect();
        if (name.equals("fails") && number == 3) throw new SnapDriver.Unknown();
        if (name.equals("retries")) retriedUpdate(number, value);
        else slowUpdate(value);
    }

    private void slowUpdate(long value) {
        SnapDriver.pause();
        word = value;
        SnapDriver.pause();
    }

    /** Whether a try has an effect. The first one of each fifth update has none. */
    private boolean isDone(int number, int tries, long value) {
        if (number % 5 == 2 && tries == 0) return false;
        slowUpdate(value);
        return true;
    }

    private void retriedUpdate(int number, long value) throws Exception {
        if (number % 5 == 1) throw new SnapDriver.NoEffect();
        if (number == 13) {
            late.set(value);
            throw new SnapDriver.Unknown();
        }
        for (int tries = 0; !isDone(number, tries, value);) tries++;
    }

    public long[] view(int thread) throws InterruptedException {
        while (name.equals("hangs")) Thread.sleep(1000);
        if (name.equals("slow")) return slowView();
        if (name.equals("retries")) return retriedView();
        if (name.equals("numbered")) return numberedView();
        if (name.equals("slows") && begun > 1) Thread.sleep(600);
        return givesUp() ? null : new long[name.equals("short") ? components - 1 : components];
    }

    private boolean givesUp() {
        return name.equals("gives-up") || name.equals("slows") || name.equals("second") && begun == 1;
    }

    private long[] slowView() {
        SnapDriver.pause();
        long value = word;
        SnapDriver.pause();
        return new long[] {value};
    }

    /** What comes late comes at the end of a view. */
    private long[] retriedView() {
        long[] values = slowView();
        long value = late.getAndSet(0);
        if (value != 0) word = value;
        return values;
    }

    private long[] numberedView() {
        if (begun > 5) throw new IllegalStateException("no connection");
        long[] values = new long[components];
        Arrays.fill(values, begun);
        return begun < 4 ? null : values;
    }

    public static void main(String[] words) {
        Map<String, IntFunction<? extends SnapDriver.Board>> objects = new HashMap<>();
        for (String name : List.of(
            "stale", "gives-up", "hangs", "short", "dies", "odd", "second", "slow", "fails", "retries", "unmade", "numbered", "slows"))
            objects.put(name, components -> new Faulty(name, components));
        SnapDriver.main(words, objects);
    }
}
