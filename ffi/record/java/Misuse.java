import java.io.IOException;
import java.nio.file.Files;
import java.nio.file.Path;
import java.util.Arrays;
import java.util.List;
import java.util.function.Consumer;
import java.util.function.Supplier;

/** The recorder's texts of two worked runs, written to the files that are named, and the fault of each misuse. usage: Misuse FILE FILE */
public final class Misuse {
    static int passed, failed;

    static void expect(String name, boolean holds) {
        if (holds) passed++;
        else failed++;
        if (!holds) System.err.println("java: " + name + ": failed");
    }

    static SnapRecorder.Fault faultOf(Supplier<?> made) {
        try {
            made.get();
            return null;
        } catch (SnapRecorder.RecordException error) {
            return error.fault;
        }
    }

    static SnapRecorder.Fault limits(int threads, int components, int calls) {
        return faultOf(() -> new SnapRecorder(threads, components, calls));
    }

    static void update(SnapRecorder.Log log, int component, long value) {
        if (log.beginUpdate(component, value) != 0) log.endUpdate();
    }

    static void view(SnapRecorder.Log log, long... values) {
        if (log.beginView()) log.endViewValues(values);
    }

    static void viewAny(SnapRecorder.Log log, Object... values) {
        if (log.beginView()) log.endViewValues(values);
    }

    /** Whether this many views ended, and this many of them overlapped an update. */
    static boolean hasViews(SnapRecorder recorder, int ended, int overlapping) {
        return recorder.views().ended == ended && recorder.views().overlapping == overlapping;
    }

    static String worked() {
        SnapRecorder recorder = new SnapRecorder(2, 2, 6);
        SnapRecorder.Log writer = recorder.log(0), viewer = recorder.log(1);
        expect("the first update has number 1", writer.beginUpdate(0, 7) == 1);
        view(viewer, 7, 0);
        writer.endUpdate();
        expect("the second update has number 2", writer.beginUpdate(0, 8) == 2);
        writer.endUpdate();
        if (viewer.beginView()) viewer.endView(new long[] {2, 0}, new long[] {8, 0});
        if (viewer.beginView()) viewer.dropView();
        view(viewer, 99, 0); // nobody wrote 99
        expect("the views of the worked run", hasViews(recorder, 3, 1));
        return recorder.text();
    }

    /** An update had no effect and is made again, of another it is not known, and a spare log goes on. */
    static String failedCalls() {
        SnapRecorder recorder = new SnapRecorder(3, 2, 6);
        recorder.initials = new Object[] {5, 6};
        SnapRecorder.Log writer = recorder.log(0), viewer = recorder.log(1), spare = recorder.log(2);
        expect("an update begins", writer.beginUpdate(0, 7) == 1);
        writer.dropUpdate();
        expect("a dropped update's number is used again", writer.beginUpdate(0, 7) == 1);
        view(viewer, 5, 6);
        writer.endUpdate();
        view(viewer, 7, 6);
        expect("an update that stays pending", writer.beginUpdate(1, 8) == 1);
        view(viewer, 7, 8);
        view(spare, 7, 8);
        expect("the views beside an update that stays pending", hasViews(recorder, 4, 3));
        return recorder.text();
    }

    /** A view shows what a dropped update wrote. */
    /** What there is while a call is open. */
    static String soFar() {
        SnapRecorder recorder = new SnapRecorder(2, 1, 2);
        expect("an update begins", recorder.log(0).beginUpdate(0, 7) == 1);
        view(recorder.log(1), 7);
        String text = recorder.textSoFar();
        recorder.log(0).endUpdate();
        expect("what there is so far is all that there is", recorder.textSoFar().equals(recorder.text()));
        return text;
    }

    static String dirty() {
        SnapRecorder recorder = new SnapRecorder(2, 1, 2);
        expect("an update begins", recorder.log(0).beginUpdate(0, 9) == 1);
        view(recorder.log(1), 9);
        recorder.log(0).dropUpdate();
        return recorder.text();
    }

    /** The values of the last view of one history are the first ones of the next, which may write older ones again. */
    static String goesOn() {
        SnapRecorder recorder = new SnapRecorder(1, 2, 4);
        recorder.initials = new Object[] {7, 0};
        view(recorder.log(0), 7, 0);
        update(recorder.log(0), 0, 0);
        view(recorder.log(0), 0, 0);
        return recorder.text();
    }

    static boolean hasLog(SnapRecorder recorder, int thread) {
        try {
            return recorder.log(thread) != null;
        } catch (ArrayIndexOutOfBoundsException error) {
            return false;
        }
    }

    /** Values of several classes: one is equal to another by equals, whole numbers if they are the same number. */
    static void values() {
        SnapRecorder recorder = new SnapRecorder(1, 2, 8);
        SnapRecorder.Log log = recorder.log(0);
        recorder.initial = "";
        update(log, 1, -1);
        if (log.beginUpdate(0, List.of("a", 1)) == 1) log.endUpdate();
        viewAny(log, Arrays.asList("a", 1), (short) -1);
        viewAny(log, null, "");
        viewAny(log, "b", -1L); // nobody wrote "b"
        if (log.beginView()) log.endView(new long[] {1, 0}, new Object[] {List.of("a", 1), null});
        String expected = "at,event,process,op,data\n0,begin,0,update,1:1:0\n1,end,0,update,\n2,begin,0,update,0:1:1\n"
            + "3,end,0,update,\n4,begin,0,view,\n5,end,0,view,0:1:1 1:1:0\n6,begin,0,view,\n7,end,0,view,\n8,begin,0,view,\n"
            + "9,end,0,view,0:1:2 1:1:0\n10,begin,0,view,\n11,end,0,view,0:1:1\n";
        expect("values of several classes", recorder.text().equals(expected));
        expect("the table of values", recorder.table().equals(List.of(-1L, List.of("a", 1), "b")));

        SnapRecorder numbers = new SnapRecorder(1, 1, 4);
        for (int i = 0; i < 100; i++) {
            expect("a dropped update leaves its room", numbers.log(0).beginUpdate(0, "dropped") == 1);
            numbers.log(0).dropUpdate();
        }
        update(numbers.log(0), 0, (1L << 32) - 1);
        viewAny(numbers.log(0), (1L << 32) - 1);
        expect("numbers of 32 bits", numbers.text().endsWith(",end,0,view,0:1:4294967295\n") && numbers.table().isEmpty());

        SnapRecorder wide = new SnapRecorder(1, 1, 4);
        update(wide.log(0), 0, 1L << 32);
        expect("a number of 33 bits", wide.text().contains(",begin,0,update,0:1:0\n") && wide.table().equals(List.of(1L << 32)));

        for (Object value : new Object[] {null, new byte[] {1}, new Object[] {1}}) {
            SnapRecorder written = new SnapRecorder(1, 1, 4);
            expect("a value that has no equal is refused", written.log(0).beginUpdate(0, value) == 0);
            expect("a value that has no equal", faultOf(written::text) == SnapRecorder.Fault.VALUE);
            SnapRecorder seen = new SnapRecorder(1, 1, 4);
            viewAny(seen.log(0), value);
            expect("a view of one", faultOf(seen::text) == (value == null ? null : SnapRecorder.Fault.VALUE));
            SnapRecorder numbered = new SnapRecorder(1, 1, 4);
            if (numbered.log(0).beginView()) numbered.log(0).endView(new long[] {1}, new Object[] {value});
            expect("a number of one", faultOf(numbered::text) == SnapRecorder.Fault.VALUE);
        }

        SnapRecorder same = new SnapRecorder(1, 1, 4);
        update(same.log(0), 0, 5);
        if (same.log(0).beginUpdate(0, Integer.valueOf(5)) == 2) same.log(0).endUpdate();
        view(same.log(0), 5);
        expect("one number of two classes", faultOf(same::text) == SnapRecorder.Fault.SAME_VALUE);
    }

    public static void main(String[] words) throws IOException {
        Files.writeString(Path.of(words[0]), worked());
        Files.writeString(Path.of(words[1]), failedCalls());
        expect("what there is so far", soFar().equals(
            "at,event,process,op,data\n0,begin,0,update,0:1:7\n1,begin,1,view,\n2,end,1,view,0:1:7\n"));
        expect("a dropped update that was seen", dirty().equals("at,event,process,op,data\n1,begin,1,view,\n2,end,1,view,0:1:9\n"));
        expect("a history that goes on", goesOn().equals("at,event,process,op,data\n0,begin,0,view,\n1,end,0,view,\n"
            + "2,begin,0,update,0:1:0\n3,end,0,update,\n4,begin,0,view,\n5,end,0,view,0:1:0\n"));
        values();

        SnapRecorder two = new SnapRecorder(2, 1, 1);
        expect("a log that there is not", hasLog(two, 1) && !hasLog(two, 2) && !hasLog(two, -1));
        expect("limits of threads", limits(0, 1, 1) == SnapRecorder.Fault.LIMITS && limits(65537, 1, 1) == SnapRecorder.Fault.LIMITS);
        expect("limits of components", limits(1, 257, 1) == SnapRecorder.Fault.LIMITS);
        expect("limits of calls", limits(2, 1, SnapRecorder.EVENT_LIMIT / 4 + 1) == SnapRecorder.Fault.LIMITS);
        expect("no call", limits(1, 1, 0) == SnapRecorder.Fault.LIMITS && limits(1, -1, 1) == SnapRecorder.Fault.LIMITS);
        expect("within limits", limits(2, 256, 100) == null && limits(16, 1, SnapRecorder.EVENT_LIMIT / 32) == null);

        SnapRecorder full = new SnapRecorder(2, 1, 2);
        update(full.log(0), 0, 1);
        update(full.log(0), 0, 2);
        expect("a full log refuses", full.log(0).beginUpdate(0, 3) == 0);
        expect("a full log stops all threads", !full.log(1).beginView());
        expect("a full log is a history", faultOf(full::text) == null);
        full.log(0).endUpdate();
        expect("a call after a full log", faultOf(full::text) == SnapRecorder.Fault.AFTER_FULL);

        SnapRecorder nested = new SnapRecorder(2, 1, 4);
        expect("begun", nested.log(0).beginUpdate(0, 1) == 1);
        expect("a nested call is refused", !nested.log(0).beginView());
        expect("a misuse stops all threads", !nested.log(1).beginView());
        expect("a nested call", faultOf(nested::text) == SnapRecorder.Fault.NESTED);

        SnapRecorder alone = new SnapRecorder(1, 1, 4);
        alone.log(0).endUpdate();
        expect("an end without a begin", faultOf(alone::text) == SnapRecorder.Fault.NOT_OPEN);

        SnapRecorder other = new SnapRecorder(1, 1, 4);
        if (other.log(0).beginView()) other.log(0).endUpdate();
        expect("an end of another kind", faultOf(other::text) == SnapRecorder.Fault.NOT_OPEN);

        List<Consumer<SnapRecorder.Log>> ends = List.of(
            log -> log.endViewValues(new long[] {0}), log -> log.endViewValues(new Object[] {0}),
            log -> log.endView(new long[1], new long[1]), log -> log.endView(new long[1], new Object[1]), SnapRecorder.Log::dropView);
        for (Consumer<SnapRecorder.Log> end : ends)
            for (boolean updates : new boolean[] {false, true}) {
                SnapRecorder ended = new SnapRecorder(1, 1, 4);
                expect("an update", !updates || ended.log(0).beginUpdate(0, 1) == 1);
                end.accept(ended.log(0));
                expect("an end of a view without a begin", faultOf(ended::text) == SnapRecorder.Fault.NOT_OPEN);
            }

        SnapRecorder high = new SnapRecorder(1, 2, 4);
        expect("a component that is too high is refused", high.log(0).beginUpdate(2, 1) == 0);
        expect("a component that is too high", faultOf(high::text) == SnapRecorder.Fault.COMPONENT);

        SnapRecorder dropped = new SnapRecorder(1, 1, 4);
        dropped.log(0).dropUpdate();
        expect("an update dropped without a begin", faultOf(dropped::text) == SnapRecorder.Fault.NOT_OPEN);

        SnapRecorder viewed = new SnapRecorder(1, 1, 4);
        if (viewed.log(0).beginView()) viewed.log(0).dropUpdate();
        expect("a view dropped as an update", faultOf(viewed::text) == SnapRecorder.Fault.NOT_OPEN);

        SnapRecorder wide = new SnapRecorder(1, 1, 4);
        if (wide.log(0).beginView()) wide.log(0).endView(new long[] {1L << 32}, new long[] {1});
        expect("a number of 33 bits", faultOf(wide::text) == SnapRecorder.Fault.VALUE);

        for (int numbers = 1; numbers < 4; numbers += 2)
            for (boolean ofAnyClass : new boolean[] {false, true}) {
                SnapRecorder uneven = new SnapRecorder(1, 3, 4);
                if (!uneven.log(0).beginView()) continue;
                if (ofAnyClass) uneven.log(0).endView(new long[numbers], new Object[2]);
                else uneven.log(0).endView(new long[numbers], new long[2]);
                expect("not as many numbers as values", faultOf(uneven::text) == SnapRecorder.Fault.PART);
            }

        SnapRecorder part = new SnapRecorder(1, 2, 4);
        view(part.log(0), 0);
        expect("fewer values than components", faultOf(part::text) == SnapRecorder.Fault.PART);

        SnapRecorder more = new SnapRecorder(1, 2, 4);
        view(more.log(0), 0, 0, 0);
        expect("more values than components", faultOf(more::text) == SnapRecorder.Fault.COMPONENT);

        SnapRecorder few = new SnapRecorder(1, 2, 4);
        few.initials = new Object[] {4};
        expect("fewer initial values than components", faultOf(few::text) == SnapRecorder.Fault.INITIALS);
        few.initials = new Object[] {4, 5, 6};
        expect("more initial values than components", faultOf(few::text) == SnapRecorder.Fault.INITIALS);

        for (int component = 0; component < 2; component++) {
            SnapRecorder first = new SnapRecorder(1, 2, 4);
            first.initials = new Object[] {4, 5};
            update(first.log(0), component, 5);
            view(first.log(0), 5, 5);
            expect("the initial value of a component", faultOf(first::text) == (component == 0 ? null : SnapRecorder.Fault.SAME_VALUE));
        }

        SnapRecorder writers = new SnapRecorder(2, 2, 4);
        update(writers.log(0), 1, 5);
        update(writers.log(1), 1, 6);
        expect("two writers", faultOf(writers::text) == SnapRecorder.Fault.TWO_WRITERS);

        SnapRecorder same = new SnapRecorder(1, 2, 4);
        update(same.log(0), 1, 5);
        update(same.log(0), 1, 5);
        expect("one value twice, and no view", faultOf(same::text) == null);
        view(same.log(0), 0, 5);
        expect("one value twice", faultOf(same::text) == SnapRecorder.Fault.SAME_VALUE);

        SnapRecorder initial = new SnapRecorder(1, 1, 4);
        initial.initial = 5;
        update(initial.log(0), 0, 5);
        view(initial.log(0), 5);
        expect("the initial value", faultOf(initial::text) == SnapRecorder.Fault.SAME_VALUE);

        System.out.println(passed + " passed, " + failed + " failed");
        System.exit(failed == 0 ? 0 : 1);
    }
}
