/*
 * SPDX-License-Identifier: 0BSD
 * Copyright (C) 2026 by the authors of snapjudge
 * Permission to use, copy, modify, and/or distribute this software for any purpose with or without fee is hereby granted.
 * THE SOFTWARE IS PROVIDED "AS IS" AND THE AUTHOR DISCLAIMS ALL WARRANTIES WITH REGARD TO THIS SOFTWARE INCLUDING ALL IMPLIED
 * WARRANTIES OF MERCHANTABILITY AND FITNESS. IN NO EVENT SHALL THE AUTHOR BE LIABLE FOR ANY SPECIAL, DIRECT, INDIRECT, OR
 * CONSEQUENTIAL DAMAGES OR ANY DAMAGES WHATSOEVER RESULTING FROM LOSS OF USE, DATA OR PROFITS, WHETHER IN AN ACTION OF
 * CONTRACT, NEGLIGENCE OR OTHER TORTIOUS ACTION, ARISING OUT OF OR IN CONNECTION WITH THE USE OR PERFORMANCE OF THIS SOFTWARE.
 */

import java.io.IOException;
import java.lang.invoke.VarHandle;
import java.nio.file.Files;
import java.nio.file.Path;
import java.util.ArrayList;
import java.util.Arrays;
import java.util.Collections;
import java.util.HashMap;
import java.util.LinkedHashSet;
import java.util.List;
import java.util.Map;
import java.util.Objects;
import java.util.Set;
import java.util.concurrent.atomic.AtomicBoolean;
import java.util.concurrent.atomic.AtomicInteger;
import java.util.concurrent.atomic.AtomicLong;
import java.util.concurrent.atomic.AtomicReference;
import java.util.stream.IntStream;

/**
 * Records the calls that threads make of a single-writer board, and writes them as a history for {@code snapjudge check}.
 *
 * <p>One file, Java 11 or later, no dependencies: copy it into a harness. docs/OWN-OBJECT.md of snapjudge leads through one.
 *
 * <pre>
 * SnapRecorder recorder = new SnapRecorder(threads, components, calls);
 *
 * SnapRecorder.Log log = recorder.log(t);                 // thread t, and no other
 * if (log.beginUpdate(component, value) == 0) return;     // refused: make no further call
 * board.update(component, value);
 * log.endUpdate();
 * if (!log.beginView()) return;
 * long[] values = board.view();
 * log.endViewValues(values);                              // or endView, of numbers; of a call that failed drop..
 *
 * String text = recorder.text();                          // after the threads were joined; textSoFar() writes one before
 * Thread hook = recorder.keep(path);                      // or writes that when the process ends
 * </pre>
 *
 * <p>Values may be of any class with equals and hashCode, as strings, lists and records are. A Byte, Short, Integer and Long are
 * equal if they are the same number. null in a view is the value that the component has at first.
 *
 * <p>What the record says: if call A ended before call B began, A happened before B. Each stamp is one getAndIncrement of
 * one AtomicLong. A begin takes it last in begin.., and an end takes it first in end... A thread writes to its own log
 * alone. Nothing is locked, and nothing throws, while threads run. Nothing is allocated if values are of class long.
 *
 * <p>What it cannot say: the clock orders more calls than the object may, so a fault that needs two calls without such an
 * order can hide.
 */
public final class SnapRecorder {
    /** How many events a history may have; a call has two. More than 65536 the judge takes by --events N. */
    public static final int EVENT_LIMIT = 1048576;
    public static final int COMPONENT_LIMIT = 256;
    /** A thread is one process. */
    public static final int PROCESS_LIMIT = 65536;

    /** What is wrong with a record, or with the use of a recorder. */
    public enum Fault {
        LIMITS("a history has at most " + EVENT_LIMIT / 2 + " calls of " + PROCESS_LIMIT + " threads in all, and " + COMPONENT_LIMIT + " components"),
        NESTED("began a call before its last one had ended"),
        NOT_OPEN("ended a call that it had not begun"),
        AFTER_FULL("made a call although begin had refused it: a log was full"),
        COMPONENT("named a component that is too high"),
        VALUE("gave a number that has not 32 bits, or a value that is null or an array: an array equals itself alone, so give a list"),
        TWO_WRITERS("two threads updated it, and a component has one writer"),
        SAME_VALUE("twice, or has it at first, so a view's value has no one number: make the values differ, or end views with numbers"),
        PART("told the values of fewer components than there are: record each part by a recorder of its own"),
        INITIALS("there are initial values, and not as many as components");

        private final String sentence;

        Fault(String sentence) {
            this.sentence = sentence;
        }
    }

    /** How many views of a history ended, and how many of these overlapped an update: both calls were open at one moment. */
    public static final class Views {
        public final int ended, overlapping;

        private Views(int ended, int overlapping) {
            this.ended = ended;
            this.overlapping = overlapping;
        }
    }

    /** Why there is no recorder, or no text. */
    public static final class RecordException extends RuntimeException {
        private static final long serialVersionUID = 1;
        public final Fault fault;

        private RecordException(Fault fault, String subject) {
            super(subject + fault.sentence);
            this.fault = fault;
        }
    }

    private static final int BEGIN_UPDATE = 0, END_UPDATE = 1, BEGIN_VIEW = 2, END_VIEW = 3, END_VIEW_VALUES = 4;
    private static final String[] WORDS = {",begin,", ",end,", ",begin,", ",end,", ",end,"};
    private static final String[] OPS = {",update,", ",update,", ",view,", ",view,", ",view,"};

    private final AtomicLong clock = new AtomicLong();
    /** A log is full, or a call was misused: begin is refused to all threads. */
    private final AtomicBoolean stopped = new AtomicBoolean();
    private final AtomicReference<RecordException> misuse = new AtomicReference<>();
    private final int components;
    private final int calls;
    private final Log[] logs;
    private List<Object> table = List.of();

    /** The value that each component has at first; set it before the threads start. */
    public Object initial = 0;
    /** Or, if it is not null, the first value of each component. */
    public Object[] initials;

    /** A recorder for this many threads, components, and calls of each thread, at most EVENT_LIMIT / 2 calls in all. */
    public SnapRecorder(int threads, int components, int calls) {
        boolean fits = threads >= 1 && threads <= PROCESS_LIMIT && components >= 0 && components <= COMPONENT_LIMIT && calls >= 1;
        if (!fits || calls > EVENT_LIMIT / 2 / threads) throw new RecordException(Fault.LIMITS, "");
        this.components = components;
        this.calls = calls;
        logs = new Log[threads];
        for (int t = 0; t < threads; t++) logs[t] = new Log(t);
    }

    /** The log of a thread, which is the process of that number. */
    public Log log(int thread) {
        return logs[thread];
    }

    private enum State { IDLE, REFUSED, UPDATING, VIEWING }

    /** What one thread recorded. */
    public final class Log {
        private final int thread;
        private final long[] stamps = new long[2 * calls];
        private final int[] kinds = new int[2 * calls];
        private final int[] firsts = new int[2 * calls + 1]; // the entries of event i: from firsts[i] to firsts[i + 1]
        private final int[] shownComponents = new int[calls * Math.max(components, 1)];
        private final long[] shownNumbers = new long[shownComponents.length];
        private final long[] shownValues = new long[shownComponents.length];
        private Object[] shownObjects; // null if there is none: then the value is in shownValues
        private final int[] begun = new int[COMPONENT_LIMIT];
        private int length;
        private int shown;
        /** How many events others may read, and how often a begin was taken back. */
        private final AtomicInteger whole = new AtomicInteger(), drops = new AtomicInteger();
        private State state = State.IDLE;

        private Log(int thread) {
            this.thread = thread;
        }

        /** The first misuse is kept for text(), and stops all threads. */
        private boolean misused(Fault fault) {
            misuse.compareAndSet(null, new RecordException(fault, "thread " + thread + " "));
            stopped.setOpaque(true);
            state = State.REFUSED;
            return false;
        }

        private boolean mayBegin() {
            if (state == State.UPDATING || state == State.VIEWING) return misused(Fault.NESTED);
            if (length == 2 * calls) stopped.setOpaque(true); // all threads stop, else views show updates that no one recorded
            if (stopped.getOpaque()) state = State.REFUSED;
            return state == State.IDLE;
        }

        private boolean mayEnd(State expected) {
            return state == expected || misused(state == State.REFUSED ? Fault.AFTER_FULL : Fault.NOT_OPEN);
        }

        private boolean show(int component, long number, long value) {
            if (component < 0 || component >= components) return misused(Fault.COMPONENT);
            if (number >>> 32 != 0) return misused(Fault.VALUE);
            shownComponents[shown] = component;
            shownNumbers[shown] = number;
            if (shownObjects != null) shownObjects[shown] = null;
            shownValues[shown++] = value;
            return true;
        }

        private boolean show(int component, long number, Object given) {
            Object value = plain(given);
            if (value == null || value.getClass().isArray()) return misused(Fault.VALUE);
            if (value instanceof Long) return show(component, number, ((Long) value).longValue());
            if (!show(component, number, 0)) return false;
            if (shownObjects == null) shownObjects = new Object[shownComponents.length];
            shownObjects[shown - 1] = value;
            return true;
        }

        private Object value(int entry) {
            Object value = shownObjects == null ? null : shownObjects[entry];
            return value == null ? (Object) shownValues[entry] : value;
        }

        private void begin(State next, int kind) {
            kinds[length] = kind;
            firsts[length + 1] = shown;
            state = next;
            stamps[length++] = clock.getAndIncrement();
            publish();
        }

        /** Others may read the events up to here. What the object writes next does not come before that. */
        private void publish() {
            whole.setRelease(length);
            VarHandle.releaseFence();
        }

        /** How many events began or ended before this moment. A begin that is taken back meanwhile is looked at again. */
        private int lengthAt(long now) {
            for (;;) {
                int dropped = drops.get(), count = whole.getAcquire(), at = count;
                while (at > 0 && stamps[at - 1] >= now) at--;
                VarHandle.acquireFence();
                if (dropped == drops.get()) return at;
            }
        }

        private void end(long stamp, int kind) {
            kinds[length] = kind;
            firsts[length + 1] = shown;
            stamps[length++] = stamp;
            state = State.IDLE;
            publish();
        }

        /** The number of the update, from 1 in each component; or 0: a log is full, or a call was misused. Then make no further call. */
        public int beginUpdate(int component, long value) {
            return mayBegin() && show(component, 0, value) ? begun(component) : 0;
        }

        /** Begins an update with a value of any class, and answers as the call above. */
        public int beginUpdate(int component, Object value) {
            return mayBegin() && show(component, 0, value) ? begun(component) : 0;
        }

        private int begun(int component) {
            int number = ++begun[component];
            shownNumbers[shown - 1] = number;
            begin(State.UPDATING, BEGIN_UPDATE);
            return number;
        }

        public void endUpdate() {
            long stamp = clock.getAndIncrement();
            if (mayEnd(State.UPDATING)) end(stamp, END_UPDATE);
        }

        /** False: a log is full, or a call was misused. Then make no further call. */
        public boolean beginView() {
            if (!mayBegin()) return false;
            begin(State.VIEWING, BEGIN_VIEW);
            return true;
        }

        /** The end of a view that shows number and value of component 0 and so on. Number 0 is the initial state. */
        public void endView(long[] numbers, long[] values) {
            long stamp = clock.getAndIncrement();
            if (!mayEndWith(numbers.length, values.length)) return;
            for (int k = 0; k < numbers.length; k++) if (!show(k, numbers[k], values[k])) return;
            end(stamp, END_VIEW);
        }

        /** The end of a view that shows values of any class; that of a number 0 may be null. */
        public void endView(long[] numbers, Object[] values) {
            long stamp = clock.getAndIncrement();
            if (!mayEndWith(numbers.length, values.length)) return;
            for (int k = 0; k < numbers.length; k++) if (!show(k, numbers[k], numbers[k] == 0 ? 0 : values[k])) return;
            end(stamp, END_VIEW);
        }

        /**
         * The end of a view that shows these values, of component 0 and so on. text() finds the number of each by its value. So
         * the updates of a component must write values that differ from each other and from the initial one.
         */
        public void endViewValues(long[] values) {
            long stamp = clock.getAndIncrement();
            if (!mayEndViewOf(values.length)) return;
            for (int k = 0; k < values.length; k++) if (!show(k, 0, values[k])) return;
            end(stamp, END_VIEW_VALUES);
        }

        /** The end of a view that shows values of any class alone. null is the value that the component has at first. */
        public void endViewValues(Object[] values) {
            long stamp = clock.getAndIncrement();
            if (!mayEndViewOf(values.length)) return;
            for (int k = 0; k < values.length; k++) if (values[k] != null && !show(k, 0, values[k])) return;
            end(stamp, END_VIEW_VALUES);
        }

        private boolean mayEndWith(int numbers, int values) {
            return mayEnd(State.VIEWING) && (numbers == values || misused(Fault.PART));
        }

        private boolean mayEndViewOf(int count) {
            return mayEnd(State.VIEWING) && (count == components || misused(count > components ? Fault.COMPONENT : Fault.PART));
        }

        private boolean dropped(State expected) {
            if (!mayEnd(expected)) return false;
            length--;
            state = State.IDLE;
            drops.getAndIncrement();
            publish();
            return true;
        }

        /** Call this in place of the end of a view that gave no answer, because it gave up: the view is left out of the history. */
        public void dropView() {
            dropped(State.VIEWING);
        }

        /**
         * In place of the end of an update that had no effect, and can have none any more: it is left out of the history, and the
         * next update of its component gets its number. If that is not known, end nothing, and use this log no more.
         */
        public void dropUpdate() {
            if (dropped(State.UPDATING)) begun[shownComponents[--shown]]--;
        }
    }

    /**
     * The history that all logs hold, after the threads were joined. The logs follow one another: the judge puts the
     * events in the order of their stamps. Throws RecordException of the first misuse, of INITIALS, TWO_WRITERS or SAME_VALUE.
     */
    public String text() {
        return text(Arrays.stream(logs).mapToInt(log -> log.length).toArray());
    }

    /**
     * The history while threads run: a call that is open, or ends meanwhile, has no end in it. An update whose begin is left out had not
     * begun before each view that is in it had ended. So a right run is never called wrong.
     */
    public String textSoFar() {
        long now = clock.get();
        return text(Arrays.stream(logs).mapToInt(log -> log.lengthAt(now)).toArray());
    }

    /**
     * If the process ends, the history so far is written into this file: at System.exit, when all threads have ended, or by SIGTERM or
     * SIGINT. Runtime.removeShutdownHook of the answer ends that. A process that dies otherwise writes nothing.
     */
    public Thread keep(Path path) {
        Thread hook = new Thread(() -> {
            try {
                Files.writeString(path, textSoFar());
            } catch (IOException | RecordException error) {
                System.err.println(path + " can't be written: " + error);
            }
        });
        Runtime.getRuntime().addShutdownHook(hook);
        return hook;
    }

    /** The history of this many events of each log. */
    private String text(int[] lengths) {
        if (misuse.get() != null) throw misuse.get();
        if (initials != null && initials.length != components) throw new RecordException(Fault.INITIALS, "");
        Updates updates = new Updates(lengths);
        tabulate(updates, lengths);
        Map<Object, Integer> places = new HashMap<>();
        for (int place = 0; place < table.size(); place++) places.put(table.get(place), place);
        StringBuilder text = new StringBuilder("at,event,process,op,data\n");
        for (Log log : logs) for (int i = 0; i < lengths[log.thread]; i++) write(text, updates, places, log, i);
        return text.toString();
    }

    /**
     * Counts the views, after the threads were joined. A run in which none overlapped an update says nothing of calls at the same
     * time.
     */
    public Views views() {
        long[] begun = stampsOf(BEGIN_UPDATE), ended = stampsOf(END_UPDATE);
        int views = 0, overlapping = 0;
        for (Log log : logs)
            for (int i = 1; i < log.length; i++) { // the event before an end is the begin of its call
                if (log.kinds[i] != END_VIEW && log.kinds[i] != END_VIEW_VALUES) continue;
                views++;
                // more updates began before its end than ended before its begin
                if (below(begun, log.stamps[i]) > below(ended, log.stamps[i - 1])) overlapping++;
            }
        return new Views(views, overlapping);
    }

    /** The stamps of all events of this kind, rising. */
    private long[] stampsOf(int kind) {
        return Arrays.stream(logs)
            .flatMapToLong(log -> IntStream.range(0, log.length).filter(i -> log.kinds[i] == kind).mapToLong(i -> log.stamps[i]))
            .sorted()
            .toArray();
    }

    /** How many of these rising stamps are below another one, which is none of them. */
    private static int below(long[] stamps, long stamp) {
        return -1 - Arrays.binarySearch(stamps, stamp);
    }

    /**
     * The values by the numbers that stand for them in the last text(), from 0 on. It is empty if all values are whole numbers
     * of 32 bits without a sign: each then stands for itself.
     */
    public List<Object> table() {
        return table;
    }

    private void tabulate(Updates updates, int[] lengths) {
        Set<Object> values = new LinkedHashSet<>();
        for (Log log : logs)
            for (int i = 0; i < lengths[log.thread]; i++)
                for (int e = log.firsts[i]; e < log.firsts[i + 1]; e++)
                    if (number(updates, log, i, e) != 0) values.add(log.value(e));
        boolean standForThemselves = values.stream().allMatch(value -> value instanceof Long && (Long) value >>> 32 == 0);
        table = standForThemselves ? List.of() : List.copyOf(values);
    }

    private static long number(Updates updates, Log log, int i, int e) {
        boolean isByValue = log.kinds[i] == END_VIEW_VALUES;
        return isByValue ? updates.number(log.shownComponents[e], log.value(e), log.stamps[i]) : log.shownNumbers[e];
    }

    private static void write(StringBuilder text, Updates updates, Map<Object, Integer> places, Log log, int i) {
        int kind = log.kinds[i];
        text.append(log.stamps[i]).append(WORDS[kind]).append(log.thread).append(OPS[kind]);
        String space = "";
        for (int e = log.firsts[i]; e < log.firsts[i + 1]; e++) {
            long number = number(updates, log, i, e);
            if (number == 0) continue;
            Integer place = places.get(log.value(e));
            text.append(space).append(log.shownComponents[e]).append(':').append(number).append(':');
            text.append(place == null ? log.value(e) : place);
            space = " ";
        }
        text.append('\n');
    }

    /** Whole numbers are equal if they are the same number. */
    private static Object plain(Object value) {
        boolean isWhole = value instanceof Integer || value instanceof Short || value instanceof Byte;
        return isWhole ? (Object) ((Number) value).longValue() : value;
    }

    private boolean isInitial(int component, Object value) {
        return Objects.equals(value, plain(initials == null ? initial : initials[component]));
    }

    /** All updates, to look numbers up. */
    private final class Updates {
        private final List<List<Long>> begun = new ArrayList<>(); // by component and number: the stamp of the begin
        private final List<Map<Object, Integer>> numbers = new ArrayList<>(); // by component and value, if views have values alone

        private Updates(int[] lengths) {
            boolean byValues = false;
            for (Log log : logs) for (int i = 0; i < lengths[log.thread]; i++) byValues |= log.kinds[i] == END_VIEW_VALUES;
            Log[] writers = new Log[COMPONENT_LIMIT];
            for (int k = 0; k < COMPONENT_LIMIT; k++) {
                begun.add(new ArrayList<>());
                numbers.add(new HashMap<>());
            }
            for (Log log : logs)
                for (int i = 0; i < lengths[log.thread]; i++) {
                    if (log.kinds[i] != BEGIN_UPDATE) continue;
                    int component = log.shownComponents[log.firsts[i]];
                    Object value = log.value(log.firsts[i]);
                    if (writers[component] != null && writers[component] != log)
                        throw new RecordException(Fault.TWO_WRITERS, "component " + component + ": ");
                    writers[component] = log;
                    begun.get(component).add(log.stamps[i]);
                    Integer other = numbers.get(component).put(value, begun.get(component).size());
                    if (byValues && (other != null || isInitial(component, value)))
                        throw new RecordException(Fault.SAME_VALUE, "component " + component + " got the value " + value + " ");
                }
        }

        /**
         * The number of the value that a view shows. One that nobody wrote gets the last number that had begun when the view
         * ended: the judge then says "integrity", and no more of this entry by itself.
         */
        private int number(int component, Object value, long ended) {
            if (isInitial(component, value)) return 0;
            Integer number = numbers.get(component).get(value);
            if (number != null) return number;
            // no stamp of a begin is that of an end, so the place is negative
            return Math.max(1, -1 - Collections.binarySearch(begun.get(component), ended));
        }
    }
}
