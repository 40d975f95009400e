/*
 * SPDX-License-Identifier: 0BSD
 * Copyright (C) 2026 by the authors of snapjudge
 * Permission to use, copy, modify, and/or distribute this software for any purpose with or without fee is hereby granted.
 * THE SOFTWARE IS PROVIDED "AS IS" AND THE AUTHOR DISCLAIMS ALL WARRANTIES WITH REGARD TO THIS SOFTWARE INCLUDING ALL IMPLIED
 * WARRANTIES OF MERCHANTABILITY AND FITNESS. IN NO EVENT SHALL THE AUTHOR BE LIABLE FOR ANY SPECIAL, DIRECT, INDIRECT, OR
 * CONSEQUENTIAL DAMAGES OR ANY DAMAGES WHATSOEVER RESULTING FROM LOSS OF USE, DATA OR PROFITS, WHETHER IN AN ACTION OF
 * CONTRACT, NEGLIGENCE OR OTHER TORTIOUS ACTION, ARISING OUT OF OR IN CONNECTION WITH THE USE OR PERFORMANCE OF THIS SOFTWARE.
 */

import java.io.File;
import java.io.IOException;
import java.math.BigInteger;
import java.nio.charset.StandardCharsets;
import java.nio.file.Files;
import java.nio.file.Path;
import java.util.ArrayList;
import java.util.Arrays;
import java.util.Collections;
import java.util.List;
import java.util.Locale;
import java.util.Map;
import java.util.TreeSet;
import java.util.concurrent.CyclicBarrier;
import java.util.concurrent.Semaphore;
import java.util.concurrent.atomic.AtomicLong;
import java.util.concurrent.atomic.AtomicReference;
import java.util.concurrent.locks.LockSupport;
import java.util.concurrent.locks.ReentrantLock;
import java.util.function.IntFunction;
import java.util.regex.Pattern;
import java.util.stream.Collectors;
import java.util.stream.IntStream;

/**
 * Drives a snapshot object of one's own: threads update and view it by a seeded schedule, and the judge judges each run.
 *
 * <p>Two files, this one and SnapRecorder.java, Java 11 or later, no dependencies: copy both. docs/OWN-OBJECT.md of snapjudge
 * shows how.
 *
 * <pre>
 * final class Mine implements SnapDriver.Board {
 *     Mine(int components) { .. }                                        // a fresh one for each run, with 0 in each component
 *     public void update(int thread, int component, long value) { .. }
 *     public long[] view(int thread) { .. }                              // one value for each component; null if it gave up
 * }
 *
 * SnapDriver.main(words, "mine", Mine::new);
 * </pre>
 *
 * <p>If an object calls SnapDriver.pause() between its steps, the other threads run in the middle of its calls. SnapDriver.point()
 * marks such a place for the schedule pct alone. An update that failed throws SnapDriver.NoEffect or SnapDriver.Unknown.
 * In a test of one's own, SnapDriver.run does the same without a command line; it throws DriveException and RecordException.
 */
public final class SnapDriver {
    public static final String USAGE = String.join("\n",
        "usage: [OBJECT] [OPTION VALUE ..]",
        "  --threads 4      how many threads, at most 64",
        "  --components 4   how many components, at most 64; thread t updates t, t + threads and so on",
        "  --calls 200      how many calls each thread makes; all threads together make at most half of --events",
        "  --events 65536   how many events a run may have, at most 1048576; a call has two",
        "  --runs 20        how many runs, each of a fresh object",
        "  --seed 1         the seed of the random choice of calls",
        "  --order choice   the seed chooses each call; or turn: updates and a view in turn",
        "  --schedule free  threads run freely; or pct: in turns that the seed chooses, the same in each try",
        "  --depth 3        by pct the turns change at this many moments, less one; at most 64",
        "  --nap 0          if not 0, pauses and the gaps between calls last up to that many microseconds",
        "  --stop 0         if not 0, ends after that many runs that were not atomic",
        "  --limit 60       how many seconds a run may take",
        "  --views 1        how many views must end in all runs together; 0 asks for none",
        "  --out .          the folder for the first run that was not atomic",
        "  --program FILE   the program snapjudge; else SNAPJUDGE_PROGRAM names it, else it is on the PATH",
        "  --choices        writes the calls that the seed chooses, and runs nothing",
        "  --help           writes the options and the objects, with status 0");

    /** An object under test. */
    public interface Board {
        void update(int thread, int component, long value) throws Exception;

        /** One value for each component, or null if it gave up. */
        long[] view(int thread) throws Exception;
    }

    /** Thrown by an update that had no effect, and can have none any more. It is left out of the history. */
    public static final class NoEffect extends Exception {
        private static final long serialVersionUID = 1;
    }

    /**
     * Thrown by an update of which nobody knows whether it had an effect, or will have one. It stays pending, and its thread makes no
     * more calls in this run.
     */
    public static final class Unknown extends Exception {
        private static final long serialVersionUID = 1;
    }

    /**
     * Why runs have no verdict; the name is usage, limits, view, died, hangs, memory, few views, no overlap, no judge, no verdict or
     * files.
     */
    public static final class DriveException extends RuntimeException {
        private static final long serialVersionUID = 1;
        public final String name;

        private DriveException(String name, String message) {
            super(message);
            this.name = name;
        }
    }

    /** The numbers among the options: each with its least and its greatest value, and the one that it has unless it is set. */
    private enum Number {
        THREADS(1, 64, 4),
        COMPONENTS(1, 64, 4),
        CALLS(1, SnapRecorder.EVENT_LIMIT / 2, 200),
        RUNS(1, 1000000000, 20),
        SEED(0, -1, 1),
        NAP(0, 1000000, 0),
        STOP(0, 1000000000, 0),
        LIMIT(1, 100000, 60),
        VIEWS(0, 1000000000, 1),
        EVENTS(2, SnapRecorder.EVENT_LIMIT, 65536),
        DEPTH(1, 64, 3);

        final long least, greatest, preset;

        Number(long least, long greatest, long preset) {
            this.least = least;
            this.greatest = greatest;
            this.preset = preset;
        }
    }

    /** What a run is asked for. A seed has 64 bits without a sign. */
    public static final class Options {
        private final long[] numbers = Arrays.stream(Number.values()).mapToLong(it -> it.preset).toArray();
        private String order = "choice", schedule = "free", out = ".", program;

        /** Sets an option by its name, as the command line does. */
        public Options with(String name, Object value) {
            if (name.equals("order")) order = value.toString();
            else if (name.equals("schedule")) schedule = value.toString();
            else if (name.equals("out")) out = value.toString();
            else if (name.equals("program")) program = value.toString();
            else setNumber(name, value.toString());
            return this;
        }

        private static boolean has(String name) {
            return List.of("order", "schedule", "out", "program").contains(name)
                || Arrays.stream(Number.values()).anyMatch(it -> it.name().toLowerCase(Locale.ROOT).equals(name));
        }

        private void setNumber(String name, String value) {
            if (!has(name)) throw new DriveException("usage", "there is no option --" + name);
            if (!value.matches("[0-9]+")) throw new DriveException("usage", "--" + name + ": " + value + " is not a number");
            Number number = Number.valueOf(name.toUpperCase(Locale.ROOT));
            BigInteger read = new BigInteger(value), greatest = new BigInteger(Long.toUnsignedString(number.greatest));
            if (read.compareTo(BigInteger.valueOf(number.least)) < 0 || read.compareTo(greatest) > 0)
                throw new DriveException("limits", name + " is a number from " + number.least + " to " + greatest);
            numbers[number.ordinal()] = read.longValue();
        }

        private int get(Number number) {
            return (int) numbers[number.ordinal()];
        }

        private void test() {
            if ((long) get(Number.THREADS) * get(Number.CALLS) > get(Number.EVENTS) / 2)
                throw new DriveException("limits", "all threads make at most " + get(Number.EVENTS) / 2 + " calls");
            if (!order.equals("choice") && !order.equals("turn")) throw new DriveException("usage", "order is choice or turn");
            if (!schedule.equals("free") && !schedule.equals("pct")) throw new DriveException("usage", "schedule is free or pct");
        }
    }

    /**
     * How many runs were atomic, only regular, or not regular; and which was the first that was not atomic, from 1, or 0. How many
     * views ended in all runs, how many of these overlapped an update, and how many runs have such a view.
     */
    public static final class Outcome {
        public int atomic, onlyRegular, notRegular, first, overlapped;
        public long views, overlapping;

        private int caught() {
            return onlyRegular + notRegular;
        }

        private int runs() {
            return atomic + caught();
        }

        private String countedRuns() {
            return runs() + (runs() == 1 ? " run" : " runs");
        }

        @Override
        public String toString() {
            String verdicts = "atomic " + atomic + ", only-regular " + onlyRegular + ", not-regular " + notRegular;
            String seen = overlapping + " of " + views + " views overlapped an update, in " + overlapped + " of " + countedRuns();
            return verdicts + "; " + seen;
        }

        /** Throws if the runs say nothing of the object: all were atomic, and too few views ended, or none overlapped an update. */
        private void test(int asked) {
            if (first > 0 || asked == 0) return;
            if (views < asked)
                throw new DriveException(
                    "few views", views + " views ended in " + countedRuns() + ", fewer than " + asked + ": there is no verdict");
            if (overlapping == 0)
                throw new DriveException("no overlap", "none of " + views + " views overlapped an update in " + countedRuns()
                    + ": there is no verdict on calls at the same time");
        }
    }

    /** A history, and its views. */
    private static final class Run {
        private final String text;
        private final SnapRecorder.Views views;

        private Run(SnapRecorder recorder) {
            text = recorder.text();
            views = recorder.views();
        }
    }

    // ---- the schedule

    private static final long GAMMA = 0x9E3779B97F4A7C15L;
    private static final int VIEW = -1;

    /** The output of splitmix64 in this state. */
    private static long mix(long state) {
        state = (state ^ state >>> 30) * 0xBF58476D1CE4E5B9L;
        state = (state ^ state >>> 27) * 0x94D049BB133111EBL;
        return state ^ state >>> 31;
    }

    /** The generator splitmix64. */
    private static final class Random {
        private long state;

        private Random(long seed) {
            state = seed;
        }

        private long next() {
            return mix(state += GAMMA);
        }
    }

    /** The component that each call of a thread updates, or VIEW. */
    private static int[] choose(Options options, int thread, long seed) {
        int threads = options.get(Number.THREADS), components = options.get(Number.COMPONENTS);
        int own = thread < components ? (components - 1 - thread) / threads + 1 : 0;
        int[] calls = new int[options.get(Number.CALLS)];
        Random random = new Random(seed);
        for (int i = 0; i < calls.length; i++) {
            int place = i % (own + 1);
            if (options.order.equals("choice")) {
                long choice = random.next();
                place = (choice & 1) == 1 || own == 0 ? own : (int) ((choice >>> 1) % own);
            }
            calls[i] = place < own ? thread + place * threads : VIEW;
        }
        return calls;
    }

    // ---- turns

    /** What all runs share: the source of choices, and how many points the last run had. */
    private static final class Pace {
        private final Random random;
        private long points;

        private Pace(Options options) {
            random = new Random(mix(options.numbers[Number.SEED.ordinal()]));
            points = 6L * options.get(Number.THREADS) * options.get(Number.CALLS);
        }

        /** A number below this one. */
        private long below(long limit) {
            return Long.remainderUnsigned(random.next(), limit);
        }
    }

    /**
     * Turns of the threads of a run: probabilistic concurrency testing, by Burckhardt, Kothari, Musuvathi and Nagarakatte (2010). One
     * thread runs at a time: of those that have not ended the one with the highest priority. The seed chooses these, and the points at
     * which the running thread gets a priority below all of them. Only the running thread reads and writes the turns.
     */
    private static final class Turns {
        /** A thread that comes to this many points within one call may wait for another one, and gets a priority below all others. */
        private static final int MOST_SPINS = 10000;
        private static final long ENDED = Long.MIN_VALUE;
        private static final ThreadLocal<Turns> OF_THREAD = new ThreadLocal<>();
        private static final ThreadLocal<Integer> NUMBER = new ThreadLocal<>();
        private final long[] priorities, changes;
        private final Semaphore[] turn;
        private long points, lowest;
        private int spins;

        private Turns(Options options, Pace pace) {
            int count = options.get(Number.THREADS), depth = options.get(Number.DEPTH);
            int[] order = IntStream.range(0, count).toArray();
            priorities = new long[count];
            for (int i = count - 1; i >= 0; i--) {
                int j = (int) pace.below(i + 1), kept = order[i];
                order[i] = order[j];
                order[j] = kept;
                priorities[order[i]] = depth + i;
            }
            changes = IntStream.range(1, depth).mapToLong(i -> 1 + pace.below(pace.points)).toArray();
            turn = IntStream.range(0, count).mapToObj(t -> new Semaphore(0)).toArray(Semaphore[]::new);
        }

        /** A thread begins, and waits for its turn. */
        private void enter(int thread) {
            OF_THREAD.set(this);
            NUMBER.set(thread);
            turn[thread].acquireUninterruptibly();
        }

        /** A thread ends. */
        private void leave(int thread) {
            OF_THREAD.remove();
            priorities[thread] = ENDED;
            pass(thread);
        }

        private int first() {
            return IntStream.range(0, priorities.length).reduce(0, (a, b) -> priorities[b] > priorities[a] ? b : a);
        }

        private void start() {
            turn[first()].release();
        }

        private void pass(int from) {
            int next = first();
            if (next == from || priorities[next] == ENDED) return;
            boolean waits = priorities[from] != ENDED;
            turn[next].release();
            if (waits) turn[from].acquireUninterruptibly();
        }

        private void point(int thread) {
            points++;
            for (int i = 0; i < changes.length; i++) if (changes[i] == points) priorities[thread] = i;
            if (++spins > MOST_SPINS) {
                spins = 0;
                priorities[thread] = --lowest;
            }
            pass(thread);
        }
    }

    /** A place between two steps. By the schedule pct the turn may change here; else nothing is done. */
    public static void point() {
        Turns turns = Turns.OF_THREAD.get();
        if (turns != null) turns.point(Turns.NUMBER.get());
    }

    /** A call has ended. */
    private static void goOn() {
        Turns turns = Turns.OF_THREAD.get();
        if (turns != null) turns.spins = 0;
        else if (longestNap > 0) pause();
    }

    private static final AtomicLong naps = new AtomicLong();
    private static volatile long longestNap;

    /** Lets the other threads run, and naps if the options ask for it. */
    public static void pause() {
        if (Turns.OF_THREAD.get() != null) point();
        else if (longestNap == 0) Thread.yield();
        else LockSupport.parkNanos(Long.remainderUnsigned(mix(naps.addAndGet(GAMMA)), longestNap + 1) * 1000);
    }

    // ---- one run

    private static void work(Board board, SnapRecorder.Log log, int thread, int[] calls, Options options) throws Exception {
        for (int i = 0; i < calls.length; i++) {
            point();
            if (calls[i] == VIEW) {
                if (!log.beginView()) return;
                point();
                long[] values = board.view(thread);
                point();
                if (values == null) log.dropView();
                else log.endViewValues(values);
                if (values != null && values.length != options.get(Number.COMPONENTS))
                    throw new DriveException(
                        "view", "a view has " + values.length + " values of " + options.get(Number.COMPONENTS) + " components");
            } else {
                long value = (thread + 1) * 1000000L + i; // each value once
                if (log.beginUpdate(calls[i], value) == 0) return;
                try {
                    point();
                    board.update(thread, calls[i], value);
                    point();
                    log.endUpdate();
                } catch (NoEffect failed) {
                    log.dropUpdate();
                } catch (Unknown failed) {
                    return;
                }
            }
            goOn();
        }
    }

    private static Board fresh(IntFunction<? extends Board> make, int components) {
        try {
            return make.apply(components);
        } catch (Throwable error) {
            throw new DriveException("died", "the object can't be made: " + error);
        }
    }

    private static void start(List<Thread> threads) {
        for (int t = 0; t < threads.size(); t++)
            try {
                threads.get(t).setDaemon(true);
                threads.get(t).start();
            } catch (OutOfMemoryError error) {
                throw new DriveException("memory", "thread " + t + " can't be started");
            }
    }

    /** The history of a fresh object. What a run made that did not end is in FRONT-unfinished.csv. */
    private static Run record(IntFunction<? extends Board> make, Options options, Random seeds, Pace pace, Path front)
        throws InterruptedException {
        int count = options.get(Number.THREADS);
        SnapRecorder recorder = new SnapRecorder(count, options.get(Number.COMPONENTS), options.get(Number.CALLS));
        Board board = fresh(make, options.get(Number.COMPONENTS));
        CyclicBarrier start = new CyclicBarrier(count);
        AtomicReference<DriveException> failed = new AtomicReference<>();
        Turns turns = options.schedule.equals("pct") ? new Turns(options, pace) : null;
        List<Thread> threads = new ArrayList<>();
        for (int t = 0; t < count; t++) {
            int thread = t;
            int[] calls = choose(options, t, seeds.next());
            threads.add(new Thread(() -> {
                try {
                    start.await();
                    if (turns != null) turns.enter(thread);
                    work(board, recorder.log(thread), thread, calls, options);
                } catch (DriveException error) {
                    failed.compareAndSet(null, error);
                } catch (Throwable error) {
                    failed.compareAndSet(null, new DriveException("died", "a call of thread " + thread + " threw " + error));
                }
                if (turns != null) turns.leave(thread);
            }));
        }
        start(threads);
        if (turns != null) turns.start();
        long end = System.nanoTime() + options.get(Number.LIMIT) * 1000000000L;
        for (Thread thread : threads) thread.join(Math.max(1, (end - System.nanoTime()) / 1000000));
        if (threads.stream().anyMatch(Thread::isAlive))
            failed.compareAndSet(null, new DriveException(
                "hangs", "a run took more than " + options.get(Number.LIMIT) + " s: a call of the object does not end"));
        if (turns != null) pace.points = turns.points;
        if (failed.get() == null) return new Run(recorder);
        keepUnfinished(recorder, front);
        throw failed.get();
    }

    /** Writes the calls so far of a run that does not end, or in which a call died. */
    private static void keepUnfinished(SnapRecorder recorder, Path front) {
        Path file = Path.of(front + "-unfinished.csv");
        try {
            Files.writeString(file, recorder.textSoFar());
            System.err.println(front.getFileName() + ": its calls so far are in " + file);
        } catch (IOException | SnapRecorder.RecordException error) {
            System.err.println(front.getFileName() + ": its calls so far can't be written: " + error.getMessage());
        }
    }

    // ---- the judge: the program alone, since Java calls a library in C only from version 22 on

    private static Path findProgram(String named) {
        String set = System.getenv("SNAPJUDGE_PROGRAM"), path = System.getenv("PATH");
        String name = named != null ? named : set != null && !set.isEmpty() ? set : "snapjudge";
        List<String> folders = name.contains("/") || path == null ? List.of("") : List.of(path.split(":"));
        for (String folder : folders)
            if (Files.isRegularFile(Path.of(folder, name)) && Files.isExecutable(Path.of(folder, name)))
                return tested(Path.of(folder, name));
        throw new DriveException("no judge", "there is no program " + name + ": install snapjudge, or name it by --program");
    }

    /** The program, if it says its version. One of another kind may end with 0 whatever it is given, and that is not a verdict. */
    private static Path tested(Path program) {
        String said = "";
        try {
            Process process = new ProcessBuilder(program.toString(), "--version").redirectInput(new File("/dev/null")).start();
            said = new String(process.getInputStream().readAllBytes(), StandardCharsets.UTF_8);
            if (process.waitFor() != 0) said = "";
        } catch (IOException | InterruptedException error) {
            said = "";
        }
        if (said.matches("(?s)snapjudge [0-9].*")) return program;
        throw new DriveException("no judge", program + " is not snapjudge: it tells no version of it");
    }

    /** Runs the program from a file to a file, for histories of this many events; its status. */
    private static int call(Path program, String verb, int events, String from, String to) throws IOException, InterruptedException {
        return new ProcessBuilder(program.toString(), verb, "--events=" + events)
            .redirectInput(new File(from))
            .redirectOutput(new File(to))
            .redirectError(ProcessBuilder.Redirect.INHERIT)
            .start()
            .waitFor();
    }

    /** Writes a history, its witness and its explanation. */
    private static void keep(Path program, int events, String text, String front) throws IOException, InterruptedException {
        Files.writeString(Path.of(front + "-caught.csv"), text);
        if (call(program, "shrink", events, front + "-caught.csv", front + "-witness.csv") > 2
            || call(program, "explain", events, front + "-caught.csv", front + "-explained.txt") > 2)
            throw new DriveException("files", front + "-witness.csv or " + front + "-explained.txt can't be written");
    }

    // Whoever holds this writes a file of a run. A Java that ends takes it for good, and then removes the files that are left.
    private static final ReentrantLock scratching = new ReentrantLock();

    static {
        Runtime.getRuntime().addShutdownHook(new Thread(scratching::lock));
    }

    /** The names of this many files that judge `number` of this process may write into a folder. */
    private static List<Path> scratch(String out, long number, int count) {
        String front = "run-" + ProcessHandle.current().pid() + "-" + number + "-";
        return IntStream.range(0, count).mapToObj(it -> Path.of(out, front + it + ".csv")).collect(Collectors.toList());
    }

    private static void write(Path name, String text) throws IOException {
        scratching.lock();
        try {
            name.toFile().deleteOnExit();
            Files.writeString(name, text);
        } finally {
            scratching.unlock();
        }
    }

    private static void remove(List<Path> names) throws IOException {
        for (Path name : names) Files.deleteIfExists(name);
    }

    /** Tries whether files can be written into a folder, before the first run, so that none is lost. */
    private static void testFolder(String out, long number) {
        try {
            write(scratch(out, number, 1).get(0), "");
            remove(scratch(out, number, 1));
        } catch (IOException error) {
            throw new DriveException("files", "a file can't be written: " + error);
        }
    }

    private static final Pattern VERDICTS = Pattern.compile("(?md)^.*: regular (yes|no)\n.*: monotone (?:yes|no)\n.*: atomic (yes|no)$");

    /** Of each of several files 0 for atomic, 1 for only regular, 2 for not regular; or nothing if some have no verdict. */
    private static List<Integer> check(Path program, int events, List<Path> names) throws IOException, InterruptedException {
        List<String> words = new ArrayList<>(List.of(program.toString(), "check", "--quiet", "--no-progress", "--events=" + events, "--"));
        for (Path name : names) words.add(name.toString());
        Process process = new ProcessBuilder(words)
            .redirectInput(new File("/dev/null"))
            .redirectError(ProcessBuilder.Redirect.INHERIT)
            .start();
        String said = new String(process.getInputStream().readAllBytes(), StandardCharsets.UTF_8);
        int status = process.waitFor();
        List<Integer> found = VERDICTS.matcher(said).results()
            .map(it -> it.group(1).equals("no") ? 2 : it.group(2).equals("no") ? 1 : 0)
            .collect(Collectors.toList());
        return found.size() == names.size() && Collections.max(found) == status ? found : List.of();
    }

    /** Judges the runs that are added, in their order. The program is started once for a batch of them. */
    private static final class Judge {
        private static final int MOST_RUNS = 64, MOST_CHARACTERS = 1 << 24;
        private static final long SECOND = 1000000000L;
        private static final AtomicLong judges = new AtomicLong();
        private final long number = judges.getAndIncrement();
        private final String name, out;
        private final Path program;
        private final int runs, stop, events;
        private final Outcome outcome = new Outcome();
        private final List<Run> batch = new ArrayList<>(); // the histories of runs that are not yet judged
        private int most = 1; // this many runs fill the batch
        private long begun = System.nanoTime(), told = begun; // when the batch began, and when progress was last reported

        private Judge(String name, Options options) {
            this.name = name;
            out = options.out;
            program = findProgram(options.program);
            testFolder(out, number);
            runs = options.get(Number.RUNS);
            stop = options.get(Number.STOP);
            events = options.get(Number.EVENTS);
        }

        private int judged() {
            return outcome.runs();
        }

        private boolean hasEnded() {
            return judged() == runs || stop > 0 && outcome.caught() == stop;
        }

        /** Whether the batch is to be judged: it is full, or has the last run, or half a second has passed since the last judgement. */
        private boolean isDue() {
            return batch.size() >= most || judged() + batch.size() == runs || System.nanoTime() - begun >= SECOND / 2
                || batch.stream().mapToLong(run -> run.text.length()).sum() >= MOST_CHARACTERS;
        }

        private static DriveException lost(IOException error) {
            return new DriveException("files", "a file can't be written, or the program can't be run: " + error);
        }

        private int judgeAlone(String text) throws IOException, InterruptedException {
            List<Path> names = scratch(out, number, 1);
            try {
                write(names.get(0), text);
                int status = call(program, "check", events, names.get(0).toString(), "/dev/null");
                if (status > 2) throw new DriveException("no verdict", "the judge ends with status " + status);
                return status;
            } finally {
                remove(names);
            }
        }

        /**
         * Tries, before the first run, whether the judge recognizes a history that is not regular: its view misses an update. A judge
         * whose status is lost, as by a script with a pipe, would call every run atomic.
         */
        private void testVerdict() throws InterruptedException {
            try {
                int status = judgeAlone("event,process,op,data\nbegin,0,update,0:1:7\nend,0,update,\nbegin,1,view,\nend,1,view,\n");
                if (status == 2) return;
                throw new DriveException("no judge", "of a history that is not regular the judge tells status " + status + ", and not 2");
            } catch (IOException error) {
                throw lost(error);
            }
        }

        /** The status of each run of the batch; or nothing if each must be judged alone, which then shows what is wrong. */
        private List<Integer> judgeTogether() throws IOException, InterruptedException {
            if (batch.size() == 1) return List.of();
            List<Path> names = scratch(out, number, batch.size());
            try {
                for (int i = 0; i < names.size(); i++) write(names.get(i), batch.get(i).text);
                return check(program, events, names);
            } catch (IOException error) {
                return List.of();
            } finally {
                remove(names);
            }
        }

        private void count(Run run, int status) throws IOException, InterruptedException {
            if (status == 0) outcome.atomic++;
            else if (status == 1) outcome.onlyRegular++;
            else outcome.notRegular++;
            outcome.views += run.views.ended;
            outcome.overlapping += run.views.overlapping;
            if (run.views.overlapping > 0) outcome.overlapped++;
            if (status == 0 || outcome.first > 0) return;
            outcome.first = judged();
            keep(program, events, run.text, out + "/" + name);
            System.err.println(
                name + ": run " + outcome.first + " is not atomic: see " + out + "/" + name + "-caught.csv and the files beside it");
        }

        private void tell() {
            if (!hasEnded() && System.nanoTime() - told < SECOND) return;
            told = System.nanoTime();
            System.err.println(name + ": run " + judged() + " of " + runs + ": " + outcome);
        }

        /** Judges the batch. A run after the one that ends all does not count. */
        private void judge() throws InterruptedException {
            if (batch.isEmpty()) return;
            try {
                List<Integer> found = judgeTogether();
                for (int i = 0; i < batch.size() && !hasEnded(); i++)
                    count(batch.get(i), found.isEmpty() ? judgeAlone(batch.get(i).text) : found.get(i));
            } catch (IOException error) {
                throw lost(error);
            }
            tell();
            batch.clear();
            most = Math.min(2 * most, MOST_RUNS);
            begun = System.nanoTime();
        }
    }

    // ---- all runs

    /**
     * Runs fresh objects, and counts the verdicts. Of the first run that is not atomic it keeps NAME-caught.csv, the history,
     * NAME-witness.csv, the least of it that is not atomic, and NAME-explained.txt.
     */
    public static Outcome run(String name, IntFunction<? extends Board> make, Options options) throws InterruptedException {
        options.test();
        Judge judge = new Judge(name, options);
        judge.testVerdict();
        Random seeds = new Random(options.numbers[Number.SEED.ordinal()]);
        Pace pace = new Pace(options);
        longestNap = options.get(Number.NAP);
        naps.set(options.numbers[Number.SEED.ordinal()]);
        while (!judge.hasEnded()) {
            try {
                judge.batch.add(record(make, options, seeds, pace, Path.of(options.out, name)));
            } catch (Throwable fault) {
                judge.judge(); // the runs before may have ended all
                if (!judge.hasEnded()) throw fault;
            }
            if (judge.isDue()) judge.judge();
        }
        judge.outcome.test(options.get(Number.VIEWS));
        return judge.outcome;
    }

    // ---- the command line

    private static Options read(List<String> words) {
        Options options = new Options();
        for (int at = 0; at < words.size(); at += 2) {
            String word = words.get(at);
            if (!word.startsWith("--")) throw new DriveException("usage", word + " is not an option");
            if (!Options.has(word.substring(2))) throw new DriveException("usage", "there is no option " + word);
            if (at + 1 == words.size()) throw new DriveException("usage", word + " has no value");
            options.with(word.substring(2), words.get(at + 1));
        }
        return options;
    }

    private static void showChoices(Options options) {
        options.test();
        Random seeds = new Random(options.numbers[Number.SEED.ordinal()]);
        StringBuilder text = new StringBuilder();
        for (int run = 1; run <= options.get(Number.RUNS); run++)
            for (int thread = 0; thread < options.get(Number.THREADS); thread++)
                for (int component : choose(options, thread, seeds.next()))
                    text.append(run).append(' ').append(thread).append(component == VIEW ? " view" : " update " + component).append('\n');
        System.out.print(text);
    }

    private static void flush() {
        if (System.out.checkError()) throw new DriveException("files", "standard output can't be written");
    }

    private static String usageOf(Map<String, ?> objects) {
        return USAGE + "\nobjects: " + String.join(" ", new TreeSet<>(objects.keySet()));
    }

    /** Runs what the words ask for, and answers the status of its verdicts. */
    private static int answer(String name, List<String> words, Map<String, IntFunction<? extends Board>> objects)
        throws InterruptedException {
        Outcome outcome = new Outcome();
        if (words.contains("--help") || words.contains("-h")) {
            System.out.println(usageOf(objects));
        } else {
            if (name.isEmpty()) throw new DriveException("usage", "name one of the objects");
            if (!objects.containsKey(name)) throw new DriveException("usage", "there is no object " + name);
            if (words.remove("--choices")) {
                showChoices(read(words));
            } else {
                outcome = run(name, objects.get(name), read(words));
                System.out.println(name + ": " + outcome);
            }
        }
        flush();
        return outcome.notRegular > 0 ? 2 : outcome.onlyRegular > 0 ? 1 : 0;
    }

    /** Runs what the words ask for with this one object, and answers the status of its verdicts. */
    public static void main(String[] words, String name, IntFunction<? extends Board> make) {
        main(words, Map.of(name, make));
    }

    /**
     * Runs the object that the command line names, or the only one, and ends Java. The status is 0 if each run was atomic, 1 if
     * some were only regular, and 2 if some were not regular. It is 3 if too little was seen for a verdict, and 4 if there is
     * none for another reason.
     */
    public static void main(String[] words, Map<String, IntFunction<? extends Board>> objects) {
        List<String> rest = new ArrayList<>(List.of(words));
        boolean isNamed = !rest.isEmpty() && !rest.get(0).startsWith("-");
        String name = isNamed ? rest.remove(0) : objects.size() == 1 ? objects.keySet().iterator().next() : "";
        int status = 4;
        try {
            status = answer(name, rest, objects);
        } catch (DriveException error) {
            if (error.name.equals("usage")) System.err.println(usageOf(objects));
            System.err.println(name + ": " + error.name + ": " + error.getMessage());
            if (error.name.equals("few views") || error.name.equals("no overlap")) status = 3;
        } catch (SnapRecorder.RecordException error) {
            System.err.println(name + ": " + error.fault.name().toLowerCase(Locale.ROOT).replace('_', ' ') + ": " + error.getMessage());
        } catch (InterruptedException error) {
            System.err.println(name + ": died: the thread of the driver was interrupted");
        }
        System.exit(status);
    }

    private SnapDriver() {}
}
