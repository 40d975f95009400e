// Drives a snapshot object of one's own: threads update and view it by a seeded schedule, and the judge judges each run.
// It needs snaprecord.hpp, snapsofar.hpp and snapverdict.hpp beside it, C++17 and POSIX: copy all four. docs/OWN-OBJECT.md of snapjudge
// shows how.
//
//     struct Board {                                            // a fresh one for each run, with 0 in each component
//         explicit Board(std::uint32_t components);
//         void update(std::uint32_t thread, std::uint32_t component, std::uint32_t value);
//         std::vector<std::uint32_t> view(std::uint32_t thread);     // or an optional one, which is empty if it gave up
//     };
//
//     int main(int count, char **words) { return snapdrive::main(count, words, {snapdrive::object<Board>("board")}); }
//
// If an object calls snapdrive::pause() between its steps, the other threads run in the middle of its calls. snapdrive::point()
// marks such a place for the schedule pct alone. An update that failed throws snapdrive::NoEffect or snapdrive::Unknown.
// In a test of one's own, snapdrive::run<Board> does the same without a command line; it throws snapdrive::Error and snaprecord::Error.
//
// SPDX-License-Identifier: 0BSD
// Copyright (C) 2026 by the authors of snapjudge
// Permission to use, copy, modify, and/or distribute this software for any purpose with or without fee is hereby granted.
// THE SOFTWARE IS PROVIDED "AS IS" AND THE AUTHOR DISCLAIMS ALL WARRANTIES WITH REGARD TO THIS SOFTWARE INCLUDING ALL IMPLIED
// WARRANTIES OF MERCHANTABILITY AND FITNESS. IN NO EVENT SHALL THE AUTHOR BE LIABLE FOR ANY SPECIAL, DIRECT, INDIRECT, OR
// CONSEQUENTIAL DAMAGES OR ANY DAMAGES WHATSOEVER RESULTING FROM LOSS OF USE, DATA OR PROFITS, WHETHER IN AN ACTION OF
// CONTRACT, NEGLIGENCE OR OTHER TORTIOUS ACTION, ARISING OUT OF OR IN CONNECTION WITH THE USE OR PERFORMANCE OF THIS SOFTWARE.
#ifndef SNAPDRIVE_HPP
#define SNAPDRIVE_HPP
#include "snaprecord.hpp"
#include "snapsofar.hpp"
#include "snapverdict.hpp"
#include <chrono>
#include <condition_variable>
#include <functional>
#include <iostream>
#include <memory>
#include <mutex>
#include <optional>
#include <semaphore.h>
#include <system_error>
#include <thread>

namespace snapdrive {

constexpr const char *usage =
    "usage: [OBJECT] [OPTION VALUE ..]\n"
    "  --threads 4      how many threads, at most 64\n"
    "  --components 4   how many components, at most 64; thread t updates t, t + threads and so on\n"
    "  --calls 200      how many calls each thread makes; all threads together make at most half of --events\n"
    "  --events 65536   how many events a run may have, at most 1048576; a call has two\n"
    "  --runs 20        how many runs, each of a fresh object\n"
    "  --seed 1         the seed of the random choice of calls\n"
    "  --order choice   the seed chooses each call; or turn: updates and a view in turn\n"
    "  --schedule free  threads run freely; or pct: in turns that the seed chooses, the same in each try\n"
    "  --depth 3        by pct the turns change at this many moments, less one; at most 64\n"
    "  --nap 0          if not 0, pauses and the gaps between calls last up to that many microseconds\n"
    "  --stop 0         if not 0, ends after that many runs that were not atomic\n"
    "  --limit 60       how many seconds a run may take\n"
    "  --views 1        how many views must end in all runs together; 0 asks for none\n"
    "  --out .          the folder for the first run that was not atomic\n"
    "  --program FILE   the program snapjudge; else SNAPJUDGE_PROGRAM names it, else it is on the PATH\n"
    "  --choices        writes the calls that the seed chooses, and runs nothing\n"
    "  --help           writes the options and the objects, with status 0";

// Why runs have no verdict. The name is usage, limits, view, died, few views or no overlap; or one of a judge: no judge, no verdict
// or files.
using snapverdict::Error;

struct Options {
    std::uint64_t threads = 4, components = 4, calls = 200, runs = 20, seed = 1, nap = 0, stop = 0, limit = 60, views = 1, events = 65536,
                  depth = 3;
    std::string order = "choice", schedule = "free", out = ".", program;
};

// How many runs were atomic, only regular, or not regular; and which was the first that was not atomic, from 1, or 0. How many views
// ended in all runs, how many of these overlapped an update, and how many runs have such a view.
struct Outcome {
    std::uint64_t atomic = 0, only_regular = 0, not_regular = 0, first = 0, views = 0, overlapping = 0, overlapped = 0;

    std::uint64_t caught() const { return only_regular + not_regular; }
    std::uint64_t runs() const { return atomic + caught(); }
    std::string counted_runs() const { return std::to_string(runs()) + (runs() == 1 ? " run" : " runs"); }
    std::string text() const {
        return "atomic " + std::to_string(atomic) + ", only-regular " + std::to_string(only_regular) + ", not-regular " +
               std::to_string(not_regular) + "; " + std::to_string(overlapping) + " of " + std::to_string(views) +
               " views overlapped an update, in " + std::to_string(overlapped) + " of " + counted_runs();
    }
};

// ---- the schedule

// The generator splitmix64.
class Random {
  public:
    explicit Random(std::uint64_t seed) : state(seed) {}
    std::uint64_t next() { return mix(state += gamma); }

    static constexpr std::uint64_t gamma = 0x9E3779B97F4A7C15;
    static std::uint64_t mix(std::uint64_t from) {
        from = (from ^ from >> 30) * 0xBF58476D1CE4E5B9;
        from = (from ^ from >> 27) * 0x94D049BB133111EB;
        return from ^ from >> 31;
    }

  private:
    std::uint64_t state;
};

// The component that call i of a thread updates; nothing is a view.
inline std::optional<std::uint32_t> choose(const Options &options, std::uint32_t thread, std::uint64_t i, Random &random) {
    const std::uint64_t own = thread < options.components ? (options.components - 1 - thread) / options.threads + 1 : 0;
    std::uint64_t place = i % (own + 1);
    if (options.order == "choice") {
        const std::uint64_t choice = random.next();
        place = choice & 1 || own == 0 ? own : (choice >> 1) % own;
    }
    if (place == own) return {};
    return static_cast<std::uint32_t>(thread + place * options.threads);
}

// ---- turns

// What all runs share: the source of choices, and how many points the last run had.
struct Pace {
    Random random;
    std::uint64_t points;

    explicit Pace(const Options &options) : random(Random::mix(options.seed)), points(6 * options.threads * options.calls) {}
};

// Turns of the threads of a run: probabilistic concurrency testing, by Burckhardt, Kothari, Musuvathi and Nagarakatte (2010). One thread
// runs at a time: of those that have not ended the one with the highest priority. The seed chooses these, and the points at which the
// running thread gets a priority below all of them. Only the running thread reads and writes the turns.
class Turns {
  public:
    Turns(const Options &options, Pace &pace) : states(options.threads) {
        std::vector<std::size_t> order(states.size());
        for (std::size_t t = 0; t < order.size(); t++) order[t] = t;
        for (std::size_t i = order.size(); i-- > 0;) {
            std::swap(order[i], order[pace.random.next() % (i + 1)]);
            states[order[i]].priority = static_cast<std::int64_t>(options.depth + i);
        }
        for (std::uint64_t i = 1; i < options.depth; i++) changes.push_back(1 + pace.random.next() % pace.points);
        for (State &state : states) sem_init(&state.turn, 0, 0);
    }

    // A thread begins, and waits for its turn.
    void enter(std::size_t thread) {
        of_thread = this;
        number = thread;
        wait(thread);
    }

    // A thread ends.
    void leave() {
        of_thread = nullptr;
        states[number].has_ended = true;
        pass();
    }

    // The first turn is given.
    void start() { sem_post(&states[first()].turn); }

    void point() {
        points++;
        for (std::size_t i = 0; i < changes.size(); i++)
            if (changes[i] == points) states[number].priority = static_cast<std::int64_t>(i);
        if (++spins > most_spins) {
            spins = 0;
            states[number].priority = --lowest;
        }
        pass();
    }

    // The turns of this thread; none if it runs freely.
    static inline thread_local Turns *of_thread = nullptr;
    std::uint64_t points = 0;
    std::uint64_t spins = 0; // points since the last end of a call

  private:
    struct State {
        std::int64_t priority = 0;
        bool has_ended = false;
        sem_t turn;
    };

    // The thread that has the turn; or the number of threads, if all have ended.
    std::size_t first() const {
        std::size_t first = states.size();
        for (std::size_t t = 0; t < states.size(); t++)
            if (!states[t].has_ended && (first == states.size() || states[t].priority > states[first].priority)) first = t;
        return first;
    }

    void pass() {
        const std::size_t next = first(), from = number;
        if (next == from || next == states.size()) return;
        const bool waits = !states[from].has_ended;
        sem_post(&states[next].turn);
        if (waits) wait(from);
    }

    void wait(std::size_t thread) {
        while (sem_wait(&states[thread].turn) != 0) {}
    }

    // A thread that comes to this many points within one call may wait for another one, and gets a priority below all others.
    static constexpr std::uint64_t most_spins = 10000;
    static inline thread_local std::size_t number = 0;
    std::vector<State> states;
    std::vector<std::uint64_t> changes;
    std::int64_t lowest = 0;
};

// A place between two steps. By the schedule pct the turn may change here; else nothing is done.
inline void point() {
    if (Turns::of_thread) Turns::of_thread->point();
}

inline std::atomic<std::uint64_t> naps{0};
inline std::uint64_t longest_nap = 0;

// Lets the other threads run, and naps if the options ask for it.
inline void pause() {
    if (Turns::of_thread) return point();
    if (longest_nap == 0) return std::this_thread::yield();
    const std::uint64_t state = naps.fetch_add(Random::gamma, std::memory_order_relaxed) + Random::gamma;
    std::this_thread::sleep_for(std::chrono::microseconds(Random::mix(state) % (longest_nap + 1)));
}

// ---- updates that fail

// This update had no effect, and can have none any more. It is left out of the history.
struct NoEffect : std::runtime_error {
    NoEffect() : std::runtime_error("an update that had no effect") {}
};

// Nobody knows whether this update had an effect, or will have one. It stays pending, and its thread makes no more calls in this run.
struct Unknown : std::runtime_error {
    Unknown() : std::runtime_error("an update of unknown fate") {}
};

// Makes an update that has begun; false if its fate is not known.
template <class Board>
bool update(Board &board, snaprecord::Log &log, std::uint32_t thread, std::uint32_t component, std::uint32_t value) {
    try {
        point();
        board.update(thread, component, value);
        point();
        log.end_update();
    } catch (const NoEffect &) {
        log.drop_update();
    } catch (const Unknown &) {
        return false;
    }
    return true;
}

// ---- one run

template <class Board>
void work(Board &board, snaprecord::Log &log, std::uint32_t thread, const Options &options, Random random) {
    for (std::uint64_t i = 0; i < options.calls; i++) {
        point();
        const auto component = choose(options, thread, i, random);
        if (component) {
            const auto value = static_cast<std::uint32_t>((thread + 1) * 1000000 + i); // each value once
            if (!log.begin_update(*component, value)) return;
            if (!update(board, log, thread, *component, value)) return;
        } else {
            if (!log.begin_view()) return;
            point();
            const std::optional<std::vector<std::uint32_t>> values = board.view(thread);
            point();
            if (values) log.end_view_values(*values);
            else log.drop_view();
            if (values && values->size() != options.components)
                throw Error("view", "a view has " + std::to_string(values->size()) + " values of " + std::to_string(options.components) +
                                        " components");
        }
        if (Turns::of_thread) Turns::of_thread->spins = 0;
        else if (longest_nap > 0) pause();
    }
}

// Counts the threads of a run, and keeps the first error of one.
class Race {
  public:
    explicit Race(std::uint64_t threads) : waiting(threads), running(threads) {}

    void start() {
        waiting--;
        while (waiting > 0) std::this_thread::yield();
    }

    void end(std::exception_ptr error) {
        const std::lock_guard guard(lock);
        if (!failed) failed = error;
        if (--running == 0) ended.notify_all();
    }

    // A call that hangs can't be ended, so the process is. What the run made so far is written.
    void wait(const std::string &name, std::uint64_t limit, const snaprecord::Recorder &recorder, const std::string &unfinished) {
        std::unique_lock guard(lock);
        if (ended.wait_for(guard, std::chrono::seconds(limit), [this] { return running == 0; })) return;
        keep(name, recorder, unfinished);
        std::cerr << name << ": hangs: a run took more than " << limit << " s: a call of the object does not end" << std::endl;
        std::_Exit(4);
    }

    static void keep(const std::string &name, const snaprecord::Recorder &recorder, const std::string &unfinished) {
        if (snaprecord::write_so_far(recorder, unfinished.c_str()))
            std::cerr << name << ": its calls so far are in " << unfinished << std::endl;
    }

    std::exception_ptr failed;

  private:
    std::atomic<std::uint64_t> waiting;
    std::uint64_t running;
    std::mutex lock;
    std::condition_variable ended;
};

template <class Board> std::unique_ptr<Board> fresh(std::uint32_t components) {
    try {
        return std::make_unique<Board>(components);
    } catch (const std::exception &thrown) {
        throw Error("died", std::string("the object can't be made: ") + thrown.what());
    } catch (...) {
        throw Error("died", "the object can't be made");
    }
}

// The history of a fresh object. Its views are counted.
template <class Board> std::string record(const std::string &name, const Options &options, Random &seeds, Pace &pace, Outcome &outcome) {
    const auto threads = static_cast<std::uint32_t>(options.threads), components = static_cast<std::uint32_t>(options.components);
    snaprecord::Recorder recorder(threads, components, static_cast<std::uint32_t>(options.calls));
    const std::unique_ptr<Board> board = fresh<Board>(components);
    Race race(threads);
    std::optional<Turns> turns;
    if (options.schedule == "pct") turns.emplace(options, pace);
    std::vector<std::thread> all;
    const std::string unfinished = options.out + "/" + name + "-unfinished.csv";
    const snaprecord::Kept kept(recorder, unfinished);
    const auto run_thread = [&](std::uint32_t t, const Random &random) {
        const snaprecord::Stack stack;
        std::exception_ptr error;
        race.start();
        if (turns) turns->enter(t);
        try {
            work(*board, recorder.log(t), t, options, random);
        } catch (const Error &) {
            error = std::current_exception();
        } catch (const std::exception &thrown) {
            error = std::make_exception_ptr(Error("died", "a call of thread " + std::to_string(t) + " threw " + thrown.what()));
        } catch (...) {
            error = std::make_exception_ptr(Error("died", "a call of thread " + std::to_string(t) + " threw no std::exception"));
        }
        if (turns) turns->leave();
        race.end(error);
    };
    for (std::uint32_t t = 0; t < threads; t++)
        try {
            all.emplace_back(run_thread, t, Random(seeds.next()));
        } catch (const std::system_error &) {
            std::cerr << name << ": memory: thread " << t << " can't be started" << std::endl;
            std::_Exit(4); // those before it wait for it
        }
    if (turns) turns->start();
    race.wait(name, options.limit, recorder, unfinished);
    if (turns) pace.points = turns->points;
    for (std::thread &thread : all) thread.join();
    if (race.failed) Race::keep(name, recorder, unfinished);
    if (race.failed) std::rethrow_exception(race.failed);
    const snaprecord::Views views = recorder.views();
    outcome.views += views.ended;
    outcome.overlapping += views.overlapping;
    outcome.overlapped += views.overlapping > 0;
    return recorder.text();
}

// ---- all runs

struct Range {
    const char *name;
    std::uint64_t Options::*place;
    std::uint64_t least, greatest;
};
inline const Range ranges[] = {
    {"threads", &Options::threads, 1, 64},
    {"components", &Options::components, 1, 64},
    {"calls", &Options::calls, 1, snaprecord::event_limit / 2},
    {"runs", &Options::runs, 1, 1000000000},
    {"seed", &Options::seed, 0, UINT64_MAX},
    {"nap", &Options::nap, 0, 1000000},
    {"stop", &Options::stop, 0, 1000000000},
    {"limit", &Options::limit, 1, 100000},
    {"views", &Options::views, 0, 1000000000},
    {"events", &Options::events, 2, snaprecord::event_limit},
    {"depth", &Options::depth, 1, 64},
};

inline Error beyond(const Range &range) {
    return Error("limits", std::string(range.name) + " is a number from " + std::to_string(range.least) + " to " +
                               std::to_string(range.greatest));
}

inline void test(const Options &options) {
    for (const Range &range : ranges)
        if (options.*range.place < range.least || options.*range.place > range.greatest) throw beyond(range);
    if (options.threads * options.calls > options.events / 2)
        throw Error("limits", "all threads make at most " + std::to_string(options.events / 2) + " calls");
    if (options.order != "choice" && options.order != "turn") throw Error("usage", "order is choice or turn");
    if (options.schedule != "free" && options.schedule != "pct") throw Error("usage", "schedule is free or pct");
}

// Throws if the runs say nothing of the object: all were atomic, and too few views ended, or none of them overlapped an update.
inline void test_looked(const Options &options, const Outcome &outcome) {
    const std::string runs = outcome.counted_runs(), views = std::to_string(outcome.views) + " views";
    if (outcome.first != 0 || options.views == 0) return;
    if (outcome.views < options.views)
        throw Error("few views", views + " ended in " + runs + ", fewer than " + std::to_string(options.views) + ": there is no verdict");
    if (outcome.overlapping == 0)
        throw Error("no overlap", "none of " + views + " overlapped an update in " + runs +
                                      ": there is no verdict on calls at the same time");
}

// Runs fresh objects, and counts the verdicts. Of the first run that is not atomic it keeps NAME-caught.csv, the history,
// NAME-witness.csv, the least of it that is not atomic, and NAME-explained.txt.
template <class Board> Outcome run(const std::string &name, const Options &options = {}) {
    test(options);
    const snapverdict::Judge judge(options.program, static_cast<std::uint32_t>(options.events));
    judge.test_folder(options.out);
    judge.test_verdict(options.out);
    const std::string front = options.out + "/" + name;
    Random seeds(options.seed);
    Pace pace(options);
    Outcome outcome;
    auto told = std::chrono::steady_clock::now();
    longest_nap = options.nap;
    naps = options.seed;
    for (std::uint64_t number = 1;; number++) {
        const std::string text = record<Board>(name, options, seeds, pace, outcome);
        const int status = judge.status(text, options.out);
        (status == 0 ? outcome.atomic : status == 1 ? outcome.only_regular : outcome.not_regular)++;
        if (status != 0 && outcome.first == 0) {
            outcome.first = number;
            judge.keep(text, front);
            std::cerr << name << ": run " << number << " is not atomic: see " << front << "-caught.csv and the files beside it"
                      << std::endl;
        }
        const bool has_ended = number == options.runs || (options.stop > 0 && outcome.caught() == options.stop);
        const auto now = std::chrono::steady_clock::now();
        if (has_ended || now >= told + std::chrono::seconds(1)) {
            told = now;
            std::cerr << name << ": run " << number << " of " << options.runs << ": " << outcome.text() << std::endl;
        }
        if (has_ended) break;
    }
    test_looked(options, outcome);
    return outcome;
}

// ---- the command line

struct Object {
    std::string name;
    std::function<Outcome(const Options &)> run;
};

template <class Board> Object object(const std::string &name) {
    return {name, [name](const Options &options) { return run<Board>(name, options); }};
}

inline void read_number(Options &options, const Range &range, const std::string &value) {
    if (value.empty() || value.find_first_not_of("0123456789") != std::string::npos)
        throw Error("usage", std::string("--") + range.name + ": " + value + " is not a number");
    errno = 0;
    options.*range.place = std::strtoull(value.c_str(), nullptr, 10);
    if (errno != 0) throw beyond(range);
}

// An option, and its value if there is one.
inline void read_option(Options &options, const std::string &word, const std::string *value) {
    const auto has_name = [&word](const Range &it) { return "--" + std::string(it.name) == word; };
    const auto range = std::find_if(std::begin(ranges), std::end(ranges), has_name);
    std::string *text = word == "--order"      ? &options.order
                        : word == "--schedule" ? &options.schedule
                        : word == "--out"      ? &options.out
                        : word == "--program"  ? &options.program
                                               : nullptr;
    if (!text && range == std::end(ranges))
        throw Error("usage", word.rfind("--", 0) == 0 ? "there is no option " + word : word + " is not an option");
    if (!value) throw Error("usage", word + " has no value");
    if (text) *text = *value;
    else read_number(options, *range, *value);
}

inline void show_choices(const Options &options) {
    test(options);
    Random seeds(options.seed);
    for (std::uint64_t number = 1; number <= options.runs; number++)
        for (std::uint32_t thread = 0; thread < options.threads; thread++) {
            Random random(seeds.next());
            for (std::uint64_t i = 0; i < options.calls; i++) {
                const auto component = choose(options, thread, i, random);
                std::cout << number << ' ' << thread << (component ? " update " + std::to_string(*component) : " view") << '\n';
            }
        }
}

inline const char *name_of(snaprecord::Fault fault) {
    static constexpr const char *names[] = {"none",      "limits",      "nested",     "not open", "after full",
                                             "component", "two writers", "same value", "part",     "initials"};
    return names[static_cast<std::size_t>(fault)];
}

inline void show_usage(const std::vector<Object> &objects, std::ostream &to) {
    to << usage << "\nobjects:";
    for (const Object &object : objects) to << ' ' << object.name;
    to << std::endl;
}

// Runs the object that the command line names, or the first one. The status is 0 if each run was atomic, 1 if some were only
// regular, and 2 if some were not regular. It is 3 if too little was seen for a verdict, and 4 if there is none for another
// reason.
inline int main(int count, char **words, const std::vector<Object> &objects) {
    std::vector<std::string> rest(words + 1, words + count);
    std::string name = objects.front().name;
    const auto failed = [&](const std::string &fault, const char *message) {
        if (fault == "usage") show_usage(objects, std::cerr);
        std::cerr << name << ": " << fault << ": " << message << std::endl;
        return fault == "few views" || fault == "no overlap" ? 3 : 4;
    };
    try {
        if (!rest.empty() && rest[0].rfind("-", 0) != 0) {
            name = rest[0];
            rest.erase(rest.begin());
        }
        const auto chosen = std::find_if(objects.begin(), objects.end(), [&name](const Object &object) { return object.name == name; });
        if (chosen == objects.end()) throw Error("usage", "there is no object " + name);
        Options options;
        const auto choices = std::find(rest.begin(), rest.end(), "--choices");
        const bool shows_choices = choices != rest.end();
        if (shows_choices) rest.erase(choices);
        const auto asks_help = [](const std::string &word) { return word == "--help" || word == "-h"; };
        const bool shows_help = std::any_of(rest.begin(), rest.end(), asks_help);
        for (std::size_t at = 0; at < rest.size() && !shows_help; at += 2)
            read_option(options, rest[at], at + 1 < rest.size() ? &rest[at + 1] : nullptr);
        Outcome outcome;
        if (shows_help) {
            show_usage(objects, std::cout);
        } else if (shows_choices) {
            show_choices(options);
        } else {
            outcome = chosen->run(options);
            std::cout << name << ": " << outcome.text() << '\n';
        }
        if (!std::cout.flush()) throw Error("files", "standard output can't be written");
        return outcome.not_regular ? 2 : outcome.only_regular ? 1 : 0;
    } catch (const Error &error) {
        return failed(error.name, error.what());
    } catch (const snaprecord::Error &error) {
        return failed(name_of(error.fault), error.what());
    }
}

} // namespace snapdrive
#endif
