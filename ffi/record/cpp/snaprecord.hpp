// Records the calls that threads make of a single-writer board, and writes them as a history for `snapjudge check`.
// One file, C++17, no dependencies: copy it into a harness. docs/OWN-OBJECT.md of snapjudge leads through one.
//
//     snaprecord::Recorder recorder(threads, components, calls);
//
//     snaprecord::Log &log = recorder.log(t);                  // thread t, and no other; a log has no copies
//     if (!log.begin_update(component, value)) return;         // refused: make no further call
//     board.update(component, value);
//     log.end_update();
//     if (!log.begin_view()) return;
//     board.view(values);
//     log.end_view_values(values);                             // or end_view, of numbers; of a call that failed drop_..
//
//     std::string text = recorder.text();                      // after the threads were joined; throws snaprecord::Error
//                                                              // snapsofar.hpp writes one before
//
// What the record says: if call A ended before call B began, A happened before B in the sense of C++. Each stamp is a
// fetch_add of one clock with acquire and release. A begin takes it last in begin_.., and an end takes it first in
// end_... A thread writes to its own log alone. Nothing is locked or allocated, and nothing throws, while threads run.
// What it cannot say: the clock orders more calls than the object may, so a fault that needs two calls without such an
// order can hide.
//
// SPDX-License-Identifier: 0BSD
// Copyright (C) 2026 by the authors of snapjudge
// Permission to use, copy, modify, and/or distribute this software for any purpose with or without fee is hereby granted.
// THE SOFTWARE IS PROVIDED "AS IS" AND THE AUTHOR DISCLAIMS ALL WARRANTIES WITH REGARD TO THIS SOFTWARE INCLUDING ALL IMPLIED
// WARRANTIES OF MERCHANTABILITY AND FITNESS. IN NO EVENT SHALL THE AUTHOR BE LIABLE FOR ANY SPECIAL, DIRECT, INDIRECT, OR
// CONSEQUENTIAL DAMAGES OR ANY DAMAGES WHATSOEVER RESULTING FROM LOSS OF USE, DATA OR PROFITS, WHETHER IN AN ACTION OF
// CONTRACT, NEGLIGENCE OR OTHER TORTIOUS ACTION, ARISING OUT OF OR IN CONNECTION WITH THE USE OR PERFORMANCE OF THIS SOFTWARE.
#ifndef SNAPRECORD_HPP
#define SNAPRECORD_HPP
#include <algorithm>
#include <array>
#include <atomic>
#include <cstddef>
#include <cstdint>
#include <map>
#include <memory>
#include <stdexcept>
#include <string>
#include <utility>
#include <vector>

namespace snaprecord {

// What the judge takes.
constexpr std::uint32_t event_limit = 1048576; // in all; a call has two. More than 65536 the judge takes by --events N
constexpr std::uint32_t component_limit = 256;
constexpr std::uint32_t process_limit = 65536; // a thread is one process

enum class Fault : std::uint32_t {
    none,
    limits,      // more threads, components or calls than the judge takes
    nested,      // a call began before the thread's last one had ended
    not_open,    // a call ended that had not begun
    after_full,  // a call was made although its begin was refused
    component,   // a component is too high, or the entries of a view do not rise
    two_writers, // two threads updated one component
    same_value,  // views have values alone, and a component got one value twice, or its initial one
    part,        // a view has values of fewer components than there are
    initials     // there are initial values, and not as many as components
};

class Error : public std::runtime_error {
  public:
    Error(Fault name, const std::string &message) : std::runtime_error(message), fault(name) {}
    const Fault fault;
};

// What a view shows of a component; number 0 is its initial state.
struct Entry {
    std::uint32_t component, number, value;
};

// How many views of the history ended, and how many of these overlapped an update: both calls were open at one moment. A run in which
// none did says nothing of calls at the same time.
struct Views {
    std::size_t ended = 0, overlapping = 0;
};

class Recorder;

// What one thread recorded. A log shares no line of the cache with another one. It is neither copied nor moved: what a copy
// records would be in no text.
class alignas(128) Log {
  public:
    Log() = default;
    Log(const Log &) = delete;
    Log &operator=(const Log &) = delete;

    // The number of the update, from 1 in each component; or 0: a log is full, or a call was misused. Then make no further call.
    [[nodiscard]] std::uint32_t begin_update(std::uint32_t component, std::uint32_t value);
    void end_update();

    // False: a log is full, or a call was misused. Then make no further call.
    [[nodiscard]] bool begin_view();

    // The end of a view that shows these entries, components rising. Number 0, or no entry, is the initial state.
    void end_view(const Entry *entries, std::size_t count);
    void end_view(const std::vector<Entry> &shown) { end_view(shown.data(), shown.size()); }

    // The end of a view that shows these values, of component 0 and so on. Recorder::text finds the number of each by its
    // value. So the updates of a component must write values that differ from each other and from the one that it has at first.
    void end_view_values(const std::uint32_t *values, std::size_t count);
    void end_view_values(const std::vector<std::uint32_t> &values) { end_view_values(values.data(), values.size()); }

    // Call this in place of the end of a view that gave no answer, because it gave up: the view is left out of the history.
    void drop_view();

    // In place of the end of an update that had no effect, and can have none any more: it is left out of the history, and the
    // next update of its component gets its number. If that is not known, end nothing, and use this log no more.
    void drop_update();

  private:
    friend class Recorder;
    friend class SoFar;
    enum class State { idle, refused, updating, viewing };
    enum class Kind { begin_update, end_update, begin_view, end_view, end_view_values };
    struct Event {
        std::uint64_t stamp;
        Kind kind;
        std::uint32_t first, count; // its entries
    };

    std::uint64_t tick();
    void publish();
    bool misused(Fault fault);
    bool may_begin();
    bool may_end(State expected);
    bool dropped(State expected);
    void begin(State next, Kind kind, std::uint32_t count);
    void end(std::uint64_t stamp, Kind kind, std::uint32_t count);

    Recorder *recorder = nullptr;
    State state = State::idle;
    std::uint32_t process = 0, length = 0, entry_count = 0;
    std::atomic<std::uint32_t> whole{0}, drops{0}; // how many events others may read, and how often a begin was taken back
    std::vector<Event> events; // both are as long as they can get before the threads start
    std::vector<Entry> entries;
    std::array<std::uint32_t, component_limit> begun{}; // how many updates of each component
};

class Recorder {
  public:
    // A recorder for this many threads, components, and calls of each thread, at most event_limit / 2 calls in all. Throws Error of limits.
    Recorder(std::uint32_t threads, std::uint32_t components, std::uint32_t calls) : component_count(components) {
        const bool fits = threads >= 1 && threads <= process_limit && components <= component_limit;
        if (!fits || calls < 1 || calls > event_limit / 2 / threads)
            throw Error(Fault::limits, "a history has at most " + std::to_string(event_limit / 2) + " calls of " +
                                           std::to_string(process_limit) + " threads in all, and " +
                                           std::to_string(component_limit) + " components");
        logs = std::vector<Log>(threads);
        for (std::uint32_t t = 0; t < threads; t++) {
            logs[t].recorder = this;
            logs[t].process = t;
            logs[t].events.resize(std::size_t{2} * calls);
            logs[t].entries.resize(std::size_t{calls} * std::max(components, 1u));
        }
    }
    Recorder(const Recorder &) = delete;
    Recorder &operator=(const Recorder &) = delete;

    // The log of a thread, which is the process of that number.
    Log &log(std::uint32_t thread) { return logs.at(thread); }

    // The value that each component has at first; set it before the threads start.
    std::uint32_t initial = 0;
    // Or the first value of each component.
    std::vector<std::uint32_t> initials;

    // The history that all logs hold, after the threads were joined. The logs follow one another: the judge puts the
    // events in the order of their stamps. Throws Error of the first misuse, of initials, two_writers or same_value.
    std::string text() const {
        const std::uint32_t first = misuse.load();
        if (first != 0) throw Error(Fault(first % 16), "thread " + std::to_string(first / 16) + sentence(Fault(first % 16)));
        if (!initials.empty() && initials.size() != component_count)
            throw Error(Fault::initials, "there are " + std::to_string(initials.size()) + " initial values for " +
                                             std::to_string(component_count) + " components");
        const Table table = tabulate();
        std::string text = "at,event,process,op,data\n";
        for (const Log &log : logs)
            for (std::uint32_t i = 0; i < log.length; i++) write(text, table, log, log.events[i]);
        return text;
    }

    // Counts the views, after the threads were joined.
    Views views() const {
        std::vector<std::uint64_t> begun, ended; // the stamps of the updates
        for (const Log &log : logs)
            for (std::uint32_t i = 0; i < log.length; i++) {
                if (log.events[i].kind == Log::Kind::begin_update) begun.push_back(log.events[i].stamp);
                if (log.events[i].kind == Log::Kind::end_update) ended.push_back(log.events[i].stamp);
            }
        std::sort(begun.begin(), begun.end());
        std::sort(ended.begin(), ended.end());
        Views views;
        for (const Log &log : logs)
            for (std::uint32_t i = 1; i < log.length; i++) { // the event before an end is the begin of its call
                if (log.events[i].kind < Log::Kind::end_view) continue;
                views.ended++;
                // more updates began before its end than ended before its begin
                views.overlapping += below(begun, log.events[i].stamp) > below(ended, log.events[i - 1].stamp);
            }
        return views;
    }

  private:
    friend class Log;
    friend class SoFar;
    static constexpr const char *words[] = {",begin,", ",end,", ",begin,", ",end,", ",end,"};
    static constexpr const char *ops[] = {",update,", ",update,", ",view,", ",view,", ",view,"};
    // All updates, to look numbers up.
    struct Table {
        std::array<std::vector<std::uint64_t>, component_limit> begun;            // by number: the stamp of the begin
        std::map<std::pair<std::uint32_t, std::uint32_t>, std::uint32_t> numbers; // by component and value
    };

    static const char *sentence(Fault fault) {
        switch (fault) {
        case Fault::nested: return " began a call before its last one had ended";
        case Fault::not_open: return " ended a call that it had not begun";
        case Fault::after_full: return " made a call although begin had refused it: a log was full";
        case Fault::part: return " told the values of fewer components than there are: record each part by a recorder of its own";
        default: return " named a component that is too high, or entries that do not rise";
        }
    }

    Table tabulate() const {
        Table table;
        std::array<const Log *, component_limit> writers{};
        bool by_values = false;
        for (const Log &log : logs)
            for (std::uint32_t i = 0; i < log.length; i++) by_values |= log.events[i].kind == Log::Kind::end_view_values;
        for (const Log &log : logs)
            for (std::uint32_t i = 0; i < log.length; i++) {
                const Log::Event &event = log.events[i];
                if (event.kind != Log::Kind::begin_update) continue;
                const auto [component, number, value] = log.entries[event.first];
                if (writers[component] && writers[component] != &log)
                    throw Error(Fault::two_writers,
                                "two threads updated component " + std::to_string(component) + ": a component has one writer");
                writers[component] = &log;
                table.begun[component].push_back(event.stamp);
                if (!by_values) continue;
                const bool is_new = table.numbers.emplace(std::pair(component, value), number).second;
                if (!is_new || value == initial_of(component))
                    throw Error(Fault::same_value, "component " + std::to_string(component) + " got the value " +
                                                       std::to_string(value) + (is_new ? " that it has at first" : " twice") +
                                                       ", so a view's value has no one number: make the values differ, or end "
                                                       "views with numbers");
            }
        return table;
    }

    // How many of these rising stamps are below another one.
    static std::size_t below(const std::vector<std::uint64_t> &stamps, std::uint64_t stamp) {
        return static_cast<std::size_t>(std::lower_bound(stamps.begin(), stamps.end(), stamp) - stamps.begin());
    }

    std::uint32_t initial_of(std::uint32_t component) const { return initials.empty() ? initial : initials[component]; }

    // The number of the value that a view shows. One that nobody wrote gets the last number that had begun when the view ended:
    // the judge then says `integrity`, and no more of this entry by itself.
    std::uint32_t number(const Table &table, const Entry &entry, std::uint64_t ended) const {
        if (entry.value == initial_of(entry.component)) return 0;
        const auto found = table.numbers.find({entry.component, entry.value});
        if (found != table.numbers.end()) return found->second;
        return std::max(1u, static_cast<std::uint32_t>(below(table.begun[entry.component], ended)));
    }

    void write(std::string &text, const Table &table, const Log &log, const Log::Event &event) const {
        const auto kind = static_cast<std::size_t>(event.kind);
        text += std::to_string(event.stamp) + words[kind] + std::to_string(log.process) + ops[kind];
        const char *space = "";
        for (std::uint32_t i = event.first; i < event.first + event.count; i++) {
            const Entry &entry = log.entries[i];
            const bool is_by_value = event.kind == Log::Kind::end_view_values;
            const std::uint32_t shown = is_by_value ? number(table, entry, event.stamp) : entry.number;
            if (shown == 0) continue;
            text += space + std::to_string(entry.component) + ':' + std::to_string(shown) + ':' + std::to_string(entry.value);
            space = " ";
        }
        text += '\n';
    }

    alignas(128) std::atomic<std::uint64_t> clock{0};
    alignas(128) std::atomic<bool> stopped{false}; // a log is full, or a call was misused: begin_.. is refused to all threads
    std::atomic<std::uint32_t> misuse{0};          // the first one: fault, and process times 16
    alignas(128) const std::uint32_t component_count;
    std::vector<Log> logs;
};

inline std::uint64_t Log::tick() { return recorder->clock.fetch_add(1, std::memory_order_acq_rel); }

// The first misuse is kept for Recorder::text, and stops all threads.
inline bool Log::misused(Fault fault) {
    std::uint32_t none = 0;
    recorder->misuse.compare_exchange_strong(none, static_cast<std::uint32_t>(fault) + 16 * process);
    recorder->stopped.store(true, std::memory_order_relaxed);
    state = State::refused;
    return false;
}

inline bool Log::may_begin() {
    if (state == State::updating || state == State::viewing) return misused(Fault::nested);
    // all threads stop, else views show updates that no one recorded
    if (length == events.size()) recorder->stopped.store(true, std::memory_order_relaxed);
    if (!recorder->stopped.load(std::memory_order_relaxed)) return true;
    state = State::refused;
    return false;
}

inline bool Log::may_end(State expected) {
    return state == expected || misused(state == State::refused ? Fault::after_full : Fault::not_open);
}

// Others may read the events up to here. What the object writes next does not come before that: no instruction on x86.
inline void Log::publish() {
    whole.store(length, std::memory_order_release);
    std::atomic_thread_fence(std::memory_order_release);
}

inline void Log::begin(State next, Kind kind, std::uint32_t count) {
    Event &event = events[length++];
    event.kind = kind;
    event.first = entry_count;
    event.count = count;
    entry_count += count;
    state = next;
    event.stamp = tick();
    publish();
}

inline void Log::end(std::uint64_t stamp, Kind kind, std::uint32_t count) {
    events[length++] = {stamp, kind, entry_count, count};
    entry_count += count;
    state = State::idle;
    publish();
}

inline std::uint32_t Log::begin_update(std::uint32_t component, std::uint32_t value) {
    if (!may_begin()) return 0;
    if (component >= recorder->component_count) {
        misused(Fault::component);
        return 0;
    }
    const std::uint32_t number = ++begun[component];
    entries[entry_count] = {component, number, value};
    begin(State::updating, Kind::begin_update, 1);
    return number;
}

inline void Log::end_update() {
    const std::uint64_t stamp = tick();
    if (may_end(State::updating)) end(stamp, Kind::end_update, 0);
}

inline bool Log::begin_view() {
    if (!may_begin()) return false;
    begin(State::viewing, Kind::begin_view, 0);
    return true;
}

inline void Log::end_view(const Entry *shown, std::size_t count) {
    const std::uint64_t stamp = tick();
    if (!may_end(State::viewing)) return;
    for (std::size_t i = 0; i < count; i++) {
        if (shown[i].component >= recorder->component_count || (i && shown[i].component <= shown[i - 1].component)) {
            misused(Fault::component);
            return;
        }
        entries[entry_count + i] = shown[i];
    }
    end(stamp, Kind::end_view, static_cast<std::uint32_t>(count));
}

inline void Log::end_view_values(const std::uint32_t *values, std::size_t count) {
    const std::uint64_t stamp = tick();
    if (!may_end(State::viewing)) return;
    if (count != recorder->component_count) {
        misused(count > recorder->component_count ? Fault::component : Fault::part);
        return;
    }
    const auto shown = static_cast<std::uint32_t>(count);
    for (std::uint32_t k = 0; k < shown; k++) entries[entry_count + k] = {k, 0, values[k]};
    end(stamp, Kind::end_view_values, shown);
}

inline bool Log::dropped(State expected) {
    if (!may_end(expected)) return false;
    length--;
    state = State::idle;
    drops++;
    publish();
    return true;
}

inline void Log::drop_view() { dropped(State::viewing); }

inline void Log::drop_update() {
    if (dropped(State::updating)) begun[entries[--entry_count].component]--;
}

} // namespace snaprecord
#endif
