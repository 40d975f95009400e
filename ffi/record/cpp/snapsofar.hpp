// Writes what a recorder of snaprecord.hpp has so far, while its threads run, or when the process dies. One file beside snaprecord.hpp,
// C++17 and POSIX: copy both.
//
//     snaprecord::write_so_far(recorder, file);                   // at any time, from any thread, to an open file
//
//     snaprecord::Kept kept(recorder, "unfinished.csv");          // as long as it lives, if the process dies by a signal
//     snaprecord::Stack stack;                                    // in each thread: lets it write if its own stack is full
//
// What is written is a history. A call that is open, or ends meanwhile, has no end in it. An update whose begin is left out had not begun
// before each view that is in it had ended. So a right run is never called wrong. All is written by write() alone, from what is in
// memory, so a handler of signals may do it. Values that are written twice, and a component with two writers, are not looked for.
//
// The signals are SIGSEGV, SIGBUS, SIGFPE, SIGILL, SIGABRT and SIGTERM. After the write a signal does what it did before. A program that
// hears SIGTERM itself need not die of it, so there that signal is left alone. An exception that nobody catches ends by SIGABRT.
//
// SPDX-License-Identifier: 0BSD; the terms are those of snaprecord.hpp.
#ifndef SNAPSOFAR_HPP
#define SNAPSOFAR_HPP
#include "snaprecord.hpp"
#include <cerrno>
#include <climits>
#include <csignal>
#include <cstring>
#include <fcntl.h>
#include <poll.h>
#include <unistd.h>

namespace snaprecord {

// What is written, some thousand bytes at a time.
class Out {
  public:
    explicit Out(int to) : file(to) {}

    void put(const char *word) {
        for (; *word; word++) {
            if (length == bytes.size()) flush();
            bytes[length++] = *word;
        }
    }

    void put(std::uint64_t number) {
        char digits[21], *at = digits + 20;
        *at = 0;
        do *--at = static_cast<char>('0' + number % 10);
        while (number /= 10);
        put(at);
    }

    // Whether all was written.
    bool flush() {
        for (std::size_t at = 0; at < length && !has_failed;) {
            const ssize_t written = ::write(file, bytes.data() + at, length - at);
            if (written > 0) at += static_cast<std::size_t>(written);
            else has_failed = written == 0 || errno != EINTR;
        }
        length = 0;
        return !has_failed;
    }

  private:
    int file;
    bool has_failed = false;
    std::size_t length = 0;
    std::array<char, 4096> bytes;
};

class SoFar {
  public:
    explicit SoFar(const Recorder &of) : recorder(of), now(of.clock.load()) {
        for (const Log &log : recorder.logs)
            for (std::uint32_t k = 0; k < recorder.component_count; k++)
                if (log.begun[k]) writers[k] = &log;
    }

    bool write(int file) {
        Out out(file);
        if (recorder.misuse.load()) return false;
        out.put("at,event,process,op,data\n");
        for (const Log &log : recorder.logs) put(out, log);
        return out.flush();
    }

  private:
    // How many events of a log there are, and a copy of the last one. A begin that is taken back meanwhile is read again.
    static std::uint32_t events_of(const Log &log, Log::Event &last) {
        for (;;) {
            const std::uint32_t drops = log.drops.load(), count = log.whole.load(std::memory_order_acquire);
            if (count) last = log.events[count - 1];
            std::atomic_thread_fence(std::memory_order_acquire);
            if (drops == log.drops.load()) return count;
        }
    }

    // The events of one log that began or ended before this moment.
    void put(Out &out, const Log &log) {
        Log::Event last{};
        const std::uint32_t count = events_of(log, last);
        for (std::uint32_t i = 0; i < count; i++) {
            const Log::Event &event = i + 1 == count ? last : log.events[i];
            if (event.stamp >= now) return;
            put(out, log, event);
        }
    }

    // The component's update that began by this event, or null.
    static const Entry *update(const Log &log, std::uint32_t at, std::uint32_t component) {
        const Entry &entry = log.entries[log.events[at].first];
        return log.events[at].kind == Log::Kind::begin_update && entry.component == component ? &entry : nullptr;
    }

    // The number of what a view shows. It is looked for from the last place on, to both sides: views mostly show what the view before
    // showed, or a little more. A value that nobody wrote gets the last number that had begun when the view ended.
    std::uint32_t number(const Entry &shown, std::uint64_t ended) {
        const Log *log = writers[shown.component];
        if (shown.value == recorder.initial_of(shown.component)) return 0;
        if (!log) return 1;
        std::uint32_t &last = places[shown.component];
        const std::uint32_t whole = log->whole.load(std::memory_order_acquire), from = last;
        std::uint32_t begun = 1;
        for (std::uint32_t far = 0; far < whole; far++)
            for (const std::uint32_t side : {from + far, from - far}) {
                const Entry *found = side < whole ? update(*log, side, shown.component) : nullptr;
                if (!found) continue;
                if (found->value == shown.value) {
                    last = side;
                    return found->number;
                }
                if (log->events[side].stamp < ended) begun = std::max(begun, found->number);
            }
        return begun;
    }

    void put(Out &out, const Log &log, const Log::Event &event) {
        const auto kind = static_cast<std::size_t>(event.kind);
        const char *space = "";
        out.put(event.stamp);
        out.put(Recorder::words[kind]);
        out.put(log.process);
        out.put(Recorder::ops[kind]);
        for (std::uint32_t i = event.first; i < event.first + event.count; i++) {
            const Entry &entry = log.entries[i];
            const std::uint32_t shown = event.kind == Log::Kind::end_view_values ? number(entry, event.stamp) : entry.number;
            if (shown == 0) continue;
            out.put(space);
            out.put(entry.component);
            out.put(":");
            out.put(shown);
            out.put(":");
            out.put(entry.value);
            space = " ";
        }
        out.put("\n");
    }

    const Recorder &recorder;
    const std::uint64_t now; // what began or ended later is left out
    // Where the updates of each component are looked up: the log of its writer, and the event that was found last.
    std::array<const Log *, component_limit> writers{};
    std::array<std::uint32_t, component_limit> places{};
};

// Writes the history so far to an open file. False if it can't be written, or a call was misused; Recorder::text tells of that.
inline bool write_so_far(const Recorder &recorder, int file) { return SoFar(recorder).write(file); }

// Writes it into a file of this path.
inline bool write_so_far(const Recorder &recorder, const char *path) {
    const int file = ::open(path, O_WRONLY | O_CREAT | O_TRUNC | O_CLOEXEC, 0666);
    return file >= 0 && write_so_far(recorder, file) && ::close(file) == 0;
}

// ---- when the process dies

// As long as it lives, the history so far is written into this file if the process dies by a signal. One of a process at a time: a
// second one keeps nothing.
class Kept {
  public:
    Kept(const Recorder &of, const std::string &path) : recorder(&of) {
        if (path.size() >= sizeof file || is_taken.exchange(true)) return;
        std::strcpy(file, path.c_str());
        struct sigaction action = {};
        action.sa_handler = die;
        action.sa_flags = SA_ONSTACK;
        for (int other : signals) ::sigaddset(&action.sa_mask, other);
        for (std::size_t i = 0; i < signals.size(); i++) {
            ::sigaction(signals[i], nullptr, &before[i]);
            // a program that hears SIGTERM itself need not die of it
            if (signals[i] != SIGTERM || before[i].sa_handler == SIG_DFL) ::sigaction(signals[i], &action, nullptr);
        }
        owner = this;
        kept = recorder;
    }
    Kept(const Kept &) = delete;
    Kept &operator=(const Kept &) = delete;

    ~Kept() {
        const Kept *own = this;
        if (!owner.compare_exchange_strong(own, nullptr)) return;
        kept = nullptr;
        for (std::size_t i = 0; i < signals.size(); i++) {
            struct sigaction now;
            ::sigaction(signals[i], nullptr, &now);
            // a handler that the program set meanwhile stays
            if (now.sa_handler == die) ::sigaction(signals[i], &before[i], nullptr);
        }
        is_taken = false;
    }

  private:
    // Writes the file once, and lets the signal do what it did before. A second thread that dies waits, or the process would end
    // before the file is whole.
    static void die(int signal) {
        const int error = errno;
        while (is_dying.exchange(true)) ::poll(nullptr, 0, 1);
        const Recorder *own = kept.exchange(nullptr);
        if (own && write_so_far(*own, file)) {
            Out told(STDERR_FILENO);
            told.put("snapsofar: the process dies: its calls so far are in ");
            told.put(file);
            told.put("\n");
            told.flush();
        }
        for (std::size_t i = 0; i < signals.size(); i++)
            if (signals[i] == signal) ::sigaction(signal, &before[i], nullptr);
        is_dying = false;
        ::raise(signal); // it comes at the end of this handler
        errno = error;
    }

    static constexpr std::array<int, 6> signals{SIGSEGV, SIGBUS, SIGFPE, SIGILL, SIGABRT, SIGTERM};
    static inline std::atomic<bool> is_taken{false}, is_dying{false};
    static inline std::atomic<const Kept *> owner{nullptr};
    static inline std::atomic<const Recorder *> kept{nullptr}; // whose file is not yet written
    static inline char file[PATH_MAX];
    static inline struct sigaction before[signals.size()];
    const Recorder *recorder;
};

// A stack for the calling thread to write on, as long as it lives.
class Stack {
  public:
    Stack() {
        stack_t stack = {};
        stack.ss_sp = room.data();
        stack.ss_size = room.size();
        ::sigaltstack(&stack, &before);
    }
    Stack(const Stack &) = delete;
    Stack &operator=(const Stack &) = delete;
    ~Stack() { ::sigaltstack(&before, nullptr); }

  private:
    std::array<char, 65536> room;
    stack_t before;
};

} // namespace snaprecord
#endif
