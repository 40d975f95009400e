// Says whether a history without stamps is atomic, by a search for an order as other tools make one. It ends with status 0 if there is
// an order, with 1 if there is none, and with 4 if it gave up: it took more seconds or more megabytes than it was given.
//
// usage: search wing-gong|just-in-time SECONDS MEGABYTES < HISTORY
//
// `wing-gong` is the search of Wing and Gong (1993) with the memory of Lowe (2017), as Porcupine and Knossos have it: it takes a call
// that may come next, and goes back if none may. It remembers which sets of calls it has tried. The board is undone in place.
// `just-in-time` is Lowe's other algorithm, which Knossos has too: it goes through the events, and holds all boards that there can be,
// each with the open calls that have taken effect in it. A call takes effect only if an end needs one.
#include <algorithm>
#include <csignal>
#include <cstdint>
#include <cstdio>
#include <cstdlib>
#include <cstring>
#include <iostream>
#include <iterator>
#include <map>
#include <new>
#include <sstream>
#include <string>
#include <sys/resource.h>
#include <unistd.h>
#include <unordered_set>
#include <utility>
#include <vector>

// What a component shows: the number of its update, and the value; both 0 at first.
using Shown = std::pair<std::uint32_t, std::uint32_t>;
using Board = std::vector<Shown>;

struct Call {
    bool is_update = false, has_ended = false;
    std::uint32_t component = 0;
    Shown written;
    Board shown;
};

struct Event {
    std::size_t call;
    bool is_end;
};

struct History {
    std::vector<Call> calls;
    std::vector<Event> events;
    std::size_t components = 0;
};

static std::vector<std::pair<std::uint32_t, Shown>> entries_of(const std::string &data) {
    std::vector<std::pair<std::uint32_t, Shown>> entries;
    const char *at = data.c_str();
    while (*at != '\0') {
        char *next;
        std::uint32_t component = std::strtoul(at, &next, 10);
        std::uint32_t number = std::strtoul(next + 1, &next, 10);
        std::uint32_t value = std::strtoul(next + 1, &next, 10);
        entries.push_back({component, {number, value}});
        at = *next == ' ' ? next + 1 : next;
    }
    return entries;
}

// Views that never end are left out.
static History read() {
    History history;
    std::map<std::string, std::size_t> open;
    std::vector<std::vector<std::pair<std::uint32_t, Shown>>> shown;
    std::string line, event, process, op, data;
    std::getline(std::cin, line);
    while (std::getline(std::cin, line)) {
        std::istringstream fields(line);
        std::getline(fields, event, ',');
        std::getline(fields, process, ',');
        std::getline(fields, op, ',');
        std::getline(fields, data);
        auto entries = entries_of(data);
        for (const auto &entry : entries) history.components = std::max<std::size_t>(history.components, entry.first + 1);
        bool is_end = event == "end";
        if (!is_end) {
            open[process] = history.calls.size();
            history.calls.emplace_back();
            shown.emplace_back();
            history.calls.back().is_update = op == "update";
        }
        std::size_t at = open[process];
        Call &call = history.calls[at];
        call.has_ended = is_end;
        if (!entries.empty()) {
            call.component = entries[0].first;
            call.written = entries[0].second;
            shown[at] = entries;
        }
        history.events.push_back({at, is_end});
    }
    for (std::size_t at = 0; at < history.calls.size(); at++) {
        if (history.calls[at].is_update) continue;
        history.calls[at].shown.resize(history.components);
        for (const auto &entry : shown[at]) history.calls[at].shown[entry.first] = entry.second;
    }
    return history;
}

// Whether a call may take effect on this board. An update needs the one before it.
static bool fits(const Call &call, const Board &board) {
    return call.is_update ? board[call.component].first + 1 == call.written.first : call.shown == board;
}

struct Hash {
    template <class Words> std::size_t operator()(const Words &words) const {
        std::uint64_t hash = 1469598103934665603u;
        for (auto word : words) hash = (hash ^ static_cast<std::uint64_t>(word)) * 1099511628211u;
        return hash ^ hash >> 29;
    }
};

// ---- Wing and Gong, with a memory

// The events that are left, as a list with links: that of an end leads to no other.
struct Node {
    std::size_t call;
    bool is_end;
    Node *before, *after, *end;
};

static void take_out(Node *node) {
    node->before->after = node->after;
    node->after->before = node->before;
}

static void put_back(Node *node) {
    node->before->after = node;
    node->after->before = node;
}

class WingGong {
    const History &history;
    std::vector<Node> nodes;
    Node head{0, false, nullptr, nullptr, nullptr}, tail{0, true, nullptr, nullptr, nullptr};
    Board board;
    std::vector<std::uint64_t> taken;
    std::unordered_set<std::vector<std::uint64_t>, Hash> tried;
    std::vector<std::pair<Node *, Shown>> path; // each call that was taken, and what its component had before
    std::size_t due = 0;                        // calls that ended, and are not taken

    void link() {
        std::vector<Node *> begins(history.calls.size());
        Node *last = &head;
        nodes.reserve(history.events.size());
        for (const Event &event : history.events) {
            const Call &call = history.calls[event.call];
            if (!call.has_ended && !call.is_update) continue;
            nodes.push_back({event.call, event.is_end, last, nullptr, nullptr});
            last->after = &nodes.back();
            last = &nodes.back();
            if (event.is_end) begins[event.call]->end = last;
            else begins[event.call] = last;
            due += event.is_end;
        }
        last->after = &tail;
        tail.before = last;
    }

    bool take(Node *node) {
        const Call &call = history.calls[node->call];
        if (!fits(call, board)) return false;
        taken[node->call / 64] ^= std::uint64_t(1) << node->call % 64;
        if (!tried.insert(taken).second) {
            taken[node->call / 64] ^= std::uint64_t(1) << node->call % 64;
            return false;
        }
        path.push_back({node, call.is_update ? board[call.component] : Shown()});
        if (call.is_update) board[call.component] = call.written;
        take_out(node);
        if (node->end != nullptr) take_out(node->end), due--;
        return true;
    }

    Node *go_back() {
        auto [node, before] = path.back();
        path.pop_back();
        const Call &call = history.calls[node->call];
        if (call.is_update) board[call.component] = before;
        taken[node->call / 64] ^= std::uint64_t(1) << node->call % 64;
        if (node->end != nullptr) put_back(node->end), due++;
        put_back(node);
        return node->after;
    }

  public:
    explicit WingGong(const History &of) : history(of), board(of.components), taken(of.calls.size() / 64 + 1) { link(); }

    bool has_order() {
        for (Node *node = head.after; due > 0;) {
            if (!node->is_end) {
                node = take(node) ? head.after : node->after;
            } else if (path.empty()) {
                return false;
            } else {
                node = go_back();
            }
        }
        return true;
    }
};

// ---- just in time

// A board, and after it the open calls that have taken effect, rising. All are numbers, so that they are compared and kept as one list.
using Configuration = std::vector<std::uint32_t>;

class JustInTime {
    const History &history;
    std::vector<std::uint32_t> open;

    Board board_of(const Configuration &from) const {
        Board board(history.components);
        for (std::size_t k = 0; k < history.components; k++) board[k] = {from[2 * k], from[2 * k + 1]};
        return board;
    }

    Configuration::const_iterator place_of(const Configuration &in, std::uint32_t call) const {
        return std::lower_bound(in.begin() + 2 * history.components, in.end(), call);
    }

    bool has_taken(const Configuration &in, std::uint32_t call) const {
        auto place = place_of(in, call);
        return place != in.end() && *place == call;
    }

    // The configurations in which this call has taken effect, without it.
    std::unordered_set<Configuration, Hash> ended(const std::unordered_set<Configuration, Hash> &all, std::uint32_t call) const {
        std::unordered_set<Configuration, Hash> left, seen(all);
        std::vector<Configuration> ahead(all.begin(), all.end());
        while (!ahead.empty()) {
            Configuration from = std::move(ahead.back());
            ahead.pop_back();
            if (has_taken(from, call)) {
                from.erase(place_of(from, call));
                left.insert(std::move(from));
                continue;
            }
            Board board = board_of(from);
            for (std::uint32_t next : open) {
                const Call &of = history.calls[next];
                if (has_taken(from, next) || !fits(of, board)) continue;
                Configuration to = from;
                to.insert(place_of(to, next), next);
                if (of.is_update) to[2 * of.component] = of.written.first, to[2 * of.component + 1] = of.written.second;
                if (seen.insert(to).second) ahead.push_back(std::move(to));
            }
        }
        return left;
    }

  public:
    explicit JustInTime(const History &of) : history(of) {}

    bool has_order() {
        std::unordered_set<Configuration, Hash> all{Configuration(2 * history.components)};
        for (const Event &event : history.events) {
            const Call &call = history.calls[event.call];
            if (!event.is_end) {
                if (call.has_ended || call.is_update) open.push_back(event.call);
                continue;
            }
            all = ended(all, event.call);
            open.erase(std::find(open.begin(), open.end(), event.call));
            if (all.empty()) return false;
        }
        return true;
    }
};

int main(int count, char **words) {
    if (count != 4) {
        std::fputs("usage: search wing-gong|just-in-time SECONDS MEGABYTES < HISTORY\n", stderr);
        return 5;
    }
    rlimit seconds{std::strtoul(words[2], nullptr, 10), RLIM_INFINITY}, bytes{std::strtoul(words[3], nullptr, 10) << 20, RLIM_INFINITY};
    std::signal(SIGXCPU, [](int) { _exit(4); });
    setrlimit(RLIMIT_CPU, &seconds);
    setrlimit(RLIMIT_AS, &bytes);
    std::ios::sync_with_stdio(false);
    try {
        History history = read();
        bool has = std::strcmp(words[1], "wing-gong") == 0 ? WingGong(history).has_order() : JustInTime(history).has_order();
        std::puts(has ? "atomic yes" : "atomic no");
        std::fflush(stdout);
        _exit(!has); // what it remembers need not be given back
    } catch (const std::bad_alloc &) {
        return 4;
    }
}
