// The judge of recorded histories of a single-writer board, for C++17 and later: snapjudge::check gives a value, and explain, json,
// shrink and draw give what the commands of the program write. Link libsnapjudge as from C. What the library answers is proved; this
// header is not. Counts, verdicts and faults come from its JSON object. That leaves out the order, which comes from the report.
#ifndef SNAPJUDGE_HPP
#define SNAPJUDGE_HPP

#include "snapjudge.h"
#include <cstdint>
#include <locale>
#include <memory>
#include <new>
#include <optional>
#include <sstream>
#include <stdexcept>
#include <string>
#include <string_view>
#include <utility>
#include <vector>

namespace snapjudge {

enum class Status { atomic = SNAPJUDGE_ATOMIC, regular = SNAPJUDGE_REGULAR, irregular = SNAPJUDGE_IRREGULAR, refused = SNAPJUDGE_REFUSED };

/// A page is light or dark as the reader's system is, unless the form says which.
enum class Form {
    page = SNAPJUDGE_PAGE,
    svg = SNAPJUDGE_SVG,
    lines = SNAPJUDGE_LINES,
    light_page = SNAPJUDGE_LIGHT_PAGE,
    dark_page = SNAPJUDGE_DARK_PAGE,
    dark_svg = SNAPJUDGE_DARK_SVG
};

/// The number to hand to a call as `events` where a component may have many writers, as by `--writers many`.
constexpr std::uint32_t many_writers(std::uint32_t events = SNAPJUDGE_EVENTS) { return events | SNAPJUDGE_MANY_WRITERS; }

/// There is no such limit of events: it is neither 1 to 1,048,576 nor many_writers of such a number.
struct NoLimit : std::out_of_range {
    using std::out_of_range::out_of_range;
};

/// There is no such part of a history to draw.
struct NoPart : std::out_of_range {
    using std::out_of_range::out_of_range;
};

/// Component `component` has update `number` with this value.
struct Entry {
    std::uint32_t component = 0, number = 0, value = 0;
};

/// A call of a fault. Calls are counted from 1, and so are the records of its begin and its end. A pending call has no end.
struct Call {
    std::uint32_t call = 0, process = 0;
    bool is_update = false;
    std::uint32_t begin = 0;
    std::optional<std::uint32_t> end;
    std::vector<Entry> entries;
};

/// An update that a fault names, and its call where there is one.
struct Update {
    std::uint32_t component = 0, number = 0;
    std::optional<Call> call;
};

/// A view shows an entry that no update wrote. The update is the one of that number, where there is one.
struct IntegrityFault {
    std::uint64_t count = 0;
    Call view;
    Entry entry;
    Update update;
};

/// A view shows a number that is too old or too early. The update is the one that it misses, or that it shows.
struct ProximityFault {
    std::uint64_t count = 0;
    Call view;
    bool is_old = false;
    std::uint32_t component = 0, number = 0;
    Update update;
};

/// What the two views of a read fault show of a component, 0 for nothing. The update is the one of the greater number.
struct Difference {
    std::uint32_t component = 0, view_number = 0, other_number = 0;
    std::optional<Call> update;
};

/// A view shows more of a component than another, which shows more elsewhere or begins after it. The views differ in the component, and
/// in the one of which the other shows more.
struct ReadFault {
    std::uint64_t count = 0;
    Call view, other;
    std::uint32_t component = 0;
    std::vector<Difference> differs;
};

/// A view shows an update, and misses one that preceded it.
struct WriteFault {
    std::uint64_t count = 0;
    Call view;
    Update misses, shows;
};

/// The first fault of each kind, and how many there are.
struct Faults {
    std::optional<IntegrityFault> integrity;
    std::optional<ProximityFault> proximity;
    std::optional<ReadFault> read;
    std::optional<WriteFault> write;
};

struct Counts {
    std::uint64_t events = 0, calls = 0, pending = 0, views = 0;
};

/// A call in the printed order.
struct Step {
    std::uint32_t call = 0, process = 0;
    bool is_update = false;
    std::vector<Entry> entries;
};

/// Why a text is not a history: the record at fault, 0 for the text as a whole, the word of the fault, and what `snapjudge explain` writes.
struct Refusal {
    std::uint32_t record = 0;
    std::string word, sentences;
};

/// The judgement of a text. A text that is not a history has a refusal, and neither counts nor verdicts.
struct Judged {
    Status status = Status::refused;
    std::string report;
    std::optional<Refusal> refusal;
    Counts counts;
    bool regular = false, monotone = false, atomic = false;
    std::vector<Step> order;
    Faults faults;
};

/// What a run has shown of a component: the process of its first update, its updates, and the views that list it.
struct ComponentStats {
    std::uint32_t component = 0, writer = 0, updates = 0, views = 0;
};

/// What a run has shown, as `snapjudge stats` counts it. It is not a verdict. A text that is not a history has a refusal, and no counts.
struct Stats {
    std::optional<Refusal> refusal;
    std::uint64_t events = 0, calls = 0, pending = 0, views = 0, updates = 0, processes = 0, components = 0;
    std::uint64_t overlap_update = 0, overlap_view = 0, overlap_nothing = 0, unshown = 0, most_open = 0, longest = 0;
    bool shows_concurrency = false;
    std::vector<ComponentStats> by_component;
};

/// What a command of the program ends with, and what it writes.
struct Answer {
    Status status = Status::refused;
    std::string text;
};

namespace detail {

/// A value of the library's JSON: its text where it is one, its number, its members or its items.
struct Json {
    enum class Kind { null, boolean, number, string, array, object } kind = Kind::null;
    std::uint64_t number = 0;
    std::string text;
    std::vector<std::pair<std::string, Json>> members;

    bool is_null() const { return kind == Kind::null; }

    const Json &operator[](std::string_view name) const {
        for (const auto &[key, value] : members)
            if (key == name) return value;
        throw std::logic_error("snapjudge: the object has no " + std::string(name));
    }

    bool has(std::string_view name) const {
        for (const auto &member : members)
            if (member.first == name) return true;
        return false;
    }

    std::uint32_t small() const { return static_cast<std::uint32_t>(number); }
};

/// Reads the JSON that the library writes: numbers are whole and have no sign.
class Reader {
public:
    explicit Reader(std::string_view text) : rest(text) {}

    Json value() {
        Json made;
        switch (rest.empty() ? '\0' : rest.front()) {
        case '{':
        case '[': return group(rest.front() == '{' ? Json::Kind::object : Json::Kind::array);
        case '"':
            made.kind = Json::Kind::string;
            made.text = string();
            return made;
        case 'n': return word("null", Json::Kind::null, 0);
        case 't': return word("true", Json::Kind::boolean, 1);
        case 'f': return word("false", Json::Kind::boolean, 0);
        default: return digits();
        }
    }

private:
    std::string_view rest;

    [[noreturn]] static void fail() { throw std::logic_error("snapjudge: the library's JSON does not read"); }

    bool takes(char wanted) {
        if (rest.empty() || rest.front() != wanted) return false;
        rest.remove_prefix(1);
        return true;
    }

    Json word(std::string_view wanted, Json::Kind kind, std::uint64_t number) {
        if (rest.substr(0, wanted.size()) != wanted) fail();
        rest.remove_prefix(wanted.size());
        Json made;
        made.kind = kind;
        made.number = number;
        return made;
    }

    Json digits() {
        Json made;
        made.kind = Json::Kind::number;
        if (rest.empty() || rest.front() < '0' || rest.front() > '9') fail();
        for (; !rest.empty() && rest.front() >= '0' && rest.front() <= '9'; rest.remove_prefix(1))
            made.number = made.number * 10 + static_cast<std::uint64_t>(rest.front() - '0');
        return made;
    }

    // The members of an object, or the items of an array, which have no names.
    Json group(Json::Kind kind) {
        const char end = kind == Json::Kind::object ? '}' : ']';
        Json made;
        made.kind = kind;
        rest.remove_prefix(1);
        if (takes(end)) return made;
        do {
            std::string name;
            if (kind == Json::Kind::object) {
                name = string();
                if (!takes(':')) fail();
            }
            made.members.emplace_back(std::move(name), value());
        } while (takes(','));
        if (!takes(end)) fail();
        return made;
    }

    // Of the texts in the object only the name may need escapes, and the header gives none that does.
    std::string string() {
        if (!takes('"')) fail();
        const std::size_t end = rest.find('"');
        if (end == std::string_view::npos) fail();
        std::string made(rest.substr(0, end));
        rest.remove_prefix(end + 1);
        return made;
    }
};

inline std::vector<Entry> entries_of(const Json &json) {
    std::vector<Entry> made;
    for (const auto &item : json.members) {
        const Json &entry = item.second;
        made.push_back({entry["component"].small(), entry["number"].small(), entry["value"].small()});
    }
    return made;
}

inline Call call_of(const Json &json) {
    Call made{json["call"].small(), json["process"].small(), json["op"].text == "update", json["begin"].small(), std::nullopt, entries_of(json["entries"])};
    if (!json["end"].is_null()) made.end = json["end"].small();
    return made;
}

inline Update update_of(std::uint32_t component, std::uint32_t number, const Json &call) {
    Update made{component, number, std::nullopt};
    if (!call.is_null()) made.call = call_of(call);
    return made;
}

inline Update named(const Json &json) { return update_of(json["component"].small(), json["number"].small(), json["update"]); }

inline std::vector<Difference> differences_of(const Json &json) {
    std::vector<Difference> made;
    for (const auto &[_, it] : json.members) {
        Difference next{it["component"].small(), it["view_number"].small(), it["other_number"].small(), std::nullopt};
        if (!it["update"].is_null()) next.update = call_of(it["update"]);
        made.push_back(std::move(next));
    }
    return made;
}

inline Faults faults_of(const Json &json) {
    Faults made;
    if (const Json &f = json["integrity"]; !f.is_null()) {
        const Json &e = f["entry"];
        const Entry entry{e["component"].small(), e["number"].small(), e["value"].small()};
        made.integrity = IntegrityFault{f["count"].number, call_of(f["view"]), entry, update_of(entry.component, entry.number, f["update"])};
    }
    if (const Json &f = json["proximity"]; !f.is_null()) {
        const bool is_old = f["side"].text == "old";
        const std::uint32_t component = f["component"].small(), number = f["number"].small();
        const Update update = update_of(component, number + is_old, f["update"]);
        made.proximity = ProximityFault{f["count"].number, call_of(f["view"]), is_old, component, number, update};
    }
    if (const Json &f = json["read"]; !f.is_null())
        made.read = ReadFault{f["count"].number, call_of(f["view"]), call_of(f["other"]), f["component"].small(), differences_of(f["differs"])};
    if (const Json &f = json["write"]; !f.is_null())
        made.write = WriteFault{f["count"].number, call_of(f["view"]), named(f["misses"]), named(f["shows"])};
    return made;
}

/// The order of an atomic history, which only the report has: below a line `order 2` lines such as `2 p1 view 0:1:7`.
inline std::vector<Step> order_of(const std::string &report) {
    const std::string mark = "\norder ";
    std::istringstream rest(report.substr(report.find(mark) + mark.size()));
    rest.imbue(std::locale::classic());
    std::size_t length = 0;
    rest >> length;
    std::vector<Step> made(length);
    for (Step &step : made) {
        std::string op;
        char between = 0;
        rest >> step.call >> between >> step.process >> op;
        step.is_update = op == "update";
        while (rest.peek() == ' ') {
            Entry shown;
            rest >> shown.component >> between >> shown.number >> between >> shown.value;
            step.entries.push_back(shown);
        }
    }
    return made;
}

inline Answer ask(std::string_view text, const snapjudge_question &asked) {
    char *out = nullptr;
    std::size_t length = 0;
    // the library takes no null pointer
    const std::uint32_t answer = snapjudge_ask_new(&asked, text.data() ? text.data() : "", text.size(), &out, &length);
    const std::unique_ptr<char, void (*)(void *)> owner(out, std::free);
    if (answer == SNAPJUDGE_NO_LIMIT)
        throw NoLimit("a limit of events is from 1 to 1,048,576, or many_writers of that, and not " + std::to_string(asked.events));
    if (answer == SNAPJUDGE_NO_OPTION && asked.command == SNAPJUDGE_DRAW) throw NoPart("the history has no such part");
    if (answer == SNAPJUDGE_NO_OPTION) throw std::invalid_argument("the number of faults is from 1 to 1,000, and not " + std::to_string(asked.faults));
    if (answer > SNAPJUDGE_REFUSED) throw std::bad_alloc();
    return {static_cast<Status>(answer), std::string(out, length)};
}

inline Stats stats_of(const Json &told) {
    const auto number = [&](std::string_view name) { return told[name].number; };
    Stats made{std::nullopt, number("events"), number("calls"), number("pending"), number("views"), number("updates"), number("processes"),
               number("components"), number("overlap_update"), number("overlap_view"), number("overlap_nothing"), number("unshown"),
               number("most_open"), number("longest"), number("shows_concurrency") != 0, {}};
    for (const auto &[_, it] : told["by_component"].members)
        made.by_component.push_back({it["component"].small(), it["writer"].small(), it["updates"].small(), it["views"].small()});
    return made;
}

/// Why a text is not a history, by its object, or nothing if it is one.
inline std::optional<Refusal> refusal_of(const Json &told, std::string_view text, std::uint32_t events) {
    if (!told.has("refused")) return std::nullopt;
    const Json &why = told["refused"];
    return Refusal{why["record"].small(), why["fault"].text, ask(text, {SNAPJUDGE_EXPLAIN, events, 0, "", nullptr, 0}).text};
}

} // namespace detail

/// What `snapjudge explain` writes, or `snapjudge explain --draw`.
inline Answer explain(std::string_view text, bool drawn = false, std::uint32_t events = SNAPJUDGE_EVENTS) {
    return detail::ask(text, {SNAPJUDGE_EXPLAIN, events, drawn, "", nullptr, 0});
}

/// What `snapjudge explain --all` writes, or `snapjudge explain --all --draw`: all entries of the views of a fault are listed.
inline Answer explain_all(std::string_view text, bool drawn = false, std::uint32_t events = SNAPJUDGE_EVENTS) {
    const std::uint32_t form = drawn ? SNAPJUDGE_WHOLE | SNAPJUDGE_DRAWN : SNAPJUDGE_WHOLE;
    return detail::ask(text, {SNAPJUDGE_EXPLAIN, events, form, "", nullptr, 0});
}

/// What `snapjudge explain --faults N` writes, with `faults` for N, or with `--all` if `whole`: of each kind the first fault of each of the
/// first N views that have one. It throws std::invalid_argument if N is not from 1 to 1,000.
inline Answer explain_faults(std::string_view text, std::uint32_t faults, bool whole = false, std::uint32_t events = SNAPJUDGE_EVENTS) {
    return detail::ask(text, {SNAPJUDGE_EXPLAIN_FAULTS, events, whole, "", nullptr, faults});
}

/// What `snapjudge check --format json` writes of a file with this name.
inline Answer json(std::string_view text, const std::string &name = "-", std::uint32_t events = SNAPJUDGE_EVENTS) {
    return detail::ask(text, {SNAPJUDGE_JSON, events, 0, name.c_str(), nullptr, 0});
}

/// What `snapjudge shrink` writes, or `snapjudge shrink --draw`.
inline Answer shrink(std::string_view text, bool drawn = false, std::uint32_t events = SNAPJUDGE_EVENTS) {
    return detail::ask(text, {SNAPJUDGE_SHRINK, events, drawn, "", nullptr, 0});
}

/// What `snapjudge shrink --map` writes: which calls of the history the witness keeps.
inline Answer shrink_map(std::string_view text, std::uint32_t events = SNAPJUDGE_EVENTS) {
    return detail::ask(text, {SNAPJUDGE_SHRINK, events, SNAPJUDGE_WITNESS_MAP, "", nullptr, 0});
}

/// What `snapjudge draw` writes, `snapjudge draw --svg` or `snapjudge draw --text`, or with `--light` or `--dark`.
inline Answer draw(std::string_view text, Form form = Form::page, std::uint32_t events = SNAPJUDGE_EVENTS) {
    return detail::ask(text, {SNAPJUDGE_DRAW, events, static_cast<std::uint32_t>(form), "", nullptr, 0});
}

/// Which calls of a history are drawn: how many, and from which on or around which. Calls are counted from 1, and 0 asks for nothing.
struct Part {
    std::uint32_t calls = 0, from = 0, around = 0;
};

/// What `snapjudge draw` writes with `--calls`, and `--from` or `--around`. It throws NoPart if the history lacks the call, if both calls
/// are named, or if the form has no room for as many calls.
inline Answer draw(std::string_view text, const Part &part, Form form = Form::page, std::uint32_t events = SNAPJUDGE_EVENTS) {
    const snapjudge_part asked{part.calls, part.from, part.around};
    return detail::ask(text, {SNAPJUDGE_DRAW, events, static_cast<std::uint32_t>(form), "", &asked, 0});
}

/// What `snapjudge stats` writes.
inline std::string stats_lines(std::string_view text, std::uint32_t events = SNAPJUDGE_EVENTS) {
    return detail::ask(text, {SNAPJUDGE_STATS, events, 0, "", nullptr, 0}).text;
}

/// Counts what a run has shown, such as how many views overlap an update. It throws as check does.
inline Stats stats(std::string_view text, std::uint32_t events = SNAPJUDGE_EVENTS) {
    const Answer object = detail::ask(text, {SNAPJUDGE_STATS, events, 1, "", nullptr, 0});
    const detail::Json told = detail::Reader(object.text).value();
    Stats refused;
    refused.refusal = detail::refusal_of(told, text, events);
    return refused.refusal ? refused : detail::stats_of(told);
}

/// Judges a text, whose history may have this many events. It throws NoLimit if there is no such limit, and std::bad_alloc if memory runs
/// out.
inline Judged check(std::string_view text, std::uint32_t events = SNAPJUDGE_EVENTS) {
    Answer report = detail::ask(text, {SNAPJUDGE_CHECK, events, 0, "", nullptr, 0});
    const Answer object = json(text, "-", events);
    const detail::Json told = detail::Reader(object.text).value();
    Judged made;
    made.status = report.status;
    made.refusal = detail::refusal_of(told, text, events);
    if (!made.refusal) {
        made.counts = {told["events"].number, told["calls"].number, told["pending"].number, told["views"].number};
        made.regular = told["regular"].number != 0;
        made.monotone = told["monotone"].number != 0;
        made.atomic = told["atomic"].number != 0;
        made.faults = detail::faults_of(told);
        if (made.atomic) made.order = detail::order_of(report.text);
    }
    made.report = std::move(report.text);
    return made;
}

} // namespace snapjudge

#endif
