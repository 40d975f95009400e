// Answers as the program does, by snapjudge.hpp: ../differential.py compares the two.
#include "snapjudge.hpp"
#include <iostream>
#include <map>

namespace {

using snapjudge::Answer;
using Text = std::string_view;
using Events = std::uint32_t;

// `"name":value` for each member, with commas between, in braces.
std::string object(const std::vector<std::pair<std::string, std::string>> &members) {
    std::string made;
    for (const auto &[name, value] : members) made += (made.empty() ? "\"" : ",\"") + name + "\":" + value;
    return "{" + made + "}";
}

std::string number(std::uint64_t value) { return std::to_string(value); }
std::string truth(bool value) { return value ? "true" : "false"; }
std::string quoted(const std::string &text) { return '"' + text + '"'; }

std::string told(const snapjudge::Entry &entry) {
    return object({{"component", number(entry.component)}, {"number", number(entry.number)}, {"value", number(entry.value)}});
}

std::string told(const snapjudge::Call &call) {
    std::string entries;
    for (const auto &entry : call.entries) entries += (entries.empty() ? "" : ",") + told(entry);
    return object({{"call", number(call.call)},
                   {"process", number(call.process)},
                   {"op", quoted(call.is_update ? "update" : "view")},
                   {"begin", number(call.begin)},
                   {"end", call.end ? number(*call.end) : "null"},
                   {"entries", "[" + entries + "]"}});
}

std::string call_of(const snapjudge::Update &update) { return update.call ? told(*update.call) : "null"; }

std::string told(const snapjudge::Update &update) {
    return object({{"component", number(update.component)}, {"number", number(update.number)}, {"update", call_of(update)}});
}

std::string told(const snapjudge::IntegrityFault &fault) {
    return object({{"count", number(fault.count)}, {"view", told(fault.view)}, {"entry", told(fault.entry)}, {"update", call_of(fault.update)}});
}

std::string told(const snapjudge::ProximityFault &fault) {
    return object({{"count", number(fault.count)},
                   {"view", told(fault.view)},
                   {"component", number(fault.component)},
                   {"number", number(fault.number)},
                   {"side", quoted(fault.is_old ? "old" : "early")},
                   {"update", call_of(fault.update)}});
}

std::string told(const snapjudge::Difference &it) {
    return object({{"component", number(it.component)},
                   {"view_number", number(it.view_number)},
                   {"other_number", number(it.other_number)},
                   {"update", it.update ? told(*it.update) : "null"}});
}

std::string told(const snapjudge::ReadFault &fault) {
    std::string differs;
    for (const auto &it : fault.differs) differs += (differs.empty() ? "" : ",") + told(it);
    return object({{"count", number(fault.count)},
                   {"view", told(fault.view)},
                   {"other", told(fault.other)},
                   {"component", number(fault.component)},
                   {"differs", "[" + differs + "]"}});
}

std::string told(const snapjudge::WriteFault &fault) {
    return object({{"count", number(fault.count)}, {"view", told(fault.view)}, {"misses", told(fault.misses)}, {"shows", told(fault.shows)}});
}

template <class Fault> std::string maybe(const std::optional<Fault> &fault) { return fault ? told(*fault) : "null"; }

std::string order(const std::vector<snapjudge::Step> &steps) {
    std::string made;
    for (const auto &step : steps) {
        made += number(step.call) + " p" + number(step.process) + (step.is_update ? " update" : " view");
        for (const auto &entry : step.entries) made += ' ' + number(entry.component) + ':' + number(entry.number) + ':' + number(entry.value);
        made += '\n';
    }
    return made;
}

// The object of a text that is not a history.
std::string told(const snapjudge::Refusal &refusal) {
    const std::string why = object({{"record", number(refusal.record)}, {"fault", quoted(refusal.word)}});
    return object({{"name", quoted("-")}, {"status", "3"}, {"refused", why}}) + "\n";
}

std::string told(const snapjudge::ComponentStats &shown) {
    return object({{"component", number(shown.component)}, {"writer", number(shown.writer)}, {"updates", number(shown.updates)}, {"views", number(shown.views)}});
}

// What a run has shown, written as the program writes its object.
Answer stats(Text text, Events events) {
    const auto shown = snapjudge::stats(text, events);
    if (shown.refusal) return {snapjudge::Status::refused, told(*shown.refusal)};
    std::string components;
    for (const auto &component : shown.by_component) components += (components.empty() ? "" : ",") + told(component);
    const std::string counts = object({{"name", quoted("-")},
                                       {"status", "0"},
                                       {"events", number(shown.events)},
                                       {"calls", number(shown.calls)},
                                       {"pending", number(shown.pending)},
                                       {"views", number(shown.views)},
                                       {"updates", number(shown.updates)},
                                       {"processes", number(shown.processes)},
                                       {"components", number(shown.components)},
                                       {"overlap_update", number(shown.overlap_update)},
                                       {"overlap_view", number(shown.overlap_view)},
                                       {"overlap_nothing", number(shown.overlap_nothing)},
                                       {"unshown", number(shown.unshown)},
                                       {"most_open", number(shown.most_open)},
                                       {"longest", number(shown.longest)},
                                       {"shows_concurrency", truth(shown.shows_concurrency)},
                                       {"by_component", "[" + components + "]"}});
    return {snapjudge::Status::atomic, counts + "\n"};
}

// The lines of what a run has shown. The program ends with 0, unless the text is not a history.
Answer stats_lines(Text text, Events events) {
    const std::string lines = snapjudge::stats_lines(text, events);
    return {lines.rfind("refused ", 0) == 0 ? snapjudge::Status::refused : snapjudge::Status::atomic, lines};
}

// The values of a text, written as the program writes them: its object, and below it the order of the report. Of a text that is not a
// history they are the object and the sentences.
Answer values(Text text, Events events) {
    const auto judged = snapjudge::check(text, events);
    if (judged.refusal) return {judged.status, told(*judged.refusal) + judged.refusal->sentences};
    const std::string verdicts = object({{"name", quoted("-")},
                                         {"status", number(static_cast<unsigned>(judged.status))},
                                         {"events", number(judged.counts.events)},
                                         {"calls", number(judged.counts.calls)},
                                         {"pending", number(judged.counts.pending)},
                                         {"views", number(judged.counts.views)},
                                         {"regular", truth(judged.regular)},
                                         {"monotone", truth(judged.monotone)},
                                         {"atomic", truth(judged.atomic)},
                                         {"integrity", maybe(judged.faults.integrity)},
                                         {"proximity", maybe(judged.faults.proximity)},
                                         {"read", maybe(judged.faults.read)},
                                         {"write", maybe(judged.faults.write)}});
    return {judged.status, verdicts + "\n" + order(judged.order)};
}

Answer report(Text text, Events events) {
    const auto judged = snapjudge::check(text, events);
    return {judged.status, judged.report};
}

const std::map<std::string, Answer (*)(Text, Events)> QUESTIONS = {
    {"check", report},
    {"explain", [](Text text, Events events) { return snapjudge::explain(text, false, events); }},
    {"explain --draw", [](Text text, Events events) { return snapjudge::explain(text, true, events); }},
    {"explain --all", [](Text text, Events events) { return snapjudge::explain_all(text, false, events); }},
    {"explain --all --draw", [](Text text, Events events) { return snapjudge::explain_all(text, true, events); }},
    {"check --format json", [](Text text, Events events) { return snapjudge::json(text, "-", events); }},
    {"shrink", [](Text text, Events events) { return snapjudge::shrink(text, false, events); }},
    {"shrink --draw", [](Text text, Events events) { return snapjudge::shrink(text, true, events); }},
    {"shrink --map", [](Text text, Events events) { return snapjudge::shrink_map(text, events); }},
    {"explain --faults 3", [](Text text, Events events) { return snapjudge::explain_faults(text, 3, false, events); }},
    {"explain --all --faults 3", [](Text text, Events events) { return snapjudge::explain_faults(text, 3, true, events); }},
    {"draw", [](Text text, Events events) { return snapjudge::draw(text, snapjudge::Form::page, events); }},
    {"draw --svg", [](Text text, Events events) { return snapjudge::draw(text, snapjudge::Form::svg, events); }},
    {"draw --text", [](Text text, Events events) { return snapjudge::draw(text, snapjudge::Form::lines, events); }},
    {"draw --light", [](Text text, Events events) { return snapjudge::draw(text, snapjudge::Form::light_page, events); }},
    {"draw --dark", [](Text text, Events events) { return snapjudge::draw(text, snapjudge::Form::dark_page, events); }},
    {"draw --svg --calls 5", [](Text text, Events events) { return snapjudge::draw(text, snapjudge::Part{5, 0, 0}, snapjudge::Form::svg, events); }},
    {"draw --svg --dark", [](Text text, Events events) { return snapjudge::draw(text, snapjudge::Form::dark_svg, events); }},
    {"stats", stats_lines},
    {"stats --format json", stats},
    {"values", values},
};

// The end of a command where a component may have many writers.
const std::string MANY = " --writers many";

} // namespace

int main() {
    std::size_t length = 0;
    std::string words;
    while (std::cin >> length && std::cin.ignore() && std::getline(std::cin, words)) {
        std::string text(length, '\0');
        std::cin.read(text.data(), static_cast<std::streamsize>(length));
        Events events = SNAPJUDGE_EVENTS;
        if (const auto end = words.rfind(MANY); end != std::string::npos) {
            words.erase(end);
            events = snapjudge::many_writers();
        }
        const Answer answer = QUESTIONS.at(words)(text, events);
        std::cout << static_cast<unsigned>(answer.status) << ' ' << answer.text.size() << '\n' << answer.text << std::flush;
    }
}
