// Judges texts of which the answers were worked by hand, from snapjudge.hpp. usage: test_cpp
#include "snapjudge.hpp"
#include <iostream>

namespace {

int failures = 0;

void expect(bool is_right, const char *what) {
    if (is_right) return;
    std::cerr << "not as it is to be: " << what << '\n';
    ++failures;
}

constexpr std::string_view HEADER = "event,process,op,data\n";

std::string history(std::string_view rows) { return std::string(HEADER).append(rows); }

bool is(const snapjudge::Entry &entry, std::uint32_t component, std::uint32_t number, std::uint32_t value) {
    return entry.component == component && entry.number == number && entry.value == value;
}

// An update and a view that shows it, one after the other.
void try_atomic() {
    const auto judged = snapjudge::check(history("begin,3,update,2:1:7\nend,3,update,\nbegin,1,view,\nend,1,view,2:1:7\n"));
    expect(judged.status == snapjudge::Status::atomic && judged.atomic && judged.regular && judged.monotone, "the verdicts of an atomic history");
    expect(judged.counts.events == 4 && judged.counts.calls == 2 && judged.counts.pending == 0 && judged.counts.views == 1, "its counts");
    expect(!judged.refusal && !judged.faults.integrity && !judged.faults.proximity && !judged.faults.read && !judged.faults.write, "no fault");
    expect(judged.order.size() == 2, "the length of its order");
    if (judged.order.size() != 2) return;
    const auto &update = judged.order[0], &view = judged.order[1];
    expect(update.call == 1 && update.process == 3 && update.is_update && update.entries.size() == 1 && is(update.entries[0], 2, 1, 7), "its update");
    expect(view.call == 2 && view.process == 1 && !view.is_update && view.entries.size() == 1 && is(view.entries[0], 2, 1, 7), "its view");
    expect(judged.report == "events 4 calls 2 pending 0 views 1\nregular yes\nmonotone yes\natomic yes\norder 2\n1 p3 update 2:1:7\n2 p1 view 2:1:7\n",
           "its report");
}

// The second of two views shows less than the first, while the update is under way.
void try_read() {
    const auto text = history("begin,0,update,0:1:7\nbegin,1,view,\nend,1,view,0:1:7\nbegin,2,view,\nend,2,view,\nend,0,update,\n");
    const auto judged = snapjudge::check(text);
    expect(judged.status == snapjudge::Status::regular && judged.regular && !judged.monotone && !judged.atomic, "the verdicts of a read fault");
    const auto &fault = judged.faults.read;
    expect(fault && fault->count == 1 && fault->component == 0, "the read fault");
    if (!fault) return;
    expect(fault->view.call == 2 && fault->view.process == 1 && fault->view.begin == 3 && fault->view.end == 4u, "its first view");
    expect(fault->view.entries.size() == 1 && is(fault->view.entries[0], 0, 1, 7), "what that shows");
    expect(fault->other.call == 3 && fault->other.begin == 5 && fault->other.end == 6u && fault->other.entries.empty(), "its second view");
    expect(fault->differs.size() == 1 && fault->differs[0].component == 0, "where they differ");
    if (fault->differs.size() == 1) {
        const auto &differs = fault->differs[0];
        expect(differs.view_number == 1 && differs.other_number == 0, "the numbers that they show there");
        expect(differs.update && differs.update->call == 1 && differs.update->end == 7u, "the update that one of them misses");
    }
    expect(judged.order.empty(), "no order");
    const auto witness = snapjudge::shrink(text);
    expect(witness.status == judged.status && witness.text == text, "a witness of all its calls");
}

// A view that shows nothing after an update has ended, and one that shows a value that nobody wrote.
void try_local() {
    const auto judged = snapjudge::check(history("begin,0,update,0:1:7\nend,0,update,\nbegin,1,view,\nend,1,view,\nbegin,1,view,\nend,1,view,0:1:9\n"));
    expect(judged.status == snapjudge::Status::irregular && !judged.regular, "the verdicts of local faults");
    const auto &old = judged.faults.proximity;
    expect(old && old->is_old && old->view.call == 2 && old->number == 0, "the proximity fault");
    expect(old && old->update.number == 1 && old->update.call && old->update.call->call == 1 && old->update.call->is_update, "the update that it misses");
    const auto &invented = judged.faults.integrity;
    expect(invented && invented->view.call == 3 && is(invented->entry, 0, 1, 9), "the integrity fault");
    expect(invented && invented->update.call && is(invented->update.call->entries.at(0), 0, 1, 7), "the update of that number");
}

// A view shows an update, and misses one that ended before that began.
void try_write() {
    const auto judged = snapjudge::check(history("begin,2,view,\nbegin,0,update,0:1:5\nend,0,update,\nbegin,1,update,1:1:6\nend,1,update,\nend,2,view,1:1:6\n"));
    const auto &fault = judged.faults.write;
    expect(judged.status == snapjudge::Status::regular && fault && fault->count == 1 && fault->view.call == 1, "the write fault");
    if (!fault) return;
    expect(fault->misses.component == 0 && fault->misses.number == 1 && fault->misses.call && fault->misses.call->call == 2, "what it misses");
    expect(fault->shows.component == 1 && fault->shows.call && fault->shows.call->begin == 5 && fault->shows.call->end == 6u, "what it shows");
}

void try_refused() {
    const auto judged = snapjudge::check(history("begin,0,update,0:2:7\n"));
    expect(judged.status == snapjudge::Status::refused && judged.refusal, "a text that is not a history");
    expect(judged.refusal && judged.refusal->record == 2 && judged.refusal->word == "number", "why it is none");
    expect(judged.report == "refused record 2: number\n", "the line of that");
    expect(judged.refusal && judged.refusal->sentences.rfind("refused record 2: number\nan update has the next number of its component", 0) == 0,
           "the sentences of that");
    expect(snapjudge::check({}).refusal.has_value(), "no text at all");
    try {
        snapjudge::check(HEADER, 0);
        expect(false, "a limit of no events is refused");
    } catch (const snapjudge::NoLimit &) {
    }
    expect(snapjudge::check(history("begin,0,view,\nend,0,view,\n"), 1).refusal->word == "toomany", "a limit of one event");
}

// Two processes update a component, and their updates overlap.
void try_writers() {
    const std::string begins = "begin,0,update,0:1:5\nbegin,1,update,0:2:6\n";
    const auto text = history(begins + "end,0,update,\nend,1,update,\n");
    const auto many = snapjudge::many_writers();
    const auto one = snapjudge::check(text), judged = snapjudge::check(text, many);
    expect(one.refusal && one.refusal->record == 3 && one.refusal->word == "writer", "a second writer where one is allowed");
    expect(judged.atomic && judged.order.size() == 2 && is(judged.order[1].entries.at(0), 0, 2, 6), "an atomic history of two writers");
    expect(judged.report == "events 4 calls 2 pending 0 views 0\nregular yes\nmonotone yes\natomic yes\norder 2\n1 p0 update 0:1:5\n2 p1 update 0:2:6\n",
           "its report");
    expect(snapjudge::explain(text, false, many).text.rfind("atomic: ", 0) == 0, "its explanation");
    expect(snapjudge::shrink(text, false, many).text == text, "its witness");
    expect(snapjudge::draw(text, snapjudge::Form::page, many).status == snapjudge::Status::atomic, "its picture");
    const auto shown = snapjudge::stats(text, many);
    expect(shown.updates == 2 && shown.by_component.size() == 1 && shown.by_component[0].writer == 0, "its counts");
    const auto falling = snapjudge::check(history(begins + "end,1,update,\nend,0,update,\n"), many);
    expect(falling.refusal && falling.refusal->record == 4 && falling.refusal->word == "order", "ends out of order");
    expect(falling.refusal && falling.refusal->sentences.rfind("refused record 4: order\n", 0) == 0, "the sentences of that");
    expect(snapjudge::check(text, snapjudge::many_writers(3)).refusal->word == "toomany", "a limit of three events");
    expect(snapjudge::many_writers(many) == many, "the same number again");
    for (const std::uint32_t events : {0u, 1048577u}) {
        try {
            snapjudge::check(text, snapjudge::many_writers(events));
            expect(false, "a limit that there is not");
        } catch (const snapjudge::NoLimit &) {
        }
    }
}

// Two views overlap an update, and not one another.
void try_stats() {
    const auto text = history("begin,0,update,0:1:7\nbegin,1,view,\nend,1,view,0:1:7\nbegin,2,view,\nend,2,view,\nend,0,update,\n");
    const auto shown = snapjudge::stats(text);
    expect(!shown.refusal && shown.calls == 3 && shown.views == 2 && shown.overlap_update == 2 && shown.overlap_view == 0, "the counts of a run");
    expect(shown.most_open == 2 && shown.longest == 6 && shown.unshown == 0 && shown.shows_concurrency, "the further counts of a run");
    expect(shown.by_component.size() == 1 && shown.by_component[0].updates == 1 && shown.by_component[0].views == 1, "the counts of a component");
    expect(snapjudge::stats_lines(HEADER).rfind("events 0\n", 0) == 0, "the lines of the counts");
    expect(snapjudge::stats({}).refusal.has_value(), "no counts of no text");
}

// A view with more entries than an explanation lists by itself, of which one belongs to the fault.
void try_large_view() {
    std::string rows, shown;
    for (int component = 0; component < 20; ++component) {
        const std::string entry = std::to_string(component) + ":1:7";
        rows += "begin," + std::to_string(component) + ",update," + entry + "\nend," + std::to_string(component) + ",update,\n";
        shown += (component == 0 ? "" : " ") + (component == 3 ? "3:1:8" : entry);
    }
    const auto text = history(rows + "begin,20,view,\nend,20,view," + shown + "\n");
    const auto has = [](const snapjudge::Answer &all, std::string_view part) { return all.text.find(part) != std::string::npos; };
    const auto few = snapjudge::explain(text), all = snapjudge::explain_all(text);
    expect(has(few, " more entries\n") && !has(few, shown), "the entries of the fault");
    expect(!has(all, " more entries\n") && has(all, "view " + shown + "\n") && all.status == few.status, "all entries");
    expect(has(snapjudge::explain_all(text, true), all.text), "all entries, and a picture below");
}

// Two views that show nothing after an update has ended.
void try_several() {
    const auto text = history("begin,0,update,0:1:7\nend,0,update,\nbegin,1,view,\nend,1,view,\nbegin,1,view,\nend,1,view,\n");
    const auto one = snapjudge::explain(text), both = snapjudge::explain_faults(text, 2);
    expect(snapjudge::explain_faults(text, 1).text == one.text, "the first fault");
    expect(both.text.rfind(one.text, 0) == 0 && both.text.find("proximity: view 3") != std::string::npos, "both faults");
    expect(snapjudge::explain_faults(text, 1000, true).text == both.text, "as many as there are");
    for (const std::uint32_t faults : {0u, 1001u}) {
        try {
            snapjudge::explain_faults(text, faults);
            expect(false, "a number of faults that there is not");
        } catch (const std::invalid_argument &) {
        }
    }
    const std::string header = "call,process,begin,end,of call,of process,of begin,of end\n";
    expect(snapjudge::shrink_map(text).text == header + "1,0,2,3,1,0,2,3\n2,1,4,5,2,1,4,5\n", "the calls of the witness");
}

void try_texts() {
    const auto text = history("begin,0,update,0:1:7\nend,0,update,\n");
    const auto ends = [](const std::string &all, std::string_view end) { return all.size() > end.size() && all.substr(all.size() - end.size()) == end; };
    expect(ends(snapjudge::draw(text).text, "</html>\n"), "a page");
    expect(ends(snapjudge::draw(text, snapjudge::Form::svg).text, "</svg>\n"), "a picture");
    expect(ends(snapjudge::draw(text, snapjudge::Form::light_page).text, "</html>\n"), "a light page");
    expect(ends(snapjudge::draw(text, snapjudge::Form::dark_page).text, "</html>\n"), "a dark page");
    expect(ends(snapjudge::draw(text, snapjudge::Form::dark_svg).text, "</svg>\n"), "a dark picture");
    expect(snapjudge::draw(text, snapjudge::Form::svg).text != snapjudge::draw(text, snapjudge::Form::dark_svg).text, "colours of a dark picture");
    expect(snapjudge::draw(text, snapjudge::Part{}, snapjudge::Form::svg).text == snapjudge::draw(text, snapjudge::Form::svg).text, "the usual part");
    try {
        snapjudge::draw(text, snapjudge::Part{0, 1000, 0});
        expect(false, "a part that there is not");
    } catch (const snapjudge::NoPart &) {
    }
    expect(snapjudge::draw(text, snapjudge::Form::lines).text.find('<') == std::string::npos, "a picture in characters");
    expect(snapjudge::explain(text).text.rfind("atomic: ", 0) == 0, "an explanation");
    expect(snapjudge::json(text, "run.csv").text.rfind("{\"name\":\"run.csv\",\"status\":0,", 0) == 0, "an object with a name");
}

} // namespace

int main() {
    try_atomic();
    try_read();
    try_local();
    try_write();
    try_refused();
    try_writers();
    try_stats();
    try_large_view();
    try_several();
    try_texts();
    std::cout << failures << " failures\n";
    return failures != 0;
}
