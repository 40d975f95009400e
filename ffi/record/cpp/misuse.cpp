// The recorder's texts of two worked runs, written to the files that are named, and the fault of each misuse.
// usage: misuse FILE FILE
#define _GLIBCXX_ASSERTIONS // the indexes of vectors are tested
#include "snapsofar.hpp"
#include <fstream>
#include <iostream>
#include <memory>
#include <sys/resource.h>

using snaprecord::Fault;
using snaprecord::Log;
using snaprecord::Recorder;

static int passed, failed;

static void expect(const char *name, bool holds) {
    (holds ? passed : failed)++;
    if (!holds) std::cerr << "c++: " << name << ": failed\n";
}

static Fault fault_of(const Recorder &recorder) {
    try {
        recorder.text();
        return Fault::none;
    } catch (const snaprecord::Error &error) {
        return error.fault;
    }
}

static Fault limits(std::uint32_t threads, std::uint32_t components, std::uint32_t calls) {
    try {
        Recorder recorder(threads, components, calls);
        return Fault::none;
    } catch (const snaprecord::Error &error) {
        return error.fault;
    }
}

static void update(Log &log, std::uint32_t component, std::uint32_t value) {
    if (log.begin_update(component, value)) log.end_update();
}

static void view(Log &log, const std::vector<std::uint32_t> &values) {
    if (log.begin_view()) log.end_view_values(values);
}

// Whether this many views ended, and this many of them overlapped an update.
static bool has_views(const Recorder &recorder, std::size_t ended, std::size_t overlapping) {
    return recorder.views().ended == ended && recorder.views().overlapping == overlapping;
}

// What is recorded in a copy is in no text.
static_assert(!std::is_copy_constructible_v<Log> && !std::is_move_constructible_v<Log>);
static_assert(!std::is_copy_assignable_v<Log> && !std::is_move_assignable_v<Log>);
static_assert(!std::is_copy_constructible_v<Recorder> && !std::is_move_constructible_v<Recorder>);
static_assert(!std::is_copy_assignable_v<Recorder> && !std::is_move_assignable_v<Recorder>);

// What there is so far, as it is written into a file.
static std::string so_far(const Recorder &recorder) {
    char found[1000] = {0};
    std::FILE *file = std::tmpfile();
    expect("what there is so far is written", file && snaprecord::write_so_far(recorder, fileno(file)) && std::fseek(file, 0, SEEK_SET) == 0);
    found[std::fread(found, 1, sizeof found - 1, file)] = 0;
    std::fclose(file);
    return found;
}

// What there is while a call is open.
static std::string open() {
    Recorder recorder(2, 1, 2);
    if (!recorder.log(0).begin_update(0, 7)) return "";
    view(recorder.log(1), {7});
    return so_far(recorder);
}

static std::string worked() {
    Recorder recorder(2, 2, 6);
    Log &writer = recorder.log(0), &viewer = recorder.log(1);
    expect("the first update has number 1", writer.begin_update(0, 7) == 1);
    view(viewer, {7, 0});
    writer.end_update();
    expect("the second update has number 2", writer.begin_update(0, 8) == 2);
    writer.end_update();
    if (viewer.begin_view()) viewer.end_view({{0, 2, 8}, {1, 0, 0}});
    if (viewer.begin_view()) viewer.drop_view();
    view(viewer, {99, 0}); // nobody wrote 99
    expect("the views of the worked run", has_views(recorder, 3, 1));
    expect("what there is so far is all that there is", so_far(recorder) == recorder.text());
    return recorder.text();
}

// An update had no effect and is made again, of another it is not known, and a spare log goes on.
static std::string failed_calls() {
    Recorder recorder(3, 2, 6);
    recorder.initials = {5, 6};
    Log &writer = recorder.log(0), &viewer = recorder.log(1), &spare = recorder.log(2);
    expect("an update begins", writer.begin_update(0, 7) == 1);
    writer.drop_update();
    expect("a dropped update's number is used again", writer.begin_update(0, 7) == 1);
    view(viewer, {5, 6});
    writer.end_update();
    view(viewer, {7, 6});
    expect("an update that stays pending", writer.begin_update(1, 8) == 1);
    view(viewer, {7, 8});
    view(spare, {7, 8});
    expect("the views beside an update that stays pending", has_views(recorder, 4, 3));
    expect("what there is so far is all that there is", so_far(recorder) == recorder.text());
    return recorder.text();
}

// A view shows what a dropped update wrote.
static std::string dirty() {
    Recorder recorder(2, 1, 2);
    if (!recorder.log(0).begin_update(0, 9)) return "";
    view(recorder.log(1), {9});
    recorder.log(0).drop_update();
    return recorder.text();
}

// The values of the last view of one history are the first ones of the next, which may write older ones again.
static std::string goes_on() {
    Recorder recorder(1, 2, 4);
    recorder.initials = {7, 0};
    view(recorder.log(0), {7, 0});
    update(recorder.log(0), 0, 0);
    view(recorder.log(0), {0, 0});
    return recorder.text();
}

// How many pages this process was given so far, without a read from a disk.
static long pages() {
    rusage usage{};
    return getrusage(RUSAGE_SELF, &usage) ? 0 : usage.ru_minflt;
}

// The logs take some 3,000 pages, and all of them are there before.
static bool makes_no_pages() {
    Recorder recorder(1, 64, 16000);
    const std::vector<std::uint32_t> values(64);
    const long before = pages();
    for (int i = 0; i < 16000; i++) view(recorder.log(0), values);
    return pages() - before < 300 && has_views(recorder, 16000, 0);
}

static bool has_log(Recorder &recorder, std::uint32_t thread) {
    try {
        recorder.log(thread);
        return true;
    } catch (const std::out_of_range &) {
        return false;
    }
}

int main(int count, char **words) {
    if (count < 3) return 2;
    std::ofstream(words[1]) << worked();
    std::ofstream(words[2]) << failed_calls();
    expect("what there is so far", open() == "at,event,process,op,data\n0,begin,0,update,0:1:7\n1,begin,1,view,\n2,end,1,view,0:1:7\n");
    expect("a dropped update that was seen", dirty() == "at,event,process,op,data\n1,begin,1,view,\n2,end,1,view,0:1:9\n");

    expect("a history that goes on", goes_on() == "at,event,process,op,data\n0,begin,0,view,\n1,end,0,view,\n2,begin,0,update,0:1:0\n"
                                                  "3,end,0,update,\n4,begin,0,view,\n5,end,0,view,0:1:0\n");

    expect("no page is made while calls are recorded", makes_no_pages());
    expect("limits of threads", limits(0, 1, 1) == Fault::limits && limits(65537, 1, 1) == Fault::limits);
    expect("limits of components", limits(1, 257, 1) == Fault::limits);
    expect("limits of calls", limits(2, 1, snaprecord::event_limit / 4 + 1) == Fault::limits && limits(1, 1, 0) == Fault::limits);
    expect("within limits", limits(2, 256, 100) == Fault::none && limits(16, 1, snaprecord::event_limit / 32) == Fault::none);
    {
        Recorder r(2, 1, 2);
        for (std::uint32_t value = 1; value <= 2; value++) update(r.log(0), 0, value);
        expect("a full log refuses", r.log(0).begin_update(0, 3) == 0);
        expect("a full log stops all threads", !r.log(1).begin_view());
        expect("a full log is a history", fault_of(r) == Fault::none);
        r.log(0).end_update();
        expect("a call after a full log", fault_of(r) == Fault::after_full);
    }
    {
        Recorder r(2, 1, 4);
        expect("begun", r.log(0).begin_update(0, 1) == 1);
        expect("a nested call is refused", !r.log(0).begin_view());
        expect("a misuse stops all threads", !r.log(1).begin_view());
        expect("a nested call", fault_of(r) == Fault::nested);
    }
    {
        Recorder r(1, 1, 4);
        r.log(0).end_update();
        expect("an end without a begin", fault_of(r) == Fault::not_open);
    }
    {
        Recorder r(1, 1, 4);
        if (r.log(0).begin_view()) r.log(0).end_update();
        expect("an end of another kind", fault_of(r) == Fault::not_open);
    }
    {
        Recorder r(2, 1, 1);
        expect("a log that there is not", has_log(r, 1) && !has_log(r, 2));
    }
    {
        Recorder r(1, 1, 4);
        r.log(0).end_view_values({0});
        expect("an end of a view without a begin", fault_of(r) == Fault::not_open);
    }
    {
        Recorder r(1, 1, 4);
        r.log(0).end_view({{0, 0, 0}});
        expect("the same of one with numbers", fault_of(r) == Fault::not_open);
    }
    {
        Recorder r(1, 1, 4);
        r.log(0).drop_view();
        expect("a view dropped without a begin", fault_of(r) == Fault::not_open);
    }
    {
        Recorder r(1, 1, 4);
        if (r.log(0).begin_update(0, 1)) r.log(0).drop_view();
        expect("an update dropped as a view", fault_of(r) == Fault::not_open);
    }
    {
        Recorder r(1, 1, 4);
        r.log(0).drop_update();
        expect("an update dropped without a begin", fault_of(r) == Fault::not_open);
    }
    {
        Recorder r(1, 1, 4);
        if (r.log(0).begin_view()) r.log(0).drop_update();
        expect("a view dropped as an update", fault_of(r) == Fault::not_open);
    }
    {
        Recorder r(1, 1, 1);
        for (int i = 0; i < 100; i++) {
            expect("a dropped update leaves its room", r.log(0).begin_update(0, 1) == 1);
            r.log(0).drop_update();
        }
    }
    {
        Recorder r(1, 2, 4);
        expect("a component that is too high is refused", r.log(0).begin_update(2, 1) == 0);
        expect("a component that is too high", fault_of(r) == Fault::component);
    }
    {
        Recorder r(1, 2, 4);
        if (r.log(0).begin_view()) r.log(0).end_view({{1, 1, 1}, {0, 1, 1}});
        expect("components that do not rise", fault_of(r) == Fault::component);
    }
    {
        Recorder r(1, 2, 4);
        if (r.log(0).begin_view()) r.log(0).end_view({{2, 1, 1}});
        expect("an entry that is too high", fault_of(r) == Fault::component);
    }
    {
        Recorder r(1, 2, 4);
        view(r.log(0), {0, 0, 0});
        expect("more values than components", fault_of(r) == Fault::component);
    }
    {
        Recorder r(1, 2, 4);
        view(r.log(0), {0});
        expect("fewer values than components", fault_of(r) == Fault::part);
    }
    {
        Recorder r(1, 2, 4);
        r.initials = {4};
        expect("fewer initial values than components", fault_of(r) == Fault::initials);
        r.initials = {4, 5, 6};
        expect("more initial values than components", fault_of(r) == Fault::initials);
    }
    for (std::uint32_t component = 0; component < 2; component++) {
        Recorder r(1, 2, 4);
        r.initials = {4, 5};
        update(r.log(0), component, 5);
        view(r.log(0), {5, 5});
        expect("the initial value of a component", fault_of(r) == (component ? Fault::same_value : Fault::none));
    }
    {
        Recorder r(2, 2, 4);
        update(r.log(0), 1, 5);
        update(r.log(1), 1, 6);
        expect("two writers", fault_of(r) == Fault::two_writers);
    }
    {
        Recorder r(1, 2, 4);
        update(r.log(0), 1, 5);
        update(r.log(0), 1, 5);
        expect("one value twice, and no view", fault_of(r) == Fault::none);
        view(r.log(0), {0, 5});
        expect("one value twice", fault_of(r) == Fault::same_value);
    }
    {
        Recorder r(1, 1, 4);
        r.initial = 5;
        update(r.log(0), 0, 5);
        view(r.log(0), {5});
        expect("the initial value", fault_of(r) == Fault::same_value);
    }
    std::cout << passed << " passed, " << failed << " failed\n";
    return failed != 0;
}
