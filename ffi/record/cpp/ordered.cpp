// Whether calls are ordered as the recorder says: an end with an earlier stamp than a begin happened before it. Two threads write and
// read a plain word in calls that follow each other. They wait for each other by a relaxed flag, which orders nothing. So
// ThreadSanitizer reports a race exactly when the clock of the recorder does not order them.
//
// SPDX-License-Identifier: 0BSD
#include "snaprecord.hpp"
#include <iostream>
#include <thread>

constexpr std::uint32_t rounds = 20;

static std::uint32_t word;
static std::atomic<std::uint32_t> turn{0};

static void await(std::uint32_t wanted) {
    while (turn.load(std::memory_order_relaxed) != wanted) std::this_thread::yield();
}

static void write_word(snaprecord::Log &log) {
    for (std::uint32_t i = 0; i < rounds; i++) {
        await(2 * i);
        if (!log.begin_update(0, i + 1)) break;
        word = i + 1;
        log.end_update();
        turn.store(2 * i + 1, std::memory_order_relaxed);
    }
}

static void read_word(snaprecord::Log &log) {
    for (std::uint32_t i = 0; i < rounds; i++) {
        await(2 * i + 1);
        if (!log.begin_view()) break;
        const std::uint32_t value = word;
        log.end_view_values(&value, 1);
        turn.store(2 * i + 2, std::memory_order_relaxed);
    }
}

int main() {
    snaprecord::Recorder recorder(2, 1, rounds);
    std::thread writer(write_word, std::ref(recorder.log(0))), reader(read_word, std::ref(recorder.log(1)));
    writer.join();
    reader.join();
    std::cout << recorder.text();
}
