// Prints the nanoseconds that recording one call, its begin and its end, takes with this many threads: the quartiles of some
// rounds. usage: cost THREADS
#include "../../ffi/record/cpp/snaprecord.hpp"
#include <chrono>
#include <cmath>
#include <iostream>
#include <numeric>
#include <thread>

constexpr int rounds = 21;

static void work(snaprecord::Log &log, std::uint32_t own, std::uint32_t calls, std::atomic<std::uint32_t> &waiting, double &took) {
    waiting--;
    while (waiting > 0) std::this_thread::yield();
    const auto begun = std::chrono::steady_clock::now();
    for (std::uint32_t i = 1; i <= calls && log.begin_update(own, i); i++) log.end_update();
    took = std::chrono::duration<double, std::nano>(std::chrono::steady_clock::now() - begun).count() / calls;
}

int main(int count, char **words) {
    const auto threads = static_cast<std::uint32_t>(count > 1 ? std::stoi(words[1]) : 1);
    const std::uint32_t calls = 32768 / threads;
    std::vector<double> found;
    for (int round = 0; round < rounds; round++) {
        snaprecord::Recorder recorder(threads, threads, calls);
        std::atomic<std::uint32_t> waiting{threads};
        std::vector<double> took(threads);
        std::vector<std::thread> all;
        for (std::uint32_t t = 0; t < threads; t++)
            all.emplace_back(work, std::ref(recorder.log(t)), t, calls, std::ref(waiting), std::ref(took[t]));
        for (std::thread &thread : all) thread.join();
        found.push_back(std::accumulate(took.begin(), took.end(), 0.0) / threads);
    }
    std::sort(found.begin(), found.end());
    std::cout << std::lround(found[rounds / 4]) << " to " << std::lround(found[rounds * 3 / 4]) << std::endl;
}
