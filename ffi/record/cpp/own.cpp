// Tests two boards: `naive` collects once, which is not atomic; `double` collects until two collects are equal, which is.
//
//     c++ -std=c++17 -O2 -Wall -o own own.cpp -pthread
//     ./own naive --runs 20
//
// SPDX-License-Identifier: 0BSD
#include "snapdrive.hpp"

struct Naive {
    std::vector<std::atomic<std::uint32_t>> words;

    explicit Naive(std::uint32_t components) : words(components) {}
    void update(std::uint32_t, std::uint32_t component, std::uint32_t value) { words[component] = value; }
    std::vector<std::uint32_t> view(std::uint32_t) {
        std::vector<std::uint32_t> values;
        for (const auto &word : words) {
            values.push_back(word);
            snapdrive::pause();
        }
        return values;
    }
};

struct Double : Naive {
    using Naive::Naive;
    std::vector<std::uint32_t> view(std::uint32_t thread) {
        std::vector<std::uint32_t> values, again = Naive::view(thread);
        while (values != again) {
            values = again;
            again = Naive::view(thread);
        }
        return values;
    }
};

int main(int count, char **words) {
    return snapdrive::main(count, words, {snapdrive::object<Naive>("naive"), snapdrive::object<Double>("double")});
}
