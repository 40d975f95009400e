// Objects that test the answers of a driver: usage as that of own. `stale` shows nothing but the initial values, `gives-up` never has a
// view, and a view of `hangs` does not end. A view of `short` lacks a component, an update of `dies` throws, and one of `odd` throws a
// number. `unmade` can't be made. `second` is stale from its second run on, and gives up before. `slow` pauses around what it does, and
// is right with one component. `fails` is stale; of its updates the first had no effect, and of the third it is not known. `retries` is
// slow, and right with one component: of five updates one has no effect, one is tried again, and the 13th comes late. `crashes` is
// slow, and right with one component; its 30th update writes outside of its memory, and has its effect before. A view of `overflows`
// calls itself until the stack is full.
#include "snapdrive.hpp"

struct Stale {
    std::uint32_t components;
    explicit Stale(std::uint32_t count) : components(count) {}
    void update(std::uint32_t, std::uint32_t, std::uint32_t) {}
    std::vector<std::uint32_t> view(std::uint32_t) { return std::vector<std::uint32_t>(components); }
};

struct GivesUp : Stale {
    using Stale::Stale;
    std::optional<std::vector<std::uint32_t>> view(std::uint32_t) { return {}; }
};

struct Hangs : Stale {
    using Stale::Stale;
    std::vector<std::uint32_t> view(std::uint32_t) {
        for (;;) std::this_thread::sleep_for(std::chrono::seconds(1));
    }
};

struct Short : Stale {
    using Stale::Stale;
    std::vector<std::uint32_t> view(std::uint32_t) { return std::vector<std::uint32_t>(components - 1); }
};

struct Dies : Stale {
    using Stale::Stale;
    void update(std::uint32_t, std::uint32_t, std::uint32_t) { throw std::runtime_error("no connection"); }
};

struct Unmade : Stale {
    explicit Unmade(std::uint32_t count) : Stale(count) { throw std::runtime_error("no connection"); }
};

struct Odd : Stale {
    using Stale::Stale;
    void update(std::uint32_t, std::uint32_t, std::uint32_t) { throw 7; }
};

struct Second : Stale {
    static inline int begun = 0;
    explicit Second(std::uint32_t count) : Stale(count) { begun++; }
    std::optional<std::vector<std::uint32_t>> view(std::uint32_t thread) {
        if (begun == 1) return {};
        return Stale::view(thread);
    }
};

struct Slow {
    std::atomic<std::uint32_t> word{0};
    explicit Slow(std::uint32_t) {}
    void update(std::uint32_t, std::uint32_t, std::uint32_t value) {
        snapdrive::pause();
        word = value;
        snapdrive::pause();
    }
    std::vector<std::uint32_t> view(std::uint32_t) {
        snapdrive::pause();
        const std::uint32_t value = word;
        snapdrive::pause();
        return {value};
    }
};

struct Fails : Stale {
    using Stale::Stale;
    std::atomic<std::uint32_t> updates{0};
    void update(std::uint32_t, std::uint32_t, std::uint32_t) {
        const std::uint32_t number = ++updates;
        if (number == 1) throw snapdrive::NoEffect();
        if (number == 3) throw snapdrive::Unknown();
    }
};

struct Retries : Slow {
    using Slow::Slow;
    std::atomic<std::uint32_t> updates{0}, late{0};

    // Whether a try has an effect. The first one of each fifth update has none.
    bool is_done(std::uint32_t number, std::uint32_t tries, std::uint32_t value) {
        if (number % 5 == 2 && tries == 0) return false;
        Slow::update(0, 0, value);
        return true;
    }

    void update(std::uint32_t, std::uint32_t, std::uint32_t value) {
        const std::uint32_t number = ++updates;
        if (number % 5 == 1) throw snapdrive::NoEffect();
        if (number == 13) {
            late = value;
            throw snapdrive::Unknown();
        }
        for (std::uint32_t tries = 0; !is_done(number, tries, value);) tries++;
    }

    // What comes late comes at the end of a view.
    std::vector<std::uint32_t> view(std::uint32_t thread) {
        const auto values = Slow::view(thread);
        const std::uint32_t value = late.exchange(0);
        if (value) word = value;
        return values;
    }
};

struct Crashes : Slow {
    using Slow::Slow;
    std::atomic<std::uint32_t> updates{0};
    void update(std::uint32_t thread, std::uint32_t component, std::uint32_t value) {
        Slow::update(thread, component, value);
        if (++updates == 30) *static_cast<volatile std::uint32_t *>(nullptr) = value;
    }
};

struct Overflows : Stale {
    using Stale::Stale;
    std::vector<std::uint32_t> view(std::uint32_t depth) {
        volatile char room[4096] = {static_cast<char>(depth)};
        return depth < UINT32_MAX && room[0] != 1 ? view(depth + 2) : Stale::view(depth);
    }
};

int main(int count, char **words) {
    return snapdrive::main(count, words,
                           {snapdrive::object<Stale>("stale"), snapdrive::object<GivesUp>("gives-up"), snapdrive::object<Hangs>("hangs"),
                            snapdrive::object<Short>("short"), snapdrive::object<Dies>("dies"), snapdrive::object<Second>("second"),
                            snapdrive::object<Slow>("slow"), snapdrive::object<Fails>("fails"),
                            snapdrive::object<Retries>("retries"), snapdrive::object<Unmade>("unmade"), snapdrive::object<Odd>("odd"),
                            snapdrive::object<Crashes>("crashes"), snapdrive::object<Overflows>("overflows")});
}
