// An emulated chip. Each core has a buffer of 256 lines of 32 bytes that all cores reach, and a test-and-set register. It also has what no
// other core sees: a cache that no hardware keeps fresh, and a write-combining buffer of one line. Each access to what is shared is logged
// as it takes effect.
#pragma once
#include <array>
#include <chrono>
#include <condition_variable>
#include <cstdint>
#include <map>
#include <mutex>
#include <random>
#include <thread>
#include <utility>
#include <vector>

constexpr int kCores = 48, kLines = 256, kWords = 4, kMostAccesses = 400000;
// where the buffers and the registers are among the physical addresses: 8 KiB and 8 bytes a core
constexpr uint64_t kBuffers = 0xc0000000, kRegisters = 0xf0000000;

using Line = std::array<uint64_t, kWords>;

struct LineAt {
    int core, line;
    uint64_t address() const { return kBuffers + 8192u * core + 32u * line; }
    bool operator==(const LineAt& other) const { return core == other.core && line == other.line; }
    bool operator<(const LineAt& other) const { return std::pair(core, line) < std::pair(other.core, other.line); }
};

// An access to what is shared: of one word, of words that follow each other, or of a register.
struct Access {
    uint64_t time;
    int core;
    uint64_t address;
    bool is_write;
    std::vector<uint64_t> words;
};

// Ends a rank whose run is stopped.
struct Stopped {};

// Who makes the next access: any thread, or one rank at a time in the order of a seed. With a seed a rank whose poll failed has its next
// turn only after an access that changed something. If all ranks wait so, they hang, and the run is stopped.
class Turns {
    std::mutex& mutex;
    std::condition_variable changed;
    std::vector<bool> is_over, waits;
    std::mt19937_64 order;
    bool in_threads, is_used = false;
    int turn = 0;

    void choose() {
        std::vector<int> ready;
        bool all_over = true;
        for (size_t rank = 0; rank < is_over.size(); rank++) {
            if (!is_over[rank] && !waits[rank]) ready.push_back(rank);
            all_over = all_over && is_over[rank];
        }
        is_used = false;
        if (!ready.empty()) turn = ready[order() % ready.size()];
        else if (!all_over) is_stopped = true;
        changed.notify_all();
    }

public:
    bool is_stopped = false;

    Turns(std::mutex& mutex, int ranks, bool in_threads, uint64_t seed)
        : mutex(mutex), is_over(ranks), waits(ranks), order(seed), in_threads(in_threads) { choose(); }

    // Waits for the turn of a rank. It keeps its turn from one access up to the next, so what it does between is in the seed's order.
    void await(std::unique_lock<std::mutex>& lock, int rank) {
        if (!in_threads && turn == rank && is_used) choose();
        if (!in_threads) changed.wait(lock, [&] { return turn == rank || is_stopped; });
        if (is_stopped) throw Stopped();
    }
    // The access is made.
    void pass(bool has_changed) {
        if (has_changed) waits.assign(waits.size(), false);
        is_used = true;
    }
    // A rank's poll, its last access, has failed. In threads it leaves its processor for a while.
    void fail(int rank) {
        if (in_threads) return std::this_thread::sleep_for(std::chrono::microseconds(50));
        std::unique_lock lock(mutex);
        waits[rank] = true;
    }
    void end(int rank) {
        std::unique_lock lock(mutex);
        is_over[rank] = true;
        if (!in_threads) choose();
    }
};

// What all cores share, and the log of the accesses to it.
class Chip {
    std::mutex mutex;
    std::map<LineAt, Line> lines;
    std::array<bool, kCores> is_taken{};
    uint64_t tick;

    void note(int core, uint64_t address, bool is_write, std::vector<uint64_t> words) {
        log.push_back({log.size() / tick, core, address, is_write, std::move(words)});
        if (log.size() > kMostAccesses) turns.is_stopped = true;
    }

public:
    Turns turns;
    std::vector<Access> log;

    Chip(int ranks, bool in_threads, uint64_t seed, uint64_t tick) : tick(tick), turns(mutex, ranks, in_threads, seed) {}

    // A line is loaded at once.
    Line load(int rank, int core, LineAt at) {
        std::unique_lock lock(mutex);
        turns.await(lock, rank);
        Line found = lines[at];
        note(core, at.address(), false, {found.begin(), found.end()});
        turns.pass(false);
        return found;
    }
    // Words of a line are stored: those that the mask names, each run of them at once.
    void store(int rank, int core, LineAt at, const Line& words, unsigned mask) {
        for (int first = 0, end; first < kWords; first = end) {
            for (end = first; end < kWords && mask >> end & 1; end++) {}
            if (end == first) { end++; continue; }
            std::unique_lock lock(mutex);
            turns.await(lock, rank);
            std::copy(words.begin() + first, words.begin() + end, lines[at].begin() + first);
            note(core, at.address() + 8u * first, true, {words.begin() + first, words.begin() + end});
            turns.pass(true);
        }
    }
    // A load of a register: it is taken, if it was free.
    bool take(int rank, int core, int at) {
        std::unique_lock lock(mutex);
        turns.await(lock, rank);
        bool took = !is_taken[at];
        is_taken[at] = true;
        note(core, kRegisters + 8u * at, false, {took});
        turns.pass(took);
        return took;
    }
    // A store to a register: it is free.
    void free(int rank, int core, int at) {
        std::unique_lock lock(mutex);
        turns.await(lock, rank);
        is_taken[at] = false;
        note(core, kRegisters + 8u * at, true, {0});
        turns.pass(true);
    }
};

// One core, on which a rank runs: its cache and its write-combining buffer.
class Core {
    Chip& chip;
    std::map<LineAt, Line> cached;
    LineAt out{-1, -1};
    Line words{};
    unsigned mask = 0;

public:
    const int rank, number;

    Core(Chip& chip, int rank, int number) : chip(chip), rank(rank), number(number) {}

    uint64_t read(LineAt at, int word) {
        auto found = cached.find(at);
        if (found == cached.end()) found = cached.emplace(at, chip.load(rank, number, at)).first;
        return found->second[word];
    }
    void write(LineAt at, int word, uint64_t value) {
        if (!(out == at)) flush();
        out = at;
        words[word] = value;
        mask |= 1u << word;
        if (auto found = cached.find(at); found != cached.end()) found->second[word] = value;
    }
    // What waits in the write-combining buffer is stored.
    void flush() {
        if (mask) chip.store(rank, number, out, words, mask);
        mask = 0;
        out = {-1, -1};
    }
    // All cached lines are dropped: CL1INVMB.
    void invalidate() { cached.clear(); }
    // One line is dropped, which the chip itself has no instruction for.
    void drop(LineAt at) { cached.erase(at); }
    bool take(int at) { return chip.take(rank, number, at); }
    void free(int at) { chip.free(rank, number, at); }
    void poll_failed() { chip.turns.fail(rank); }
};
