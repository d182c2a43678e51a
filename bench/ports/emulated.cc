// Runs a small program on the emulated chip of chip.h through the port of port.h, or a faulty one of faults.h. It prints the log of the
// accesses to what is shared, for tools/trace_from: TIME CORE ADDRESS SIZE VALUE r|w. All cores have one clock, which counts accesses.
//   g++ -O1 -std=c++17 -pthread -o emulated bench/ports/emulated.cc
//   emulated [--bits] [--seed N | --threads] [--fault NAME] [--ranks N] [--rounds N] [--bytes N] [--tick N] [--by-core]
//   emulated --map [--bits] [--ranks N]     prints the map of addresses
//   emulated --faults                       prints the names of the faults
// Status: 0 all ranks end; 1 the words are refused; 3 some rank hangs.
#include <atomic>
#include <cinttypes>
#include <cstdio>
#include <cstdlib>
#include <cstring>
#include <thread>

#include "faults.h"

struct Words {
    bool bits = false, threads = false, map = false, by_core = false;
    uint64_t seed = 1, tick = 1;
    int ranks = 3, rounds = 2, bytes = 40;
    const Fault* fault = &kFaults[0];
};

[[noreturn]] static void refuse(const char* what) {
    std::fprintf(stderr, "emulated: refused: %s (the first lines of bench/ports/emulated.cc have the words)\n", what);
    std::exit(1);
}

static const Fault* fault_named(const char* name) {
    for (const Fault& fault : kFaults)
        if (!std::strcmp(fault.name, name)) return &fault;
    refuse(name);
}

static long number(const char* text, long least, long most) {
    char* end;
    long found = std::strtol(text, &end, 10);
    if (*end || end == text || found < least || found > most) refuse(text);
    return found;
}

static Words read_words(int count, char** texts) {
    Words words;
    for (int at = 1; at < count; at++) {
        std::string word = texts[at];
        auto next = [&] { return at + 1 < count ? texts[++at] : (refuse(word.c_str()), nullptr); };
        if (word == "--bits") words.bits = true;
        else if (word == "--threads") words.threads = true;
        else if (word == "--map") words.map = true;
        else if (word == "--by-core") words.by_core = true;
        else if (word == "--seed") words.seed = number(next(), 0, 1L << 40);
        else if (word == "--tick") words.tick = number(next(), 1, 1000);
        else if (word == "--ranks") words.ranks = number(next(), 2, 48);
        else if (word == "--rounds") words.rounds = number(next(), 1, 1000);
        else if (word == "--bytes") words.bytes = number(next(), 0, 65536);
        else if (word == "--fault") words.fault = fault_named(next());
        else if (word == "--faults") {
            for (const Fault& fault : kFaults) std::printf("%-20s%s\n", fault.name, fault.about);
            std::exit(0);
        } else refuse(word.c_str());
    }
    return words;
}

static void print_map(const Words& words) {
    std::printf("# the addresses of the emulated chip: a buffer and a test-and-set register a core\n");
    std::printf("layout %s\nhosts ", words.bits ? "bits" : "words");
    for (int rank = 0; rank < words.ranks; rank++) std::printf("%s%d", rank ? "," : "", Port::core_of(rank));
    std::printf("\n");
    for (int rank = 0; rank < words.ranks; rank++) {
        int core = Port::core_of(rank);
        std::printf("mpb %d 0x%" PRIx64 "\ntas %d 0x%" PRIx64 "\n", core, LineAt{core, 0}.address(), core, kRegisters + 8u * core);
    }
}

// The bytes of a message: other ones in each round.
static Bytes message(int from, int round, int bytes) {
    Bytes found(bytes);
    for (int at = 0; at < bytes; at++) found[at] = 17 * from + 5 * round + at + 1;
    return found;
}

// What each rank does: messages around a ring, a line for the next rank's heap, and barriers. Answers whether it got what was sent.
static bool play(Port& port, int rank, const Words& words) {
    int next = (rank + 1) % words.ranks, before = (rank + words.ranks - 1) % words.ranks;
    bool is_right = true;
    for (int round = 0; round < words.rounds; round++) {
        Bytes mine = message(rank, round, words.bytes), wanted = message(before, round, words.bytes);
        if (rank % 2 == 0) port.send(next, mine);
        is_right = port.recv(before, wanted.size()) == wanted && is_right;
        if (rank % 2 == 1) port.send(next, mine);
        port.put(next, 0, {uint64_t(rank), uint64_t(round), 0, 1});
        port.barrier();
        is_right = port.get(rank, 0, 1) == uint64_t(round) && is_right;
        port.barrier();
    }
    port.doing = "its end";
    return is_right;
}

static void print_log(const Chip& chip, const Words& words) {
    auto print = [](const Access& access) {
        std::printf("%" PRIu64 " %d 0x%" PRIx64 " %zu ", access.time, access.core, access.address, 8 * access.words.size());
        for (size_t k = 0; k < access.words.size(); k++) std::printf("%s%" PRIx64, k ? "," : "", access.words[k]);
        std::printf(" %c\n", access.is_write ? 'w' : 'r');
    };
    for (int rank = 0; rank < (words.by_core ? words.ranks : 1); rank++)
        for (const Access& access : chip.log)
            if (!words.by_core || access.core == Port::core_of(rank)) print(access);
}

int main(int count, char** texts) {
    const Words words = read_words(count, texts);
    if (words.map) return print_map(words), 0;
    Chip chip(words.ranks, words.threads, words.seed, words.tick);
    std::vector<Made> ports;
    for (int rank = 0; rank < words.ranks; rank++) ports.push_back(words.fault->maker(chip, rank, words.ranks, words.bits));
    std::vector<std::thread> threads;
    std::vector<std::string> ends(words.ranks);
    std::atomic<bool> hangs{false};
    for (int rank = 0; rank < words.ranks; rank++)
        threads.emplace_back([&, rank] {
            try {
                ends[rank] = play(*ports[rank], rank, words) ? "ends" : "ends with other data than was sent";
            } catch (Stopped&) {
                hangs = true;
                ends[rank] = "hangs in " + ports[rank]->doing;
            }
            chip.turns.end(rank);
        });
    for (std::thread& thread : threads) thread.join();
    print_log(chip, words);
    for (int rank = 0; rank < words.ranks; rank++) std::fprintf(stderr, "rank %d %s\n", rank, ends[rank].c_str());
    return hangs ? 3 : 0;
}
