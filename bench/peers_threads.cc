// The work of bench/peers over threads and shared memory: each UE is a thread, each core's buffer is plain memory that all
// threads see, and flags are atomic words. The steps of a message, of a barrier and of an allreduce are those of RCCE, without
// cached lines, a write-combining buffer or records.
//   peers_threads halo|small|large|ring REPEATS
#include <atomic>
#include <cstdint>
#include <cstdio>
#include <cstdlib>
#include <cstring>
#include <string>
#include <thread>
#include <vector>

constexpr int kCores = 48, kChunk = 3584;

struct alignas(64) Flag {
    std::atomic<uint64_t> word{0};
    void set(uint64_t value) { word.store(value); }
    void wait(uint64_t value) {
        for (int looks = 0; word.load() != value; looks++)
            if (looks >= 16) std::this_thread::yield();
    }
};

struct Core {
    uint64_t length;
    unsigned char chunk[kChunk];
    Flag sent[kCores], ready[kCores];
    Flag gather, release;
};

static Core cores[kCores];

static void send(int me, int to, const unsigned char* bytes, uint64_t len) {
    uint64_t done = 0;
    do {
        uint64_t part = len - done < kChunk ? len - done : kChunk;
        cores[me].length = len;
        std::memcpy(cores[me].chunk, bytes + done, part);
        cores[to].sent[me].set(1);
        cores[me].ready[to].wait(1);
        cores[me].ready[to].set(0);
        done += part;
    } while (done < len);
}

static void recv(int me, int from, unsigned char* bytes, uint64_t len) {
    uint64_t done = 0;
    do {
        cores[me].sent[from].wait(1);
        if (cores[from].length != len) std::abort();
        uint64_t part = len - done < kChunk ? len - done : kChunk;
        cores[me].sent[from].set(0);
        std::memcpy(bytes + done, cores[from].chunk, part);
        cores[from].ready[me].set(1);
        done += part;
    } while (done < len);
}

// A barrier of the ranks first to first + size - 1; the first of them is the root.
static void barrier(int me, int first, int size, uint64_t& parity) {
    parity ^= 1;
    cores[me].gather.set(parity);
    if (me == first) {
        for (int r = first + 1; r < first + size; r++) cores[r].gather.wait(parity);
        for (int r = first + 1; r < first + size; r++) cores[r].release.set(parity);
    } else {
        cores[me].release.wait(parity);
    }
}

// The sum of one 64-bit value of each rank, at each rank: up to rank 0, and down again.
static int64_t allreduce(int me, int nue, int64_t mine) {
    int64_t total = mine, more;
    auto bytes = [](int64_t& v) { return reinterpret_cast<unsigned char*>(&v); };
    if (me == 0) {
        for (int r = 1; r < nue; r++) { recv(0, r, bytes(more), 8); total += more; }
        for (int r = 1; r < nue; r++) send(0, r, bytes(total), 8);
    } else {
        send(me, 0, bytes(mine), 8);
        recv(me, 0, bytes(total), 8);
    }
    return total;
}

static void halo(int me, int repeats) {
    std::vector<unsigned char> edge(256, 17), left(256);
    uint64_t parity = 0;
    int right = (me + 1) % kCores, behind = (me + kCores - 1) % kCores;
    int64_t total = 0;
    for (int i = 0; i < repeats; i++) {
        if (me % 2 == 0) { send(me, right, edge.data(), 256); recv(me, behind, left.data(), 256); }
        else { recv(me, behind, left.data(), 256); send(me, right, edge.data(), 256); }
        total = allreduce(me, kCores, me);
        barrier(me, me / 8 * 8, 8, parity);
    }
    if (repeats > 0 && total != 1128) std::abort();
}

static void pair(int me, int repeats, uint64_t len) {
    std::vector<unsigned char> bytes(len, 1);
    for (int i = 0; i < repeats; i++) {
        if (me == 0) send(0, 1, bytes.data(), len); else recv(1, 0, bytes.data(), len);
    }
}

static void ring(int me, int nue, int repeats, uint64_t len) {
    std::vector<unsigned char> x(len, 1), y(len);
    int right = (me + 1) % nue, behind = (me + nue - 1) % nue;
    for (int i = 0; i < repeats; i++) {
        if (me % 2 == 0) { send(me, right, x.data(), len); recv(me, behind, y.data(), len); }
        else { recv(me, behind, y.data(), len); send(me, right, x.data(), len); }
    }
}

int main(int, char** args) {
    std::string work = args[1];
    int repeats = std::atoi(args[2]);
    int nue = work == "halo" ? kCores : work == "ring" ? 8 : 2;
    std::vector<std::thread> ues;
    for (int me = 0; me < nue; me++)
        ues.emplace_back([=] {
            if (work == "halo") halo(me, repeats);
            else if (work == "small") pair(me, repeats, 8);
            else if (work == "large") pair(me, repeats, 65536);
            else ring(me, 8, repeats, 65536);
        });
    for (auto& ue : ues) ue.join();
}
