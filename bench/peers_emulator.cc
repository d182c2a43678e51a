// The work of bench/peers over an emulator of the chip that asks of each core what rccerun asks, with no proof: one table of
// words that all threads share, sequentially consistent; at each core a cache of at most 512 lines in the order of filling, which an
// evictor may shorten at each fill, and a write-combining buffer of one line. Ranks take the same turns as in rccerun: a statement
// of their own, a line, a flag or a look at a time. In threads a rank's row ends with a thousand vain turns; with a seed one thread
// takes them in the order of a generator. Behind each round comes one turn of each rank, and a round in which none moves ends the run.
//   peers_emulator halo|small|large|ring REPEATS [SEED]
#include <atomic>
#include <cstdint>
#include <cstdio>
#include <cstdlib>
#include <cstring>
#include <memory>
#include <string>
#include <thread>
#include <vector>

constexpr int kCores = 48, kLines = 256, kWords = 4, kHeld = 512, kChunk = 3584, kChunkLine = 113;
constexpr int kSent = 1, kReady = 49, kGather = 97, kRelease = 105, kVain = 1000, kPatience = 16;

static std::atomic<uint64_t> words[kCores * kLines * kWords];

// Which cached line leaves at a fill: none, or one that a generator names.
struct Evictor {
    bool evicts = false;
    uint64_t state = 1;
    int drop(int held) {
        if (!evicts) return -1;
        state = state * 6364136223846793005u + 1442695040888963407u;
        return (state >> 33) % 8 == 0 ? int((state >> 40) % held) : -1;
    }
};

// A core: its cache, its write-combining buffer and its evictor. A line is named by core * 256 + line.
class Core {
    struct Line { int name; uint64_t words[kWords]; };
    struct Seen { uint32_t pass = 0; int at = 0; };
    Line lines[kHeld];
    Seen seen[kCores * kLines];
    int held = 0;
    uint32_t pass = 1;
    int out = -1;
    unsigned mask = 0;
    uint64_t buffer[kWords];
    Evictor evictor;

    Line* find(int name) { return seen[name].pass == pass ? &lines[seen[name].at] : nullptr; }
    void leave(int at) {
        seen[lines[at].name].pass = 0;
        std::memmove(&lines[at], &lines[at + 1], sizeof(Line) * (held - at - 1));
        held--;
        for (int i = at; i < held; i++) seen[lines[i].name].at = i;
    }

  public:
    void invalidate() { held = 0; pass++; }
    void flush() {
        if (out < 0) return;
        for (int w = kWords - 1; w >= 0; w--)
            if (mask >> w & 1) words[out * kWords + w].store(buffer[w]);
        out = -1, mask = 0;
    }
    void write(int name, int word, uint64_t value) {
        if (Line* line = find(name)) line->words[word] = value;
        if (out != name) flush(), out = name;
        buffer[word] = value, mask |= 1u << word;
    }
    void write_line(int name, const uint64_t* from) {
        if (Line* line = find(name)) std::memcpy(line->words, from, sizeof line->words);
        if (out != name) flush(), out = name;
        std::memcpy(buffer, from, sizeof buffer), mask = 15;
    }
    void read_line(int name, uint64_t* to) {
        if (Line* line = find(name)) { std::memcpy(to, line->words, sizeof line->words); return; }
        for (int w = 0; w < kWords; w++) to[w] = words[name * kWords + w].load();
        if (held == kHeld) leave(0);
        lines[held].name = name;
        std::memcpy(lines[held].words, to, sizeof lines[held].words);
        seen[name] = {pass, held++};
        int dropped = evictor.drop(held);
        if (dropped >= 0) leave(dropped);
    }
    void set(int at, int line, uint64_t value) { write(at * kLines + line, 0, value); flush(); }
    uint64_t look(int at, int line) {
        uint64_t now[kWords];
        invalidate();
        read_line(at * kLines + line, now);
        return now[0];
    }
};

enum class Kind { Own, Send, Recv, Bar };
struct Op { Kind kind; int peer; unsigned char* bytes; uint64_t len; };
enum class Turn { Moved, Waiting, Done };
enum class Stage { Header, Lines, Raise, Look, Lower, Flip, Gather, Release, Await };

// A rank with its program, which repeats its operations.
class Rank {
    int me, first, size, repeats;
    std::vector<Op> ops;
    Core core;
    size_t at = 0;
    Stage stage;
    uint64_t done = 0, parity = 0;
    int line = 0, member = 0;
    bool begun = false;

    Turn next() { begun = false; if (++at == ops.size()) at = 0, repeats--; return Turn::Moved; }
    Turn to(Stage then) { stage = then; return Turn::Moved; }
    int lines_left(const Op& op) { uint64_t part = op.len - done < kChunk ? op.len - done : kChunk; return int((part + 31) / 32); }
    bool is_last(const Op& op) { return op.len - done <= kChunk; }

    Turn send(const Op& op) {
        if (!begun) begun = true, done = 0, stage = Stage::Header;
        uint64_t part[kWords] = {0, 0, op.len, 0};
        switch (stage) {
        case Stage::Header:
            core.write_line(me * kLines, part);
            line = 0;
            return to(lines_left(op) ? Stage::Lines : Stage::Raise);
        case Stage::Lines: {
            uint64_t from = done + 32 * uint64_t(line), left = op.len - from;
            if (left >= 32) std::memcpy(part, op.bytes + from, 32); else { part[2] = 0; std::memcpy(part, op.bytes + from, left); }
            core.write_line(me * kLines + kChunkLine + line, part);
            return ++line < lines_left(op) ? Turn::Moved : to(Stage::Raise);
        }
        case Stage::Raise:
            core.set(op.peer, kSent + me, 1);
            return to(Stage::Look);
        case Stage::Look:
            return core.look(me, kReady + op.peer) == 1 ? to(Stage::Lower) : Turn::Waiting;
        default:
            core.set(me, kReady + op.peer, 0);
            if (is_last(op)) return next();
            done += kChunk, line = 0;
            return to(Stage::Lines);
        }
    }
    Turn receive(const Op& op) {
        if (!begun) begun = true, done = 0, stage = Stage::Look;
        uint64_t part[kWords];
        switch (stage) {
        case Stage::Look:
            return core.look(me, kSent + op.peer) == 1 ? to(done == 0 ? Stage::Header : Stage::Lower) : Turn::Waiting;
        case Stage::Header:
            core.invalidate();
            core.read_line(op.peer * kLines, part);
            if (part[2] != op.len) std::abort();
            return to(Stage::Lower);
        case Stage::Lower:
            core.set(me, kSent + op.peer, 0);
            line = 0;
            return to(lines_left(op) ? Stage::Lines : Stage::Raise);
        case Stage::Lines: {
            if (line == 0) core.invalidate();
            core.read_line(op.peer * kLines + kChunkLine + line, part);
            uint64_t from = done + 32 * uint64_t(line), left = op.len - from;
            std::memcpy(op.bytes + from, part, left < 32 ? left : 32);
            return ++line < lines_left(op) ? Turn::Moved : to(Stage::Raise);
        }
        default:
            core.set(op.peer, kReady + me, 1);
            if (is_last(op)) return next();
            done += kChunk;
            return to(Stage::Look);
        }
    }
    // A barrier of the ranks first to first + size - 1; the first of them is the root.
    Turn meet() {
        if (!begun) begun = true, stage = Stage::Flip;
        switch (stage) {
        case Stage::Flip:
            parity ^= 1, member = first + 1;
            core.set(me, kGather, parity);
            return to(me == first ? Stage::Gather : Stage::Await);
        case Stage::Gather:
            if (core.look(member, kGather) != parity) return Turn::Waiting;
            if (++member == first + size) { member = first + 1; return to(Stage::Release); }
            return Turn::Moved;
        case Stage::Release:
            core.set(member, kRelease, parity);
            return ++member == first + size ? next() : Turn::Moved;
        default:
            return core.look(me, kRelease) == parity ? next() : Turn::Waiting;
        }
    }

  public:
    Rank(int me, int first, int size, int repeats, std::vector<Op> ops) : me(me), first(first), size(size), repeats(repeats), ops(std::move(ops)) {}
    Turn turn() {
        if (repeats == 0) return Turn::Done;
        const Op& op = ops[at];
        switch (op.kind) {
        case Kind::Own: return next();
        case Kind::Send: return send(op);
        case Kind::Recv: return receive(op);
        default: return meet();
        }
    }
    void row() {
        for (int vain = 0; vain < kVain;) {
            Turn came = turn();
            vain = came == Turn::Moved ? 0 : came == Turn::Done ? kVain : vain + 1;
            if (vain >= kPatience) std::this_thread::yield();
        }
    }
};

static std::vector<std::unique_ptr<Rank>> team(const std::string& work, int nue, int repeats) {
    std::vector<std::unique_ptr<Rank>> ranks;
    for (int me = 0; me < nue; me++) {
        uint64_t len = work == "halo" ? 256 : work == "small" ? 8 : 65536;
        auto bytes = [](uint64_t n) { auto b = new unsigned char[n]; std::memset(b, 1, n); return b; };
        std::vector<Op> ops;
        Op out{Kind::Send, (me + 1) % nue, bytes(len), len}, in{Kind::Recv, (me + nue - 1) % nue, bytes(len), len};
        if (nue == 2) ops.push_back(me == 0 ? out : in);
        else if (me % 2 == 0) ops.push_back(out), ops.push_back(in);
        else ops.push_back(in), ops.push_back(out);
        if (work == "halo") {
            // the allreduce: up to rank 0, and down again
            for (int pass = 0; pass < 2; pass++)
                for (int r = 1; r < nue; r++)
                    if (me == 0) ops.push_back({pass == 0 ? Kind::Recv : Kind::Send, r, bytes(8), 8});
                    else if (me == r) ops.push_back({pass == 0 ? Kind::Send : Kind::Recv, 0, bytes(8), 8});
            ops.push_back({Kind::Bar, 0, nullptr, 0});
        }
        ops.push_back({Kind::Own, 0, nullptr, 0});
        ranks.push_back(std::make_unique<Rank>(me, me / 8 * 8, 8, repeats, std::move(ops)));
    }
    return ranks;
}

static uint32_t pick(uint64_t& state) {
    uint64_t old = state;
    state = old * 6364136223846793005u + 1442695040888963407u;
    uint32_t shifted = uint32_t(((old >> 18) ^ old) >> 27), turn = old >> 59;
    return shifted >> turn | shifted << (-turn & 31);
}

int main(int count, char** args) {
    if (count < 3) { std::fputs("usage: peers_emulator halo|small|large|ring REPEATS [SEED]\n", stderr); return 2; }
    std::string work = args[1];
    int nue = work == "halo" ? kCores : work == "ring" ? 8 : 2;
    auto ranks = team(work, nue, std::atoi(args[2]));
    uint64_t state = count > 3 ? std::strtoull(args[3], nullptr, 10) : 0;
    for (bool moved = true; moved;) {
        if (count > 3) {
            for (int i = 0; i < kVain * nue; i++) ranks[pick(state) % nue]->turn();
        } else {
            std::vector<std::thread> threads;
            for (int me = 1; me < nue; me++) threads.emplace_back([&, me] { ranks[me]->row(); });
            ranks[0]->row();
            for (auto& thread : threads) thread.join();
        }
        moved = false;
        for (auto& rank : ranks) moved |= rank->turn() == Turn::Moved;
    }
    for (auto& rank : ranks)
        if (rank->turn() != Turn::Done) { std::fputs("peers_emulator: a rank has not finished\n", stderr); return 3; }
}
