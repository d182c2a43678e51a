// A port: a small RCCE over the cores of chip.h, with the handshake of docs/PROTOCOL.md and both layouts of flags. Its steps are virtual, so
// faults.h has ports with one step wrong.
#pragma once
#include <algorithm>
#include <string>
#include <vector>

#include "chip.h"

using Bytes = std::vector<uint8_t>;
enum Signal { kSent, kReady };

constexpr int kHeaderLine = 0, kFirstHeap = 225, kLineBytes = 32;

class Port {
public:
    Port(Chip& chip, int rank, int nue, bool bits) : core(chip, rank, core_of(rank)), me(rank), nue(nue), bits(bits) {}
    virtual ~Port() = default;

    // The core of each rank: other than its number.
    static int core_of(int rank) { return (5 * rank + 2) % kCores; }

    void send(int to, const Bytes& bytes) {
        doing = "send to " + std::to_string(to);
        write_header(0, bytes.size());
        size_t at = 0;
        do {
            int count = std::min<size_t>(bytes.size() - at, chunk_size());
            send_chunk(to, bytes.data() + at, count);
            at += count;
        } while (at < bytes.size());
    }
    Bytes recv(int from, size_t wanted) {
        doing = "recv from " + std::to_string(from);
        Bytes found;
        do {
            recv_chunk(from, found, wanted);
        } while (found.size() < wanted);
        return found;
    }
    void barrier() {
        doing = "barrier";
        parity = 1 - parity;
        flip_gather();
        if (me == 0) lead();
        else await_release();
    }
    // One-sided: a line of the heap, at the core of any rank.
    void put(int at, int line, const Line& words) {
        doing = "put";
        for (int word = 0; word < kWords; word++) core.write({core_of(at), kFirstHeap + line}, word, words[word]);
        end_put();
    }
    uint64_t get(int at, int line, int word) {
        doing = "get";
        begin_get();
        return core.read({core_of(at), kFirstHeap + line}, word);
    }

    std::string doing = "start";

protected:
    Core core;
    const int me, nue;
    const bool bits;
    uint64_t parity = 0;

    int chunk_line() const { return bits ? 18 : 113; }
    int chunk_size() const { return kLineBytes * (kFirstHeap - chunk_line()); }
    LineAt own(int line) const { return {core.number, line}; }

    // The line of a flag that rank `by` raises, at the core of rank `at`. With bits all flags of a core are in one line, a word a signal.
    LineAt flag_line(Signal signal, int by, int at) const { return {core_of(at), bits ? 1 : (signal == kSent ? 1 : 49) + by}; }
    int flag_word(Signal signal) const { return bits ? signal : 0; }
    virtual int gather_line() const { return bits ? 2 : 97; }
    int release_line() const { return bits ? 10 : 105; }

    // The sender's side.
    virtual void write_header(uint64_t kind, uint64_t length) {
        const Line words{kind, 0, length, 0};
        for (int word = 0; word < kWords; word++) core.write(own(kHeaderLine), word, words[word]);
    }
    void write_lines(const uint8_t* bytes, int count, int lines, uint8_t pad) {
        for (int at = 0; at < kLineBytes * lines; at += 8) {
            uint64_t value = 0;
            for (int k = 0; k < 8; k++) value |= uint64_t(at + k < count ? bytes[at + k] : pad) << 8 * k;
            core.write(own(chunk_line() + at / kLineBytes), at / 8 % kWords, value);
        }
    }
    virtual void write_chunk(const uint8_t* bytes, int count) { write_lines(bytes, count, (count + kLineBytes - 1) / kLineBytes, 0); }
    virtual void send_chunk(int to, const uint8_t* bytes, int count) {
        write_chunk(bytes, count);
        raise(kSent, to);
        await_ready(to);
        lower_ready(to);
    }
    virtual void await_ready(int to) { await(kReady, to); }
    virtual void lower_ready(int to) { lower(kReady, to); }

    // The receiver's side.
    virtual void begin_header() { core.invalidate(); }
    virtual void begin_read() { core.invalidate(); }
    void read_chunk(int from, Bytes& found, int count) {
        begin_read();
        for (int at = 0; at < count; at++) {
            uint64_t word = core.read({core_of(from), chunk_line() + at / kLineBytes}, at / 8 % kWords);
            found.push_back(word >> 8 * (at % 8));
        }
    }
    // Before the first chunk the header says how long the message is, and another length than the wanted one is taken as it is.
    void begin_chunk(int from, const Bytes& found, size_t& wanted) {
        await(kSent, from);
        if (!found.empty()) return;
        begin_header();
        wanted = core.read({core_of(from), kHeaderLine}, 2);
    }
    int chunk_of(const Bytes& found, size_t wanted) const { return std::min<size_t>(wanted - found.size(), chunk_size()); }
    virtual void recv_chunk(int from, Bytes& found, size_t& wanted) {
        begin_chunk(from, found, wanted);
        lower(kSent, from);
        read_chunk(from, found, chunk_of(found, wanted));
        raise(kReady, from);
    }

    // Flags. A look is a fresh load.
    virtual void before_look(LineAt) { core.invalidate(); }
    bool sees(LineAt at, int word, uint64_t value) {
        before_look(at);
        if (core.read(at, word) == value) return true;
        core.poll_failed();
        return false;
    }
    bool sees_flag(Signal signal, int by) {
        LineAt at = flag_line(signal, by, me);
        before_look(at);
        if (core.read(at, flag_word(signal)) >> (bits ? by : 0) & 1) return true;
        core.poll_failed();
        return false;
    }
    void await(Signal signal, int by) {
        while (!sees_flag(signal, by)) {}
    }
    virtual uint64_t set_value() const { return 1; }
    virtual void raise(Signal signal, int at) {
        if (bits) change_bit(signal, at, me, true);
        else write_flag(flag_line(signal, me, at), 0, set_value());
    }
    virtual void lower(Signal signal, int by) {
        if (bits) change_bit(signal, me, by, false);
        else write_flag(flag_line(signal, by, me), 0, 0);
    }
    virtual void write_flag(LineAt at, int word, uint64_t value) {
        core.write(at, word, value);
        core.flush();
    }

    // A bit of a word that other ranks change too, under the register of its core.
    virtual void acquire(int at) {
        while (!core.take(core_of(at))) core.poll_failed();
    }
    virtual void release(int at) { core.free(core_of(at)); }
    virtual void before_change() { core.invalidate(); }
    virtual uint64_t bit_of(int by) const { return uint64_t(1) << by; }
    virtual void write_bit(LineAt at, int word, int by, bool is_set) {
        uint64_t old = core.read(at, word);
        write_flag(at, word, is_set ? old | bit_of(by) : old & ~bit_of(by));
    }
    virtual void change_bit(Signal signal, int at, int by, bool is_set) {
        acquire(at);
        before_change();
        write_bit(flag_line(signal, by, at), flag_word(signal), by, is_set);
        release(at);
    }

    // The barrier of all ranks, whose root is rank 0.
    virtual void flip_gather() { write_flag(own(gather_line()), 0, parity); }
    void await_gather(int of) {
        while (!sees({core_of(of), gather_line()}, 0, parity)) {}
    }
    void release_all() {
        for (int rank = 1; rank < nue; rank++) write_flag({core_of(rank), release_line()}, 0, parity);
    }
    virtual void lead() {
        for (int rank = 1; rank < nue; rank++) await_gather(rank);
        release_all();
    }
    virtual void await_release() {
        while (!sees(own(release_line()), 0, parity)) {}
    }

    // The heap.
    virtual void end_put() { core.flush(); }
    virtual void begin_get() { core.invalidate(); }
};
