// Ports with one step wrong, each by the name of its fault: mistakes that people make when they port RCCE to a chip without coherent caches.
#pragma once
#include <functional>
#include <memory>

#include "port.h"

struct FlagBeforeData : Port {
    using Port::Port;
    void send_chunk(int to, const uint8_t* bytes, int count) override {
        raise(kSent, to);
        write_chunk(bytes, count);
        core.flush();
        await_ready(to);
        lower_ready(to);
    }
};
struct ThreeHeaderWords : Port {
    using Port::Port;
    void write_header(uint64_t kind, uint64_t length) override {
        const Line words{kind, 0, length, 0};
        for (int word = 0; word < 3; word++) core.write(own(kHeaderLine), word, words[word]);
    }
};
struct WrongKind : Port {
    using Port::Port;
    void write_header(uint64_t, uint64_t length) override { Port::write_header(5, length); }
};
struct PadGarbage : Port {
    using Port::Port;
    void write_chunk(const uint8_t* bytes, int count) override { write_lines(bytes, count, (count + kLineBytes - 1) / kLineBytes, 0xee); }
};
struct ShortPut : Port {
    using Port::Port;
    void write_chunk(const uint8_t* bytes, int count) override { write_lines(bytes, count, count / kLineBytes, 0); }
};
struct ChunkReusedEarly : Port {
    using Port::Port;
    void await_ready(int) override {}
    void lower_ready(int) override {}
};
struct WaitTimeout : Port {
    using Port::Port;
    void await_ready(int to) override { sees_flag(kReady, to); }
};
struct ReadyNotLowered : Port {
    using Port::Port;
    void lower_ready(int) override {}
};
struct WrongCoreFlag : Port {
    using Port::Port;
    void raise(Signal signal, int at) override { Port::raise(signal, signal == kSent ? (2 * nue - me - at) % nue : at); }
};
struct FlagNotFlushed : Port {
    using Port::Port;
    void write_flag(LineAt at, int word, uint64_t value) override { core.write(at, word, value); }
};
struct FlagValue : Port {
    using Port::Port;
    uint64_t set_value() const override { return 0xff; }
};
struct ReadyBeforeRead : Port {
    using Port::Port;
    void recv_chunk(int from, Bytes& found, size_t& wanted) override {
        begin_chunk(from, found, wanted);
        lower(kSent, from);
        raise(kReady, from);
        read_chunk(from, found, chunk_of(found, wanted));
    }
};
struct SentNotLowered : Port {
    using Port::Port;
    void recv_chunk(int from, Bytes& found, size_t& wanted) override {
        begin_chunk(from, found, wanted);
        read_chunk(from, found, chunk_of(found, wanted));
        raise(kReady, from);
    }
};
struct LowerAfterRead : Port {
    using Port::Port;
    void recv_chunk(int from, Bytes& found, size_t& wanted) override {
        begin_chunk(from, found, wanted);
        read_chunk(from, found, chunk_of(found, wanted));
        lower(kSent, from);
        raise(kReady, from);
    }
};
// It drops the lines alone that it is about to read, and keeps the copies of all others.
struct DropsAlone : Port {
    using Port::Port;
    void drop_lines(int first, int end) {
        for (int rank = 0; rank < nue; rank++)
            for (int line = first; line < end; line++) core.drop({core_of(rank), line});
    }
    void before_look(LineAt at) override { core.drop(at); }
    void begin_header() override { drop_lines(kHeaderLine, kHeaderLine + 1); }
    void begin_read() override { drop_lines(chunk_line(), kFirstHeap); }
    void begin_get() override { drop_lines(kFirstHeap, kLines); }
};
struct StaleData : DropsAlone {
    using DropsAlone::DropsAlone;
    void begin_read() override {}
};
struct StaleHeader : DropsAlone {
    using DropsAlone::DropsAlone;
    void begin_header() override {}
};
struct BitWithoutLock : Port {
    using Port::Port;
    void acquire(int) override {}
    void release(int) override {}
};
struct LockIgnored : Port {
    using Port::Port;
    void acquire(int at) override { core.take(core_of(at)); }
};
struct FreeMissing : Port {
    using Port::Port;
    void release(int) override {}
};
struct FreeBeforeFlush : Port {
    using Port::Port;
    void write_flag(LineAt at, int word, uint64_t value) override {
        core.write(at, word, value);
        if (at.line != 1) core.flush();
    }
    void release(int at) override {
        Port::release(at);
        core.flush();
    }
};
struct BitFromCache : Port {
    using Port::Port;
    void before_change() override {}
};
struct TwoBits : Port {
    using Port::Port;
    uint64_t bit_of(int by) const override { return uint64_t(3) << by; }
};
struct WrongBit : Port {
    using Port::Port;
    uint64_t bit_of(int by) const override { return uint64_t(1) << (by + 1) % nue; }
};
struct GatherNotFlipped : Port {
    using Port::Port;
    void flip_gather() override { write_flag(own(gather_line()), 0, 1); }
};
struct GatherWrongLine : Port {
    using Port::Port;
    int gather_line() const override { return Port::gather_line() + 1; }
};
struct ReleaseEarly : Port {
    using Port::Port;
    void lead() override { release_all(); }
};
struct RootAnyOrder : Port {
    using Port::Port;
    void lead() override {
        for (int rank = nue - 1; rank > 0; rank--) await_gather(rank);
        release_all();
    }
};
struct LeaveEarly : Port {
    using Port::Port;
    void await_release() override {}
};
struct GetFromCache : DropsAlone {
    using DropsAlone::DropsAlone;
    void begin_get() override {}
};
struct PutNotFlushed : Port {
    using Port::Port;
    void end_put() override {}
};

using Made = std::unique_ptr<Port>;
using Maker = std::function<Made(Chip&, int, int, bool)>;

template <class Kind>
Made make(Chip& chip, int rank, int nue, bool bits) { return std::make_unique<Kind>(chip, rank, nue, bits); }

struct Fault {
    const char* name;
    Maker maker;
    const char* about;
};

inline const std::vector<Fault> kFaults = {
    {"none", make<Port>, "the port without a fault"},
    {"flag_before_data", make<FlagBeforeData>, "sent is raised before the chunk is written"},
    {"header_3_words", make<ThreeHeaderWords>, "word 3 of the header is not written"},
    {"kind_wrong", make<WrongKind>, "the header has kind 5"},
    {"pad_garbage", make<PadGarbage>, "the bytes after the chunk's end, in its last line, are not zero"},
    {"short_put", make<ShortPut>, "the last line of a chunk is not written"},
    {"chunk_reused_early", make<ChunkReusedEarly>, "the sender does not wait for ready"},
    {"wait_timeout", make<WaitTimeout>, "the sender looks for ready once, and goes on"},
    {"ready_not_lowered", make<ReadyNotLowered>, "the sender does not lower ready"},
    {"wrong_core_flag", make<WrongCoreFlag>, "sent is raised at another core"},
    {"flag_not_flushed", make<FlagNotFlushed>, "flags stay in the write-combining buffer"},
    {"flag_ff", make<FlagValue>, "a flag is raised with the value 0xff"},
    {"ready_before_read", make<ReadyBeforeRead>, "ready is raised before the chunk is read"},
    {"sent_not_lowered", make<SentNotLowered>, "the receiver does not lower sent"},
    {"lower_after_read", make<LowerAfterRead>, "sent is lowered after the chunk is read"},
    {"stale_data", make<StaleData>, "the chunk is read from old copies of its lines"},
    {"stale_header", make<StaleHeader>, "the header is read from an old copy"},
    {"bit_without_lock", make<BitWithoutLock>, "a bit is changed without the register (--bits)"},
    {"lock_ignored", make<LockIgnored>, "what the register answers is ignored (--bits)"},
    {"free_missing", make<FreeMissing>, "the register is not freed (--bits)"},
    {"free_before_flush", make<FreeBeforeFlush>, "the register is freed before the bit is stored (--bits)"},
    {"bit_no_inv", make<BitFromCache>, "the other bits come from an old copy of the word (--bits)"},
    {"two_bits", make<TwoBits>, "two bits are changed (--bits)"},
    {"wrong_bit", make<WrongBit>, "the bit of another rank is changed (--bits)"},
    {"bar_no_flip", make<GatherNotFlipped>, "each barrier writes 1 to the gather flag"},
    {"bar_wrong_line", make<GatherWrongLine>, "the gather flag is written and awaited in another line"},
    {"bar_release_early", make<ReleaseEarly>, "the root releases before it looks"},
    {"bar_any_order", make<RootAnyOrder>, "the root looks at the last member first"},
    {"bar_leave_early", make<LeaveEarly>, "a member does not wait for its release"},
    {"get_no_inv", make<GetFromCache>, "a heap line is read from an old copy"},
    {"put_not_flushed", make<PutNotFlushed>, "a heap line stays in the write-combining buffer"},
};
