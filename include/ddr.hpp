// Juqembo for C++17: a core that closes itself, and memories with callbacks in the shape that users of DRAMSim3 know, over
// `ddr.h`, which says what each call does and what its caller keeps.
#ifndef DDR_HPP
#define DDR_HPP

#include "ddr.h"

#include <algorithm>
#include <array>
#include <deque>
#include <functional>
#include <optional>
#include <stdexcept>
#include <string>
#include <string_view>
#include <utility>
#include <vector>

namespace ddr {

// A call that answered another code than DDR_OK, with the text of a configuration's refusal.
class Error : public std::runtime_error {
public:
    Error(std::int32_t code, const std::string &text) : std::runtime_error(text), code(code) {}
    const std::int32_t code;
};

struct Reply {
    ddr_reply head;
    std::array<std::uint8_t, 64> bytes; // the first `head.bytes` of them are the reply's
};

// It is neither copied nor moved, as the core that it holds.
class Core {
public:
    // Without traces, `trace` throws `Error` with DDR_NO_TRACE, and a run of any length takes no more memory than the rows that it writes.
    explicit Core(std::string_view config, bool traces = true) {
        char text[128];
        std::uint64_t whole = 0;
        const std::int32_t code = (traces ? ddr_open : ddr_open_without_traces)(&core, config.data(), config.size(), text, sizeof text, &whole);
        if (code == DDR_CONFIG) throw Error(code, std::string(text, whole < sizeof text ? whole : sizeof text));
        check(code, "ddr_open");
    }
    Core(const Core &) = delete;
    Core &operator=(const Core &) = delete;
    ~Core() { ddr_close(&core); }

    // The code, and the request's number where it is DDR_OK: a refusal is no error of the host's.
    std::int32_t read(std::uint32_t port, std::uint64_t addr, std::uint32_t length, std::uint64_t &number) {
        return ddr_submit_read(&core, port, addr, length, &number);
    }
    std::int32_t write(std::uint32_t port, std::uint64_t addr, std::string_view bytes, std::uint64_t &number) {
        return ddr_submit_write(&core, port, addr, bytes.data(), bytes.size(), &number);
    }
    std::int32_t masked(std::uint32_t port, std::uint64_t addr, const std::array<std::uint8_t, 64> &line, std::uint64_t enable, std::uint64_t &number) {
        return ddr_submit_masked(&core, port, addr, line.data(), line.size(), enable, &number);
    }

    std::uint64_t quiet() {
        std::uint64_t rounds = 0;
        check(ddr_quiet(&core, &rounds), "ddr_quiet");
        return rounds;
    }
    void rounds(std::uint64_t count) {
        std::uint64_t made = 0;
        check(ddr_rounds(&core, count, &made), "ddr_rounds");
    }
    std::optional<Reply> next(std::uint32_t port) {
        Reply reply{};
        const std::int32_t code = ddr_next_reply(&core, port, &reply.head, reply.bytes.data(), reply.bytes.size());
        if (code == DDR_NOTHING) return std::nullopt;
        check(code, "ddr_next_reply");
        return reply;
    }
    // The reply to a port's request of this number once its data are there, whether or not those before it are. It stays, and is taken in its turn.
    std::optional<Reply> served(std::uint32_t port, std::uint64_t number) {
        Reply reply{};
        const std::int32_t code = ddr_served(&core, port, number, &reply.head, reply.bytes.data(), reply.bytes.size());
        if (code == DDR_NOTHING) return std::nullopt;
        check(code, "ddr_served");
        return reply;
    }
    // How many requests of a port were accepted whose replies were not taken.
    std::uint64_t outstanding(std::uint32_t port) {
        std::uint64_t accepted = 0, taken = 0;
        check(ddr_counts(&core, port, &accepted, &taken), "ddr_counts");
        return accepted - taken;
    }
    std::uint64_t cycle(std::uint32_t channel) {
        std::uint64_t cycle = 0;
        check(ddr_cycle(&core, channel, &cycle), "ddr_cycle");
        return cycle;
    }
    // What a channel did so far.
    ddr_channel_statistics channel_statistics(std::uint32_t channel) {
        ddr_channel_statistics statistics{};
        check(ddr_statistics_of_channel(&core, channel, &statistics), "ddr_statistics_of_channel");
        return statistics;
    }
    // What came of a port's requests so far.
    ddr_port_statistics port_statistics(std::uint32_t port) {
        ddr_port_statistics statistics{};
        check(ddr_statistics_of_port(&core, port, &statistics), "ddr_statistics_of_port");
        return statistics;
    }
    // The shape of the memory and of its ports.
    ddr_memory_shape shape() {
        ddr_memory_shape shape{};
        check(ddr_shape(&core, &shape), "ddr_shape");
        return shape;
    }
    // How many channels there are.
    std::uint32_t channels() { return shape().channels; }
    // How many ports there are.
    std::uint32_t ports() { return shape().ports; }
    // How many bytes the memory has.
    std::uint64_t capacity() { return shape().capacity; }
    std::size_t trace(std::uint32_t channel, std::uint64_t first, ddr_command *commands, std::size_t room) {
        std::uint64_t count = 0;
        check(ddr_trace(&core, channel, first, commands, room, &count), "ddr_trace");
        return count;
    }

    static void check(std::int32_t code, const char *call) {
        if (code != DDR_OK) throw Error(code, std::string(call) + ": " + ddr_code_name(code));
    }

private:
    ddr_core core = DDR_CORE_INIT;
};

// A memory of whole 64-byte lines in the shape that users of DRAMSim3 know: `WillAccept`, `Add`, `ClockTick`. A write is answered once it is
// accepted, and a read when its data are there, whatever stands before it. Reads have a port of their own, and so have writes; that a port
// gives its replies in order stays inside. A read of a line has the bytes of each write to it that was added before, so that it waits for one
// that is still on its way. A callback may add requests.
class Memory {
public:
    using Line = std::array<std::uint8_t, 64>;
    using ReadDone = std::function<void(const Reply &)>;
    using WriteDone = std::function<void(std::uint64_t addr)>;

    // The two ports differ, and the configuration has both, else `Error` with DDR_NO_SUCH. Traces are kept where they are asked for.
    Memory(std::string_view config, ReadDone read_done, WriteDone write_done, std::uint32_t read_port = 0, std::uint32_t write_port = 1, bool traces = true)
        : core(config, traces), read_done(std::move(read_done)), write_done(std::move(write_done)), read_port(read_port), write_port(write_port) {
        const std::uint32_t ports = core.ports();
        if (read_port >= ports || write_port >= ports || read_port == write_port) throw Error(DDR_NO_SUCH, "a port for reads and another for writes");
    }

    // Whether `Add` takes such a request now: none of its kind waits for its port, and none of the other kind that is of the same line.
    bool WillAccept(std::uint64_t addr, bool is_write) const {
        const std::optional<Request> &own = is_write ? waiting_write : waiting_read, &other = is_write ? waiting_read : waiting_write;
        return !own && !(other && other->addr == line_of(addr));
    }

    // Adds a read or a write of the line that holds an address, or says that it can't be taken now. One that the port or
    // its channel's queue has no room for waits here, and goes to the port at the first `ClockTick` that finds room.
    // An address outside the memory throws `Error`.
    bool Add(std::uint64_t addr, bool is_write, const Line &line = {}) {
        if (!WillAccept(addr, is_write)) return false;
        const Request request{line_of(addr), is_write, line};
        if (!submit(request)) (is_write ? waiting_write : waiting_read) = request;
        return true;
    }

    // Makes a cycle of each channel, and calls back for each write that was accepted since the tick before, in the order of their
    // acceptance, and for each read whose data came, in the order of their completion; of those of one cycle in that in which they were added.
    void ClockTick() {
        if (waiting_read && submit(*waiting_read)) waiting_read.reset();
        if (waiting_write && submit(*waiting_write)) waiting_write.reset();
        core.rounds(1);
        const std::vector<std::uint64_t> written = std::exchange(accepted_writes, {});
        const std::vector<Reply> read = take_served();
        while (core.next(write_port)) {}
        for (const std::uint64_t addr : written) write_done(addr);
        for (const Reply &reply : read) read_done(reply);
    }

    // Makes at once as many cycles, but no more than so many, as nothing is to be done in, and says how many. So many calls of
    // `ClockTick` would do the same.
    std::uint64_t Skip(std::uint64_t most) {
        if (waiting_read || waiting_write || !accepted_writes.empty()) return 0;
        const std::uint64_t count = std::min(core.quiet(), most);
        core.rounds(count);
        return count;
    }

    // How many requests were added that no callback came for.
    std::uint64_t Outstanding() const {
        return (waiting_read ? 1 : 0) + (waiting_write ? 1 : 0) + accepted_writes.size() + unanswered;
    }
    // How many writes were accepted that are not written yet.
    std::uint64_t Unwritten() { return core.outstanding(write_port); }
    // How many cycles were made.
    std::uint64_t Clock() { return core.cycle(0); }
    // The core itself, for its traces and its statistics.
    Core &Under() { return core; }

private:
    struct Request {
        std::uint64_t addr;
        bool is_write;
        Line line;
    };
    // A read that its port accepted, and whether it was answered.
    struct Read {
        std::uint64_t number;
        bool answered;
    };

    static std::uint64_t line_of(std::uint64_t addr) { return addr - addr % 64; }

    // Hands a request to its port; `false` where there is no room for it.
    bool submit(const Request &request) {
        std::uint64_t number = 0;
        const std::int32_t code = request.is_write
            ? core.write(write_port, request.addr, {reinterpret_cast<const char *>(request.line.data()), request.line.size()}, number)
            : core.read(read_port, request.addr, static_cast<std::uint32_t>(request.line.size()), number);
        if (code == DDR_BUSY || code == DDR_WINDOW_FULL) return false;
        Core::check(code, "ddr_submit");
        if (request.is_write) {
            accepted_writes.push_back(request.addr);
        } else {
            reads.push_back({number, false});
            unanswered++;
        }
        return true;
    }

    // The reads whose data came, by their completion; the port's oldest ones, which are answered, are taken from it.
    std::vector<Reply> take_served() {
        std::vector<Reply> served;
        for (Read &read : reads) {
            if (read.answered) continue;
            std::optional<Reply> reply = core.served(read_port, read.number);
            if (!reply) continue;
            served.push_back(*reply);
            read.answered = true;
            unanswered--;
        }
        while (!reads.empty() && reads.front().answered) {
            core.next(read_port);
            reads.pop_front();
        }
        std::stable_sort(served.begin(), served.end(), [](const Reply &a, const Reply &b) { return a.head.due < b.head.due; });
        return served;
    }

    Core core;
    ReadDone read_done;
    WriteDone write_done;
    std::uint32_t read_port, write_port;
    std::optional<Request> waiting_read, waiting_write;
    std::vector<std::uint64_t> accepted_writes;
    std::deque<Read> reads;
    std::uint64_t unanswered = 0;
};

// A memory of whole 64-byte lines behind one port, with a callback for each reply in the order of the requests: a read is answered behind
// all older writes, and a write once it is written. A callback may add requests.
class OrderedMemory {
public:
    using Line = std::array<std::uint8_t, 64>;
    using Done = std::function<void(const Reply &)>;

    OrderedMemory(std::string_view config, Done read_done, Done write_done, std::uint32_t port = 0, bool traces = true)
        : core(config, traces), read_done(std::move(read_done)), write_done(std::move(write_done)), port(port) {}

    // Whether `Add` takes a request now: none waits for the port.
    bool WillAccept(std::uint64_t, bool) const { return !waiting; }

    // Adds a read or a write of the line that holds an address, or says that it can't be taken now. One that the port or
    // its channel's queue has no room for waits here, and goes to the port at the first `ClockTick` that finds room.
    // An address outside the memory throws `Error`.
    bool Add(std::uint64_t addr, bool is_write, const Line &line = {}) {
        if (waiting) return false;
        const Request request{addr - addr % line.size(), is_write, line};
        if (!submit(request)) waiting = request;
        return true;
    }

    // Makes a cycle of each channel, and calls back for each reply that is ready.
    void ClockTick() {
        if (waiting && submit(*waiting)) waiting.reset();
        core.rounds(1);
        while (const std::optional<Reply> reply = core.next(port)) (reply->head.kind == DDR_WRITE ? write_done : read_done)(*reply);
    }

    // Makes at once as many cycles, but no more than so many, as nothing is to be done in, and says how many. So many calls of
    // `ClockTick` would do the same.
    std::uint64_t Skip(std::uint64_t most) {
        if (waiting) return 0;
        const std::uint64_t count = std::min(core.quiet(), most);
        core.rounds(count);
        return count;
    }

    // How many requests were added that no callback came for.
    std::uint64_t Outstanding() { return core.outstanding(port) + (waiting ? 1 : 0); }
    // How many cycles were made.
    std::uint64_t Clock() { return core.cycle(0); }
    // The core itself, for its traces and its other ports.
    Core &Under() { return core; }

private:
    struct Request {
        std::uint64_t addr;
        bool is_write;
        Line line;
    };

    // Hands a request to the port; `false` where there is no room for it.
    bool submit(const Request &request) {
        std::uint64_t number = 0;
        const std::int32_t code = request.is_write
            ? core.write(port, request.addr, {reinterpret_cast<const char *>(request.line.data()), request.line.size()}, number)
            : core.read(port, request.addr, static_cast<std::uint32_t>(request.line.size()), number);
        if (code == DDR_BUSY || code == DDR_WINDOW_FULL) return false;
        Core::check(code, "ddr_submit");
        return true;
    }

    Core core;
    Done read_done, write_done;
    std::uint32_t port;
    std::optional<Request> waiting;
};

} // namespace ddr

#endif
