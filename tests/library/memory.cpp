// ddr::Memory and ddr::OrderedMemory: the orders of their callbacks, reckoned by hand, and the bytes of requests by chance.
//
//     memory CONFIG REQUESTS
#include "ddr.hpp"

#include <cinttypes>
#include <cstdio>
#include <cstdlib>
#include <fstream>
#include <iostream>
#include <iterator>
#include <map>
#include <sstream>

namespace {

unsigned failed = 0;

void wants(const char *what, std::uint64_t got, std::uint64_t wanted) {
    if (got == wanted) return;
    std::printf("%s: %" PRIu64 ", wanted %" PRIu64 "\n", what, got, wanted);
    failed++;
}

void wants(const char *what, const std::string &got, const std::string &wanted) {
    if (got == wanted) return;
    std::printf("%s:\n%swanted:\n%s", what, got.c_str(), wanted.c_str());
    failed++;
}

// What was called back for, a line for each: the clock behind the tick, and the address.
struct Calls {
    std::ostringstream text;
    template <class M> void read(M &memory, const ddr::Reply &reply) { text << memory.Clock() << " read " << reply.head.addr << '\n'; }
    template <class M> void write(M &memory, std::uint64_t addr) { text << memory.Clock() << " write " << addr << '\n'; }
};

template <class M> void tick(M &memory, unsigned count) {
    for (unsigned i = 0; i < count; i++) memory.ClockTick();
}

// A callback is made in the tick behind that of the cycle of completion, by when the port has collected: the clock is one above it.
void orders(const std::string &config, const std::string &wanted, const std::string &wanted_in_order, const std::uint64_t (&addrs)[4]) {
    Calls calls;
    ddr::Memory *at = nullptr;
    ddr::Memory memory(config, [&](const ddr::Reply &reply) { calls.read(*at, reply); }, [&](std::uint64_t addr) { calls.write(*at, addr); });
    at = &memory;
    memory.Add(addrs[0], true);
    for (int i = 1; i < 4; i++) memory.Add(addrs[i], false);
    while (memory.Outstanding() != 0) tick(memory, 1);
    wants("the order of completion", calls.text.str(), wanted);

    Calls ordered;
    ddr::OrderedMemory *here = nullptr;
    ddr::OrderedMemory older(
        config, [&](const ddr::Reply &reply) { ordered.read(*here, reply); }, [&](const ddr::Reply &reply) { ordered.write(*here, reply.head.addr); });
    here = &older;
    older.Add(addrs[0], true);
    for (int i = 1; i < 4; i++) older.Add(addrs[i], false);
    while (older.Outstanding() != 0) tick(older, 1);
    wants("the order of requests", ordered.text.str(), wanted_in_order);
}

// Of requests by chance to 63 lines, half of them writes, each read has the bytes of the newest write to its line that was added before it, is
// answered once, in the tick of its completion, and the port's statistics are those of the callbacks.
void bytes(const std::string &config, std::uint64_t requests) {
    std::uint64_t draw = 7;
    const auto next = [&draw] {
        draw = draw * 6364136223846793005ULL + 1442695040888963407ULL;
        return draw >> 33;
    };
    std::map<std::uint64_t, ddr::Memory::Line> lines;
    std::map<std::uint64_t, std::deque<ddr::Memory::Line>> expected;
    std::uint64_t reads = 0, writes = 0, read_back = 0, written_back = 0, late = 0, wrong = 0, sum = 0, most = 0, least = UINT64_MAX;
    std::uint64_t overtaken = 0, last = 0;
    ddr::Memory *at = nullptr;
    ddr::Memory memory(
        config,
        [&](const ddr::Reply &reply) {
            std::deque<ddr::Memory::Line> &wanted = expected[reply.head.addr];
            if (wanted.empty() || reply.head.bytes != 64 || reply.bytes != wanted.front()) wrong++;
            if (!wanted.empty()) wanted.pop_front();
            if (reply.head.due + 1 != at->Clock()) late++;
            if (read_back > 0 && reply.head.number < last) overtaken++;
            last = reply.head.number;
            const std::uint64_t clocks = reply.head.due - reply.head.accepted;
            sum += clocks, most = std::max(most, clocks), least = std::min(least, clocks);
            read_back++;
        },
        [&](std::uint64_t) { written_back++; });
    at = &memory;
    for (std::uint64_t added = 0; added < requests || memory.Outstanding() != 0 || memory.Unwritten() != 0;) {
        const std::uint64_t addr = next() % 32 * (next() % 2 == 0 ? 64 : 8192);
        const bool is_write = next() % 2 == 0;
        if (added < requests && memory.WillAccept(addr, is_write)) {
            ddr::Memory::Line line{};
            for (std::uint8_t &byte : line) byte = static_cast<std::uint8_t>(next());
            if (!memory.Add(addr + next() % 64, is_write, line)) wrong++;
            if (is_write) lines[addr] = line, writes++;
            else expected[addr].push_back(lines[addr]), reads++;
            added++;
        }
        memory.ClockTick();
        if (next() % 4 == 0) memory.Skip(next() % 16);
    }
    wants("reads answered", read_back, reads);
    wants("writes answered", written_back, writes);
    wants("reads with other bytes", wrong, 0);
    wants("reads answered behind their tick", late, 0);
    if (overtaken == 0) wants("reads that overtook one", overtaken, 1);
    const ddr_port_statistics port = memory.Under().port_statistics(0), other = memory.Under().port_statistics(1);
    wants("reads counted", port.reads.accepted_to_done.count, reads);
    wants("clocks of reads", port.reads.accepted_to_done.clocks, sum);
    wants("fewest clocks", port.reads.accepted_to_done.least, least);
    wants("most clocks", port.reads.accepted_to_done.most, most);
    wants("accepted reads", port.accepted, reads);
    wants("taken reads", port.taken, reads);
    wants("writes at the port of reads", port.writes.accepted_to_done.count, 0);
    wants("writes counted", other.writes.accepted_to_released.count, writes);
    std::printf("%" PRIu64 " reads by chance, %" PRIu64 " of them before an older one, with the right bytes\n", reads, overtaken);
}

} // namespace

int main(int argc, char **argv) {
    if (argc != 3) return 2;
    std::ifstream file(argv[1]);
    const std::string config{std::istreambuf_iterator<char>(file), {}};
    // A write and a read of row 0 of a bank, then a read of its row 1 and one of row 0. The reads go first, those of the open row before the older
    // one of the other: ACT in cycle 0, RD in 4, and a long CCD behind it in 9; PRE in 12, RTP behind that, ACT in 16, RD in 20. Each is complete 8 clocks
    // behind its command. Then the write: PRE in 26, RAS behind the ACT, ACT in 30, WR in 34, complete 7 clocks behind it.
    orders(config, "1 write 0\n13 read 64\n18 read 128\n29 read 8192\n", "42 write 0\n42 read 64\n42 read 8192\n42 read 128\n", {0, 64, 8192, 128});
    bytes(config, std::strtoull(argv[2], nullptr, 10));
    try {
        ddr::Memory memory(config, [](const ddr::Reply &) {}, [](std::uint64_t) {}, 0, 0);
        wants("one port for both", 0, 1);
    } catch (const ddr::Error &error) {
        wants("one port for both", static_cast<std::uint64_t>(error.code), DDR_NO_SUCH);
    }
    return failed == 0 ? 0 : 1;
}
