// A long stream of requests with statistics of its own, over the shape `WillAccept`, `Add`, `ClockTick` of ddr.hpp.
//
//     stream CONFIG REQUESTS [FOLDER]
//
// Lines are drawn from 2,048, half of the requests are writes, and as many are added in a cycle as are taken. With a folder
// it writes there what it did: `requests`, each with the cycle in which its port took it, as `./ddr replay` takes them, and
// `statistics`, which have to be what `./ddr replay` prints of them. Of no more than 10,000 requests, as many as `./ddr sim`
// takes, also `script`, the requests and cycles, `replies`, and `trace-N` of each channel N, which have to be what
// `./ddr sim` prints of the script. Of more requests no trace is kept, so that a run of any length takes the same memory.
#include "ddr.hpp"

#include <algorithm>
#include <cinttypes>
#include <cstdio>
#include <fstream>
#include <iostream>
#include <iterator>
#include <map>
#include <sstream>
#include <tuple>
#include <vector>

namespace {

constexpr std::uint64_t LINES = 2048;
// The most requests that `./ddr sim` takes.
constexpr std::uint64_t SCRIPT_REQUESTS = 10000;

// Numbers by chance, the same on every machine (xorshift64*).
class Draw {
public:
    std::uint64_t next() {
        state ^= state >> 12;
        state ^= state << 25;
        state ^= state >> 27;
        return (state * 0x2545f4914f6cdd1dULL) >> 32;
    }

private:
    std::uint64_t state = 7;
};

// Of requests of one kind: how many came back, and how long that took.
struct Latency {
    std::uint64_t count = 0, sum = 0, most = 0;

    void note(const ddr_reply &reply) {
        const std::uint64_t cycles = reply.released - reply.accepted;
        count++;
        sum += cycles;
        most = std::max(most, cycles);
    }
    void print(const char *kind) const {
        const double mean = count == 0 ? 0 : static_cast<double>(sum) / static_cast<double>(count);
        std::printf("%s: %" PRIu64 ", latency %.1f cycles on average, %" PRIu64 " at most\n", kind, count, mean, most);
    }
};

std::string hex(const std::uint8_t *bytes, std::size_t count) {
    std::string text;
    for (std::size_t i = 0; i < count; i++) {
        char digits[3];
        std::snprintf(digits, sizeof digits, "%02x", bytes[i]);
        text += digits;
    }
    return text;
}

// What is written of a run: where a folder is given its requests, in the order of their replies, which is that in which they
// were taken; and its script, where it is wanted. The line of a request stands there before that of the cycle in which the
// port took it.
struct Record {
    std::ofstream requests;
    std::ostringstream script, replies;
    std::string held;
    bool wanted = false;

    void request(std::uint64_t addr, bool is_write, const ddr::OrderedMemory::Line &line) {
        if (!wanted) return;
        std::ostringstream text;
        if (is_write) text << "write 0 " << addr << ' ' << hex(line.data(), line.size()) << '\n';
        else text << "read 0 " << addr << ' ' << line.size() << '\n';
        held = text.str();
    }
    void taken() {
        script << held;
        held.clear();
    }
    void cycle() {
        if (wanted) script << "cycle 1\n";
    }
    void reply(const ddr::Reply &reply) {
        const bool is_write = reply.head.kind == DDR_WRITE;
        const char *const word = is_write ? " write " : " read ";
        if (requests.is_open()) requests << reply.head.accepted << " 0" << word << reply.head.addr << '\n';
        if (!wanted) return;
        replies << "0 " << reply.head.number << word << reply.head.addr;
        if (!is_write) replies << ' ' << hex(reply.bytes.data(), reply.head.bytes);
        replies << '\n';
    }
};

const char *const NO_WAITS = "\nwaited_for_window = 0\nwaited_for_queue = 0\n";

const char *const NAMES[] = {"ACT", "RD", "WR", "RDA", "WRA", "PRE", "PREA", "REF"};

void place(std::ostream &to, std::uint32_t value) {
    if (value != DDR_NONE) to << value;
}

// The numbers of channels' commands that `./ddr replay` prints.
struct Numbers {
    std::uint64_t turn_rounds = 0, rank_switches = 0, drain_cycles = 0, refresh_debt_most = 0, row_hits = 0, row_misses = 0, row_conflicts = 0;
    std::uint64_t commands[8] = {};

    std::uint64_t columns() const { return commands[DDR_RD] + commands[DDR_WR] + commands[DDR_RDA] + commands[DDR_WRA]; }
    void add(const Numbers &more) {
        turn_rounds += more.turn_rounds;
        rank_switches += more.rank_switches;
        drain_cycles += more.drain_cycles;
        refresh_debt_most = std::max(refresh_debt_most, more.refresh_debt_most);
        row_hits += more.row_hits;
        row_misses += more.row_misses;
        row_conflicts += more.row_conflicts;
        for (int kind = 0; kind < 8; kind++) commands[kind] += more.commands[kind];
    }
    void print(std::ostream &to) const {
        to << "turn_rounds = " << turn_rounds << "\nrank_switches = " << rank_switches << "\ndrain_cycles = " << drain_cycles << "\nrefresh_debt_most = " << refresh_debt_most
           << "\nactivates = " << commands[DDR_ACT] << "\nprecharges = " << commands[DDR_PRE] << "\nprecharges_all = " << commands[DDR_PREA]
           << "\nrefreshes = " << commands[DDR_REF] << "\nreads = " << commands[DDR_RD] << "\nwrites = " << commands[DDR_WR]
           << "\nreads_auto = " << commands[DDR_RDA] << "\nwrites_auto = " << commands[DDR_WRA] << "\nrow_hits = " << row_hits
           << "\nrow_misses = " << row_misses << "\nrow_conflicts = " << row_conflicts << "\nbusy_clocks = " << 4 * columns() << '\n';
    }
};

// The numbers of a channel, command by command.
class Counter {
public:
    Numbers numbers;

    Counter(std::uint64_t refi, std::uint64_t ranks) : refi(refi), paid(ranks) {}

    void note(const ddr_command &it) {
        numbers.commands[it.kind]++;
        if (it.kind == DDR_REF) {
            owe(it.rank, it.cycle);
            paid[it.rank]++;
            return;
        }
        if (it.kind == DDR_PREA) {
            for (auto &[place, bank] : banks)
                if (std::get<0>(place) == it.rank) bank.closed_by_pre = false;
            return;
        }
        Bank &bank = banks[{it.rank, it.group, it.bank}];
        if (it.kind == DDR_ACT) {
            bank.found = bank.closed_by_pre ? &Numbers::row_conflicts : &Numbers::row_misses;
        } else if (it.kind == DDR_PRE) {
            bank.closed_by_pre = true;
        } else {
            const bool is_write = it.kind == DDR_WR || it.kind == DDR_WRA;
            numbers.*bank.found += 1;
            bank.found = &Numbers::row_hits;
            if (it.kind == DDR_RDA || it.kind == DDR_WRA) bank.closed_by_pre = false;
            if (any && is_write != last_is_write) numbers.turn_rounds++;
            if (any && it.rank != last_rank) numbers.rank_switches++;
            any = true;
            last_is_write = is_write;
            last_rank = it.rank;
        }
    }

    // The channel made no cycle from this one on.
    void end(std::uint64_t cycle) {
        for (std::size_t rank = 0; rank < paid.size() && cycle > 0; rank++) owe(rank, cycle - 1);
    }

private:
    // In a cycle a rank owes the REFs that fell due up to it, one each `refi` cycles, less those that it had.
    void owe(std::size_t rank, std::uint64_t cycle) { numbers.refresh_debt_most = std::max(numbers.refresh_debt_most, cycle / refi - paid[rank]); }

    // Whether a PRE closed it last, and what its next read or write counts as.
    struct Bank {
        bool closed_by_pre = false;
        std::uint64_t Numbers::*found = &Numbers::row_misses;
    };

    std::map<std::tuple<std::uint32_t, std::uint32_t, std::uint32_t>, Bank> banks;
    bool any = false, last_is_write = false;
    std::uint32_t last_rank = 0;
    std::uint64_t refi;
    std::vector<std::uint64_t> paid;
};

// The number behind a key of a configuration.
std::uint64_t number_of(const std::string &config, const std::string &key, std::uint64_t otherwise) {
    std::istringstream lines(config);
    for (std::string line; std::getline(lines, line);)
        if (line.rfind(key + " = ", 0) == 0) return std::stoull(line.substr(key.size() + 3));
    return otherwise;
}

// Whether what the library tells of a channel are these numbers.
bool is_told(const ddr_channel_statistics &told, const Numbers &numbers) {
    const std::uint64_t *const commands = numbers.commands;
    return told.turn_rounds == numbers.turn_rounds && told.rank_switches == numbers.rank_switches && told.refresh_debt_most == numbers.refresh_debt_most
        && told.activates == commands[DDR_ACT] && told.precharges == commands[DDR_PRE] && told.precharges_all == commands[DDR_PREA]
        && told.refreshes == commands[DDR_REF] && told.reads == commands[DDR_RD] && told.writes == commands[DDR_WR]
        && told.reads_auto == commands[DDR_RDA] && told.writes_auto == commands[DDR_WRA] && told.row_hits == numbers.row_hits
        && told.row_misses == numbers.row_misses && told.row_conflicts == numbers.row_conflicts && told.busy_clocks == 4 * numbers.columns();
}

// Whether what the library tells of requests is what their replies told.
bool is_told(const ddr_spread &told, const Latency &latency) {
    return told.count == latency.count && told.clocks == latency.sum && told.most == latency.most;
}

// The numbers of a channel's commands, as the library tells them.
Numbers told_of(ddr::Core &core, std::uint32_t channel) {
    const ddr_channel_statistics told = core.channel_statistics(channel);
    Numbers numbers;
    numbers.turn_rounds = told.turn_rounds;
    numbers.rank_switches = told.rank_switches;
    numbers.drain_cycles = told.drain_cycles;
    numbers.refresh_debt_most = told.refresh_debt_most;
    numbers.row_hits = told.row_hits;
    numbers.row_misses = told.row_misses;
    numbers.row_conflicts = told.row_conflicts;
    const std::uint64_t commands[8] = {told.activates, told.reads, told.writes, told.reads_auto, told.writes_auto, told.precharges, told.precharges_all, told.refreshes};
    std::copy(commands, commands + 8, numbers.commands);
    return numbers;
}

// The numbers of a channel's commands, which are written as the program writes a trace where they are wanted.
Numbers traced(ddr::Core &core, const std::string &config, std::uint32_t channel, std::ostream *text) {
    Counter counter(number_of(config, "refi", 1), number_of(config, "ranks", 1));
    if (text != nullptr) *text << "cycle,cmd,rank,group,bank,row,col\n";
    std::vector<ddr_command> some(4096);
    std::uint64_t first = 0;
    while (const std::size_t count = core.trace(channel, first, some.data(), some.size())) {
        for (std::size_t i = 0; i < count; i++) {
            const ddr_command &it = some[i];
            counter.note(it);
            if (text == nullptr) continue;
            *text << it.cycle << ',' << NAMES[it.kind];
            for (const std::uint32_t value : {it.rank, it.group, it.bank, it.row, it.column}) {
                *text << ',';
                place(*text, value);
            }
            *text << '\n';
        }
        first += count;
    }
    counter.end(core.cycle(channel));
    if (text != nullptr) *text << core.cycle(channel) << ",END,,,,,\n";
    const ddr_channel_statistics told = core.channel_statistics(channel);
    if (!is_told(told, counter.numbers)) throw std::runtime_error("the library counts other commands");
    counter.numbers.drain_cycles = told.drain_cycles; // of which the commands tell nothing
    return counter.numbers;
}

// The numbers that the library tells, as `./ddr replay` prints them: of all together, of each channel, and of each port, of which the first
// alone has requests. It takes each in the cycle in which it is taken, so that none waits.
void print_statistics(std::ostream &to, ddr::Core &core, const std::vector<Numbers> &channels, const Numbers &total, const Latency &reads, const Latency &writes) {
    const std::uint32_t ports = core.ports();
    to << "channels = " << channels.size() << "\nports = " << ports << "\ncycles = " << core.cycle(0) << '\n';
    to << "\n[total]\nread_requests = " << reads.count << "\nwrite_requests = " << writes.count << NO_WAITS;
    total.print(to);
    for (std::size_t channel = 0; channel < channels.size(); channel++) {
        to << "\n[channel." << channel << "]\n";
        channels[channel].print(to);
    }
    for (std::uint32_t port = 0; port < ports; port++)
        to << "\n[port." << port << "]\nread_requests = " << (port == 0 ? reads.count : 0) << "\nwrite_requests = " << (port == 0 ? writes.count : 0) << NO_WAITS;
}

void run(const std::string &config, std::uint64_t requests, const std::string &folder) {
    Draw draw;
    Record record;
    if (!folder.empty()) record.requests.open(folder + "/requests");
    record.wanted = !folder.empty() && requests <= SCRIPT_REQUESTS;
    Latency reads, writes;
    ddr::OrderedMemory memory(
        config, [&](const ddr::Reply &reply) { reads.note(reply.head), record.reply(reply); },
        [&](const ddr::Reply &reply) { writes.note(reply.head), record.reply(reply); }, 0, requests <= SCRIPT_REQUESTS);

    std::uint64_t added = 0;
    std::uint64_t cycles = 0;
    while (added < requests || memory.Outstanding() != 0) {
        while (added < requests && memory.WillAccept(0, false)) {
            const std::uint64_t addr = draw.next() % LINES * 64;
            const bool is_write = draw.next() % 2 == 0;
            ddr::OrderedMemory::Line line{};
            line[0] = static_cast<std::uint8_t>(added);
            memory.Add(addr, is_write, line);
            record.request(addr, is_write, line);
            added++;
            if (memory.WillAccept(0, false)) record.taken();
        }
        memory.ClockTick();
        if (memory.WillAccept(0, false)) record.taken();
        record.cycle();
        cycles++;
    }

    const ddr_port_statistics port = memory.Under().port_statistics(0);
    if (!is_told(port.reads.accepted_to_released, reads) || !is_told(port.writes.accepted_to_released, writes))
        throw std::runtime_error("the library counts other requests");
    std::vector<Numbers> channels;
    Numbers total;
    for (std::uint32_t channel = 0; channel < memory.Under().channels(); channel++) {
        std::ofstream trace;
        if (record.wanted) trace.open(folder + "/trace-" + std::to_string(channel));
        if (requests <= SCRIPT_REQUESTS) channels.push_back(traced(memory.Under(), config, channel, record.wanted ? &trace : nullptr));
        else channels.push_back(told_of(memory.Under(), channel));
        total.add(channels.back());
    }
    if (!folder.empty()) {
        std::ofstream statistics(folder + "/statistics");
        print_statistics(statistics, memory.Under(), channels, total, reads, writes);
    }
    if (record.wanted) {
        std::ofstream(folder + "/script") << record.script.str();
        std::ofstream(folder + "/replies") << record.replies.str();
    }
    reads.print("reads");
    writes.print("writes");
    std::printf("cycles: %" PRIu64 ", %.2f bytes in each\n", cycles, 64.0 * static_cast<double>(requests) / static_cast<double>(cycles));
    std::printf("columns: %" PRIu64 ", activates: %" PRIu64 ", refreshes: %" PRIu64 "\n", total.columns(), total.commands[DDR_ACT], total.commands[DDR_REF]);
}

} // namespace

int main(int argc, char **argv) {
    std::ifstream file(argc == 3 || argc == 4 ? argv[1] : "");
    if (!file) {
        std::cerr << "usage: " << argv[0] << " CONFIG REQUESTS [FOLDER]\n";
        return 2;
    }
    const std::string config{std::istreambuf_iterator<char>(file), {}};
    try {
        run(config, std::stoull(argv[2]), argc == 4 ? argv[3] : "");
    } catch (const std::exception &error) {
        std::cerr << error.what() << '\n';
        return 1;
    }
    return 0;
}
