// The memory of examples/embedding/gem5 over a stub of gem5: times reckoned by hand, and then reads and writes by chance, with requests and
// responses that are refused, whose bytes are compared with the requester's own.
//
//     gem5 CONFIG COUNT       CONFIG is examples/sample.config; so many are sent by chance, twice
//
// The clock has 1000 ticks. A read of a closed bank is complete in cycle 12, which is made by 13,000: ACT, RD rcd = 4 later, its line
// cl + 4 = 8 behind that. A write is answered when the port has accepted it. The memory begins at address 0x80000000.
#include "juqembo_memory.hh"

#include <cinttypes>
#include <cstdio>
#include <map>

#include "base/logging.hh"

namespace
{

using namespace gem5;
using Bytes = std::vector<std::uint8_t>;
using Kind = Packet::Kind;

constexpr Addr START = 0x80000000, CAPACITY = 262144, USED = 65536;
constexpr Tick PERIOD = 1000;
unsigned failed = 0;

void
wants(const char *what, std::uint64_t got, std::uint64_t wanted)
{
    if (got == wanted)
        return;
    std::printf("%s: %" PRIu64 ", wanted %" PRIu64 "\n", what, got, wanted);
    failed++;
}

std::uint64_t
draw(std::uint64_t limit)
{
    static std::uint64_t state = 3;
    state ^= state >> 12;
    state ^= state << 25;
    state ^= state >> 27;
    return ((state * 0x2545f4914f6cdd1dULL) >> 32) % limit;
}

class Requester : public RequestPort
{
  public:
    std::uint64_t refuses_one_in = 0; // of the responses
    bool refuses_all = false;         // until `resume`
    std::uint64_t answered = 0, requests_refused = 0, responses_refused = 0;
    Tick last = 0; // when the last response came
    PacketPtr held = nullptr; // a request that was refused

    // Sends a read or a write, whose right bytes are known then.
    void
    send(PacketPtr packet)
    {
        const Addr place = packet->address - START;
        if (packet->isWrite())
            std::copy(packet->bytes.begin(), packet->bytes.end(), bytes.begin() + static_cast<std::ptrdiff_t>(place));
        if (packet->needsResponse())
            wanted[packet].assign(bytes.begin() + static_cast<std::ptrdiff_t>(place),
                                  bytes.begin() + static_cast<std::ptrdiff_t>(place + packet->getSize()));
        if (!sendTimingReq(packet)) {
            held = packet;
            requests_refused++;
        }
    }
    void
    resume()
    {
        refuses_all = false;
        sendRetryResp();
    }
    // No request may be held.
    void
    functional(Kind kind, Addr address, Bytes data)
    {
        Packet packet(kind, address, std::move(data));
        sendFunctional(&packet);
        const auto here = bytes.begin() + static_cast<std::ptrdiff_t>(address - START);
        if (packet.isWrite())
            std::copy(packet.bytes.begin(), packet.bytes.end(), here);
        wants("functional bytes", std::equal(packet.bytes.begin(), packet.bytes.end(), here), 1);
        // Reads on their way back have the new bytes too.
        if (packet.isWrite())
            for (auto &[waiting, right] : wanted)
                for (Addr i = 0; i < right.size(); i++)
                    if (waiting->address + i >= address && waiting->address + i < address + packet.getSize())
                        right[i] = packet.bytes[waiting->address + i - address];
    }
    bool is_done() const { return wanted.empty() && !held; }

    bool
    recvTimingResp(PacketPtr packet) override
    {
        if (refuses_all || (refuses_one_in && draw(refuses_one_in) == 0)) {
            responses_refused++;
            if (refuses_all)
                return false;
            EventQueue::get().insert(retry, curTick() + draw(20 * PERIOD));
            return false;
        }
        if (packet->isRead())
            wants("bytes", packet->bytes == wanted.at(packet), 1);
        wanted.erase(packet);
        delete packet;
        last = curTick();
        answered++;
        return true;
    }
    void
    recvReqRetry() override
    {
        PacketPtr packet = held;
        held = nullptr;
        if (!sendTimingReq(packet)) {
            held = packet;
            requests_refused++;
        }
    }

  private:
    Bytes bytes = Bytes(CAPACITY);
    std::map<PacketPtr, Bytes> wanted;
    EventFunctionWrapper retry{[this] { sendRetryResp(); }, "retry"};
};

struct Bench
{
    memory::JuqemboMemory memory;
    Requester requester;

    explicit Bench(const std::string &config, Addr size = CAPACITY) : memory({{"memory", PERIOD, {START, START + size}}, config, 50000})
    {
        requester.bind(dynamic_cast<ResponsePort &>(memory.getPort("port")));
        memory.init();
        memory.startup();
    }
    void
    until(Tick tick)
    {
        EventFunctionWrapper stop([] {}, "stop");
        EventQueue::get().insert(stop, tick);
        while (stop.scheduled())
            EventQueue::get().serve();
    }
};

// From tick 0 on, which is the core's cycle 0.
void
times(const std::string &config)
{
    Bench bench(config);
    Requester &requester = bench.requester;
    requester.send(new Packet(Kind::Read, START, Bytes(64)));
    bench.until(50000);
    wants("a read's answer", requester.last, 13000);
    // The row is open: an RD at once, and its line in cycle 108. It asks at the edge at 100,000, since it comes at 98,700 and is 600 on the bus.
    bench.until(98700);
    auto *delayed = new Packet(Kind::Read, START + 64, Bytes(64));
    delayed->headerDelay = 400;
    delayed->payloadDelay = 200;
    requester.send(delayed);
    bench.until(150000);
    wants("a read's answer behind an open row", requester.last, 109000);
    bench.until(150300);
    requester.send(new Packet(Kind::Write, START, Bytes(64, 5)));
    bench.until(190000);
    wants("a write's answer", requester.last, 151000);
    // Two lines, RDs in cycles 1000104 and 1000109 of a row that refreshes closed: the second is complete in 1000117.
    const std::uint64_t before = EventQueue::get().served;
    bench.until(1000100000);
    wants("nothing is done in idle time", EventQueue::get().served - before < 10, 1);
    requester.send(new Packet(Kind::Read, START + 60, Bytes(8)));
    bench.until(1000200000);
    wants("a read's answer over two lines", requester.last, 1000118000);
    wants("answers", requester.answered, 4);
}

void
others(const std::string &config)
{
    Bench bench(config);
    Packet read(Kind::Read, START + 4, Bytes(4));
    bench.requester.functional(Kind::Write, START, {1, 2, 3, 4, 5, 6, 7, 8});
    wants("atomic latency", bench.requester.sendAtomic(&read), 50000);
    wants("atomic bytes", read.bytes == Bytes{5, 6, 7, 8}, 1);
    bench.requester.send(new Packet(Kind::Other, START, Bytes(0)));
    auto *snooped = new Packet(Kind::Writeback, START, Bytes(8, 9));
    snooped->cache_responds = true;
    wants("a packet that a cache answers", bench.requester.sendTimingReq(snooped), 1);
    bench.until(curTick() + 10000);
    wants("one that is neither read nor write", bench.requester.answered, 1);
    bench.requester.functional(Kind::Read, START, Bytes(8));
    bool thrown = false;
    try {
        Bench large(config, CAPACITY + 64);
    } catch (const std::runtime_error &) {
        thrown = true;
    }
    wants("a range that is too long", thrown, 1);
}

// While a response is refused, one packet is there to be sent, 4 fill the window, and one waits for the port: the seventh is refused.
// On each step of its way a read is changed by functional writes.
void
refused(const std::string &config)
{
    Bench bench(config);
    Requester &requester = bench.requester;
    requester.refuses_all = true;
    unsigned sent = 0;
    while (!requester.held && sent < 20) {
        requester.send(new Packet(Kind::Read, START + 64 * sent++, Bytes(64)));
        if (sent == 1)
            requester.functional(Kind::Write, START + 1, {91});
        bench.until(curTick() + 1000);
        if (sent == 1)
            requester.functional(Kind::Write, START + 2, {92});
        bench.until(curTick() + 50000);
    }
    wants("packets sent while a response is refused", sent, 7);
    wants("answered meanwhile", requester.answered, 0);
    wants("responses refused", requester.responses_refused, 1);
    requester.resume();
    bench.until(curTick() + 50000);
    wants("answered then", requester.answered, 7);

    requester.refuses_all = true;
    requester.send(new Packet(Kind::Read, START, Bytes(8)));
    bench.until(curTick() + 50000);
    requester.functional(Kind::Write, START + 3, {93});
    wants("a response is refused", requester.responses_refused, 2);
    requester.resume();
    bench.until(curTick() + 50000);
    wants("a read that a functional write changed on its way", requester.answered, 8);
}

void
chance(const std::string &config, std::uint64_t count, std::uint64_t refuses_one_in)
{
    Bench bench(config);
    Requester &requester = bench.requester;
    requester.refuses_one_in = refuses_one_in;
    std::uint64_t answers = 0;
    for (std::uint64_t i = 0; i < count; i++) {
        if (requester.held || draw(3) == 0)
            bench.until(curTick() + draw(8 * PERIOD));
        if (requester.held)
            continue;
        if (draw(100) == 0)
            requester.functional(draw(2) ? Kind::Read : Kind::Write, START + draw(USED - 200), Bytes(1 + draw(200), static_cast<std::uint8_t>(i)));
        const Addr length = draw(4) == 0 ? 1 + draw(200) : 64, place = length == 64 ? draw(USED / 64) * 64 : draw(USED - length);
        const Kind kind = draw(2) ? Kind::Read : draw(4) ? Kind::Write : Kind::Writeback;
        answers += kind != Kind::Writeback;
        requester.send(new Packet(kind, START + place, Bytes(length, static_cast<std::uint8_t>(draw(256)))));
    }
    bench.memory.begin_drain();
    wants("has to be drained", bench.memory.drainState() == DrainState::Draining, 1);
    while (EventQueue::get().serve()) {
    }
    wants("drained", bench.memory.drainState() == DrainState::Drained, 1);
    wants("all answered", requester.is_done(), 1);
    wants("answers", requester.answered, answers);
    wants("requests were refused", requester.requests_refused != 0, 1);
    wants("responses were refused", requester.responses_refused != 0, refuses_one_in != 0);
    std::printf("%" PRIu64 " packets answered, %" PRIu64 " requests and %" PRIu64 " responses refused meanwhile\n", requester.answered,
                requester.requests_refused, requester.responses_refused);
}

} // anonymous namespace

int
main(int argc, char **argv)
{
    if (argc != 3) {
        std::fprintf(stderr, "usage: %s CONFIG COUNT\n", argv[0]);
        return 2;
    }
    times(argv[1]);
    others(argv[1]);
    refused(argv[1]);
    chance(argv[1], std::stoull(argv[2]), 0);
    chance(argv[1], std::stoull(argv[2]), 4);
    wants("packets left", static_cast<std::uint64_t>(Packet::alive), 0);
    return failed == 0 ? 0 : 1;
}
