// The memory's calls: `juqembo_memory.hh` says what they do.
#include "juqembo_memory.hh"

#include <fstream>
#include <iterator>

#include "base/logging.hh"
#include "sim/cur_tick.hh"

namespace gem5
{

namespace memory
{

namespace
{

constexpr Addr LINE = 64;

std::unique_ptr<ddr::Core>
open_core(const std::string &name)
{
    std::ifstream file(name);
    if (!file)
        fatal("the configuration %s can't be read", name);
    const std::string text{std::istreambuf_iterator<char>(file), {}};
    try {
        return std::make_unique<ddr::Core>(text);
    } catch (const ddr::Error &error) {
        fatal("the configuration %s: %s", name, error.what());
    }
}

} // anonymous namespace

JuqemboMemory::JuqemboMemory(const JuqemboMemoryParams &params)
    : AbstractMemory(params), port(name() + ".port", *this), core(open_core(params.config)),
      atomic_latency(params.atomic_latency), event([this] { work(); }, name() + ".event")
{
}

void
JuqemboMemory::init()
{
    AbstractMemory::init();
    if (!port.isConnected())
        fatal("the port of %s is not connected", name());
    // Where no byte is asked for, the core says first whether the address lies below its capacity.
    std::uint64_t number = 0;
    if (core->read(0, getAddrRange().size() - 1, 0, number) == DDR_OUT_OF_RANGE)
        fatal("the range of %s is longer than its configuration's capacity", name());
    port.sendRangeChange();
}

void
JuqemboMemory::startup()
{
    AbstractMemory::startup();
    first = curCycle();
}

Port &
JuqemboMemory::getPort(const std::string &name, PortID id)
{
    return name == "port" ? port : AbstractMemory::getPort(name, id);
}

DrainState
JuqemboMemory::drain()
{
    return is_empty() ? DrainState::Drained : DrainState::Draining;
}

Tick
JuqemboMemory::atomic(PacketPtr packet)
{
    access(packet);
    return packet->cacheResponding() ? 0 : atomic_latency;
}

// The backing store has the bytes of all packets that were taken, so only what is on its way back has to be changed too.
void
JuqemboMemory::functional(PacketPtr packet)
{
    packet->pushLabel(name());
    functionalAccess(packet);
    if (packet->isWrite()) {
        for (const Line &line : waiting)
            if (line.answers)
                packet->trySatisfyFunctional(line.answers);
        for (PacketPtr answer : taken)
            if (answer)
                packet->trySatisfyFunctional(answer);
        for (PacketPtr answer : responses)
            packet->trySatisfyFunctional(answer);
    }
    packet->popLabel();
}

bool
JuqemboMemory::request(PacketPtr packet)
{
    if (packet->cacheResponding()) { // a cache answers in place of the memory
        sunk.reset(packet);
        return true;
    }
    if (!waiting.empty()) {
        owes_retry = true;
        return false;
    }
    const bool is_read = packet->isRead(), is_asked = is_read || packet->isWrite(), answers = packet->needsResponse();
    const Addr begin = getAddrRange().getOffset(packet->getAddr()), end = begin + packet->getSize();
    waiting_from = edge_behind(packet->headerDelay + packet->payloadDelay);
    packet->headerDelay = packet->payloadDelay = 0;
    access(packet); // makes an answer of a packet that wants one
    if (is_asked)
        for (Addr line = begin - begin % LINE; line < end; line += LINE)
            waiting.push_back({line, !is_read, answers && line + LINE >= end ? packet : nullptr});
    else if (answers)
        responses.push_back(packet);
    if (!answers)
        sunk.reset(packet);
    wake_at(waiting_from);
    return true;
}

void
JuqemboMemory::response_retry()
{
    is_refused = false;
    send_responses();
    wake_at(clockEdge());
}

// What is done at an edge.
void
JuqemboMemory::work()
{
    const std::uint64_t now = curCycle() - first;
    core->rounds(now - core->cycle(0));
    send_responses();
    take_replies();
    submit();
    if (waiting.empty() && owes_retry) {
        owes_retry = false;
        port.sendRetryReq();
    }
    if (is_empty() && drainState() == DrainState::Draining)
        signalDrainDone();
    if (!waiting.empty() && curTick() < waiting_from)
        wake_at(waiting_from);
    if (!waiting.empty() || !taken.empty())
        wake_at(clockEdge(Cycles(core->quiet() + 1)));
}

// Takes the replies that are ready, until a response is refused.
void
JuqemboMemory::take_replies()
{
    while (responses.empty() && !taken.empty() && core->next(0)) {
        PacketPtr answer = taken.front();
        taken.pop_front();
        if (answer)
            respond(answer);
    }
}

// Asks the core's port for what waits, until it has no room.
void
JuqemboMemory::submit()
{
    while (!waiting.empty() && curTick() >= waiting_from) {
        const Line line = waiting.front();
        static const char nothing[LINE] = {};
        std::uint64_t number = 0;
        const std::int32_t code = line.is_write ? core->write(0, line.address, {nothing, LINE}, number)
                                                : core->read(0, line.address, LINE, number);
        if (code == DDR_BUSY || code == DDR_WINDOW_FULL)
            return;
        ddr::Core::check(code, "ddr_submit");
        waiting.pop_front();
        taken.push_back(line.is_write ? nullptr : line.answers);
        if (line.is_write && line.answers)
            respond(line.answers);
    }
}

void
JuqemboMemory::respond(PacketPtr packet)
{
    responses.push_back(packet);
    send_responses();
}

void
JuqemboMemory::send_responses()
{
    while (!is_refused && !responses.empty()) {
        // It is the receiver's from here on, but where it is refused.
        PacketPtr packet = responses.front();
        responses.pop_front();
        if (!port.sendTimingResp(packet)) {
            responses.push_front(packet);
            is_refused = true;
        }
    }
}

void
JuqemboMemory::wake_at(Tick when)
{
    if (!event.scheduled())
        schedule(event, when);
    else if (when < event.when())
        reschedule(event, when);
}

// The first clock edge that is so long from now, or longer.
Tick
JuqemboMemory::edge_behind(Tick delay) const
{
    const Tick next = clockEdge(), wanted = curTick() + delay;
    return wanted <= next ? next : clockEdge(ticksToCycles(wanted - next));
}

} // namespace memory
} // namespace gem5
