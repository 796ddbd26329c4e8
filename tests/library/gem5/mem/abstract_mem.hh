// A stub of gem5's: an object with a clock that can be drained, and a memory with its bytes.
#ifndef STUB_MEM_ABSTRACT_MEM_HH
#define STUB_MEM_ABSTRACT_MEM_HH

#include <cassert>
#include <stdexcept>
#include <string>
#include <vector>

#include "base/types.hh"
#include "mem/packet.hh"
#include "mem/port.hh"
#include "sim/eventq.hh"

namespace gem5
{

enum class DrainState { Running, Draining, Drained };

struct AbstractMemoryParams
{
    std::string name;
    Tick period;
    AddrRange range;
};

class ClockedObject
{
  public:
    ClockedObject(const std::string &name, Tick period) : its_name(name), period(period) {}
    virtual ~ClockedObject() = default;

    virtual void init() {}
    virtual void startup() {}
    virtual DrainState drain() = 0;
    virtual Port &
    getPort(const std::string &, PortID)
    {
        throw std::runtime_error("there is no such port");
    }

    const std::string &name() const { return its_name; }
    DrainState drainState() const { return state; }
    // Begins a drain, as the simulator does.
    void begin_drain() { state = drain(); }

  protected:
    Cycles curCycle() const { return Cycles((curTick() + period - 1) / period); }
    Cycles ticksToCycles(Tick ticks) const { return Cycles((ticks + period - 1) / period); }
    Tick clockEdge(Cycles cycles = Cycles(0)) const { return (curCycle() + cycles) * period; }
    void schedule(EventFunctionWrapper &event, Tick when) { EventQueue::get().insert(event, when); }
    void
    reschedule(EventFunctionWrapper &event, Tick when)
    {
        EventQueue::get().remove(event);
        EventQueue::get().insert(event, when);
    }
    void
    signalDrainDone()
    {
        assert(state == DrainState::Draining);
        state = DrainState::Drained;
    }

  private:
    std::string its_name;
    Tick period;
    DrainState state = DrainState::Running;
};

namespace memory
{

class AbstractMemory : public ClockedObject
{
  public:
    explicit AbstractMemory(const AbstractMemoryParams &params)
        : ClockedObject(params.name, params.period), range(params.range), bytes(params.range.size())
    {
    }

    AddrRange getAddrRange() const { return range; }
    void
    access(PacketPtr packet)
    {
        if (packet->cacheResponding())
            return;
        serve(packet);
        if (packet->needsResponse())
            packet->makeResponse();
    }
    void
    functionalAccess(PacketPtr packet)
    {
        serve(packet);
        packet->makeResponse();
    }

  private:
    void
    serve(PacketPtr packet)
    {
        const auto here = bytes.begin() + static_cast<std::ptrdiff_t>(range.getOffset(packet->getAddr()));
        if (packet->isWrite())
            std::copy(packet->bytes.begin(), packet->bytes.end(), here);
        else if (packet->isRead())
            std::copy_n(here, packet->bytes.size(), packet->bytes.begin());
    }

    AddrRange range;
    std::vector<std::uint8_t> bytes;
};

} // namespace memory
} // namespace gem5

#endif
