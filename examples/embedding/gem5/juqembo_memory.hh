// Juqembo as a memory of gem5 with timing requests, over `ddr.hpp`. It is written for the interfaces of gem5 23 and later, from memory.
// tests/library compiles it against a stub of gem5's headers and runs it there; it was not tried with gem5 itself.
//
// Bytes. They lie in gem5's backing store, where access() serves a packet when it is taken. So they are those of the order in which packets
// come, which is the order of the core's requests. The core serves the time, and its own bytes are not used.
//
// Time. The clock domain is the DRAM clock. Cycle 0 of the core is that of startup(). A packet asks at the clock edge at or behind its tick
// and its delays on the bus, by port 0, for each line of 64 bytes that it touches, in their order; one that is a read and a write asks for
// reads. A read is answered at the edge at which its last reply is taken, and a write at that at which the port has accepted its last line.
// The event comes at the edges behind which there is something to do: quiet cycles are passed at once, and while nothing is
// outstanding it doesn't come.
//
// Flow. One packet waits for the port, and the next one is refused meanwhile, and retried once that one is accepted. While a response is
// refused no reply is taken, so that the window of the port fills. drain() waits until all is answered. A checkpoint has the bytes, and
// nothing of the core, which begins anew.
#ifndef JUQEMBO_MEMORY_HH
#define JUQEMBO_MEMORY_HH

#include "ddr.hpp"

#include <deque>
#include <memory>
#include <string>

#include "mem/abstract_mem.hh"
#include "mem/packet.hh"
#include "mem/port.hh"
#include "params/JuqemboMemory.hh"
#include "sim/eventq.hh"

namespace gem5
{

namespace memory
{

class JuqemboMemory : public AbstractMemory
{
  public:
    explicit JuqemboMemory(const JuqemboMemoryParams &params);

    void init() override;
    void startup() override;
    DrainState drain() override;
    Port &getPort(const std::string &name, PortID id = InvalidPortID) override;

  private:
    class Input : public ResponsePort
    {
      public:
        Input(const std::string &name, JuqemboMemory &memory) : ResponsePort(name), memory(memory) {}

      protected:
        Tick recvAtomic(PacketPtr packet) override { return memory.atomic(packet); }
        void recvFunctional(PacketPtr packet) override { memory.functional(packet); }
        bool recvTimingReq(PacketPtr packet) override { return memory.request(packet); }
        void recvRespRetry() override { memory.response_retry(); }
        AddrRangeList getAddrRanges() const override { return {memory.getAddrRange()}; }

      private:
        JuqemboMemory &memory;
    };

    // A line that a packet asks for. The last one has the packet, where that is to be answered.
    struct Line
    {
        Addr address;
        bool is_write;
        PacketPtr answers;
    };

    Tick atomic(PacketPtr packet);
    void functional(PacketPtr packet);
    bool request(PacketPtr packet);
    void response_retry();

    void work();
    void take_replies();
    void submit();
    void respond(PacketPtr packet);
    void send_responses();
    void wake_at(Tick when);
    Tick edge_behind(Tick delay) const;
    bool is_empty() const { return waiting.empty() && taken.empty() && responses.empty(); }

    Input port;
    std::unique_ptr<ddr::Core> core;
    const Tick atomic_latency;
    Cycles first{0};                 // that of startup()
    std::deque<Line> waiting;        // lines of one packet that the core's port has not accepted
    Tick waiting_from = 0;           // the edge at which it may be asked for them
    std::deque<PacketPtr> taken;     // of each line that it accepted: the read that is answered with its reply, or none
    std::deque<PacketPtr> responses; // what was not sent yet
    bool is_refused = false;         // a response was refused, and its retry didn't come yet
    bool owes_retry = false;         // a request was refused
    std::unique_ptr<Packet> sunk;    // one that isn't answered: its sender may still look at it behind the call
    EventFunctionWrapper event;
};

} // namespace memory
} // namespace gem5

#endif
