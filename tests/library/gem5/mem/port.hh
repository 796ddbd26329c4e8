// A stub of gem5's: a port of a memory, and that of who asks it. Each sees that the other keeps the protocol.
#ifndef STUB_MEM_PORT_HH
#define STUB_MEM_PORT_HH

#include <cassert>
#include <list>
#include <string>

#include "base/types.hh"
#include "mem/packet.hh"

namespace gem5
{

class AddrRange
{
  public:
    AddrRange(Addr begin, Addr end) : begin(begin), end(end) {}
    Addr start() const { return begin; }
    Addr size() const { return end - begin; }
    Addr getOffset(Addr address) const { return address - begin; }

  private:
    Addr begin, end;
};

using AddrRangeList = std::list<AddrRange>;

class Port
{
  public:
    virtual ~Port() = default;
};

class ResponsePort;

class RequestPort : public Port
{
  public:
    void bind(ResponsePort &port);
    bool sendTimingReq(PacketPtr packet);
    void sendRetryResp();
    Tick sendAtomic(PacketPtr packet);
    void sendFunctional(PacketPtr packet);

    virtual bool recvTimingResp(PacketPtr packet) = 0;
    virtual void recvReqRetry() = 0;

  private:
    friend class ResponsePort;

    ResponsePort *peer = nullptr;
};

class ResponsePort : public Port
{
  public:
    explicit ResponsePort(const std::string &, PortID = InvalidPortID) {}

    bool isConnected() const { return peer != nullptr; }
    void sendRangeChange() const { assert(!getAddrRanges().empty()); }
    bool
    sendTimingResp(PacketPtr packet)
    {
        assert(packet->isResponse() && !is_refused);
        is_refused = !peer->recvTimingResp(packet);
        return !is_refused;
    }
    void
    sendRetryReq()
    {
        assert(has_refused);
        has_refused = false;
        peer->recvReqRetry();
    }

  protected:
    virtual Tick recvAtomic(PacketPtr packet) = 0;
    virtual void recvFunctional(PacketPtr packet) = 0;
    virtual bool recvTimingReq(PacketPtr packet) = 0;
    virtual void recvRespRetry() = 0;
    virtual AddrRangeList getAddrRanges() const = 0;

  private:
    friend class RequestPort;

    RequestPort *peer = nullptr;
    bool is_refused = false;  // a response was, until it is retried
    bool has_refused = false; // a request was, until it is retried
};

inline void
RequestPort::bind(ResponsePort &port)
{
    peer = &port;
    port.peer = this;
}

inline bool
RequestPort::sendTimingReq(PacketPtr packet)
{
    assert(!peer->has_refused && !packet->isResponse());
    const bool taken = peer->recvTimingReq(packet);
    if (!taken)
        peer->has_refused = true;
    return taken;
}

inline void
RequestPort::sendRetryResp()
{
    assert(peer->is_refused);
    peer->is_refused = false;
    peer->recvRespRetry();
}

inline Tick
RequestPort::sendAtomic(PacketPtr packet)
{
    return peer->recvAtomic(packet);
}

inline void
RequestPort::sendFunctional(PacketPtr packet)
{
    peer->recvFunctional(packet);
}

} // namespace gem5

#endif
