// A stub of gem5's: packets of reads and writes, and of a kind that is neither.
#ifndef STUB_MEM_PACKET_HH
#define STUB_MEM_PACKET_HH

#include <algorithm>
#include <string>
#include <vector>

#include "base/types.hh"

namespace gem5
{

class Packet
{
  public:
    enum class Kind { Read, Write, Writeback, Other };

    Packet(Kind kind, Addr address, std::vector<std::uint8_t> bytes) : kind(kind), address(address), bytes(std::move(bytes)) { alive++; }
    Packet(const Packet &) = delete;
    Packet &operator=(const Packet &) = delete;
    ~Packet() { alive--; }

    bool isRead() const { return kind == Kind::Read; }
    bool isWrite() const { return kind == Kind::Write || kind == Kind::Writeback; }
    bool isResponse() const { return is_response; }
    bool needsResponse() const { return !is_response && kind != Kind::Writeback; }
    bool cacheResponding() const { return cache_responds; }
    void makeResponse() { is_response = true; }
    Addr getAddr() const { return address; }
    unsigned getSize() const { return static_cast<unsigned>(bytes.size()); }
    void pushLabel(const std::string &) {}
    void popLabel() {}

    // Changes the bytes of another packet, where this one writes them.
    bool
    trySatisfyFunctional(Packet *other)
    {
        if (isWrite() && other->isRead())
            for (Addr i = 0; i < other->bytes.size(); i++) {
                const Addr here = other->address + i;
                if (here >= address && here < address + bytes.size())
                    other->bytes[i] = bytes[here - address];
            }
        return false;
    }

    std::uint32_t headerDelay = 0, payloadDelay = 0;
    bool cache_responds = false;
    const Kind kind;
    const Addr address;
    std::vector<std::uint8_t> bytes;
    inline static int alive = 0;

  private:
    bool is_response = false;
};

using PacketPtr = Packet *;

} // namespace gem5

#endif
