// A stub of gem5's: the types that memories speak of.
#ifndef STUB_BASE_TYPES_HH
#define STUB_BASE_TYPES_HH

#include <cstdint>

namespace gem5
{

using Tick = std::uint64_t;
using Addr = std::uint64_t;
using PortID = std::int16_t;

constexpr PortID InvalidPortID = -1;

class Cycles
{
  public:
    explicit constexpr Cycles(std::uint64_t count) : count(count) {}
    constexpr operator std::uint64_t() const { return count; }
    constexpr Cycles operator+(const Cycles &other) const { return Cycles(count + other.count); }
    constexpr Cycles operator-(const Cycles &other) const { return Cycles(count - other.count); }

  private:
    std::uint64_t count;
};

} // namespace gem5

#endif
