// What gem5 makes of JuqemboMemory.py.
#ifndef STUB_PARAMS_JUQEMBOMEMORY_HH
#define STUB_PARAMS_JUQEMBOMEMORY_HH

#include <string>

#include "mem/abstract_mem.hh"

namespace gem5
{

struct JuqemboMemoryParams : AbstractMemoryParams
{
    std::string config;
    Tick atomic_latency;
};

} // namespace gem5

#endif
