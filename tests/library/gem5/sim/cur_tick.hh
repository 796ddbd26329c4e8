// A stub of gem5's: the time.
#ifndef STUB_SIM_CUR_TICK_HH
#define STUB_SIM_CUR_TICK_HH

#include "base/types.hh"

namespace gem5
{

Tick curTick();

} // namespace gem5

#endif
