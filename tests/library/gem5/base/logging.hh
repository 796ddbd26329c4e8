// A stub of gem5's: a fault of the user throws its sentence.
#ifndef STUB_BASE_LOGGING_HH
#define STUB_BASE_LOGGING_HH

#include <sstream>
#include <stdexcept>

namespace gem5
{

template <typename... Words>
[[noreturn]] void
fatal(const Words &...words)
{
    std::ostringstream text;
    ((text << words << ' '), ...);
    throw std::runtime_error(text.str());
}

} // namespace gem5

#endif
