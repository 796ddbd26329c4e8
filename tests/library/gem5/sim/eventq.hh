// A stub of gem5's: events, in the order of their ticks, and of one tick as they were scheduled.
#ifndef STUB_SIM_EVENTQ_HH
#define STUB_SIM_EVENTQ_HH

#include <cassert>
#include <functional>
#include <list>
#include <string>

#include "sim/cur_tick.hh"

namespace gem5
{

class EventFunctionWrapper
{
  public:
    EventFunctionWrapper(const std::function<void()> &callback, const std::string &) : callback(callback) {}
    ~EventFunctionWrapper() { assert(!is_scheduled); }
    bool scheduled() const { return is_scheduled; }
    Tick when() const { return tick; }

  private:
    friend class EventQueue;

    std::function<void()> callback;
    bool is_scheduled = false;
    Tick tick = 0;
};

class EventQueue
{
  public:
    static EventQueue &get();

    void
    insert(EventFunctionWrapper &event, Tick when)
    {
        assert(!event.is_scheduled && when >= now);
        event.is_scheduled = true;
        event.tick = when;
        auto place = events.begin();
        while (place != events.end() && (*place)->tick <= when)
            ++place;
        events.insert(place, &event);
    }
    void
    remove(EventFunctionWrapper &event)
    {
        event.is_scheduled = false;
        events.remove(&event);
    }
    // Serves the next event, if there is one.
    bool
    serve()
    {
        if (events.empty())
            return false;
        EventFunctionWrapper &event = *events.front();
        events.pop_front();
        event.is_scheduled = false;
        now = event.tick;
        served++;
        event.callback();
        return true;
    }

    Tick now = 0;
    std::uint64_t served = 0;

  private:
    std::list<EventFunctionWrapper *> events;
};

inline EventQueue &
EventQueue::get()
{
    static EventQueue queue;
    return queue;
}

inline Tick
curTick()
{
    return EventQueue::get().now;
}

} // namespace gem5

#endif
