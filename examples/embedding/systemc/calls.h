// An initiator of the loosely timed style: threads that ask by b_transport, each in a region of its own.
#ifndef CALLS_H
#define CALLS_H

#include "traffic.h"

#include <tlm_utils/simple_initiator_socket.h>

class Calls : public sc_core::sc_module {
public:
    tlm_utils::simple_initiator_socket<Calls> socket;

    SC_HAS_PROCESS(Calls);

    Calls(sc_core::sc_module_name name, ddr::Target<> &target, const sc_core::sc_time &period, std::uint64_t count, Record &record)
        : sc_module(name), socket("socket"), period(period), count(count) {
        socket.bind(target.socket);
        target.on_reply = [&](const tlm::tlm_generic_payload &payload, const ddr_reply &head) {
            Ask &it = *payload.get_extension<Ask>();
            it.last = head;
            record.reply(head, it.at);
        };
        SC_THREAD(first);
        SC_THREAD(second);
        SC_THREAD(third);
    }

    bool is_done() const { return done == 3; }

private:
    void first() { ask(0); }
    void second() { ask(1); }
    void third() { ask(2); }

    void ask(std::uint64_t number) {
        Region region(number * 512 * 64, 512 * 64, 101 + number);
        Ask it;
        for (std::uint64_t i = 0; i < count; i++) {
            if (region.draw.one_in(3)) sc_core::wait(sc_core::sc_time::from_value(region.draw.below(40 * period.value())));
            if (region.draw.one_in(100)) sc_core::wait(static_cast<double>(region.draw.below(5000)) * period);
            if (region.draw.one_in(10)) region.debug(socket);
            region.ask(it);
            sc_core::sc_time delay = sc_core::sc_time::from_value(region.draw.one_in(5) ? region.draw.below(5 * period.value()) : 0);
            it.at = edge_behind(sc_core::sc_time_stamp() + delay, period);
            socket->b_transport(it.payload, delay);
            expect(delay == sc_core::SC_ZERO_TIME, "no delay is left");
            expect(sc_core::sc_time_stamp() == sc_core::sc_time::from_value(it.last.released * period.value()), "back when the last reply was taken");
            Region::check(it);
        }
        done++;
    }

    const sc_core::sc_time period;
    const std::uint64_t count;
    unsigned int done = 0;
};

#endif
