// An initiator of the approximately timed style: it asks by nb_transport_fw, and ends responses in each of the ways that the standard has.
#ifndef PHASES_H
#define PHASES_H

#include "traffic.h"

#include <memory>
#include <tlm_utils/simple_initiator_socket.h>

// Payloads that are used again once nobody holds them.
class Pool : public tlm::tlm_mm_interface {
public:
    Ask &take() {
        if (idle.empty()) {
            all.push_back(std::make_unique<Ask>());
            all.back()->payload.set_mm(this);
            idle.push_back(all.back().get());
        }
        Ask &it = *idle.back();
        idle.pop_back();
        it.payload.acquire();
        return it;
    }
    void free(tlm::tlm_generic_payload *payload) override { idle.push_back(payload->get_extension<Ask>()); }
    bool is_whole() const { return idle.size() == all.size(); }

private:
    std::vector<std::unique_ptr<Ask>> all;
    std::vector<Ask *> idle;
};

class Phases : public sc_core::sc_module {
public:
    tlm_utils::simple_initiator_socket<Phases> socket;

    SC_HAS_PROCESS(Phases);

    // Where it is slow, the ends of its responses take time. What is written of it has then when a request was accepted in place of when it
    // came, since a reply that waits for its response holds the window, of which `replay` knows nothing.
    Phases(sc_core::sc_module_name name, ddr::Target<> &target, const sc_core::sc_time &period, std::uint64_t count, bool is_slow, Record &record)
        : sc_module(name), socket("socket"), period(period), count(count), is_slow(is_slow), region(0, 2048 * 64, 11) {
        socket.register_nb_transport_bw(this, &Phases::backward);
        socket.bind(target.socket);
        target.on_reply = [&](const tlm::tlm_generic_payload &payload, const ddr_reply &head) {
            Ask &it = *payload.get_extension<Ask>();
            it.last = head;
            record.reply(head, this->is_slow ? head.accepted : it.at);
        };
        SC_THREAD(ask);
        SC_METHOD(end);
        dont_initialize();
        sensitive << ending;
    }

    // Whether all was answered, and each payload given back.
    bool is_done() const { return answered == count && pool.is_whole(); }

private:
    void ask() {
        for (std::uint64_t i = 0; i < count; i++) {
            if (region.draw.one_in(3)) sc_core::wait(sc_core::sc_time::from_value(region.draw.below(20 * period.value())));
            if (region.draw.one_in(200)) sc_core::wait(static_cast<double>(region.draw.below(3000)) * period);
            if (region.draw.one_in(10)) region.debug(socket);
            Ask &it = pool.take();
            region.ask(it);
            tlm::tlm_phase phase = tlm::BEGIN_REQ;
            sc_core::sc_time delay = sc_core::sc_time::from_value(region.draw.one_in(5) ? region.draw.below(5 * period.value()) : 0);
            it.at = edge_behind(sc_core::sc_time_stamp() + delay, period);
            const tlm::tlm_sync_enum answer = socket->nb_transport_fw(it.payload, phase, delay);
            expect(answer == tlm::TLM_ACCEPTED, "TLM_ACCEPTED");
            sc_core::wait(end_req);
        }
    }

    tlm::tlm_sync_enum backward(tlm::tlm_generic_payload &payload, tlm::tlm_phase &phase, sc_core::sc_time &delay) {
        Ask &it = *payload.get_extension<Ask>();
        expect(delay == sc_core::SC_ZERO_TIME, "no delay");
        if (phase == tlm::END_REQ) {
            it.end_req = sc_core::sc_time_stamp();
            end_req.notify(sc_core::SC_ZERO_TIME);
            return tlm::TLM_ACCEPTED;
        }
        expect(phase == tlm::BEGIN_RESP, "END_REQ or BEGIN_RESP");
        expect(responding == nullptr && sc_core::sc_time_stamp() >= next_response, "one response at a time");
        expect(it.end_req == sc_core::sc_time::from_value(it.last.accepted * period.value()), "END_REQ when the last part was accepted");
        expect(sc_core::sc_time_stamp() == sc_core::sc_time::from_value(it.last.released * period.value()), "BEGIN_RESP when its reply was taken");
        Region::check(it);
        return respond(it, phase, delay);
    }

    // Ends a response in one of the three ways: with the answer, with the phase that is answered, or by a call later on.
    tlm::tlm_sync_enum respond(Ask &it, tlm::tlm_phase &phase, sc_core::sc_time &delay) {
        const sc_core::sc_time later = sc_core::sc_time::from_value(is_slow ? region.draw.below(8 * period.value()) : 0);
        const std::uint64_t way = region.draw.below(3);
        answered++;
        next_response = sc_core::sc_time_stamp() + later;
        if (way == 0) {
            responding = &it;
            ending.notify(later);
            return tlm::TLM_ACCEPTED;
        }
        delay = later;
        if (way == 1) phase = tlm::END_RESP;
        it.payload.release();
        return way == 1 ? tlm::TLM_UPDATED : tlm::TLM_COMPLETED;
    }

    void end() {
        Ask &it = *std::exchange(responding, nullptr);
        tlm::tlm_phase phase = tlm::END_RESP;
        sc_core::sc_time delay = sc_core::SC_ZERO_TIME;
        socket->nb_transport_fw(it.payload, phase, delay);
        it.payload.release();
    }

    const sc_core::sc_time period;
    const std::uint64_t count;
    const bool is_slow;
    Region region;
    Pool pool;
    std::uint64_t answered = 0;
    Ask *responding = nullptr;
    sc_core::sc_time next_response;
    sc_core::sc_event end_req, ending;
};

#endif
