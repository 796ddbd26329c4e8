// The SystemC target with what stands in no stream: times reckoned by hand, payloads that are refused, byte enables, streaming widths
// and bursts, the rule of one response at a time, reference counts, debug, and what breaks the protocol.
//
//     tlm CONFIG              CONFIG is examples/sample.config
//
// Each scenario has a memory of its own, with a clock of 1 ns, so that cycle n begins at n ns. A read of a closed bank has its ACT in the
// cycle in which it is accepted, its RD rcd = 4 later, and is complete cl + 4 = 8 behind that, in cycle 12. That cycle is over at 13 ns.
// Addresses 0 to 511 are a row of bank 0, whose next row begins at 8192. RDs of a row come no closer than ccd_l = 5. The first refresh
// falls due at 200. The memory has 262,144 bytes.
#include "ddr_tlm.h"

#include <cstdio>
#include <fstream>
#include <iterator>
#include <memory>
#include <numeric>
#include <tlm_utils/simple_initiator_socket.h>
#include <vector>

namespace {

using Payload = tlm::tlm_generic_payload;
using Bytes = std::vector<unsigned char>;

constexpr tlm::tlm_command READ = tlm::TLM_READ_COMMAND, WRITE = tlm::TLM_WRITE_COMMAND;

std::string config;
unsigned int failed = 0;

void wants(const char *what, std::int64_t got, std::int64_t wanted) {
    if (got == wanted) return;
    std::printf("%s: %lld, wanted %lld\n", what, static_cast<long long>(got), static_cast<long long>(wanted));
    failed++;
}

sc_core::sc_time ns(double count) { return sc_core::sc_time(count, sc_core::SC_NS); }
std::int64_t now() { return static_cast<std::int64_t>(sc_core::sc_time_stamp().value()); } // in ps

// A payload whose data lie in it, and which counts how often it was given back.
struct Ask : tlm::tlm_mm_interface {
    Bytes data, enables;
    Payload payload;
    int freed = 0;

    Ask(tlm::tlm_command command, std::uint64_t address, Bytes bytes, Bytes enable = {}) : data(std::move(bytes)), enables(std::move(enable)) {
        payload.set_mm(this);
        payload.set_command(command);
        payload.set_address(address);
        payload.set_data_ptr(data.data());
        payload.set_data_length(static_cast<unsigned int>(data.size()));
        payload.set_streaming_width(static_cast<unsigned int>(data.size()));
        payload.set_byte_enable_ptr(enables.empty() ? nullptr : enables.data());
        payload.set_byte_enable_length(static_cast<unsigned int>(enables.size()));
    }
    void free(Payload *) override { freed++; }
};

struct Host : sc_core::sc_module {
    // A phase that came, and when, in ps.
    struct Came {
        const Payload *payload;
        bool is_response;
        std::int64_t when;
    };

    ddr::Target<> memory;
    tlm_utils::simple_initiator_socket<Host> socket;
    std::vector<Came> came;
    std::vector<ddr_reply> replies;
    tlm::tlm_sync_enum answer = tlm::TLM_COMPLETED; // to BEGIN_RESP
    sc_core::sc_time answer_delay;
    std::vector<Ask *> within; // each asked in the call that brings an END_REQ
    bool ends_within = false;  // whether END_RESP is sent in the call that brings BEGIN_RESP

    SC_HAS_PROCESS(Host);

    Host(sc_core::sc_module_name name, void (*scenario)(Host &))
        : sc_module(name), memory("memory", config, ns(1)), socket("socket"), scenario(scenario) {
        socket.register_nb_transport_bw(this, &Host::backward);
        socket.bind(memory.socket);
        memory.on_reply = [this](const Payload &, const ddr_reply &head) { replies.push_back(head); };
        SC_THREAD(thread);
    }

    tlm::tlm_sync_enum forward(Ask &ask, tlm::tlm_phase phase, double delay = 0) {
        sc_core::sc_time time = ns(delay);
        return socket->nb_transport_fw(ask.payload, phase, time);
    }
    // Asks, and waits for END_REQ.
    void begin(Ask &ask, double delay = 0) {
        ask.payload.acquire();
        wants("BEGIN_REQ", forward(ask, tlm::BEGIN_REQ, delay), tlm::TLM_ACCEPTED);
        wants("held by the target too", ask.payload.get_ref_count(), 2);
        sc_core::wait(end_req);
    }
    tlm::tlm_response_status call(Ask &ask, double delay = 0) {
        sc_core::sc_time time = ns(delay);
        socket->b_transport(ask.payload, time);
        if (ask.payload.is_response_ok()) wants("delay left", static_cast<std::int64_t>(time.value()), 0);
        return ask.payload.get_response_status();
    }
    unsigned int debug(Ask &ask) { return socket->transport_dbg(ask.payload); }
    void until(double time) { sc_core::wait(ns(time) - sc_core::sc_time_stamp()); }

    // When a payload got END_REQ or BEGIN_RESP, or -1.
    std::int64_t when(const Ask &ask, bool is_response) const {
        for (const Came &it : came)
            if (it.payload == &ask.payload && it.is_response == is_response) return it.when;
        return -1;
    }

private:
    void thread() { scenario(*this); }

    tlm::tlm_sync_enum backward(Payload &payload, tlm::tlm_phase &phase, sc_core::sc_time &delay) {
        came.push_back({&payload, phase == tlm::BEGIN_RESP, now()});
        if (phase != tlm::BEGIN_RESP) {
            end_req.notify(sc_core::SC_ZERO_TIME);
            if (!within.empty()) {
                Ask &next = *within.back();
                within.pop_back();
                wants("BEGIN_REQ in the call of END_REQ", forward(next, tlm::BEGIN_REQ), tlm::TLM_ACCEPTED);
            }
            return tlm::TLM_ACCEPTED;
        }
        wants("status of a response", payload.get_response_status(), tlm::TLM_OK_RESPONSE);
        if (ends_within) {
            tlm::tlm_phase end = tlm::END_RESP;
            sc_core::sc_time none;
            wants("END_RESP in the call of BEGIN_RESP", socket->nb_transport_fw(payload, end, none), tlm::TLM_COMPLETED);
        }
        if (answer != tlm::TLM_ACCEPTED) delay = answer_delay;
        if (answer == tlm::TLM_UPDATED) phase = tlm::END_RESP;
        return answer;
    }

    sc_core::sc_event end_req;
    void (*scenario)(Host &);
};

// Two rows of one bank: RDs in cycles 4 and 18, behind the PRE at ras = 10 and the ACT at 10 + rp = 14.
void two_rows(Host &host) {
    Ask first(READ, 0, Bytes(64)), second(READ, 8192, Bytes(64));
    host.begin(first);
    host.begin(second);
    host.until(100);
    wants("END_REQ of the first", host.when(first, false), 0);
    wants("END_REQ of the second", host.when(second, false), 0);
    wants("BEGIN_RESP of the first", host.when(first, true), 13000);
    wants("BEGIN_RESP of the second", host.when(second, true), 27000);
    wants("replies", static_cast<std::int64_t>(host.replies.size()), 2);
    wants("RD of the first", static_cast<std::int64_t>(host.replies.at(0).issued), 4);
    wants("RD of the second", static_cast<std::int64_t>(host.replies.at(1).issued), 18);
    wants("the second complete", static_cast<std::int64_t>(host.replies.at(1).due), 26);
    for (Ask *ask : {&first, &second}) {
        wants("given back by the target", ask->payload.get_ref_count(), 1);
        ask->payload.release();
        wants("freed", ask->freed, 1);
    }
}

// Between two edges, with a delay, and behind idle time. At 100 the row is open, so that the RD comes at once and its line in cycle 108.
// The 5000 refreshes until 1,000,000 close all banks, and the last is over at 1,000,100.
void times(Host &host) {
    Ask ask(READ, 0, Bytes(64));
    host.until(0.5);
    wants("between two edges", host.call(ask), tlm::TLM_OK_RESPONSE);
    wants("accepted at 1", now(), 14000);
    host.until(97.25);
    host.call(ask, 2.5);
    wants("with a delay, accepted at 100", now(), 109000);
    host.until(1000); // by which the other scenarios are over
    const std::uint64_t before = sc_core::sc_delta_count();
    host.until(1000100);
    wants("nothing is done in idle time", sc_core::sc_delta_count() - before < 10, 1);
    wants("as many cycles as ns", static_cast<std::int64_t>(host.memory.under().cycle(0)), 1000100);
    host.call(ask);
    wants("behind idle time", now(), 1000113000);
    wants("accepted", static_cast<std::int64_t>(host.replies.back().accepted), 1000100);
    wants("issued", static_cast<std::int64_t>(host.replies.back().issued), 1000104);
}

// Reads of one row, with RDs in cycles 4, 9, 14, 19 and 24. The window of 4 is full until the first reply is taken at 13.
void window(Host &host) {
    std::vector<std::unique_ptr<Ask>> asks;
    for (unsigned int i = 0; i < 5; i++) {
        asks.push_back(std::make_unique<Ask>(READ, 64 * i, Bytes(64)));
        host.begin(*asks.back());
        wants("END_REQ with a full window", now(), i < 4 ? 0 : 13000);
    }
    host.until(100);
    for (unsigned int i = 0; i < 5; i++) wants("BEGIN_RESP of a row", host.when(*asks[i], true), 13000 + 5000 * i);
}

// Two reads of one row, whose replies are there at 13 and 18, and the second response not before the first one ended; and one behind
// them by b_transport, which waits for both.
void responses(Host &host, tlm::tlm_sync_enum answer, double delay, double end, double end_delay, std::int64_t second_at) {
    Ask first(READ, 0, Bytes(64)), second(READ, 64, Bytes(64)), third(READ, 128, Bytes(64));
    host.answer = answer;
    host.answer_delay = ns(delay);
    host.begin(first);
    host.begin(second);
    if (answer == tlm::TLM_ACCEPTED) {
        host.until(end);
        wants("no response before END_RESP", host.when(second, true), -1);
        host.forward(first, tlm::END_RESP, end_delay);
        wants("given back at END_RESP", first.payload.get_ref_count(), 1);
    } else {
        host.call(third);
        wants("b_transport behind them", now(), second_at);
    }
    host.until(200);
    wants("the first response", host.when(first, true), 13000);
    wants("the second response", host.when(second, true), second_at);
    wants("its reply waits in the port", static_cast<std::int64_t>(host.replies.at(1).released), second_at / 1000);
    wants("and was there before", static_cast<std::int64_t>(host.replies.at(1).due), 17);
}
void answered_later(Host &host) { responses(host, tlm::TLM_ACCEPTED, 0, 40.5, 0, 41000); }
void answered_at_an_edge(Host &host) { responses(host, tlm::TLM_ACCEPTED, 0, 40, 0, 40000); }
void answered_later_with_a_delay(Host &host) { responses(host, tlm::TLM_ACCEPTED, 0, 40, 3.5, 44000); }
void completed(Host &host) { responses(host, tlm::TLM_COMPLETED, 20.5, 0, 0, 34000); }
void updated(Host &host) { responses(host, tlm::TLM_UPDATED, 20, 0, 0, 33000); }

// Calls within calls, in the way of initiators that have no process of their own.
void nested(Host &host) {
    Ask first(READ, 0, Bytes(64)), second(READ, 64, Bytes(64)), third(READ, 128, Bytes(64));
    host.answer = tlm::TLM_ACCEPTED;
    host.ends_within = true;
    host.within = {&third, &second};
    for (Ask *ask : {&second, &third}) ask->payload.acquire();
    host.begin(first);
    host.until(100);
    std::int64_t at = 13000;
    for (Ask *ask : {&first, &second, &third}) {
        wants("END_REQ in a row", host.when(*ask, false), 0);
        wants("BEGIN_RESP in a row", host.when(*ask, true), at);
        wants("given back in a row", ask->payload.get_ref_count(), 1);
        at += 5000;
    }
}

// A payload that is refused comes back at once, in both styles.
void refuse(Host &host, const char *what, Ask &ask, tlm::tlm_response_status status) {
    wants(what, host.call(ask, 5), status);
    ask.payload.set_response_status(tlm::TLM_INCOMPLETE_RESPONSE);
    wants(what, host.forward(ask, tlm::BEGIN_REQ), tlm::TLM_COMPLETED);
    wants(what, ask.payload.get_response_status(), status);
    wants(what, now(), 0);
    wants(what, ask.freed, 0);
}
void refusals(Host &host) {
    Ask nothing(tlm::TLM_IGNORE_COMMAND, 0, Bytes(8)), empty(READ, 0, {}), no_width(READ, 0, Bytes(8));
    no_width.payload.set_streaming_width(0);
    refuse(host, "TLM_IGNORE_COMMAND", nothing, tlm::TLM_COMMAND_ERROR_RESPONSE);
    refuse(host, "length 0", empty, tlm::TLM_BURST_ERROR_RESPONSE);
    refuse(host, "streaming width 0", no_width, tlm::TLM_BURST_ERROR_RESPONSE);
    Ask no_enables(WRITE, 0, Bytes(8), {0xff}), odd(WRITE, 0, Bytes(8), {0xff, 1});
    no_enables.payload.set_byte_enable_length(0);
    refuse(host, "no byte enables", no_enables, tlm::TLM_BYTE_ENABLE_ERROR_RESPONSE);
    refuse(host, "an enable of 1", odd, tlm::TLM_BYTE_ENABLE_ERROR_RESPONSE);
    Ask beyond(READ, 262144, Bytes(1)), over(WRITE, 262143, Bytes(2)), around(READ, ~std::uint64_t{0}, Bytes(2)), null(WRITE, 0, Bytes(8));
    null.payload.set_data_ptr(nullptr);
    refuse(host, "beyond the capacity", beyond, tlm::TLM_ADDRESS_ERROR_RESPONSE);
    refuse(host, "over the end", over, tlm::TLM_ADDRESS_ERROR_RESPONSE);
    refuse(host, "round the end of addresses", around, tlm::TLM_ADDRESS_ERROR_RESPONSE);
    refuse(host, "no data", null, tlm::TLM_GENERIC_ERROR_RESPONSE);
    Ask last(READ, 262143, Bytes(4));
    last.payload.set_streaming_width(1);
    wants("the last byte, four times", host.call(last), tlm::TLM_OK_RESPONSE);
    wants("requests for it", static_cast<std::int64_t>(host.replies.size()), 4);
    tlm::tlm_dmi dmi;
    wants("DMI", host.socket->get_direct_mem_ptr(last.payload, dmi), 0);
    wants("DMI refused up to", static_cast<std::int64_t>(dmi.get_end_address()), -1);
    wants("dmi_allowed", last.payload.is_dmi_allowed(), 0);
}

// Bytes over several lines, enables of a write and of a read, streaming widths.
void bytes(Host &host) {
    Ask burst(WRITE, 60, Bytes(150)), back(READ, 60, Bytes(150));
    std::iota(burst.data.begin(), burst.data.end(), std::uint8_t{1});
    host.call(burst);
    wants("lines of a burst", static_cast<std::int64_t>(host.replies.size()), 4);
    host.call(back);
    wants("bytes of a burst", back.data == burst.data, 1);

    Ask masked(WRITE, 60, {101, 102, 103, 104, 105, 106}, {0xff, 0}), few(READ, 60, Bytes(7)), odd(READ, 60, Bytes(7, 77), {0, 0xff, 0xff});
    host.call(masked);
    host.call(few);
    wants("bytes of a masked write", few.data == Bytes{101, 2, 103, 4, 105, 6, 7}, 1);
    host.call(odd);
    wants("bytes of a read with enables", odd.data == Bytes{77, 2, 103, 77, 105, 6, 77}, 1);
    const std::size_t before = host.replies.size();
    Ask none(WRITE, 60, Bytes(7, 99), {0});
    host.call(none);
    wants("a request for each line without enables", static_cast<std::int64_t>(host.replies.size() - before), 2);
    host.call(few);
    wants("bytes of a write without enables", few.data == Bytes{101, 2, 103, 4, 105, 6, 7}, 1);

    Ask streamed(WRITE, 63, {201, 202, 203, 204, 205}), two(READ, 63, Bytes(2)), again(READ, 63, Bytes(5));
    streamed.payload.set_streaming_width(2);
    again.payload.set_streaming_width(2);
    host.call(streamed);
    host.call(two);
    wants("bytes of a streaming write", two.data == Bytes{205, 204}, 1);
    host.call(again);
    wants("bytes of a streaming read", again.data == Bytes{205, 204, 205, 204, 205}, 1);
}

// Debug stands in the order of acceptance, and takes no time.
void debug(Host &host) {
    Ask write(WRITE, 62, {1, 2, 3, 4}), before(READ, 62, Bytes(4)), poke(WRITE, 63, {7, 8}), peek(READ, 62, Bytes(4)), after(READ, 62, Bytes(4));
    wants("debug of nothing", host.debug(peek), 4);
    wants("bytes of nothing", peek.data == Bytes(4), 1);
    host.begin(write);
    host.debug(peek);
    wants("debug behind a write that was accepted", peek.data == write.data, 1);
    host.begin(before);
    wants("debug write", host.debug(poke), 2);
    host.begin(after);
    host.debug(peek);
    wants("debug behind a debug write", peek.data == Bytes{1, 7, 8, 4}, 1);
    wants("time of debug", now(), host.when(after, false));
    host.until(150);
    wants("a read accepted before it", before.data == write.data, 1);
    wants("a read accepted behind it", after.data == Bytes{1, 7, 8, 4}, 1);
    Ask half(WRITE, 64, {9});
    host.call(half);
    host.call(after);
    wants("a read behind a request for one of its bytes", after.data == Bytes{1, 7, 9, 4}, 1);
    // A byte that a request wrote is the core's again, so that what another port writes there is read; debug doesn't see it.
    std::uint64_t number = 0;
    wants("a write of another port", host.memory.under().write(1, 64, "\x0b", number), DDR_OK);
    sc_core::wait(ns(50));
    host.call(after);
    wants("a read behind a write of another port", after.data == Bytes{1, 7, 11, 4}, 1);
    host.debug(peek);
    wants("debug behind a write of another port", peek.data == Bytes{1, 7, 9, 4}, 1);
    Ask end(READ, 262140, Bytes(10)), ignored(tlm::TLM_IGNORE_COMMAND, 0, Bytes(4)), beyond(WRITE, 262144, Bytes(4));
    wants("debug up to the capacity", host.debug(end), 4);
    wants("debug beyond it", host.debug(beyond), 0);
    wants("debug of no command", host.debug(ignored), 0);
}

// What breaks the base protocol is reported, as an error, which throws.
void reports(Host &host, const char *what, Ask &ask, tlm::tlm_phase phase) {
    bool thrown = false;
    try {
        host.forward(ask, phase);
    } catch (const sc_core::sc_report &) {
        thrown = true;
    }
    wants(what, thrown, 1);
}
void faults(Host &host) {
    Ask first(READ, 0, Bytes(64)), second(READ, 64, Bytes(64));
    first.payload.acquire();
    host.forward(first, tlm::BEGIN_REQ);
    reports(host, "BEGIN_REQ before END_REQ", second, tlm::BEGIN_REQ);
    reports(host, "END_RESP of a payload that doesn't respond", first, tlm::END_RESP);
    reports(host, "END_REQ on the forward path", first, tlm::END_REQ);
    reports(host, "BEGIN_RESP on the forward path", first, tlm::BEGIN_RESP);
    wants("another phase", host.forward(first, tlm::tlm_phase(77)), tlm::TLM_ACCEPTED);
    host.until(50);
    wants("the first is served", host.when(first, true), 13000);
    wants("no other is", static_cast<std::int64_t>(host.came.size()), 2);
}

// What the constructor throws.
void constructors() {
    std::int32_t code = 0;
    try {
        ddr::Target<> refused("refused", "version = 3", ns(1));
    } catch (const ddr::Error &error) {
        code = error.code;
    }
    wants("a configuration that is refused", code, DDR_CONFIG);
    try {
        ddr::Target<> no_port("no_port", config, ns(1), 2);
    } catch (const ddr::Error &error) {
        code = error.code;
    }
    wants("a port that there isn't", code, DDR_NO_SUCH);
    bool thrown = false;
    try {
        ddr::Target<> no_period("no_period", config, sc_core::SC_ZERO_TIME);
    } catch (const std::invalid_argument &) {
        thrown = true;
    }
    wants("a period of 0", thrown, 1);
}

} // namespace

int sc_main(int argc, char **argv) {
    std::ifstream file(argc == 2 ? argv[1] : "");
    if (!file) {
        std::fprintf(stderr, "usage: %s CONFIG\n", argv[0]);
        return 2;
    }
    config.assign(std::istreambuf_iterator<char>(file), {});
    sc_core::sc_report_handler::set_actions(sc_core::SC_ERROR, sc_core::SC_THROW);
    constructors();
    void (*const scenarios[])(Host &) = {two_rows, times, window, answered_later, answered_at_an_edge, answered_later_with_a_delay,
                                         completed, updated, nested, refusals, bytes, debug, faults};
    std::vector<std::unique_ptr<Host>> hosts;
    for (const auto scenario : scenarios) hosts.push_back(std::make_unique<Host>(sc_core::sc_gen_unique_name("host"), scenario));
    sc_core::sc_start();
    return failed == 0 ? 0 : 1;
}
