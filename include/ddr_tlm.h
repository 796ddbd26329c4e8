// Juqembo for SystemC: a target of TLM-2.0's base protocol, over `ddr.hpp`, in C++17. Its choices are told here.
//
//     ddr::Target<> memory("memory", text_of_a_configuration, sc_core::sc_time(833, sc_core::SC_PS));
//     initiator.socket.bind(memory.socket);
//
// Time. The constructor is told the period of a DRAM clock, as SystemC's resolution has it. Cycle n of the core begins at n periods:
// who looks at the core then finds exactly n rounds made, also behind a time in which nothing was asked. The target acts at the
// edges of this clock alone: what comes between two edges, by its time and its delay, is taken at the later one. At an edge the
// round that ends there is made first, then replies are taken, then requests are submitted. So a request at an edge is accepted in
// the cycle that begins there. The process wakes at the edges behind which there is something to do: quiet cycles are passed at
// once, and while nothing is outstanding it doesn't wake.
//
// Requests. All payloads go to one port: 0, unless the constructor names another. A payload of any length is taken. It becomes a
// request for each part of it that lies in one line of 64 bytes, in the order of its bytes. With a streaming width below the length
// it begins again at its address so often, each time with requests of its own. A write that has bytes in a line which are not
// enabled is a masked write of that line. A read asks for all bytes, and copies those that are enabled. Before any part of it is
// submitted, a payload is refused with
//   TLM_COMMAND_ERROR_RESPONSE      where it is neither a read nor a write: TLM_IGNORE_COMMAND is refused;
//   TLM_BURST_ERROR_RESPONSE        where its length or its streaming width is 0;
//   TLM_BYTE_ENABLE_ERROR_RESPONSE  where it has enables of length 0, or one that is neither 0 nor 0xff;
//   TLM_ADDRESS_ERROR_RESPONSE      where a byte of it is not below the memory's capacity;
//   TLM_GENERIC_ERROR_RESPONSE      where the pointer to its data is null.
//
// b_transport waits for the delay that it is handed, sets it to 0, and returns when the payload's last reply is taken. Several
// threads may wait in it, and both styles may be mixed. A payload that is refused comes back at once.
//
// nb_transport_fw answers BEGIN_REQ with TLM_ACCEPTED, or with TLM_COMPLETED where the payload is refused. END_REQ is sent at the
// edge at which the port has accepted the last part, so that a full port holds the initiator. BEGIN_RESP is sent at the edge at
// which the last reply is taken, and the next one not before that response ended: by END_RESP, or by TLM_COMPLETED or END_RESP in
// answer to BEGIN_RESP, and the delay that is told with these. Until then replies stay in the port and fill its window. A port's
// replies come in the order of its requests, and so do responses: one that can't begin holds those behind it, of b_transport too. A
// payload with a memory manager is acquired at BEGIN_REQ, and released when its response ends. What breaks the base protocol is an
// SC_REPORT_ERROR: BEGIN_REQ before the END_REQ of the one before, END_RESP of another payload than that which responds, and END_REQ
// or BEGIN_RESP on the forward path. Other phases are ignored.
//
// Debug. The core has no call that takes no time, so the target keeps the bytes of lines that were written beside it, 72 bytes a
// line. A write changes them when its request is accepted, and transport_dbg reads them. A write by transport_dbg changes them too:
// the core doesn't see it, and its bytes are laid over what the core replies to reads that are accepted behind it, until a request
// writes them. So payloads get the bytes of a memory in which each debug write stands where it was made, in the order in which
// requests are accepted. But those bytes come from here: what is proved of the core's bytes isn't said of them. Writes of other
// ports, by `under()`, aren't seen. As the standard has it, transport_dbg looks at command, address, data and length alone. It
// answers how many bytes lie below the capacity, and 0 for other commands.
//
// DMI is refused for the whole memory, since only requests take time, and dmi_allowed is never set.
//
// Faults of the core, such as want of memory, throw `ddr::Error`. From the target's process SystemC makes an SC_REPORT_ERROR of it, which
// says which call answered which code.
#ifndef DDR_TLM_H
#define DDR_TLM_H

#include "ddr.hpp"

#include <systemc>
#include <tlm>

#include <algorithm>
#include <array>
#include <cstdint>
#include <deque>
#include <functional>
#include <optional>
#include <stdexcept>
#include <string>
#include <string_view>
#include <unordered_map>
#include <utility>

namespace ddr {

// The width of the bus is that of the socket, in bits, and changes nothing else.
template <unsigned int BUSWIDTH = 32>
class Target : public sc_core::sc_module, public tlm::tlm_fw_transport_if<> {
public:
    using Payload = tlm::tlm_generic_payload;
    // Is told each reply as it is taken, and the payload of which it serves a part. A read has the bytes of that part by then.
    using Told = std::function<void(const Payload &, const ddr_reply &)>;

    tlm::tlm_target_socket<BUSWIDTH> socket;
    Told on_reply;

    SC_HAS_PROCESS(Target);

    // A configuration that is refused, and a port that it doesn't have, throw `Error`; a period of 0 throws `std::invalid_argument`.
    Target(sc_core::sc_module_name name, std::string_view config, const sc_core::sc_time &period, std::uint32_t port = 0)
        : sc_module(name), socket("socket"), core(config, false), capacity(core.capacity()), period(period), port(port) {
        if (period == sc_core::SC_ZERO_TIME) throw std::invalid_argument("ddr::Target: the period is 0");
        if (port >= core.ports()) throw Error(DDR_NO_SUCH, "ddr::Target: the configuration has no port " + std::to_string(port));
        socket.bind(*this);
        SC_METHOD(work);
        dont_initialize();
        sensitive << wake;
    }

    // The core, with all rounds made that end by now: for its traces, and its other ports. No one else makes rounds.
    Core &under() {
        catch_up();
        return core;
    }

    void b_transport(Payload &payload, sc_core::sc_time &delay) override {
        if (refuses(payload)) return;
        if (delay != sc_core::SC_ZERO_TIME) sc_core::wait(delay);
        delay = sc_core::SC_ZERO_TIME;
        sc_core::sc_event done;
        queue(payload, &done, delay);
        sc_core::wait(done);
    }

    tlm::tlm_sync_enum nb_transport_fw(Payload &payload, tlm::tlm_phase &phase, sc_core::sc_time &delay) override {
        if (phase == tlm::BEGIN_REQ) return begin_request(payload, delay);
        if (phase == tlm::END_RESP) {
            if (&payload == responding) end_response(delay);
            else SC_REPORT_ERROR(name(), "END_RESP of a payload that doesn't respond");
            return tlm::TLM_COMPLETED;
        }
        if (phase == tlm::END_REQ || phase == tlm::BEGIN_RESP) SC_REPORT_ERROR(name(), "END_REQ or BEGIN_RESP on the forward path");
        return tlm::TLM_ACCEPTED;
    }

    bool get_direct_mem_ptr(Payload &, tlm::tlm_dmi &dmi) override {
        dmi.init();
        dmi.allow_read_write(); // in a refusal this is what is refused, of the whole memory
        return false;
    }

    unsigned int transport_dbg(Payload &payload) override {
        if (!payload.is_read() && !payload.is_write()) return 0;
        unsigned int at = 0;
        while (at < payload.get_data_length() && has(payload.get_address(), at)) at += debug_part(payload, at);
        return at;
    }

private:
    static constexpr std::uint64_t LINE = 64;

    // The bytes of a line, and which of them a debug write made last: the core doesn't have those.
    struct Line {
        std::array<std::uint8_t, LINE> bytes{};
        std::uint64_t by_debug = 0;
    };

    // A payload that isn't wholly submitted. Of b_transport it has the event for which a thread waits there.
    struct Asked {
        Payload *payload;
        sc_core::sc_event *done;
        std::uint64_t address; // as it came: a bus may change it in the payload
        std::uint64_t from;    // the cycle before which it isn't submitted
        unsigned int submitted = 0;
    };

    // A part of a payload, in one line: `length` of its bytes from `offset` on.
    struct Part {
        Payload *payload;
        sc_core::sc_event *done;
        std::uint64_t address;
        unsigned int offset, length;
        bool last;
        std::optional<Line> over; // the line where debug writes are laid over what is read
    };

    // Whether the byte behind so many from an address on lies in the memory.
    bool has(std::uint64_t address, std::uint64_t offset) const { return address + offset >= address && address + offset < capacity; }

    static bool enables_are_right(const Payload &payload) {
        const unsigned char *const enable = payload.get_byte_enable_ptr();
        if (enable == nullptr) return true;
        const unsigned int count = payload.get_byte_enable_length();
        return count != 0 && std::all_of(enable, enable + std::min(count, payload.get_data_length()),
                                         [](unsigned char it) { return it == TLM_BYTE_DISABLED || it == TLM_BYTE_ENABLED; });
    }

    tlm::tlm_response_status status_of(const Payload &payload) {
        if (!payload.is_read() && !payload.is_write()) return tlm::TLM_COMMAND_ERROR_RESPONSE;
        const unsigned int width = std::min(payload.get_streaming_width(), payload.get_data_length());
        if (width == 0) return tlm::TLM_BURST_ERROR_RESPONSE;
        if (!enables_are_right(payload)) return tlm::TLM_BYTE_ENABLE_ERROR_RESPONSE;
        if (!has(payload.get_address(), width - 1)) return tlm::TLM_ADDRESS_ERROR_RESPONSE;
        if (payload.get_data_ptr() == nullptr) return tlm::TLM_GENERIC_ERROR_RESPONSE;
        return tlm::TLM_OK_RESPONSE;
    }

    bool refuses(Payload &payload) {
        const tlm::tlm_response_status status = status_of(payload);
        if (status == tlm::TLM_OK_RESPONSE) return false;
        payload.set_response_status(status);
        return true;
    }

    // The cycle that begins at or first behind so long from now.
    std::uint64_t cycle_behind(const sc_core::sc_time &delay) const {
        const std::uint64_t time = (sc_core::sc_time_stamp() + delay).value();
        return time / period.value() + (time % period.value() != 0);
    }

    void wake_at(std::uint64_t cycle) {
        wake.notify(sc_core::sc_time::from_value(cycle * period.value()) - sc_core::sc_time_stamp());
    }

    std::uint64_t catch_up() {
        const std::uint64_t now = sc_core::sc_time_stamp().value() / period.value();
        const std::uint64_t made = core.cycle(0);
        if (now > made) core.rounds(now - made);
        return now;
    }

    // Payloads wait in the order of their cycles, and in one cycle as they came.
    void queue(Payload &payload, sc_core::sc_event *done, const sc_core::sc_time &delay) {
        const Asked it{&payload, done, payload.get_address(), cycle_behind(delay)};
        const auto later = [](std::uint64_t from, const Asked &other) { return from < other.from; };
        asked.insert(std::upper_bound(asked.begin(), asked.end(), it.from, later), it);
        wake_at(it.from);
    }

    tlm::tlm_sync_enum begin_request(Payload &payload, const sc_core::sc_time &delay) {
        if (requesting != nullptr) SC_REPORT_ERROR(name(), "BEGIN_REQ before the END_REQ of the payload before");
        if (refuses(payload)) return tlm::TLM_COMPLETED;
        if (payload.has_mm()) payload.acquire();
        requesting = &payload;
        queue(payload, nullptr, delay);
        return tlm::TLM_ACCEPTED;
    }

    // What is done at an edge.
    void work() {
        const std::uint64_t now = catch_up();
        take_replies(now);
        submit(now);
        plan(now);
    }

    // Wakes again at the next edge at which there may be something to do: a request's, that behind which a response may begin, or
    // that at which a round ends which isn't quiet.
    void plan(std::uint64_t now) {
        const bool waits = !asked.empty() && asked.front().from <= now;
        if (!asked.empty() && !waits) wake_at(asked.front().from);
        if (!taken.empty() && now < response_from) wake_at(response_from);
        if (!taken.empty() || waits) wake_at(now + core.quiet() + 1);
    }

    // Takes each reply that is ready, until there is one whose response can't begin.
    void take_replies(std::uint64_t now) {
        while (!taken.empty()) {
            const bool responds = taken.front().last && taken.front().done == nullptr;
            if (responds && (responding != nullptr || now < response_from)) return;
            const std::optional<Reply> reply = core.next(port);
            if (!reply) return;
            const Part part = std::move(taken.front());
            taken.pop_front();
            deliver(part, *reply);
        }
    }

    void deliver(const Part &part, const Reply &reply) {
        if (reply.head.kind == DDR_READ) copy_read(part, reply.bytes);
        if (on_reply) on_reply(*part.payload, reply.head);
        if (!part.last) return;
        part.payload->set_response_status(tlm::TLM_OK_RESPONSE);
        if (part.done != nullptr) part.done->notify(sc_core::SC_ZERO_TIME);
        else begin_response(*part.payload);
    }

    void copy_read(const Part &part, const std::array<std::uint8_t, LINE> &bytes) const {
        unsigned char *const data = part.payload->get_data_ptr() + part.offset;
        const std::uint64_t enabled = enables_of(part);
        for (unsigned int i = 0; i < part.length; i++) {
            const std::uint64_t place = part.address % LINE + i;
            const bool is_over = part.over && (part.over->by_debug >> place & 1) != 0;
            if ((enabled >> i & 1) != 0) data[i] = is_over ? part.over->bytes[place] : bytes[i];
        }
    }

    void begin_response(Payload &payload) {
        responding = &payload;
        tlm::tlm_phase phase = tlm::BEGIN_RESP;
        sc_core::sc_time delay = sc_core::SC_ZERO_TIME;
        const tlm::tlm_sync_enum answer = socket->nb_transport_bw(payload, phase, delay);
        const bool ends = answer == tlm::TLM_COMPLETED || (answer == tlm::TLM_UPDATED && phase == tlm::END_RESP);
        if (ends && responding == &payload) end_response(delay);
    }

    void end_response(const sc_core::sc_time &delay) {
        Payload &payload = *std::exchange(responding, nullptr);
        response_from = cycle_behind(delay);
        wake_at(response_from);
        if (payload.has_mm()) payload.release();
    }

    // Submits what waits, in its order, until there is no room. The initiator may ask again in the call that tells it END_REQ.
    void submit(std::uint64_t now) {
        while (!asked.empty() && asked.front().from <= now && submit_parts(asked.front())) {
            const Asked it = asked.front();
            asked.pop_front();
            if (it.done != nullptr) continue;
            requesting = nullptr;
            tlm::tlm_phase phase = tlm::END_REQ;
            sc_core::sc_time delay = sc_core::SC_ZERO_TIME;
            socket->nb_transport_bw(*it.payload, phase, delay);
        }
    }

    // Submits what is left of a payload, part by part, and tells whether the port had room for all of it.
    bool submit_parts(Asked &it) {
        while (it.submitted < it.payload->get_data_length()) {
            Part part = part_of(it);
            const std::int32_t code = request(part);
            if (code == DDR_BUSY || code == DDR_WINDOW_FULL) return false;
            Core::check(code, "ddr_submit");
            if (part.payload->is_write()) keep(part);
            else lay_over(part);
            it.submitted += part.length;
            taken.push_back(std::move(part));
        }
        return true;
    }

    // The next part of a payload: up to the end of its data, of its streaming width, or of the line.
    static Part part_of(const Asked &it) {
        const unsigned int whole = it.payload->get_data_length(), width = it.payload->get_streaming_width();
        const unsigned int position = it.submitted % width;
        const std::uint64_t address = it.address + position;
        const unsigned int length = std::min({whole - it.submitted, width - position, static_cast<unsigned int>(LINE - address % LINE)});
        return {it.payload, it.done, address, it.submitted, length, it.submitted + length == whole, std::nullopt};
    }

    std::int32_t request(const Part &part) {
        std::uint64_t number = 0;
        if (part.payload->is_read()) return core.read(port, part.address, part.length, number);
        const unsigned char *const data = part.payload->get_data_ptr() + part.offset;
        const std::uint64_t enabled = enables_of(part);
        if (enabled == ones(part.length)) return core.write(port, part.address, {reinterpret_cast<const char *>(data), part.length}, number);
        std::array<std::uint8_t, LINE> line{};
        std::copy_n(data, part.length, line.begin() + part.address % LINE);
        return core.masked(port, part.address, line, enabled << part.address % LINE, number);
    }

    static std::uint64_t ones(unsigned int count) { return ~std::uint64_t{0} >> (LINE - count); }

    // Bit i is whether byte i of a part is enabled.
    static std::uint64_t enables_of(const Part &part) {
        const unsigned char *const enable = part.payload->get_byte_enable_ptr();
        if (enable == nullptr) return ones(part.length);
        std::uint64_t bits = 0;
        for (unsigned int i = 0; i < part.length; i++)
            if (enable[(part.offset + i) % part.payload->get_byte_enable_length()] == TLM_BYTE_ENABLED) bits |= std::uint64_t{1} << i;
        return bits;
    }

    // The bytes of a write that was accepted.
    void keep(const Part &part) {
        Line &line = lines[part.address / LINE];
        const unsigned char *const data = part.payload->get_data_ptr() + part.offset;
        const std::uint64_t enabled = enables_of(part);
        for (unsigned int i = 0; i < part.length; i++)
            if ((enabled >> i & 1) != 0) line.bytes[part.address % LINE + i] = data[i];
        line.by_debug &= ~(enabled << part.address % LINE);
    }

    // What debug writes made so far of the line of a read that was accepted.
    void lay_over(Part &part) const {
        const auto found = lines.find(part.address / LINE);
        if (found != lines.end() && found->second.by_debug != 0) part.over = found->second;
    }

    // Reads or writes the bytes from one on that are in its line, and says how many. A capacity is a whole number of lines.
    unsigned int debug_part(Payload &payload, unsigned int at) {
        const std::uint64_t address = payload.get_address() + at, place = address % LINE;
        const unsigned int count = std::min(payload.get_data_length() - at, static_cast<unsigned int>(LINE - place));
        unsigned char *const data = payload.get_data_ptr() + at;
        if (payload.is_write()) {
            Line &line = lines[address / LINE];
            std::copy_n(data, count, line.bytes.begin() + place);
            line.by_debug |= ones(count) << place;
        } else {
            const auto found = lines.find(address / LINE);
            if (found == lines.end()) std::fill_n(data, count, std::uint8_t{0});
            else std::copy_n(found->second.bytes.begin() + place, count, data);
        }
        return count;
    }

    Core core;
    std::uint64_t capacity; // of the memory, in bytes
    sc_core::sc_time period;
    std::uint32_t port;
    sc_core::sc_event wake;
    std::deque<Asked> asked;
    std::deque<Part> taken; // what the port accepted, in the order of its replies
    std::unordered_map<std::uint64_t, Line> lines;
    Payload *requesting = nullptr; // of BEGIN_REQ, until END_REQ
    Payload *responding = nullptr; // of BEGIN_RESP, until its response ends
    std::uint64_t response_from = 0; // the cycle before which no other response begins
};

} // namespace ddr

#endif
