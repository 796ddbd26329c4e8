// Reads and writes by chance over a region of the memory, whose bytes are kept here too, and what was told of each.
#ifndef TRAFFIC_H
#define TRAFFIC_H

#include "ddr_tlm.h"

#include <cstdint>
#include <fstream>
#include <string>
#include <vector>

// Numbers by chance, the same on every machine (xorshift64*).
class Draw {
public:
    explicit Draw(std::uint64_t seed) : state(seed) {}

    std::uint64_t below(std::uint64_t limit) {
        state ^= state >> 12;
        state ^= state << 25;
        state ^= state >> 27;
        return ((state * 0x2545f4914f6cdd1dULL) >> 32) % limit;
    }
    bool one_in(std::uint64_t count) { return below(count) == 0; }

private:
    std::uint64_t state;
};

// The edge of the clock at or behind a time, as a number of periods.
inline std::uint64_t edge_behind(const sc_core::sc_time &time, const sc_core::sc_time &period) {
    return (time.value() + period.value() - 1) / period.value();
}

// A payload with its data and what is known of it.
struct Ask : tlm::tlm_extension<Ask> {
    tlm::tlm_generic_payload payload;
    std::vector<unsigned char> data, enables, wanted;
    std::uint64_t at = 0;     // the first cycle before which it may be accepted
    ddr_reply last{};         // the reply of its last part so far
    sc_core::sc_time end_req; // when END_REQ came

    Ask() { payload.set_extension(this); }
    ~Ask() override { payload.clear_extension(this); }
    tlm::tlm_extension_base *clone() const override { return nullptr; }
    void copy_from(const tlm::tlm_extension_base &) override {}
    void free() override {}
};

inline void expect(bool is_so, const char *what) {
    if (!is_so) SC_REPORT_ERROR("expected", what);
}

// A region with its bytes, as they are behind all that was asked so far.
class Region {
public:
    Region(std::uint64_t first, std::uint64_t length, std::uint64_t seed) : draw(seed), first(first), bytes(length) {}

    Draw draw;

    // Makes a request by chance. It changes the bytes here, so it has to be accepted behind those before.
    void ask(Ask &it) {
        const unsigned int length = static_cast<unsigned int>(draw.one_in(8) ? 1 + draw.below(400) : 1 + draw.below(64));
        const unsigned int width = draw.one_in(8) ? static_cast<unsigned int>(1 + draw.below(length)) : length;
        const std::uint64_t place = draw.below(bytes.size() - width + 1);
        it.data.assign(length, 0);
        it.enables.clear();
        if (draw.one_in(4)) it.enables.resize(1 + draw.below(2 * length));
        for (unsigned char &enable : it.enables) enable = draw.one_in(2) ? TLM_BYTE_ENABLED : TLM_BYTE_DISABLED;
        for (unsigned char &byte : it.data) byte = static_cast<unsigned char>(draw.below(256));
        it.payload.set_command(draw.one_in(2) ? tlm::TLM_READ_COMMAND : tlm::TLM_WRITE_COMMAND);
        it.payload.set_address(first + place);
        it.payload.set_data_ptr(it.data.data());
        it.payload.set_data_length(length);
        it.payload.set_streaming_width(width);
        it.payload.set_byte_enable_ptr(it.enables.empty() ? nullptr : it.enables.data());
        it.payload.set_byte_enable_length(static_cast<unsigned int>(it.enables.size()));
        it.payload.set_response_status(tlm::TLM_INCOMPLETE_RESPONSE);
        it.payload.set_dmi_allowed(false);
        it.wanted = it.data;
        for (unsigned int i = 0; i < length; i++) {
            if (!it.enables.empty() && it.enables[i % it.enables.size()] == TLM_BYTE_DISABLED) continue;
            unsigned char &here = bytes[place + i % width];
            if (it.payload.is_read()) it.wanted[i] = here;
            else here = it.data[i];
        }
        it.last = {};
    }

    // Sees that what came back is right.
    static void check(const Ask &it) {
        expect(it.payload.get_response_status() == tlm::TLM_OK_RESPONSE, "TLM_OK_RESPONSE");
        expect(it.data == it.wanted, "the bytes that were written last");
        expect(!it.payload.is_dmi_allowed(), "no DMI");
    }

    // Reads some bytes by debug, or writes some that later reads have to see. No request may be on its way to the port.
    template <typename Socket>
    void debug(Socket &socket) {
        tlm::tlm_generic_payload payload;
        std::vector<unsigned char> data(1 + draw.below(200));
        const std::uint64_t place = draw.below(bytes.size() - data.size() + 1);
        const auto here = bytes.begin() + static_cast<std::ptrdiff_t>(place);
        const bool is_write = draw.one_in(2);
        for (unsigned char &byte : data) byte = static_cast<unsigned char>(draw.below(256));
        if (is_write) std::copy(data.begin(), data.end(), here);
        payload.set_command(is_write ? tlm::TLM_WRITE_COMMAND : tlm::TLM_READ_COMMAND);
        payload.set_address(first + place);
        payload.set_data_ptr(data.data());
        payload.set_data_length(static_cast<unsigned int>(data.size()));
        expect(socket->transport_dbg(payload) == data.size(), "all bytes by debug");
        expect(std::equal(data.begin(), data.end(), here), "the bytes by debug");
    }

private:
    std::uint64_t first;
    std::vector<unsigned char> bytes;
};

// Writes two files of a target: NAME.requests, what it was asked, as `./ddr replay` takes it, and NAME.times, when that was accepted, issued,
// done and released, as `./ddr replay --requests` prints it, but for the last column. In what the library calls released a reply
// is taken behind the round in which `replay` releases it.
class Record {
public:
    Record(const std::string &folder, const std::string &name, std::uint32_t port)
        : requests(folder + '/' + name + ".requests"), times(folder + '/' + name + ".times"), port(port) {
        times << "line,port,number,op,addr,at,accepted,issued,done,released\n";
    }

    void reply(const ddr_reply &head, std::uint64_t at) {
        const char *const op = head.kind == DDR_WRITE ? "write" : "read";
        requests << at << ' ' << port << ' ' << op << ' ' << head.addr << '\n';
        times << ++line << ',' << port << ',' << head.number << ',' << op << ',' << head.addr << ',' << at << ',' << head.accepted << ','
              << head.issued << ',' << head.due << ',' << head.released - 1 << '\n';
    }
    std::uint64_t count() const { return line; }

private:
    std::ofstream requests, times;
    std::uint32_t port;
    std::uint64_t line = 0;
};

#endif
