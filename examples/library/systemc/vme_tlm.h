// Boards, a backplane and a bridge as SystemC TLM-2.0 modules (loosely timed, b_transport), over libvme.
//
// A master that knows the VMEbus binds to the backplane and gives each payload a `cycle`, between `acquire` and `release`. An initiator
// that does not know it binds to a bridge. Responses: TLM_GENERIC_ERROR_RESPONSE is BERR* of a board, TLM_ADDRESS_ERROR_RESPONSE that
// of the bus timer; TLM_COMMAND_ERROR_RESPONSE a payload that shows no cycle, or one of another command; TLM_BURST_ERROR_RESPONSE one
// of another length or with a streaming width; TLM_BYTE_ENABLE_ERROR_RESPONSE one with byte enables, which no cycle has.
#ifndef VME_TLM_H
#define VME_TLM_H

#include <algorithm>
#include <cstring>
#include <memory>
#include <string>
#include <utility>
#include <vector>

#include <systemc>
#include <tlm>
#include <tlm_utils/multi_passthrough_target_socket.h>
#include <tlm_utils/simple_initiator_socket.h>
#include <tlm_utils/simple_target_socket.h>

#include "vme.h"
#include "vme_payload.h"

namespace vme {

// The lines of a cycle, which a generic payload does not have. A payload is one cycle, so one datum: its address is that of
// the datum's first byte, and its data take the bytes that are read. A write takes its bytes from the lanes of the lines. A
// read-modify-write is a read with a function. A transfer has an extension on each of its payloads.
struct cycle : tlm::tlm_extension<cycle> {
    vme_lines lines{};
    vme_modify f{};        // the function of a read-modify-write
    uint32_t first = 0;    // the address of the transfer's first byte, which selects the board

    tlm::tlm_extension_base *clone() const override { return new cycle(*this); }
    void copy_from(const tlm::tlm_extension_base &other) override { *this = static_cast<const cycle &>(other); }

    // The number of bytes that the lines select, or 0.
    unsigned length() const
    {
        vme_am row;
        vme_place place;
        if (vme_am_read(lines.am, &row) != VME_OK || vme_strobes_sense(&lines.strobes, &place) != VME_OK)
            return 0;
        return row.wide ? 8 : place.n;
    }

    // The response to a payload that is not this cycle, or TLM_OK_RESPONSE.
    tlm::tlm_response_status fits(const tlm::tlm_generic_payload &payload) const
    {
        if (length() == 0 || payload.is_read() != (lines.write != 0) || payload.get_command() == tlm::TLM_IGNORE_COMMAND)
            return tlm::TLM_COMMAND_ERROR_RESPONSE;
        if (payload.get_byte_enable_ptr())
            return tlm::TLM_BYTE_ENABLE_ERROR_RESPONSE;
        if (payload.get_data_length() != length() || payload.get_streaming_width() < length())
            return tlm::TLM_BURST_ERROR_RESPONSE;
        return tlm::TLM_OK_RESPONSE;
    }
};

// A board of one byte or more. Its socket takes cycles with offsets for addresses. Debug transport and direct memory are the local port,
// which no class limits.
class board : public sc_core::sc_module {
public:
    tlm_utils::simple_target_socket<board> bus{"bus"};

    board(const sc_core::sc_module_name &name, std::size_t size, vme_class slave, sc_core::sc_time access)
        : sc_module(name), bytes(size), slave(slave), access(access)
    {
        bus.register_b_transport(this, &board::transport);
        bus.register_transport_dbg(this, &board::debug);
        bus.register_get_direct_mem_ptr(this, &board::direct);
    }

    // Reads 1, 2 or 4 bytes at an offset. Returns VME_OK or VME_BERR.
    uint8_t local_read(uint32_t at, uint8_t n, vme_datum &out) const
    {
        return vme_local_read(bytes.data(), bytes.size(), at, n, &out);
    }

    // Writes 1, 2 or 4 bytes at an offset. Returns VME_OK or VME_BERR.
    uint8_t local_write(uint32_t at, const vme_datum &datum)
    {
        return vme_local_write(bytes.data(), bytes.size(), at, &datum);
    }

private:
    std::vector<uint8_t> bytes;
    vme_class slave;
    sc_core::sc_time access;

    void transport(tlm::tlm_generic_payload &payload, sc_core::sc_time &delay)
    {
        const cycle *shown = payload.get_extension<cycle>();
        const auto fits = shown ? shown->fits(payload) : tlm::TLM_COMMAND_ERROR_RESPONSE;
        payload.set_response_status(payload.get_address() > UINT32_MAX ? tlm::TLM_ADDRESS_ERROR_RESPONSE : fits);
        if (payload.is_response_error())
            return;
        vme_datum found{};
        const auto at = static_cast<uint32_t>(payload.get_address());
        const uint8_t result = vme_slave_cycle(bytes.data(), bytes.size(), &slave, &shown->lines, at, &shown->f, &found);
        delay += access;
        if (result != VME_OK) {
            payload.set_response_status(
                result == VME_BERR ? tlm::TLM_GENERIC_ERROR_RESPONSE : tlm::TLM_COMMAND_ERROR_RESPONSE);
            return;
        }
        std::memcpy(payload.get_data_ptr(), found.bytes, found.n);
        payload.set_dmi_allowed(true);
    }

    unsigned debug(tlm::tlm_generic_payload &payload)
    {
        const sc_dt::uint64 at = payload.get_address();
        if (at >= bytes.size())
            return 0;
        const auto n = static_cast<unsigned>(std::min<sc_dt::uint64>(payload.get_data_length(), bytes.size() - at));
        if (payload.is_read())
            std::memcpy(payload.get_data_ptr(), &bytes[at], n);
        else
            std::memcpy(&bytes[at], payload.get_data_ptr(), n);
        return n;
    }

    bool direct(tlm::tlm_generic_payload &, tlm::tlm_dmi &dmi)
    {
        dmi.set_dmi_ptr(bytes.data());
        dmi.set_start_address(0);
        dmi.set_end_address(bytes.size() - 1);
        dmi.set_read_latency(access);
        dmi.set_write_latency(access);
        dmi.allow_read_write();
        return true;
    }
};

// The backplane: an address map of one board or more, any number of masters, and the arbiter. If no board responds, the bus timer
// drives BERR*. Debug transport and direct memory have no cycle, so they use the address modifier of the payload's extension, or without
// one that of the constructor.
class backplane : public sc_core::sc_module {
public:
    tlm_utils::multi_passthrough_target_socket<backplane> in{"in"};
    std::vector<std::unique_ptr<tlm_utils::simple_initiator_socket<backplane>>> out;

    backplane(const sc_core::sc_module_name &name, std::vector<vme_entry> entries, uint8_t kind = VME_PRIORITY,
              uint8_t local_am = 0x0d)
        : sc_module(name), map(std::move(entries)), local_am(local_am)
    {
        in.register_b_transport(this, &backplane::transport);
        in.register_transport_dbg(this, &backplane::debug);
        in.register_get_direct_mem_ptr(this, &backplane::direct);
        for (std::size_t i = 0; i < map.size(); i++)
            out.push_back(
                std::make_unique<tlm_utils::simple_initiator_socket<backplane>>(("out" + std::to_string(i)).c_str()));
        if (vme_map_check(map.data(), map.size()) != VME_OK)
            SC_REPORT_FATAL("vme", "the address map is not lawful");
        vme_arbiter_open(kind, &arbiter);
    }

    // Gets the bus for a slot on a level, and waits until it has it. A processor calls it in its thread, after its local time.
    void acquire(uint16_t slot, uint8_t level)
    {
        uint8_t reply = vme_arbiter_ask(&arbiter, slot, level);
        while (reply == VME_WAITING) {
            sc_core::wait(freed);
            reply = vme_arbiter_look(&arbiter, slot);
        }
        if (reply != VME_GRANTED)
            SC_REPORT_FATAL("vme", "the arbiter denies the request");
    }

    // Gives it back.
    void release(uint16_t slot)
    {
        if (vme_arbiter_done(&arbiter, slot) != VME_FREED)
            SC_REPORT_FATAL("vme", "the slot does not hold the bus");
        freed.notify();
    }

private:
    std::vector<vme_entry> map;
    uint8_t local_am;
    vme_arbiter arbiter{};
    sc_core::sc_event freed;

    void transport(int, tlm::tlm_generic_payload &payload, sc_core::sc_time &delay)
    {
        const cycle *shown = payload.get_extension<cycle>();
        if (!shown) {
            payload.set_response_status(tlm::TLM_COMMAND_ERROR_RESPONSE);
            return;
        }
        vme_selection found{};
        const uint8_t result = vme_map_select(map.data(), map.size(), shown->lines.am, shown->first, &found);
        if (result != VME_OK) {
            payload.set_response_status(
                result == VME_NO_BOARD ? tlm::TLM_ADDRESS_ERROR_RESPONSE : tlm::TLM_COMMAND_ERROR_RESPONSE);
            return;
        }
        const sc_dt::uint64 addr = payload.get_address();
        payload.set_address(found.offset + (addr - shown->first));
        (*out[found.place])->b_transport(payload, delay);
        payload.set_address(addr);
    }

    // The board of a payload that has no cycle: by the code of its extension, if it has one.
    bool selects(const tlm::tlm_generic_payload &payload, vme_selection &found) const
    {
        const cycle *shown = payload.get_extension<cycle>();
        const sc_dt::uint64 addr = payload.get_address();
        return addr <= UINT32_MAX
            && vme_map_select(map.data(), map.size(), shown ? shown->lines.am : local_am, static_cast<uint32_t>(addr), &found) == VME_OK;
    }

    unsigned debug(int, tlm::tlm_generic_payload &payload)
    {
        const sc_dt::uint64 addr = payload.get_address();
        vme_selection found{};
        if (!selects(payload, found))
            return 0;
        payload.set_address(found.offset);
        const unsigned n = (*out[found.place])->transport_dbg(payload);
        payload.set_address(addr);
        return n;
    }

    bool direct(int, tlm::tlm_generic_payload &payload, tlm::tlm_dmi &dmi)
    {
        const sc_dt::uint64 addr = payload.get_address();
        vme_selection found{};
        if (!selects(payload, found)) {
            dmi.set_start_address(addr);
            dmi.set_end_address(addr);
            return false;
        }
        payload.set_address(found.offset);
        const bool is_given = (*out[found.place])->get_direct_mem_ptr(payload, dmi);
        payload.set_address(addr);
        dmi.set_start_address(dmi.get_start_address() + map[found.place].base);
        dmi.set_end_address(dmi.get_end_address() + map[found.place].base);
        return is_given;
    }
};

// A bridge from a bus of plain payloads, as a CPU model drives: a payload of any length and address is a tenure, whose cycles are as long
// as the byte locations allow. The bytes before an error have been moved. It waits until it has the bus, and for the time of the
// tenure, so its initiator is a thread.
class bridge : public sc_core::sc_module {
public:
    tlm_utils::simple_target_socket<bridge> in{"in"};
    tlm_utils::simple_initiator_socket<bridge> out{"out"};

    // am is the address modifier of the data. width is that of the boards behind it, 8, 16 or 32 bits, and uat whether they have
    // unaligned cycles. The backplane is asked for the bus.
    bridge(const sc_core::sc_module_name &name, backplane &plane, uint16_t slot, uint8_t level, uint8_t am, uint8_t width = 32,
           bool uat = true)
        : sc_module(name), plane(plane), slot(slot), level(level), am(am), width(width), uat(uat)
    {
        in.register_b_transport(this, &bridge::transport);
        in.register_transport_dbg(this, &bridge::debug);
        in.register_get_direct_mem_ptr(this, &bridge::direct);
        out.register_invalidate_direct_mem_ptr(this, &bridge::invalidate);
    }

private:
    backplane &plane;
    uint16_t slot;
    uint8_t level, am, width;
    bool uat;

    void transport(tlm::tlm_generic_payload &payload, sc_core::sc_time &delay)
    {
        payload.set_response_status(fits_cycles(payload));
        if (payload.is_response_error() || payload.get_command() == tlm::TLM_IGNORE_COMMAND)
            return;
        sc_core::wait(delay);
        delay = sc_core::SC_ZERO_TIME;
        plane.acquire(slot, level);
        sc_core::sc_time spent;
        each_cycle(payload, width, uat, [&](uint32_t addr, unsigned char *data, unsigned n) { move(payload, addr, data, n, spent); });
        sc_core::wait(spent);
        plane.release(slot);
    }

    // One cycle of n bytes.
    void move(tlm::tlm_generic_payload &whole, uint32_t addr, unsigned char *data, unsigned n, sc_core::sc_time &spent)
    {
        vme_request request{};
        request.kind = whole.is_read() ? VME_READ : VME_WRITE;
        request.am = am;
        request.addr = addr;
        request.n = static_cast<uint8_t>(n);
        vme_datum datum{};
        datum.n = request.n;
        std::memcpy(datum.bytes, data, n);
        cycle shown;
        shown.first = addr;
        if (vme_request_lines(&request, 0, &datum, &shown.lines) != VME_OK) {
            whole.set_response_status(tlm::TLM_ADDRESS_ERROR_RESPONSE);
            return;
        }
        tlm::tlm_generic_payload part;
        part.set_command(whole.get_command());
        part.set_extension(&shown);
        part.set_address(addr);
        part.set_data_ptr(data);
        part.set_data_length(n);
        part.set_streaming_width(n);
        part.set_response_status(tlm::TLM_INCOMPLETE_RESPONSE);
        out->b_transport(part, spent);
        part.clear_extension(&shown);
        whole.set_response_status(part.get_response_status());
        whole.set_dmi_allowed(part.is_dmi_allowed() && part.is_response_ok());
    }

    // The payload with the bridge's code, for what has no cycle.
    template <typename Call> auto with_code(tlm::tlm_generic_payload &payload, Call call)
    {
        cycle shown;
        shown.lines.am = am;
        payload.set_extension(&shown);
        const auto result = call();
        payload.clear_extension(&shown);
        return result;
    }

    unsigned debug(tlm::tlm_generic_payload &payload)
    {
        return with_code(payload, [&] { return out->transport_dbg(payload); });
    }

    bool direct(tlm::tlm_generic_payload &payload, tlm::tlm_dmi &dmi)
    {
        return with_code(payload, [&] { return out->get_direct_mem_ptr(payload, dmi); });
    }

    void invalidate(sc_dt::uint64 first, sc_dt::uint64 last) { in->invalidate_direct_mem_ptr(first, last); }
};

}  // namespace vme

#endif
