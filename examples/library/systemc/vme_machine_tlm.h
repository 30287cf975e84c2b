// A processor of libvme_machine as a SystemC TLM-2.0 target (loosely timed, b_transport) for plain payloads, as a CPU model drives.
//
// Each processor is a module of its own, whose initiator is a thread: a payload of any length and address is split into cycles, each of
// them a transfer over the bus with its own tenure. Each event takes a time, in which the other processors go on, so their transfers
// compete for the bus as boards do. Other host threads may use further processors of the same machine at the same time. Responses:
// TLM_GENERIC_ERROR_RESPONSE is BERR* of a board, TLM_ADDRESS_ERROR_RESPONSE that of the bus timer or a refused request,
// TLM_BURST_ERROR_RESPONSE a payload without data or with a streaming width, TLM_BYTE_ENABLE_ERROR_RESPONSE one with byte enables.
#ifndef VME_MACHINE_TLM_H
#define VME_MACHINE_TLM_H

#include <systemc>
#include <tlm>
#include <tlm_utils/simple_target_socket.h>

#include "vme_payload.h"
#include "vme_wait.h"

namespace vme {

class processor_port : public sc_core::sc_module {
public:
    tlm_utils::simple_target_socket<processor_port> in{"in"};

    // own is used by this module alone until the end. am is the address modifier of the data. width is that of the boards, 8, 16 or 32
    // bits, and uat whether they have unaligned cycles. event is the time of one event.
    processor_port(const sc_core::sc_module_name &name, vme_processor &own, uint8_t am, sc_core::sc_time event, uint8_t width = 32,
                   bool uat = true)
        : sc_module(name), own(own), am(am), width(width), uat(uat), event(event)
    {
        in.register_b_transport(this, &processor_port::transport);
    }

    // The number of tenures, and how often the arbiter was asked in vain.
    unsigned long tenures = 0, waits = 0;

private:
    vme_processor &own;
    uint8_t am, width;
    bool uat;
    sc_core::sc_time event;

    void transport(tlm::tlm_generic_payload &payload, sc_core::sc_time &delay)
    {
        payload.set_response_status(fits_cycles(payload));
        if (payload.is_response_error() || payload.get_command() == tlm::TLM_IGNORE_COMMAND)
            return;
        sc_core::wait(delay);
        delay = sc_core::SC_ZERO_TIME;
        each_cycle(payload, width, uat, [&](uint32_t addr, unsigned char *data, unsigned n) {
            payload.set_response_status(response(move(payload.is_read(), addr, data, n)));
        });
    }

    static tlm::tlm_response_status response(uint8_t result)
    {
        switch (result) {
        case VME_OK: return tlm::TLM_OK_RESPONSE;
        case VME_BERR: return tlm::TLM_GENERIC_ERROR_RESPONSE;
        default: return tlm::TLM_ADDRESS_ERROR_RESPONSE;
        }
    }

    // One cycle of n bytes. Returns its result.
    uint8_t move(bool is_read, uint32_t addr, unsigned char *data, unsigned n)
    {
        const vme_request request = vme_request_of(is_read ? VME_READ : VME_WRITE, am, addr, static_cast<uint8_t>(n), 0);
        uint8_t result =
            is_read ? vme_processor_start_read(&own, &request) : vme_processor_start_write(&own, &request, data, n);
        if (result != VME_OK)
            return result;
        do {
            result = vme_processor_step(&own);
            waits += result == VME_NOT_GRANTED;
            sc_core::wait(event);
        } while (result == VME_MORE || result == VME_NOT_GRANTED || result == VME_BUSY);
        tenures++;
        std::size_t count = 0;
        if (result == VME_OK && is_read)
            vme_processor_bytes(&own, data, n, &count);
        return result;
    }
};

}  // namespace vme

#endif
