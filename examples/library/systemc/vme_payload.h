// What vme_tlm.h and vme_machine_tlm.h do with plain payloads, as a CPU model drives: whether cycles can move one, and how long they are.
#ifndef VME_PAYLOAD_H
#define VME_PAYLOAD_H

#include <algorithm>
#include <cstdint>

#include <tlm>

namespace vme {

// The response to a plain payload that no cycles can move, or TLM_OK_RESPONSE.
inline tlm::tlm_response_status fits_cycles(const tlm::tlm_generic_payload &payload)
{
    if (payload.get_byte_enable_ptr())
        return tlm::TLM_BYTE_ENABLE_ERROR_RESPONSE;
    if (payload.get_data_length() == 0 || payload.get_streaming_width() < payload.get_data_length())
        return tlm::TLM_BURST_ERROR_RESPONSE;
    if (payload.get_address() + payload.get_data_length() - 1 > UINT32_MAX)
        return tlm::TLM_ADDRESS_ERROR_RESPONSE;
    return tlm::TLM_OK_RESPONSE;
}

// The length of the longest cycle at an address, of boards of a width of 8, 16 or 32 bits, with unaligned cycles or not.
inline unsigned cycle_length(uint32_t addr, unsigned left, unsigned width, bool uat)
{
    if (uat && width == 32)
        return std::min(4 - addr % 4, left);
    unsigned n = width / 8;
    while (n > left || addr % n != 0)
        n /= 2;
    return n;
}

// Gives a call each cycle of a plain payload that fits: its address, its bytes and their number. The call sets the response, and the
// cycles after an error are not made.
template <typename Call> void each_cycle(tlm::tlm_generic_payload &payload, unsigned width, bool uat, Call call)
{
    for (unsigned done = 0; done < payload.get_data_length() && payload.is_response_ok();) {
        const auto addr = static_cast<uint32_t>(payload.get_address() + done);
        const unsigned n = cycle_length(addr, payload.get_data_length() - done, width, uat);
        call(addr, payload.get_data_ptr() + done, n);
        done += n;
    }
}

}  // namespace vme

#endif
