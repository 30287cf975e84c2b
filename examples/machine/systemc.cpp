// Two CPU models in SystemC, each behind a processor of one machine, exclude each other by Peterson's algorithm on a board. A third
// processor is used by a host thread that runs beside the simulation.
//
//   g++ -std=c++17 -I../library/systemc systemc.cpp $(pkg-config --cflags --libs vme_machine) -lsystemc -pthread -o systemc && ./systemc
#include <atomic>
#include <cstdio>
#include <thread>
#include <vector>

#include <tlm_utils/simple_initiator_socket.h>

#include "vme_machine_tlm.h"

namespace {

constexpr uint8_t AM = 0x09;
constexpr uint32_t BASE = 0x08000000, STRIDE = 0x10000, SHARED = BASE + 2 * STRIDE;
constexpr unsigned ROUNDS = 50;

unsigned counter;
std::atomic<bool> is_over{false};

class cpu : public sc_core::sc_module {
public:
    tlm_utils::simple_initiator_socket<cpu> out{"out"};

    SC_HAS_PROCESS(cpu);
    cpu(const sc_core::sc_module_name &name, unsigned self) : sc_module(name), self(self) { SC_THREAD(work); }

private:
    unsigned self;

    uint8_t access(tlm::tlm_command command, uint32_t addr, uint8_t byte)
    {
        tlm::tlm_generic_payload payload;
        sc_core::sc_time delay;
        payload.set_command(command);
        payload.set_address(addr);
        payload.set_data_ptr(&byte);
        payload.set_data_length(1);
        payload.set_streaming_width(1);
        payload.set_response_status(tlm::TLM_INCOMPLETE_RESPONSE);
        out->b_transport(payload, delay);
        if (payload.is_response_error())
            SC_REPORT_FATAL("cpu", "a transfer failed");
        return byte;
    }

    uint8_t read(uint32_t at) { return access(tlm::TLM_READ_COMMAND, SHARED + at, 0); }
    void write(uint32_t at, uint8_t byte) { access(tlm::TLM_WRITE_COMMAND, SHARED + at, byte); }

    void work()
    {
        const auto other = static_cast<uint8_t>(1 - self);
        for (unsigned round = 0; round < ROUNDS; round++) {
            write(self, 1);
            write(2, other);
            while (read(other) == 1 && read(2) == other)
                ;
            const unsigned before = counter;
            wait(3, sc_core::SC_US);
            counter = before + 1;
            write(self, 0);
        }
    }
};

// What the host thread does: it writes words to its own board, and reads them again over the bus.
void beside(vme_processor &own, unsigned long &wrong)
{
    const vme_waiter waiter{};
    for (uint32_t k = 1; !is_over.load(); k++) {
        const vme_datum word = vme_datum_of(k);
        vme_datum found{};
        wrong += vme_processor_local_write(&own, &waiter, 64, &word) != VME_OK;
        wrong += vme_read(&own, &waiter, AM, SHARED + 64, 4, &found) != VME_OK || vme_word_of(&found) != k;
    }
}

}  // namespace

int sc_main(int, char **)
{
    const sc_core::sc_time event(100, sc_core::SC_NS);
    std::vector<vme_board> boards(3);
    std::vector<vme_processor> own(3);
    for (uint32_t i = 0; i < 3; i++) {
        boards[i].entry = vme_entry{BASE + i * STRIDE, 4096, 32, 0};
        boards[i].cls = vme_class{32, 1, 1, 1};
        boards[i].slot = static_cast<uint16_t>(i + 1);
        boards[i].level = 3;
    }
    if (vme_machine_open(boards.data(), 3, VME_PRIORITY, own.data(), 3) != VME_OK)
        return 1;
    cpu first("first", 0), second("second", 1);
    vme::processor_port left("left", own[0], AM, event), right("right", own[1], AM, event);
    first.out.bind(left.in);
    second.out.bind(right.in);
    unsigned long wrong = 0;
    std::thread thread(beside, std::ref(own[2]), std::ref(wrong));
    sc_core::sc_start();
    is_over.store(true);
    thread.join();
    std::printf("two models in SystemC and a host thread: %s\n", counter == 2 * ROUNDS && wrong == 0 ? "no increment is lost" : "wrong");
    for (vme_processor &one : own)
        vme_processor_drop(&one);
    return counter == 2 * ROUNDS ? 0 : 1;
}
