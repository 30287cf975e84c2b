// What the backplane answers to payloads that do not fit their cycle, as rules.out has it: length, command, byte enables, no cycle.
#include <cstdio>

#include "vme_tlm.h"

namespace {

struct master : sc_core::sc_module {
    tlm_utils::simple_initiator_socket<master> socket{"socket"};
    uint8_t data[4] = {1, 2, 3, 4}, enables[4] = {0xff, 0, 0xff, 0xff};

    SC_HAS_PROCESS(master);
    explicit master(const sc_core::sc_module_name &name) : sc_module(name) { SC_THREAD(run); }

    void say(const char *what, tlm::tlm_generic_payload &p, tlm::tlm_command command, unsigned n)
    {
        sc_core::sc_time delay;
        p.set_command(command);
        p.set_data_length(n);
        p.set_response_status(tlm::TLM_INCOMPLETE_RESPONSE);
        socket->b_transport(p, delay);
        std::printf("%s: %s after %s\n", what, p.get_response_string().c_str(), delay.to_string().c_str());
    }

    void run()
    {
        vme::cycle shown;
        vme_request request{};
        const vme_datum none{};
        request.kind = VME_READ;
        request.am = 0x39;
        request.addr = shown.first = 0x200000;
        request.n = 4;
        vme_request_lines(&request, 0, &none, &shown.lines);
        tlm::tlm_generic_payload p;
        p.set_address(0x200000);
        p.set_data_ptr(data);
        p.set_streaming_width(4);
        say("no cycle", p, tlm::TLM_READ_COMMAND, 4);
        p.set_extension(&shown);
        say("read of four bytes", p, tlm::TLM_READ_COMMAND, 4);
        say("length 2 with lines of 4", p, tlm::TLM_READ_COMMAND, 2);
        say("write command with lines of a read", p, tlm::TLM_WRITE_COMMAND, 4);
        say("ignore command", p, tlm::TLM_IGNORE_COMMAND, 4);
        p.set_byte_enable_ptr(enables);
        p.set_byte_enable_length(4);
        say("byte enables", p, tlm::TLM_READ_COMMAND, 4);
        p.set_byte_enable_ptr(nullptr);
        p.set_streaming_width(2);
        say("streaming width 2", p, tlm::TLM_READ_COMMAND, 4);
        p.clear_extension(&shown);
    }
};

}  // namespace

int sc_main(int, char **)
{
    vme::backplane plane("plane", {{0x200000, 4096, 24, 0}});
    vme::board memory("memory", 4096, {32, 1, 1, 1}, sc_core::sc_time(100, sc_core::SC_NS));
    master one("one");
    one.socket.bind(plane.in);
    plane.out[0]->bind(memory.bus);
    sc_core::sc_start();
    return 0;
}
