// Two CPU models that know no VMEbus, each behind a bridge on one backplane, and a third behind a bridge for boards of 16 lines: what
// TLM-2.0 asks of a target, each line as bridged.out has it.
#include <cstdio>
#include <cstring>

#include "vme_tlm.h"

namespace {

// A payload without anything of the VMEbus.
struct plain : tlm::tlm_generic_payload {
    plain(bool read, uint64_t addr, uint8_t *data, unsigned n)
    {
        set_command(read ? tlm::TLM_READ_COMMAND : tlm::TLM_WRITE_COMMAND);
        set_address(addr);
        set_data_ptr(data);
        set_data_length(n);
        set_streaming_width(n);
        set_response_status(tlm::TLM_INCOMPLETE_RESPONSE);
    }
};

struct cpu : sc_core::sc_module {
    tlm_utils::simple_initiator_socket<cpu> socket{"socket"};

    explicit cpu(const sc_core::sc_module_name &name) : sc_module(name) {}

    void say(const char *what, tlm::tlm_generic_payload &p)
    {
        sc_core::sc_time delay;
        socket->b_transport(p, delay);
        sc_core::wait(delay);
        std::printf("%s: %s at %s, dmi %d\n", what, p.get_response_string().c_str(), sc_core::sc_time_stamp().to_string().c_str(),
                    p.is_dmi_allowed());
    }

    void access(const char *what, bool read, uint64_t addr, uint8_t *data, unsigned n)
    {
        plain p(read, addr, data, n);
        say(what, p);
    }
};

// Long and unaligned accesses, errors, byte enables, streaming, debug transport and direct memory.
struct first_cpu : cpu {
    SC_HAS_PROCESS(first_cpu);
    explicit first_cpu(const sc_core::sc_module_name &name) : cpu(name) { SC_THREAD(run); }

    void run()
    {
        uint8_t data[16] = {1, 2, 3, 4, 5, 6, 7, 8, 9, 10, 11}, back[16] = {}, enables[4] = {0xff, 0, 0xff, 0xff};
        access("write of 11 bytes at 1", false, 0x200001, data, 11);
        access("read of them", true, 0x200001, back, 11);
        std::printf("%s\n", std::memcmp(data, back, 11) == 0 ? "the same bytes" : "other bytes");
        access("past the end", true, 0x200ffe, back, 6);
        access("no board", true, 0x400000, back, 4);
        access("above 32 bits", true, 0x100000000, back, 4);
        access("no bytes", true, 0x200000, back, 0);
        plain enabled(true, 0x200001, back, 4), streamed(true, 0x200001, back, 4), p(true, 0x200001, back, 11);
        enabled.set_byte_enable_ptr(enables);
        enabled.set_byte_enable_length(4);
        say("byte enables", enabled);
        streamed.set_streaming_width(2);
        say("streaming", streamed);
        std::memset(back, 0, sizeof back);
        const unsigned moved = socket->transport_dbg(p);
        std::printf("debug transport: %u bytes, %s\n", moved, std::memcmp(data, back, 11) == 0 ? "the same" : "others");
        tlm::tlm_dmi dmi;
        const bool is_given = socket->get_direct_mem_ptr(p, dmi);
        std::printf("direct memory: %d, %llx to %llx, %02x\n", is_given, static_cast<unsigned long long>(dmi.get_start_address()),
                    static_cast<unsigned long long>(dmi.get_end_address()), is_given ? dmi.get_dmi_ptr()[1] : 0);
        p.set_address(0x400000);
        std::printf("direct memory of no board: %d\n", socket->get_direct_mem_ptr(p, dmi));
    }
};

// Reads beside it, in tenures of its own.
struct second_cpu : cpu {
    SC_HAS_PROCESS(second_cpu);
    explicit second_cpu(const sc_core::sc_module_name &name) : cpu(name) { SC_THREAD(run); }

    void run()
    {
        uint8_t back[4];
        for (int i = 0; i < 3; i++) access("second master", true, 0x200000, back, 4);
    }
};

// Behind a bridge for boards of 16 lines: a board of that class answers each of its cycles.
struct third_cpu : cpu {
    SC_HAS_PROCESS(third_cpu);
    explicit third_cpu(const sc_core::sc_module_name &name) : cpu(name) { SC_THREAD(run); }

    void run()
    {
        uint8_t data[7] = {1, 2, 3, 4, 5, 6, 7};
        sc_core::wait(5, sc_core::SC_US);
        access("7 bytes of 16 lines", false, 0x300001, data, 7);
    }
};

}  // namespace

int sc_main(int, char **)
{
    const sc_core::sc_time access(100, sc_core::SC_NS);
    vme::backplane plane("plane", {{0x200000, 4096, 24, 0}, {0x300000, 64, 24, 0}});
    vme::board memory("memory", 4096, {32, 1, 1, 1}, access), narrow("narrow", 64, {16, 0, 0, 0}, access);
    vme::bridge b1("b1", plane, 1, 3, 0x39), b2("b2", plane, 2, 3, 0x39), b3("b3", plane, 3, 3, 0x39, 16);
    first_cpu c1("c1");
    second_cpu c2("c2");
    third_cpu c3("c3");
    c1.socket.bind(b1.in);
    c2.socket.bind(b2.in);
    c3.socket.bind(b3.in);
    b1.out.bind(plane.in);
    b2.out.bind(plane.in);
    b3.out.bind(plane.in);
    plane.out[0]->bind(memory.bus);
    plane.out[1]->bind(narrow.bus);
    sc_core::sc_start();
    return 0;
}
