// What the software of a VMEbus master does first, as a SystemC initiator: it probes for boards, takes a semaphore by
// test-and-set, and moves a block. Then two masters share the bus, and a processor uses the local port of its own board.
// Prints the same as tour.c.
//
//   g++ -std=c++17 tour.cpp $(pkg-config --cflags --libs vme) -lsystemc -o tour && ./tour
#include <cstdio>

#include "vme_tlm.h"

using bytes = std::vector<uint8_t>;

class master : public sc_core::sc_module {
public:
    tlm_utils::simple_initiator_socket<master> socket{"socket"};

    SC_HAS_PROCESS(master);
    master(const sc_core::sc_module_name &name, vme::board &own) : sc_module(name), own(own) { SC_THREAD(work); }

private:
    vme::board &own;

    static vme_request request_of(uint8_t kind, uint8_t am, uint32_t addr, uint8_t n, uint16_t count = 0)
    {
        vme_request request{};
        request.kind = kind;
        request.am = am;
        request.addr = addr;
        request.n = n;
        request.count = count;
        return request;
    }

    // Makes all cycles of a request that writes these data. Returns how the bus answers; the bytes that were read are in
    // read.
    const char *perform(const vme_request &request, const bytes &written, bytes &read)
    {
        const bool block = request.kind == VME_BLOCK_READ || request.kind == VME_BLOCK_WRITE;
        for (uint16_t i = 0; i < (block ? request.count : 1); i++) {
            vme_datum datum{};
            for (; datum.n < request.n && i * request.n + datum.n < static_cast<int>(written.size()); datum.n++)
                datum.bytes[datum.n] = written[static_cast<std::size_t>(i * request.n + datum.n)];
            vme::cycle cycle;
            switch (vme_request_lines(&request, i, &datum, &cycle.lines)) {
            case VME_OK: break;
            case VME_K3: return "K3: no such cycle";
            case VME_K6: return "K6: over a boundary";
            default: return "other";
            }
            cycle.f = request.f;
            cycle.first = request.addr;
            switch (transport(request, i, cycle, datum)) {
            case tlm::TLM_OK_RESPONSE: break;
            case tlm::TLM_ADDRESS_ERROR_RESPONSE: return "no board";
            case tlm::TLM_GENERIC_ERROR_RESPONSE: return "berr";
            default: return "other";
            }
            if (cycle.lines.write)
                read.insert(read.end(), datum.bytes, datum.bytes + request.n);
        }
        return "dtack";
    }

    // Makes the cycle of datum i over the socket. The bytes that were read are in datum.
    tlm::tlm_response_status transport(const vme_request &request, uint16_t i, vme::cycle &cycle, vme_datum &datum)
    {
        tlm::tlm_generic_payload payload;
        sc_core::sc_time delay;
        payload.set_command(cycle.lines.write ? tlm::TLM_READ_COMMAND : tlm::TLM_WRITE_COMMAND);
        payload.set_address(request.addr + static_cast<uint32_t>(i) * request.n);
        payload.set_data_ptr(datum.bytes);
        payload.set_data_length(request.n);
        payload.set_streaming_width(request.n);
        payload.set_response_status(tlm::TLM_INCOMPLETE_RESPONSE);
        payload.set_extension(&cycle);
        socket->b_transport(payload, delay);
        payload.clear_extension(&cycle);
        wait(delay);
        return payload.get_response_status();
    }

    void probe(uint8_t am, uint32_t addr, uint8_t n)
    {
        bytes read;
        const char *answer = perform(request_of(VME_READ, am, addr, n), {}, read);
        std::printf("probe am %02x, address %08x, %d bytes: %s\n", am, addr, n, answer);
    }

    // Whether this call takes the semaphore at an address: bit 7 of its byte was clear, and is set now.
    int take(uint32_t addr)
    {
        vme_request request = request_of(VME_MODIFY, 0x3d, addr, 1);
        request.f.function = VME_SET;
        bytes old;
        perform(request, {}, old);
        return !old.empty() && (old[0] & 0x80) == 0;
    }

    // Writes count words of four bytes as one block, and reads them again as another.
    const char *move(uint32_t addr, uint16_t count)
    {
        bytes words, read;
        for (unsigned i = 1; i <= count; i++)
            words.insert(words.end(), {0, 0, 0, static_cast<uint8_t>(i)});
        const char *answer = perform(request_of(VME_BLOCK_WRITE, 0x3f, addr, 4, count), words, read);
        if (std::strcmp(answer, "dtack") != 0)
            return answer;
        answer = perform(request_of(VME_BLOCK_READ, 0x3f, addr, 4, count), {}, read);
        return read == words ? answer : "other";
    }

    // Two slots on one level request the bus: the second one waits until the first one releases it.
    void share()
    {
        static const char *const replies[] = {"ok", "granted", "waiting", "freed", "denied"};
        vme_arbiter arbiter;
        vme_arbiter_open(VME_PRIORITY, &arbiter);
        std::printf("arbiter: %s", replies[vme_arbiter_ask(&arbiter, 2, 3)]);
        std::printf(" %s", replies[vme_arbiter_ask(&arbiter, 5, 3)]);
        std::printf(" %s", replies[vme_arbiter_look(&arbiter, 5)]);
        std::printf(" %s", replies[vme_arbiter_done(&arbiter, 2)]);
        std::printf(" %s", replies[vme_arbiter_look(&arbiter, 5)]);
        std::printf(" %s\n", replies[vme_arbiter_done(&arbiter, 2)]);
    }

    // Reads a word by the local port of this processor's board, adds to it, and writes it.
    void use_local_port(uint32_t at)
    {
        vme_datum word{};
        own.local_read(at, 4, word);
        word.bytes[3] = static_cast<uint8_t>(word.bytes[3] + 0xc1);
        own.local_write(at, word);
        own.local_read(at, 4, word);
        std::printf("local port: %02x%02x%02x%02x\n", word.bytes[0], word.bytes[1], word.bytes[2], word.bytes[3]);
    }

    // Prints the strobes of n bytes at an address, and the bytes that a slave senses from them.
    static void print_strobes(uint32_t addr, uint8_t n)
    {
        vme_strobes s;
        vme_place place;
        if (vme_strobes_drive(addr, n, &s) == VME_OK && vme_strobes_sense(&s, &place) == VME_OK)
            std::printf("strobes: ds1=%d ds0=%d a01=%d lword=%d, %d bytes from %d\n", s.ds1, s.ds0, s.a01, s.lword, place.n,
                        place.first);
    }

    void work()
    {
        probe(0x39, 0x200000, 4);
        probe(0x39, 0x200ffd, 3);
        probe(0x39, 0x200003, 2);
        probe(0x39, 0x300000, 1);
        probe(0x2d, 0xe000, 2);
        probe(0x2d, 0xe000, 4);
        probe(0x29, 0xe000, 2);
        bytes nothing;
        std::printf("semaphore: %d", take(0x200800));
        std::printf(" %d", take(0x200800));
        perform(request_of(VME_WRITE, 0x3d, 0x200800, 1), {0}, nothing);
        std::printf(" %d\n", take(0x200800));
        std::printf("block of 64 words: %s\n", move(0x200100, 64));
        std::printf("block of 65 words: %s\n", move(0x200100, 65));
        share();
        use_local_port(0x1fc);
        print_strobes(0x200001, 2);
    }
};

int sc_main(int, char **)
{
    const sc_core::sc_time access(100, sc_core::SC_NS);
    vme::backplane backplane("backplane", {{0x200000, 4096, 24, 0}, {0xe000, 256, 16, 1}});
    vme::board memory("memory", 4096, {32, 1, 1, 1}, access);
    vme::board io("io", 256, {16, 0, 0, 1}, access);
    master master("master", memory);
    master.socket.bind(backplane.in);
    backplane.out[0]->bind(memory.bus);
    backplane.out[1]->bind(io.bus);
    sc_core::sc_start();
    return vme_version() == VME_VERSION ? 0 : 1;
}
