// Boards whose processors each read a byte of their own board over one bus until it is set, which it never is: a
// SystemC model of the file that `bench/all` gives to `vme step`, with the same report. Each processor is an initiator.
// A transfer has a tenure of the bus, which the arbiter grants in order of slots; it is one blocking transport.
//
// usage: main BOARDS TRIES

#include <cstdint>
#include <cstdio>
#include <cstdlib>
#include <cstring>
#include <memory>
#include <vector>

#include <systemc>
#include <tlm>
#include <tlm_utils/multi_passthrough_initiator_socket.h>
#include <tlm_utils/multi_passthrough_target_socket.h>
#include <tlm_utils/simple_initiator_socket.h>
#include <tlm_utils/simple_target_socket.h>

namespace {

constexpr std::uint64_t base_step = 0x1000;
constexpr std::uint64_t size = 32;
constexpr std::uint64_t offset = 16;
const sc_core::sc_time cycle(100, sc_core::SC_NS);

struct Board : sc_core::sc_module {
    tlm_utils::simple_target_socket<Board> socket;
    std::vector<std::uint8_t> memory;
    std::uint64_t steps = 0;

    explicit Board(sc_core::sc_module_name name) : sc_module(name), socket("socket"), memory(size) {
        socket.register_b_transport(this, &Board::transport);
    }

    void transport(tlm::tlm_generic_payload &payload, sc_core::sc_time &delay) {
        std::uint64_t at = payload.get_address();
        if (!payload.is_read() || at + payload.get_data_length() > size) {
            payload.set_response_status(tlm::TLM_ADDRESS_ERROR_RESPONSE);
            return;
        }
        std::memcpy(payload.get_data_ptr(), &memory[at], payload.get_data_length());
        ++steps;
        delay += cycle;
        payload.set_response_status(tlm::TLM_OK_RESPONSE);
    }
};

// Selects the board of an address.
struct Bus : sc_core::sc_module {
    tlm_utils::multi_passthrough_target_socket<Bus> masters;
    tlm_utils::multi_passthrough_initiator_socket<Bus> boards;

    explicit Bus(sc_core::sc_module_name name) : sc_module(name), masters("masters"), boards("boards") {
        masters.register_b_transport(this, &Bus::transport);
    }

    void transport(int, tlm::tlm_generic_payload &payload, sc_core::sc_time &delay) {
        std::uint64_t address = payload.get_address();
        if (address / base_step >= boards.size()) {
            payload.set_response_status(tlm::TLM_ADDRESS_ERROR_RESPONSE);
            return;
        }
        payload.set_address(address % base_step);
        boards[static_cast<int>(address / base_step)]->b_transport(payload, delay);
        payload.set_address(address);
    }
};

// Who requests the bus, and who has it.
struct Arbiter {
    static constexpr int none = -1;
    std::vector<bool> requests;
    std::vector<std::unique_ptr<sc_core::sc_event>> grants;
    int owner = none;

    explicit Arbiter(int count) : requests(count) {
        for (int who = 0; who < count; ++who) {
            grants.push_back(std::make_unique<sc_core::sc_event>());
        }
    }

    void take(int who) {
        requests[who] = true;
        grant();
        while (owner != who) {
            sc_core::wait(*grants[who]);
        }
    }

    void give_back(int who) {
        requests[who] = false;
        owner = none;
        grant();
    }

    void grant() {
        for (int who = 0; owner == none && who < static_cast<int>(requests.size()); ++who) {
            if (requests[who]) {
                owner = who;
                grants[who]->notify();
            }
        }
    }
};

struct Processor : sc_core::sc_module {
    tlm_utils::simple_initiator_socket<Processor> socket;
    Arbiter &arbiter;
    int who;
    int tries;
    bool met = false;

    SC_HAS_PROCESS(Processor);

    Processor(sc_core::sc_module_name name, Arbiter &arbiter, int who, int tries)
        : sc_module(name), socket("socket"), arbiter(arbiter), who(who), tries(tries) {
        SC_THREAD(run);
    }

    void run() {
        for (int attempt = 0; attempt < tries && !met; ++attempt) {
            met = read() == 1;
        }
    }

    std::uint8_t read() {
        std::uint8_t byte = 0;
        tlm::tlm_generic_payload payload;
        payload.set_read();
        payload.set_address(base_step * who + offset);
        payload.set_data_ptr(&byte);
        payload.set_data_length(1);
        payload.set_streaming_width(1);
        sc_core::sc_time delay = sc_core::SC_ZERO_TIME;
        arbiter.take(who);
        socket->b_transport(payload, delay);
        sc_core::wait(delay);
        arbiter.give_back(who);
        if (payload.is_response_error()) {
            std::abort();
        }
        return byte;
    }
};

} // namespace

int sc_main(int argc, char **argv) {
    if (argc != 3) {
        std::fputs("usage: main BOARDS TRIES\n", stderr);
        return 2;
    }
    int count = std::atoi(argv[1]);
    int tries = std::atoi(argv[2]);
    Arbiter arbiter(count);
    Bus bus("bus");
    std::vector<std::unique_ptr<Board>> boards;
    std::vector<std::unique_ptr<Processor>> processors;
    for (int who = 0; who < count; ++who) {
        boards.push_back(std::make_unique<Board>(sc_core::sc_gen_unique_name("board")));
        processors.push_back(std::make_unique<Processor>(sc_core::sc_gen_unique_name("processor"), arbiter, who, tries));
        bus.boards.bind(boards[who]->socket);
        processors[who]->socket.bind(bus.masters);
    }
    sc_core::sc_start();
    bool all_met = true;
    for (int who = 0; who < count; ++who) {
        std::printf("%d:1 %s\n", who + 1, processors[who]->met ? "met" : "timeout");
        all_met &= processors[who]->met;
    }
    for (int who = 0; who < count; ++who) {
        std::printf("board %d steps %ju made", who + 1, static_cast<std::uintmax_t>(boards[who]->steps));
        for (int other = 0; other < count; ++other) {
            std::printf(" %ju", static_cast<std::uintmax_t>(other == who ? boards[who]->steps : 0));
        }
        std::putchar('\n');
    }
    return all_met ? 0 : 1;
}
