// A slave in Verilator beside a board of libvme: random requests, driven on the pins in the order of the handshake, and each answer
// compared. No vectors and no interface to Verilog: the board's module has pins in one direction each.
//   usage: bench [REQUESTS [SEED]]
#include <cstdint>
#include <cstdio>
#include <cstdlib>
#include <random>
#include <vector>
#include "Vslave.h"
#include "verilated.h"
#include "vme.h"

namespace {

constexpr uint32_t BASE = 0x2000, SIZE = 64;
constexpr vme_class KIND = {32, 1, 1, 1};
constexpr int LIMIT = 100;  // clocks until the bus timer

Vslave *pins;

void clocks(int n)
{
    while (n-- > 0) {
        pins->clock = 1;
        pins->eval();
        pins->clock = 0;
        pins->eval();
    }
}

uint8_t lane(const vme_lines &lines, int i) { return static_cast<uint8_t>(lines.lanes[VME_D31_D24 + i] & 0xff); }
bool carries(const vme_lines &lines, int i) { return lines.lanes[VME_D31_D24 + i] < 256; }

// Drives the lines of one transfer. Returns VME_OK for DTACK*, VME_BERR, or VME_NO_BOARD if none answers. The data strobes are
// high again when it returns.
uint8_t transfer(const vme_lines &lines, bool first, uint32_t &data)
{
    if (first) {
        pins->a = lines.addr >> 1 | lines.strobes.a01;
        pins->am = lines.am;
        pins->lword_n = lines.strobes.lword;
        clocks(2);
        pins->as_n = 0;
    }
    pins->write_n = lines.write;
    uint32_t word = 0;
    for (int i = 0; i < 4; i++) word |= static_cast<uint32_t>(lane(lines, i)) << (24 - 8 * i);
    pins->d = word;
    clocks(2);
    pins->ds_n = static_cast<uint8_t>(lines.strobes.ds1 << 1 | lines.strobes.ds0);
    int waited = 0;
    while (!pins->acknowledges && !pins->errs && waited++ < LIMIT) clocks(1);
    const int answer = pins->acknowledges ? VME_OK : pins->errs ? VME_BERR : VME_NO_BOARD;
    data = pins->q;
    pins->ds_n = 3;
    waited = 0;
    do clocks(1);
    while ((pins->acknowledges || pins->errs || pins->drives) && waited++ < LIMIT);
    return static_cast<uint8_t>(waited < LIMIT ? answer : VME_BAD_CALL);
}

// A request of the master, with the bytes of its data.
struct Asked {
    vme_request request{};
    std::vector<uint8_t> bytes;

    bool is_block() const { return request.kind == VME_BLOCK_READ || request.kind == VME_BLOCK_WRITE; }
    uint16_t count() const { return is_block() ? request.count : 1; }
    vme_datum datum(uint16_t i) const
    {
        vme_datum out{request.n, {}};
        for (int k = 0; k < request.n; k++) out.bytes[k] = bytes[static_cast<std::size_t>(i * request.n + k)];
        return out;
    }
};

// The first SIZE requests write each byte, and the others are random ones around the board.
Asked draw_request(std::mt19937 &draw, long number)
{
    static const uint8_t lengths[] = {1, 2, 4, 3}, codes[] = {0x09, 0x0d, 0x0a, 0x0e}, blocks[] = {0x0b, 0x0f};
    const auto below = [&draw](uint32_t n) { return static_cast<uint32_t>(draw() % n); };
    const bool fills = number < static_cast<long>(SIZE);
    Asked out;
    vme_request &it = out.request;
    it.kind = static_cast<uint8_t>(fills ? static_cast<uint32_t>(VME_WRITE) : below(5));
    it.n = fills ? 1 : lengths[below(it.kind <= VME_WRITE ? 4 : 3)];
    it.addr = fills ? BASE + static_cast<uint32_t>(number) : BASE - 4 + below(SIZE + 8);
    if (it.kind > VME_WRITE) it.addr -= it.addr % it.n;
    it.count = static_cast<uint16_t>(out.is_block() ? 1 + below(8) : 0);
    it.am = out.is_block() ? blocks[below(2)] : codes[below(it.kind == VME_MODIFY ? 2 : 4)];
    it.f.function = static_cast<uint8_t>(it.kind == VME_MODIFY ? 1 + below(3) : 0);
    for (int i = 0; i < 8 * it.n; i++) out.bytes.push_back(static_cast<uint8_t>(draw()));
    it.f.operand.n = static_cast<uint8_t>(it.f.function > VME_SET ? it.n : 0);
    for (int i = 0; i < it.f.operand.n; i++) it.f.operand.bytes[i] = out.bytes[static_cast<std::size_t>(i)];
    return out;
}

// The board of libvme, and what it has found.
struct Golden {
    std::vector<uint8_t> memory = std::vector<uint8_t>(SIZE);
    long passed = 0, failed = 0;

    uint8_t answer(const Asked &asked, const vme_lines &lines, uint16_t i, vme_datum &old)
    {
        static const vme_entry entry = {BASE, SIZE, 32, 0};
        vme_selection found{};
        const uint8_t result = vme_map_select(&entry, 1, asked.request.am, asked.request.addr, &found);
        if (result != VME_OK) return result;
        const uint32_t at = found.offset + i * asked.request.n;
        return vme_slave_cycle(memory.data(), memory.size(), &KIND, &lines, at, &asked.request.f, &old);
    }

    // Whether the bytes of a read are on their lanes.
    static bool shows(vme_lines lines, const vme_datum &old, uint32_t data)
    {
        vme_lines_answer(&lines, &old);
        for (int k = 0; k < 4; k++)
            if (carries(lines, k) && lane(lines, k) != (data >> (24 - 8 * k) & 0xff)) return false;
        return true;
    }

    static bool write_half(const Asked &asked, const vme_datum &old)
    {
        vme_datum put;
        vme_lines lines;
        uint32_t data;
        vme_modify_value(&asked.request.f, &old, &put);
        vme_request_write_half(&asked.request, &put, &lines);
        return transfer(lines, false, data) == VME_OK;
    }

    // Makes a request of the slave and of the board, and compares. A request with a refusal is not made.
    void check(const Asked &asked)
    {
        bool good = true, is_made = false;
        uint8_t found = VME_OK;
        for (uint16_t i = 0; good && found == VME_OK && i < asked.count(); i++) {
            const vme_datum datum = asked.datum(i);
            vme_datum old{};
            vme_lines lines;
            if (vme_request_lines(&asked.request, i, &datum, &lines) != VME_OK) return;
            is_made = true;
            const uint8_t wanted = answer(asked, lines, i, old);
            uint32_t data;
            found = transfer(lines, i == 0, data);
            good = found == wanted && (found != VME_OK || !lines.write || shows(lines, old, data))
                && (found != VME_OK || asked.request.kind != VME_MODIFY || write_half(asked, old));
            if (!good && failed == 0)
                std::printf("first difference: kind %d am=%02x addr=%08x n=%d datum %d: answer %d (data %08x), libvme %d\n",
                            asked.request.kind, asked.request.am, asked.request.addr, asked.request.n, i, found, data, wanted);
        }
        pins->as_n = 1;
        clocks(4);
        if (is_made) (good ? passed : failed)++;
    }
};

}  // namespace

int main(int argc, char **argv)
{
    const long requests = argc > 1 ? std::atol(argv[1]) : 10000;
    if (requests < 1) {
        std::fprintf(stderr, "usage: bench [REQUESTS [SEED]]\n");
        return 2;
    }
    std::mt19937 draw(static_cast<uint32_t>(argc > 2 ? std::atol(argv[2]) : 1));
    Vslave slave;
    pins = &slave;
    pins->ds_n = 3;
    pins->as_n = pins->write_n = pins->lword_n = pins->iack_n = 1;
    pins->reset_n = 0;
    clocks(4);
    pins->reset_n = 1;
    clocks(4);
    Golden golden;
    for (long number = 0; number < requests + static_cast<long>(SIZE); number++) golden.check(draw_request(draw, number));
    slave.final();
    std::printf("%ld passed, %ld failed\n", golden.passed, golden.failed);
    return golden.failed > 0 || golden.passed == 0;
}
