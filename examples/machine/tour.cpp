// The machine in C++: four processors, each in a std::thread, take a semaphore and increment a word of the fourth board, put its values
// into a mailbox, and increment a plain variable while they have the bus.
//
//   c++ -std=c++11 tour.cpp $(pkg-config --cflags --libs vme_machine) -pthread -o tour && ./tour
#include <cstdio>
#include <functional>
#include <thread>

#include "vme_machine.hpp"

namespace {

constexpr std::uint8_t AM = 0x09;
constexpr std::uint32_t BASE = 0x08000000, STRIDE = 0x10000, LAST = BASE + 3 * STRIDE;
constexpr std::size_t BOARDS = 4, ROUNDS = 100;
constexpr std::uint32_t SEMAPHORE = LAST, WORD = LAST + 16;
const vme_mailbox BOX = {LAST + 256, 8, AM};

std::uint32_t word_of(const vme::bytes &data)
{
    const vme_datum datum = vme::datum_of(data);
    return vme_word_of(&datum);
}

std::vector<vme_board> boards()
{
    std::vector<vme_board> made;
    for (std::size_t i = 0; i < BOARDS; i++) {
        vme_board board{};
        board.entry = vme_entry{static_cast<std::uint32_t>(BASE + i * STRIDE), 4096, 32, 0};
        board.cls = vme_class{32, 1, 1, 1};
        board.slot = static_cast<std::uint16_t>(i + 1);
        board.level = static_cast<std::uint8_t>(i);
        made.push_back(board);
    }
    return made;
}

// What the first three processors do.
void work(vme::processor &own, unsigned long &counter)
{
    for (std::size_t round = 0; round < ROUNDS; round++) {
        {
            const vme::lock_guard guard(own, AM, SEMAPHORE);
            own.write(AM, WORD, vme::bytes_of(vme_datum_of(word_of(own.read(AM, WORD, 4)) + 1)));
        }
        own.with_bus(AM, WORD, [&] { counter++; });
        own.put(BOX, 1);
    }
}

// The last one takes what they put.
void take(vme::processor &own, std::uint32_t &sum)
{
    for (std::size_t i = 0; i < (BOARDS - 1) * ROUNDS; i++)
        sum += own.take(BOX);
}

} // namespace

int main()
{
    unsigned long counter = 0;
    std::uint32_t sum = 0;
    vme::machine machine(boards(), VME_ROTATING);
    {
        const vme::lock_guard guard(machine[0], AM, SEMAPHORE);
        std::printf("while a guard has the lock, another processor %s\n", machine[1].try_lock(AM, SEMAPHORE) ? "takes it" : "does not");
    }
    std::vector<std::thread> threads;
    for (std::size_t i = 0; i + 1 < machine.size(); i++)
        threads.emplace_back(work, std::ref(machine[i]), std::ref(counter));
    threads.emplace_back(take, std::ref(machine[BOARDS - 1]), std::ref(sum));
    for (std::thread &thread : threads)
        thread.join();
    std::printf("word %u, variable %lu, taken %u\n", word_of(machine[0].read(AM, WORD, 4)), counter, sum);

    vme::processor moved = std::move(machine[1]);
    try {
        machine.close();
    } catch (const vme::error &refused) {
        std::printf("without a processor: %s\n", refused.what());
    }
    machine[1] = std::move(moved);
    machine.close();
    try {
        machine[0].local_read(0, 4);
    } catch (const vme::error &refused) {
        std::printf("a read afterwards: %s\n", refused.what());
    }
    return 0;
}
