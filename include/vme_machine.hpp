// vme_machine.hpp: vme_machine.h and vme_wait.h as C++11 classes that own what they open. The headers in C are the manual.
//
// vme::machine    opens a machine, by boards or by a configuration file, and has its processors until they are taken; its threads share its
//                 releases.
// vme::processor  one processor with how it waits. It is moved, not copied, and used by one thread at a time. What a call can not
//                 do is a vme::error with the result, but for try_lock, which returns whether it has the lock.
//
// Nothing of this file is proved.
#ifndef VME_MACHINE_HPP
#define VME_MACHINE_HPP

#include <cstddef>
#include <cstdint>
#include <cstring>
#include <memory>
#include <new>
#include <stdexcept>
#include <string>
#include <utility>
#include <vector>

#include "vme_wait.h"

namespace vme {

// A call did not succeed.
class error : public std::runtime_error {
public:
    explicit error(std::uint8_t result) : std::runtime_error(text(result)), result(result) {}

    const std::uint8_t result;

protected:
    error(std::uint8_t result, const std::string &what) : std::runtime_error(what), result(result) {}

public:
    // Throws the error of a result that is not VME_OK.
    static void check(std::uint8_t result)
    {
        if (result == VME_NO_MEMORY)
            throw std::bad_alloc();
        if (result != VME_OK)
            throw error(result);
    }

private:
    static std::string text(std::uint8_t result)
    {
        switch (result) {
        case VME_BERR: return "bus error";
        case VME_NO_BOARD: return "no board";
        case VME_BAD_CALL: return "bad call";
        case VME_NOT_GRANTED: return "the bus is not granted";
        case VME_BUSY: return "busy";
        case VME_CLOSED: return "closed";
        case VME_SPENT: return "spent";
        case VME_HELD: return "the lock is held";
        case VME_FULL: return "the mailbox is full";
        case VME_EMPTY: return "the mailbox is empty";
        default: return "refused with result " + std::to_string(result);
        }
    }
};

using bytes = std::vector<std::uint8_t>;

// A line of a script in a configuration file is refused, by S1 to S9.
class script_error : public error {
public:
    explicit script_error(const vme_loaded &found)
        : error(VME_C14, "C14 slot " + std::to_string(found.slot) + " line " + std::to_string(found.line) + " S" + std::to_string(found.script)),
          slot(found.slot), line(found.line), script(found.script)
    {
    }

    const std::uint16_t slot, line;
    const std::uint8_t script;
};

// The bytes as a datum. Throws std::length_error if they are more than eight.
inline vme_datum datum_of(const bytes &from)
{
    if (from.size() > sizeof vme_datum::bytes)
        throw std::length_error("a datum has at most 8 bytes");
    vme_datum datum{};
    datum.n = static_cast<std::uint8_t>(from.size());
    if (!from.empty())
        std::memcpy(datum.bytes, from.data(), from.size());
    return datum;
}

inline bytes bytes_of(const vme_datum &datum)
{
    return bytes(datum.bytes, datum.bytes + datum.n);
}

// A processor and how it waits. Two that lie side by side share no cache line.
class processor {
public:
    processor() = default;
    processor(vme_processor p, vme_releases *releases)
    {
        held.p = p;
        waiter.releases = releases;
    }
    processor(const processor &) = delete;
    processor &operator=(const processor &) = delete;
    processor(processor &&other) noexcept : waiter(other.waiter) { held.p = other.release(); }

    processor &operator=(processor &&other) noexcept
    {
        if (this != &other) {
            vme_processor_drop(&held.p);
            held.p = other.release();
            waiter = other.waiter;
        }
        return *this;
    }

    // Gives the processor up: its machine can then not be closed.
    ~processor() { vme_processor_drop(&held.p); }

    // Whether it has a processor.
    explicit operator bool() const noexcept { return held.p.full != 0; }

    // The processor as C has it. The object has none afterwards.
    vme_processor release() noexcept
    {
        const vme_processor given = held.p;
        held.p = vme_processor{};
        return given;
    }

    // The number of sleeps of a millisecond in which nothing changes, after which a call gives up; 0 for no limit.
    void limit(std::uint32_t sleeps) noexcept { waiter.limit = sleeps; }

    // Calls this in place of each spin and sleep.
    void pause(void (*call)(void *), void *with) noexcept
    {
        waiter.pause = call;
        waiter.with = with;
    }

    // ---- The local port of its own board ----

    bytes local_read(std::uint32_t at, std::uint8_t n)
    {
        vme_datum out{};
        error::check(vme_processor_local_read(&held.p, &waiter, at, n, &out));
        return bytes_of(out);
    }

    void local_write(std::uint32_t at, const bytes &data)
    {
        const vme_datum datum = datum_of(data);
        error::check(vme_processor_local_write(&held.p, &waiter, at, &datum));
    }

    bytes local_modify(std::uint32_t at, std::uint8_t n, const vme_modify &f)
    {
        vme_datum out{};
        error::check(vme_processor_local_modify(&held.p, &waiter, at, n, &f, &out));
        return bytes_of(out);
    }

    // ---- Transfers over the bus ----

    bytes read(std::uint8_t am, std::uint32_t addr, std::uint8_t n)
    {
        vme_datum out{};
        error::check(vme_read(&held.p, &waiter, am, addr, n, &out));
        return bytes_of(out);
    }

    void write(std::uint8_t am, std::uint32_t addr, const bytes &data)
    {
        const vme_datum datum = datum_of(data);
        error::check(vme_write(&held.p, &waiter, am, addr, &datum));
    }

    bytes modify(std::uint8_t am, std::uint32_t addr, std::uint8_t n, const vme_modify &f)
    {
        vme_datum out{};
        error::check(vme_read_modify_write(&held.p, &waiter, am, addr, n, &f, &out));
        return bytes_of(out);
    }

    // Count data of n bytes each.
    bytes block_read(std::uint8_t am, std::uint32_t addr, std::uint8_t n, std::uint16_t count)
    {
        bytes out(static_cast<std::size_t>(n) * count + 1);
        std::size_t moved = 0;
        error::check(vme_block_read(&held.p, &waiter, am, addr, n, count, out.data(), &moved));
        out.resize(moved);
        return out;
    }

    // The bytes as data of n bytes each.
    void block_write(std::uint8_t am, std::uint32_t addr, std::uint8_t n, const bytes &data)
    {
        const bool is_whole = n != 0 && !data.empty() && data.size() % n == 0 && data.size() / n <= 256;
        const auto count = static_cast<std::uint16_t>(is_whole ? data.size() / n : 0);
        error::check(count ? vme_block_write(&held.p, &waiter, am, addr, n, count, data.data()) : static_cast<std::uint8_t>(VME_K8));
    }

    // ---- Locks and mailboxes ----

    bool try_lock(std::uint8_t am, std::uint32_t addr)
    {
        const std::uint8_t result = vme_try_lock(&held.p, &waiter, am, addr);
        if (result != VME_HELD)
            error::check(result);
        return result == VME_OK;
    }

    void lock(std::uint8_t am, std::uint32_t addr) { error::check(vme_lock(&held.p, &waiter, am, addr)); }
    void unlock(std::uint8_t am, std::uint32_t addr) { error::check(vme_unlock(&held.p, &waiter, am, addr)); }
    void put(const vme_mailbox &box, std::uint32_t word) { error::check(vme_put(&held.p, &waiter, &box, word)); }

    std::uint32_t take(const vme_mailbox &box)
    {
        std::uint32_t word = 0;
        error::check(vme_take(&held.p, &waiter, &box, &word));
        return word;
    }

    // Runs a function while the processor has the bus, during a read of a byte at an address.
    template <typename Call> void with_bus(std::uint8_t am, std::uint32_t addr, Call call)
    {
        const vme_request request = vme_request_of(VME_READ, am, addr, 1, 0);
        error::check(vme_processor_start_read(&held.p, &request));
        error::check(vme_acquire(&held.p, &waiter));
        call();
        error::check(vme_finish(&held.p, &waiter));
    }

private:
    // A processor and what keeps the next one off its cache line.
    struct apart {
        vme_processor p;
        unsigned char rest[64];
    };

    apart held{};
    vme_waiter waiter{};
};

// A lock of a processor, taken by the constructor and given back by the destructor.
class lock_guard {
public:
    lock_guard(processor &p, std::uint8_t am, std::uint32_t addr) : p(p), am(am), addr(addr) { p.lock(am, addr); }
    lock_guard(const lock_guard &) = delete;
    lock_guard &operator=(const lock_guard &) = delete;

    ~lock_guard()
    {
        try {
            p.unlock(am, addr);
        } catch (const error &) { // the board does not answer, so there is nothing to give back
        }
    }

private:
    processor &p;
    std::uint8_t am;
    std::uint32_t addr;
};

// What a machine has come to: of each board its number of steps and its last bytes, and the number of steps of the arbiter.
struct ending {
    std::vector<std::uint64_t> steps;
    std::vector<bytes> memories;
    std::uint64_t arbiter_steps;
};

// The boards and the arbiter of a backplane. It outlives the threads of its processors.
class machine {
public:
    // Opens a machine with an arbiter of a kind, VME_PRIORITY or VME_ROTATING.
    explicit machine(const std::vector<vme_board> &boards, std::uint8_t kind = VME_PRIORITY) : machine(boards, opened(boards, kind)) {}

    // Opens a machine with the boards and the arbiter of a configuration file, whose scripts are checked and not run. Throws VME_C1 to
    // VME_C14 if the file is refused, as a script_error if it is a script.
    static machine load(const bytes &file)
    {
        std::vector<vme_board> boards(most_boards);
        std::vector<vme_processor> out(most_boards);
        vme_loaded found{};
        const std::uint8_t none = 0;
        const std::uint8_t result = vme_machine_load(file.empty() ? &none : file.data(), file.size(), boards.data(), boards.size(), out.data(),
                                                     out.size(), &found);
        if (result == VME_C14)
            throw script_error(found);
        error::check(result);
        boards.resize(found.count);
        return machine(boards, out);
    }

    // Its boards, in order of slots.
    const std::vector<vme_board> &boards() const noexcept { return own; }

    // The number of its boards.
    std::size_t size() const noexcept { return processors.size(); }

    // The processor of a board, in order of slots. Throws std::out_of_range.
    processor &operator[](std::size_t i) { return processors.at(i); }

    // Closes the machine, while no call of its processors runs. If a processor was moved away, it throws VME_CLOSED, and the machine is as it was.
    ending close()
    {
        std::vector<vme_processor> all;
        all.reserve(processors.size() + 1);
        std::vector<std::uint64_t> steps(processors.size() + 1);
        std::size_t size = 1;
        for (const vme_board &board : own)
            size += board.entry.size;
        bytes last(size);
        for (processor &own : processors)
            all.push_back(own.release());
        const std::uint8_t result = vme_machine_close(all.data(), all.size(), steps.data(), steps.size(), last.data(), last.size() - 1);
        for (std::size_t i = 0; result != VME_OK && i < all.size(); i++)
            processors[i] = processor(all[i], releases.get());
        error::check(result);
        ending end{steps, {}, steps.back()};
        end.steps.pop_back();
        auto at = last.cbegin();
        for (const vme_board &board : own) {
            end.memories.emplace_back(at, at + board.entry.size);
            at += board.entry.size;
        }
        return end;
    }

private:
    static constexpr std::size_t most_boards = 21;

    machine(const std::vector<vme_board> &boards, const std::vector<vme_processor> &out) : own(boards), releases(new vme_releases VME_RELEASES_INIT)
    {
        processors.reserve(boards.size());
        for (std::size_t i = 0; i < boards.size(); i++)
            processors.emplace_back(out[i], releases.get());
    }

    static std::vector<vme_processor> opened(const std::vector<vme_board> &boards, std::uint8_t kind)
    {
        std::vector<vme_processor> out(boards.size() + 1);
        error::check(boards.empty() ? static_cast<std::uint8_t>(VME_BAD_CALL)
                                    : vme_machine_open(boards.data(), boards.size(), kind, out.data(), boards.size()));
        return out;
    }

    std::vector<vme_board> own;
    std::unique_ptr<vme_releases> releases; // before the processors, whose waiters point to it
    std::vector<processor> processors;
};

} // namespace vme

#endif
