// A machine of a configuration file by the classes of vme_machine.hpp, and files that are refused.
#include <cstdio>
#include <string>

#include "vme_machine.hpp"

static vme::bytes text_of(const std::string &text)
{
    return vme::bytes(text.begin(), text.end());
}

int main()
{
    const std::string board = "[[board]]\nslot = 4\nbase = 0\nsize = 64\n";
    vme::machine machine = vme::machine::load(text_of(board + "[[board]]\nslot = 5\nbase = 64\nsize = 32\nlevel = 2\n"));
    machine[1].local_write(4, {1, 2});
    std::printf("%u %02x\n", machine.boards()[1].slot, machine[0].read(0x09, 68, 2)[1]);
    const vme::ending end = machine.close();
    std::printf("%zu %zu %d\n", end.memories[0].size(), end.memories[1].size(), static_cast<int>(end.arbiter_steps));
    for (const std::string &refused : {std::string(), std::string("?"), board + board, board + "script = \"b\"\n"}) {
        try {
            vme::machine::load(text_of(refused));
            return 1;
        } catch (const vme::script_error &error) {
            std::printf("%s: %u %u %u\n", error.what(), error.slot, error.line, error.script);
        } catch (const vme::error &error) {
            std::printf("%02x\n", error.result);
        }
    }
    return 0;
}
