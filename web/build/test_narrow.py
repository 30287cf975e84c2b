"""Tests of narrow.py. Where node is there, narrowed modules are run too."""

import pathlib
import shutil
import subprocess
import sys
import tempfile
import unittest

sys.path.insert(0, str(pathlib.Path(__file__).resolve().parent))

import narrow
from narrow import Refused, signed, unsigned

# Every instruction that is known, by its first byte.
KNOWN = {0, 1, 2, 3, 4, 5, 0x0B, 0x0C, 0x0D, 0x0E, 0x0F, 0x10, 0x11, 0x1A, 0x1B, 0x1C, *range(0x20, 0x25), *range(0x28, 0xC5), 0xFC}
ADDRESS, VALUE = b"\x20\0", b"\x20\1"
END = b"\x0b"


def section(kind, *items):
    body = unsigned(len(items)) + b"".join(items)
    return bytes([kind]) + unsigned(len(body)) + body


def module(body, memory=b"\x05\1\2", more=b""):
    """A module with a function `f` of two i64 that returns one."""
    function = b"\0" + body + END
    return (b"\0asm\1\0\0\0" + section(1, b"\x60\2\x7e\x7e\1\x7e") + section(3, b"\0") + section(5, memory)
            + section(7, b"\1f\0\0") + section(10, unsigned(len(function)) + function) + more)


def called(wide, *arguments):
    """The result of `f` of the narrowed module."""
    script = ("const fs = require('fs'), m = new WebAssembly.Module(fs.readFileSync(process.argv[1]));"
              "console.log(String(new WebAssembly.Instance(m).exports.f(...process.argv.slice(2).map(BigInt))))")
    with tempfile.NamedTemporaryFile(suffix=".wasm") as file:
        file.write(narrow.narrow(wide))
        file.flush()
        words = ["node", "-e", script, "--", file.name, *map(str, arguments)]
        ran = subprocess.run(words, capture_output=True, text=True, check=False)
    return int(ran.stdout) if ran.returncode == 0 else ran.stderr


class Refusals(unittest.TestCase):
    def test_every_unknown_instruction(self):
        for code in range(256):
            it = narrow.Function(narrow.Reader(b"\0" + bytes([code]) + b"\0" * 16), 0, True)
            if code in KNOWN:
                it.instruction()
            else:
                with self.assertRaises(Refused, msg=f"{code:02x}"):
                    it.instruction()

    def test_every_unknown_instruction_with_a_prefix(self):
        for code in range(32):
            it = narrow.Function(narrow.Reader(b"\0\xfc" + bytes([code]) + b"\0" * 16), 0, True)
            if code in (*range(8), 10, 11):
                it.instruction()
            else:
                with self.assertRaises(Refused, msg=f"fc {code}"):
                    it.instruction()

    def test_an_unknown_instruction_within_a_module(self):
        with self.assertRaisesRegex(Refused, "instruction fd"):
            narrow.narrow(module(ADDRESS + b"\xfd\0"))

    def test_parts_of_a_module(self):
        plain = module(VALUE)
        for what, wide in {
            "no module": plain[1:],
            "no 64-bit": module(VALUE, memory=b"\1\1\2"),
            "flags": module(VALUE, memory=b"\x07\1\2"),
            "4 GiB or more": module(ADDRESS + b"\x29\3" + unsigned(1 << 32)),
            "section 13": plain + section(13),
            "not active": module(VALUE, more=section(11, b"\1\0")),
            "no constant below": module(VALUE, more=section(11, b"\0\x42" + signed(1 << 32) + b"\x0b\0")),
            "no constant$": module(VALUE, more=section(11, b"\0\x23\0\x0b\0")),
            "no function$": plain[:8] + section(2, b"\1m\1m\2\5\1\2"),
        }.items():
            with self.assertRaisesRegex(Refused, what):
                narrow.narrow(wide)


class Bytes(unittest.TestCase):
    def test_numbers_have_their_shortest_form(self):
        for n in (0, 1, 63, 64, 127, 128, 8191, 8192, 2**32 - 1, 2**63 - 1):
            self.assertEqual(narrow.Reader(unsigned(n)).unsigned(), n)
            self.assertEqual(narrow.Reader(signed(n)).signed(), n)
            self.assertEqual(narrow.Reader(signed(-n)).signed(), -n)
        self.assertEqual((unsigned(127), unsigned(128), signed(63), signed(64), signed(-64)), (b"\x7f", b"\x80\1", b"\x3f", b"\xc0\0", b"\x40"))

    def test_custom_sections_are_left_out_and_all_else_stays(self):
        wide = module(VALUE, more=b"\0\5\4name")
        self.assertEqual(narrow.narrow(wide), module(VALUE, memory=b"\1\1\2"))

    def test_long_forms_become_short(self):
        long, short = (module(ADDRESS + b"\x29\3" + it) for it in (b"\x88\x80\x80\x80\x80\0", b"\x08"))
        self.assertEqual(narrow.narrow(long), narrow.narrow(short))


@unittest.skipUnless(shutil.which("node"), "there is no node")
class Runs(unittest.TestCase):
    def test_a_store_and_a_load(self):
        wide = module(ADDRESS + VALUE + b"\x37\3\x08" + ADDRESS + b"\x29\3\x08")
        self.assertEqual(called(wide, 16, -5), -5)
        # An address is cut to 32 bits, and a value is not.
        self.assertEqual(called(wide, 2**32 + 16, 2**40), 2**40)
        self.assertIn("out of bounds", called(wide, 65536 * 2, 1))

    def test_sizes_of_the_memory(self):
        grow = module(ADDRESS + b"\x40\0")
        self.assertEqual(called(grow, 1, 0), 1)
        self.assertEqual(called(grow, 2, 0), -1)
        self.assertEqual(called(module(b"\x3f\0"), 0, 0), 1)

    def test_copies_and_fills(self):
        # The second argument is stored at 0, copied to the first, and read there.
        copy = b"\x42\0" + VALUE + b"\x37\3\0" + ADDRESS + b"\x42\0\x42\x08\xfc\x0a\0\0" + ADDRESS + b"\x29\3\0"
        self.assertEqual(called(module(copy), 800, 77), 77)
        fill = ADDRESS + b"\x41\x01\x42\x08\xfc\x0b\0" + ADDRESS + b"\x29\3\0"
        self.assertEqual(called(module(fill), 800, 0), 0x0101010101010101)


if __name__ == "__main__":
    unittest.main()
