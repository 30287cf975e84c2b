"""Tests of pyvme.Machine: python3 -m unittest test_machine, with LIBVME and LIBVME_MACHINE."""

import threading
import time
import unittest

from pyvme import (
    BusError,
    Entry,
    Function,
    Machine,
    MachineBoard,
    MachineResult,
    Mailbox,
    NoBoard,
    Refused,
    Result,
    ScriptRefused,
    VmeError,
)

AM, BLOCK_AM = 0x09, 0x0B


def address(board: int, at: int) -> int:
    return 0x08000000 + board * 0x10000 + at


def boards(count: int) -> list[MachineBoard]:
    return [MachineBoard(Entry(address(i, 0), 64, 32, 0), slot=i + 1) for i in range(count)]


class MachineTest(unittest.TestCase):
    def has_result(self, result, call, *words) -> None:
        """The call raises an error with this result."""
        with self.assertRaises(VmeError) as caught:
            call(*words)
        self.assertEqual(caught.exception.result, result)

    def test_accesses(self) -> None:
        with Machine(boards(2)) as machine:
            first, second = machine.processors
            first.local_write(4, b"abcd")
            self.assertEqual(second.read(AM, address(0, 5), 2), b"bc")
            second.write(AM, address(0, 8), b"z")
            self.assertEqual(first.local_modify(8, 2, Function.ADD, b"\0\1"), b"z\0")
            self.assertEqual(second.modify(AM, address(0, 8), 1, Function.SET), b"z")
            first.block_write(BLOCK_AM, address(1, 0), 4, b"0123456789abcdef")
            self.assertEqual(first.block_read(BLOCK_AM, address(1, 8), 4, 2), b"89abcdef")
            self.assertEqual(first.local_read(0, 4) + first.local_read(4, 4) + first.local_read(8, 2), b"\0\0\0\0abcd\xfa\1")

    def test_closed(self) -> None:
        with Machine(boards(1)) as machine:
            pass
        own = machine.processors[0]
        self.has_result(MachineResult.CLOSED, own.local_read, 0, 4)
        self.has_result(MachineResult.CLOSED, own.read, AM, address(0, 0), 4)
        self.has_result(MachineResult.CLOSED, own.lock, AM, address(0, 0))
        self.has_result(MachineResult.CLOSED, machine.close)

    def test_ending(self) -> None:
        with Machine(boards(2)) as machine:
            first, second = machine.processors
            first.local_write(4, b"abcd")
            second.write(AM, address(0, 6), b"xy")
            second.local_read(0, 4)
        end = machine.ending
        self.assertEqual(end.steps, [2, 1])
        self.assertEqual(end.memories, [b"\0\0\0\0abxy" + bytes(56), bytes(64)])
        self.assertEqual(end.arbiter_steps, 2)

    def test_dropped_after_an_exception(self) -> None:
        with self.assertRaises(KeyError):
            with Machine(boards(1)) as machine:
                raise KeyError
        self.has_result(MachineResult.CLOSED, machine.processors[0].local_read, 0, 4)

    def test_long_blocks(self) -> None:
        data = bytes(k * 7 % 256 for k in range(256))
        large = [MachineBoard(Entry(address(i, 0), 4096, 32, 0), slot=i + 1) for i in range(2)]
        with Machine(large) as machine:
            first, second = machine.processors
            first.block_write(BLOCK_AM, address(1, 256), 4, data)
            self.assertEqual(second.block_read(BLOCK_AM, address(1, 256), 4, 64), data)
            first.block_write(0x08, address(1, 2048), 8, data * 8)
            self.assertEqual(second.block_read(0x08, address(1, 2048), 8, 256), data * 8)
            self.has_result(Result.K6, second.block_read, BLOCK_AM, address(1, 8), 4, 64)
            self.has_result(Result.K8, second.block_read, BLOCK_AM, address(1, 0), 1, 257)

    def test_load(self) -> None:
        try:
            Machine.load(b"")
        except VmeError as error:
            if error.result == Result.BAD_STATE:
                self.skipTest("this machine reads no file")
            self.assertEqual(error.result, MachineResult.C11)
        text = b"""arbiter = "rotating"
            [[board]]\nslot = 2\nbase = 0\nsize = 64\nscript = "lw 00000000 01"
            [[board]]\nslot = 9\nlevel = 1\nspace = "a24"\nbase = 256\nsize = 32\nwidth = 16\nblt = false\nsupervisory = true"""
        with Machine.load(text) as machine:
            self.assertEqual([(it.slot, it.level, it.width, it.uat, it.blt, it.rmw) for it in machine.boards],
                             [(2, 3, 32, True, True, True), (9, 1, 16, False, False, True)])
            entries = [(it.entry.base, it.entry.size, it.entry.space, it.entry.supervisory) for it in machine.boards]
            self.assertEqual(entries, [(0, 64, 32, 0), (256, 32, 24, 1)])
            first, second = machine.processors
            self.assertEqual(first.local_read(0, 1), b"\0")
            second.local_write(4, b"ab")
            self.assertEqual(first.read(0x3D, 260, 2), b"ab")
            self.assertRaises(NoBoard, first.read, 0x39, 260, 2)
        self.assertEqual(machine.ending.steps, [1, 2])
        for refused, result in ((b"[", MachineResult.C6), (b"x = 1", MachineResult.C7), (b"\xff", MachineResult.C6),
                                (text.replace(b"= 256", b"= 2"), Result.C3), (text.replace(b"= 9", b"= 2"), MachineResult.C8)):
            with self.assertRaises(Refused) as caught:
                Machine.load(refused)
            self.assertEqual(caught.exception.result, result)
        with self.assertRaises(ScriptRefused) as script:
            Machine.load(text.replace(b"lw", b"lx"))
        self.assertEqual((script.exception.slot, script.exception.line, script.exception.refusal), (2, 1, "S2"))
        self.assertEqual(str(script.exception), "C14 slot 2 line 1 S2")

    def test_refusals(self) -> None:
        self.has_result(Result.BAD_CALL, Machine, [])
        self.has_result(Result.BAD_CALL, Machine, [MachineBoard(Entry(0, 64, 32, 0), slot=22)])
        self.has_result(Result.BAD_CALL, Machine, [MachineBoard(Entry(0, 64, 32, 0), slot=1, level=4)])
        with self.assertRaises(Refused) as caught:
            Machine([MachineBoard(Entry(0, 64, 32, 0), slot=1), MachineBoard(Entry(32, 64, 32, 0), slot=2)])
        self.assertEqual(caught.exception.result, Result.C1)
        with Machine(boards(2)) as machine:
            own = machine.processors[0]
            self.assertRaises(BusError, own.local_read, 62, 4)
            self.assertRaises(BusError, own.local_read, 0, 3)
            self.assertRaises(BusError, own.block_read, BLOCK_AM, address(1, 60), 4, 2)
            self.assertRaises(NoBoard, own.read, AM, 0, 4)
            self.has_result(Result.K3, own.read, AM, address(1, 3), 2)
            self.has_result(Result.K8, own.write, AM, address(1, 0), b"12345")
            self.has_result(Result.K8, own.block_write, BLOCK_AM, address(1, 0), 4, b"12345")
            self.has_result(Result.K9, own.read, 0x40, 0, 4)

    def test_numbers_that_do_not_fit(self) -> None:
        with Machine(boards(1)) as machine:
            own = machine.processors[0]
            for call in (
                lambda: own.local_read(2**32, 4),
                lambda: own.local_read(0, 256),
                lambda: own.read(0x109, 0, 4),
                lambda: own.read(AM, -1, 4),
                lambda: own.block_read(BLOCK_AM, 0, 4, 65536),
                lambda: own.local_write(0, bytes(9)),
            ):
                self.assertRaises(ValueError, call)

    def test_locks_and_limits(self) -> None:
        with Machine(boards(2), limit=5) as machine:
            first, second = machine.processors
            first.lock(AM, address(1, 0))
            self.assertFalse(second.try_lock(AM, address(1, 0)))
            self.assertRaises(TimeoutError, second.lock, AM, address(1, 0))
            first.unlock(AM, address(1, 0))
            self.assertTrue(second.try_lock(AM, address(1, 0)))
            with first.has_bus(AM, address(0, 0)):
                self.has_result(MachineResult.NOT_GRANTED, second.read, AM, address(0, 0), 4)

    def test_mailbox(self) -> None:
        box = Mailbox(AM, address(1, 0), 2)
        with Machine(boards(2), limit=5) as machine:
            first, second = machine.processors
            first.put(box, 1)
            first.put(box, 0xFFFFFFFF)
            self.assertRaises(TimeoutError, first.put, box, 3)
            self.assertEqual([second.take(box), second.take(box)], [1, 0xFFFFFFFF])
            self.assertRaises(TimeoutError, second.take, box)
            second.lock(AM, address(1, 0))
            self.assertRaises(TimeoutError, first.put, box, 3)
            second.unlock(AM, address(1, 0))
            first.put(box, 4)
            self.assertEqual(second.take(box), 4)
            self.has_result(MachineResult.C13, first.put, Mailbox(AM, address(1, 2), 2), 1)
            self.has_result(MachineResult.C13, first.take, Mailbox(AM, address(1, 0), 65))
            self.has_result(Result.K5, first.put, Mailbox(BLOCK_AM, address(1, 0), 2), 1)
            self.assertRaises(BusError, first.put, Mailbox(AM, address(1, 48), 2), 1)
            self.assertRaises(NoBoard, first.take, Mailbox(AM, address(7, 0), 2))
            self.assertRaises(ValueError, first.put, box, 2**32)
            self.assertRaises(ValueError, first.take, Mailbox(AM, -4, 2))

    def test_a_processor_of_two_threads(self) -> None:
        with Machine(boards(2)) as machine:
            first, second = machine.processors

            def use() -> None:
                """Reads over the bus, as soon as no other thread is inside: it then waits inside until the bus is free."""
                while True:
                    try:
                        first.read(AM, address(1, 0), 4)
                        return
                    except RuntimeError:
                        time.sleep(0)

            thread, fault = threading.Thread(target=use), None
            with second.has_bus(AM, address(1, 0)):
                thread.start()
                while fault is None:
                    try:
                        first.local_read(0, 4)
                        time.sleep(0.001)
                    except RuntimeError as error:
                        fault = error
            thread.join()
            self.assertIn("one thread at a time", str(fault))


if __name__ == "__main__":
    unittest.main()
