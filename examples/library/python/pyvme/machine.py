"""The machine: the boards and the arbiter of one backplane as a shared object of threads."""

from __future__ import annotations

import threading
import time
from collections.abc import Callable, Iterator, Sequence
from contextlib import ExitStack, contextmanager
from ctypes import byref, c_size_t, c_uint8, c_uint32, c_uint64
from dataclasses import dataclass, field
from itertools import accumulate
from types import TracebackType

from .errors import ScriptRefused, VmeError
from .machine_library import (
    MOST_BOARDS,
    BoardStruct,
    LoadedStruct,
    MachineResult,
    MailboxStruct,
    ProcessorStruct,
    machine_lib,
    require_machine,
)
from .structures import ArbiterKind, BoardClass, Datum, Entry, Function, Modify, RequestKind, RequestStruct

SPINS = 10
SLEEP = 0.001
_PADDING = 4  # structs between two processors, so that they share no cache line


@dataclass(frozen=True)
class MachineBoard:
    """A board: where it responds, to which cycles, and the slot, 1 to 21, and the request level, 0 to 3, of its processor."""

    entry: Entry
    slot: int
    level: int = 3
    width: int = 32
    uat: bool = True
    blt: bool = True
    rmw: bool = True

    def _struct(self) -> BoardStruct:
        return BoardStruct(self.entry, BoardClass(self.width, self.uat, self.blt, self.rmw), self.slot, self.level)

    @staticmethod
    def _of(board: BoardStruct) -> MachineBoard:
        own, cls = board.entry, board.cls
        entry = Entry(own.base, own.size, own.space, own.supervisory)
        return MachineBoard(entry, board.slot, board.level, cls.width, bool(cls.uat), bool(cls.blt), bool(cls.rmw))


@dataclass(frozen=True)
class Mailbox:
    """A queue of 1 to 64 words in the memory of a board: a lock byte at `addr`, a multiple of 4, the number of words put at 4 and taken
    at 8, and the words from 16. At first its 16 + 4 * `slots` bytes are zeros."""

    am: int
    addr: int
    slots: int

    def _struct(self) -> MailboxStruct:
        return MailboxStruct(self.addr, self.slots, self.am)


@dataclass(frozen=True)
class Ending:
    """What a machine has come to: the number of steps and the last bytes of each board, in order of slots, and the number of steps of the
    arbiter."""

    steps: list[int]
    memories: list[bytes]
    arbiter_steps: int


@dataclass
class _Releases:
    """What the threads of a machine sleep on: counts of transfers that ended, of those that wrote, and of words of mailboxes."""

    changed: threading.Condition = field(default_factory=threading.Condition)
    counts: dict[str, int] = field(default_factory=lambda: {"bus": 0, "data": 0, "words": 0})

    def increment(self, name: str) -> None:
        with self.changed:
            self.counts[name] += 1
            self.changed.notify_all()

    def sleep(self, name: str, count: int) -> bool:
        """Sleeps for a millisecond, or until the count has another value than this. Returns whether it has this value."""
        with self.changed:
            if self.counts[name] == count:
                self.changed.wait(SLEEP)
            return self.counts[name] == count


class Processor:
    """The right of one board's program to use a machine. One thread at a time calls it; a second one gets a `RuntimeError`.

    Calls wait while another thread is inside the same object or has the bus. Each raises `Refused`, `BusError`, `NoBoard`, or
    `VmeError` with its result, as CLOSED after the machine's end."""

    def __init__(self, struct: ProcessorStruct, releases: _Releases, limit: int) -> None:
        self._own, self._releases, self._limit = struct, releases, limit
        self._lib, self._is_used, self._word = machine_lib(), threading.Lock(), c_uint32()

    # ---- The local port of its own board ----

    def local_read(self, at: int, n: int) -> bytes:
        """Reads 1, 2 or 4 bytes at an offset."""
        out = Datum()
        self._local(lambda: self._lib.processor_try_local_read(byref(self._own), at, n, byref(out)))
        return out.data

    def local_write(self, at: int, data: bytes) -> None:
        """Writes 1, 2 or 4 bytes at an offset."""
        new = Datum.of(data)
        self._local(lambda: self._lib.processor_try_local_write(byref(self._own), at, byref(new)))

    def local_modify(self, at: int, n: int, function: Function, operand: bytes = b"", put: bytes = b"") -> bytes:
        """Modifies 1, 2 or 4 bytes at an offset in one step, and returns the old ones."""
        out, f = Datum(), Modify.of(function, operand, put)
        self._local(lambda: self._lib.processor_try_local_modify(byref(self._own), at, n, byref(f), byref(out)))
        return out.data

    # ---- Transfers over the bus ----

    def read(self, am: int, addr: int, n: int) -> bytes:
        """Reads 1 to 4 bytes by one cycle."""
        return self._transfer(RequestStruct(addr, 0, am, RequestKind.READ, n))

    def write(self, am: int, addr: int, data: bytes) -> None:
        """Writes 1 to 4 bytes by one cycle."""
        self._transfer(RequestStruct(addr, 0, am, RequestKind.WRITE, min(len(data), 255)), data)

    def modify(self, am: int, addr: int, n: int, function: Function, operand: bytes = b"", put: bytes = b"") -> bytes:
        """Modifies bytes in one step, and returns the old ones."""
        return self._transfer(RequestStruct(addr, 0, am, RequestKind.MODIFY, n, Modify.of(function, operand, put)))

    def block_read(self, am: int, addr: int, n: int, count: int) -> bytes:
        """Reads a block of count data of n bytes each."""
        return self._transfer(RequestStruct(addr, count, am, RequestKind.BLOCK_READ, n))

    def block_write(self, am: int, addr: int, n: int, data: bytes) -> None:
        """Writes bytes as a block of data of n bytes each."""
        count = len(data) // n if n and len(data) % n == 0 and len(data) // n <= 256 else 0
        self._transfer(RequestStruct(addr, count, am, RequestKind.BLOCK_WRITE, n), data)

    @contextmanager
    def has_bus(self, am: int, addr: int) -> Iterator[None]:
        """Has the bus for the body of a `with`, during a read of a byte at an address. The body makes no other transfer of this
        processor."""
        with self._alone():
            request = RequestStruct(addr, 0, am, RequestKind.READ, 1)
            require_machine(self._lib.processor_start_read(byref(self._own), byref(request)))
            result = self._run(until_granted=True)
            if result != MachineResult.MORE:
                require_machine(result)
        try:
            yield
        finally:
            with self._alone():
                self._finish(False)

    # ---- Locks and mailboxes ----

    def try_lock(self, am: int, addr: int) -> bool:
        """Tries once to take the lock in bit 7 of a byte. Returns whether this processor has it now."""
        # No lock becomes free, so no thread that waits for one is woken.
        result = self._end(lambda own: self._lib.processor_start_lock(own, am, addr), wakes=False)
        if result != MachineResult.HELD:
            require_machine(result)
        return result != MachineResult.HELD

    def lock(self, am: int, addr: int) -> None:
        """Takes the lock at an address, and waits until it is free."""
        self._until("data", lambda: self.try_lock(am, addr))

    def unlock(self, am: int, addr: int) -> None:
        """Gives the lock at an address back: clears its byte."""
        require_machine(self._end(lambda own: self._lib.processor_start_unlock(own, am, addr)))

    def put(self, box: Mailbox, word: int) -> None:
        """Puts a word of 32 bits into a mailbox, and waits until there is a slot."""
        struct = box._struct()
        self._move(lambda own: self._lib.processor_start_put(own, byref(struct), word), MachineResult.FULL)

    def take(self, box: Mailbox) -> int:
        """Takes the oldest word of a mailbox, and waits until there is one."""
        struct = box._struct()
        return self._move(lambda own: self._lib.processor_start_take(own, byref(struct)), MachineResult.EMPTY)

    def _move(self, start: Callable[[object], int], without: MachineResult) -> int:
        """Makes puts or takes until one has moved a word. Returns the word of a take. The lock that another processor has is tried
        again, and so is a mailbox that is full or empty."""
        ends: list[int] = []

        def unlocked() -> bool:
            ends[:] = [self._end(start)]
            return ends[0] != MachineResult.HELD

        def moved() -> bool:
            self._until("data", unlocked)
            if ends[0] != without:
                require_machine(ends[0])
                self._releases.increment("words")
            return ends[0] != without

        self._until("words", moved)
        return self._word.value

    def _end(self, start: Callable[[object], int], *, wakes: bool = True) -> int:
        """Starts a lock, an unlock, a put or a take, and steps it until it ends. Returns its result, and keeps the word of a take.
        `wakes` says whether it may have given a lock back."""
        with self._alone():
            require_machine(start(byref(self._own)))
            result = self._run()
            self._lib.processor_word(byref(self._own), byref(self._word))
        if wakes and result != MachineResult.HELD:
            self._releases.increment("data")
        return result

    # ---- How it waits ----

    @contextmanager
    def _alone(self) -> Iterator[None]:
        if not self._is_used.acquire(blocking=False):
            raise RuntimeError("a processor is used by one thread at a time")
        try:
            yield
        finally:
            self._is_used.release()

    def _sleep(self, tries: int, name: str, count: int) -> bool:
        """Waits once before the next try. Returns whether nothing has changed during a sleep."""
        if tries < SPINS:
            time.sleep(0)
            return False
        return self._releases.sleep(name, count)

    def _until(self, name: str, call: Callable[[], bool]) -> None:
        """Calls until it returns true, and sleeps in between on a count. Raises `TimeoutError` at the limit."""
        tries = slept = 0
        while True:
            count = self._releases.counts[name]
            if call():
                return
            slept = slept + 1 if self._sleep(tries, name, count) else 0
            tries += 1
            if self._limit and slept >= self._limit:
                raise TimeoutError(f"nothing has changed for {slept} ms")

    def _try(self, call: Callable[[], int]) -> int:
        """The result of a call that is tried again while it is busy or not granted."""
        tries = slept = 0
        while True:
            count = self._releases.counts["bus"]
            result = call()
            if result not in (MachineResult.BUSY, MachineResult.NOT_GRANTED) or self._limit and slept >= self._limit:
                return result
            slept = slept + 1 if self._sleep(tries, "bus", count) else 0
            tries += 1

    def _local(self, call: Callable[[], int]) -> None:
        with self._alone():
            require_machine(self._try(call))

    def _run(self, until_granted: bool = False) -> int:
        """Steps what was started until it has the bus, or until it ends, and wakes those that wait for the bus at each release. Returns
        the result of the last step."""
        if until_granted:
            return self._try(lambda: self._lib.processor_step(byref(self._own)))
        while True:
            result = self._try(lambda: self._lib.processor_run(byref(self._own)))
            if result not in (MachineResult.BUSY, MachineResult.NOT_GRANTED):
                self._releases.increment("bus")
            if result != MachineResult.MORE:
                return result

    def _finish(self, wakes: bool) -> None:
        """Steps a transfer until it ends. `wakes` says whether it may have written what others wait for."""
        try:
            require_machine(self._run())
        finally:
            if wakes:
                self._releases.increment("data")

    def _start(self, request: RequestStruct, data: bytes) -> int:
        own = byref(self._own)
        if request.kind in (RequestKind.WRITE, RequestKind.BLOCK_WRITE):
            return self._lib.processor_start_write(own, byref(request), (c_uint8 * max(1, len(data)))(*data), len(data))
        if request.kind == RequestKind.MODIFY:
            return self._lib.processor_start_modify(own, byref(request), byref(request.f))
        return self._lib.processor_start_read(own, byref(request))

    def _transfer(self, request: RequestStruct, data: bytes = b"", *, wakes: bool = True) -> bytes:
        """Makes a transfer. Returns the bytes that it read."""
        with self._alone():
            require_machine(self._start(request, data))
            self._finish(wakes and request.kind not in (RequestKind.READ, RequestKind.BLOCK_READ))
            size, count = request.n * max(1, request.count), c_size_t()
            out = (c_uint8 * size)()
            require_machine(self._lib.processor_bytes(byref(self._own), out, size, byref(count)))
            return bytes(out[: count.value])


class Machine:
    """The boards and the arbiter of one backplane. Each of its `processors`, in order of slots, goes to a thread:

        with Machine([MachineBoard(Entry(0x08000000, 4096, 32, 0), slot=1)]) as machine:
            thread = threading.Thread(target=program, args=(machine.processors[0],))
            thread.start()
            thread.join()

    The body of the `with` ends after its threads. The machine is then closed, and `ending` is what it has come to; after an exception its
    processors are dropped."""

    ending: Ending
    boards: list[MachineBoard]
    """Its boards, in order of slots."""

    def __init__(self, boards: Sequence[MachineBoard], kind: ArbiterKind = ArbiterKind.PRIORITY, *, limit: int = 0) -> None:
        """Opens a machine of zeros. `limit` is the number of sleeps of a millisecond in which nothing changes, after which a call gives
        up; 0 for none. Raises `Refused` with C1 to C4, `VmeError` with BAD_CALL, and `MemoryError`."""
        count = len(boards)
        opened = (ProcessorStruct * max(1, count))()
        structs = (BoardStruct * max(1, count))(*(it._struct() for it in boards))
        require_machine(machine_lib().machine_open(structs, count, kind, opened, count))
        self._begin(boards, opened, limit)

    @classmethod
    def load(cls, file: bytes, *, limit: int = 0) -> Machine:
        """Opens a machine with the boards and the arbiter of a configuration file, given as its bytes. The whole file is checked, but its
        scripts are not run, and all bytes are zeros. Raises `Refused` with C1 to C14, for a script `ScriptRefused`, and `MemoryError`."""
        opened, structs, found = (ProcessorStruct * MOST_BOARDS)(), (BoardStruct * MOST_BOARDS)(), LoadedStruct()
        data = (c_uint8 * max(1, len(file)))(*file)
        result = machine_lib().machine_load(data, len(file), structs, MOST_BOARDS, opened, MOST_BOARDS, byref(found))
        if result == MachineResult.C14:
            raise ScriptRefused(MachineResult.C14, found.slot, found.line, f"S{found.script}")
        require_machine(result)
        machine = cls.__new__(cls)
        machine._begin([MachineBoard._of(it) for it in structs[: found.count]], opened, limit)
        return machine

    def _begin(self, boards: Sequence[MachineBoard], opened: Sequence[ProcessorStruct], limit: int) -> None:
        """Gives each processor a cache line of its own."""
        self.boards, count = list(boards), len(boards)
        self._line, self._sizes = (ProcessorStruct * (_PADDING * count))(), [it.entry.size for it in boards]
        for i in range(count):
            self._line[_PADDING * i] = opened[i]
        releases = _Releases()
        self.processors = [Processor(self._line[_PADDING * i], releases, limit) for i in range(count)]

    def close(self) -> Ending:
        """Closes the machine, once no call runs, and returns what it has come to. Raises `VmeError` with CLOSED if it is closed."""
        with self._all_alone():
            count, size = len(self.processors), sum(self._sizes)
            together = (ProcessorStruct * count)(*(self._line[_PADDING * i] for i in range(count)))
            steps, last = (c_uint64 * (count + 1))(), (c_uint8 * size)()
            require_machine(machine_lib().machine_close(together, count, steps, count + 1, last, size))
            for own in self._line:
                own.full, own.hidden = 0, None
        ends = list(accumulate(self._sizes, initial=0))
        self.ending = Ending(list(steps[:count]), [bytes(last[a:b]) for a, b in zip(ends, ends[1:])], steps[count])
        return self.ending

    def drop(self) -> None:
        """Gives all processors up, once no call runs."""
        with self._all_alone():
            for i in range(len(self.processors)):
                machine_lib().processor_drop(byref(self._line[_PADDING * i]))

    @contextmanager
    def _all_alone(self) -> Iterator[None]:
        """Waits until no call of a processor runs, and lets none run."""
        with ExitStack() as stack:
            for own in self.processors:
                stack.enter_context(own._is_used)
            yield

    def __enter__(self) -> Machine:
        return self

    def __exit__(self, kind: type[BaseException] | None, error: BaseException | None, trace: TracebackType | None) -> None:
        if kind is None:
            self.close()
        else:
            self.drop()

    def __del__(self) -> None:
        if hasattr(self, "_line"):
            self.drop()
