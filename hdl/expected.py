"""What a board answers to each transfer of a request, and whom an arbiter grants the bus, by libvme.

Each answer is one of `vme_map_select`, `vme_slave_cycle` and `vme_arbiter_ask`, which are proved, with three rules more. A board
that only lacks read-modify-writes cannot distinguish the lines of a read half from those of a read: so it may answer them, and
then drives BERR* in the write half. A silent board drives nothing where another one drives BERR*. An arbiter with a single level
never grants another one."""

from __future__ import annotations

import random
from typing import Iterator, NamedTuple

import find_pyvme

find_pyvme.find()

from pyvme import AddressMap, Arbiter, ArbiterKind, ArbiterReply, Board, BusError, Entry  # noqa: E402
from pyvme import Lines, NoBoard, Refused, Request, RequestKind  # noqa: E402

NONE, DTACK, BERR, EITHER, DTACK_OR_NONE = 0, 1, 2, 3, 4
SLOTS = 21


class Transfer(NamedTuple):
    """The lines that the master drives, the answer, and the bytes that a read takes."""

    lines: Lines
    answer: int
    read: bytes | None


class ExpectedBoard:
    """A board with its memory. A silent one drives nothing where it lacks a cycle or its bytes."""

    def __init__(self, space: int, base: int, size: int, supervisory: bool, width: int, uat: bool, blt: bool, rmw: bool,
                 is_silent: bool = False) -> None:
        self.board = Board(size, width, uat=uat, blt=blt, rmw=rmw)
        self.map = AddressMap([Entry(base, size, space, supervisory)])
        self.is_silent = is_silent

    def selected(self, am: int, addr: int) -> int | None:
        """The offset of an address in the board, or None if the board does not respond."""
        try:
            return self.map.select(am, addr)[1]
        except (NoBoard, Refused):
            return None

    def answers(self, request: Request) -> Iterator[Transfer]:
        """The transfers of a lawful request, up to the first one without DTACK*."""
        offset = self.selected(request.am, request.addr)
        for i in range(len(request)):
            lines = request.lines(i)
            if offset is None:
                yield Transfer(lines, NONE, None)
                return
            try:
                got = self.board.cycle(lines, offset + i * request.n, request.f)
            except BusError:
                yield from self._refused(request, lines, offset)
                return
            yield Transfer(lines, DTACK, got if lines.write else None)
            if request.kind == RequestKind.MODIFY:
                yield Transfer(request.write_half(got), DTACK, None)

    def _refused(self, request: Request, lines: Lines, offset: int) -> Iterator[Transfer]:
        """The transfers of a datum that the board answers by BERR*, or by nothing."""
        refused, either = (NONE, DTACK_OR_NONE) if self.is_silent else (BERR, EITHER)
        if request.kind == RequestKind.MODIFY and self._reads(lines, offset):
            old = bytes(self.board.memory[offset : offset + request.n])
            yield Transfer(lines, either, old)
            yield Transfer(request.write_half(old), refused, None)
        else:
            yield Transfer(lines, refused, None)

    def _reads(self, lines: Lines, offset: int) -> bool:
        """Whether the board answers these lines as those of a read."""
        try:
            self.board.cycle(lines, offset)
            return True
        except BusError:
            return False


class Tenure(NamedTuple):
    """A request of the bus or a release, and the slot that then holds the bus, or 0."""

    releases: bool
    slot: int
    level: int
    holder: int


# The slots whose requests at levels 2 to 0 an arbiter of the kind SGL never grants.
UNGRANTED = 4


def tenures(kind: str, count: int, seed: int) -> Iterator[Tenure]:
    """Random requests and releases of all slots, and the answers of an arbiter: `pri`, `rrs`, or `sgl`, which is `pri` for the
    requests at level 3 and never grants one at another level. Such requests stay; the first of them come on the free bus."""
    arbiter = Arbiter(ArbiterKind.ROTATING if kind == "rrs" else ArbiterKind.PRIORITY)
    draw, waiting, holder = random.Random(seed), {}, 0
    ungranted: dict[int, int] = {}
    for _ in range(count):
        if holder and (len(waiting) > 8 or draw.random() < 0.45):
            arbiter.done(holder)
            slot, level, releases = holder, 0, True
            holder = next((it for it in waiting if arbiter.look(it) == ArbiterReply.GRANTED), 0)
            waiting.pop(holder, None)
        else:
            free = [it for it in range(1, SLOTS + 1) if it not in waiting and it not in ungranted and it != holder]
            slot, releases = draw.choice(free), False
            if kind == "sgl":
                level = 3 if len(ungranted) == UNGRANTED else 2 - len(ungranted) % 3
            else:
                level = draw.randrange(4)
            if kind == "sgl" and level != 3:
                ungranted[slot] = level
            elif arbiter.ask(slot, level) == ArbiterReply.GRANTED:
                holder = slot
            else:
                waiting[slot] = level
        yield Tenure(releases, slot, level, holder)
