"""Random configuration files: boards of all spaces, widths and capabilities, all lines, all address modifiers, mailboxes, both
arbiters. The processors share few bytes."""

import damage

BOARD = "[[board]]\nslot = {}\nbase = {}\nsize = {}\n{}script = '''\n{}\n'''\n"


class RandomFiles:
    """Random files, the same for one seed in every Python."""

    def __init__(self, seed: int):
        self.draws = damage.Draws(seed)

    def flag(self, name: str, chances: int) -> str:
        """A key that is seldom false."""
        return "" if self.draws.below(chances) else f"{name} = false\n"

    def board(self, slot: int, has_box: bool) -> tuple[str, str, int, int]:
        """The keys of a board, its space, its base and its size."""
        pick = self.draws.pick
        space, width = pick(["a16", "a24", "a32", "a32"]), 32 if has_box else pick([8, 16, 32, 32, 32, 32])
        keys = f'space = "{space}"\nlevel = {self.draws.below(4)}\nwidth = {width}\n' + self.flag("blt", 8)
        keys += "" if has_box else self.flag("rmw", 8)
        keys += self.flag("uat", 4) if width == 32 else ""
        keys += "" if self.draws.below(5) else "supervisory = true\n"
        return keys, space, slot << 8, pick([8, 16, 20]) + 32 * has_box

    def code(self, space: str, is_block: bool, is_wide: bool = False) -> str:
        """A code of a space, seldom any other number."""
        high = {"a16": "2", "a24": "3", "a32": "0"}[space]
        low = "8c" if is_wide else "bf" if is_block else "9d9dae" if space != "a16" else "9d"
        return high + self.draws.pick(low) if self.draws.below(25) else f"{self.draws.below(0x42):02x}"

    def hex(self, count: int) -> str:
        """So many bytes, of which few are seldom met."""
        return "".join(self.draws.pick(["00", "01", "80", "ff"]) for _ in range(count))

    def function(self, n: int) -> str:
        """A function of a read-modify-write."""
        return self.draws.pick(["set", f"xchg {self.hex(n)}", f"add {self.hex(n)}", f"cas {self.hex(n)} {self.hex(n)}"])

    def line(self, places: list[tuple[str, int, int]], own: int, has_box: bool) -> str:
        """A line on some bytes that processors share, which are few, or a put or a take."""
        pick, below = self.draws.pick, self.draws.below
        if has_box and below(2):
            return pick([f"put 1 000000{self.hex(1)}", "take 1"])
        space, base, at = pick(places)
        addr, n = f"{base + at:08x}", pick([1, 1, 1, 2, 4, 4, 3])
        data, block, wide = self.code(space, False), self.code(space, True), self.code(space, True, True)
        if base == own and below(2):
            n = pick([1, 2, 4])
            return pick([f"lr {at:08x} {n}", f"lw {at:08x} {self.hex(n)}", f"lm {at:08x} {n} {self.function(n)}"])
        return pick([
            f"r {data} {addr} {n}", f"w {data} {addr} {self.hex(n)}", f"m {data} {addr} {n} {self.function(n)}", f"lock {data} {addr}",
            f"unlock {data} {addr}", f"await {data} {addr} {self.hex(n)}", f"br {block} {addr} {n} {1 + below(3)}",
            f"bw {block} {addr} {n} {self.hex(n * (1 + below(2)))}", f"bf {block} {addr} {n} {1 + below(3)} {self.hex(n)}",
            f"br {wide} {base:08x} 8 {1 + below(2)}", f"bf {wide} {base:08x} 8 1 {self.hex(8)}",
        ])

    def file(self, most: int | None = None) -> tuple[str, list[int]]:
        """A file of two or three boards, on one of which may lie a mailbox, and their slots. A script has at most `most` lines,
        or so few that the file has few outcomes."""
        draws = self.draws
        count, has_box = 2 + draws.below(2), not draws.below(3)
        slots = sorted({1 + draws.below(21) for _ in range(8)})[:count]
        boards = [self.board(slot, has_box and slot == slots[0]) for slot in slots]
        free = [(space, base, size) for _, space, base, size in boards if not has_box or base != slots[0] << 8]
        places = [(space, base, draws.pick([0, 0, 1, size - 4])) for space, base, size in (free[-1], draws.pick(free))]
        text = f"tries = {1 + draws.below(2)}\n" + draws.pick(["", 'arbiter = "rotating"\n'])
        for slot, (keys, _, base, size) in zip(slots, boards):
            lines = [self.line(places, base, has_box) for _ in range(1 + draws.below(most or {2: 4, 3: 2}[count]))]
            text += BOARD.format(slot, base, size, keys, "\n".join(lines))
        code = {"a16": 0x2D, "a24": 0x3D, "a32": 0x0D}[boards[0][1]]
        box = f"[[mailbox]]\nam = {code}\naddr = {slots[0] << 8}\nslots = {1 + draws.below(2)}\n"
        return text + (box if has_box else ""), slots

    def schedule(self, slots: list[int]) -> list[int]:
        """The slots of some turns, in which a slot often has several."""
        found: list[int] = []
        for _ in range(2 + self.draws.below(25)):
            found += [self.draws.pick(slots)] * (1 + self.draws.below(4))
        return found
